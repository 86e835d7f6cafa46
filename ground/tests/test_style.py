"""Python as it is written here: every function has its types, every public name its docstring, and
no line is wider than 100 columns.
"""

import ast
import runpy
import subprocess
import sys
from importlib.metadata import EntryPoint

import pytest
import tomllib
from conftest import HERE, ROOT

import mnemathor

WIDTH = 100
PACKAGE = sorted((HERE / "mnemathor").glob("*.py"))
SCRIPTS = [HERE / "real", ROOT / "docs" / "pictures" / "draw"]
TESTS = sorted((HERE / "tests").glob("*.py"))


def name(path):
    return str(path.relative_to(ROOT))


def mypy(*words):
    """What mypy from the distribution says, with the settings of pyproject.toml."""
    words = [sys.executable, "-m", "mypy", *map(str, words)]
    return subprocess.run(words, cwd=HERE, capture_output=True, text=True, check=False)


@pytest.mark.parametrize(
    "words", [[], *([path] for path in SCRIPTS)], ids=["package", *(path.name for path in SCRIPTS)]
)
def test_types(words):
    done = mypy(*words)
    assert done.returncode == 0, done.stdout + done.stderr


WRONG = """from mnemathor.words import whole


def bare(number):
    return number


def wrong(number: int) -> str:
    return number


whole("1")
"""


def test_mypy_finds_what_is_wrong(tmp_path):
    (tmp_path / "wrong.py").write_text(WRONG)
    done = mypy(tmp_path / "wrong.py")
    assert done.returncode == 1 and "Found 3 errors in 1 file" in done.stdout, done.stdout


def wide(text):
    """The numbers of lines that are too wide."""
    return [number for number, line in enumerate(text.splitlines(), 1) if len(line) > WIDTH]


@pytest.mark.parametrize("path", [*PACKAGE, *SCRIPTS, *TESTS], ids=name)
def test_width(path):
    assert wide(path.read_text(encoding="utf-8")) == []


def undocumented(text):
    """The module, the public classes and the public functions that have no docstring."""

    def look(node, place):
        if not ast.get_docstring(node):
            yield place or "the module"
        if isinstance(node, ast.FunctionDef):
            return
        for part in node.body:
            if isinstance(part, ast.ClassDef | ast.FunctionDef) and not part.name.startswith("_"):
                yield from look(part, f"{place}.{part.name}".lstrip("."))

    return list(look(ast.parse(text), ""))


@pytest.mark.parametrize("path", [*PACKAGE, *SCRIPTS], ids=name)
def test_docstrings(path):
    assert undocumented(path.read_text(encoding="utf-8")) == []


def test_what_the_two_find():
    text = (
        '"""A module."""\n\nclass Star:\n    def named(self):\n        pass\n\ndef _own():\n   '
        " pass\n"
    )
    assert undocumented(text) == ["Star", "Star.named"]
    assert undocumented("def near():\n    pass\n") == ["the module", "near"]
    assert wide(f"{'x' * WIDTH}\n{'x' * (WIDTH + 1)}\n″\n") == [2]


def test_the_version_by_its_file_alone():
    """As setuptools asks for it, which knows no package yet."""
    told = runpy.run_path(str(HERE / "mnemathor" / "version.py"))
    assert told["VERSION"] == mnemathor.__version__


def test_the_console_script(tmp_path):
    """As setuptools writes it: the entry point's function gives the status."""
    told = tomllib.loads((HERE / "pyproject.toml").read_text(encoding="utf-8"))["project"][
        "scripts"
    ]
    ((script, target),) = told.items()
    assert EntryPoint(script, target, "console_scripts").load().__module__ == "mnemathor.__main__"
    module, function = target.split(":")
    (tmp_path / script).write_text(
        f"import sys\nfrom {module} import {function}\nsys.exit({function}())\n"
    )

    def run(*words):
        words = [sys.executable, tmp_path / script, *words]
        environment = {"PYTHONPATH": str(HERE), "PYTHONDONTWRITEBYTECODE": "1"}
        return subprocess.run(words, env=environment, capture_output=True, text=True, check=False)

    done = run("frame", "--help")
    assert done.returncode == 0 and done.stdout.startswith(f"usage: {script} frame ")
    done = run("frame")
    assert done.returncode == 2 and f"{script} frame --help tells more" in done.stderr
