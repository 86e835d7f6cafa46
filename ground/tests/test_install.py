"""What ./mnemathor install leaves: it runs from anywhere, without toolchain and checkout, also
after it was moved.
"""

import os
import shutil
import subprocess
import sys

import pytest
from conftest import HERE, ROOT

import mnemathor


@pytest.fixture(scope="module")
def prefix(tmp_path_factory):
    """Installed in one folder, and moved to another."""
    room = tmp_path_factory.mktemp("installed")
    done = subprocess.run(
        [ROOT / "mnemathor", "install", room / "first"], capture_output=True, text=True, check=False
    )
    assert done.returncode == 0 and mnemathor.__version__ in done.stdout, done.stderr
    (room / "first").rename(room / "moved here")
    return room / "moved here"


@pytest.fixture
def installed(prefix, tmp_path):
    """Runs what was installed, from another folder, with nothing but the system's programs on the
    path.
    """

    def running(*words, **variables):
        environment = {
            "PATH": "/usr/bin:/bin",
            "HOME": str(tmp_path),
            "MNEMATHOR_PYTHON": sys.executable,
            **variables,
        }
        assert shutil.which("rt", path=environment["PATH"]) is None
        words = [prefix / "bin" / "mnemathor", *map(str, words)]
        return subprocess.run(
            words, cwd=tmp_path, env=environment, capture_output=True, text=True, check=False
        )

    return running


def test_nothing_names_the_checkout(prefix):
    for path in prefix.rglob("*"):
        assert path.resolve().is_relative_to(prefix.resolve())
        if path.is_file() and path.suffix not in (".a", ".md"):
            assert str(ROOT).encode() not in path.read_bytes(), path


def test_the_programs(installed):
    answer = installed()
    assert (answer.returncode, answer.stdout) == (
        0,
        (ROOT / "crates" / "mnemathor" / "stdout").read_text(),
    )
    assert (
        installed("why", ROOT / "crates" / "mnemathor" / "data", 60, 33).stdout == "beaten 60 31\n"
    )
    assert installed("--version").stdout == f"mnemathor {mnemathor.__version__}\n"
    assert "./mnemathor why FOLDER" in installed("help").stdout
    assert installed("install", "elsewhere").returncode == 2


def test_the_python_package(installed, tmp_path):
    data = HERE / "data"
    for words in (
        ("frame", data / "example.fits", "night"),
        ("catalogue", data / "bright-stars.csv", "night", "--brightest", 512, "--apart", 1),
        ("settings", data / "camera.toml", "night"),
    ):
        answer = installed(*words)
        assert answer.returncode == 0, answer.stderr
    assert installed("solve", "night").stdout.startswith("right ascension 83.503")
    (tmp_path / "night" / "frame.bin").write_bytes(bytes(64000))
    answer = installed("solve", "night")
    assert answer.returncode == 1 and answer.stderr.startswith(
        "refused 12 0: there are fewer directions than needed"
    )


def test_c_programs_by_the_pkg_config_file(prefix, tmp_path):
    """The file's own words with its folder put in, as pkg-config does; once with the shared object,
    once with the archive.
    """
    told = (
        (prefix / "lib" / "pkgconfig" / "mnemathor.pc")
        .read_text()
        .replace("${pcfiledir}", str(prefix / "lib" / "pkgconfig"))
    )
    lines = dict(line.split(": ", 1) for line in told.splitlines() if ": " in line)
    root = told.splitlines()[0].partition("=")[2]
    flags = [
        word.replace("${prefix}", root) for word in (lines["Cflags"] + " " + lines["Libs"]).split()
    ]
    assert lines["Version"] == mnemathor.__version__
    expected = (ROOT / "crates" / "mnemathor" / "stdout").read_text()
    for extra in ([], ["-Wl,-Bstatic"]):
        words = [
            "cc",
            "-std=c99",
            "-O2",
            str(ROOT / "examples" / "flight.c"),
            "-o",
            str(tmp_path / "flight"),
            *extra,
            *flags,
            "-Wl,-Bdynamic",
        ]
        subprocess.run(words, check=True)
        environment = {**os.environ, "LD_LIBRARY_PATH": str(prefix / "lib")}
        done = subprocess.run(
            [tmp_path / "flight"],
            cwd=ROOT / "crates" / "mnemathor" / "data",
            env=environment,
            capture_output=True,
            text=True,
            check=True,
        )
        assert done.stdout == expected
        needs = subprocess.run(
            ["readelf", "-d", tmp_path / "flight"], capture_output=True, text=True, check=True
        ).stdout
        assert ("libmnemathor.so.1" in needs) == (extra == [])


def test_a_program_of_somebody_else_stays(tmp_path):
    (tmp_path / "bin").mkdir()
    (tmp_path / "bin" / "mnemathor").write_text("mine")
    done = subprocess.run(
        [ROOT / "mnemathor", "install", tmp_path], capture_output=True, text=True, check=False
    )
    assert (
        done.returncode == 2
        and (tmp_path / "bin" / "mnemathor").read_text() == "mine"
        and not (tmp_path / "lib").exists()
    )
    (tmp_path / "file").write_text("in the way")
    assert (
        subprocess.run(
            [ROOT / "mnemathor", "install", tmp_path / "file"], capture_output=True, check=False
        ).returncode
        == 3
    )
