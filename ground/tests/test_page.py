"""The night page as a file: what is in it, what it quotes, and what the command tells. The browser
is tried by .ci/page-test.
"""

import base64
import hashlib
import json
import re
import zlib

import pytest
from conftest import ROOT

from mnemathor import page, recorded
from mnemathor.library import KINDS
from mnemathor.reasons import REASONS

MODULE = ROOT / "target" / "page" / "module.wasm"
BUILT_IN = ROOT / "crates" / "mnemathor" / "data"


@pytest.fixture(scope="module")
def module(tmp_path_factory):
    """The module is made by the command, where it is not there."""
    import os
    import subprocess
    import sys

    out = tmp_path_factory.mktemp("made") / "page.html"
    environment = {**os.environ, "MNEMATHOR_PYTHON": sys.executable}
    words = [ROOT / "mnemathor", "page", BUILT_IN, out]
    done = subprocess.run(words, env=environment, capture_output=True, text=True, check=False)
    assert done.returncode == 0, done.stderr
    assert done.stdout == f"{out}: {out.stat().st_size:,} bytes\n"
    return out.read_text()


def inside(text):
    """What the maker packed into a page."""
    return json.loads(re.search(r'id="inside">(.*?)</script>', text, re.DOTALL)[1])


def unpacked(text):
    """The bytes of something packed."""
    return zlib.decompress(base64.b64decode(text))


def test_a_folders_files_are_inside(module):
    held = inside(module)
    assert unpacked(held["module"]) == MODULE.read_bytes()
    assert unpacked(held["folder"]["settings"]) == (BUILT_IN / "settings.bin").read_bytes()
    assert unpacked(held["folder"]["catalogue"]) == (BUILT_IN / "catalogue.bin").read_bytes()
    (frame,) = held["folder"]["frames"]
    assert unpacked(frame["samples"]) == (BUILT_IN / "frame.bin").read_bytes()


def test_the_policy_knows_the_script_and_the_style_and_nothing_else(module):
    for tag, rule in (("script", "script-src"), ("style", "style-src")):
        (own,) = re.findall(rf"<{tag}>(.*?)</{tag}>", module, re.DOTALL)
        mark = base64.b64encode(hashlib.sha256(own.encode()).digest()).decode()
        assert f"{rule} 'sha256-{mark}'" in module
    assert "import " not in re.sub(r"//.*", "", page.joined(ROOT / "page" / "scripts"))


def test_what_it_quotes_is_there():
    texts = page.texts()
    assert list(texts["refusals"]) == list(range(1, 24))
    assert {1, 12, 13, 14, 19} <= set(texts["look"]) <= set(texts["refusals"])
    assert set(REASONS) == set(KINDS)
    assert len(page.proved()) == 8 and page.proved()[0].startswith("No call reads outside")


def test_a_few_recorded_calls_are_of_every_kind():
    forms = json.loads((ROOT / "page" / "calls.json").read_text())
    cases, expected = recorded.read()
    kinds = [kind for kind, _ in recorded.calls(cases, forms)]
    assert len(kinds) == len(expected) == 17636
    assert all(line.split()[0] == kind for line, kind in zip(expected, kinds, strict=True))
    few, lines = recorded.few(cases, expected, forms)
    assert [kind for kind, _ in recorded.calls(few, forms)] == [line.split()[0] for line in lines]
    assert {line.split()[0] for line in lines} == set(forms["kinds"]) == set(kinds)


def test_every_script_is_in_the_page(module):
    for path in (ROOT / "page" / "scripts").glob("*.mjs"):
        assert f"const {path.stem}_script = (() => {{" in module


@pytest.mark.parametrize(
    "words, told",
    [
        (["out.txt"], "must end in .html"),
        (["out.html", "--frames", "a.fits"], "--frames needs a folder"),
        (["nowhere", "out.html"], "settings.bin"),
        (["{here}", "out.html", "--frames", "{here}"], "has no image files"),
        (["none/out.html"], "none is not a folder"),
    ],
)
def test_wrong_words_are_told_and_nothing_is_written(run, tmp_path, monkeypatch, words, told):
    monkeypatch.chdir(tmp_path)
    status, printed, error = run("page", *(word.format(here=BUILT_IN) for word in words))
    assert (status, printed) == (2, "") and told in error
    assert list(tmp_path.iterdir()) == []


def test_a_file_that_is_not_ours_stays(run, tmp_path):
    mine = tmp_path / "mine.html"
    mine.write_text("<p>mine</p>")
    assert run("page", mine)[0] == 2 and mine.read_text() == "<p>mine</p>"
    assert run("page", mine, "--force")[0] == 0 and run("page", mine)[0] == 0
    assert run("page", "/dev/full")[0] == 2
