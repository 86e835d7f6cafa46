"""The page in a second browser, Firefox: opened from disk, answered, turned, dropped onto, and
tried with every recorded call.
"""

import base64
from collections.abc import Iterator
from dataclasses import replace
from pathlib import Path

import pytest
from conftest import BUILT_IN, DROP
from marionette import Firefox

from mnemathor import library, solving

NAMES = (
    "return [...document.querySelectorAll('#stars tr')].map((row) => row.children[1].textContent)"
)
TEXT = "return document.getElementById(arguments[0]).textContent"
SET = (
    "const e = document.getElementById(arguments[0]); e.value = arguments[1];"
    "e.dispatchEvent(new Event('input', { bubbles: true }))"
)
CLICK = "document.getElementById(arguments[0]).click()"


@pytest.fixture(scope="module")
def firefox(tmp_path_factory: pytest.TempPathFactory) -> Iterator[Firefox]:
    """Headless Firefox."""
    started = Firefox(tmp_path_factory.mktemp("firefox") / "profile")
    yield started
    started.close()


def test_the_orion_frame_in_firefox(
    firefox: Firefox, pages: dict[str, Path], evening: tuple
) -> None:
    firefox.open(pages["orion"])
    settings, samples, catalogue = evening
    solution = solving.solve(settings, samples, catalogue)
    named = ["–" if star.identity is None else str(star.identity) for star in solution.stars]
    firefox.wait("return document.querySelectorAll('#stars tr').length === 8")
    assert firefox.run(NAMES) == named
    assert solution.pointing.sexagesimal.split()[0] in firefox.run(TEXT, "pointing")
    firefox.run(SET, "threshold", "400")
    report = library.list_stars(samples, replace(settings, threshold=400))
    counts = f"measured {report.measured} · edge {report.edge} · lone {report.lone}"
    firefox.wait(f"return document.getElementById('counts').textContent.includes('{counts}')")


def test_dropped_files_in_firefox(firefox: Firefox, pages: dict[str, Path]) -> None:
    firefox.open(pages["alone"])
    names = ("frame.bin", "catalogue.bin", "settings.bin")
    files = [[name, base64.b64encode((BUILT_IN / name).read_bytes()).decode()] for name in names]
    firefox.run(DROP, files)
    firefox.wait("return document.querySelectorAll('#stars tr').length === 3")
    assert firefox.run(NAMES) == ["11", "22", "33"]


def test_every_recorded_call_in_firefox(firefox: Firefox, pages: dict[str, Path]) -> None:
    firefox.open(pages["whole"])
    firefox.run(CLICK, "self-test")
    told = firefox.wait("return document.getElementById('self-test-told').textContent")
    assert told.startswith("Passed: 17,636 of 17,636 answers as recorded")
