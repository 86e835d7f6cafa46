"""Many frames with guides, two catalogues, and the page by keys alone, in red light, and on a small
screen.
"""

import io
from pathlib import Path

import numpy as np
import pytest
from conftest import DATA, ROOT, Browser, Keys, mnemathor
from PIL import Image

from mnemathor import arriving, library, solving
from mnemathor.folder import STAR, read_catalogue, read_settings
from mnemathor.refusals import Refused

FRAMES = 24


@pytest.fixture(scope="session")
def night(tmp_path_factory: pytest.TempPathFactory, orion: Path) -> Path:
    """A folder of frames as ground/data/make-night makes them, with clouds and damaged files."""
    import os
    import subprocess
    import sys

    room = tmp_path_factory.mktemp("made") / "night"
    subprocess.run(
        [DATA / "make-night", orion, room, str(FRAMES)],
        env={**os.environ, "MNEMATHOR_PYTHON": sys.executable},
        check=True,
        capture_output=True,
    )
    return room / "frames"


def good_frames(night: Path, orion: Path) -> list[np.ndarray]:
    """The samples of the frames that can be read and have the settings' size."""
    settings = read_settings(orion)
    read = [arriving.read(name, path, {})[2] for name, path in arriving.listed([night])]
    return [
        samples
        for samples in read
        if samples is not None and samples.shape == (settings.height, settings.width)
    ]


def test_a_sequence_is_played_and_counted_as_natively(
    browser: Browser, pages: dict[str, Path], night: Path, orion: Path
) -> None:
    browser.open(pages["orion"])
    told = browser.drop(*sorted(night.iterdir()))
    samples = good_frames(night, orion)
    assert len(told) == min(6, FRAMES - len(samples)), "every damaged file is told"
    settings, catalogue = read_settings(orion), read_catalogue(orion)
    accepted = sum(_accepted(settings, each, catalogue) for each in samples)
    browser.wait(
        lambda: f"{accepted} accepted" in browser.text("told") and "…" not in browser.text("told")
    )
    assert f"1 of {len(samples)} · " in browser.text("told")
    browser.set("speed", 30)
    browser.click("play")
    browser.wait(lambda: f"{len(samples)} of {len(samples)} · " in browser.text("told"))
    browser.wait(lambda: browser.text("play") == "Play")
    browser.focus("frame")
    browser.press(",", ",")
    assert f"{len(samples) - 2} of {len(samples)} · " in browser.text("told")


def _accepted(settings: object, samples: np.ndarray, catalogue: np.ndarray) -> bool:
    try:
        solving.solve(settings, samples, catalogue)
    except Refused:
        return False
    return True


def test_guides_set_by_clicks_are_followed_as_by_the_native_guider(
    browser: Browser, tmp_path: Path, night: Path, orion: Path
) -> None:
    mnemathor("page", orion, tmp_path / "night.html", "--frames", night)
    browser.open(tmp_path / "night.html")
    settings, samples = read_settings(orion), good_frames(night, orion)
    first = solving.solve(settings, samples[0], read_catalogue(orion))
    chosen = [star for star in first.stars if star.identity is not None][:4]
    browser.click("tab-sequence")
    browser.click("set-guides")
    for star in chosen:
        browser.click_pixel(star.row, star.column, *samples[0].shape)
    assert browser.text("guides-told") == "4 of 4 guides, from frame 1 on"
    browser.click_pixel(first.stars[-1].row, first.stars[-1].column, *samples[0].shape)
    assert "four guides are the most" in browser.text("guides-told")
    guider = library.Guider(
        5 * 256,
        [(star.identity, round(star.column * 256), round(star.row * 256)) for star in chosen],
    )
    dropped = 0
    for place, each in enumerate(samples[1:], 1):
        guider.frame(each, settings)
        browser.set("place", place)
        dropped += _same_guides(browser, guider.guides, chosen)
    assert dropped, "in the clouds guides are dropped"
    browser.click("clear-guides")
    assert browser.run("return document.getElementById('guides').children.length") == 0


def _same_guides(browser: Browser, guides: tuple, chosen: list) -> int:
    """Compares the page's guides with the native ones; hands back how many are dropped."""
    rows = browser.run(
        "return [...document.querySelectorAll('#guides tr')].map((row) =>"
        " [...row.children].map((cell) => cell.textContent))"
    )
    words = [
        "dropped" if guide.misses == 5 else f"missed {guide.misses}" if guide.misses else "follows"
        for guide in guides
    ]
    assert [(row[0], row[3]) for row in rows] == [
        (str(guide.identity), word) for guide, word in zip(guides, words, strict=True)
    ]
    for row, guide, star in zip(rows, guides, chosen, strict=True):
        off = [guide.x / 256 - star.column, guide.y / 256 - star.row]
        assert [float(cell.replace("−", "-")) for cell in row[1:3]] == pytest.approx(
            off, abs=0.0051
        )
    return words.count("dropped")


def test_two_catalogues_and_a_cut_as_natively(
    browser: Browser, pages: dict[str, Path], orion: Path
) -> None:
    old = read_catalogue(orion)
    new = np.delete(old, [3, 40]).copy()
    new["magnitude"][7] += 1
    added = new[-1:].copy()
    added["identity"] += 5
    new = np.concatenate([new, added]).astype(STAR)
    browser.open(pages["orion"])
    assert (
        "It is in use; catalogue.bin is kept to compare with."
        in browser.drop(("new.bin", new.tobytes()))[0]
    )
    browser.click("tab-catalogues")
    room = np.zeros(8 * 1024, np.uint8)
    count = library.compare(old.tobytes(), new.tobytes(), room)
    records = room[: 8 * count].view(">u4").reshape(-1, 2)
    lines = [
        f"{['', 'removed', 'added', 'changed'][kind]} {identity}" for identity, kind in records
    ]
    assert (
        browser.run(
            "return [...document.querySelectorAll('#changes li')].map((line) => line.textContent)"
        )
        == lines
        and count == 4
    )
    assert browser.text("changes-told") == "2 removed, 1 added, 1 changed"
    for limit, degrees in ((12, 0.5), (3.5, 3), (-2, 0)):
        browser.set("limit", limit)
        browser.set("closeness", degrees)
        lent = np.frombuffer(bytearray(new.tobytes()), np.uint8)
        try:
            kept = library.cut(lent, int(1000 * limit), round(1e18 * np.cos(np.deg2rad(degrees))))
            assert browser.text("cut-told") == f"kept {kept} of {len(new)}"
            assert (
                browser.download("save-cut", "catalogue.bin")
                == lent[: kept * STAR.itemsize].tobytes()
            )
        except Refused as refusal:
            assert browser.text("cut-told").startswith(f"Refused {refusal.number}: ")
    browser.set("limit", 3.5)
    browser.click("use-cut")
    assert browser.text("catalogue-told").startswith("In use: cut.bin, ")


# All that can be used, and whether the focus came to it.
FOCUSABLE = (
    "return [...document.querySelectorAll('button, input, select, [tabindex]')].filter((e) =>"
    " e.offsetParent !== null && !e.disabled && !e.closest('fieldset:disabled') && e.tabIndex >="
    " 0).map((e) => e.id || e.textContent)"
)
FOCUSED = (
    "const e = document.activeElement; return e === document.body ? null : e.id || e.textContent"
)


def test_keys_alone_reach_everything(browser: Browser, pages: dict[str, Path], night: Path) -> None:
    browser.open(pages["orion"])
    browser.drop(*sorted(night.iterdir())[:4])
    browser.run("document.getElementById('notices').replaceChildren()")
    for tab in ("stars", "pixel", "settings", "sequence", "catalogues", "about"):
        browser.run("document.activeElement.blur(); document.body.focus()")
        wanted, reached = set(browser.run(FOCUSABLE)), []
        for _ in range(len(wanted) + 12):
            browser.press(Keys.TAB)
            reached.append(browser.run(FOCUSED))
        assert wanted <= set(reached), wanted - set(reached)
        assert f"tab-{tab}" in reached
        browser.focus(f"tab-{tab}")
        browser.press(Keys.ARROW_RIGHT)


def test_a_pixel_a_guide_and_a_star_by_keys(
    browser: Browser, pages: dict[str, Path], evening: tuple
) -> None:
    browser.open(pages["orion"])
    browser.focus("frame")
    browser.press("n")
    assert browser.text("reason").startswith(
        "Row 123, column 141 is measured: a star at row 123.64, column 141.82"
    )
    browser.press("g")
    assert browser.run("return document.querySelector('#guides th').textContent") == "4"
    browser.press("n", "p", "p")
    assert browser.text("reason").startswith("Row 10, column 167 is measured")
    browser.press(Keys.ARROW_LEFT, Keys.ARROW_UP)
    assert browser.text("reason").startswith("Row 9, column 166 is beaten")
    assert f"sample {evening[1][9, 166]}" in browser.text("readout")
    browser.press("f")
    before = browser.run("return document.getElementById('frame').toDataURL()")
    browser.press("+", "+")
    zoomed = browser.run("return document.getElementById('frame').toDataURL()")
    browser.press("f")
    assert (
        before != zoomed
        and browser.run("return document.getElementById('frame').toDataURL()") == before
    )


def test_wheel_drag_and_stretch_change_the_picture(
    browser: Browser, pages: dict[str, Path]
) -> None:
    from selenium.webdriver.common.action_chains import ActionChains
    from selenium.webdriver.common.actions.wheel_input import ScrollOrigin

    browser.open(pages["orion"])
    canvas = browser.driver.find_element("id", "frame")
    picture = "return document.getElementById('frame').toDataURL()"
    seen = [browser.run(picture)]
    steps = [
        lambda: ActionChains(browser.driver)
        .scroll_from_origin(ScrollOrigin.from_element(canvas), 0, -300)
        .perform(),
        lambda: ActionChains(browser.driver)
        .move_to_element(canvas)
        .click_and_hold()
        .move_by_offset(60, 40)
        .release()
        .perform(),
        lambda: browser.set("stretch", "linear"),
        lambda: browser.set("stretch", "sqrt"),
        lambda: browser.click("marks"),
    ]
    for step in steps:
        step()
        browser.settle()
        seen.append(browser.run(picture))
    assert len(set(seen)) == len(seen)
    assert browser.run("return document.getElementById('panel-pixel').hidden"), "a drag is no click"


def test_two_fingers_zoom(browser: Browser, pages: dict[str, Path]) -> None:
    browser.open(pages["orion"])
    before = browser.run("return document.getElementById('frame').toDataURL()")
    touches = [(480, 400), (560, 400)]
    point = lambda kind, at: {
        "type": kind,
        "touchPoints": [{"x": x, "y": y, "id": k} for k, (x, y) in enumerate(at)],
    }
    for event in (
        point("touchStart", touches),
        point("touchMove", [(400, 400), (640, 400)]),
        point("touchEnd", []),
    ):
        browser.driver.execute_cdp_cmd("Input.dispatchTouchEvent", event)
    browser.settle()
    assert browser.run("return document.getElementById('frame').toDataURL()") != before


# Every text that shows, with the contrast to what lies behind it, by the rule of WCAG 2.
CONTRAST = """
const gamma = (part) => (part <= 0.03928 ? part / 12.92 : ((part + 0.055) / 1.055) ** 2.4);
const channel = (value) => gamma(value / 255);
const parts = (text) => text.match(/[\\d.]+/g).map(Number);
const light = ([r, g, b]) => 0.2126 * channel(r) + 0.7152 * channel(g) + 0.0722 * channel(b);
const behind = (e) => {
  for (; e; e = e.parentElement) {
    const colour = parts(getComputedStyle(e).backgroundColor);
    if (colour.length < 4 || colour[3] > 0.99) return colour;
  }
  return [255, 255, 255];
};
const bar = () => {
  const text = getComputedStyle(document.documentElement).getPropertyValue("--bar").trim();
  return [1, 3, 5].map((at) => parseInt(text.slice(at, at + 2), 16));
};
const field = (e) => e.tagName === "INPUT" && ["number", "text"].includes(e.type);
const letters = (node) => node.nodeType === 3 && node.textContent.trim();
const written = (e) => [...e.childNodes].some(letters);
const found = [];
for (const e of document.querySelectorAll("body *")) {
  if (!(written(e) || field(e)) || e.offsetParent === null || e.tagName === "OPTION") continue;
  const backs = e.matches(".window td[data-row]") ? [behind(e), bar()] : [behind(e)];
  for (const back of backs) {
    const [a, b] = [light(parts(getComputedStyle(e).color)), light(back)].sort((x, y) => y - x);
    found.push([(a + 0.05) / (b + 0.05), e.id || e.textContent.trim().slice(0, 30)]);
  }
}
return found.sort((a, b) => a[0] - b[0]);
"""


@pytest.mark.parametrize("red", [False, True])
def test_texts_stand_out(browser: Browser, pages: dict[str, Path], night: Path, red: bool) -> None:
    browser.open(pages["orion"])
    browser.drop(("song.mp3", bytes(range(256))), *sorted(night.iterdir())[:3])
    if red:
        browser.click("light")
    browser.focus("frame")
    browser.press("n", "g")
    for tab in ("stars", "pixel", "settings", "sequence", "catalogues", "about"):
        browser.click(f"tab-{tab}")
        found = browser.run(CONTRAST)
        assert len(found) > 25 and found[0][0] >= 4.5, found[:3]


def test_red_light_is_red_alone(browser: Browser, pages: dict[str, Path], night: Path) -> None:
    browser.open(pages["orion"])
    browser.drop(*sorted(night.iterdir())[:5])
    browser.focus("frame")
    browser.press("n", "g")
    browser.click("light")
    for tab in ("stars", "pixel", "settings", "sequence", "catalogues", "about"):
        browser.click(f"tab-{tab}")
        picture = np.asarray(
            Image.open(io.BytesIO(browser.driver.get_screenshot_as_png())).convert("RGB")
        )
        assert picture[..., 0].max() > 200
        assert picture[..., 1:].max() <= 60, f"{tab} shows more than red"


def test_a_small_screen(browser: Browser, pages: dict[str, Path]) -> None:
    browser.open(pages["orion"])
    browser.driver.execute_cdp_cmd(
        "Emulation.setDeviceMetricsOverride",
        {"width": 390, "height": 800, "deviceScaleFactor": 2, "mobile": True},
    )
    try:
        browser.settle()
        for tab in ("stars", "pixel", "settings", "sequence", "catalogues", "about"):
            browser.run("document.getElementById(arguments[0]).click()", f"tab-{tab}")
            browser.settle()
            assert browser.run(
                "return document.scrollingElement.scrollWidth <= window.innerWidth"
            ), tab
        small = browser.run(
            "return [...document.querySelectorAll('button, select')].filter((e) => e.offsetParent"
            " && e.getBoundingClientRect().height < 36).map((e) => e.id)"
        )
        assert small == []
    finally:
        browser.driver.execute_cdp_cmd("Emulation.clearDeviceMetricsOverride", {})


def test_the_kept_picture_is_there() -> None:
    picture = Image.open(ROOT / "docs" / "pictures" / "page.png")
    assert picture.width >= 800
