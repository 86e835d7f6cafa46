"""Files that are dropped onto the page: each kind that it reads, compared with what the tools make
of the same file, and all that it tells in words.
"""

from dataclasses import replace
from pathlib import Path

import numpy as np
import pytest
from astropy.io import fits
from conftest import BUILT_IN, DATA, Browser, mnemathor

from mnemathor import frames, library, stars
from mnemathor.folder import STAR, settings_bytes


def image(samples: np.ndarray, kind: str, path: Path) -> Path:
    """An image file of these samples, of a kind that the page reads; FITS goes from the bottom."""
    if kind.startswith("pgm"):
        depth = int(kind[3:])
        values = (
            samples >> 4
            if depth == 8
            else samples.astype(np.uint32) * 16 if depth == 16 else samples
        )
        most = {8: 255, 12: 4095, 16: 65535}[depth]
        path.write_bytes(
            f"P5\n# a camera\n{samples.shape[1]} {samples.shape[0]}\n{most}\n".encode()
            + values.astype("u1" if depth == 8 else ">u2").tobytes()
        )
    else:
        values = {
            "fits8": (samples >> 4).astype(np.uint8),
            "fits16": (samples * 8).astype(np.int16),
            "bzero": samples.astype(np.uint16) * 16,
        }[kind]
        fits.PrimaryHDU(values[::-1]).writeto(path)
    return path


@pytest.mark.parametrize("kind", ["fits8", "fits16", "bzero", "pgm8", "pgm12", "pgm16"])
def test_an_image_becomes_the_frame_that_the_tools_make_of_it(
    browser: Browser, pages: dict[str, Path], evening: tuple, tmp_path: Path, kind: str
) -> None:
    settings, samples, _ = evening
    path = image(samples, kind, tmp_path / f"shot.{'pgm' if kind.startswith('pgm') else 'fits'}")
    made = frames.make_frame(path).samples
    browser.open(pages["orion"])
    assert browser.drop(path) == []
    report = library.list_stars(made, settings)
    told = browser.shown("shot")
    assert [(star["column"], star["row"], star["brightness"]) for star in told["stars"]] == [
        (each.x / 256, each.y / 256, each.brightness) for each in report.stars
    ]
    assert (told["measured"], told["edge"], told["lone"]) == (
        report.measured,
        report.edge,
        report.lone,
    )


def test_twelve_bits_in_words_of_sixteen_are_asked_about(
    browser: Browser, pages: dict[str, Path], evening: tuple, tmp_path: Path
) -> None:
    settings, samples, _ = evening
    path = tmp_path / "deep.fits"
    fits.PrimaryHDU(samples[::-1].astype(np.uint16)).writeto(path)
    browser.open(pages["orion"])
    assert "is the camera one of 12 bits" in browser.drop(path)[0]
    browser.choose("A camera of 12 bits")
    browser.wait(lambda: browser.notes() == [])
    assert browser.shown("deep")["measured"] == library.list_stars(samples, settings).measured


def test_the_cameras_own_files_in_any_order(browser: Browser, pages: dict[str, Path]) -> None:
    browser.open(pages["alone"])
    browser.drop(BUILT_IN / "frame.bin", BUILT_IN / "catalogue.bin", BUILT_IN / "settings.bin")
    assert browser.text("verdict") == "Accepted, and alone"
    assert [star["identity"] for star in browser.stars()] == ["11", "22", "33"]


def test_chosen_files_are_read_as_dropped_ones(browser: Browser, pages: dict[str, Path]) -> None:
    browser.open(pages["alone"])
    chosen = "\n".join(
        str(BUILT_IN / name) for name in ("frame.bin", "catalogue.bin", "settings.bin")
    )
    browser.driver.find_element("id", "chooser").send_keys(chosen)
    browser.wait(lambda: browser.text("verdict") == "Accepted, and alone")


def test_a_star_list_becomes_the_catalogue_that_the_tools_make_of_it(
    browser: Browser, pages: dict[str, Path], tmp_path: Path
) -> None:
    native = stars.select(stars.read_stars(DATA / "bright-stars.csv"), brightest=512).records
    browser.open(pages["built_in"])
    assert "the 512 brightest of 4308 stars" in browser.drop(DATA / "bright-stars.csv")[0]
    browser.click("tab-catalogues")
    browser.set("closeness", 0)
    lent = np.frombuffer(bytearray(native.tobytes()), np.uint8)
    kept = library.cut(lent, 12000, 10**18)
    assert browser.text("cut-told") == f"kept {kept} of 512"
    assert browser.download("save-cut", "catalogue.bin") == lent[: kept * STAR.itemsize].tobytes()


def test_hours_or_degrees_is_asked(browser: Browser, pages: dict[str, Path]) -> None:
    rows = "\n".join(f"{k},{k * 0.7:.3f},{10 * k - 40},{k / 2}" for k in range(1, 9))
    browser.open(pages["built_in"])
    assert (
        "hours, or degrees?" in browser.drop(("list.csv", f"id,ra,dec,mag\n{rows}\n".encode()))[0]
    )
    browser.choose("Hours")
    browser.wait(lambda: "8 stars" in " ".join(browser.notes()))
    told = browser.drop(
        (
            "text.csv",
            b"id;ra;dec;vmag\n1;05:34:00;-00:59:16;1.5\n2;06:10:00;10:00:00;2.5\n3;;1;1\n"
            b"4;05:00:00;95;2\n",
        )
    )[0]
    assert (
        "2 stars" in told
        and "1 left out: a gap in the row" in told
        and "1 left out: the place cannot be read" in told
    )


def damaged(tmp_path: Path, samples: np.ndarray) -> list[tuple[tuple[str, bytes], str]]:
    """Files that cannot be used, and a word that has to be told about each."""
    good = image(samples, "fits16", tmp_path / "good.fits").read_bytes()
    floats = tmp_path / "floats.fits"
    fits.PrimaryHDU(samples.astype(np.float32)).writeto(floats)
    cube = tmp_path / "cube.fits"
    fits.PrimaryHDU(np.zeros((3, 8, 8), np.int16)).writeto(cube)
    empty = tmp_path / "empty.fits"
    fits.PrimaryHDU().writeto(empty)
    pgm = image(samples, "pgm16", tmp_path / "good.pgm").read_bytes()
    large = b"P5 2048 8 255\n" + bytes(2048 * 8)
    twice = np.zeros(2, STAR)
    twice["z"] = 10**9
    return [
        (("cut.fits", good[:20000]), "it is cut short"),
        (("head.fits", good[:400]), "its header has no end"),
        (("floats.fits", floats.read_bytes()), "BITPIX -32"),
        (("cube.fits", cube.read_bytes()), "3 axes"),
        (("empty.fits", empty.read_bytes()), "no image"),
        (("cut.pgm", pgm[:5000]), "it is cut short"),
        (("head.pgm", b"P5 wide 3 9\n" + bytes(99)), "no width, height and largest value"),
        (("large.pgm", large), "sides are 7 to 1,024"),
        (("nothing.bin", b""), "it is empty"),
        (("settings.bin", bytes(31)), "has 32 bytes, and this has 31"),
        (("catalogue.bin", bytes(41)), "no multiple of that"),
        (("catalogue.bin", twice.tobytes()), "refused 7, place 1"),
        (("frame.bin", bytes(100)), "it has 100 bytes"),
        (("song.mp3", b"ID3\x04\x00" + bytes(range(256)) * 3), "it is no frame"),
        (("letter.txt", b"Dear night shift,\nthe sky is clear.\n"), "it is no frame"),
        (("list.csv", b"name,colour,mag\nVega,blue,0\n"), "no column found for identity, ra, dec"),
        (
            (
                "good.fits",
                image(samples[:100, :120], "fits16", tmp_path / "small.fits").read_bytes(),
            ),
            "the settings say 200 × 160",
        ),
    ]


def test_all_else_is_told_in_words_and_the_page_goes_on(
    browser: Browser, pages: dict[str, Path], evening: tuple, tmp_path: Path
) -> None:
    browser.open(pages["orion"])
    before = browser.stars()
    assert len(before) == 8
    for (name, contents), word in damaged(tmp_path, evening[1]):
        told = browser.drop((name, contents))
        assert len(told) == 1 and told[0].startswith(f"{name}: ") and word in told[0], (name, told)
        assert browser.stars() == before, name


def test_bad_settings_are_told_with_what_they_may_be(
    browser: Browser, pages: dict[str, Path], evening: tuple
) -> None:
    settings = evening[0]
    browser.open(pages["orion"])
    for wrong, word in (
        (replace(settings, needed=9), "needed is 9, and must be 3 to 8"),
        (replace(settings, focal=5), "focal is 5, and must be 16,384"),
    ):
        assert word in " ".join(browser.drop(("settings.bin", settings_bytes(wrong))))
        assert browser.text("verdict").startswith("Refused")
        assert word in browser.text("why")


def test_settings_of_another_size_put_frames_away(browser: Browser, pages: dict[str, Path]) -> None:
    browser.open(pages["orion"])
    assert "1 frame of another size than 160 × 120 put away." in browser.drop(
        BUILT_IN / "settings.bin"
    )
    assert browser.text("verdict") == "No frame yet"
    browser.drop(BUILT_IN / "frame.bin")
    assert browser.text("verdict").startswith("Refused")


def test_the_command_tells_what_it_cannot_use(tmp_path: Path, orion: Path) -> None:
    shots = tmp_path / "shots"
    shots.mkdir()
    image(np.zeros((160, 200), np.uint16) + 4095, "pgm8", shots / "a.pgm")
    (shots / "b.fits").write_bytes(b"no image")
    told = mnemathor("page", orion, tmp_path / "out.html", "--frames", shots)
    assert "left out:" in told and "1 frames inside" in told
