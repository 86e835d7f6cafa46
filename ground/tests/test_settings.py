"""Settings as TOML, there and back."""

from dataclasses import replace

import numpy as np
import pytest
from astropy import units as u

from mnemathor.configuration import angle_of, tolerance_of
from mnemathor.folder import Settings, read_settings, settings_bytes

GOOD = """
width = 160
height = 120
threshold = 50
needed = 4
tolerance = 123456789012
centre = [80.25, 60.0]
lens = { pixels = 64.5 }
"""


def written(run, tmp_path, text):
    (tmp_path / "s.toml").write_text(text)
    return run("settings", tmp_path / "s.toml", tmp_path / "f")


def test_there_and_back(tmp_path, run):
    assert written(run, tmp_path, GOOD)[0] == 0
    first = (tmp_path / "f" / "settings.bin").read_bytes()
    assert read_settings(tmp_path / "f") == Settings(
        160, 120, 50, 4, 20544, 15360, 16512, 123456789012
    )
    assert len(first) == 32 and first.hex().startswith("00a00078003200040000504000003c0000004080")
    assert run("settings", tmp_path / "f", tmp_path / "back.toml")[0] == 0
    assert run("settings", tmp_path / "back.toml", tmp_path / "again")[0] == 0
    assert (tmp_path / "again" / "settings.bin").read_bytes() == first


@pytest.mark.parametrize("seed", range(20))
def test_any_settings_there_and_back(tmp_path, run, seed):
    random = np.random.default_rng(seed)
    ranges = [
        (7, 1024),
        (7, 1024),
        (1, 4095),
        (3, 8),
        (0, 261888),
        (0, 261888),
        (16384, 4194304),
        (0, 10**16),
    ]
    settings = Settings(*(int(random.integers(low, high, endpoint=True)) for low, high in ranges))
    (tmp_path / "f").mkdir()
    (tmp_path / "f" / "settings.bin").write_bytes(settings_bytes(settings))
    assert run("settings", tmp_path / "f", tmp_path / "s.toml")[0] == 0
    assert run("settings", tmp_path / "s.toml", tmp_path / "g")[0] == 0
    assert read_settings(tmp_path / "g") == settings


def test_the_lens_in_millimetres(tmp_path, run):
    text = GOOD.replace("{ pixels = 64.5 }", "{ millimetres = 12.0, micrometres = 7.5 }")
    assert written(run, tmp_path, text)[0] == 0
    assert read_settings(tmp_path / "f").focal == 409600


def test_tolerance_as_an_angle_at_a_separation(tmp_path, run):
    text = GOOD.replace("123456789012", '{ angle = "60 arcsec", separation = "10 deg" }')
    assert written(run, tmp_path, text)[0] == 0
    expected = 1e18 * (np.cos(np.deg2rad(10)) - np.cos(np.deg2rad(10 + 60 / 3600)))
    tolerance = read_settings(tmp_path / "f").tolerance
    assert abs(tolerance - expected) < 1000 and tolerance == tolerance_of(60 * u.arcsec, 10 * u.deg)
    assert abs(angle_of(tolerance, 10 * u.deg).to_value(u.arcsec) - 60) < 1e-6


def test_size_and_centre_come_from_the_folder(tmp_path, run, folder, settings):
    (tmp_path / "s.toml").write_text(
        "threshold = 99\nneeded = 5\ntolerance = 7\nlens = { pixels = 100 }\n"
    )
    assert run("settings", tmp_path / "s.toml", folder)[0] == 0
    assert read_settings(folder) == replace(
        settings, threshold=99, needed=5, tolerance=7, focal=25600
    )


BAD = [
    (("width = 160", "width = 6"), 1, "refused 1 0"),
    (("height = 120", "height = 1025"), 1, "refused 1 0"),
    (
        ("height = 120\n", ""),
        1,
        "height is 0, and must be 7 to 1,024 pixels; the file may name them",
    ),
    (("threshold = 50", "threshold = 0"), 1, "refused 3 0"),
    (("threshold = 50", "threshold = 4096"), 1, "threshold is 4096, and must be 1 to 4,095"),
    (
        ("pixels = 64.5", "pixels = 63.9"),
        1,
        "is a focal length of 63.9 pixels, and q, the focal length in pixels, must be 64 to 16,384",
    ),
    (("pixels = 64.5", "pixels = nan"), 2, "lens wants"),
    (("[80.25, 60.0]", "[nan, 60.0]"), 2, "column and row in pixels"),
    (("[80.25, 60.0]", "[inf, 60.0]"), 2, "column and row in pixels"),
    (("123456789012", '{ angle = "nan deg", separation = "10 deg" }'), 2, "an angle with its unit"),
    (("123456789012", '{ angle = "inf deg", separation = "10 deg" }'), 2, "an angle with its unit"),
    (("needed = 4", "needed = 4\nbinning = 0"), 2, "binning must be at least 1"),
    (("pixels = 64.5", "millimetres = 12, micrometres = 0"), 1, "refused 19 0"),
    (("[80.25, 60.0]", "[1024.0, 60.0]"), 1, "refused 5 0"),
    (("needed = 4", "needed = 2"), 1, "refused 9 0"),
    (("needed = 4", "needed = 9"), 1, "refused 9 0"),
    (("123456789012", "10000000000000001"), 1, "refused 9 0"),
    (("width = 160", "width = 70000"), 2, "width is 70000, and must be 7 to 1,024 pixels"),
    (("threshold = 50", "threshold = -1"), 2, "threshold is -1, and must be 1 to 4,095"),
    (("threshold = 50", 'threshold = "50"'), 2, "threshold must be a whole number"),
    (("needed = 4", "needed = true"), 2, "needed must be a whole number"),
    (("needed = 4\n", ""), 2, "needed missing"),
    (("needed = 4", "needed = 4\nspeed = 3"), 2, "unknown speed"),
    (("[80.25, 60.0]", "[80.25]"), 2, "column and row in pixels"),
    (("123456789012", '{ angle = "60", separation = "10 deg" }'), 2, "an angle with its unit"),
    (("123456789012", '{ angle = "60 arcsec" }'), 2, "wants angle and separation"),
    (("pixels = 64.5", "inches = 3"), 2, "lens wants"),
    (("needed = 4", "needed ="), 2, "cannot be read"),
]


@pytest.mark.parametrize("change, expected, told", BAD)
def test_bad_settings_are_told_and_nothing_is_written(tmp_path, run, change, expected, told):
    text = GOOD.replace(*change)
    assert text != GOOD
    status, out, err = written(run, tmp_path, text)
    assert (status, out) == (expected, "") and told in err, err
    assert len(err.splitlines()) == 1 and not (tmp_path / "f").exists()


def test_files_that_are_not_there(tmp_path, run):
    assert run("settings", tmp_path / "no.toml", tmp_path / "f")[0] == 2
    assert run("settings", tmp_path, tmp_path / "out.toml")[0] == 2
    assert run("settings", tmp_path, tmp_path)[0] == 2
    assert not (tmp_path / "out.toml").exists()


@pytest.mark.parametrize(
    ("pixels", "tolerance"),
    [(0.05, 2_285_607_167_589_132), (0.1, 4_572_066_656_645_523), (0.2, 9_147_602_608_300_800)],
)
def test_the_tolerance_that_covers_an_error(tmp_path, run, pixels, tolerance):
    """By hand from the law, for a focal length of 400 pixels: 13, 26 and 52 of 256ths move a
    direction by 380,862, 761,721 and 1,523,440.
    """
    (tmp_path / "s.toml").write_text(GOOD.replace("pixels = 64.5", "pixels = 400.0"))
    status, out, _ = run("settings", tmp_path / "s.toml", tmp_path / "f", "--covers", pixels)
    assert (
        status == 0
        and f"# a tolerance of {tolerance} covers positions off by at most {pixels} pixel" in out
    )


def test_a_tolerance_that_no_setting_can_have_is_told(tmp_path, run):
    status, out, _ = run("settings", _toml(tmp_path), tmp_path / "f", "--covers", 2)
    assert status == 0 and "which is more than a tolerance may be" in out


def _toml(tmp_path):
    (tmp_path / "s.toml").write_text(GOOD)
    return tmp_path / "s.toml"
