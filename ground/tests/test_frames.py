"""Images to frames: every kind of file there and back, every change of shape, and bad images."""

import struct
import zlib

import numpy as np
import pytest
from astropy.io import fits
from PIL import Image

from mnemathor.folder import read_frame, read_settings

LEVELS = np.random.default_rng(1).integers(0, 4096, (20, 24)).astype(np.uint16)


def write(path, values):
    """Writes an image in the file's own depth; hands back the samples that the frame must have."""
    eight, sixteen = (values // 16).astype(np.uint8), (values * 16).astype(np.uint16)
    if path.suffix == ".fits":
        fits.writeto(path, sixteen[::-1])
        return values
    if path.suffix == ".npy":
        np.save(path, sixteen)
        return values
    if path.stem == "eight":
        Image.fromarray(eight).save(path)
        return eight.astype(np.uint16) * 16
    Image.fromarray(sixteen if path.suffix != ".pgm" else sixteen.astype(np.int32)).save(path)
    return values


@pytest.mark.parametrize(
    "name", ["a.fits", "a.npy", "a.png", "a.tiff", "a.pgm", "eight.png", "eight.tiff", "eight.pgm"]
)
def test_every_kind_of_image(tmp_path, run, name):
    expected = write(tmp_path / name, LEVELS)
    status, out, _ = run("frame", tmp_path / name, tmp_path / "f")
    assert status == 0 and "frame 24 x 20" in out
    settings = read_settings(tmp_path / "f")
    assert (settings.width, settings.height, settings.cx, settings.cy) == (
        24,
        20,
        11.5 * 256,
        9.5 * 256,
    )
    assert (read_frame(tmp_path / "f", settings) == expected).all()


def frame_of(run, tmp_path, values, *words):
    np.save(tmp_path / "image.npy", values)
    status, out, err = run("frame", tmp_path / "image.npy", tmp_path / "f", *words)
    assert status == 0, err
    return read_frame(tmp_path / "f", read_settings(tmp_path / "f")), out


def test_crop_bin_flip_mirror(tmp_path, run):
    cropped, _ = frame_of(run, tmp_path, LEVELS, "--full", 4096, "--crop", 4, 2, 16, 12)
    assert (cropped == LEVELS[2:14, 4:20]).all()
    binned, _ = frame_of(run, tmp_path, LEVELS, "--full", 4096, "--bin", 2)
    assert (binned == LEVELS.reshape(10, 2, 12, 2).mean(axis=(1, 3)).astype(int)).all()
    flipped, _ = frame_of(run, tmp_path, LEVELS, "--full", 4096, "--flip")
    assert (flipped == LEVELS[::-1]).all()
    mirrored, _ = frame_of(run, tmp_path, LEVELS, "--full", 4096, "--mirror")
    assert (mirrored == LEVELS[:, ::-1]).all()


def test_left_over_rows_are_dropped(tmp_path, run):
    binned, _ = frame_of(run, tmp_path, LEVELS[:, :23], "--full", 4096, "--bin", 2)
    assert binned.shape == (10, 11)


def test_what_is_clipped_is_counted_and_never_wrapped(tmp_path, run):
    values = np.zeros((8, 9))
    values[0, :3], values[1, :2], values[2, 0] = -1, 5000, np.nan
    values[3, 0], values[3, 1], values[3, 2] = np.inf, 4095.9, 4096
    samples, out = frame_of(run, tmp_path, values, "--full", 4096)
    assert (
        "3 pixels below 0, set to 0" in out
        and "4 pixels above 4,095, set to 4,095" in out
        and "1 pixels without a value" in out
    )
    assert (
        samples[0, :3].tolist() == [0, 0, 0]
        and samples[1, :2].tolist() == [4095, 4095]
        and samples[2, 0] == 0
    )
    assert samples[3, :3].tolist() == [4095, 4095, 4095]


def test_dark_is_taken_off(tmp_path, run):
    np.save(tmp_path / "dark.npy", np.full(LEVELS.shape, 100, np.uint16))
    samples, out = frame_of(run, tmp_path, LEVELS, "--full", 4096, "--dark", tmp_path / "dark.npy")
    assert (samples == np.clip(LEVELS.astype(int) - 100, 0, None)).all()
    assert f"{(LEVELS < 100).sum()} pixels below 0" in out


def test_colours_are_averaged(tmp_path, run):
    colours = np.zeros((8, 9, 3), np.uint8)
    colours[..., 0], colours[..., 1], colours[..., 2] = 30, 60, 90
    Image.fromarray(colours).save(tmp_path / "c.png")
    status, out, _ = run("frame", tmp_path / "c.png", tmp_path / "f")
    assert status == 0 and "the mean of the colours" in out
    assert (read_frame(tmp_path / "f", read_settings(tmp_path / "f")) == 60 * 16).all()


def test_rows_of_fits_files(tmp_path, run):
    fits.writeto(tmp_path / "up.fits", LEVELS)
    fits.writeto(tmp_path / "down.fits", LEVELS, fits.Header({"ROWORDER": "TOP-DOWN"}))
    for name, expected in (("up", LEVELS[::-1]), ("down", LEVELS)):
        assert run("frame", tmp_path / f"{name}.fits", tmp_path / name, "--full", 4096)[0] == 0
        assert (read_frame(tmp_path / name, read_settings(tmp_path / name)) == expected).all()


def test_the_image_may_be_in_a_later_unit(tmp_path, run):
    units = [fits.PrimaryHDU(), fits.ImageHDU(np.zeros((9, 9), np.uint16)), fits.ImageHDU(LEVELS)]
    fits.HDUList(units).writeto(tmp_path / "units.fits")
    status, _, err = run("frame", tmp_path / "units.fits", tmp_path / "f")
    assert status == 2 and "--hdu says which unit: 1 (9 x 9), 2 (24 x 20)" in err
    assert "frame 9 x 9" in run("frame", tmp_path / "units.fits", tmp_path / "f", "--hdu", 1)[1]
    assert (
        "frame 24 x 20"
        in run("frame", tmp_path / "units.fits", tmp_path / "f", "--hdu", 2, "--full", 4096)[1]
    )
    assert run("frame", tmp_path / "units.fits", tmp_path / "f", "--hdu", 0)[0] == 2


def test_a_new_size_moves_the_centre_and_nothing_else(tmp_path, run, folder, settings):
    np.save(tmp_path / "image.npy", LEVELS)
    assert run("frame", tmp_path / "image.npy", folder, "--full", 4096)[0] == 0
    after = read_settings(folder)
    assert (after.width, after.height, after.cx, after.cy) == (24, 20, 2944, 2432)
    assert (after.threshold, after.needed, after.tolerance, after.focal) == (
        settings.threshold,
        settings.needed,
        settings.tolerance,
        settings.focal,
    )


def bad_images(tmp_path):
    np.save(tmp_path / "small.npy", np.zeros((6, 30), np.uint16))
    np.save(tmp_path / "large.npy", np.zeros((7, 1025), np.uint16))
    np.save(tmp_path / "cube.npy", np.zeros((9, 9, 9), np.uint16))
    np.save(tmp_path / "floats.npy", np.zeros((9, 9)))
    np.save(tmp_path / "words.npy", np.full((9, 9), "star"))
    (tmp_path / "torn.fits").write_bytes(b"SIMPLE  =                    T")
    (tmp_path / "torn.png").write_bytes(b"\x89PNG\r\n\x1a\nno more")
    (tmp_path / "empty.tiff").write_bytes(b"")
    fits.HDUList([fits.PrimaryHDU()]).writeto(tmp_path / "none.fits")
    np.save(tmp_path / "good.npy", LEVELS)
    np.save(tmp_path / "dark.npy", np.zeros((9, 9)))
    good = tmp_path / "good.npy"
    return [
        ((tmp_path / "small.npy",), 1, "refused 1 0: width or height is out of range"),
        ((tmp_path / "small.npy",), 1, "30 x 6, and sides are 7 to 1,024; the image is too small"),
        (
            (tmp_path / "large.npy",),
            1,
            "1025 x 7, and sides are 7 to 1,024; --bin and --crop make it smaller",
        ),
        ((tmp_path / "cube.npy",), 2, "9 x 9 x 9, not one image; --plane"),
        ((tmp_path,), 2, "is a folder; the image comes first"),
        ((tmp_path / "floats.npy",), 2, "--full"),
        ((tmp_path / "words.npy",), 2, "not numbers"),
        ((tmp_path / "torn.fits",), 2, "torn.fits"),
        ((tmp_path / "torn.png",), 2, "cannot be read as an image"),
        ((tmp_path / "empty.tiff",), 2, "cannot be read as an image"),
        ((tmp_path / "none.fits",), 2, "has no image"),
        ((tmp_path / "nowhere.png",), 2, "is not a file"),
        ((good, "--full", 4096, "--crop", 0, 0, 25, 8), 2, "not inside the image of 24 x 20"),
        ((good, "--crop", -1, 0, 9, 9), 2, "--crop: -1 is no whole number"),
        ((good, "--bin", 0), 2, "--bin: 0 is no whole number of at least 1"),
        ((good, "--bin", 4, "--full", 4096), 1, "6 x 5, and sides are 7 to 1,024; a smaller --bin"),
        ((good, "--full", 0), 2, "above 0"),
        ((good, "--full", "nan"), 2, "above 0"),
        ((good,), 2, "for a camera of 12 bits say --full 4096"),
        (
            (good, "--full", 4096, "--dark", tmp_path / "dark.npy"),
            2,
            "9 x 9 pixels, the image 24 x 20",
        ),
    ]


def test_bad_images_are_told_and_nothing_is_written(tmp_path, run):
    target = tmp_path / "f"
    for (image, *words), expected, told in bad_images(tmp_path):
        status, out, err = run("frame", image, target, *words)
        assert (status, out) == (expected, "") and told in err, (image, words, err)
        assert len(err.splitlines()) == 1
        assert not target.exists()


def test_a_folder_that_cannot_be_written(tmp_path, run):
    np.save(tmp_path / "good.npy", LEVELS)
    (tmp_path / "file").write_text("in the way")
    status, _, err = run("frame", tmp_path / "good.npy", tmp_path / "file", "--full", 4096)
    assert status == 2 and "is no folder" in err
    assert (tmp_path / "file").read_text() == "in the way"


def png_of_16_bits(path, colours):
    """A PNG of 16 bits a colour, which Pillow cannot write."""
    height, width, _ = colours.shape
    lines = b"".join(b"\0" + row.astype(">u2").tobytes() for row in colours)

    def chunk(kind, data):
        return (
            struct.pack(">I", len(data)) + kind + data + struct.pack(">I", zlib.crc32(kind + data))
        )

    head = struct.pack(">IIBBBBB", width, height, 16, 2, 0, 0, 0)
    path.write_bytes(
        b"\x89PNG\r\n\x1a\n"
        + chunk(b"IHDR", head)
        + chunk(b"IDAT", zlib.compress(lines))
        + chunk(b"IEND", b"")
    )


def test_colours_of_16_bits_are_not_cut_off(tmp_path, run):
    png_of_16_bits(tmp_path / "deep.png", np.full((9, 9, 3), 4660))
    (tmp_path / "deep.ppm").write_bytes(
        b"P6\n# deep\n9 9\n65535\n" + np.full((9, 9, 3), 4660, ">u2").tobytes()
    )
    for name in ("deep.png", "deep.ppm"):
        status, out, err = run("frame", tmp_path / name, tmp_path / "f")
        assert (status, out) == (2, "") and "16 bits a colour, of which 8 would be read" in err


@pytest.mark.parametrize("kind", [np.int32, np.uint32, np.int64])
def test_wide_numbers_are_asked_about(tmp_path, run, kind):
    np.save(tmp_path / "wide.npy", LEVELS.astype(kind))
    status, _, err = run("frame", tmp_path / "wide.npy", tmp_path / "f")
    assert status == 2 and "more than 16 bits" in err and "--full" in err
    assert run("frame", tmp_path / "wide.npy", tmp_path / "f", "--full", 4096)[0] == 0
    assert (read_frame(tmp_path / "f", read_settings(tmp_path / "f")) == LEVELS).all()


def test_a_plane_of_several(tmp_path, run):
    fits.writeto(tmp_path / "cube.fits", np.stack([LEVELS * 16, LEVELS[::-1] * 16]))
    assert "--plane" in run("frame", tmp_path / "cube.fits", tmp_path / "f")[2]
    assert run("frame", tmp_path / "cube.fits", tmp_path / "f", "--plane", 1)[0] == 0
    assert (read_frame(tmp_path / "f", read_settings(tmp_path / "f")) == LEVELS).all()
    assert (
        "there is no plane 2"
        in run("frame", tmp_path / "cube.fits", tmp_path / "f", "--plane", 2)[2]
    )
    colours = np.zeros((8, 9, 3), np.uint8)
    colours[..., 1] = 60
    Image.fromarray(colours).save(tmp_path / "c.png")
    assert run("frame", tmp_path / "c.png", tmp_path / "g", "--plane", 1)[0] == 0
    assert (read_frame(tmp_path / "g", read_settings(tmp_path / "g")) == 60 * 16).all()
