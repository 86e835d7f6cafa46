"""Nothing that the tools did not make is overwritten, and no link, FIFO or device is replaced."""

import json
import os
import threading
from dataclasses import replace

import numpy as np
import pytest
from conftest import HERE

from mnemathor.folder import read_settings, settings_bytes
from mnemathor.keeping import made

TOML = (HERE / "data" / "camera.toml").read_text()


@pytest.fixture
def image(tmp_path):
    np.save(
        tmp_path / "image.npy",
        np.random.default_rng(1).integers(0, 200, (160, 200)).astype(np.uint8),
    )
    return tmp_path / "image.npy"


def test_a_hand_written_toml_file_stays(run, folder, tmp_path):
    own = tmp_path / "camera.toml"
    own.write_text(TOML)
    status, out, err = run("settings", folder, own)
    assert (status, out) == (2, "") and "--force" in err and own.read_text() == TOML
    assert run("settings", folder, own, "--force")[0] == 0 and own.read_text() != TOML
    # What settings wrote it may write again, until a line is changed.
    assert run("settings", folder, own)[0] == 0
    own.write_text(own.read_text() + "# mine\n")
    assert run("settings", folder, own)[0] == 2


def test_simulate_leaves_the_frame_of_an_image(run, folder, image):
    assert run("simulate", folder)[0] == 0
    assert run("simulate", folder, "--seed", 2)[0] == 0
    assert run("frame", image, folder)[0] == 0
    frame = (folder / "frame.bin").read_bytes()
    status, _, err = run("simulate", folder)
    assert (
        status == 2
        and "was made by frame; --force" in err
        and (folder / "frame.bin").read_bytes() == frame
    )
    assert (
        run("simulate", folder, "--force")[0] == 0 and (folder / "frame.bin").read_bytes() != frame
    )


def test_frame_takes_the_truth_of_another_frame_away(run, folder, image):
    assert run("simulate", folder)[0] == 0 and (folder / "truth.json").exists()
    assert run("frame", image, folder)[0] == 0
    assert not (folder / "truth.json").exists() and "truth.json" not in made(folder)


@pytest.mark.parametrize("name", ["frame.bin", "settings.bin", "catalogue.bin"])
def test_files_of_somebody_else_stay(run, folder, settings, image, tmp_path, name):
    (tmp_path / "camera.toml").write_text(TOML)
    words = {
        "frame.bin": ("frame", image, folder),
        "settings.bin": ("settings", tmp_path / "camera.toml", folder),
        "catalogue.bin": (
            "catalogue",
            HERE / "data" / "bright-stars.csv",
            folder,
            "--brightest",
            100,
        ),
    }[name]
    own = {
        "frame.bin": bytes(64000),
        "settings.bin": settings_bytes(replace(settings, threshold=77)),
        "catalogue.bin": bytes(20),
    }[name]
    (folder / name).write_bytes(own)
    status, _, err = run(*words)
    assert status == 2 and "--force overwrites it" in err and (folder / name).read_bytes() == own
    assert run(*words, "--force")[0] == 0 and (folder / name).read_bytes() != own
    assert run(*words)[0] == 0


def test_a_link_is_not_replaced(run, folder, image, tmp_path):
    (tmp_path / "real.bin").write_bytes(b"real")
    (folder / "frame.bin").symlink_to(tmp_path / "real.bin")
    for words in (("frame", image, folder), ("simulate", folder), ("simulate", folder, "--force")):
        status, _, err = run(*words)
        assert status == 2 and "is a link to" in err
    assert (folder / "frame.bin").is_symlink() and (tmp_path / "real.bin").read_bytes() == b"real"
    (tmp_path / "out.toml").symlink_to(tmp_path / "nowhere.toml")
    assert (
        run("settings", folder, tmp_path / "out.toml")[0] == 2
        and (tmp_path / "out.toml").is_symlink()
    )


def test_a_fifo_is_written_into(run, folder, tmp_path):
    assert run("simulate", folder)[0] == 0
    fifo = tmp_path / "out.png"
    os.mkfifo(fifo)
    read = []
    reader = threading.Thread(target=lambda: read.append(fifo.read_bytes()))
    reader.start()
    assert run("picture", folder, fifo)[0] == 0
    reader.join(10)
    assert fifo.is_fifo() and read[0].startswith(b"\x89PNG")
    (folder / "frame.bin").unlink()
    os.mkfifo(folder / "frame.bin")
    assert run("simulate", folder)[0] == 2 and (folder / "frame.bin").is_fifo()


def test_a_picture_of_somebody_else_stays(run, folder, tmp_path):
    assert run("simulate", folder)[0] == 0
    out = tmp_path / "out.png"
    out.write_bytes(b"mine")
    status, _, err = run("picture", folder, out)
    assert status == 2 and "--force" in err and out.read_bytes() == b"mine"
    assert run("picture", folder, out, "--force")[0] == 0 and run("picture", folder, out)[0] == 0


def test_a_calibrated_centre_is_not_lost(run, folder, image, tmp_path):
    (tmp_path / "camera.toml").write_text(TOML + "\n")
    (tmp_path / "centre.toml").write_text(
        TOML.replace("threshold = 200", "centre = [101.5, 78.25]\nthreshold = 200")
    )
    assert run("settings", tmp_path / "centre.toml", folder)[0] == 0
    before = read_settings(folder)
    status, _, err = run("frame", image, folder, "--crop", 0, 0, 100, 100)
    assert (
        status == 2
        and "column 101.5, row 78.25" in err
        and read_settings(folder) == before
        and not (folder / "frame.bin").exists()
    )
    assert run("frame", image, folder)[0] == 0 and read_settings(folder) == before
    assert (
        run("frame", image, folder, "--crop", 0, 0, 100, 100, "--force")[0] == 0
        and read_settings(folder).cx == 49.5 * 256
    )


def test_settings_read_how_the_frame_was_binned(run, image, tmp_path):
    (tmp_path / "camera.toml").write_text(TOML)
    _, out, _ = run("frame", image, tmp_path / "f", "--bin", 2)
    assert (
        "binned 2 x 2" in out
        and json.loads((tmp_path / "f" / "made.json").read_text())["frame.bin"]["binning"] == 2
    )
    status, out, _ = run("settings", tmp_path / "camera.toml", tmp_path / "f")
    assert (
        status == 0
        and "binned 2 x 2" in out
        and "1031.3 arc seconds a pixel in the middle; the field is 28.07 x 22.62 degrees" in out
    )
    assert read_settings(tmp_path / "f").focal == 200 * 256
    # There and back: what settings writes is in the frame's own pixels.
    assert run("settings", tmp_path / "f", tmp_path / "back.toml")[0] == 0
    assert (
        run("settings", tmp_path / "back.toml", tmp_path / "f")[0] == 0
        and read_settings(tmp_path / "f").focal == 200 * 256
    )
    _, out, _ = run("frame", image, tmp_path / "f")
    assert "WARNING: the settings' lens is for frames binned 2 x 2" in out
