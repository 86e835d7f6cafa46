"""What a refused frame is told: 12 and 13 with what was measured, and what would fit instead."""

import json
from dataclasses import replace

import numpy as np
import pytest

from mnemathor import diagnosis
from mnemathor.attitude import Pointing
from mnemathor.folder import SAMPLE, settings_bytes
from mnemathor.simulation import Weather, simulate

ORION = Pointing(83.5, -1, 350)


@pytest.fixture
def camera(folder, settings, catalogue):
    """Puts a frame and settings into the folder; hands back the samples."""

    def put(frame_settings=settings, own=settings, samples=None, **weather):
        made = (
            simulate(frame_settings, catalogue, 6, Weather(**weather), ORION).samples
            if samples is None
            else samples
        )
        (folder / "frame.bin").write_bytes(made.astype(SAMPLE).tobytes())
        (folder / "settings.bin").write_bytes(settings_bytes(own))
        return made

    return put


def test_too_few_stars_with_what_was_measured(run, folder, settings, camera):
    frame = np.full((160, 200), 40, np.uint16)
    frame[::2, ::2] = 44
    frame[50:53, 60:63] = 300
    frame[51, 61] = frame[100, 100] = frame[0, 0] = 4095
    camera(samples=frame)
    status, out, err = run("solve", folder)
    assert status == 1 and err.startswith("refused 12 0")
    assert "measured 1 edge 1 lone 1; 4 stars are needed" in out
    assert " 0 column   61.000 row   51.000 brightness" in out
    assert "sky 40, noise 1.7, brightest sample 4095, 3 samples saturated" in out
    assert "threshold 200, twice the sky is 80: it may be lowered, to 89 or so" in out
    assert "stars for a field of this size, on average" in out
    told = json.loads(run("solve", folder, "--json")[1])
    assert told["refused"] == {
        "number": 12,
        "place": 0,
        "sentence": "there are fewer directions than needed",
    }
    assert (told["measured"], told["saturated"], told["sky"], len(told["listed"])) == (
        1,
        3,
        40.0,
        1,
    )


def test_a_threshold_below_twice_the_sky(run, folder, settings, camera):
    camera(own=replace(settings, threshold=70), samples=np.full((160, 200), 40, np.uint16))
    assert "twice the sky is 80: hot pixels are taken for stars" in run("solve", folder)[1]


def test_a_dark_frame(run, folder, camera):
    camera(samples=np.full((160, 200), 12, np.uint16))
    assert "no sample reaches the threshold" in run("solve", folder)[1]


def test_the_number_of_stars_of_a_field(settings, catalogue, camera):
    """As many as random attitudes have in the frame, on average."""
    from mnemathor.attitude import in_frame, random_matrix, vectors

    random = np.random.default_rng(1)
    counts = [
        np.count_nonzero(in_frame(random_matrix(random), vectors(catalogue), settings)[2])
        for _ in range(2000)
    ]
    assert diagnosis.measure(settings, camera(), catalogue).expected == pytest.approx(
        np.mean(counts), rel=0.05
    )


def test_another_focal_length(run, folder, settings, camera):
    camera(own=replace(settings, focal=round(1.02 * settings.focal)))
    status, out, err = run("solve", folder)
    assert status == 1 and err.startswith("refused 13 0") and "sky 40" in out
    (told,) = [float(part.split()[0]) for part in err.split("with a focal length of ")[1:]]
    assert abs(told - settings.focal / 256) < 0.005 * settings.focal / 256
    assert "focal" in json.loads(run("solve", folder, "--json")[1])["would_fit"]


def test_a_mirror(run, folder, settings, camera):
    camera(own=replace(settings, needed=5), mirror=True)
    assert set(json.loads(run("solve", folder, "--json")[1])["would_fit"]) >= {"mirror"}
    assert "is the readout mirrored?" in run("solve", folder)[2]


def test_a_wider_tolerance(run, folder, settings, camera):
    camera(own=replace(settings, tolerance=settings.tolerance // 16), jitter=0.15)
    status, _, err = run("solve", folder)
    assert status == 1 and "times as wide, it would fit" in err


def test_one_needed_fewer(run, folder, settings, catalogue, camera):
    frame = camera().copy()
    frame[59:62, 29:32] = 3500
    frame[60, 30] = 4095
    camera(own=replace(settings, needed=8), samples=frame)
    status, _, err = run("solve", folder)
    assert status == 1 and "with a needed count of 7 it would fit, with 7 names" in err, err


def test_json_of_an_accepted_frame_has_it_too(run, folder, camera):
    camera()
    told = json.loads(run("solve", folder, "--json")[1])
    assert (
        told["refused"] is None
        and told["stars"]
        and told["sky"] == 40.0
        and told["threshold"] == 200
        and told["agreeing"] == 8
    )
