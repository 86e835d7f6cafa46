"""What the tests share: a camera with bright stars, and ways to run the subcommands."""

import os
import subprocess
import sys
from pathlib import Path

import numpy as np
import pytest

from mnemathor import commands, library, stars
from mnemathor.configuration import read_toml
from mnemathor.folder import STAR, Settings, settings_bytes
from mnemathor.keeping import write_folder

HERE = Path(__file__).resolve().parents[1]
ROOT = HERE.parent
BRIGHT = HERE / "data" / "bright-stars.csv"


def pytest_report_header():
    return f"library: {library.path()}"


@pytest.fixture(scope="session")
def settings():
    """The camera of README's walk."""
    return read_toml(HERE / "data" / "camera.toml", Settings().of_size(200, 160))


@pytest.fixture(scope="session")
def catalogue():
    """The 512 brightest stars."""
    return stars.select(stars.read_stars(BRIGHT), brightest=512).records


@pytest.fixture
def folder(tmp_path, settings, catalogue):
    """A folder with settings and catalogue, and no frame yet."""
    where = tmp_path / "camera"
    write_folder(where, {"settings.bin": settings_bytes(settings)}, "settings")
    write_folder(where, {"catalogue.bin": catalogue.tobytes()}, "catalogue")
    return where


@pytest.fixture
def run(capsys):
    """Runs a subcommand in this process: status, and what it told on either stream."""

    def running(*words):
        status = commands.main([str(word) for word in words])
        told = capsys.readouterr()
        return status, told.out, told.err

    return running


@pytest.fixture
def mnemathor():
    """Runs ./mnemathor as a user would."""

    def running(*words, **variables):
        environment = {**os.environ, "MNEMATHOR_PYTHON": sys.executable, **variables}
        return subprocess.run(
            [ROOT / "mnemathor", *map(str, words)],
            env=environment,
            capture_output=True,
            text=True,
            check=False,
        )

    return running


def three_stars():
    """The built-in case: settings, frame and catalogue of document 01's listing."""
    frame = np.zeros((120, 160), np.uint16)
    for row, column in ((60, 32), (60, 128), (108, 80)):
        frame[row, column - 1 : column + 2] = 50, 100, 50
    records = np.zeros(3, STAR)
    records["identity"] = 11, 22, 33
    records["x"], records["y"], records["z"] = (
        (-600000000, 600000000, 0),
        (0, 0, 600000000),
        800000000,
    )
    return Settings(160, 120, 50, 3, 20480, 15360, 16384, 0), frame, records
