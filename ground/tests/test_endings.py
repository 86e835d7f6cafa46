"""How runs end: 1 for a refusal, 2 for a mistake, 3 where something could not be written, 130 where
it was interrupted; a line each, and never a traceback.
"""

import os
import signal
import subprocess
import sys
import time

import numpy as np
import pytest
from conftest import HERE

import mnemathor
from mnemathor import endings
from mnemathor.refusals import Mistake, Refused, Unwritten


def python(*words, before="", stdout=subprocess.PIPE, **variables):
    """The package as ./mnemathor starts it; `before` is a program that runs first in the same
    shell.
    """
    environment = {**os.environ, "PYTHONPATH": str(HERE), **variables}
    return subprocess.run(
        [sys.executable, "-m", "mnemathor", *map(str, words)],
        env=environment,
        stdout=stdout,
        stderr=subprocess.PIPE,
        text=True,
        check=False,
    )


def ended(error):
    def run(_):
        raise error

    return endings.end(run, [])


@pytest.mark.parametrize(
    "error, status, told",
    [
        (Refused(13), 1, "refused 13 0: no assignment fits"),
        (Mistake("wrong"), 2, "mnemathor: wrong"),
        (Unwritten("full"), 3, "mnemathor: full"),
        (OSError(28, "No space left on device"), 3, "could not be written: No space left"),
        (KeyboardInterrupt(), 130, "mnemathor: stopped"),
        (MemoryError(), 2, "not enough memory"),
        (ZeroDivisionError("division by zero"), 2, "a fault of the tool: ZeroDivisionError"),
    ],
)
def test_every_ending_has_its_status_and_a_line(capsys, error, status, told):
    assert ended(error) == status
    err = capsys.readouterr().err
    assert told in err and len(err.splitlines()) == 1


@pytest.fixture
def solved(run, folder):
    assert run("simulate", folder, "--pointing", 83.5, -1, 350)[0] == 0
    return folder


def test_a_full_disk(solved, tmp_path):
    with open("/dev/full", "w") as full:
        answer = python("solve", solved, stdout=full)
    assert (
        answer.returncode == 3
        and answer.stderr == "mnemathor: the answer could not be written: No space left on device\n"
    )
    (tmp_path / "out.png").symlink_to("/dev/full")
    answer = python("picture", solved, tmp_path / "out.png")
    assert (
        answer.returncode == 3
        and "could not be written" in answer.stderr
        and (tmp_path / "out.png").is_symlink()
    )


def test_a_closed_pipe(solved):
    reading, writing = os.pipe()
    os.close(reading)
    with os.fdopen(writing, "w") as closed:
        answer = python("solve", solved, stdout=closed)
    assert (answer.returncode, answer.stderr) == (3, "")


def test_a_terminal_that_knows_ascii_alone(solved):
    answer = python("solve", solved, LC_ALL="C", PYTHONIOENCODING="ascii")
    assert answer.returncode == 0 and '0.0"' in answer.stdout
    answer = python(
        "trial", solved, "--frames", 2, "--needed", 4, LC_ALL="C", PYTHONIOENCODING="ascii"
    )
    assert answer.returncode == 0 and "at 22.6 deg" in answer.stdout


def test_interrupted_while_modules_load(tmp_path):
    """A module that waits stands for one that takes long."""
    (tmp_path / "astropy.py").write_text(
        "import time\nprint('loading', flush=True)\ntime.sleep(20)\n"
    )
    environment = {**os.environ, "PYTHONPATH": f"{tmp_path}:{HERE}"}
    default = lambda: signal.signal(signal.SIGINT, signal.default_int_handler)  # noqa: E731
    words = [sys.executable, "-m", "mnemathor", "solve", "nowhere"]
    with subprocess.Popen(
        words,
        env=environment,
        stdout=subprocess.PIPE,
        stderr=subprocess.PIPE,
        text=True,
        preexec_fn=default,
    ) as process:
        assert process.stdout.readline() == "loading\n"
        process.send_signal(signal.SIGINT)
        _, err = process.communicate(timeout=15)
    assert (process.returncode, err) == (130, "mnemathor: stopped\n")


def test_a_trial_that_is_interrupted_prints_what_it_has(folder):
    environment = {**os.environ, "PYTHONPATH": str(HERE)}
    default = lambda: signal.signal(signal.SIGINT, signal.default_int_handler)  # noqa: E731
    words = [
        sys.executable,
        "-m",
        "mnemathor",
        "trial",
        folder,
        "--frames",
        "1000000",
        "--needed",
        "4",
        "--tolerances",
        str(2 * 10**14),
        "--set",
    ]
    before = (folder / "settings.bin").read_bytes()
    process = subprocess.Popen(
        words,
        env=environment,
        stdout=subprocess.PIPE,
        stderr=subprocess.PIPE,
        text=True,
        preexec_fn=default,
        start_new_session=True,
    )
    time.sleep(12)
    os.killpg(process.pid, signal.SIGINT)
    out, err = process.communicate(timeout=30)
    assert process.returncode == 130 and "Traceback" not in err
    assert "recommended: tolerance 200000000000000" in out and "of 1000000 frames were tried" in err
    assert (folder / "settings.bin").read_bytes() == before


NUMBERS = [
    ("catalogue", ["--limit"], "nan"),
    ("catalogue", ["--apart"], "inf"),
    ("catalogue", ["--within", 3, "--around", 10], "nan"),
    ("catalogue", ["--brightest"], "99999999999999999999999"),
    ("simulate", ["--jitter"], "nan"),
    ("simulate", ["--spread"], "inf"),
    ("simulate", ["--noise"], "inf"),
    ("simulate", ["--pointing", 1, 2], "nan"),
    ("simulate", ["--seed"], "-1"),
    ("picture", ["--dpi"], "0"),
    ("picture", ["--pixel", 1], "99999999999999999999"),
    ("picture", ["--pixel", 1], "-1"),
    ("trial", ["--processes"], "0"),
    ("trial", ["--tolerances"], "18446744073709551616"),
    ("trial", ["--off"], "nan"),
    ("trial", ["--bound"], "nan"),
    ("frame", ["--full"], "inf"),
    ("frame", ["--bin"], "1e3"),
]


@pytest.mark.parametrize("name, option, value", NUMBERS)
def test_numbers_that_are_none(run, folder, tmp_path, name, option, value):
    first = {
        "catalogue": [HERE / "data" / "bright-stars.csv", folder],
        "frame": [HERE / "data" / "example.fits", folder],
    }.get(name, [folder])
    words = [name, *first, *([tmp_path / "out.png"] if name == "picture" else []), *option, value]
    status, out, err = run(*words)
    assert (status, out) == (2, "") and value in err and len(err.splitlines()) == 1, err


def test_wrong_words_are_told_in_a_line(run, folder):
    for words in (["solve"], ["solve", folder, "more"], ["sole", folder], ["picture", folder], []):
        status, out, err = run(*words)
        assert (status, out) == (2, "") and len(err.splitlines()) == 1 and "--help" in err


def test_a_trial_before_the_settings(run, tmp_path, folder, catalogue):
    np.save(tmp_path / "image.npy", np.full((160, 200), 40, np.uint8))
    assert run("frame", tmp_path / "image.npy", tmp_path / "f")[0] == 0
    (tmp_path / "f" / "catalogue.bin").write_bytes(catalogue.tobytes())
    status, out, err = run("trial", tmp_path / "f")
    assert (status, out) == (2, "") and "no lens yet: run settings first" in err


def test_odd_files_in_a_folder(run, solved, tmp_path):
    (solved / "frame.bin").unlink()
    os.mkfifo(solved / "frame.bin")
    assert run("solve", solved)[0] == 2
    (tmp_path / "file").write_text("no folder")
    status, _, err = run("solve", tmp_path / "file")
    assert status == 2 and "is not a folder" in err


def test_a_folder_whose_name_begins_with_a_dash(run, solved, monkeypatch):
    solved.rename(solved.parent / "-dash")
    monkeypatch.chdir(solved.parent)
    assert run("solve", "-dash")[0] == 0


def test_the_version_is_the_headers():
    header = (HERE.parent / "include" / "mnemathor.h").read_text()
    numbers = [
        line.split()[2] for line in header.splitlines() if line.startswith("#define MN_VERSION_")
    ]
    assert mnemathor.__version__ == ".".join(numbers) and len(numbers) == 3
