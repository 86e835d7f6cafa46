"""README's walk, command by command, as a new user would: from a FITS file and a star list to a
picture.
"""

import os
import re
import subprocess
import sys

from conftest import ROOT
from matplotlib.image import imread

README = (ROOT / "README.md").read_text()


def commands():
    """The walk's commands, in README's words."""
    walk = README.partition("## An evening on the ground")[2].partition("\n## ")[0]
    return re.findall(r"^    (\./mnemathor .*?)(?:  +#.*)?$", walk, re.MULTILINE)


def test_the_walk(tmp_path):
    lines = commands()
    assert [line.split()[1] for line in lines] == [
        "frame",
        "catalogue",
        "settings",
        "solve",
        "picture",
        "trial",
        "page",
    ]
    answers = {}
    for line in lines:
        words = re.sub(r"\bnight\b", str(tmp_path / "night"), line).replace(
            "--frames 500", "--frames 10 --lists 100 --alarms 0.05"
        )
        environment = {**os.environ, "MNEMATHOR_PYTHON": sys.executable}
        done = subprocess.run(
            words.split(), cwd=ROOT, env=environment, capture_output=True, text=True, check=False
        )
        assert done.returncode == 0, (line, done.stderr)
        answers[line.split()[1]] = done.stdout
    assert "frame 200 x 160" in answers["frame"]
    assert "477 stars" in answers["catalogue"]
    assert (
        answers["solve"].startswith("right ascension 83.50") and "WARNING" not in answers["solve"]
    )
    assert "recommended" in answers["trial"]
    drawn, shown = imread(tmp_path / "night.png"), imread(ROOT / "docs" / "pictures" / "orion.png")
    assert drawn.shape == shown.shape and (abs(drawn - shown).max(axis=2) > 0.2).mean() < 0.0005
    # README and docs/NIGHT.md show what solve prints.
    shown = README + (ROOT / "docs" / "NIGHT.md").read_text()
    for line in answers["solve"].splitlines():
        assert f"    {line.rstrip()}\n" in shown, line
