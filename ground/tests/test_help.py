"""Every subcommand's help, as a user asks for it, and what is said where packages or the library
are missing.
"""

import re
import sys

import pytest
from conftest import HERE, ROOT

from mnemathor.commands import parser

DESK = ["why", "rival", "index", "compare", "cut"]
GROUND = [
    "frame",
    "catalogue",
    "settings",
    "lens",
    "solve",
    "follow",
    "compare-nights",
    "preflight",
    "picture",
    "page",
    "simulate",
    "trial",
]


def test_help_lists_all_subcommands_a_line_each(mnemathor):
    for word in ("help", "--help", "-h"):
        answer = mnemathor(word)
        assert answer.returncode == 0 and answer.stderr == ""
        named = re.findall(r"^\./mnemathor ([a-z-]+) [A-Z\[]", answer.stdout, re.MULTILINE)
        assert named == DESK + GROUND + ["install"]


def test_the_lines_are_those_of_the_package(mnemathor):
    lines = dict(
        re.findall(r"^\./mnemathor ([a-z-]+) .*?  +(.*)$", mnemathor("help").stdout, re.MULTILINE)
    )
    (choices,) = [action for action in parser()._actions if action.choices]
    assert list(choices.choices) == GROUND
    for told in choices._choices_actions:
        assert lines[told.dest] == told.help


@pytest.mark.parametrize("name", [*DESK, *GROUND, "install"])
def test_every_subcommand_has_help(mnemathor, name):
    answer = mnemathor(name, "--help")
    assert answer.returncode == 0 and answer.stderr == ""
    assert (
        answer.stdout.startswith(f"usage: ./mnemathor {name} ")
        and len(answer.stdout.splitlines()) > 3
    )


def test_missing_packages_are_named_with_the_command(mnemathor, tmp_path):
    bare = tmp_path / "python"
    bare.write_text(f'#!/bin/sh\nexec {sys.executable} -I -S "$@"\n')
    bare.chmod(0o755)
    answer = mnemathor("solve", tmp_path, MNEMATHOR_PYTHON=str(bare))
    assert answer.returncode == 2 and answer.stdout == ""
    for word in ("numpy", "astropy", "matplotlib", "tqdm", "ground/setup"):
        assert word in answer.stderr
    # The desk's help and the list need no Python.
    assert mnemathor("why", "--help", MNEMATHOR_PYTHON="/nowhere").returncode == 0
    assert mnemathor("help", MNEMATHOR_PYTHON="/nowhere").returncode == 0
    assert "does not run" in mnemathor("solve", tmp_path, MNEMATHOR_PYTHON="/nowhere").stderr


def test_a_missing_library_is_told_with_the_command(mnemathor, folder):
    answer = mnemathor("simulate", folder, MNEMATHOR_LIBRARY="/nowhere.so")
    assert answer.returncode == 2 and "./library" in answer.stderr


def test_setup_does_nothing_where_all_is_there(mnemathor):
    import subprocess

    done = subprocess.run(
        [HERE / "setup"],
        env={"MNEMATHOR_PYTHON": sys.executable, "PATH": "/nowhere:/usr/bin:/bin"},
        capture_output=True,
        check=False,
    )
    assert done.returncode == 0 and done.stdout + done.stderr == b""


def test_commands_md_has_a_section_for_each_subcommand_and_for_nothing_else():
    sections = re.findall(
        r"^### (.*)\n\n    \./mnemathor (.*)$",
        (ROOT / "docs" / "COMMANDS.md").read_text(),
        re.MULTILINE,
    )
    told = [
        line[2:].split(" | ")
        for line in (HERE / "help.txt").read_text().splitlines()
        if line.startswith("= ")
    ]
    names = ["program" if usage.startswith("[") else usage.split()[0] for usage, _ in told]
    assert sections == [(f"{name}: {line}", usage) for name, (usage, line) in zip(names, told)]
    assert (ROOT / "docs" / "COMMANDS.md").read_text().count("\n### ") == len(told)


def test_changelog_begins_with_the_version_of_the_header(mnemathor):
    newest = re.search(r"^## ([0-9.]+)$", (ROOT / "CHANGELOG.md").read_text(), re.MULTILINE)[1]
    assert mnemathor("--version").stdout == f"mnemathor {newest}\n"


def test_readme_is_short():
    assert len((ROOT / "README.md").read_bytes()) <= 8192


def test_the_commands_of_settings_md_are_commands():
    guide = (ROOT / "docs" / "SETTINGS.md").read_text()
    lines = re.findall(r"^    \./mnemathor (.*)$", guide, re.MULTILINE)
    assert len(lines) > 8
    for line in lines:
        words = [
            {"K": "1", "J": "0.1", "W": "4.5", "A": "0.1", "M": "8", "P": "1", "C": "1"}.get(
                word, word
            )
            for word in line.split()
        ]
        assert parser().parse_args(words).run
