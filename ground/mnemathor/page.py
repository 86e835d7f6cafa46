"""The night page, one HTML file that needs no network.

It holds the proved library as a WebAssembly module, the page's own scripts and style from page/,
the texts that it quotes, and a folder's data.
"""

import base64
import hashlib
import json
import re
import zlib
from collections.abc import Iterable
from pathlib import Path
from typing import Any

from . import configuration, recorded
from .arrays import Samples
from .folder import RANGES, SAMPLE, read_catalogue, read_frame, read_settings, settings_bytes
from .reasons import REASONS
from .refusals import Mistake, beside, sentences
from .stars import GUESSES
from .version import VERSION

# What a script imports from another, and what it exports.
IMPORT = re.compile(r'^import (\{[^}]*\}) from "\./(\w+)\.mjs";', re.MULTILINE)
EXPORT = re.compile(r"^export ((?:const|class|function\*?|async function) (\w+))", re.MULTILINE)

# A frame to be put into a page: name, when it was taken, samples.
Shot = tuple[str, str | None, Samples]


def page(folder: Path | None, shots: Iterable[Shot] = (), whole: bool = False) -> bytes:
    """The page, with a folder's data and further frames inside, and all recorded calls or a few."""
    place = beside("night-page", "page")
    forms = json.loads(_text(place / "calls.json"))
    calls, told = _recorded(forms, whole)
    inside = {
        "module": packed(_made("module.wasm")),
        "calls": forms,
        "made": {"version": VERSION, "from": _made_from(), "proved": proved()},
        "texts": texts(),
        "folder": None if folder is None else folder_inside(folder, shots),
        "example": folder_inside(beside("../../data", "crates/mnemathor/data")),
        "recorded": calls,
    }
    style, script = _text(place / "page.css"), joined(place / "scripts")
    parts = {
        "style": style,
        "script": script,
        "style-hash": _policy(style),
        "script-hash": _policy(script),
        "self-test": told,
        # A closing tag would end the block that the data stand in.
        "inside": json.dumps(inside, separators=(",", ":")).replace("</", "<\\/"),
    }
    gap = re.compile(r"\{\{([\w-]+)\}\}")
    return gap.sub(lambda each: parts[each[1]], _text(place / "page.html")).encode()


def packed(contents: bytes) -> str:
    """Bytes as the page unpacks them: base64 of a zlib stream."""
    return base64.b64encode(zlib.compress(contents, 9)).decode()


def joined(place: Path) -> str:
    """The scripts as one: each is a function's body, behind those that it imports, and hands out
    what it exports.
    """
    bodies: dict[str, str] = {}

    def visit(name: str) -> None:
        if name in bodies:
            return
        text = _text(place / f"{name}.mjs")
        for _, other in IMPORT.findall(text):
            visit(other)
        given = ", ".join(each for _, each in EXPORT.findall(text))
        body = EXPORT.sub(r"\1", IMPORT.sub(r"const \1 = \2_script;", text))
        bodies[name] = f"const {name}_script = (() => {{\n{body}return {{ {given} }};\n}})();\n"

    visit("main")
    return '"use strict";\n' + "\n".join(bodies.values())


def texts() -> dict[str, Any]:
    """What the page says in words of the documents and of this package, so that they stand once."""
    return {
        "refusals": sentences(),
        "look": _looks(),
        "reasons": REASONS,
        "ranges": RANGES,
        "about": {number: list(names) for number, names in configuration.ABOUT.items()},
        "guesses": GUESSES,
    }


def proved() -> list[str]:
    """README's sentences about what is proved, in plain text."""
    readme = _text(beside("night-page/README.md", "README.md"))
    part = readme.partition("## What is proved")[2].partition("\nAssumed:")[0]
    points = re.findall(r"^\d+\. (.*(?:\n   .*)*)", part, re.MULTILINE)
    if not points:
        raise Mistake("README.md has no list of what is proved")
    return [" ".join(point.split()).replace("`", "") for point in points]


def folder_inside(folder: Path, shots: Iterable[Shot] = ()) -> dict[str, Any]:
    """A folder's settings, catalogue and frame, or other frames of that size in its place."""
    settings = read_settings(folder)
    taken = list(shots)
    if not taken and (folder / "frame.bin").exists():
        taken = [("frame.bin", None, read_frame(folder, settings))]
    there = (folder / "catalogue.bin").exists()
    return {
        "settings": packed(settings_bytes(settings)),
        "catalogue": packed(read_catalogue(folder).tobytes()) if there else None,
        "frames": [_frame_inside(*shot) for shot in taken],
    }


def _frame_inside(name: str, date: str | None, samples: Samples) -> dict[str, Any]:
    """A frame with its name and time."""
    return {
        "name": Path(name).name,
        "date": date,
        "samples": packed(samples.astype(SAMPLE).tobytes()),
    }


def _recorded(forms: dict[str, Any], whole: bool) -> tuple[dict[str, Any], str]:
    """The recorded calls for the self-test, and what is said about them."""
    cases, expected = recorded.read()
    of = len(expected)
    told = f"This page has all {of:,} of them inside."
    if not whole:
        cases, expected = recorded.few(cases, expected, forms)
        told = (
            f"This page has {len(expected):,} of the {of:,} inside, some of every kind; one made"
            " with --self-test has all."
        )
    lines = "\n".join(expected).encode()
    return {"cases": packed(cases), "expected": packed(lines), "of": of}, told


def _looks() -> dict[int, str]:
    """What docs/COMMANDS.md says to look at, by number."""
    commands = _text(beside("night-page/COMMANDS.md", "docs/COMMANDS.md"))
    table = commands.partition("| number | what is wrong |")[2].partition("\n\n")[0]
    rows = re.findall(r"^\| (\d+) \| (.*?) \|$", table, re.MULTILINE)
    return {int(number): told.strip() for number, told in rows}


def _policy(text: str) -> str:
    """The hash by which the page's security policy knows its own script or style."""
    return f"sha256-{base64.b64encode(hashlib.sha256(text.encode()).digest()).decode()}"


def _made_from() -> str:
    """The hash of the sources that the module was made from."""
    return _made("made-from").split()[0].decode()


def _made(name: str) -> bytes:
    """A file that page/build made."""
    path = beside(f"night-page/{name}", f"target/page/{name}")
    return _file(path, "; the command page/build makes it")


def _text(path: Path) -> str:
    """A file of text."""
    return _file(path).decode()


def _file(path: Path, mend: str = "") -> bytes:
    """A file's bytes; one that cannot be read is a mistake, with what mends it."""
    try:
        return path.read_bytes()
    except OSError as error:
        raise Mistake(f"{path}: {error.strerror or error}{mend}") from error
