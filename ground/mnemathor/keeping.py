"""What the tools made, and what they must not write over.

A camera's folder has a file made.json, which says of each file that the tools wrote there which
command wrote it, and the hash of its bytes. A file that is not named there, or has changed since,
is somebody's own: it is overwritten with --force alone. A link, a FIFO or a device is never
replaced.
"""

from __future__ import annotations

import hashlib
import json
import os
import stat
import tempfile
from collections.abc import Mapping, Sequence
from pathlib import Path
from typing import Any

from .arrays import Where
from .refusals import Mistake, Unwritten

RECORD = "made.json"
# Every file that the tools draw or write for people has this in its bytes.
OURS = b"mnemathor"


def made(folder: Where) -> dict[str, Any]:
    """What made.json says, by file; nothing where it is missing or is no such file."""
    try:
        told = json.loads((Path(folder) / RECORD).read_text(encoding="utf-8"))
    except (OSError, ValueError):
        return {}
    return (
        {name: entry for name, entry in told.items() if isinstance(entry, dict)}
        if isinstance(told, dict)
        else {}
    )


def record_of(folder: Where, name: str) -> dict[str, Any]:
    """What made.json says about a file that is still as the tools wrote it; else nothing."""
    entry = made(folder).get(name, {})
    try:
        return entry if entry.get("sha256") == _hash((Path(folder) / name).read_bytes()) else {}
    except OSError:
        return {}


def write_folder(
    folder: Where,
    files: Mapping[str, bytes],
    by: str = "tools",
    over: Sequence[str] | None = None,
    force: bool = False,
    about: Mapping[str, Any] | None = None,
    gone: Sequence[str] = (),
    kept: Sequence[str] = (),
) -> None:
    """Writes all files of a folder, given as name and bytes, or none: each comes whole, by a
    rename.

    A file that is there is overwritten if it has the same bytes, or if made.json says that one of
    the commands `over` wrote it (any command, where none is named) and it is still as it was then,
    or with force. Of the files `kept` the caller changes some numbers and keeps the rest, so that
    it does not matter whose they were. The files `gone` are taken away if the tools made them.
    `about` goes into the record of the first file.
    """
    folder = Path(folder)
    entries = made(folder)
    for name, contents in files.items():
        _guard(folder / name, contents, entries.get(name, {}), over, force or name in kept)
    left = [name for name in gone if record_of(folder, name)]
    entries = {name: entry for name, entry in entries.items() if name not in left}
    for place, (name, contents) in enumerate(files.items()):
        entries[name] = {"by": by, "sha256": _hash(contents), **(about or {} if place == 0 else {})}
    _put(folder, {**files, RECORD: json.dumps(entries, indent=1).encode()})
    for name in left:
        (folder / name).unlink(missing_ok=True)


def may_write(path: Where, force: bool = False) -> None:
    """Refuses a path that `write_file` would refuse: in no folder, a folder, a link to a file, or a
    file that is not ours.
    """
    path = Path(path)
    if not path.parent.is_dir():
        raise Mistake(f"{path.parent} is not a folder")
    if path.is_dir():
        raise Mistake(f"{path} is a folder; a file is wanted")
    if os.path.lexists(path) and (path.is_file() or not path.exists()):
        _no_link(path)
        if not force and not is_ours(path):
            raise Mistake(
                f"{path} is there already, and these tools did not make it, or it was changed"
                " since; --force overwrites it"
            )


def write_file(path: Where, contents: bytes, force: bool = False) -> None:
    """Writes one file whole or not at all; a FIFO or a device is written into."""
    path = Path(path)
    may_write(path, force)
    if path.exists() and not path.is_file():
        _pour(path, contents)
    else:
        _put(path.parent, {path.name: contents})


def is_ours(path: Where) -> bool:
    """Whether a picture or a text was made by these tools: it says so itself.

    A TOML file also says which bytes it had.
    """
    contents = Path(path).read_bytes()
    if Path(path).suffix == ".toml":
        first, _, rest = contents.partition(b"\n")
        return first.split()[-1:] == [text_mark(rest)]
    return OURS in contents


def text_mark(rest: bytes) -> bytes:
    """The mark of a text's lines, in the line before them."""
    return _hash(rest)[:16].encode()


def _hash(contents: bytes) -> str:
    return hashlib.sha256(contents).hexdigest()


def _guard(
    path: Path, contents: bytes, entry: Mapping[str, Any], over: Sequence[str] | None, force: bool
) -> None:
    """Refuses to write over what is not the tools' own."""
    if not os.path.lexists(path):
        return
    _no_link(path)
    if not path.is_file():
        raise Mistake(f"{path} is no file, and is not replaced")
    before = path.read_bytes()
    if force or before == contents:
        return
    if entry.get("sha256") != _hash(before):
        raise Mistake(
            f"{path} is there already, and these tools did not make it, or it was changed since;"
            " --force overwrites it"
        )
    if over is not None and entry.get("by") not in over:
        raise Mistake(f"{path} was made by {entry.get('by')}; --force overwrites it")


def _no_link(path: Path) -> None:
    if stat.S_ISLNK(os.lstat(path).st_mode):
        raise Mistake(
            f"{path} is a link to {os.readlink(path)}, and is not replaced; name the file itself,"
            " or take the link away"
        )


def _pour(path: Path, contents: bytes) -> None:
    try:
        with open(path, "wb") as file:
            file.write(contents)
    except OSError as error:
        raise Unwritten(f"{path} could not be written: {error.strerror or error}") from error


def _put(folder: Path, files: Mapping[str, bytes]) -> None:
    """All files in temporary ones first; then each takes its place."""
    waiting = []
    try:
        folder.mkdir(parents=True, exist_ok=True)
        for name, contents in files.items():
            waiting.append((_waiting(folder, name, contents), folder / name))
        while waiting:
            os.replace(*waiting[0])
            waiting.pop(0)
    except (FileExistsError, NotADirectoryError) as error:
        raise Mistake(f"{folder} is no folder") from error
    except OSError as error:
        raise Unwritten(f"{folder} could not be written: {error.strerror or error}") from error
    finally:
        for left, _ in waiting:
            os.unlink(left)


def _waiting(folder: Path, name: str, contents: bytes) -> str:
    """The bytes in a new file beside the one that they are for."""
    handle, path = tempfile.mkstemp(prefix=f".{name}.", dir=folder)
    try:
        with os.fdopen(handle, "wb") as file:
            file.write(contents)
            file.flush()
            os.fchmod(handle, 0o644)
    except BaseException:
        os.unlink(path)
        raise
    return path
