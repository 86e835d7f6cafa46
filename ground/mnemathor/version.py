"""The version, as the header has it: include/mnemathor.h is the one place that says it."""

import re
from importlib import metadata
from pathlib import Path


def _version() -> str:
    # Alone, as setuptools runs this file: by the installed header, or the checkout's.
    here = Path(__file__).resolve().parent
    for header in (here / "mnemathor.h", here.parents[1] / "include" / "mnemathor.h"):
        if header.exists():
            pattern = r"^#define MN_VERSION_(?:MAJOR|MINOR|PATCH) (\d+)$"
            return ".".join(re.findall(pattern, header.read_text(encoding="utf-8"), re.MULTILINE))
    # A package that setuptools made of the checkout.
    return metadata.version("mnemathor")


VERSION = _version()
