"""The checks before a flight as a page for the log book: one file, with its plots in it."""

import base64
import html
from collections.abc import Iterator
from datetime import datetime, timezone

import numpy as np
from matplotlib.figure import Figure

from . import pictures
from .checks import BAD, DOUBTFUL, GOOD, Check
from .folder import Settings
from .framechecks import Hot, Look
from .preflight import Preflight, hashes
from .trialchecks import Tried
from .version import VERSION

COLOURS = {GOOD: "#1a7f37", DOUBTFUL: "#9a6700", BAD: "#cf222e"}
STYLE = """
body { font: 15px/1.45 sans-serif; margin: 2em auto; max-width: 62em; padding: 0 1em;
       color: #1f2328; }
table { border-collapse: collapse; width: 100%; }
th, td { text-align: left; vertical-align: top; padding: .35em .6em;
         border-bottom: 1px solid #d1d9e0; }
td:first-child { font-weight: bold; white-space: nowrap; }
code { font-size: 90%; overflow-wrap: anywhere; }
figure { margin: 1.5em 0; } img { max-width: 100%; }
figcaption { color: #59636e; }
""" + "\n".join(
    f".{verdict} {{ color: {colour}; }}" for verdict, colour in COLOURS.items()
)


def page(made: Preflight) -> bytes:
    """The page of a preflight."""
    when = datetime.now(timezone.utc)
    title = f"Before the flight: {made.folder.resolve().name}"
    files = hashes(made.folder)
    head = f"{when:%Y-%m-%d %H:%M} UTC, mnemathor {VERSION}"
    parts = [
        "<!DOCTYPE html>",
        f'<html lang="en"><head><meta charset="utf-8"><title>{html.escape(title)}</title>',
        f"<style>{STYLE}</style></head><body>",
        f"<h1>{html.escape(title)}</h1>",
        f'<p>{head}. The worst verdict: <b class="{made.verdict}">{made.verdict}</b>.</p>',
        "<table><tr><th>check</th><th>verdict</th><th>figure, and what mends it</th></tr>",
        *map(_row, made.checks),
        "</table>",
        *_figures(made),
        "<h2>The files</h2>",
        *(f"<p>{name}: SHA-256 <code>{told}</code></p>" for name, told in files.items()),
        "</body></html>\n",
    ]
    return "\n".join(parts).encode()


def _row(check: Check) -> str:
    """A check as a row."""
    shown = check.mend if check.mend and check.verdict != GOOD else None
    mend = f"<br><code>{html.escape(shown)}</code>" if shown else ""
    verdict = f'<td class="{check.verdict}">{check.verdict}</td>'
    return f"<tr><td>{check.name}</td>{verdict}<td>{html.escape(check.figure)}{mend}</td></tr>"


def _figures(made: Preflight) -> Iterator[str]:
    """The plots, each with its words."""
    if made.settings is None or made.catalogue is None:
        return
    read = [each for each in made.seen if each.line["error"] is None]
    if made.told is not None:
        words = f"Catalogue stars in the frame, over attitudes anywhere in {made.told.region}."
        yield _figure(coverage_plot(made.settings, made.told), words)
    if read:
        words = "Twice the sky of each frame, and the threshold, which must lie above it."
        yield _figure(sky_plot(made.settings, read), words)
    if made.hot is not None and (made.hot.frames or made.hot.darks):
        words = f"Pixels that are lone: {len(made.hot.pixels)} in most frames or in a dark one."
        yield _figure(hot_plot(made.settings, read, made.hot), words)
    for each in read:
        if each.accepted and each.samples is not None:
            figure = pictures.picture(made.settings, each.samples, made.catalogue)
            yield _figure(figure, f"The first frame with an answer: {each.file}.")
            return


def _figure(figure: Figure, words: str) -> str:
    """A plot within the page."""
    contents = base64.b64encode(pictures.png(figure)).decode()
    caption = f"<figcaption>{html.escape(words)}</figcaption>"
    image = f'<img alt="{html.escape(words)}" src="data:image/png;base64,{contents}">'
    return f"<figure>{image}{caption}</figure>"


def coverage_plot(settings: Settings, told: Tried) -> Figure:
    """How many attitudes have how many catalogue stars in the frame."""
    figure = Figure(figsize=(8, 3), dpi=100, layout="constrained")
    axes = figure.subplots()
    most = int(told.coverage.counts.max())
    counts = np.bincount(told.coverage.counts, minlength=most + 1)
    colours = [COLOURS[GOOD if stars >= settings.needed else BAD] for stars in range(most + 1)]
    axes.bar(range(most + 1), 100 * counts / counts.sum(), color=colours)
    axes.set_xlabel(f"catalogue stars in the frame; {settings.needed} are needed")
    axes.set_ylabel("% of the attitudes")
    return figure


def sky_plot(settings: Settings, read: list[Look]) -> Figure:
    """Twice the sky with its noise, frame by frame, against the threshold."""
    figure = Figure(figsize=(8, 3), dpi=100, layout="constrained")
    axes = figure.subplots()
    sky, noise = (np.array([getattr(each, name) for each in read]) for name in ("sky", "noise"))
    places = np.arange(len(read))
    axes.errorbar(places, 2 * sky, 2 * noise, fmt=".", label="twice the sky, and its noise")
    axes.axhline(settings.threshold, color=COLOURS[GOOD], label="threshold")
    axes.set_ylim(0, 1.2 * max(settings.threshold, float((2 * sky + 2 * noise).max())))
    axes.set_xlabel("frame")
    axes.set_ylabel("sample")
    axes.legend(fontsize=8)
    return figure


def hot_plot(settings: Settings, read: list[Look], hot: Hot) -> Figure:
    """Where pixels are lone: in most frames, or in a few."""
    tall = 8 * settings.height / settings.width
    figure = Figure(figsize=(8, tall), dpi=100, layout="constrained")
    axes = figure.subplots()
    few = np.array([pixel for each in read for pixel in each.lone], float).reshape(-1, 2)
    most = np.array(hot.pixels, float).reshape(-1, 2)
    axes.plot(few[:, 1], few[:, 0], ".", color="#8c959f", markersize=4, label="in a frame")
    label = "in most frames or in a dark one"
    axes.plot(most[:, 1], most[:, 0], "x", color=COLOURS[BAD], markersize=7, label=label)
    axes.set_xlim(-0.5, settings.width - 0.5)
    axes.set_ylim(settings.height - 0.5, -0.5)
    axes.set_xlabel("column")
    axes.set_ylabel("row")
    axes.legend(fontsize=8)
    return figure
