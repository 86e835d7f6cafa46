"""The made night as it was at first: no other field, and hot pixels at other places in each frame.
What the tests know of it by numbers still holds.
"""

import json
from dataclasses import replace

import numpy as np

from mnemathor import nights
from mnemathor.attitude import Pointing, matrix_of
from mnemathor.nights import DRIFT, ROLL, SLEW, SLEWED, START, Moment
from mnemathor.simulation import Weather, render

STRETCHES = {name: nights.STRETCHES[name] for name in ("cloud", "satellite", "mirrored")}


def moment(number, frames):
    """The frame of that number in a night of so many."""
    part = number / frames
    ra = START.ra + DRIFT * number + (SLEWED if part >= SLEW else 0)
    pointing = Pointing(ra, START.dec + DRIFT * number / 2, (START.roll + ROLL * number) % 360)
    # Hot pixels come with the cold.
    weather = Weather(hot=int(6 * part), jitter=0.05)
    damage = nights.DAMAGES.get(number % 40)
    if damage:
        return Moment(damage, pointing, weather)
    for kind, (low, high) in STRETCHES.items():
        if low <= part < high:
            return Moment(kind, pointing, replace(weather, **nights.SPOILT.get(kind, {})))
    return Moment("clear", pointing, weather)


def make(folder, settings, catalogue, frames, seed=0):
    """Writes the frames of a night as FITS files into a folder, and truth.jsonl beside it; hands
    back that file.
    """
    folder.mkdir(parents=True)
    truth = folder.parent / "truth.jsonl"
    with open(truth, "w", encoding="utf-8") as file:
        for number in range(frames):
            here = moment(number, frames)
            random, where = np.random.default_rng((seed, number)), here.pointing
            made = render(settings, catalogue, random, here.weather, matrix_of(where))
            samples, name = made.samples, f"frame-{number:04}.fits"
            if here.kind == "satellite":
                samples = nights._crossed(samples, number)
            nights._write(folder / name, here.kind, samples, number)
            told = {"file": name, "kind": here.kind}
            told |= {"ra": where.ra, "dec": where.dec, "roll": where.roll}
            told["stars"] = {star.identity: [star.column, star.row] for star in made.stars}
            file.write(json.dumps(told) + "\n")
    return truth
