"""The catalogue of a flight: even choice, a night's sky, common names; catalogues compared."""

import json
from dataclasses import replace
from datetime import datetime, timedelta, timezone

import numpy as np
import pytest
from astropy import units as u
from astropy.coordinates import AltAz, EarthLocation, SkyCoord
from astropy.table import Table
from astropy.time import Time
from astropy.utils import iers
from conftest import BRIGHT

from mnemathor import comparison, coverage, evenly, stars
from mnemathor.attitude import Pointing, angle_between, in_frame, matrix_of, vectors
from mnemathor.folder import read_catalogue
from mnemathor.horizon import Night, direction_at, elevations, seen, sidereal_time
from mnemathor.region import Region, of_dict, of_folder

BEGIN = datetime(2026, 9, 21, 18, tzinfo=timezone.utc)
KIRUNA = Night(67.9, 21.1, BEGIN, BEGIN + timedelta(hours=9), 20, 60)
NIGHT = (
    "--site",
    67.9,
    21.1,
    "--from",
    "2026-09-21T18:00",
    "--to",
    "2026-09-22T03:00Z",
    "--elevation",
    20,
    60,
)


@pytest.fixture(scope="module")
def sky() -> np.ndarray:
    """The whole list."""
    return stars.read_stars(BRIGHT).records


@pytest.fixture
def offline():
    """astropy without any download, with what tables it has."""
    with iers.conf.set_temp("auto_download", False), iers.conf.set_temp(
        "iers_degraded_accuracy", "ignore"
    ):
        yield


def by_hand(rows: list[tuple], count: int, radius: float) -> list[int]:
    """The even choice, star by star, from right ascensions, declinations and magnitudes."""
    taken = []
    for name, ra, dec, magnitude in rows:
        brighter = 0
        for _, other_ra, other_dec, other in rows:
            across = np.sin(np.deg2rad(dec)) * np.sin(np.deg2rad(other_dec))
            across += (
                np.cos(np.deg2rad(dec))
                * np.cos(np.deg2rad(other_dec))
                * np.cos(np.deg2rad(ra - other_ra))
            )
            brighter += other < magnitude and across >= np.cos(np.deg2rad(radius))
        if brighter < count:
            taken.append(name)
    return taken


@pytest.mark.parametrize(("count", "radius"), [(1, 20.0), (3, 14.0), (8, 33.5)])
def test_the_even_choice_against_each_star_by_hand(run, tmp_path, count, radius):
    random = np.random.default_rng(5)
    # Few different magnitudes, so that many are equal.
    rows = [
        (
            k,
            random.uniform(0, 360),
            float(np.rad2deg(np.arcsin(random.uniform(-1, 1)))),
            round(random.uniform(0, 6), 1),
        )
        for k in range(300)
    ]
    lines = "".join(f"{name},{ra:.9f},{dec:.9f},{magnitude}\n" for name, ra, dec, magnitude in rows)
    (tmp_path / "list.csv").write_text("id,ra,dec,mag\n" + lines)
    status, out, err = run(
        "catalogue", tmp_path / "list.csv", tmp_path / "f", "--even", count, radius
    )
    expected = by_hand(rows, count, radius)
    assert status == 0 and 0 < len(expected) < 300, err
    assert read_catalogue(tmp_path / "f")["identity"].tolist() == expected
    assert (
        f"{300 - len(expected)} left out: {count} brighter ones or more within {radius:g} degrees"
        in out
    )


def test_chunks_have_no_say(sky, monkeypatch):
    whole = evenly.distances(sky[:700], 3)
    monkeypatch.setattr(evenly, "CHUNK", 7)
    assert np.allclose(evenly.distances(sky[:700], 3), whole, atol=1e-9)


def test_k_and_r_by_the_lens(run, folder, settings, sky):
    """R is the smallest hundredth that leaves at most 512; for a wide camera half a side."""
    status, out, _ = run("catalogue", BRIGHT, folder, "--even", "--force")
    chosen, (count, radius) = read_catalogue(folder), evenly.choose(sky, settings)
    assert status == 0 and f"fewer than {count} brighter ones within {radius:g} degrees" in out
    assert (
        len(chosen)
        == evenly.even(sky, count, radius).sum()
        <= 512
        < evenly.even(sky, count, radius - 0.011).sum()
    )
    wide = replace(settings, focal=settings.focal // 3)
    side = np.rad2deg(2 * np.arctan(160 / 2 / (wide.focal / 256)))
    assert evenly.choose(sky, wide) == (8, pytest.approx(side / 2, abs=0.011))


def test_an_even_choice_covers_more(settings, sky):
    """Of attitudes anywhere, more have four stars in the frame."""
    even = sky[evenly.even(sky, *evenly.choose(sky, settings))]
    brightest = sky[np.argsort(sky["magnitude"], kind="stable")[:512]]
    shares = [
        coverage.coverage(settings, each, Region(), 600).share(4) for each in (brightest, even)
    ]
    assert shares[0] < 0.85 and shares[1] > 0.93


def test_coverage_counts_what_can_be_measured(settings, sky):
    """Against a count by hand, at one attitude."""
    matrix = matrix_of(Pointing(83.5, -1, 350))
    columns, rows, inside = in_frame(matrix, vectors(sky), settings)
    by_hand = sum(
        1
        for c, r, i in zip(columns, rows, inside)
        if i and 3 <= c <= settings.width - 4 and 3 <= r <= settings.height - 4
    )
    assert 0 < by_hand == coverage.measurable(matrix, vectors(sky), settings).sum() < inside.sum()
    one = Region(around=(83.5, -1), within=0.0)
    counts = coverage.coverage(settings, sky, one, 20).counts
    assert (
        len(counts) == 20
        and abs(counts.mean() - by_hand) < 6
        and coverage.Coverage(counts).share(1) == 1.0
    )


def test_sidereal_time_against_astropy(offline):
    for days in (0, 0.3, 100.77, 4000):
        when = datetime(2020, 1, 1, tzinfo=timezone.utc) + timedelta(days=days)
        theirs = (
            Time(when.replace(tzinfo=None), scale="utc").sidereal_time("mean", 21.1 * u.deg).deg
        )
        # UT1 is within a second of UTC.
        assert abs((sidereal_time(when, 21.1) - theirs + 180) % 360 - 180) < 0.0045


def test_elevations_against_astropy(offline, sky):
    """Lowest and highest of a night, and the direction at an azimuth and elevation."""
    place = EarthLocation(lat=67.9 * u.deg, lon=21.1 * u.deg)
    some = vectors(sky[::60])
    theirs = SkyCoord(*some.T, representation_type="cartesian").spherical
    times = Time("2026-09-21T18:00:00") + np.linspace(0, 9, 541) * u.hour
    icrs = SkyCoord(theirs.lon, theirs.lat)
    altitudes = np.array(
        [icrs.transform_to(AltAz(obstime=when, location=place)).alt.deg for when in times[::4]]
    )
    lowest, highest = elevations(KIRUNA, some)
    # A look every four minutes, and a star may turn between two; aberration is 0.006 degrees.
    assert (
        abs(altitudes.min(0) - lowest).max() < 0.1 and abs(altitudes.max(0) - highest).max() < 0.1
    )
    assert np.median(abs(altitudes.min(0) - lowest)) < 0.01
    there = SkyCoord(AltAz(az=123 * u.deg, alt=33 * u.deg, obstime=times[0], location=place)).icrs
    ours = direction_at(KIRUNA, BEGIN, 123, 33)
    assert angle_between(ours, matrix_of(Pointing(there.ra.deg, there.dec.deg, 0))[2]) < 0.01 * 3600


def test_a_star_that_never_rises_is_left_out(run, folder, settings, sky):
    """At 67.9 north nothing below -22.1 rises; frames reach half a diagonal beyond the axis."""
    status, out, _ = run("catalogue", BRIGHT, folder, *NIGHT, "--brightest", 512, "--force")
    chosen = read_catalogue(folder)
    dec = np.rad2deg(np.arcsin(chosen["z"] / 1e9))
    assert status == 0 and "left out: never in a frame of that night" in out
    half = coverage.half_diagonal(settings)
    assert dec.min() > -22.1 + 20 - half - 0.2
    # Canopus never rises there, Polaris is 68 degrees high and within half a frame of 60.
    never, polaris = (
        matrix_of(Pointing(ra, declination, 0))[2:]
        for ra, declination in ((95.99, -52.70), (37.95, 89.26))
    )
    assert (
        not seen(KIRUNA, never, 90.0)[0]
        and not seen(KIRUNA, polaris)[0]
        and seen(KIRUNA, polaris, half)[0]
    )
    # A day has all hour angles: a star is left out by its declination alone.
    day = Night(67.9, 21.1, BEGIN, BEGIN + timedelta(hours=24), 0, 90)
    declinations = np.rad2deg(np.arcsin(vectors(sky)[:, 2]))
    up = seen(day, vectors(sky))
    assert up[declinations > -21.8].all() and not up[declinations < -22.4].any()


def test_the_region_is_kept_for_later(run, folder, settings):
    assert run("catalogue", BRIGHT, folder, *NIGHT, "--brightest", 512, "--force")[0] == 0
    assert of_folder(folder) == Region(night=KIRUNA) == of_dict(Region(night=KIRUNA).as_dict())
    random = np.random.default_rng(2)
    for _ in range(40):
        axis = of_folder(folder).attitude(random)[2:]
        assert seen(KIRUNA, axis, 0.02)[0]
    assert (
        run("catalogue", BRIGHT, folder, "--around", 83, -5, "--within", 40, "--brightest", 99)[0]
        == 0
    )
    half = coverage.half_diagonal(settings)
    near = of_folder(folder, half)
    assert near == Region((83.0, -5.0), 40 - half)
    for _ in range(20):
        assert angle_between(
            near.attitude(random)[2], matrix_of(Pointing(83, -5, 0))[2]
        ) <= 3600 * (40 - half)
    assert (
        run("catalogue", BRIGHT, folder, "--brightest", 500)[0] == 0
        and of_folder(folder) == Region()
    )


@pytest.mark.parametrize(
    ("words", "told"),
    [
        (("--site", 67.9, 21.1), "go together"),
        (("--from", "2026-09-21"), "go together"),
        (("--elevation", 20, 60), "go together"),
        (("--site", 121, 67, *NIGHT[3:]), "latitude 121"),
        ((*NIGHT[:4], "2026-09-22T04:00", *NIGHT[5:]), "--from must be earlier"),
        ((*NIGHT[:4], "tonight", *NIGHT[5:]), "tonight is no time such as 2026-09-21T20:30"),
        ((*NIGHT[:8], 60, 20), "the lower one comes first"),
        (("--even", 8), "a whole K and R"),
        (("--even", 2.5, 10), "a whole K and R"),
        (("--even", 0, 10), "a whole K and R"),
        (("--even", "--brightest", 5), "not allowed with"),
        (("--even", 60, 14), "refused 6 0"),
        (("--names",), "no column of names"),
    ],
)
def test_words_that_make_no_choice(run, folder, words, told):
    before = (folder / "catalogue.bin").read_bytes()
    status, out, err = run("catalogue", BRIGHT, folder, *words)
    assert status in (1, 2) and out == "" and told in err and len(err.splitlines()) == 1
    assert (folder / "catalogue.bin").read_bytes() == before


def test_even_wants_a_lens(run, tmp_path):
    status, _, err = run("catalogue", BRIGHT, tmp_path / "f", "--even")
    assert (
        status == 2
        and "run settings first, or say --even K R" in err
        and not (tmp_path / "f").exists()
    )


def with_names(path) -> None:
    """The list with a column of names, as HYG has it: most stars have none."""
    lines = [line for line in BRIGHT.read_text().splitlines() if not line.startswith("#")]
    names = {4: "Betelgeuse", 8: "Rigel", 10: "Rigil Kentaurus"}
    rows = [f"{line},{names.get(place, '')}" for place, line in enumerate(lines[1:], 1)]
    path.write_text("\n".join([f"{lines[0]},proper", *rows]) + "\n")


def test_common_names(run, folder, settings, tmp_path):
    from mnemathor.folder import SAMPLE
    from mnemathor.simulation import Weather, simulate

    with_names(tmp_path / "list.csv")
    assert run("catalogue", tmp_path / "list.csv", folder, "--brightest", 512, "--names")[0] == 0
    assert json.loads((folder / "names.json").read_text()) == {
        "4": "Betelgeuse",
        "8": "Rigel",
        "10": "Rigil Kentaurus",
    }
    made = simulate(settings, read_catalogue(folder), 6, Weather(), Pointing(83.5, -1, 350))
    (folder / "frame.bin").write_bytes(made.samples.astype(SAMPLE).tobytes())
    status, out, _ = run("solve", folder)
    (line,) = [line for line in out.splitlines() if "Betelgeuse" in line]
    assert status == 0 and line.split()[4] == "4" and line.endswith("″ Betelgeuse")
    assert json.loads(run("solve", folder, "--json")[1])["common_names"]["4"] == "Betelgeuse"
    status, out, _ = run("picture", folder, tmp_path / "p.svg")
    assert status == 0
    # Without the word the names go, since the identities may be other stars'.
    assert (
        run("catalogue", BRIGHT, folder, "--brightest", 512)[0] == 0
        and not (folder / "names.json").exists()
    )


def test_names_of_other_tables(run, tmp_path):
    """FITS has them as bytes, and a gap is no name."""
    table = Table(
        {"id": [3, 7], "ra": [1.5, 200], "dec": [2.5, 9], "mag": [1, 2], "Name": ["Deneb", ""]}
    )
    for name in ("t.fits", "t.ecsv", "t.vot"):
        table.write(tmp_path / name, format="votable" if name.endswith("vot") else None)
        assert run("catalogue", tmp_path / name, tmp_path / "f", "--names")[0] == 0
        assert json.loads((tmp_path / "f" / "names.json").read_text()) == {"3": "Deneb"}


def test_a_night_without_a_lens_is_told(run, tmp_path):
    words = ("catalogue", BRIGHT, tmp_path / "f", *NIGHT, "--brightest", 100)
    assert "no lens in the folder yet" in run(*words)[1]


def row(name: str, accepted: str, wrong: int = 0) -> comparison.Row:
    return comparison.Row(
        name, 500, 1, 4, tuple(each == "+" for each in accepted), wrong, None, None
    )


def test_which_catalogue_to_take():
    own, more, false = (
        row("own", "+" * 70 + "-" * 30),
        row("more", "+" * 90 + "-" * 10),
        row("false", "+" * 100, 1),
    )
    little = row("little", "+" * 73 + "-" * 27)
    assert comparison.take([own, more, false]).name == "more"
    assert comparison.take([own, little]).name == "own" and not comparison.differ(own, little)
    assert comparison.take([false, row("none", "-" * 100)]) is None
    assert comparison.take([false, own]).name == "own"
    # Six frames that one alone has are chance in 1 of 32 cases, five in 1 of 16.
    for more_frames, told in ((6, True), (5, False)):
        assert (
            comparison.differ(
                row("a", "+" * (50 + more_frames)), row("b", "+" * 50 + "-" * more_frames)
            )
            is told
        )


def test_catalogues_compared(run, folder, tmp_path):
    """Every other star against all: the same, whatever the number of processes."""
    thin = tmp_path / "thin"
    thin.mkdir()
    (thin / "catalogue.bin").write_bytes(read_catalogue(folder)[::2].tobytes())
    words = (
        "trial",
        thin,
        "--against",
        folder,
        "--sky",
        BRIGHT,
        "--frames",
        24,
        "--false",
        0,
        "--needed",
        4,
        5,
        "--lists",
        40,
    )
    (thin / "settings.bin").write_bytes((folder / "settings.bin").read_bytes())
    one = json.loads(run(*words, "--json", "--processes", 1)[1])
    assert one == json.loads(run(*words, "--json", "--processes", 3)[1])
    assert [
        (each["name"], each["stars"], each["needed"], each["frames"]) for each in one["rows"]
    ] == [
        (str(where), count, needed, 24)
        for needed in (4, 5)
        for where, count in ((thin, 256), (folder, 512))
    ]
    few, many = one["rows"][:2]
    assert (
        few["accepted"] < many["accepted"] and one["take"][0] == str(folder) and many["lists"] == 40
    )
    status, out, _ = run(*words)
    assert status == 0 and f"take {folder}: accepts {many['accepted']} of 24, no wrong name" in out
    assert "anywhere in the whole sky" in out


@pytest.mark.parametrize(
    ("words", "told"),
    [
        ((), "--against wants --sky"),
        (("--sky", BRIGHT), "named twice"),
        (("--sky", BRIGHT, "--set"), "leave --set"),
        (("--sky", BRIGHT, "--lens-off", 1), "leave --set"),
    ],
)
def test_comparisons_that_make_no_sense(run, folder, words, told):
    status, out, err = run("trial", folder, "--against", folder, *words)
    assert status == 2 and out == "" and told in err


def test_a_lens_that_is_off_is_refused(run, folder):
    """One in a hundred loses most frames, one in ten thousand none."""
    words = (
        "trial",
        folder,
        "--frames",
        16,
        "--least",
        6,
        "--needed",
        4,
        "--tolerances",
        186420120363276,
        "--lists",
        0,
        "--json",
    )
    accepted = [
        json.loads(run(*words, "--lens-off", percent)[1])["cells"][0]["accepted"]
        for percent in (0, 0.01, 2)
    ]
    assert accepted[0] == accepted[1] >= 15 and accepted[2] < 6
    assert json.loads(run(*words, "--centre-off", 20, 0)[1])["cells"][0]["accepted"] < accepted[0]
