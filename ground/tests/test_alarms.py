"""False alarms: exact rates, the quick test for lists that match nothing against the library, and
what the subcommand prints.
"""

import json
from dataclasses import replace
from itertools import combinations
from math import comb

import numpy as np
import pytest
from conftest import BRIGHT

from mnemathor import alarms, kept, library, stars
from mnemathor.choosing import choose
from mnemathor.folder import STAR, read_settings
from mnemathor.possible import Possible, threes_of
from mnemathor.rates import at_least, in_words, upper_bound
from mnemathor.refusals import Refused
from mnemathor.simulation import Weather, as_bright_as
from mnemathor.trials import Cell, none_seen

NARROW = 2 * 10**14


def at_most(count, tries, chance):
    """The binomial distribution, term by term."""
    return sum(comb(tries, k) * chance**k * (1 - chance) ** (tries - k) for k in range(count + 1))


@pytest.mark.parametrize(
    "count, tries", [(0, 1), (0, 300), (1, 10), (5, 100), (99, 100), (7, 1000)]
)
def test_the_upper_bound_is_the_rate_that_leaves_5_percent(count, tries):
    assert at_most(count, tries, upper_bound(count, tries)) == pytest.approx(0.05, rel=1e-6)


def test_bounds_at_the_ends():
    assert upper_bound(0, 0) is None and upper_bound(4, 4) == 1
    assert upper_bound(0, 300) == pytest.approx(none_seen(300))
    assert (
        in_words(0, 3000) == "0 (< 0.100 %)"
        and in_words(1, 2).startswith("50.0 % (< ")
        and in_words(0, 0) == "-"
    )


def test_the_tail_of_the_binomial_distribution():
    # Two dice: at least one six in 11 of 36.
    assert at_least(1, 2, 1 / 6) == pytest.approx(11 / 36)
    assert (
        at_least(0, 5, 0.3) == 1
        and at_least(5, 5, 0.0) == 0
        and at_least(5, 5, 1.0) == pytest.approx(1)
    )
    assert at_least(19, 30, 2 / 30) == pytest.approx(1 - at_most(18, 30, 2 / 30), abs=1e-12)


@pytest.mark.parametrize("count, names", [(8, 3), (8, 4), (8, 5), (8, 6), (8, 8), (5, 4), (3, 3)])
def test_every_choice_holds_a_three(count, names):
    chosen = threes_of(count, names)
    assert all(
        any(set(three) <= set(choice) for three in chosen)
        for choice in combinations(range(count), names)
    )
    assert len(chosen) == len(set(chosen)) and (names == 3 or len(chosen) < comb(count, 3))


def answered(rows, catalogue, settings, ranking):
    """The answer of the search and its rival, None for none."""
    try:
        return library.search(rows, catalogue, settings, ranking), library.rival(
            rows, catalogue, settings, ranking
        )
    except Refused as refusal:
        assert refusal.number == 13
        return None, None


def searched(rows, catalogue, settings):
    """Whether the library finds an assignment that fits."""
    ranking = library.rank(rows, catalogue, settings, library.new_room())
    try:
        library.search(rows, catalogue, settings, ranking)
    except Refused as refusal:
        assert refusal.number == 13
        return False
    return True


@pytest.mark.parametrize("tolerance", [NARROW, 8 * 10**14, 4 * 10**15])
def test_the_usable_stars_give_the_same_answers(settings, catalogue, tolerance):
    """Search and rival among the usable stars and among all, on random positions, for every needed
    count.
    """
    possible = Possible(catalogue[:160], tolerance, int(0.7 * 10**18))
    kinds = set()
    for number in range(40):
        positions = alarms.random_positions(
            np.random.default_rng((8, number)), settings, 4 + number % 5
        )
        rows = np.array(
            [library.direction(settings, *position) for position in positions], np.int32
        )
        for needed in range(3, len(positions) + 1):
            usable = possible.usable(rows, tolerance, needed)
            pair = replace(settings, tolerance=tolerance, needed=needed)
            ranking = library.rank(rows, catalogue[:160], pair, library.new_room())
            whole = answered(rows, catalogue[:160], pair, ranking)
            if len(usable) >= needed:
                part = answered(
                    rows,
                    catalogue[usable],
                    pair,
                    alarms._among(ranking.reshape(len(rows), -1), usable),
                )
                assert whole == tuple(
                    (
                        None
                        if row is None
                        else tuple(None if k is None else int(usable[k]) for k in row)
                    )
                    for row in part
                )
            else:
                assert whole == (None, None)
            kinds.add((len(usable) >= needed, whole[0] is None, whole[1] is None))
    assert len(kinds) >= 3


def test_stars_in_a_mirror_do_not_fit(settings):
    """A catalogue made of the list itself fits with all names; that of its mirror image with none,
    though all pairs agree.
    """
    positions = alarms.random_positions(np.random.default_rng(3), settings, 6)
    rows = np.array([library.direction(settings, *position) for position in positions], np.int64)
    for flip, fits in ((1, True), (-1, False)):
        records = np.zeros(6, STAR)
        records["identity"] = range(6)
        for axis, component in zip(
            "xyz",
            np.rint(10**9 * rows / np.linalg.norm(rows, axis=1, keepdims=True)).T
            * [[flip], [1], [1]],
        ):
            records[axis] = component
        assert len(Possible(records, 10**12, int(0.5 * 10**18)).usable(rows, 10**12, 6)) == (
            6 if fits else 0
        )
        assert searched(rows, records, replace(settings, tolerance=10**12, needed=6)) is fits


def test_random_positions_are_where_stars_can_be(settings):
    for seed in range(20):
        places = np.array(alarms.random_positions(np.random.default_rng(seed), settings, 8))
        assert (places >= 3 * 256).all() and (
            places <= (np.array([settings.width, settings.height]) - 4) * 256
        ).all()
        assert min(max(abs(a - b)) for a, b in combinations(places, 2)) > 3 * 256


def test_a_tolerance_of_nothing_and_one_of_everything(settings, catalogue):
    none, all_of_them = alarms.measure(
        settings, catalogue[:60], [0, 10**16], [3], 40, stars=(8,), processes=1, quiet=True
    ).cells
    assert (none.accepted, none.alone) == (0, 0) and none.bound == pytest.approx(none_seen(40))
    assert all_of_them.accepted == 40 == all_of_them.by_stars[8]["lists"] and all_of_them.alone < 5


def test_alarms_are_counted_as_list_by_list(settings, catalogue):
    """The counts are those of search and rival called for each list, whatever the number of
    processes.
    """
    tolerances, needed = [NARROW, 8 * 10**14], [3, 4]
    one = alarms.measure(
        settings, catalogue, tolerances, needed, 30, seed=5, processes=1, quiet=True
    )
    assert one == alarms.measure(
        settings, catalogue, tolerances, needed, 30, seed=5, processes=3, quiet=True
    )
    for cell in one.cells:
        pair, accepted, alone = (
            replace(settings, tolerance=cell.tolerance, needed=cell.needed),
            0,
            0,
        )
        for number in range(30):
            positions = alarms.random_positions(
                np.random.default_rng((5, number)), settings, 4 + number % 5
            )
            rows = np.array(
                [library.direction(settings, *position) for position in positions], np.int32
            )
            if searched(rows, catalogue, pair):
                accepted += 1
                alone += (
                    library.rival(
                        rows,
                        catalogue,
                        pair,
                        library.rank(rows, catalogue, pair, library.new_room()),
                    )
                    is None
                )
        assert (cell.accepted, cell.alone) == (accepted, alone)
    assert one.cells[2].accepted > 0


def test_pairs_that_accept_many_are_judged_on_the_first_lists(settings, catalogue, monkeypatch):
    """Rounds give what one round over all lists gives; what is settled keeps the count of its
    round.
    """
    grid = (settings, catalogue, [NARROW, 8 * 10**14], [3, 4], 40)
    whole = alarms.measure(*grid, stars=(8,), processes=1, quiet=True)
    monkeypatch.setattr(alarms, "FIRST", 8)
    monkeypatch.setattr(alarms, "ROUNDS", 2)
    monkeypatch.setattr(alarms, "ENOUGH", 7)
    rounds = alarms.measure(*grid, stars=(8,), processes=1, quiet=True)
    settled = [cell for cell in rounds.cells if cell.lists < 40]
    assert (
        settled
        and all(cell.accepted >= 7 and cell.lists in (8, 16, 32) for cell in settled)
        and rounds.lists == 40
    )
    rest = [cell for cell in rounds.cells if cell.lists == 40]
    assert rest and rest == [whole.cell(cell.tolerance, cell.needed) for cell in rest]


def test_empty_from_the_command_line(run, folder):
    words = ("trial", folder, "--empty", "--lists", 40, "--tolerances", NARROW, "--needed", 3, 4)
    status, out, _ = run(*words)
    assert (
        status == 0
        and out.startswith("40 lists of 4 to 8 random positions, no catalogue star behind any")
        and len(out.splitlines()) == 5
    )
    told = json.loads(run(*words, "--json")[1])
    assert told["lists"] == 40 and [cell["needed"] for cell in told["cells"]] == [3, 4]
    assert told["cells"][0]["bound"] >= told["cells"][0]["accepted"] / 40
    for wrong, note in (
        (("--lists", 0), "at least one list"),
        (("--stars", 9), "3 to 8 positions"),
        (("--set",), "good frames"),
        (("--needed", 9), "refused 9"),
    ):
        status, out, err = run(*words, *wrong)
        assert status in (1, 2) and out == "" and note in err


def test_strange_frames(run, folder, settings, catalogue):
    """Frames of the list's other stars: a catalogue of one half of the sky, a list of all of it."""
    north = catalogue[catalogue["z"] > 0]
    (folder / "catalogue.bin").write_bytes(north.tobytes())
    status, out, _ = run(
        "trial",
        folder,
        "--strange",
        BRIGHT,
        "--lists",
        12,
        "--tolerances",
        NARROW,
        "--needed",
        3,
        5,
        "--least",
        6,
        "--json",
    )
    told = json.loads(out)
    assert status == 0 and told["kind"] == "strange" and told["lists"] == 12
    assert told["cells"][1]["accepted"] == 0
    random, weather = np.random.default_rng(1), as_bright_as(Weather(least=6), north)
    assert (
        len(
            alarms.strange_positions(
                random, settings, north, stars.read_stars(BRIGHT).records, weather
            )
        )
        >= 3
    )


def test_what_was_judged_is_told_when_it_is_stopped(settings, catalogue, monkeypatch, run, folder):
    def stopped(results, **_):
        for number, result in enumerate(results):
            if number == 17:
                raise KeyboardInterrupt
            yield result

    monkeypatch.setattr(alarms, "tqdm", stopped)
    made = alarms.measure(settings, catalogue, [NARROW], [4], 1000, processes=1)
    assert (
        (made.lists, made.asked, made.stopped) == (17, 1000, True)
        and "17 lists" in alarms.table(made, 10 * alarms.u.deg)
        and "stopped before 1000" in alarms.table(made, 10 * alarms.u.deg)
    )


def counted(grid):
    """Alarms with these numbers of accepted lists of 10,000, by tolerance and needed count."""
    return alarms.Alarms(
        tuple(alarms.Cell(t, n, 10000, accepted, 0, {}) for (t, n), accepted in grid.items()),
        10000,
        10000,
        0,
        "random",
    )


def frames(tolerance, needed, accepted, wrong=0):
    return Cell(tolerance, needed, 1000, accepted, wrong, 0, {}, None, None, None, None)


def test_the_pair_that_is_taken():
    cells = [
        frames(10, 4, 900),
        frames(20, 4, 950),
        frames(10, 5, 880),
        frames(20, 5, 900),
        frames(20, 6, 700),
        frames(40, 6, 710),
    ]
    quiet = {(10, 4): 0, (20, 4): 50, (10, 5): 0, (20, 5): 0, (20, 6): 0, (40, 6): 0}
    # The smallest needed count that is quiet; the wider tolerance is not.
    assert choose(cells, counted(quiet), 0.001) is cells[0]
    # Of one needed count the widest tolerance.
    assert choose(cells, counted({**quiet, (10, 4): 50}), 0.001) is cells[3]
    assert (
        choose(cells, counted({**quiet, (10, 4): 50, (10, 5): 50, (20, 5): 50}), 0.001) is cells[5]
    )
    # A pair that accepts far less than the others under the bound is not taken.
    assert choose([frames(10, 4, 300), *cells[2:]], counted(quiet), 0.001) is cells[3]
    # Four of 10,000 are below 1 in 1,000 with their bound, five are not; a wrong name rules out.
    assert (
        choose(cells[:1], counted({(10, 4): 4}), 0.001) is cells[0]
        and choose(cells[:1], counted({(10, 4): 5}), 0.001) is None
    )
    assert choose([frames(10, 4, 900, 1)], counted(quiet), 0.001) is None
    # Lists too few to tell keep every pair out.
    few = alarms.Alarms((alarms.Cell(10, 4, 2900, 0, 0, {}),), 2900, 2900, 0, "random")
    assert choose(cells[:1], few, 0.001) is None and choose(cells[:1], few, 0.0011) is cells[0]


def test_a_trial_weighs_false_alarms(run, folder, tmp_path):
    words = (
        "trial",
        folder,
        "--frames",
        6,
        "--tolerances",
        NARROW,
        8 * 10**14,
        "--needed",
        3,
        4,
        "--seed",
        3,
        "--lists",
        60,
        "--alarms",
        0.06,
    )
    status, out, _ = run(*words, "--set", "--bound", 60, "--plot", tmp_path / "t.png")
    assert (
        status == 0
        and "false alarms" in out.splitlines()[1]
        and "of 60 lists with no star behind them 0 accepted" in out
    )
    assert read_settings(folder).needed == 4 and (tmp_path / "t.png").stat().st_size > 5000
    told = json.loads(run(*words, "--json")[1])
    assert told["recommended"]["needed"] == 4 and told["limit"] == 0.06
    accepted = {
        (cell["tolerance"], cell["needed"]): cell["accepted"] for cell in told["alarms"]["cells"]
    }
    assert accepted[NARROW, 4] == 0 < accepted[NARROW, 3] < 60 == accepted[8 * 10**14, 3]
    before = (folder / "settings.bin").read_bytes()
    status, out, err = run(*words[:-2], "--set")
    assert status == 2 and "no pair can be recommended" in out and "the settings stay" in err
    status, _, err = run(*words[:-4], "--lists", 0, "--set")
    assert status == 2 and "--lists 0" in err and (folder / "settings.bin").read_bytes() == before


def test_a_rate_is_counted_once(tmp_path, settings, catalogue, monkeypatch):
    first = kept.rate(tmp_path, settings, catalogue, 8, 3, lists=30)
    assert first.lists == 30 and (tmp_path / "alarms.json").exists()
    monkeypatch.setattr(kept, "measure", None)
    assert kept.rate(tmp_path, settings, catalogue, 8, 3, lists=30) == first
    # More names come more seldom, and threshold and needed count have no say.
    assert (
        kept.rate(
            tmp_path, replace(settings, needed=3, threshold=900), catalogue, 8, 6, lists=30
        ).accepted
        <= first.accepted
    )
    for other in (
        (replace(settings, tolerance=1), catalogue, 8),
        (settings, catalogue[1:], 8),
        (settings, catalogue, 7),
    ):
        with pytest.raises(TypeError):
            kept.rate(tmp_path, *other, 3, lists=30)
    (tmp_path / "alarms.json").write_text("no such thing")
    with pytest.raises(TypeError):
        kept.rate(tmp_path, settings, catalogue, 8, 3, lists=30)
