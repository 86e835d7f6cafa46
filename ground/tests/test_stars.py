"""Star lists to catalogues: every kind of table, the choices, and bad tables."""

import numpy as np
import pytest
from astropy import units as u
from astropy.coordinates import SkyCoord
from astropy.table import MaskedColumn, Table
from conftest import BRIGHT

from mnemathor.folder import read_catalogue
from mnemathor.refusals import sentences
from mnemathor.stars import places

RA, DEC, MAG = [10.5, 250.25, 83.0], [-5.25, 60.5, 0.0], [1.5, -1.46, 4.0004]


def table():
    return Table({"id": [3, 7, 5], "ra": RA, "dec": DEC, "vmag": MAG})


def catalogue_of(run, path, folder, *words):
    status, out, err = run("catalogue", path, folder, *words)
    assert status == 0, err
    return read_catalogue(folder), out


@pytest.mark.parametrize("name", ["t.csv", "t.ecsv", "t.vot", "t.xml", "t.fits", "t.txt"])
def test_every_kind_of_table(tmp_path, run, name):
    kind = {"vot": "votable", "xml": "votable", "txt": "ascii.basic", "csv": "ascii.csv"}.get(
        name[2:]
    )
    table().write(tmp_path / name, format=kind)
    stars, out = catalogue_of(run, tmp_path / name, tmp_path / "f")
    assert "3 stars, from the columns id, ra, dec, vmag" in out
    assert stars["identity"].tolist() == [3, 5, 7]
    assert stars["magnitude"].tolist() == [1500, 4000, -1460]
    separation = places(stars).separation(
        SkyCoord([10.5, 83, 250.25], [-5.25, 0, 60.5], unit="deg")
    )
    assert (separation < 0.001 * u.arcsec).all()
    ra, dec = np.deg2rad([10.5, 83, 250.25]), np.deg2rad([-5.25, 0, 60.5])
    exact = {"x": np.cos(dec) * np.cos(ra), "y": np.cos(dec) * np.sin(ra), "z": np.sin(dec)}
    assert all(
        stars[axis].tolist() == [round(1e9 * component) for component in exact[axis]]
        for axis in "xyz"
    )
    lengths = sum(stars[axis].astype(float) ** 2 for axis in "xyz")
    assert (abs(lengths - 1e18) <= 4e9).all()


def test_units_and_sexagesimal_text(tmp_path, run):
    sky = SkyCoord(RA, DEC, unit="deg")
    radians = Table(
        {"HIP": [3, 7, 5], "RAJ2000": sky.ra.to(u.rad), "DEJ2000": sky.dec.to(u.rad), "Vmag": MAG}
    )
    radians.write(tmp_path / "radians.ecsv")
    text = Table(
        {
            "HR": [3, 7, 5],
            "ra": sky.ra.to_string(u.hour, sep=":", precision=6),
            "dec": sky.dec.to_string(sep=":", precision=5),
            "mag": MAG,
        }
    )
    text.write(tmp_path / "text.csv")
    table().write(tmp_path / "plain.csv")
    plain, _ = catalogue_of(run, tmp_path / "plain.csv", tmp_path / "plain")
    for name in ("radians.ecsv", "text.csv"):
        stars, _ = catalogue_of(run, tmp_path / name, tmp_path / "f")
        assert all(abs(stars[axis].astype(int) - plain[axis]).max() <= 2 for axis in "xyz")


def test_columns_may_be_named_and_rows_numbered(tmp_path, run):
    odd = Table({"which": [3, 7, 5], "longitude": RA, "latitude": DEC, "light": MAG})
    odd.write(tmp_path / "odd.csv")
    named, _ = catalogue_of(
        run,
        tmp_path / "odd.csv",
        tmp_path / "f",
        "--columns",
        "which",
        "longitude",
        "latitude",
        "light",
    )
    assert named["identity"].tolist() == [3, 5, 7]
    numbered, _ = catalogue_of(
        run,
        tmp_path / "odd.csv",
        tmp_path / "f",
        "--number",
        "--columns",
        "longitude",
        "latitude",
        "light",
    )
    assert numbered["identity"].tolist() == [1, 2, 3] and numbered["magnitude"].tolist() == [
        1500,
        -1460,
        4000,
    ]


def test_gaps_are_left_out_and_counted(tmp_path, run):
    stars = table()
    stars["vmag"] = MaskedColumn(MAG, mask=[False, True, False])
    stars.write(tmp_path / "gaps.ecsv")
    found, out = catalogue_of(run, tmp_path / "gaps.ecsv", tmp_path / "f")
    assert found["identity"].tolist() == [3, 5] and "1 left out: a gap in the row (line 11)" in out


def test_choices(tmp_path, run):
    folder = tmp_path / "f"
    stars, out = catalogue_of(run, BRIGHT, folder, "--limit", 2.5)
    rows = Table.read(BRIGHT, format="ascii.csv", comment="#")
    assert (
        len(stars) == (rows["vt"] <= 2.5).sum()
        and f"{(rows['vt'] > 2.5).sum()} left out: fainter than 2.5" in out
    )
    stars, _ = catalogue_of(run, BRIGHT, folder, "--around", 83, -5, "--within", 10)
    near = (
        SkyCoord(83, -5, unit="deg").separation(SkyCoord(rows["ra"], rows["dec"], unit="deg")).deg
        <= 10
    )
    assert stars["identity"].tolist() == sorted(rows["id"][near])
    stars, _ = catalogue_of(run, BRIGHT, folder, "--brightest", 512)
    assert stars["identity"].tolist() == list(range(1, 513))


def test_close_pairs_go_by_the_librarys_cut(tmp_path, run):
    stars, out = catalogue_of(run, BRIGHT, tmp_path / "f", "--brightest", 300, "--apart", 1)
    all_stars = places(read_catalogue_of_brightest(run, tmp_path, 300))
    near = (all_stars[:, None].separation(all_stars[None, :]) < 1 * u.deg).sum(axis=1) > 1
    assert near.any()
    assert stars["identity"].tolist() == (np.flatnonzero(~near) + 1).tolist()
    assert f"{near.sum()} left out: closer than 1 degrees to another" in out


def read_catalogue_of_brightest(run, tmp_path, number):
    return catalogue_of(run, BRIGHT, tmp_path / "all", "--brightest", number)[0]


def bad_tables(tmp_path):
    table().write(tmp_path / "good.csv")
    twice = table()
    twice["id"] = [3, 7, 3]
    twice.write(tmp_path / "twice.csv")
    names = table()
    names["id"] = ["Vega", "Deneb", "Altair"]
    names.write(tmp_path / "names.csv")
    Table({"a": [1], "b": [2], "c": [3]}).write(tmp_path / "strange.csv")
    Table({"id": [1.5], "ra": [1.0], "dec": [2.0], "mag": [3.0]}).write(tmp_path / "half.csv")
    Table({"id": [1], "ra": [1.0], "dec": [95.0], "mag": [3.0]}).write(tmp_path / "beyond.csv")
    (tmp_path / "none.csv").write_text("id,ra,dec,mag\n")
    (tmp_path / "torn.fits").write_bytes(b"SIMPLE")
    good = tmp_path / "good.csv"
    return [
        (
            (BRIGHT,),
            1,
            (
                "4308 stars were chosen, and a catalogue has 1 to 512; --limit, --around, --site,"
                " --even and --brightest choose"
            ),
        ),
        ((good, "--limit", -5), 1, "refused 6 0"),
        ((good, "--apart", 180), 1, "refused 21 0"),
        (
            (tmp_path / "twice.csv",),
            1,
            f"refused 7 1: {sentences()[7]} (the star of identity 3, lines 2, 4, is given 2 times",
        ),
        ((tmp_path / "names.csv",), 2, "--number"),
        (
            (tmp_path / "strange.csv",),
            2,
            (
                "no column found for identity, ra, dec, magnitude; name them with --columns, of a,"
                " b, c"
            ),
        ),
        ((tmp_path / "half.csv",), 2, "no whole number"),
        ((tmp_path / "beyond.csv",), 2, "cannot be read"),
        ((tmp_path / "none.csv",), 2, "has no rows"),
        ((tmp_path / "torn.fits",), 2, "cannot be read as a table"),
        ((tmp_path / "nowhere.csv",), 2, "is not a file"),
        ((good, "--around", 1, 2), 2, "go together"),
        ((good, "--columns", "id", "ra"), 2, "wants 4 names"),
        ((good, "--columns", "id", "ra", "dec", "light"), 2, "no column light"),
    ]


def test_bad_tables_are_told_and_nothing_is_written(tmp_path, run):
    target = tmp_path / "f"
    for (path, *words), expected, told in bad_tables(tmp_path):
        status, out, err = run("catalogue", path, target, *words)
        assert (status, out) == (expected, "") and told in err, (path, words, err)
        assert len(err.splitlines()) == 1
        assert not target.exists()
