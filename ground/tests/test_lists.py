"""Star lists as they come: byte order marks, separators, VizieR's TSV, HYG, Hipparcos and Yale;
hours; and what was left out, with its lines.
"""

import numpy as np
import pytest

from mnemathor.folder import read_catalogue

# Three stars: identity, right ascension and declination in degrees, magnitude.
STARS = [
    (32349, 101.28854, -16.71314, -1.44),
    (30438, 95.98788, -52.69572, -0.62),
    (69673, 213.91811, 19.18727, -0.05),
]


def expected():
    stars = sorted(STARS)
    ra, dec = np.deg2rad([star[1] for star in stars]), np.deg2rad([star[2] for star in stars])
    return [star[0] for star in stars], np.rint(
        1e9 * np.array([np.cos(dec) * np.cos(ra), np.cos(dec) * np.sin(ra), np.sin(dec)])
    )


def check(run, tmp_path, text, *words, name="list.csv", near=5, encoding="utf-8"):
    """The list gives the three stars, to so many parts of 10^9."""
    (tmp_path / name).write_bytes(text.encode(encoding))
    status, out, err = run("catalogue", tmp_path / name, tmp_path / "f", *words, "--force")
    assert status == 0, err
    records = read_catalogue(tmp_path / "f")
    identities, directions = expected()
    assert records["identity"].tolist() == identities
    assert (
        abs(np.array([records[axis].astype(float) for axis in "xyz"]) - directions) <= near
    ).all()
    return out


def rows(separator, *parts):
    return (
        "\n".join(separator.join(map(str, (part(star) for part in parts))) for star in STARS) + "\n"
    )


def plain(separator=","):
    return (
        separator.join(("id", "ra", "dec", "mag"))
        + "\n"
        + rows(separator, *(lambda star, k=k: star[k] for k in range(4)))
    )


@pytest.mark.parametrize("separator", [",", ";", "\t", "|"])
@pytest.mark.parametrize("encoding", ["utf-8", "utf-8-sig", "utf-16"])
def test_separators_and_byte_order_marks(run, tmp_path, separator, encoding):
    check(run, tmp_path, plain(separator), encoding=encoding)
    check(run, tmp_path, plain(separator).replace("\n", "\r\n"), encoding=encoding, name="list.tsv")


@pytest.mark.parametrize("separator", ["\t", ";"])
def test_vizier(run, tmp_path, separator):
    """As VizieR writes it: a head of comments, names, units, dashes."""
    head = [
        "#RESOURCE=yCat_1311",
        "#Name: I/311/hip2",
        "",
        separator.join(("HIP", "RArad", "DErad", "Hpmag")),
    ]
    units = [
        separator.join(("", "deg", "deg", "mag")),
        separator.join(("-" * 6, "-" * 12, "-" * 12, "-" * 7)),
    ]
    body = rows(
        separator,
        lambda s: f"{s[0]:6d}",
        lambda s: f"{s[1]:12.8f}",
        lambda s: f"{s[2]:+12.8f}",
        lambda s: f"{s[3]:7.4f}",
    )
    out = check(run, tmp_path, "\n".join(head + units) + "\n" + body + "\n#END#\n", name="asu.tsv")
    assert "from the columns HIP, RArad, DErad, Hpmag" in out


def sexagesimal(degrees, hours):
    value = degrees / 15 if hours else abs(degrees)
    whole, rest = int(value), 60 * (value - int(value))
    sign = "" if hours else "+" if degrees >= 0 else "-"
    return sign, f"{whole:02d}", f"{int(rest):02d}", f"{60 * (rest - int(rest)):07.4f}"


def spaced(degrees, hours):
    sign, *parts = sexagesimal(degrees, hours)
    return sign + " ".join(parts)


def test_yale_by_vizier(run, tmp_path):
    """RAJ2000 and DEJ2000 as text with spaces, units in quotes."""
    head = (
        'HR\tRAJ2000\tDEJ2000\tVmag\n\t"h:m:s"\t"d:m:s"\tmag\n----\t----------\t---------\t-----\n'
    )
    body = rows(
        "\t",
        lambda s: s[0],
        lambda s: spaced(s[1], True),
        lambda s: spaced(s[2], False),
        lambda s: s[3],
    )
    check(run, tmp_path, head + body, name="bsc.tsv", near=50)


def test_yale_by_its_own_columns(run, tmp_path):
    head = "HR,RAh,RAm,RAs,DE-,DEd,DEm,DEs,Vmag\n"
    rows = ((s[0], *sexagesimal(s[1], True)[1:], *sexagesimal(s[2], False), s[3]) for s in STARS)
    body = "".join(",".join(map(str, row)) + "\n" for row in rows)
    check(run, tmp_path, head + body, near=50)


def test_hyg(run, tmp_path):
    """Right ascensions in hours with the same in radians far behind, the Sun first, and gaps."""
    head = '"id","hip","hd","proper","ra","dec","mag","rarad","decrad"\n'
    sun = '0,,,"Sol",0.0,0.0,-26.7,0.0,0.0\n'
    body = "".join(
        f'{s[0]},{s[0]},,"star,'
        f' bright",{s[1] / 15:.6f},{s[2]},{s[3]},{np.deg2rad(s[1])},{np.deg2rad(s[2])}\n'
        for s in STARS
    )
    out = check(run, tmp_path, head + sun + body, near=100)
    assert (
        "right ascensions are hours" in out
        and "1 left out: a magnitude out of range, below -2 (line 2)" in out
    )


def test_hours_are_asked_for(run, tmp_path):
    text = "id,ra,dec,mag\n" + rows(
        ",", lambda s: s[0], lambda s: f"{s[1] / 15:.8f}", lambda s: s[2], lambda s: s[3]
    )
    (tmp_path / "list.csv").write_text(text)
    status, _, err = run("catalogue", tmp_path / "list.csv", tmp_path / "f")
    assert (
        status == 2
        and "from 6.39919 to 14.2612: hours, or degrees? --hours or --degrees" in err
        and not (tmp_path / "f").exists()
    )
    assert "right ascensions are hours" in check(run, tmp_path, text, "--hours", near=100)
    status, out, _ = run("catalogue", tmp_path / "list.csv", tmp_path / "g", "--degrees")
    assert status == 0 and "3 stars" in out


def test_what_is_left_out_is_told_by_line(run, tmp_path):
    bad = (
        "# a comment\n"
        + plain()
        + "7,100,95,3\n\n8,abc,10,3\n9,100,10,\nx9,100,10,3\n10,100,10,12.5\n"
        + "11,100,10\n12,100,10,bright\n13,400,10,1\n"
    )
    (tmp_path / "list.csv").write_text(bad)
    status, out, _ = run("catalogue", tmp_path / "list.csv", tmp_path / "f")
    assert status == 0 and out.startswith("3 stars")
    for told in (
        "1 left out: 3 fields, not 4 (line 12)",
        "1 left out: a gap in the row (line 9)",
        "1 left out: the identity is no whole number of 4 bytes (line 10)",
        "1 left out: the declination cannot be read as -90 to 90 degrees (line 6)",
        "left out: the right ascension cannot be read as",
        "1 left out: the magnitude is no number (line 13)",
        "1 left out: a magnitude out of range, above 12 (line 11)",
    ):
        assert told in out, (told, out)


def test_many_lines_are_counted(run, tmp_path):
    (tmp_path / "list.csv").write_text(plain() + "".join(f"{k},100,10,13\n" for k in range(20)))
    assert (
        "20 left out: a magnitude out of range, above 12 (lines 5, 6, 7, 8, 9, 10, 11, 12 and 12"
        " more)"
        in run("catalogue", tmp_path / "list.csv", tmp_path / "f")[1]
    )
