"""Files that earlier programs wrote, as they stand in files/, with what these showed of each (files/README.md).

No word but `raise` takes one: each says `older` with its schema and leaves the file as it is. What a city shows that is
made anew from the same request lines is what the earlier program showed of it.
"""

import gzip
import json
from pathlib import Path

from adoption import checked
from shared import BOOKS, BY_KEY, HERE, HISTORY, RIDERS_4, STATIONS_4, TOP, changed, held, is_keyed, is_sound

FILES, TOUR = HERE / "files", TOP / "docs/tour.txt"

# The feed gbfs ends so, and lists one feed more than it did for a file of schema 1.
LAST = "]}}"
LISTED = ',{"name":"system_regions","url":"http://127.0.0.1:8080/gbfs/3.0/system_regions.json"}'


def unpacked(program, name):
    """The file, unpacked into the folder of the test."""
    file = Path(program.folder, f"{name}.db")
    file.write_bytes(gzip.decompress((FILES / f"{name}.db.gz").read_bytes()))
    return file


def shown_of(name):
    """What the earlier program showed of a file, but for the feeds that this one lists."""
    shown = json.loads((FILES / f"{name}.json").read_text(encoding="utf-8"))
    gbfs = shown["feeds"]["gbfs"]
    assert gbfs.endswith(LAST) and (LISTED in gbfs) == ("system_regions" in shown["feeds"]), gbfs
    if LISTED not in gbfs:
        shown["feeds"]["gbfs"] = gbfs.removesuffix(LAST) + LISTED + LAST
    return shown


def shows(program, file, shown):
    """Holds what the program shows of a file, and answers over it, to what is kept."""
    is_sound(program, file)
    for feed, text in shown["feeds"].items():
        found = program.run("feed", file, feed, "--at", str(shown["moment"]))
        assert found == (0, text.encode(), b""), (feed, found)
    for which, date, zone, text in shown["days"]:
        found = program.run("day", file, which, date, zone)
        assert found == (0, text.encode(), b""), (which, date, found)
    given, wanted = ("".join(f"{it[part]}\n" for it in shown["lines"]).encode() for part in (0, 1))
    status, found, said = program.run("lines", file, given=given)
    assert (status, said) == (0, b"") and found == wanted, [
        it for it in zip(shown["lines"], found.decode().splitlines()) if it[0][1] != it[1]
    ][:3]
    is_sound(program, file)


def made_anew_shows(program, name, lines):
    """Serves the lines that once made a kept file, and holds what the program shows to what is kept."""
    status, _, said = program.run("lines", "anew.db", given=lines)
    assert (status, said) == (0, b""), (status, said)
    shows(program, "anew.db", shown_of(name))


def is_older(program, name, version):
    """Every word says so of the file, reads nothing and writes nothing, and the file stays as it is, byte for byte and
    row for row."""
    file = unpacked(program, name)
    before, rows = file.read_bytes(), held(file, whole=False)
    for words in (
        ["check"], ["init"], ["lines"], ["feed", "station_status", "--at", "1700000000"],
        ["feed", "system_regions", "--at", "0"],
        ["day", "entries", "2023-11-14", "UTC0"], ["history"], ["import", "spring", "--at", "1700000000"],
        ["serve", "--port", "0", "--count", "1"], ["check"],
    ):
        given = (
            b"1700000000\toffice\tnew\tadd-region\tnorth\tNorth\n"
            if words[0] == "lines"
            else b"station_id,name,lat,lon,docks\nz9,New,0,0,1\n"
        )
        found = program.run(words[0], file.name, *words[1:], given=given)
        assert found == (5, b"", b"older %d\n" % version), (words, found)
        assert file.read_bytes() == before and held(file, whole=False) == rows, (words, "the file was changed")


def test_the_tour(program):
    is_older(program, "tour", 1)


def test_the_city_of_the_examples(program):
    is_older(program, "city", 1)


def test_every_kind_of_row(program):
    is_older(program, "every", 1)


def test_a_file_with_regions(program):
    """Kept when regions had come in, of schema 2."""
    is_older(program, "regions", 2)


def test_a_file_with_names(program):
    """Kept when names in further languages had come in, of schema 3. Its `kept` has a PRIMARY KEY."""
    assert is_keyed(unpacked(program, "names"))
    is_older(program, "names", 3)


def test_names_made_anew(program):
    made_anew_shows(program, "names", (FILES / "names.in").read_bytes())


def test_the_tour_made_anew(program):
    made_anew_shows(program, "tour", TOUR.read_bytes())


def test_every_kind_of_row_made_anew(program):
    made_anew_shows(program, "every", (FILES / "every.in").read_bytes())


def test_regions_made_anew(program):
    made_anew_shows(program, "regions", (FILES / "regions.in").read_bytes())


def test_an_older_file_whose_rows_are_bad(program):
    """Its rows are not looked at, and neither are its other tables."""
    bad = ["UPDATE riders SET balance = balance + 1", "DROP TABLE counts", "CREATE TABLE more_names (a)"]
    first = [*bad, "DELETE FROM stations", "CREATE TABLE regions (a)", "ALTER TABLE stations RENAME TO stations_4"]
    second = [*bad, "DELETE FROM stations_2", "DROP TABLE regions", "ALTER TABLE stations_2 RENAME TO stations_3"]
    third = [*bad[:2], "DELETE FROM kept", "CREATE TABLE history (a)", "ALTER TABLE kept RENAME TO history"]
    third += ["UPDATE counts SET available = -1", "CREATE TABLE stations_4 (a)", "DROP TABLE stations_3"]
    for name, version, changes in ("every", 1, first), ("regions", 2, second), ("names", 3, third):
        for change in changes:
            file = unpacked(program, name)
            changed(file, change)
            checked(program, file, f"older {version}")


def test_an_older_file_that_calls_itself_newer(program):
    """The version alone makes no file of another schema: its tables are others."""
    for name in "tour", "regions", "names":
        file = unpacked(program, name)
        for version, wanted in enumerate(["older 1", "older 2", "older 3", "foreign", "newer 5"], 1):
            changed(file, f"UPDATE meta SET version = {version}")
            checked(program, file, wanted)
        changed(file, "DELETE FROM meta")
        checked(program, file, "foreign")


# What schema 4 has more than schema 3, 3 than 2, and 2 than 1: bicycles by type in a station's row, numbers and moments
# of the requests, a rider's plan, what was archived, and no sums in meta; further names; a station's region and a table
# of regions.
MORE_NAMES = (
    "CREATE TABLE more_names (kind TEXT NOT NULL, id TEXT NOT NULL, language TEXT NOT NULL, name TEXT NOT NULL, "
    "PRIMARY KEY (kind, id, language)) STRICT;CREATE INDEX more_names_by_language ON more_names (language); "
    "CREATE INDEX more_names_by_thing ON more_names (kind, id, language, name);"
)
REGIONS = "CREATE TABLE regions (region_id TEXT PRIMARY KEY NOT NULL, name TEXT NOT NULL) STRICT;"
REQUESTS = (
    f"{HISTORY}; {BY_KEY}; INSERT INTO history SELECT row_number() OVER (ORDER BY rowid), 0, * FROM kept; "
    "DROP TABLE kept; UPDATE meta SET version = 4, cash = 0, revenue = 0; "
    f"{RIDERS_4}; INSERT INTO riders_4 SELECT *, 0, NULL FROM riders; DROP TABLE riders; {BOOKS}"
)
BY_TYPE = (
    "coalesce((SELECT group_concat(type_id || ':' || available || ':' || disabled, ';') FROM (SELECT * FROM counts "
    "WHERE counts.station_id = its.station_id AND available + disabled > 0 ORDER BY type_id)), '-')"
)


def moved(table, columns="its.*"):
    """Moves the stations of an earlier schema into the table of today."""
    return (
        f"{STATIONS_4}; INSERT INTO stations_4 SELECT {columns}, {BY_TYPE} FROM {table} AS its; DROP TABLE {table}; "
        "DROP TABLE counts;"
    )


RAISED = {
    1: f"{REGIONS} {moved('stations', 'its.*, NULL')} {MORE_NAMES} {REQUESTS}",
    2: f"{moved('stations_2')} {MORE_NAMES} {REQUESTS}",
    3: f"{moved('stations_3')} {REQUESTS}",
}


def test_a_file_that_is_raised_by_hand(program):
    """No station has a region that it had not, nothing a further name, and each request the moment 0: the rest is taken
    as it stands."""
    for name, version in ("tour", 1), ("every", 1), ("city", 1), ("regions", 2), ("names", 3):
        file = unpacked(program, name)
        changed(file, RAISED[version])
        shows(program, file.name, shown_of(name))
