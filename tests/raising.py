"""The word `raise`, which makes a file of schema 1, 2 or 3 one of schema 4 (docs/FORMATS.md, section 12): what a raised
file holds and shows, and what is refused and left as it is. raising_faults.py has what a bad row or a stop leaves.

Files of earlier schemas are those that earlier programs wrote (tests/files), one that is written here in SQL alone, and
cities of today from which SQL takes what came later.

A program without the word has nothing to be tried: all tests pass there, and say so once.

A sample stands in the gate. By hand more, by the variables of stops.py, kill.py, memory.py and tampered.py:

    BIKESHARE_STOPS=1 BIKESHARE_KILLS=300 BIKESHARE_MEMORY=all BIKESHARE_TAMPERED=all BIKESHARE_JOBS=4 \\
        tests/run raising
    BIKESHARE_LARGE=1 tests/run raising.test_a_large_city

BIKESHARE_LARGE has a city of 5,000 stations and 100,000 rentals made, and tells what a raise of it takes beside its
check. BIKESHARE_SEED is what is drawn from.
"""

import collections
import contextlib
import functools
import inspect
import itertools
import os
import random
import shutil
import sqlite3
import subprocess
import tempfile
import time
from pathlib import Path

import adoption
import audit
import kept_files
import stops
import stored
import tampered
import traffic
import words
from shared import (
    COUNTS, FEEDS, FOREIGN, HEAD, LAYOUTS, READY, SOUND, STATIONS_3, STORE_FAILED, TOP, WRITE_FAILED, Program, Server,
    at_once, by_type, changed, copied, is_keyed, is_whole, put, quickly, removed, rows_of, taken, to_schema_3,
    told_with,
)

SEED = int(os.environ.get("BIKESHARE_SEED", "1"))
SECONDS = 60

NEWEST = 4
DONE = (0, b"version 4\n", b"")
# It was raised, and its log couldn't be brought into the file.
UNSETTLED = (3, DONE[1], STORE_FAILED[2])
WITHOUT_MEMORY = (4, b"", b"out of memory\n")
MOST_DOCKS_BEFORE, MOST_DOCKS = 200, 500

# The table of stations of each earlier schema, the tables that it has and the newest hasn't, and the other way round.
OLD = {1: "stations", 2: "stations_2", 3: "stations_3"}
GONE = {version: [table, "counts", "kept", "riders"] for version, table in OLD.items()}
OF_SCHEMA_4 = ["stations_4", "history", "riders_4", "books"]
NEW = {1: ["regions", "more_names", *OF_SCHEMA_4], 2: ["more_names", *OF_SCHEMA_4], 3: OF_SCHEMA_4}
KEPT = [("tour", 1), ("city", 1), ("every", 1), ("regions", 2), ("names", 3)]


def older(version):
    return 5, b"", b"older %d\n" % version


def newer(version):
    return 5, b"", b"newer %d\n" % version


def unsound(table, key):
    return 5, b"", f"unsound {table} ".encode() + key + b"\n"


# ---- What a file holds

Held = collections.namedtuple("Held", "schema rows")


def held(file, whole=True):
    """The entries of a file's schema, and the rows of each table, those of `kept` in the order of their rowids: of a
    copy with its log, of which SQLite's own test finds nothing."""
    with copied(file) as base:
        base.text_factory = bytes
        if whole:
            is_whole(base)
        entries = base.execute("SELECT type, name, tbl_name, sql FROM sqlite_schema").fetchall()
        schema = sorted((tuple(part and part.decode() for part in it) for it in entries), key=repr)
        tables = [name for kind, name, _, _ in schema if kind == "table"]
        rows = {name: sorted(base.execute(f'SELECT * FROM "{name}"').fetchall(), key=repr) for name in tables}
        if "kept" in tables:
            rows["kept"] = base.execute("SELECT * FROM kept ORDER BY rowid").fetchall()
        return Held(schema, rows)


@functools.cache
def newest_schema(file):
    """The schema of a file that the program makes."""
    with tempfile.TemporaryDirectory() as folder:
        assert Program(file, folder).run("init", "new.db") == READY
        return held(Path(folder, "new.db")).schema


def requests(rows):
    """Rows of `kept`, or of `history` without their first two columns, as a raised file has them."""
    return sorted(((number, 0, *row) for number, row in enumerate(rows, 1)), key=repr)


def by_type_of(types):
    """The text of a station's types, read as bytes."""
    return by_type((kind.decode(), *numbers) for kind, *numbers in types).encode()


def raised(program, before, version):
    """What a file holds once it is raised: the stations by another name, in no region where there were none, with their
    bicycles by type, no further names where there were none, the riders without a plan, and what was kept as a history,
    in its order and at moment 0. Nothing was archived."""
    rows = {name: it for name, it in before.rows.items() if name not in GONE[version]}
    rows |= {name: [] for name in NEW[version]}
    types = {it[0]: [row[1:] for row in before.rows["counts"] if row[0] == it[0]] for it in before.rows[OLD[version]]}
    no_region = (None,) * (version == 1)
    stations = [(*it, *no_region, by_type_of(types[it[0]])) for it in before.rows[OLD[version]]]
    rows["stations_4"] = sorted(stations, key=repr)
    rows["history"] = requests(before.rows["kept"])
    rows["riders_4"] = sorted(((*it, 0, None) for it in before.rows["riders"]), key=repr)
    rows["meta"] = [(*it[:2], NEWEST, it[3], 0, 0) for it in before.rows["meta"]]
    schema = [it for it in before.schema if it[2] not in GONE[version]] + [
        it for it in newest_schema(program.file) if it[2] in NEW[version]
    ]
    return Held(sorted(schema, key=repr), rows)


def is_raised(program, file, version):
    """Raises a file, and returns what it held before."""
    before = held(file)
    assert program.run("check", file.name) == older(version)
    assert held(file) == before
    ended = program.run("raise", file.name)
    assert ended == DONE, ended
    assert held(file) == raised(program, before, version)
    assert program.run("check", file.name) == SOUND
    return before


def stays(program, file, *wanted, whole=True):
    """Holds what `raise` says of a file, whose rows it leaves, to one of these."""
    before = held(file, whole)
    ended = program.run("raise", file.name)
    assert ended in wanted, (ended, wanted)
    assert held(file, whole) == before, f"the file was changed, after {ended}"
    return ended


# ---- Files of earlier schemas


# The table of stations of each schema.
STATIONS = {2: STATIONS_3.replace("stations_3", "stations_2"), 3: STATIONS_3}
STATIONS[1] = STATIONS[2].replace("stations_2", "stations").replace(", region_id TEXT)", ")")
LOWERED = {1: f"{STATIONS[1]}; DROP TABLE regions", 2: STATIONS[2]}
COLUMNS = {version: list(audit.BOUNDS["stations_4"])[: -2 if version == 1 else -1] for version in OLD}
KEPT_COLUMNS = list(audit.BOUNDS["history"])[2:]
RIDERS_COLUMNS = list(audit.BOUNDS["riders_4"])[:3]
COUNTS_COLUMNS = ["station_id", "type_id", "available", "disabled"]


def lowered(file, version, layout="unkeyed"):
    """Takes from a file of the newest schema what came after an earlier one."""
    to_schema_3(file, layout)
    if version == 3:
        return
    columns = ", ".join(f'"{it}"' for it in COLUMNS[version])
    moved = f"INSERT INTO {OLD[version]} SELECT {columns} FROM stations_3; DROP TABLE stations_3; DROP TABLE more_names"
    changed(file, f"{LOWERED[version]}; {moved}; UPDATE meta SET version = {version}")


def declared(name, columns):
    """The statement that makes a table of section 10 of docs/FORMATS.md with these columns, of which the first are its
    key."""
    table = {**dict.fromkeys(OLD.values(), "stations_4"), "riders": "riders_4"}.get(name, name)
    keys = audit.TABLES[table]
    optional = audit.MAY_BE_NULL.get(table, ())

    def spelled(at, column):
        text = audit.is_of_text(table, column)
        if at == 0 and keys == 1:
            return f'"{column}" TEXT PRIMARY KEY NOT NULL' if text else f'"{column}" INTEGER PRIMARY KEY'
        return f'"{column}" {"TEXT" if text else "INTEGER"}' + ("" if column in optional else " NOT NULL")

    parts = [spelled(at, it) for at, it in enumerate(columns)]
    key = [f"PRIMARY KEY ({', '.join(columns[:keys])})"] if keys > 1 else []
    return f"CREATE TABLE {name} ({', '.join(parts + key)}) STRICT"


# The city of docs/FORMATS.md with rider 17, who has 25.00, as rows.
AT = 1699999200
ROWS = {
    "system": [
        (1, "metro", "en", "Metro Bikes", "24/7", "feeds@example.org", "Etc/UTC", "EUR", "http://127.0.0.1:8080", 30)
    ],
    "plans": [("basic", "Basic", 100, 0, "One euro and then a quarter")],
    "segments": [("basic", 1, 30, 25, 5, None)],
    "types": [("city", "City", "bicycle", "human", 0, "basic")],
    "docks": [("a1", 2, 1)],
    "bikes": [(7, "city", 0, "a1", 1, None, None, None)],
    "trucks": [(3, 20)],
    "riders": [(17, 0, 2500)],
    "rentals": [],
    "orders": [(1, 3, "*", "a1", "city", 1, 1, 0)],
    "entries": [(1, 1, 17, 0, 2500, AT)],
    "kept": [
        tuple(line.replace("|", "\t").split("\t", 3)[1:]) + (answer.replace("|", "\t"),) for line, answer in stored.CITY
    ],
    "counts": [("a1", "city", 1, 0)],
}
STATION = ("a1", "Harbour", 41890169, 12492269, 2, 1, 1, 1, AT, 0, 1)
INDEXES = [
    "CREATE INDEX bikes_by_dock ON bikes (station_id, dock)", "CREATE INDEX bikes_by_truck ON bikes (truck)",
    "CREATE INDEX rentals_by_rider ON rentals (rider)",
]
STATUS = (
    '{"stations":[{"station_id":"a1","num_vehicles_available":1,"vehicle_types_available":[{"vehicle_type_id":"city",'
    '"count":1}],"num_vehicles_disabled":0,"num_docks_available":0,"num_docks_disabled":1,"is_installed":true,'
    '"is_renting":true,"is_returning":true,"last_reported":"2023-11-14T22:00:00Z"}]}'
)
INFORMATION = (
    '{{"stations":[{{"station_id":"a1","name":[{names}],"lat":41.890169,"lon":12.492269,{region}"capacity":2}}]}}'
)
HARBOUR, HAFEN = '{"text":"Harbour","language":"en"}', '{"text":"Hafen","language":"de"}'
SYSTEM = (
    '{{"system_id":"metro","languages":[{languages}],"name":[{{"text":"Metro Bikes","language":"en"}}],'
    '"opening_hours":"24/7","feed_contact_email":"feeds@example.org","timezone":"Etc/UTC"}}'
)
NORTH = '{"region_id":"north","name":[{"text":"North","language":"en"}]}'


def of_sql(folder, version, has_region=False, layout="keyed"):
    """The city in a file of an earlier schema, made by SQL alone."""
    rows = {"meta": [(1, "bikeshare", version, AT, 2500, 0)], **ROWS}
    rows[OLD[version]] = [STATION + ("north" if has_region else None,) * (version > 1)]
    if version > 1:
        rows["regions"] = [("north", "North")] if has_region else []
    if version > 2:
        rows["more_names"] = []
    columns = {
        **audit.BOUNDS, OLD[version]: COLUMNS[version], "kept": KEPT_COLUMNS, "counts": COUNTS_COLUMNS,
        "riders": RIDERS_COLUMNS,
    }
    file = Path(folder, f"sql{version}{'_region' * has_region}.db")
    with contextlib.closing(sqlite3.connect(file, isolation_level=None)) as base:
        base.execute("PRAGMA synchronous = OFF")
        for name, given in rows.items():
            made = {"kept": LAYOUTS[layout], "counts": COUNTS}
            base.executescript(made.get(name) or declared(name, list(columns[name])))
            base.executemany(f"INSERT INTO {name} VALUES ({', '.join('?' * len(columns[name]))})", given)
        for index in INDEXES:
            base.execute(index)
    return file


def tells(program, file, **feeds):
    """Holds the data of feeds to what is wanted."""
    for name, data in feeds.items():
        found = program.run("feed", file.name, name, "--at", "1700000000")
        assert found == (0, (HEAD + data + "}").encode(), b""), (name, found)


def answers(program, file, *rows):
    """Holds the answers to lines of a file to what is wanted."""
    asked, wanted = (b"".join(stops.as_line(it) for it in part) for part in zip(*rows))
    found = program.run("lines", file.name, given=asked)
    assert found == (0, wanted, b""), found


# ---- What is raised


def test_files_of_earlier_programs(program):
    """They show what the program showed that wrote them, and answer as it did what they have kept."""
    for name, version in KEPT:
        file, shown = kept_files.unpacked(program, name), kept_files.shown_of(name)
        is_raised(program, file, version)
        head, _, _ = shown["feeds"]["station_status"].partition('"data":')
        if version == 1:
            shown["feeds"]["system_regions"] = head + '"data":{"regions":[]}}'
        assert ('"languages":["en"],' in shown["feeds"]["system_information"]) == (version < 3)
        first = Path(shutil.copy(file, file.with_name("first.db")))
        kept_files.shows(program, first.name, shown)

        before, whole = tampered.parts(file), held(file)
        assert program.run("raise", file.name) == DONE
        assert tampered.parts(file) == before and held(file) == whole, "a second raise changed the file"
        kept_files.shows(program, file.name, shown)


def test_both_layouts_of_kept(program):
    for version, layout in itertools.product(OLD, LAYOUTS):
        file = of_sql(program.folder, version, layout=layout)
        assert is_keyed(file) == (layout == "keyed")
        is_raised(program, file, version)
        removed(file)


AGAIN = "INSERT INTO kept SELECT * FROM kept WHERE req_key = 'f5'"
NO = "UPDATE kept SET reply = 'no' WHERE req_key"
# Changes of `kept` without a key, which has 13 rows, from f1 to f11 and then g1 and g2; and the number of the bad one.
OF_KEPT = [
    (AGAIN, 14), ("UPDATE kept SET req_key = 'f2' WHERE req_key = 'f1'", 2), (f"{NO} = 'f9'", 9),
    ("UPDATE kept SET req_key = 'f9' WHERE req_key = 'f3'; UPDATE kept SET req_key = 'f6' WHERE req_key = 'f1'", 6),
    (f"{AGAIN}; {NO} = 'f9'", 9), (f"{AGAIN}; UPDATE kept SET command = 'x' WHERE rowid = 14", 14),
    (f"{AGAIN}; INSERT INTO counts VALUES ('zz', 'city', 1, 0)", 14),
    ("UPDATE kept SET caller = 'crew:3', req_key = 'k'", 2),
    ("INSERT INTO kept SELECT 'crew:3', req_key, command, reply FROM kept", None),
    ("INSERT INTO kept SELECT caller, upper(req_key), command, reply FROM kept", None), ("DELETE FROM kept", None),
    # The rowids tell the order alone.
    ("DELETE FROM kept WHERE rowid IN (1, 4, 13)", None), (f"DELETE FROM kept WHERE rowid IN (1, 4); {NO} = 'f5'", 3),
    ("UPDATE kept SET rowid = 100 * rowid", None), (f"UPDATE kept SET rowid = 100 * rowid; {NO} = 'f3'", 3),
    ("UPDATE kept SET rowid = 100 - rowid", None), (f"UPDATE kept SET rowid = 100 - rowid; {NO} = 'g2'", 1),
    ("UPDATE kept SET rowid = -rowid", None), (f"UPDATE kept SET rowid = -rowid; {NO} = 'f1'", 13),
    ("UPDATE kept SET rowid = 0 WHERE req_key = 'g2'", None),
    (f"UPDATE kept SET rowid = 9223372036854775807 WHERE req_key = 'f1'; {NO} = 'f1'", 13),
    (f"UPDATE kept SET rowid = -9223372036854775808 WHERE req_key = 'g2'; {NO} = 'f1'", 2),
]


def test_rows_of_kept(program):
    """They become the rows of the history in the order of their rowids, and are judged as such: a bad one is told by
    its place."""
    for version in OLD:
        for change, number in OF_KEPT:
            file = of_sql(program.folder, version, layout="unkeyed")
            changed(file, change)
            with told_with(f"version {version}, {change}"):
                if number is None:
                    is_raised(program, file, version)
                else:
                    stays(program, file, unsound("history", b"%d" % number))
            removed(file)
        file = of_sql(program.folder, version, layout="unkeyed")
        changed(file, f"{AGAIN}; UPDATE riders SET balance = balance + 1")
        stays(program, file, unsound("riders", b"17"))
        removed(file)


# Rows of `counts` that tell nothing more than what the file of SQL has: of 0 and 0, and of stations that aren't there.
FEW, MANY = -(2**63), 2**63 - 1
NO_COUNTS = [
    ("a1", "none", 0, 0), ("a1", "-", 0, 0), ("a1", "z" * 36, 0, 0), ("zz", "city", 3, 1), ("a", "city", 1, 0),
    ("A1", "", -1, 2**32), ("", "city", 0, 1), ("é", "City", FEW, MANY), ("a1 ", "city", 1, 0),
]
# .. and rows by which its types aren't those of its bicycles, or that spell no counts.
WRONG_COUNTS = [
    ("a1", "cargo", 0, 1), ("a1", "a", 1, 0), ("a1", "zz", 2**32 - 1, 2**32 - 1), ("a1", "zz", -1, 0),
    ("a1", "zz", 0, -1), ("a1", "zz", 2**32, 0), ("a1", "zz", 0, 2**32), ("a1", "zz", FEW, 0), ("a1", "zz", 0, MANY),
    *(("a1", kind, 0, 0) for kind in ("", "City", "a" * 37, "c:1", "c;d", "é", "city ", " ", "?", "*")),
]
# Changes of the one row for a station that is there, by which its types aren't those of its bicycles.
OF_COUNTS = [
    "DELETE FROM counts", "UPDATE counts SET available = 0", "UPDATE counts SET available = 2",
    "UPDATE counts SET disabled = 1", "UPDATE counts SET available = 0, disabled = 1",
    "UPDATE counts SET available = -1", "UPDATE counts SET available = 1 + 4294967296",
    "UPDATE counts SET disabled = -4294967296", "UPDATE counts SET type_id = 'cargo'",
    "UPDATE counts SET type_id = 'City'", "UPDATE counts SET station_id = 'a0'",
    "UPDATE counts SET type_id = CAST(x'ff' AS TEXT)", "UPDATE bikes SET type_id = 'cargo'",
    "UPDATE bikes SET state = 1",
]


def test_rows_of_counts(program):
    """They become the text of their station: those of 0 and 0, and of no station, are left out. Where that text isn't
    of the station's bicycles, the station is bad, and nothing is told of `counts`."""
    added = "INSERT INTO counts VALUES ({})"
    for version, old in OLD.items():
        for row in NO_COUNTS:
            file = of_sql(program.folder, version)
            changed(file, added.format(", ".join(map(repr, row))))
            with told_with(f"version {version}, {row}"):
                is_raised(program, file, version)
                assert rows_of("SELECT by_type FROM stations_4", file) == [("city:1:0",)]
            removed(file)
        bad = unsound(old, b"a1")
        changes = [*OF_COUNTS, *(added.format(", ".join(map(repr, it))) for it in WRONG_COUNTS)]
        changes += [f"{OF_COUNTS[0]}; UPDATE {it} = 0" for it in ("riders SET balance", "meta SET cash")]
        for change in changes:
            file = of_sql(program.folder, version)
            changed(file, change)
            with told_with(f"version {version}, {change}"):
                stays(program, file, bad)
            removed(file)


def test_counts_of_many_types(program):
    """Rows that lie in another order than that of their types: the text has them in the order of their bytes."""
    types = ["z", "9", "city", "_", "-", "a_b", "a-b", "ab", "a"]
    for version, old in OLD.items():
        file = of_sql(program.folder, version)
        with contextlib.closing(sqlite3.connect(file)) as base, base:
            base.execute(f"UPDATE {old} SET docks = 20, free = {20 - 1 - len(types) - 1}")
            for at, kind in enumerate(types):
                row = "SELECT ?, name, form, propulsion, 0, plan_id FROM types LIMIT 1"
                base.execute(f"INSERT OR IGNORE INTO types {row}", [kind])
                bike = (100 + at, kind, at % 2, "a1", 10 + at)
                base.execute("INSERT INTO bikes VALUES (?, ?, ?, ?, ?, NULL, NULL, NULL)", bike)
                base.execute("INSERT OR IGNORE INTO counts VALUES ('a1', ?, ?, ?)", (kind, 1 - at % 2, at % 2))
            base.execute("UPDATE counts SET available = 2 WHERE type_id = 'city'")
        is_raised(program, file, version)
        wanted = "-:1:0;9:0:1;_:0:1;a:1:0;a-b:1:0;a_b:0:1;ab:0:1;city:2:0;z:1:0"
        assert rows_of("SELECT by_type FROM stations_4", file) == [(wanted,)]
        removed(file)


def test_kept_requests_act_no_more(program):
    for name, version in KEPT:
        file = kept_files.unpacked(program, name)
        before = is_raised(program, file, version)
        kept = {it[:2]: it[2:] for it in before.rows["kept"]}
        sent = [(line.encode().split(b"\t", 3), line, answer) for line, answer in kept_files.shown_of(name)["lines"]]
        sent = [
            (line, answer)
            for (_, caller, key, _), line, answer in sent
            if kept.get((caller, key), ("", ""))[1] == answer.encode()
        ]
        assert len(sent) > 10, (name, len(sent))
        whole = held(file)
        asked, wanted = ("".join(f"{it}\n" for it in part).encode() for part in zip(*sent))
        assert program.run("lines", file.name, given=asked) == (0, wanted, b""), name
        assert held(file) == whole, f"{name}: kept requests changed the file"


def test_a_city_of_sql(program):
    """Its rows are written here, and so is what is shown of it."""
    for version, has_region in (1, False), (2, False), (2, True), (3, False), (3, True):
        file = of_sql(program.folder, version, has_region)
        is_raised(program, file, version)
        region = '"region_id":"north",' * has_region
        regions = f'{{"regions":[{NORTH * has_region}]}}'
        tells(
            program, file, station_status=STATUS, system_regions=regions,
            system_information=SYSTEM.format(languages='"en"'),
            station_information=INFORMATION.format(names=HARBOUR, region=region),
        )
        answers(
            program,
            file,
            (f"{AT} office g2 top-up 17 2500", "balance 2500"),
            (f"{AT} office g2 top-up 17 2501", "refused 33 key_reused"),
        )
        assert len(held(file).rows["entries"]) == 1


def test_what_came_later_is_served_of_a_raised_file(program):
    for version in OLD:
        file = of_sql(program.folder, version)
        is_raised(program, file, version)
        answers(
            program, file, (f"{AT} office n1 add-region north North", "ok"),
            (f"{AT} office n2 set-region a1 north", "ok"),
            (f"{AT} office n3 add-name station a1 de Hafen", "ok"),
            (f"{AT} office n4 add-name station a1 en Harbour", "refused 10 already_there"),
            (f"{AT} office n4 remove-name station a1 en", "refused 39 unknown_name"),
        )
        tells(
            program, file, station_status=STATUS, system_regions=f'{{"regions":[{NORTH}]}}',
            system_information=SYSTEM.format(languages='"en","de"'),
            station_information=INFORMATION.format(names=f"{HARBOUR},{HAFEN}", region='"region_id":"north",'),
        )
        answers(
            program,
            file,
            (f"{AT} office n5 add-station b2 Hall 1 2 500", "ok"),
            (f"{AT} office n6 mark-dock b2 500 broken", "ok"),
        )
        answers(
            program,
            file,
            (f"{AT} office n7 start 17 a1 1", "rental 1 7"),
            (f"{AT} office n8 end 7 b2 499", "fare 100 2400"),
        )
        answers(
            program, file, (f"{AT} office n9 change-system Metro 24/7 a@x.example Etc/UTC https://x.example 60", "ok"),
            (f"{AT} office n10 move-station a1 -45.5 9", "ok"),
            (f"{AT} office n11 add-docks b2 1", "refused 32 limit_reached"),
            (f"{AT} office n11 add-docks a1 7", "ok"),
            (f"{AT} office n12 mark-dock a1 9 broken", "ok"),
            (f"{AT} office n13 set-name station a1 en Haven", "ok"),
            (f"{AT} office n14 set-name station a1 de Kai", "ok"),
            (f"{AT} office n15 set-name region north en Norden", "ok"),
            (f"{AT} office n16 add-name plan basic de Einfach", "ok"),
            (f"{AT} office n17 remove-name plan basic de", "ok"),
        )
        texts = {name: program.run("feed", file.name, name)[1] for name in ("gbfs", "station_information")}
        assert b'"url":"https://x.example/gbfs/3.0/' in texts["gbfs"], texts
        assert b'"lat":-45.500000,"lon":9.000000,' in texts["station_information"], texts
        assert b'"Haven","language":"en"},{"text":"Kai","language":"de"}]' in texts["station_information"], texts
        assert program.run("check", file.name) == SOUND
        assert program.run("raise", file.name) == DONE
        moments = rows_of("SELECT moment FROM history ORDER BY number", file)
        assert moments == [(0,)] * 13 + [(AT,)] * (len(moments) - 13) and len(moments) == 29, moments


def test_cities_of_traffic(program):
    """What today's program holds of them, less what came later and the moments of the requests, of which meta has the
    last, is what a raised file holds."""
    for seed, version, layout in (SEED, 1, "keyed"), (SEED + 1, 2, "unkeyed"), (SEED + 2, 3, "unkeyed"):
        file = Path(program.folder, f"city{version}.db")
        lines, told = traffic.made(seed, 600, languages=["en"])
        regions = [f"0\toffice\tr{it}\tadd-region\tr{it}\tRegion {it}\n" for it in range(3)]
        regions += [f"0\toffice\ts{it}\tset-region\ts000{1 + it}\tr{it % 3}\n" for it in range(5)]
        given = "".join([*lines, *(regions if version > 1 else [])]).encode()
        wanted = traffic.joined(told) + b"ok\n" * (len(regions) if version > 1 else 0)
        assert program.run("lines", file.name, given=given) == (0, wanted, b"")
        whole = held(file)
        rows = [row[2:] for row in sorted(whole.rows["history"])]
        ((*named, _, _, _),) = whole.rows["meta"]
        meta = [(*named, max(row[1] for row in whole.rows["history"]), 0, 0)]
        feeds = {it: program.run("feed", file.name, it, "--at", "1800000000") for it in FEEDS}
        lowered(file, version, layout)
        is_raised(program, file, version)
        assert held(file) == whole._replace(rows=whole.rows | {"history": requests(rows), "meta": meta})
        assert {it: program.run("feed", file.name, it, "--at", "1800000000") for it in FEEDS} == feeds


def test_files_of_the_newest_schema(program):
    """They are audited and left, byte for byte."""
    assert program.run("lines", "city.db", given=adoption.asked()) == (0, adoption.told(), b"")
    file = Path(program.folder, "city.db")
    for change, wanted in (
        ("", DONE), ("UPDATE riders_4 SET balance = balance + 1 WHERE rider = 18", unsound("riders_4", b"18")),
        (
            "UPDATE riders_4 SET balance = balance - 1 WHERE rider = 18; "
            "UPDATE stations_4 SET region_id = 'no' WHERE station_id = 'a1'",
            unsound("stations_4", b"a1"),
        ),
        ("UPDATE stations_4 SET region_id = NULL WHERE station_id = 'a1'", DONE),
        (adoption.AGAIN, unsound("history", b"38")), ("DELETE FROM history WHERE number = 38", DONE),
        ("UPDATE stations_4 SET by_type = 'city:1:0' WHERE station_id = 'a1'", unsound("stations_4", b"a1")),
        ("UPDATE stations_4 SET by_type = '-' WHERE station_id = 'a1'", DONE),
        ("DROP TABLE docks", FOREIGN), ("DELETE FROM meta", FOREIGN),
    ):
        changed(file, change)
        before = tampered.parts(file)
        stays(program, file, wanted)
        assert tampered.parts(file) == before, (change, "the file was changed")


def test_a_sound_file_without_its_row_of_meta(program):
    """Without row 1 of meta the newest schema is assumed."""
    assert program.run("init", "city.db") == (0, b"ready\n", b"")
    changed(Path(program.folder, "city.db"), "DELETE FROM meta")
    stays(program, Path(program.folder, "city.db"), unsound("meta", b"1"))


def test_what_is_empty_stays_so(program):
    """No table of ours is made."""
    assert program.run("raise", ":memory:") == DONE
    assert not os.listdir(program.folder), os.listdir(program.folder)
    for name, data in ("none.db", b""), ("one.db", b"S"):
        Path(program.folder, name).write_bytes(data)
        assert program.run("raise", name) == STORE_FAILED, name
        assert taken(program.folder, name) == {"": data}, name
        assert program.run("check", name) == SOUND, name
    notes = Path(program.folder, "notes.db")
    changed(
        notes, "CREATE TABLE notes (note TEXT); INSERT INTO notes VALUES ('x'); CREATE VIEW seen AS SELECT * FROM notes"
    )
    stays(program, notes, DONE)


def test_a_file_that_is_not_there(program):
    """It isn't made."""
    for name in "none.db", "none/none.db":
        assert program.run("raise", name) == STORE_FAILED, name
        assert not os.listdir(program.folder), os.listdir(program.folder)


def test_words(program):
    file, form = words.FILE, "raise FILE"
    words.is_mistaken(program, f"FILE is missing; wanted is {file}", "raise")
    for extra, given in (
        ("b.db", ["a.db", "b.db"]),
        ("--force", ["--force", "a.db"]),
        ("--at", ["a.db", "--at", "0"]),
        ("-a.db", ["-a.db"]),
    ):
        words.is_mistaken(program, f"{extra} is unexpected; wanted is {form}", "raise", *given)
    said = words.refused(program, "Raise", "a.db")
    assert said.startswith("bikeshare: Raise is no subcommand of bikeshare; wanted is "), said
    file = of_sql(program.folder, 1)
    file.rename(file.with_name("-city.db"))
    assert program.run("raise", "--", "-city.db", given=b"x\n") == DONE
    assert program.run("check", "--", "-city.db") == SOUND


def test_a_log_of_an_earlier_schema(program):
    """What stands in the log alone is raised too."""
    for version in OLD:
        file = of_sql(program.folder, version)
        left = file.with_name(f"left{version}.db")
        with contextlib.closing(sqlite3.connect(file, isolation_level=None)) as base:
            base.execute("PRAGMA journal_mode = WAL").fetchall()
            base.execute(f"UPDATE {OLD[version]} SET name = 'Quay'")
            put(taken(file), left)
        assert left.with_name(left.name + "-wal").stat().st_size > tampered.LEAST_LOG
        is_raised(program, left, version)
        tells(
            program, left, station_information=INFORMATION.format(names=HARBOUR.replace("Harbour", "Quay"), region="")
        )


# ---- Faults


def test_files_of_other_versions(program):
    """The version alone makes no file of another schema: its tables are others."""
    for version in OLD:
        file = of_sql(program.folder, version)
        others = dict.fromkeys({-1, 0, *OLD, NEWEST} - {version}, FOREIGN)
        for number, wanted in {**others, **{it: newer(it) for it in (5, 2**40, 2**63 - 1)}}.items():
            changed(file, f"UPDATE meta SET version = {number}")
            stays(program, file, wanted)
        changed(file, f"UPDATE meta SET version = {version}, app = 'other'")
        stays(program, file, FOREIGN)
        changed(file, "DELETE FROM meta")
        stays(program, file, FOREIGN)
        changed(file, f"INSERT INTO meta VALUES (1, 'bikeshare', {version}, {AT}, 2500, 0)")
        is_raised(program, file, version)
        for number in OLD:
            changed(file, f"UPDATE meta SET version = {number}")
            stays(program, file, FOREIGN)


def quoted(text, mark='"'):
    return f"{mark}{text}{mark}"


def test_what_others_have_stays(program):
    made = [
        "CREATE TABLE notes (note TEXT UNIQUE, size INTEGER)", "INSERT INTO notes VALUES ('x', 1), ('y', 2)",
        "CREATE INDEX notes_by_size ON notes (size)",
        "CREATE VIEW seen AS SELECT bike FROM bikes", "CREATE INDEX more_bikes ON bikes (type_id)",
        "CREATE TABLE pointing (note TEXT REFERENCES notes (note))",
        "CREATE TABLE stations_5 (a)", "CREATE TABLE names (a)", "PRAGMA user_version = 7",
        "PRAGMA application_id = 77",
    ]
    for version in OLD:
        file = of_sql(program.folder, version)
        changed(file, ";".join(made))
        before = is_raised(program, file, version)
        with contextlib.closing(sqlite3.connect(file)) as base:
            found = [base.execute(f"PRAGMA {it}").fetchone() for it in ("user_version", "application_id")]
            assert found == [(7,), (77,)] and base.execute("SELECT * FROM seen").fetchall() == [(7,)]
        assert held(file).rows["notes"] == before.rows["notes"] != []


def test_what_others_have_of_the_old_tables(program):
    """An index of such a table goes with it, and a view of it stays as a text."""
    for version, layout in itertools.product(OLD, LAYOUTS):
        for table in GONE[version]:
            columns = {
                "kept": ["command", "caller, req_key"], "counts": ["type_id", "station_id, type_id"],
                "riders": ["balance"],
            }
            for column in columns.get(table, ["name"]):
                file = of_sql(program.folder, version, layout=layout)
                indexes = f"CREATE INDEX more ON {table} ({column}); CREATE UNIQUE INDEX one ON {table} ({column})"
                changed(file, f"{indexes}; CREATE VIEW seen AS SELECT * FROM {table}")
                with told_with(f"version {version}, {layout}, {table} ({column})"):
                    is_raised(program, file, version)
                    assert "seen" in [it[1] for it in held(file).schema]
                removed(file)


def test_a_unique_index_that_somebody_added(program):
    """On a table that stays: a good request could fail on it afterwards."""
    for version in OLD:
        for where in "trucks (capacity)", "bikes (station_id, dock)", "docks (dock)", "meta (app)":
            file = of_sql(program.folder, version)
            changed(file, f"CREATE UNIQUE INDEX one ON {where}")
            with told_with(f"version {version}, {where}"):
                stays(program, file, FOREIGN)
            removed(file)


def test_names_that_others_have_taken(program):
    """Of a newer table: a table, or a foreign key to one, makes a file another program's; with a view or an index it
    can't be raised."""
    for version in OLD:
        new = NEW[version]
        indexes = ["history_by_key"] + ["more_names_by_language", "more_names_by_thing"] * (version < 3)
        foreign = [f"CREATE TABLE {it} (a)" for it in new] + [
            f"CREATE TABLE pointing (a REFERENCES {it})" for it in [*new, *GONE[version], "bikes"]
        ]
        foreign += [declared(it, list(audit.BOUNDS[it])) for it in new] + [
            f"CREATE TABLE {it.upper()} (a)" for it in new
        ]
        failed = [f"CREATE VIEW {it} AS SELECT 1" for it in new] + [f"CREATE INDEX {it} ON bikes (bike)" for it in new]
        for it in indexes:
            failed += [f"CREATE TABLE {it} (a)", f"CREATE VIEW {it} AS SELECT 1", f"CREATE INDEX {it} ON bikes (bike)"]
        for change, wanted in [*((it, FOREIGN) for it in foreign), *((it, STORE_FAILED) for it in failed)]:
            file = of_sql(program.folder, version)
            changed(file, change)
            with told_with(f"version {version}, {change}"):
                stays(program, file, wanted)
            removed(file)


def test_another_table_of_a_name_between(program):
    """A name that the table of stations had in schema 2 or 3 is none of those before. Such a file is another program's,
    or the table stays."""
    for version, name in (1, "stations_2"), (1, "stations_3"), (2, "stations_3"), (2, "stations"), (3, "stations_2"):
        file = of_sql(program.folder, version)
        changed(file, f"CREATE TABLE {name} (a); INSERT INTO {name} VALUES (1)")
        before = held(file)
        ended = program.run("raise", file.name)
        with told_with(f"version {version}, {name}"):
            assert ended in (DONE, FOREIGN), ended
            assert held(file) == (before if ended == FOREIGN else raised(program, before, version))
        removed(file)


def test_files_that_are_no_database(program):
    for number, data in enumerate([
        b"xx", b"SQLite format 3\0", bytes(100), b"text\n" * 1000, random.Random(SEED).randbytes(4096)
    ]):
        file = Path(program.folder, f"no{number}.db")
        file.write_bytes(data)
        assert program.run("raise", file.name) == STORE_FAILED, data[:20]
        assert file.read_bytes() == data
    file = of_sql(program.folder, 1)
    os.link(file, file.with_name("other.db"))
    stays(program, file, STORE_FAILED)


def test_a_file_that_another_program_has(program):
    """One that serves it, or that writes it."""
    file = of_sql(program.folder, 2)
    with contextlib.closing(sqlite3.connect(file, isolation_level=None)) as base:
        base.execute("BEGIN EXCLUSIVE")
        assert program.run("raise", file.name) == STORE_FAILED
    is_raised(program, file, 2)
    with Server(program, file=file.name):
        assert program.run("raise", file.name) == STORE_FAILED


def test_raised_by_many_at_once(program):
    """Each ends well or finds it taken."""
    for turn in range(6):
        file = of_sql(program.folder, 1 + turn % 3)
        wanted = raised(program, held(file), 1 + turn % 3)
        ends = at_once(lambda _, file=file: program.run("raise", file.name), range(6), 6)
        assert DONE in ends and all(it in (DONE, STORE_FAILED) for it in ends), ends
        assert held(file) == wanted
        removed(file)


def test_output_that_takes_nothing(program):
    """It is written when the file is raised."""
    for version, end in (1, "/dev/full"), (2, "&-"), (3, "/dev/full"):
        file = of_sql(program.folder, version)
        wanted = raised(program, held(file), version)
        ended = program.shell(f">{end}", "raise", file.name)
        assert ended == WRITE_FAILED, ended
        assert held(file) == wanted
        removed(file)


# ---- A large city

LARGE = ["--stations", "5000", "--docks", "20", "--bicycles", "20000", "--riders", "50000", "--rentals", "100000"]


def timed(program, *given):
    """Runs words, and returns how they end, and the seconds of processor and of the clock and the megabytes that they
    take."""
    begun = time.monotonic()
    with program.start(*given) as child:
        out, said = child.stdout.read(), child.stderr.read()
        _, status, used = os.wait4(child.pid, 0)
        child.returncode = os.waitstatus_to_exitcode(status)
    return (
        (child.returncode, out, said),
        f"{used.ru_utime + used.ru_stime:.1f} s of processor, {time.monotonic() - begun:.1f} s, "
        f"{used.ru_maxrss // 1024} MB",
    )


@quickly
def test_a_large_city(program):
    """What a raise takes beside a check."""
    if "BIKESHARE_LARGE" not in os.environ:
        return
    make = [TOP / "bench/city.py", "made", *LARGE, "--requests", "0", "--make", "city.db", "--program", program.file]
    subprocess.run(["python3", *make], cwd=program.folder, check=True)
    file = Path(program.folder, "city.db")
    feeds = [
        program.run("feed", file.name, it, "--at", "1800000000") for it in ("station_status", "station_information")
    ]
    for word in "check", "raise":
        ended, took = timed(program, word, file.name)
        assert ended == (SOUND if word == "check" else DONE), ended
        print(f"{word} of schema {NEWEST}: {took}")
    print(f"{file.stat().st_size >> 20} MB")
    for version in OLD:
        old = Path(shutil.copy(file, file.with_name(f"city{version}.db")))
        lowered(old, version)
        for word, wanted in ("check", older(version)), ("raise", DONE), ("check", SOUND), ("raise", DONE):
            ended, took = timed(program, word, old.name)
            assert ended == wanted, ended
            print(f"schema {version}, {word}: {took}")
        assert [
            program.run("feed", old.name, it, "--at", "1800000000") for it in ("station_status", "station_information")
        ] == feeds
        removed(old)


# ---- Where the word isn't built


@functools.cache
def is_built(file):
    """Whether the program's usage has a line of the word. It is told once where it hasn't."""
    if b"\n  raise FILE  " in Program(file, None).run("--help")[2]:
        return True
    print("raising: nothing was tried, since the program's usage has no line with `raise FILE`", flush=True)
    return False


def where_built(test):
    @functools.wraps(test)
    def tried(program):
        if is_built(program.file):
            test(program)

    return tried


globals().update({
    name: where_built(it) for name, it in list(globals().items()) if name.startswith("test_") and inspect.isfunction(it)
})
