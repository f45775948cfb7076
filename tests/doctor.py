"""deploy/bikeshare-doctor beside the program: what it calls bad the program refuses, and what it lets through the
program takes. It never writes. doctor_lines.py tries its request lines and tables of stations.

What needs another user, a read-only file system or a full disk is tried where the test is root and may mount. A line
says where it isn't.
"""

import contextlib
import gzip
import http.server
import itertools
import json
import os
import random
import re
import resource
import shutil
import signal
import socket
import sqlite3
import struct
import subprocess
import sys
import tempfile
import threading
import time
import unittest.mock
from pathlib import Path

from adoption import KEY_DECLARED
from package import sections_of
from shared import (
    CITY, FEEDS, FOREIGN, HEADER, HISTORY, KEPT_BY_KEY, KEYED, KILLED, READ_FAILED, READY, SOUND, STORE_FAILED, TOP,
    UNKEYED, Program, Server, accepted, changed, disturbed, free_port, held, killed, line_of, loaded, needs, office,
    put, ran, removed, requests_of, rows_of, taken, to_schema_3,
)

SCRIPT = TOP / "deploy/bikeshare-doctor"
PAGE = TOP / "deploy/bikeshare-doctor.1"
COMPLETION = TOP / "deploy/bikeshare-doctor.bash"
doctor = loaded(SCRIPT)
NOW = 1_750_000_000
NOBODY = 65534
BAD_FIELD, FOR_GOOD, FOR_NOW = "bad_field", "accepted for good", "accepted for now"


def told(*words, given=None, **how):
    """Runs the script with these words: its status, and the lines that it says."""
    how |= {"input": given} if given is not None else {"stdin": subprocess.DEVNULL}
    script = [sys.executable, SCRIPT, *map(str, words)]
    done = subprocess.run(script, capture_output=True, timeout=120, check=False, **how)
    assert not done.stderr or done.returncode == 2, done.stderr.decode()
    return done.returncode, (done.stdout or done.stderr).decode().splitlines()


def place_of(finding):
    """Where a finding is, and the word for it."""
    return finding.where, finding.word


def number_in(where):
    """The number of the line or of the row where something is."""
    return int(re.search("[0-9]+", where)[0])


SYSTEM = b"1699999200\toffice\tf1\t" + CITY[0].encode()


def system_line(**changed_fields):
    """A set-system of which nothing is found, but for the fields that are changed."""
    fields = {
        "system_id": "metro", "language": "en", "name": "Metro", "opening_hours": "24/7",
        "feed_contact_email": "feeds@example.org", "timezone": "Europe/Rome", "currency": "EUR",
        "base_url": "https://bikes.example", "ttl": "30",
    }
    return f"{NOW}\toffice\tk1\tset-system\t" + "\t".join({**fields, **changed_fields}.values())


# ---- the city's file


def city_file(program, name="city.db"):
    """Makes the city of the documents, all of which is in its file."""
    accepted(program, CITY, file=name, key="f")
    changed(Path(program.folder, name))
    return Path(program.folder, name)


def folder_of(file):
    """What stands in a file's folder: names, modes, times and bytes."""
    rows = {}
    for it in sorted(file.parent.iterdir()):
        found = it.lstat()
        data = it.read_bytes() if it.is_file() else None
        rows[it.name] = found.st_mode, found.st_size, found.st_mtime_ns, found.st_nlink, data
    return rows


def looked_at(file):
    """What is found of a file, in whose folder nothing changes by that."""
    before = folder_of(file) if file.parent.is_dir() else None
    found = doctor.findings_of_file(str(file))
    assert before is None or folder_of(file) == before, f"{file.parent} was changed"
    return found


def words_of(file):
    """The words for what is found of a file."""
    return [it.word for it in looked_at(file)]


def is_alike(program, file, wanted, *hints):
    """Holds what is found of a file to what is wanted, which is what `check` says of it, and to words of the hint."""
    found = looked_at(file)
    assert [it.word for it in found] == ([wanted] if wanted else []), (file, wanted, found)
    assert all(it in found[0].text for it in hints), (hints, found)
    ended = program.run("check", str(file))
    status = {"store failed": 3, "foreign": 5, "older 2": 5, "older 3": 5, "newer 5": 5, "unsound meta 1": 5}
    assert ended == ((status[wanted], b"", wanted.encode() + b"\n") if wanted else SOUND), (file, wanted, ended)


def test_files_that_are_none(program):
    """Names, folders and kinds of files that `check` calls `store failed`: each has its cause."""
    city, folder = city_file(program), Path(program.folder)
    (folder / "dir.db").mkdir()
    os.mkfifo(folder / "pipe.db")
    os.symlink("nowhere.db", folder / "link.db")
    os.symlink("ring.db", folder / "ring.db")
    os.link(city, folder / "second.db")
    for name, data in (
        ("text.db", b"Dear all,\n"), ("zip.db", b"PK\3\4" + bytes(200)), ("lines.db", SYSTEM),
        ("table.db", HEADER.encode()), ("zeros.db", bytes(4096)),
        ("random.db", random.Random(1).randbytes(5000)), ("two.db", b"SQ"), ("packed.db", b"\x1f\x8b" + bytes(90)),
        ("log.db", b"\x37\x7f\x06\x82" + bytes(90)),
    ):
        (folder / name).write_bytes(data)
    for name, hint in (
        ("none/city.db", "there is no folder"), ("city.db/x.db", "is no folder"), ("dir.db", "a folder"),
        ("pipe.db", "no regular file"), ("link.db", "a link to"), ("ring.db", "can't be looked at"),
        ("second.db", "2 names"), ("x" * 248, "more than 247 bytes"), ("text.db", "a text"), ("zip.db", "ZIP"),
        ("lines.db", "request lines"), ("table.db", "a table of stations"), ("zeros.db", "nothing but zeros"),
        ("random.db", "isn't known"), ("two.db", "a text"), ("packed.db", "gzip"), ("log.db", "without -wal"),
    ):
        is_alike(program, folder / name, "store failed", hint)
    (folder / "second.db").unlink()
    os.symlink("city.db", folder / "city-link.db")
    is_alike(program, folder / "city-link.db", None)
    assert told("", cwd=folder) == (1, ["'': store failed: the name is empty. Give the path of the city's file."])
    assert told(":memory:", cwd=folder)[0] == 1 and not program.run("check", "")[1]


def test_names_that_end_in_a_slash(program):
    """So only a folder is named: it is said that the slash is too much, and not that the file isn't there."""
    city = city_file(program)
    for name, end in (("city.db", "/"), ("city.db", "//"), ("city.db", "/."), ("city.db", "/./"), ("none.db", "/")):
        said = f"{name}{end}: store failed: the name ends in {end}, as only that of a folder may. Leave it out: {name}"
        assert told(f"{name}{end}", cwd=program.folder) == (1, [said]), (name, end)
        for word in "check", "lines":
            assert program.run(word, f"{name}{end}") == STORE_FAILED, (name, end, word)
    status, lines = told(f"{city.parent}/", cwd=program.folder)
    assert status == 1 and "it is a folder" in lines[0], lines


TRUCKS = "DROP TABLE trucks; CREATE TABLE trucks "
REGIONS = "DROP TABLE regions; CREATE TABLE regions (region_id TEXT PRIMARY KEY NOT NULL, "
# What somebody adds to the city's file by SQL, how it is told, and what takes it away.
ADDED = (
    ("CREATE INDEX some ON riders_4 (blocked) WHERE blocked = 1", "the index some, which is partial",
     "DROP INDEX some"),
    ("CREATE INDEX [a b] ON riders_4 (blocked + 1)", "the index a b, which is partial or of", 'DROP INDEX "a b"'),
    ("CREATE INDEX some ON meta (app) WHERE app = 'x'", "the table meta has the index some", "DROP INDEX some"),
    ("CREATE TRIGGER mail AFTER INSERT ON riders_4 BEGIN SELECT 1; END", "trigger mail stands on the table riders_4",
     "DROP TRIGGER mail"),
    ("CREATE TABLE cards (rider REFERENCES Riders_4 (rider))", "a foreign key of the table cards names the table Ri",
     "DROP TABLE cards"),
    ("CREATE UNIQUE INDEX once ON riders_4 (blocked)", "the table riders_4 has the UNIQUE index once beside its key",
     "DROP INDEX once"),
    ("CREATE UNIQUE INDEX once ON history (caller, req_key)", "the table history has the UNIQUE index once beside its",
     "DROP INDEX once"),
)
# The history in a table that is made anew.
ANEW = (
    f"CREATE TEMP TABLE requests AS SELECT * FROM history; DROP TABLE history; {HISTORY}; "
    "INSERT INTO history SELECT * FROM temp.requests"
)
# The tables that are of schema 4 alone.
LATER = "history", "stations_4", "riders_4", "books"
# A change to the city's file by SQL, what `check` says of it, and a word of the hint.
CHANGES = (
    ("", None, ""),
    ("CREATE TABLE notes (a); CREATE VIEW riders_2 AS SELECT 1; CREATE INDEX i ON plans (name)", None, ""),
    ("CREATE TABLE notes (a); CREATE TRIGGER t AFTER INSERT ON notes BEGIN SELECT 1; END", None, ""),
    ("DROP INDEX bikes_by_dock; CREATE INDEX i ON plans (name DESC, price)", None, ""),
    (TRUCKS + "(truck INTEGER, capacity INT NOT NULL, PRIMARY KEY (truck)) STRICT; INSERT INTO trucks VALUES (3, 9)",
     None, ""),
    (ANEW, None, ""),
    (f"{ANEW}; CREATE TABLE kept (a UNIQUE); CREATE VIEW stations AS SELECT 1", None, ""),
    ("CREATE TABLE counts (a UNIQUE); CREATE TABLE stations_3 (a); CREATE TABLE riders (a UNIQUE)", None, ""),
    (f"DROP TABLE history; {KEYED}", "foreign", "there is no table history"),
    (f"{KEYED}; UPDATE meta SET version = 3", "older 3", "the table stations_4 has a name of a later schema"),
    ("DROP TABLE stations_4; UPDATE meta SET version = 3", "older 3", "the table riders_4 has a name of a later"),
    ("DROP TABLE books", "foreign", "there is no table books"),
    *((f"{it}; {' '.join(f'DROP TABLE {table};' for table in LATER)} UPDATE meta SET version = 3", "older 3",
       "bikeshare raise FILE") for it in (KEYED, f"{UNKEYED}; {KEPT_BY_KEY}")),
    (f"{UNKEYED}; {KEPT_BY_KEY}; INSERT INTO kept SELECT caller, req_key, command, reply FROM history; "
     f"INSERT INTO kept SELECT * FROM kept LIMIT 1; {KEY_DECLARED}", "store failed", "non-unique entry in index"),
    (f"DROP TABLE history; {HISTORY.replace('number INTEGER PRIMARY KEY', 'number INTEGER NOT NULL')}", "foreign",
     "column number is"),
    (f"DROP TABLE history; {HISTORY.replace('reply TEXT NOT NULL)', 'reply TEXT NOT NULL, UNIQUE (caller, req_key))')}",
     "foreign", "sqlite_autoindex_history_1 beside its key"),
    (f"DROP TABLE history; {HISTORY.replace('moment INTEGER', 'moment TEXT')}", "foreign", "column moment is"),
    ("PRAGMA journal_mode = DELETE; PRAGMA page_size = 512; VACUUM", None, ""),
    ("DROP TABLE riders_4", "foreign", "there is no table riders_4"),
    ("ALTER TABLE riders_4 RENAME TO r; ALTER TABLE r RENAME TO RIDERS_4", "foreign", "called RIDERS_4"),
    ("ALTER TABLE riders_4 ADD COLUMN card TEXT", "foreign", "the column card more"),
    ("ALTER TABLE riders_4 RENAME COLUMN balance TO money", "foreign", "no column balance"),
    ("DROP TABLE docks; CREATE TABLE docks AS SELECT 1 AS station_id", "foreign", "column station_id"),
    (TRUCKS + "(truck INTEGER PRIMARY KEY, capacity INTEGER NOT NULL)", "foreign", "isn't STRICT"),
    (TRUCKS + "(truck INTEGER PRIMARY KEY, capacity INTEGER) STRICT", "foreign", "column capacity"),
    (TRUCKS + "(capacity INTEGER NOT NULL, truck INTEGER PRIMARY KEY) STRICT", "foreign", "another order"),
    (TRUCKS + "(truck INTEGER PRIMARY KEY, capacity INTEGER NOT NULL CHECK (capacity > 0)) STRICT", "foreign", "CHECK"),
    (REGIONS + "name TEXT NOT NULL COLLATE NOCASE) STRICT", "foreign", "COLLATE"),
    ("DROP TABLE docks; CREATE TABLE docks (station_id TEXT NOT NULL, dock INTEGER NOT NULL, broken INTEGER NOT NULL,"
     " PRIMARY KEY (dock, station_id)) STRICT", "foreign", "column station_id"),
    ("DROP TABLE plans; CREATE TABLE plans (plan_id TEXT PRIMARY KEY DESC NOT NULL, name TEXT NOT NULL,"
     " price INTEGER NOT NULL, taxable INTEGER NOT NULL, description TEXT NOT NULL) STRICT", "foreign", "another key"),
    (REGIONS + "name TEXT NOT NULL UNIQUE) STRICT", "foreign", "UNIQUE"),
    *((change, "foreign", fault) for change, fault, _ in ADDED),
    ("UPDATE meta SET app = 'tram'", "foreign", "'tram'"),
    ("UPDATE meta SET version = 0", "foreign", "unfinished"),
    ("UPDATE meta SET version = 2", "older 2", "raise"),
    ("UPDATE meta SET version = 3", "older 3", "raise"),
    ("UPDATE meta SET version = 5", "newer 5", "newer"),
    ("DELETE FROM meta", "unsound meta 1", "no row 1"),
    ("CREATE VIRTUAL TABLE words USING fts5 (a)", "store failed", "virtual table words"),
    ("PRAGMA auto_vacuum = 1; VACUUM", "store failed", "auto_vacuum"),
    *((f"PRAGMA writable_schema = ON; UPDATE sqlite_master SET {change} = 'sqlite_autoindex_docks_1'", *wanted)
      for change, *wanted in (
          ("type = 'Index' WHERE name", "store failed", "has the type 'Index'"),
          ("type = 'tndex' WHERE name", "store failed", "has the type 'tndex'"),
          ("type = x'696e646578' WHERE name", "store failed", "has no text as its type"),
          ("tbl_name = 'Docks' WHERE name", "store failed", "the table Docks, and there is none such"),
          ("tbl_name = 'plans' WHERE name", "store failed", "names the index sqlite_autoindex_docks_1, which"),
          ("tbl_name = x'646f636b73' WHERE name", "store failed", "has no text as its type or name"),
          ("name = 'sqlite_autoindex_Docks_1' WHERE name", "store failed", "is declared otherwise"),
          ("rowid = 70000 WHERE name", "store failed", "a number that is out of bounds"),
          ("rowid = -1 WHERE name", "store failed", "it is damaged: "),
          ("sql = '' WHERE name", "store failed", "has no text that declares sqlite_autoindex_docks_1"),
          ("rootpage = CAST(rootpage AS BLOB) WHERE name", "store failed", "has no number of a page"),
      )),
    *((f"PRAGMA writable_schema = ON; UPDATE sqlite_master SET {change}", *wanted) for change, *wanted in (
        ("type = 'Table' WHERE name = 'riders_4'", "store failed", "has the type 'Table'"),
        ("name = 'Riders_4' WHERE name = 'riders_4'", "store failed", "has the names Riders_4 and riders_4"),
        ("tbl_name = x'7269646572735f34' WHERE name = 'riders_4'", "store failed", "has no text as its type or name"),
        ("sql = CAST(sql AS BLOB) WHERE name = 'riders_4'", "store failed", "has no text that declares riders_4"),
        ("sql = replace(sql, 'riders', 'Riders') WHERE name = 'riders_4'", "foreign", "declared with other capitals"),
        ("sql = replace(sql, 'docks', 'Docks') WHERE name = 'docks'", "foreign", "declared with other capitals"),
        ("sql = replace(sql, 'CREATE', 'create') WHERE sql LIKE '%riders%'", None, ""),
        ("sql = replace(sql, 'NOT NULL', 'not null') WHERE name = 'riders_4'", None, ""),
        ("sql = replace(sql, 'bikes_by', 'Bikes_by') WHERE name = 'bikes_by_dock'", "store failed", "otherwise"),
        ("sql = replace(sql, 'ON bikes', 'ON Bikes') WHERE name = 'bikes_by_dock'", None, ""),
        ("sql = replace(sql, ', dock', ', DOCK') WHERE name = 'bikes_by_dock'", None, ""),
        ("name = 'Bikes_by_dock' WHERE name = 'bikes_by_dock'", "store failed", "is declared otherwise"),
        ("rowid = 500 WHERE name = 'more_names_by_thing'", None, ""),
    )),
)


def test_tables_that_were_changed(program):
    """What somebody, or a damaged disk, did to the city's file: what is found is what `check` says, and the hint names
    it."""
    made = taken(city_file(program))
    for number, (change, wanted, hint) in enumerate(CHANGES):
        file = Path(program.folder, f"changed{number}.db")
        put(made, file)
        changed(file, change)
        is_alike(program, file, wanted, *([hint] if wanted else []))
        removed(file)


def number_at(data, at):
    """The number that stands there as SQLite writes those of cells, and where it ends."""
    found = re.match(rb"[\x80-\xff]*[\0-\x7f]", data[at : at + 9], re.S)[0]
    return sum((byte & 127) << 7 * place for place, byte in enumerate(reversed(found))), at + len(found)


def listed_bytes(data, page=1):
    """Where the cells of SQLite's list of tables and indexes stand in a file."""
    begin = (page - 1) * int.from_bytes(data[16:18], "big")
    head = begin + (100 if page == 1 else 0)
    count, is_leaf = int.from_bytes(data[head + 3 : head + 5], "big"), data[head] == 13
    for place in range(count):
        at = head + (8 if is_leaf else 12) + 2 * place
        at = begin + int.from_bytes(data[at : at + 2], "big")
        if is_leaf:
            size, end = number_at(data, at)
            yield from range(at, number_at(data, end)[1] + size)
        else:
            yield from listed_bytes(data, int.from_bytes(data[at : at + 4], "big"))
    if not is_leaf:
        yield from listed_bytes(data, int.from_bytes(data[head + 8 : head + 12], "big"))


def test_bytes_of_the_list_of_tables(program):
    """A byte of it is changed: what `check` refuses the doctor doesn't pass, and where check says `sound` it finds
    nothing. So many are tried as BIKESHARE_LISTED says, or 40."""
    city = city_file(program)
    changed(city, "VACUUM")
    made, rnd, file = taken(city)[""], random.Random(1), Path(program.folder, "listed.db")
    places = list(listed_bytes(made))
    assert len(places) > 4000 and made[places[0] :].find(b"CREATE TABLE meta") < 60, (len(places), places[0])
    # Letters of other capitals are what SQLite passes over.
    flips = 1, 0x20, 0x20, 0x80
    tried = ((at, made[at] ^ rnd.choice(flips)) for at in iter(lambda: rnd.choice(places), None))
    for at, byte in itertools.islice(tried, int(os.environ.get("BIKESHARE_LISTED", "40"))):
        put({"": made[:at] + bytes([byte]) + made[at + 1 :]}, file)
        found, ended = looked_at(file), program.run("check", "listed.db")
        assert bool(found) == (ended != SOUND), (at, made[at - 20 : at + 9], byte, found, ended)


def test_what_somebody_added(program):
    """Who says on a copy what the doctor says has the city of before, also where the newest requests stand in the log.
    The file itself stays as it is."""
    whole = taken(killed_city(program, "city.db"))
    file, copy = Path(program.folder, "city.db"), Path(program.folder, "copy.db")
    for change, fault, sql in ADDED:
        put(whole, file)
        before = held(file)
        with contextlib.closing(sqlite3.connect(file, isolation_level=None)) as base:
            base.executescript(f"PRAGMA wal_autocheckpoint = 0; {change}")
            parts = taken(file)
        put({part: parts[part] for part in ("", "-wal")}, file)
        is_alike(program, file, "foreign", fault, f"say on the copy by sqlite3: {sql}. Where check says sound")
        put(taken(file), copy)
        with contextlib.closing(sqlite3.connect(copy)) as base:
            base.execute(re.search("by sqlite3: (.*?)[.] Where", looked_at(file)[0].text)[1])
        is_alike(program, copy, None)
        assert held(copy) == before, change


def test_an_index_that_is_unique(program):
    """A UNIQUE index beside the keys ends the program at a good request, so such a file is `foreign`, whatever its
    version. One over the very columns of a key refuses nothing more."""
    file = city_file(program)
    changed(file, "CREATE UNIQUE INDEX twice ON docks (station_id, dock)")
    is_alike(program, file, None)
    changed(file, "CREATE UNIQUE INDEX once ON riders_4 (blocked); UPDATE meta SET version = 2")
    is_alike(program, file, "foreign", "the UNIQUE index once")


def test_a_damaged_index(program):
    """The program compares indexes with their tables as it opens FILE, and so does the doctor."""
    made = taken(city_file(program))[""]
    page = int.from_bytes(made[16:18], "big")
    file = Path(program.folder, "index.db")
    file.write_bytes(made)
    with contextlib.closing(sqlite3.connect(file)) as base:
        index = "SELECT rootpage FROM sqlite_master WHERE name = 'sqlite_autoindex_stations_4_1'"
        (root,) = base.execute(index).fetchone()
    # The page's last bytes are its first key and the number of its row.
    at = root * page - 3
    put({"": made[:at] + bytes([made[at] ^ 1]) + made[at + 1 :]}, file)
    is_alike(program, file, "store failed", "it is damaged")


def test_bytes_that_were_changed(program):
    """A head, or a length, that the program doesn't take."""
    made = taken(city_file(program))[""]
    page = int.from_bytes(made[16:18], "big")
    broken = made[:page] + b"\xff" * page + made[2 * page :]
    for name, data, hint in (
        ("cut", made[: 10 * page], "cut"), ("short", made[:60], "cut"), ("longer", made + bytes(page), "cut"),
        ("version", made[:18] + b"\3" + made[19:], "head"),
        ("reserved", made[:20] + b"\x08" + made[21:], "8 bytes of each page"),
        ("page", made[:16] + b"\0\3" + made[18:], "head"), ("broken", broken, "damaged"),
    ):
        file = Path(program.folder, f"{name}.db")
        file.write_bytes(data)
        is_alike(program, file, "store failed", hint)
    with contextlib.closing(sqlite3.connect(Path(program.folder, "wide.db"))) as base:
        base.executescript("PRAGMA encoding = 'UTF-16'; CREATE TABLE notes (a)")
    is_alike(program, Path(program.folder, "wide.db"), "store failed", "UTF-16")


def test_a_declaration_that_is_not_utf8(program):
    """SQLite tells of it by a text that isn't UTF-8 either."""
    city = city_file(program)
    # Else there are declarations of before in what is free.
    changed(city, "VACUUM")
    made = taken(city)[""]
    file = Path(program.folder, "declared.db")
    for was, byte, wanted in (
        (b"(station_id TEXT PRIMARY KEY NOT NULL, name", 30, "foreign"), (b"CREATE TABLE riders_4", 4, "store failed"),
    ):
        assert made.count(was) == 1, was
        at = made.index(was) + byte
        put({"": made[:at] + b"\xcc" + made[at + 1 :]}, file)
        is_alike(program, file, wanted, "declaration", "restore the last copy")
        status, lines = told(file, "unsound", "riders_4", "17")
        assert status == 1 and len(lines) == 2, lines


def test_counts_in_the_head(program):
    """The two counts of changes are the same, and the form of tables is 4 or 0; a log that has the first page has
    another head. Less than a page behind the last one is passed over."""
    made = taken(city_file(program))[""]
    page = int.from_bytes(made[16:18], "big")
    file = Path(program.folder, "head.db")
    for data, wanted in (
        *((made[:at] + bytes([made[at] ^ 1]) + made[at + 1 :], "store failed") for at in (24, 27, 44, 46, 92, 95)),
        *((made[:47] + bytes([form]) + made[48:], "store failed") for form in (1, 2, 3, 5)),
        (made[:47] + b"\0" + made[48:], None), (made[:24] + b"same" + made[28:92] + b"same" + made[96:], None),
        (made + b"x", None), (made + bytes(page - 1), None),
    ):
        put({"": data}, file)
        is_alike(program, file, wanted, *(["head is damaged. Restore"] if wanted else []))
    young = taken(killed_city(program, "young.db"))
    put({"": young[""][:27] + b"\x55" + young[""][28:], "-wal": young["-wal"]}, file)
    is_alike(program, file, None)
    killed_again = Path(program.folder, "city.db")
    accepted(program, ["add-rider\t18"], file=killed_again, key="h")
    killed(program, requests_of(["add-rider\t19"], key="n"))
    grown = taken(killed_again)
    put({"": grown[""][:27] + b"\x55" + grown[""][28:], "-wal": grown["-wal"]}, file)
    is_alike(program, file, "store failed", "head is damaged. Restore")


def test_databases_of_other_programs(program):
    """Of a database with none of the tables check says `sound`, and the script that it holds no city."""
    for name, change, wanted in (
        ("notes", "CREATE TABLE notes (a)", "another program's"), ("none", "PRAGMA user_version = 1", "an empty city"),
        ("orders", "CREATE TABLE orders (a)", "foreign"), ("early", "CREATE TABLE Stations (a)", "foreign"),
        ("view", "CREATE VIEW orders AS SELECT 1", "store failed"),
    ):
        file = Path(program.folder, f"{name}.db")
        changed(file, change)
        assert words_of(file) == [wanted], (name, looked_at(file))
        if wanted == "foreign":
            assert program.run("check", str(file)) == FOREIGN
    empty = Path(program.folder, "empty.db")
    empty.write_bytes(b"")
    assert words_of(empty) == ["an empty city"]


def killed_city(program, name="killed.db"):
    """A city whose newest requests stand in the log alone: the program was killed."""
    with program.started("lines", name, stdin=subprocess.PIPE) as running:
        given = requests_of(CITY)
        running.stdin.write(given)
        running.stdin.flush()
        answers = [running.stdout.readline() for _ in CITY]
        running.kill()
    assert all(answers), answers
    return Path(program.folder, name)


def test_a_log_that_was_being_written(program):
    """Wherever a kill meets a program, before a call or in the midst of a write, what it had begun is no damage."""
    given, file = requests_of(CITY), Path(program.folder, "city.db")
    calls = disturbed(program, ["lines", "city.db"], given).calls
    unfinished = 0
    for number, how in itertools.product(range(1, calls, 7), ("STOP_AT", "PART_AT")):
        removed(file)
        ended = disturbed(program, ["lines", "city.db"], given, **{how: number})
        assert ended.status in (KILLED, 0), ended
        log = doctor.bytes_of_log(str(file))
        # Of a log that was just ended, whose head begins with a 0, the doctor can't know what the rest was.
        assert log[:1] == b"\0" or doctor.findings_of_log(str(file)) == [], (how, number, ended.hit)
        page = int.from_bytes(log[8:12], "big")
        frames = [log[at + 8 : at + 16] for at in range(32, len(log) - 24, 24 + page)] if page else []
        unfinished += any(it[0] == 0 and it[1:] == log[17:24] for it in frames)
    # Such a log is what this is about.
    assert unfinished > 2, unfinished


def test_logs(program):
    """A log is read with its FILE, in a copy. Where it is damaged behind its head, or another file's, that is told;
    check passes what is damaged over."""
    whole = taken(killed_city(program))
    log = whole["-wal"]
    page = int.from_bytes(log[8:12], "big")
    file = Path(program.folder, "city.db")
    put(whole, file)
    is_alike(program, file, None)
    at = 32 + 5 * (24 + page) + 30
    # The log is longer than what was written to it.
    frames = sum(log[it + 8 : it + 16] == log[16:24] for it in range(32, len(log), 24 + page))
    last, end = 32 + (frames - 1) * (24 + page) + 30, 32 + frames * (24 + page)
    for data, wanted in (
        (log[:at] + bytes([log[at] ^ 1]) + log[at + 1 :], "passed over"), (log[:32], "an empty city"),
        # The last frame, and one that was cut: what was answered last.
        (log[:last] + bytes([log[last] ^ 1]) + log[last + 1 :], "passed over"), (log[: end - page // 2], "passed over"),
    ):
        put({"": whole[""], "-wal": data}, file)
        assert words_of(file) == [wanted], (data[:40], wanted, looked_at(file))
        # A copy is seldom newer than what the program still has, and the start writes over what it passed over.
        if wanted == "passed over":
            (told,) = looked_at(file)
            assert "copy FILE and this log before" in told.text and "has requests which this lacks" in told.text
        assert program.run("check", "city.db") == SOUND and taken(file)["-wal"] == data, wanted
        found = [place_of(it) for it in doctor.findings_of_log(str(file))]
        assert found == ([(f"{file}-wal", wanted)] if wanted == "passed over" else []), found
    other = Path(program.folder, "other.db")
    changed(other, "PRAGMA page_size = 4096; CREATE TABLE notes (a)")
    Path(f"{other}-wal").write_bytes(log)
    assert words_of(other) == ["another's log"], looked_at(other)
    # It is also without a frame, where there is room for the head of one.
    put(whole, file)
    assert program.run("lines", "city.db") == (0, b"", b"")
    main = taken(file)[""]
    for length, size in itertools.product((page, 4096, 512, 100, 0, 2**31), (55, 56, 568, 9000)):
        head = b"\x37\x7f\x06\x82" + struct.pack(">5I", 3_007_000, length, 0, 1, 2)
        head += struct.pack(">2I", *doctor.sums_of(head, "<"))
        put({"": main, "-wal": (head + bytes(9000))[:size]}, file)
        is_anothers = length != page and size >= 56
        assert words_of(file) == (["another's log"] if is_anothers else []), (length, size, looked_at(file))
        assert program.run("check", "city.db") == (STORE_FAILED if is_anothers else SOUND), (length, size)


def damaged_heads(log):
    """A log with a head that is damaged in one place or as a whole."""
    yield from (log[:at] + bytes([log[at] ^ 0x40]) + log[at + 1 :] for at in (0, 1, 3, 5, 9, 14, 17, 22, 24, 31))
    yield b"\1" * 32 + log[32:]
    yield random.Random(2).randbytes(9000)


def test_a_log_with_a_damaged_head(program):
    """It is refused, and nothing is changed. Who follows the advice has the city as it was when the log was last
    brought into FILE, or an empty one where it never was. A log that is too short for a request keeps nobody away."""
    young = taken(killed_city(program, "city.db"))
    file = Path(program.folder, "city.db")
    assert program.run("lines", "city.db") == (0, b"", b"")
    older = held(file)
    grown = {"": taken(file)[""]}
    killed(program, requests_of(["add-rider\t18", "add-rider\t19"], key="n"))
    grown["-wal"] = taken(file)["-wal"]
    assert taken(file)[""] == grown[""], "the log was brought into FILE"
    for parts, held_alone, state in (
        (young, "an empty city, since the log had all of it", []),
        (grown, "the city as it was when its log was last brought into it", older),
    ):
        for number, log in enumerate(damaged_heads(parts["-wal"])):
            put({"": parts[""], "-wal": log}, file)
            (found,) = looked_at(file)
            assert place_of(found) == (f"{file}-wal", "store failed"), (number, found)
            assert f"in {len(log):,} bytes it may hold answered requests" in found.text, (number, found)
            assert f"Else mv {file}-wal {file}-wal-damaged and start: FILE is then {held_alone}" in found.text, found
            for words in (("check",), ("lines",), ("raise",))[: None if number == 0 else 1]:
                assert program.run(*words, "city.db") == STORE_FAILED, (number, words)
            assert taken(file) == {"": parts[""], "-wal": log}, number
        script = re.search("Else (mv .*?) and start: ", found.text)[1]
        subprocess.run(["sh", "-c", script], check=True)
        assert program.run("check", "city.db") == SOUND and held(file) == state
        assert words_of(file) == (["an empty city"] if not state else [])
        Path(f"{file}-wal-damaged").unlink()
    for size, wanted in (567, None), (568, "store failed"):
        put({"": grown[""], "-wal": b"\1" * size}, file)
        is_alike(program, file, wanted)
    put({"": grown[""], "-wal": b"\1" * 568}, file)
    assert program.run("check", "city.db") == STORE_FAILED
    # A FILE that is damaged itself isn't called whole.
    for main in grown[""][:4096] + b"\xff" * 2048 + grown[""][6144:], grown[""][:-4096]:
        put({"": main, "-wal": b"\1" * 9000}, file)
        (found,) = looked_at(file)
        assert found.word == "store failed" and "start: " not in found.text and "damaged" in found.text, found
        assert "keep both" in found.text or "Keep a copy of FILE and of it" in found.text, found


def test_a_log_whose_head_was_begun_anew(program):
    """Its first byte is 0 then, and it is passed over. Where FILE has all of it nothing is found; else it is told."""
    young = taken(killed_city(program, "city.db"))
    file = Path(program.folder, "city.db")
    assert program.run("lines", "city.db") == (0, b"", b"")
    main, anew = taken(file)[""], b"\0" + young["-wal"][1:]
    for whole, log, wanted in (
        (main, anew, []), (main, anew[:8] + bytes(24) + anew[32:], ["passed over"]), (main, anew[:567], []),
        (young[""], anew, ["passed over"]),
    ):
        put({"": whole, "-wal": log}, file)
        assert words_of(file) == wanted, (log[:40], looked_at(file))
        assert program.run("check", "city.db") == SOUND and taken(file) == {"": whole, "-wal": log}


def test_a_log_that_was_left_behind(program):
    """An earlier copy is put at FILE, and the log of before is forgotten beside it. Where `check` refuses the two, the
    log is named, and FILE is sound once that is away. A FILE that is damaged itself isn't called whole."""
    file = city_file(program)
    copy = taken(file)[""]
    for count in 40, 400, 2000, 4000:
        put({"": copy}, file)
        killed(program, requests_of([f"add-rider\t{rider}" for rider in range(100, 100 + count)]))
        log = taken(file)["-wal"]
        put({"": copy, "-wal": log}, file)
        if count < 1000:
            # This log has all that the copy lacks: it is copied into FILE after some 800 of these requests.
            is_alike(program, file, None)
            continue
        by_hand = f"If FILE was restored or put there by hand, move {file}-wal away, keep it, and start again. Else"
        is_alike(program, file, "store failed", "without it whole: the log beside it is another's", by_hand)
        put({"": copy}, file)
        is_alike(program, file, None)
        put({"": copy[:4096] + b"\xff" * 2048 + copy[6144:], "-wal": log}, file)
        (found,) = looked_at(file)
        assert found.word == "store failed" and "Keep FILE and its log, and restore a copy" in found.text, found


JOURNAL = b"\xd9\xd5\x05\xf9\x20\xa1\x63\xd7" + bytes(12) + b"\0\0\x02\0"


def test_beside_the_file(program):
    """A -journal that is still to be played back, what only has its name, and a log's name that is no file."""
    file = city_file(program)
    journal, log = Path(f"{file}-journal"), Path(f"{file}-wal")
    log.unlink(missing_ok=True)
    page = file.read_bytes()[16:18]
    for data, wanted, hint in (
        # sqlite3 begins one that isn't needed any more with zeros, where journal_mode is PERSIST.
        (b"", None, ""), (b"\0", None, ""), (bytes(28) + JOURNAL, None, ""),
        (b"x" * 600, "store failed", "and isn't one. Move it away."),
        (JOURNAL[:8], "store failed", "take the change back: sqlite3 "),
        (JOURNAL + b"\0\0" + page + bytes(500), "store failed", "take the change back: sqlite3 "),
        (JOURNAL + bytes(4), "store failed", "take the change back: sqlite3 "),
        (JOURNAL + b"\0\1\0\0", "store failed", "another file's"),
    ):
        journal.write_bytes(data)
        is_alike(program, file, wanted, *([str(journal), hint] if wanted else []))
    journal.unlink()
    for make in Path.mkdir, os.mkfifo, lambda it: it.symlink_to("nowhere"), lambda it: it.symlink_to(file):
        make(journal)
        is_alike(program, file, "store failed", f"{journal} is no regular file")
        (journal.rmdir if journal.is_dir() and not journal.is_symlink() else journal.unlink)()
    log.unlink(missing_ok=True)
    log.mkdir()
    is_alike(program, file, "store failed", "no regular file")


def test_a_change_that_sqlite3_left_unfinished(program):
    """sqlite3 is killed in the midst of a change. Who follows the advice has the city of before."""
    file = city_file(program)
    changed(file, "PRAGMA journal_mode = DELETE")
    before = held(file)
    changing = (
        "import os, sqlite3, sys; base = sqlite3.connect(sys.argv[1]); base.execute('PRAGMA cache_size = 1')",
        "base.execute('BEGIN'); base.execute('UPDATE riders_4 SET balance = 1')",
        "base.execute('CREATE TABLE notes (a)')",
        "base.executemany('INSERT INTO notes VALUES (?)', [('x' * 2000,)] * 500)",
        "os.kill(os.getpid(), 9)",
    )
    subprocess.run([sys.executable, "-c", "\n".join(changing), file], check=False)
    assert Path(f"{file}-journal").stat().st_size and len(file.read_bytes()) > 500_000
    is_alike(program, file, "store failed", "Copy both by cp.", "would damage it: move the -journal away.")
    words = re.search("take the change back: sqlite3 (.*?) '(.*?)'[.] ", looked_at(file)[0].text)
    with contextlib.closing(sqlite3.connect(words[1])) as base:
        assert base.execute(words[2]).fetchall() == [("ok",)]
    is_alike(program, file, None)
    assert held(file) == before


@contextlib.contextmanager
def flagged(path, flag):
    """Gives a file or a folder this flag of chattr for a time."""
    assert ran("chattr", f"+{flag}", path)[0] == 0, (path, flag)
    try:
        yield
    finally:
        ran("chattr", f"-{flag}", path)


@needs("chattr")
def test_flags_of_chattr(program):
    """A flag that keeps everybody from writing is named, and how it is taken away; chmod and chown aren't proposed."""
    with tempfile.TemporaryDirectory(dir="/dev/shm" if os.path.isdir("/dev/shm") else program.folder) as folder:
        home = Path(folder, "home")
        home.mkdir()
        if ran("chattr", "+i", home)[0]:
            print("doctor: not tried with flags of chattr, this user or this file system has none", flush=True)
            return
        ran("chattr", "-i", home)
        file, log = home / "city.db", home / "city.db-wal"
        accepted(program, CITY, file=str(file), key="f")
        whole = file.read_bytes()
        for path, flag, has_log, wanted in (
            (file, "i", True, "store failed"), (file, "a", True, "store failed"), (file, "i", False, "store failed"),
            (log, "i", True, "store failed"), (log, "a", True, "store failed"), (home, "i", False, "store failed"),
            # With its log FILE is opened in a folder to which nothing can be added.
            (home, "i", True, None), (home, "a", True, None),
        ):
            put({"": whole, "-wal": b""} if has_log else {"": whole}, file)
            with flagged(path, flag):
                is_alike(program, file, wanted, *([f"{path} has the flag {flag}", f"root: chattr -{flag} {path}."]
                                                  if wanted else []))
                if wanted:
                    assert "chmod" not in looked_at(file)[0].text and "chown" not in looked_at(file)[0].text
            is_alike(program, file, None)
        removed(file)
        for flag in "i", "a":
            with flagged(home, flag):
                (found,) = looked_at(file)
                assert f"none can be made: {home} has the flag {flag} of chattr" in found.text, found
                assert found.text.endswith(f"root: chattr -{flag} {home}."), found
                assert program.run("init", str(file)) == STORE_FAILED, flag
            removed(file)
        log.write_bytes(b"x")
        with flagged(log, "i"):
            (found,) = looked_at(file)
            assert f"none can be made: {log} has the flag i of chattr" in found.text, found
            assert program.run("init", str(file)) == STORE_FAILED


def test_a_file_that_is_not_there(program):
    """Words for looking say `store failed` and make nothing; a name that is nearly right is proposed."""
    city = city_file(program, "metro.db")
    file = city.with_name("mtero.db")
    found = looked_at(file)
    assert [it.word for it in found] == ["store failed"] and "metro.db?" in found[0].text, found
    day = "day", "entries", "2023-11-14", "UTC0"
    for word, *more in (("check",), ("feed", "gbfs"), day, ("history",), ("raise",)):
        assert program.run(word, "mtero.db", *more) == STORE_FAILED, word
    assert not file.exists()


def test_a_log_without_its_file(program):
    """Where FILE is gone, or has at most one byte, and its log may hold a frame, whatever its head, no word is to run:
    that log is the only copy. Beside a shorter one the program makes a city."""
    log = taken(killed_city(program))["-wal"]
    removed(program.folder, "killed.db")
    file = Path(program.folder, "city.db")
    heads = {"good frames": log, "damaged head": bytes(4) + log[4:], "a damaged head": random.Random(3).randbytes(6000)}
    mains = {}, {"": b""}, {"": b"S"}
    for (hint, data), size, main in itertools.product(heads.items(), (0, 31, 32, 567, 568, 5000), mains):
        removed(file)
        put({**main, "-wal": data[:size]}, file)
        (found,) = looked_at(file)
        if main.get("") and hint == "good frames" and size == 567:
            # Beside one byte the engine refuses a log of other pages than it would make.
            assert program.run("init", "city.db") == STORE_FAILED and found.word == "store failed", found
            assert "Move both away" in found.text, found
            continue
        if size < 568:
            wanted = ("an empty city", "raise refuses it") if main else ("store failed", "others make an empty city")
            assert program.run("raise", "city.db") == STORE_FAILED, (hint, size)
            assert found.word == wanted[0] and wanted[1] in found.text and "Is it" not in found.text, (size, found)
            assert program.run("init", "city.db") == READY, (hint, size)
            continue
        assert found.word == "store failed" and hint in found.text and "its log " in found.text, (hint, size, found)
        assert f"{size:,} bytes" in found.text and "keep it" in found.text and "others" not in found.text, found
        for words in (("check",), ("lines",), ("init",)):
            assert program.run(*words, "city.db") == STORE_FAILED, (hint, size, words)
        assert taken(file) == {**main, "-wal": data[:size]}
    # Beside an empty FILE a -journal has sqlite3 opened by its hint, and that would take the log away.
    put({"": b"", "-wal": log, "-journal": b"x"}, file)
    (found,) = looked_at(file)
    assert "keep it" in found.text and "-journal" not in found.text and "take the change" not in found.text, found


def test_a_log_of_two_names(program):
    """A log that is a link, or has a second name, is refused by the program; the doctor says so."""
    whole = taken(killed_city(program))
    file, log = Path(program.folder, "city.db"), Path(program.folder, "city.db-wal")
    for make, hint in (
        (lambda: os.link(log, Path(program.folder, "second")), "2 names"),
        (lambda: (log.rename(Path(program.folder, "elsewhere")), log.symlink_to("elsewhere")), "a link to"),
    ):
        put({part: whole[part] for part in ("", "-wal")}, file)
        make()
        assert program.run("check", "city.db") == STORE_FAILED, hint
        assert any(it.word == "store failed" and hint in it.text for it in looked_at(file)), (hint, looked_at(file))


def test_a_file_that_cannot_be_made(program):
    """What stands where FILE would be made and keeps the program from it is told, and so where FILE has 0 bytes."""
    for number, (name, made) in enumerate((
        ("-wal", Path.mkdir), ("-wal", os.mkfifo), ("-wal", lambda it: it.symlink_to("nowhere")),
        ("-journal", lambda it: it.write_bytes(b"x")),
    )):
        folder = Path(program.folder, f"folder{number}")
        folder.mkdir()
        file = folder / "city.db"
        made(Path(f"{file}{name}"))
        (found,) = looked_at(file)
        assert found.word == "store failed" and "none can be made: " in found.text and name in found.text, found
        assert program.run("init", str(file)) == STORE_FAILED, name
        file.write_bytes(b"")
        (found,) = looked_at(file)
        assert found.word == "store failed" and (name in found.text or name in found.where), found
        assert program.run("init", str(file)) == STORE_FAILED, name


def test_a_city_ahead_of_the_clock(program):
    """A moment in the future isn't found by `check`, and is by the script."""
    accepted(program, ["add-rider\t17"], at=17_000_000_300)
    file = Path(program.folder, "city.db")
    (found,) = looked_at(file)
    assert found.word == "ahead of the clock" and "2508-09-16T06:18:20Z" in found.text, found
    assert program.run("check", "city.db") == SOUND


def test_a_city_ahead_of_the_clock_that_is_served(program):
    """It is told of that as it is of the same FILE when nobody serves it, and not that nothing is wrong."""
    file = city_file(program)
    accepted(program, ["add-rider\t18"], at=17_000_000_300, key="n")
    (alone,) = looked_at(file)
    with Server(program, seconds=60) as server:
        for asked in None, office("r1", "top-up\t17\t100"):
            assert asked is None or b" 200 " in server.ask(asked)
            status, lines = told(file, "--port", server.port)
            assert (status, len(lines)) == (1, 2) and "nothing is wrong" not in lines[0], lines
            assert "that is this city's own service. " in lines[0], lines
            wanted = f"{file}: {alone.word}: {alone.text}"
            assert re.sub("[0-9]+ years", "", lines[1]) == re.sub("[0-9]+ years", "", wanted), lines
        Path(f"{file}-journal").write_bytes(b"x")
        status, lines = told(file, "--port", server.port)
        assert status == 1 and "isn't one. Move it away." in lines[1], lines


def test_a_look_at_a_city_that_is_served(program):
    """While requests come one after the other, and the log is brought into FILE again and again, nothing is found that
    isn't wrong; and neither file is changed by looking."""
    file = city_file(program)
    over, sent = threading.Event(), [0]

    def send():
        while not over.is_set():
            assert b" 200 " in server.ask(office(f"r{sent[0]}", "top-up\t17\t1"))
            sent[0] += 1
            time.sleep(pause)

    with Server(program, seconds=60) as server:
        for pause in 0.05, 0:
            over.clear()
            sender = threading.Thread(target=send)
            sender.start()
            try:
                before = sent[0]
                for _ in range(5):
                    status, lines = told(file, "--port", server.port)
                    assert all("not looked at" in it for it in lines[1:]) and status == bool(lines[1:]), lines
                    assert pause == 0 or status == 0, lines
                assert sent[0] > before
            finally:
                over.set()
                sender.join()
    assert program.run("check", "city.db") == SOUND


def test_who_has_the_file_open(program):
    """A program that serves it, and sqlite3, keep others away, and are named; then nothing is found again."""
    file = city_file(program)
    with Server(program, seconds=60) as server:
        (found,) = looked_at(file)
        assert found.word == "store failed" and f"process {server.child.pid} (" in found.text, found
        assert program.run("check", "city.db") == STORE_FAILED
    assert not looked_at(file)
    holding = "import sqlite3, sys; base = sqlite3.connect(sys.argv[1]); base.execute('BEGIN IMMEDIATE')"
    holding = [sys.executable, "-c", f"{holding}; print(1, flush=True); sys.stdin.read()", file]
    with subprocess.Popen(holding, stdin=subprocess.PIPE, stdout=subprocess.PIPE) as other:
        other.stdout.readline()
        (found,) = looked_at(file)
        assert found.word == "store failed" and f"process {other.pid}" in found.text, found
        assert program.run("check", "city.db") == STORE_FAILED
        other.stdin.close()
    with open(file, "rb"):
        # A file that is only open, as an editor has it, keeps nobody away.
        is_alike(program, file, None)


# What is done in a city's folder while the program serves city.db. It keeps what it has open.
LOSSES = (
    "rm city.db-wal", "rm city.db", "rm city.db city.db-wal", "mv city.db-wal old", "mv city.db old.db",
    "rm city.db city.db-wal; touch city.db",
)


def test_what_only_a_process_still_has(program):
    """FILE or its log is removed or renamed while it is served. Who follows the advice, of FILE and of the port, loses
    no answered request; to end the process is proposed by neither."""
    for number, loss in enumerate(LOSSES):
        removed(program.folder, "city.db")
        file, copy = city_file(program), Path(program.folder, f"copy{number}.db")
        with Server(program, seconds=60) as server:
            assert b" 200 " in server.ask(office("r1", "top-up\t17\t100"))
            subprocess.run(["sh", "-c", loss], cwd=program.folder, check=True)
            assert b" 200 " in server.ask(office("r2", "top-up\t17\t100"))
            (found,), (at_port,) = looked_at(file), doctor.findings_of_port(server.port)
            assert found.word == "removed" and f"process {server.child.pid} (" in found.text, (loss, found)
            for it in found, at_port:
                assert "Don't end it" in it.text and "End that one" not in it.text, (loss, it)
            script = re.search("(kill -STOP .*?; bikeshare check COPY)[.]", found.text)[1]
            assert script in at_port.text, at_port
            script = script.replace("bikeshare", program.file).replace("COPY", str(copy))
            assert subprocess.run(["sh", "-c", script], capture_output=True, check=True).stdout == b"sound\n", loss
        removed(program.folder, "city.db")
        for part in "", "-wal":
            Path(f"{copy}{part}").rename(f"{file}{part}")
        keys = rows_of("SELECT req_key FROM history WHERE req_key LIKE 'r%' ORDER BY 1", program.folder, "city.db")
        assert keys == [("r1",), ("r2",)], (loss, keys)
        assert program.run("check", "city.db") == SOUND and not looked_at(file), loss


def test_the_port(program):
    """A port that is taken, by which process, and one that only root may take."""
    city_file(program)
    with Server(program, seconds=60) as server:
        (found,) = doctor.findings_of_port(server.port)
        assert place_of(found) == (f"port {server.port}", "read failed"), found
        assert f"process {server.child.pid} (" in found.text, found
        accepted(program, CITY, file="other.db", key="f")
        assert program.run("serve", "other.db", "--port", str(server.port)) == (6, b"", b"read failed\n")
        status, lines = told(Path(program.folder, "other.db"), "--port", server.port)
        assert status == 1 and [it.startswith(f"port {server.port}: read failed: ") for it in lines] == [True], lines
        assert f"That is another city ({program.folder}/city.db): give this one another port." in lines[0], lines
        os.kill(server.child.pid, signal.SIGSTOP)
        stopped = told(Path(program.folder, "other.db"), "--port", server.port)[1][0]
        assert "another city" in stopped and stopped.endswith("so it answers nobody."), stopped
    assert not doctor.findings_of_port(server.port) and not doctor.findings_of_port(0)
    with socket.create_server(("", 0)) as everywhere:
        (found,) = doctor.findings_of_port(everywhere.getsockname()[1])
        assert "taken" in found.text, found
    listening = "import socket, time; it = socket.create_server(('127.0.0.1', 0)); print(it.getsockname()[1]"
    listening = [sys.executable, "-c", f"{listening}, flush=True); time.sleep(60)"]
    with subprocess.Popen(listening, stdout=subprocess.PIPE) as other:
        (found,) = doctor.findings_of_port(int(other.stdout.readline()))
        other.kill()
    assert found.text.endswith("End that one, or give the city another port."), found


def test_a_port_that_is_bound(program):
    """A socket that has the port and doesn't listen keeps the program away as one that does, and is told with its
    process; one that leaves the program its port isn't."""
    file = city_file(program)
    me = f"process {os.getpid()} ("
    for address in "127.0.0.1", "":
        with socket.socket() as bound:
            bound.bind((address, 0))
            port = bound.getsockname()[1]
            status, lines = told(file, "--port", port)
            begin = f"port {port}: read failed: it is bound, without listening there, by another process"
            assert status == 1 and [it.startswith(begin) for it in lines] == [True], lines
            assert me in lines[0] and lines[0].endswith(", or give the city another port."), lines
            assert program.run("serve", "city.db", "--port", str(port)) == READ_FAILED
            bound.setsockopt(socket.SOL_SOCKET, socket.SO_REUSEADDR, 1)
            serves_at(program, file, port)
    # The end of a connection that a client keeps there.
    with socket.create_server(("127.0.0.1", 0)) as other, socket.socket() as client:
        client.bind(("127.0.0.1", 0))
        port = client.getsockname()[1]
        client.connect(other.getsockname())
        status, lines = told(file, "--port", port)
        assert status == 1 and me in lines[0] and "without listening there, by process" in lines[0], lines
        assert lines[0].endswith("). End that one, or give the city another port."), lines
        assert program.run("serve", "city.db", "--port", str(port)) == READ_FAILED
        client.close()
        other.accept()[0].close()
        # The end that closes first has the port for a minute.
        (found,) = doctor.findings_of_port(port)
        assert "were just closed, and keep it for up to a minute." in found.text, found
        assert program.run("serve", "city.db", "--port", str(port)) == READ_FAILED
    # What listens at another address of the port leaves the program its own.
    with socket.socket(socket.AF_INET6 if socket.has_ipv6 else socket.AF_INET) as other:
        if socket.has_ipv6:
            other.setsockopt(socket.IPPROTO_IPV6, socket.IPV6_V6ONLY, 1)
        other.bind(("::" if socket.has_ipv6 else "127.0.0.2", 0))
        other.listen()
        serves_at(program, file, other.getsockname()[1])


def serves_at(program, file, port):
    """Nothing is found of the port, and the program listens there."""
    assert told(file, "--port", port)[0] == 0 and not doctor.findings_of_port(port), port
    with program.started("serve", str(file), "--port", str(port)) as server:
        assert line_of(server) == f"listening 127.0.0.1:{port}\n".encode(), port


def test_the_port_of_its_own_service(program):
    """That the city's own service has FILE open and listens is no fault, unless it is stopped or hangs at its disk."""
    file = city_file(program)
    with Server(program, seconds=60) as server:
        pid, words = server.child.pid, (file, "--port", server.port)
        status, lines = told(*words)
        assert (status, len(lines)) == (0, 1) and lines[0].startswith(f"port {server.port}: process {pid} ("), lines
        assert "that is this city's own service: nothing is wrong." in lines[0], lines
        assert told(*words, "unsound", "bikes", "8")[0] == 1
        os.kill(pid, signal.SIGSTOP)
        status, lines = told(*words)
        assert (status, len(lines)) == (1, 2), lines
        assert all(f"Process {pid} is stopped" in it and "nothing is wrong" not in it for it in lines), lines
        assert "That is this city's own service." in lines[1], lines
        os.kill(pid, signal.SIGCONT)
        assert told(*words)[0] == 0
        for states, hint in ((["D"] * 11, "waits for its disk"), (["D", *"S" * 10], ""), (["D"] * 10 + ["S"], "")):
            with unittest.mock.patch.object(doctor, "state_of", lambda pid, left=iter(states): next(left)):
                told_of = doctor.standstill_of([pid])
            assert hint in told_of and bool(hint) == bool(told_of), (states, told_of)


def test_descriptors(program):
    """With --port it is told where serve may have fewer descriptors than it needs; else they aren't seen."""
    file = city_file(program)

    def limited(most, *words):
        return ran("sh", "-c", f'ulimit -n {most}; exec "$@"', "sh", *words, cwd=program.folder)

    assert limited(1015, program.file, "serve", file, "--port", "0") == (6, "read failed\n")
    for most in 256, 1015:
        status, said = limited(most, sys.executable, SCRIPT, file, "--port", "0")
        assert status == 1 and said.startswith(f"descriptors: read failed: {most:,} are allowed"), said
        assert "1,016" in said and said.count("\n") == 1, said
    status, said = limited(1016, sys.executable, SCRIPT, file, "--port", "0")
    assert status == 0 and "the clock" in said and "descriptors" not in said, said
    with program.started("serve", str(file), "--port", "0", preexec_fn=lambda: limit_descriptors(1016)) as server:
        assert server.stdout.readline().startswith(b"listening ")
    status, said = limited(256, sys.executable, SCRIPT, file)
    assert status == 0 and "the clock, descriptors" in said, said


def limit_descriptors(most):
    """Of this process, and of those that it becomes."""
    resource.setrlimit(resource.RLIMIT_NOFILE, (most, most))


# ---- what needs root


def as_nobody(program):
    """A copy of the program that any user may run, in a folder that any may enter. None where the test isn't root."""
    if os.geteuid() != 0:
        print("doctor: not tried as another user, the test isn't root", flush=True)
        return None
    os.chmod(program.folder, 0o755)
    shutil.copy(program.file, Path(program.folder, "program"))
    os.chmod(Path(program.folder, "program"), 0o755)
    shutil.copy(SCRIPT, Path(program.folder, "script"))
    return Program(str(Path(program.folder, "program")), program.folder)


def test_a_user_without_rights(program):
    """What nobody may not write is told to nobody, and to root of nobody's folder or FILE; the program says `store
    failed`."""
    nobody = as_nobody(program)
    if nobody is None:
        return
    home = Path(program.folder, "home")
    home.mkdir()
    file = home / "city.db"
    accepted(program, CITY, file=file, key="f")
    removed(f"{file}-wal")
    for folder_owner, file_owner, mode, hint in (
        (NOBODY, 0, 0o600, str(file)), (NOBODY, NOBODY, 0o400, str(file)), (0, NOBODY, 0o600, f"{home}, which"),
        (0, 0, 0o644, str(file)),
    ):
        os.chown(home, folder_owner, folder_owner)
        os.chown(file, file_owner, file_owner)
        os.chmod(file, mode)
        if os.access("/usr/bin/python3", os.X_OK):
            status, said = ran("/usr/bin/python3", "-I", Path(program.folder, "script"), file, user=NOBODY)
            assert status == 1 and ": store failed: " in said and hint in said, (hint, status, said)
            copies = said.count("To look at it, copy FILE and its log to a folder of your own.")
            assert copies == (0 if (file_owner, mode) == (0, 0o600) else 1), said
        if NOBODY in (folder_owner, file_owner):
            (found,) = looked_at(file)
            assert found.word == "store failed" and hint in found.text, found
        assert nobody.run("lines", str(file), user=NOBODY, group=NOBODY, extra_groups=[]) == STORE_FAILED, hint
    os.chmod(home, 0o700)
    if os.access("/usr/bin/python3", os.X_OK):
        status, said = ran("/usr/bin/python3", "-I", Path(program.folder, "script"), file, user=NOBODY)
        assert status == 1 and f"can't go into {home}" in said, (status, said)
    assert nobody.run("lines", str(file), user=NOBODY, group=NOBODY, extra_groups=[]) == STORE_FAILED


def test_a_log_of_somebody_else(program):
    """Of a log that can't be read nothing more is told. Where there is one, a folder of root's is good enough."""
    nobody = as_nobody(program)
    if nobody is None or not os.access("/usr/bin/python3", os.X_OK):
        return
    home = Path(program.folder, "home")
    home.mkdir()
    file = home / "city.db"
    whole = taken(killed_city(program))
    put({"": whole[""], "-wal": whole["-wal"]}, file)
    log = Path(f"{file}-wal")
    for folder_owner, log_owner, mode, has_log, hint in (
        (NOBODY, 0, 0o755, True, f"{log}, which is root's, can't be read"), (0, NOBODY, 0o755, True, None),
        (0, NOBODY, 0o711, True, f"{home}, which is root's, can't be read by nobody"),
        (0, NOBODY, 0o755, False, f"{home}, which is root's, can't be read and written by nobody"),
    ):
        if not has_log:
            # FILE has all of it by now.
            log.unlink()
        for path, owner in (home, folder_owner), (file, NOBODY), (log, log_owner):
            if path.exists():
                os.chown(path, owner, owner)
                os.chmod(path, mode if path == home else 0o600)
        as_user = {"user": NOBODY, "group": NOBODY, "extra_groups": []}
        status, said = ran("/usr/bin/python3", "-I", Path(program.folder, "script"), file, **as_user)
        assert status == (1 if hint else 0) and said.count("\n") == 1, (hint, said)
        assert ("nothing found" if hint is None else hint) in said, (hint, said)
        assert nobody.run("lines", str(file), **as_user) == (STORE_FAILED if hint else (0, b"", b"")), hint


def test_a_folder_without_rights(program):
    """Where nobody may not write, or read, a folder, an absent FILE can't be made there, and that is told to nobody,
    and to root of nobody's folder."""
    nobody = as_nobody(program)
    if nobody is None:
        return
    home = Path(program.folder, "home")
    home.mkdir()
    file = home / "city.db"
    script = ("/usr/bin/python3", "-I", Path(program.folder, "script"), file)
    is_tried = os.access("/usr/bin/python3", os.X_OK)
    for owner, mode, hint in (
        (0, 0o755, "Give a folder that the user nobody may write"), (NOBODY, 0o555, f"chmod u+rwx {home}"),
        (NOBODY, 0o333, f"chmod u+rwx {home}"),
    ):
        os.chown(home, owner, owner)
        os.chmod(home, mode)
        said = [ran(*script, user=NOBODY, group=NOBODY, extra_groups=[])[1]] if is_tried else []
        said += [it.text for it in looked_at(file)] if owner == NOBODY else []
        for it in said:
            assert f"none can be made: {home}, which is " in it and hint in it, (mode, it)
        assert nobody.run("init", str(file), user=NOBODY, group=NOBODY, extra_groups=[]) == STORE_FAILED, mode
        removed(file)
    log = Path(f"{file}-wal")
    log.write_bytes(b"x" * 567)
    os.chmod(log, 0o600)
    os.chmod(home, 0o755)
    (found,) = looked_at(file)
    assert f"none can be made: {log} can't be read" in found.text, found
    assert nobody.run("init", str(file), user=NOBODY, group=NOBODY, extra_groups=[]) == STORE_FAILED
    removed(file)
    (found,) = looked_at(file)
    assert "others make an empty city" in found.text, found
    assert nobody.run("init", str(file), user=NOBODY, group=NOBODY, extra_groups=[]) == READY
    # A folder that can be written and not read: it couldn't be opened to be flushed.
    os.chmod(home, 0o333)
    (found,) = looked_at(file)
    assert found.word == "store failed" and f"chmod u+rwx {home}" in found.text, found
    assert nobody.run("check", str(file), user=NOBODY, group=NOBODY, extra_groups=[]) == STORE_FAILED


def mounted(program, *commands):
    """Runs commands of the shell where only they see what they mount: what they said, or none where none may mount."""
    if not shutil.which("unshare") or ran("unshare", "-m", "mount", "-t", "tmpfs", "none", "/mnt")[0]:
        print("doctor: not tried, this user may not mount", flush=True)
        return None
    environment = {**os.environ, "BIKESHARE": program.file, "DOCTOR": f"{sys.executable} {SCRIPT}"}
    return ran("unshare", "-m", "sh", "-c", "\n".join(commands), env=environment, cwd=program.folder)[1].splitlines()


def test_a_disk_that_is_full_or_read_only(program):
    """Both are told, and the program says `store failed`."""
    city_file(program)
    said = mounted(
        program, "mkdir full fixed", "mount -t tmpfs -o size=300k none full", "mount -t tmpfs -o size=16m none fixed",
        "cp city.db full", "head -c 400k /dev/zero > full/fill 2>/dev/null",
        "cp city.db fixed", "mount -o remount,ro fixed",
        "$DOCTOR full/city.db", '"$BIKESHARE" lines full/city.db < /dev/null',
        "$DOCTOR fixed/city.db", '"$BIKESHARE" lines fixed/city.db < /dev/null', '"$BIKESHARE" check fixed/city.db',
        "$DOCTOR fixed/new.db", '"$BIKESHARE" init fixed/new.db', "$DOCTOR full/new.db",
        '"$BIKESHARE" init full/new.db',
        # The file alone stands in a mount of its own.
        "mount --bind city.db city.db", "mount -o remount,bind,ro city.db", "$DOCTOR city.db",
        '"$BIKESHARE" check city.db',
    )
    if said is None:
        return
    assert len(said) == 12 and said[1] == said[3] == said[4] == said[11] == "store failed", said
    for line in said[2], said[5], said[10]:
        assert "remount,rw" in line and "chmod" not in line and "chown" not in line, line
    assert said[10].startswith(f"city.db: store failed: {program.folder}/city.db is on a file system"), said[10]
    assert said[0].startswith("full/city.db: store failed: the disk of ") and "full, or nearly" in said[0], said
    assert said[2].startswith("fixed/city.db: store failed: ") and "read-only" in said[2], said
    assert "none can be made: " in said[5] and "read-only" in said[5] and "others" not in said[5], said
    assert said[7].endswith("check, feed, day and raise need one.") and "full, or nearly" in said[8], said
    assert said[6] == said[9] == "store failed", said


# ---- the program's lines


def test_what_the_program_said(program):
    """Each fault line of docs/OPERATOR.md has its sentence, and each table its rule. A row that is named is shown."""
    rows = (TOP / "docs/OPERATOR.md").read_text().split("## 12. Faults", 1)[1]
    lines = {it for row in re.findall(r"^\| \d \| (`.*?) \|", rows, re.M) for it in re.findall("`([^`]+)`", row)}
    assert len(lines) > 10, lines
    file = city_file(program)
    for line in lines:
        said = re.sub("N NAME", "7 bad_field", re.sub("TABLE KEY", "bikes 7", re.sub(r"\bV\b", "2", line)))
        (found,) = doctor.findings_of_said(str(file), said)
        assert found.word == said and "no such line" not in found.text, (line, found)
    assert doctor.RULES.keys() == set(doctor.TABLES)
    changed(file, "UPDATE bikes SET dock = 2 WHERE bike = 7; UPDATE segments SET rate = 200000")
    for said, row in (
        ("unsound bikes 7", "bike=7, type_id='city', state=0, station_id='a1', dock=2"),
        ("unsound segments basic/1", "rate=200000"),
    ):
        status, lines = told(file, *said.split())
        assert (status, len(lines)) == (1, 1) and lines[0].startswith(f"{file}: {said}: ") and row in lines[0], lines
    assert "there is no row" in doctor.findings_of_said(str(file), "unsound bikes 8")[0].text
    request = "caller='office', req_key='f12', command='add-rider\\t17', reply='ok'."
    (found,) = doctor.findings_of_said(str(file), "unsound history 12")
    assert f"a rule: number=12, moment=1699999200, {request} The rule of history: " in found.text, found
    # Of a file that is raised the place is told.
    to_schema_3(file)
    changed(file, "UPDATE kept SET rowid = 100 * rowid")
    (found,) = doctor.findings_of_said(str(file), "unsound history 12")
    assert f"a rule: {request} The rule of history: " in found.text, found
    assert "there is no row" in doctor.findings_of_said(str(file), "unsound history 14")[0].text
    (found,) = doctor.findings_of_said(str(file), "unsound stations_3 a1")
    assert "station_id='a1', name='Harbour'" in found.text and "rows of counts" in found.text, found
    for said, other in ("row 3 key_reused", True), ("row 3 bad_field", False), ("row 3 unreadable", False):
        text = doctor.findings_of_said(str(file), said)[0].text
        assert ("another table? Then give it a NAME of its own" in text) == other, (said, text)
        assert re.search("import (it )?again under the same name", text, re.I), (said, text)
    assert told(file, "--port", "0", "unsound", "bikes", "7")[0] == 1 == told(file, "gone", "fishing")[0]
    file = city_file(program, "whole.db")
    for said in "ready", "sound", "version 4", "rows 7", "listening 127.0.0.1:8080":
        status, lines = told(file, *said.split())
        assert status == 0 and lines[0].startswith(f"{file}: {said}: that line is no fault"), (said, lines)
    assert "no such line" in told(file, "version", "x")[1][-1], said


def test_the_schema_is_the_programs(program):
    """The tables that the script holds a file to are those that the program makes."""
    city_file(program)
    made = dict(rows_of("SELECT name, sql FROM sqlite_master WHERE type = 'table'", program.folder, "city.db"))
    wanted = {it.split()[2]: " ".join(it.split()) for it in doctor.SCHEMA.split(";") if it.strip()}
    assert made == wanted, [it for it in made if made[it] != wanted.get(it)]
    assert list(wanted) == doctor.TABLES


# ---- feeds


class Pages(http.server.BaseHTTPRequestHandler):
    """Serves texts by their paths."""

    def do_GET(self):
        text = self.server.texts.get(self.path)
        self.send_response(404 if text is None else 200)
        self.end_headers()
        self.wfile.write((text or "").encode())

    def log_message(self, *_):
        """Says nothing of what it serves."""


@contextlib.contextmanager
def served(feeds):
    """Serves feeds, each an object or a text by its name. The feed gbfs has HERE where the address has to stand."""
    with http.server.ThreadingHTTPServer(("127.0.0.1", 0), Pages) as server:
        here = f"http://127.0.0.1:{server.server_port}"
        texts = {name: it if isinstance(it, str) else json.dumps(it) for name, it in feeds.items()}
        server.texts = {f"/gbfs/3.0/{name}.json": it.replace("HERE", here) for name, it in texts.items()}
        threading.Thread(target=server.serve_forever, args=(0.01,), daemon=True).start()
        try:
            yield here
        finally:
            server.shutdown()


def feeds_of_city(program):
    """The feeds of a city that has reported just now, and what the script says of them."""
    port, now = free_port(), int(time.time())
    system = CITY[0].replace("8080", str(port))
    more = ["add-region\tnorth\tNorth", "set-region\ta1\tnorth", "add-station\tb2\tBridge\t41.9\t12.5\t500"]
    more += ["add-name\tstation\ta1\tde\tHafen", "add-name\tplan\tbasic\tzh\t港"]
    more += ["add-type\tcargo\tCargo\tcargo_bicycle\telectric_assist\t60000\tbasic"]
    # A station that is closed, with a broken dock that holds a bicycle, which is counted twice, and a bicycle that is
    # gone.
    more += ["add-station\tc3\tCanal\t41.91\t12.51\t2", "add-bike\t8\tcity", "add-bike\t9\tcargo", "retire-bike\t9"]
    more += ["open-order\t3\t*\tc3\tcity\t1", "load\t3\t2\t8", "unload\t3\t2\t8\tto\t1", "close-order\t2"]
    more += ["mark-dock\tc3\t1\tbroken", "set-station\tc3\tfalse\tfalse\tfalse"]
    accepted(program, [system, *CITY[1:], *more], at=now, key="f")
    with program.started("serve", "city.db", "--port", str(port)) as server:
        assert server.stdout.readline() == f"listening 127.0.0.1:{port}\n".encode()
        here = f"http://127.0.0.1:{port}"
        said = [told("feed", here), told("feed", f"{here}/gbfs/3.0/gbfs.json"), told("feed", f"{here}/", "--strict")]
        feeds = {name: doctor.fetched(f"http://127.0.0.1:{port}/gbfs/3.0/{name}.json") for name in FEEDS}
    for it in feeds["gbfs"]["data"]["feeds"]:
        it["url"] = it["url"].replace(f"http://127.0.0.1:{port}", "HERE")
    return feeds, said


def set_at(feeds, path, value):
    """Sets, or takes away where there is no value, what stands at a path of feeds."""
    *way, last = path
    for part in way:
        feeds = feeds[part]
    if value is None:
        del feeds[last]
    else:
        feeds[last] = value


def moment_in(seconds):
    """The moment so many seconds from now."""
    return time.strftime("%Y-%m-%dT%H:%M:%SZ", time.gmtime(time.time() + seconds))


def planted():
    """Faults: where to set what in a healthy city's feeds, or to take it away; where it is found, and by which word."""
    station, status = ("station_information", "data", "stations", 0), ("station_status", "data", "stations", 0)
    kind, plan = ("vehicle_types", "data", "vehicle_types", 0), ("system_pricing_plans", "data", "plans", 0)
    segment, about, region = (*plan, "per_min_pricing", 0), ("system_information", "data"), ("gbfs", "data", "feeds", 5)
    old, future, soon = "2024-03-31T12:00:00Z", "2508-09-16T06:18:20Z", moment_in(50)
    return (
        (("station_status", "last_updated"), future, "station_status", "ahead of the clock"),
        ((*status, "last_reported"), future, "station_status", "ahead of the clock"),
        ((*status, "last_reported"), old, "station_status", "silent"), (("gbfs", "ttl"), -1, "gbfs, ttl", "GBFS"),
        (("gbfs", "version"), "2.3", "gbfs, version", "GBFS"),
        (("vehicle_types", "last_updated"), 1_700_000_000, "vehicle_types, last_updated", "GBFS"),
        ((*station, "lat"), 91, "station_information, data.stations[0].lat", "GBFS"),
        ((*station, "lon"), "12.5", "station_information, data.stations[0].lon", "GBFS"),
        ((*station, "name"), "Harbour", "station_information, data.stations[0].name", "GBFS"),
        ((*station, "name", 0, "language"), None, "station_information, data.stations[0].name[0]", "GBFS"),
        ((*station, "capacity"), 2.5, "station_information, data.stations[0].capacity", "GBFS"),
        ((*station, "name"), [], "station_information, data.stations[0].name", "GBFS"),
        ((*station, "name", 1, "language"), "en", "station_information, data.stations[0].name", "GBFS"),
        ((*station, "lat"), 46.9, "station_information", "doubtful"),
        ((*station, "capacity"), 9, "station_status", "GBFS"),
        ((*station, "rental_methods"), ["CASH"], "station_information, data.stations[0].rental_methods[0]", "GBFS"),
        ((*status, "is_renting"), 1, "station_status, data.stations[0].is_renting", "GBFS"),
        ((*status, "num_vehicles_available"), None, "station_status, data.stations[0]", "GBFS"),
        ((*kind, "form_factor"), "scooter", "vehicle_types, data.vehicle_types[0].form_factor", "GBFS"),
        ((*kind, "max_range_meters"), None, "vehicle_types, cargo", "GBFS"),
        ((*kind, "default_pricing_plan_id"), None, "vehicle_types, cargo", "GBFS"),
        ((*about, "languages"), ["en", "de", "zh", "eng"], "system_information", "doubtful"),
        ((*about, "languages"), ["en", "de", "zh", "fr-UK"], "system_information", "doubtful"),
        ((*about, "languages"), ["en", "de", "zh", "xx"], "system_information", "doubtful"),
        ((*about, "languages"), ["en", "de", "zh", "e-"], "system_information, data.languages[3]", "GBFS"),
        ((*plan, "currency"), "BGN", "system_pricing_plans", "doubtful"),
        ((*plan, "currency"), "ZZZ", "system_pricing_plans, data.plans[0].currency", "GBFS"),
        ((*plan, "price"), "1.00", "system_pricing_plans, data.plans[0].price", "GBFS"),
        ((*segment, "interval"), None, "system_pricing_plans, data.plans[0].per_min_pricing[0]", "GBFS"),
        ((*about, "feed_contact_email"), "x", "system_information, data.feed_contact_email", "GBFS"),
        ((*about, "timezone"), "Mars/Base", "system_information, data.timezone", "GBFS"),
        ((*about, "opening_hours"), None, "system_information, data", "GBFS"),
        ((*about, "terms_url"), "x", "system_information, data.terms_url", "GBFS"),
        ((*status, "vehicle_types_available"), None, "station_status", "GBFS"),
        ((*status, "vehicle_types_available", 0, "vehicle_type_id"), "tram", "station_status", "missing"),
        ((*kind, "default_pricing_plan_id"), "gold", "vehicle_types", "missing"),
        ((*station, "region_id"), "south", "station_information", "missing"),
        ((*about, "languages"), ["en", "de"], "system_pricing_plans", "missing"),
        ((*about, "languages"), ["en", "de", "zh", "de"], "system_information", "GBFS"),
        ((*about, "languages"), ["de", "en", "zh"], "system_information", "doubtful"),
        ((*about, "languages"), ["en", "de", "zh", "zh-Hant"], "system_information", "doubtful"),
        (("system_regions", "last_updated"), old, "system_regions", "silent"),
        (("station_status", "last_updated"), moment_in(-86_000), "station_status", "GBFS"),
        ((*status, "last_reported"), soon, "station_status", "GBFS"),
        ((*status, "num_docks_available"), None, "station_status", "GBFS"),
        ((*status, "num_vehicles_available"), 2, "station_status", "GBFS"),
        ((*status, "num_docks_available"), 2, "station_status", "GBFS"),
        ((*status, "num_vehicles_disabled"), 2, "station_status", "GBFS"),
        ((*status, "num_docks_disabled"), 0, "station_status", "GBFS"),
        ((*status, "vehicle_types_available", 0, "vehicle_type_id"), "city", "station_status", "GBFS"),
        ((*segment, "end"), 30, "system_pricing_plans", "GBFS"),
        ((*status, "vehicle_types_available", 0, "count"), 7, "station_status", "GBFS"),
        ((*station, "name", 0, "text"), " ", "station_information", "doubtful"),
        ((*plan, "description", 0, "text"), "", "system_pricing_plans", "doubtful"),
        ((*about, "opening_hours"), "always", "system_information, data.opening_hours", "doubtful"),
        ((*about, "opening_hours"), f"{'1' * 5000}:00", "system_information, data.opening_hours", "doubtful"),
        (("system_regions", "data"), [], "system_regions, data", "GBFS"),
        (("system_regions",), "{", "system_regions", "not read"),
        ((*region, "url"), "HERE/nowhere.json", "system_regions", "not read"),
        ((*region, "url"), "file:///etc/passwd", "system_regions", None),
    )


def test_feeds(program):
    """Of a healthy city's feeds nothing is said; of each fault that is planted in them one line, and no other."""
    feeds, said = feeds_of_city(program)
    assert said[:2] == [(0, []), (0, [])], said
    status, strict = said[2]
    assert status == 1 and all(": left out: " in it for it in strict), strict
    assert any("license_id" in it for it in strict), strict
    for path, value, where, word in planted():
        found = found_in(feeds, path, value)
        if word is None:
            assert ("system_regions", "not read") in found, (path, found)
        else:
            assert found == [(where, word)], (path, value, found)
    assert found_in(feeds, ("station_status", "data", "stations"), []) == [("station_information", "missing")]
    twice = [feeds["station_information"]["data"]["stations"][0]] * 2
    found = found_in(feeds, ("station_information", "data", "stations"), twice)
    assert found == [("station_information", "GBFS"), ("station_status", "missing")], found
    assert found_in(feeds, ("gbfs",), None) == [("gbfs", "not read")]
    at_sea = {**feeds["station_information"]["data"]["stations"][0], "lat": 0, "lon": 0.0}
    found = found_in(feeds, ("station_information", "data", "stations", 0), at_sea)
    assert found == [("station_information", "doubtful")], found
    found = found_in(feeds, ("station_information", "data", "stations", 0, "station_id"), [1])
    assert ("station_information, data.stations[0].station_id", "GBFS") in found, found
    double = "HERE//gbfs/3.0/system_regions.json"
    assert ("gbfs", "doubtful") in found_in(feeds, ("gbfs", "data", "feeds", 5, "url"), double)
    other = {"name": "system_alerts", "url": "HERE/gbfs/3.0/system_regions.json"}
    assert ("gbfs", "GBFS") in found_in(feeds, ("gbfs", "data", "feeds", 3), other)


def test_names_in_the_way_of_a_raise(program):
    """A file of an earlier schema in which the newest one's names are used: raise refuses it, and this is told."""
    for change, refused in (
        ("CREATE TABLE more_names (x)", "foreign"),
        ("CREATE TABLE regions (x)", "foreign"),
        ("CREATE VIEW stations_4 AS SELECT 1", "store failed"),
        ("CREATE TABLE stations_4 (x)", "foreign"),
        ("CREATE TABLE stations_3 (x)", "foreign"),
        ("CREATE TABLE history (x)", "foreign"),
    ):
        with tempfile.TemporaryDirectory() as folder:
            file = Path(folder, "t.db")
            file.write_bytes(gzip.decompress((TOP / "tests/files/city.db.gz").read_bytes()))
            with contextlib.closing(sqlite3.connect(file)) as base:
                base.execute(change)
                base.commit()
            _, (said,) = told(file)
            assert re.search(f"older 1: .* {change.split()[2]} has a name of a later schema", said), (change, said)
            assert program.run("raise", file)[2].decode() == f"{refused}\n", change


def test_what_is_said_of_feeds(program):
    """What feeds have that their forms allow: each is said in one sentence, with the identifiers."""
    feeds, _ = feeds_of_city(program)
    places, status = (feeds[it]["data"]["stations"] for it in ("station_information", "station_status"))
    assert [it["station_id"] for it in places] == ["a1", "b2", "c3"] == [it["station_id"] for it in status]
    closed = status[2]
    assert (closed["is_installed"], closed["num_vehicles_disabled"], closed["num_docks_disabled"]) == (False, 1, 1)
    blank, unseen = ([{"text": it, "language": "en"}] for it in (" ", "\u200b"))
    feeds["system_information"]["data"]["timezone"] = "Europe/Rome"
    exchanged = [{**it, "lat": it["lon"], "lon": it["lat"]} for it in places]
    in_two_cases = json.loads(json.dumps(feeds["station_information"]).replace('"de"', '"DE"'))
    twice = json.dumps(feeds["system_regions"]).replace('"ttl":', '"ttl": 60, "ttl":')
    information, words = ("station_information", "data", "stations"), ("system_information", "data", "languages")
    plans = "system_pricing_plans", "data", "plans"
    numbered = list(enumerate(places))
    for path, value, *wanted in (
        (information, [{**it, "name": name} for it, name in zip(places, (blank, unseen, places[2]["name"]))],
         ("station_information: doubtful: ", " nothing can be seen: a1, b2.")),
        ((*words[:2], "name"), blank, ("system_information: doubtful: ", " nothing can be seen: name.")),
        ((*information, 1, "name", 0, "text"), "HÃ´tel", ("station_information: doubtful: b2: 'HÃ´tel' ", "'Hôtel'?")),
        ((*information, 1, "name", 0, "text"), "H&ocirc;tel", ("station_information: doubtful: b2: ", "'Hôtel'?")),
        ((*information, 1, "name", 0, "text"), '"Hôtel"', ("station_information: doubtful: b2: ", "'Hôtel'?")),
        ((*information, 1, "name", 0, "text"), "H\ufffdtel", ("station_information: doubtful: b2: ", "U+FFFD")),
        ((*information, 1, "name", 0, "text"), "H\u200btel", ("station_information: doubtful: b2: ", "without width")),
        ((*information, 1, "name", 0, "text"), "Hô\ntel", ("station_information: doubtful: b2: ", "U+000A")),
        (information, [{**it, "name": [{"text": f"HÃ´tel {at}", "language": "en"}]} for at, it in enumerate(places)],
         ("station_information: doubtful: a1: 'HÃ´tel 0' ", " (and 2 more alike).")),
        ((*information, 1), {**places[1], "lat": places[0]["lat"], "lon": places[0]["lon"]},
         ("station_information: doubtful: a1 and b2: one place", "stands twice?")),
        (information, [{**it, "name": places[0]["name"], "lat": 41.9 + at / 1_500, "lon": 12} for at, it in numbered],
         ("station_information: doubtful: a1 and b2: ", "one name within 100 metres")),
        # c3 is closed: it reports nothing, and another may stand in its place.
        ((*information, 2), {**places[2], "lat": places[0]["lat"], "lon": places[0]["lon"]}),
        (("station_status", "data", "stations", 2, "last_reported"), "2020-01-01T00:00:00Z"),
        (("station_status", "data", "stations", 2, "last_reported"), "2999-01-01T00:00:00Z",
         ("station_status: ahead of the clock: ", "c3")),
        ((*information, 0), {**places[0], "capacity": 0, "is_valet_station": True}),
        (("vehicle_types", "data", "vehicle_types", 0, "pricing_plan_ids"), ["x1"], ("vehicle_types: missing: x1: ",)),
        ((*information, 0, "vehicle_docks_capacity"), [{"vehicle_type_ids": ["x2"], "count": 1}],
         ("station_information: missing: x2: ",)),
        ((*words[:2], "name", 0, "text"), "VÃ©lo", ("system_information: doubtful: name: 'VÃ©lo' ", "'Vélo'?")),
        ((*information, 0), exchanged[0], ("station_information: doubtful: a1: ", "exchanged")),
        (information, exchanged, ("station_information: doubtful: a1: the stations lie far from Europe/Rome",)),
        ((*information, 0, "lat"), 46.9, ("station_information: doubtful: a1: ", "the station lies 555 km from")),
        ((*information, 0, "capacity"), 0, ("station_status: GBFS: num_docks_", " above the capacity: a1 (1 and 0)."),
         ("station_status: GBFS: num_vehicles_", " above the capacity: a1 (1 and 0).")),
        ((*information, 2, "capacity"), 4, ("station_status: GBFS: ", " below the capacity: c3 (3 and 4).")),
        (("station_status", "data", "stations", 1, "num_vehicles_disabled"), 1,
         ("station_status: GBFS: the vehicles and num_docks_available ", " above the capacity: b2 (501 and 500).")),
        (("station_status", "data", "stations", 1, "num_docks_available"), 501,
         ("station_status: GBFS: num_docks_", " above the capacity: b2 (501 and 500).")),
        (("system_regions",), twice, ("system_regions: GBFS: an object has ttl twice",)),
        (("gbfs", "data", "feeds", 5), feeds["gbfs"]["data"]["feeds"][4],
         ("gbfs: GBFS: it lists system_pricing_plans twice",)),
        (words, ["en", "de", "zh", "eng"], ("system_information: doubtful: eng begins with eng, ", "Write en.")),
        ((*plans, 0, "currency"), "BGN", ("system_pricing_plans: doubtful: BGN has ended, ", "Write EUR")),
        (("station_information",), in_two_cases,
         ("system_information: doubtful: DE differs from 'de' only", "Write 'de'."),
         ("system_information: doubtful: DE and de: ", "one language"), ("station_information: missing: ", "DE")),
    ):
        changed_feeds = json.loads(json.dumps(feeds))
        set_at(changed_feeds, path, value)
        with served(changed_feeds) as here:
            said = [f"{it.where}: {it.word}: {it.text}" for it in doctor.findings_of_feeds(here, time.time())]
        assert len(said) == len(wanted), (path, said)
        for parts in wanted:
            assert any(it.startswith(parts[0]) and parts[-1] in it for it in said), (parts, said)


def test_the_address_of_feeds(program):
    """URL may be the feed gbfs, or its folders and the host, with or without slashes at its end."""
    for host in "http://127.0.0.1:8080", "https://gbfs", "https://metro.example/bikes":
        for end in "", "/", "/gbfs", "/gbfs/", "/gbfs/3.0", "/gbfs/3.0/", "/gbfs/3.0/gbfs.json", "/gbfs/3.0/gbfs.json/":
            assert doctor.address_of_gbfs(host + end) == f"{host}/gbfs/3.0/gbfs.json", (host, end)
    for url in "https://metro.example/v3/gbfs.json", "https://metro.example/gbfs?at=/":
        assert doctor.address_of_gbfs(url) == url


def found_in(feeds, path, value, **how):
    """Where something is found in feeds of which this is changed, and the word for it."""
    feeds = json.loads(json.dumps(feeds))
    set_at(feeds, path, value)
    with served(feeds) as here:
        return [place_of(it) for it in doctor.findings_of_feeds(here, time.time(), **how)]


def test_feeds_of_another_host(program):
    """By --here no address that the feed gbfs lists is asked, and by none the others are looked for there."""
    about = {"system_id": "x", "languages": ["en"], "name": [{"text": "X", "language": "en"}], "timezone": "Etc/UTC"}
    about |= {"opening_hours": "24/7", "feed_contact_email": "feeds@example.org"}
    data = {"system_information": about, "station_information": {"stations": []}, "station_status": {"stations": []}}
    with socket.create_server(("127.0.0.1", 0)) as other:
        other.settimeout(0.2)
        address = f"http://127.0.0.1:{other.getsockname()[1]}/gbfs/3.0"
        data["gbfs"] = {"feeds": [{"name": name, "url": f"{address}/{name}.json"} for name in data]}
        frame = {"last_updated": moment_in(0), "ttl": 30, "version": "3.0"}
        feeds = {name: {**frame, "data": it} for name, it in data.items()}
        with served(feeds) as here:
            assert told("feed", here, "--here") == (0, [])
            with contextlib.suppress(TimeoutError):
                raise AssertionError(f"the other host was asked: {other.accept()}")
    found = found_in(feeds, ("gbfs", "ttl"), 30)
    assert found == [(name, "not read") for name in list(data)[:-1]], found
    assert found_in(feeds, ("gbfs", "ttl"), 30, here=True) == []


def test_addresses_that_planners_do_not_reach(program):
    """Where gbfs lists addresses at which no planner elsewhere reaches the feeds, it is told as of base_url in lines.
    Those of the own machine aren't, where gbfs is asked there."""
    at_home, elsewhere = "http://127.0.0.1:8080", ("https://metro.example", "http://192.0.2.2:8080", "http://10.0.0.3")
    names = ["system_information", "station_information", "station_status"]
    for base, word, is_told_at_home in (
        ("http://127.0.0.1:8080", "this machine", False), ("http://localhost:8080", "this machine", False),
        ("http://[::1]:8080", "this machine", False), ("http://10.0.0.3", "private network", True),
        ("http://172.16.0.1", "private network", True), ("http://192.168.1.5:8443", "private network", True),
        ("http://169.254.1.1", "private network", True), ("https://[fd00::1]", "private network", True),
        ("https://lyon", "without a point", True), ("https://user:pw@metro.example", "password", True),
        ("https://user@127.0.0.1:8080", "password", True), ("https://metro.example", None, False),
        ("http://192.0.2.2:8080", "Write https://192.0.2.2:8080, if", True), ("https://:8080", "names no host", True),
        ("https://metro.example:8x", "has the port '8x'", True), ("https://metro.example:443", None, False),
        ("https://[", "names no host", True), ("https://metro.example/bikes", None, False),
        ("http://metro.example", "not every planner follows", True), ("https://x.example/", "ends in /", True),
        ("http://x.example//", "ends in /", True), ("https://x.example//bikes", "holds //", True),
        ("https://x.example/gbfs/3.0", "put behind it", True), ("https://x..example", "nothing between", True),
        ("https://x_y.example", "other characters", True),
    ):
        listed = [{"name": name, "url": f"{base}/gbfs/3.0/{name}.json"} for name in names]
        frame = {"last_updated": moment_in(0), "ttl": 30, "version": "3.0"}
        feeds = {"gbfs": {**frame, "data": {"feeds": listed}}}

        def fetched(url, twice=None, feeds=feeds):
            if url.endswith("/gbfs.json"):
                return feeds["gbfs"]
            raise doctor.Unread(url)

        with unittest.mock.patch.object(doctor, "fetched", fetched):
            for url in at_home, *elsewhere:
                found = [it for it in doctor.findings_of_feeds(url, time.time()) if it.word == "doubtful"]
                is_told = bool(word) and (url != at_home or is_told_at_home)
                assert [it.where for it in found] == ["gbfs"] * is_told, (url, base, found)
                assert not is_told or word in found[0].text and "and 2 more alike" in found[0].text, (url, base, found)
    feeds = doctor.Feeds(at_home, NOW)
    # A slash is too much at home as well, and what another program lists has other paths.
    urls = f"{at_home}//gbfs/3.0/a.json", "http://metro.example/en/a.json", "https://metro.example/a?b=//c", "ftp://x"
    feeds.data = {"gbfs": {"feeds": [{"name": "a", "url": it} for it in urls]}}
    feeds.see_addresses()
    assert [it.text.split(": ")[1].split()[0] for it in feeds.found] == [f"'{at_home}/'", "'http://metro.example'"]


def test_feeds_of_the_example_city(program):
    """Of its feeds, with names in two languages, nothing is said where all stations have just reported."""
    here, folder = f"http://127.0.0.1:{free_port()}", TOP / "examples/city"
    files = {it: (folder / it).read_bytes() for it in ("setup.in", "stations.csv", "regions.in", "names.in")}
    files["setup.in"] = files["setup.in"].replace(b"BASE_URL", here.encode())
    for name, given in files.items():
        words = ("import", "city.db", "city") if name == "stations.csv" else ("lines", "city.db")
        status, _, said = program.run(*words, given=given)
        assert (status, said) == (0, b""), (name, status, said)
    with program.started("serve", "city.db", "--port", here.rpartition(":")[2]) as server:
        assert server.stdout.readline().startswith(b"listening ")
        assert told("feed", here) == (0, [])


def test_shapes_have_the_members_of_the_documents(program):
    """Each member of docs/FORMATS.md, section 5, has its place in the shapes, so none is passed over as unknown."""
    rows = (TOP / "docs/FORMATS.md").read_text().split("| Feed | Member | Value |", 1)[1].split("\n\n", 1)[0]
    feed, tried = None, 0
    for row in rows.splitlines()[2:]:
        cells = [it.strip() for it in row.strip("|").split("|")]
        feed = cells[0].strip("`") or feed
        (shape,) = [doctor.SHAPES[feed]] if feed == "system_information" else doctor.SHAPES[feed][doctor.LISTS[feed][0]]
        for name in re.findall("`([a-z_]+)`", cells[1]):
            tried += 1
            assert name in shape or f"{name}?" in shape, (feed, name)
    assert tried > 25, tried
    assert doctor.SHAPES.keys() == {*FEEDS, "gbfs_versions", "system_alerts"}


# ---- the words


def test_words(program):
    """Wrong words have the status 2 and the usage. Lines and tables are read from standard input. Of a good file a line
    says what isn't seen."""
    wrong = ("", "--port 1", "x.db --port 65536", "x.db --port 080", "lines x", "table --strict", "feed", "feed a b")
    for words in (*wrong, "log", "log a b", "x.db --x", "portal", "portal a b c", "manifest", "manifest --here a"):
        status, lines = told(*words.split())
        assert status == 2 and lines[0].startswith("usage: bikeshare-doctor "), (words, status, lines)
    assert told("--help")[0] == 0 and told("feed", "--help")[0] == 0
    assert told("lines", given=system_line().encode() + b"\n") == (0, [])
    assert told("table", given=HEADER.encode()) == (0, [])
    status, lines = told("lines", given=b"x\n")
    assert (status, len(lines)) == (1, 1) and lines[0].startswith("line 1: bad_field: it has 1 of the four"), lines
    assert told("table", given=b"x\n")[1][0].startswith("header: bad header: ")
    file = city_file(program)
    status, lines = told(file)
    assert (status, len(lines)) == (0, 1) and lines[0].startswith(f"{file}: nothing found."), lines
    assert told("feed", "ftp://x")[0] == 1
    assert doctor.printable("a\nb\x1b[1m⇥é") == "a\\nb\\x1b[1m⇥é"


def test_it_stands_alone(program):
    """A copy of it elsewhere needs nothing of the repository, nor what a user has installed."""
    copy = Path(program.folder, "doctor")
    shutil.copy(SCRIPT, copy)
    status, said = ran(sys.executable, "-I", "-S", copy, "nowhere.db", cwd=program.folder)
    assert status == 1 and said.startswith("nowhere.db: store failed: there is no such file."), (status, said)
    assert sorted(it.name for it in Path(program.folder).iterdir()) == ["doctor"]


def test_the_manual_page_and_the_completion(program):
    """The page's synopsis is the usage text, and its words are those that bash proposes."""
    page = sections_of(PAGE.read_text())
    usage = [it.removeprefix("usage:").strip() for it in told("--help")[1]]
    wanted = [text for _, text in page["SYNOPSIS"]]
    assert usage[: len(wanted)] == wanted and usage[len(wanted)] == "", (usage, wanted)
    assert {head for head, _ in page["EXIT STATUS"] if head} == {"0", "1", "2", "3"}
    words = {it.split()[1] for it in wanted} - {"FILE"}
    for file in "city.db", "city.db-wal":
        (Path(program.folder) / file).touch()
    assert set(completed(program.folder, "")) == words | {"city.db"} and completed(program.folder, "ta") == ["table"]
    assert completed(program.folder, "feed", "x", "-") == ["--here", "--strict"]
    assert completed(program.folder, "lines", "") == [] and completed(program.folder, "log", "") == ["city.db"]
    assert "city.db" in completed(program.folder, "manifest", "") and completed(program.folder, "portal", "x", "") == []
    assert completed(program.folder, "city.db", "-") == ["--port"]
    assert completed(program.folder, "city.db", "--port", "") == []


def completed(folder, *words):
    """What bash proposes in place of the last of these words."""
    script = f'. "{COMPLETION}"; COMP_WORDS=("$@"); COMP_CWORD=$(($# - 1)); _bikeshare_doctor'
    script += '; printf "%s\\n" "${COMPREPLY[@]}"'
    status, said = ran("bash", "-c", script, "bash", "bikeshare-doctor", *words, cwd=folder)
    assert status == 0, said
    return [it for it in said.splitlines() if it]
