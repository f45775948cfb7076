"""Database files that were changed from outside: each column of each table in turn, rows added and removed, tables and
columns dropped, the file and its log cut, and bytes changed.

What `check` has to say of rows is worked out in audit.py. Of what is no database that SQLite could read it has to name
a fault. It may neither crash nor hang nor change a byte, and `lines` has to say the same.

A sample stands in the gate. By hand, all of them from the environment:

    BIKESHARE_TAMPERED=all BIKESHARE_SEED=7 tests/run tampered.

BIKESHARE_TAMPERED is how many changes each test draws, BIKESHARE_SEED what they are drawn from; a failure tells the
seed and the change.
"""

import contextlib
import functools
import itertools
import os
import random
import sqlite3
import struct
import subprocess
from pathlib import Path

import formats
from audit import BOUNDS, MAY_BE_NULL, TABLES, is_of_text, read, verdict
from shared import FOREIGN, SOUND, STORE_FAILED, by_type, changed, is_whole, removed

TRIED = os.environ.get("BIKESHARE_TAMPERED", "15")
SEED = int(os.environ.get("BIKESHARE_SEED", "1"))


# ---- the city

ASKED = [
    "set-system metro en Metro_Bikes 24/7 feeds@example.org Etc/UTC EUR http://127.0.0.1:8080 30",
    "add-plan basic Basic 100 false One_euro_and_then_a_quarter 30:25:5:-",
    "add-plan day Day 250 true By_day 0:-60:0:30;20:50:10:60;100:7:1:-",
    "add-plan zero Free 0 false Free -",
    "add-type city City bicycle human 0 basic",
    "add-type cargo Cargo cargo_bicycle electric_assist 60000 day",
    "add-station a1 Harbour 41.890169 12.492269 3",
    "add-station b2 Bridge -45 -179.999999 4",
    "add-station c3 Closed 0 0 1",
    "add-region north North", "add-region south South_side", "add-region west West",
    "set-region a1 south", "set-region a1 north", "set-region b2 south", "set-region c3 west", "set-region c3 *",
    "add-name system metro de Metro_Räder", "add-name station a1 it Porto", "add-name station a1 de Hafen",
    "add-name station a1 zh-Hant 港",
    "add-name station b2 EN Bridge", "add-name type city fr Ville", "add-name plan day de Tag",
    "add-name description day de Ein_Tag",
    "add-name description zero fr Rien", "add-name region south de Süden",
    "add-truck 3 20",
    "add-truck 4 1",
    *(f"add-bike {it} city" for it in (7, 8, 9, 10)),
    "add-bike 11 cargo",
    "add-bike 12 cargo",
    "open-order 3 * a1 city 2", "load 3 1 7", "unload 3 1 7 to 1", "load 3 1 8", "unload 3 1 8 to 2", "close-order 1",
    "open-order 3 * b2 cargo 1", "load 3 2 11", "unload 3 2 11 to 4", "close-order 2",
    "add-rider 17", "top-up 17 2500", "add-rider 18", "top-up 18 1000", "add-rider 19",
    "start 17 a1 1", "end 7 b2 1", "refund 1 25", "refund 1 25",
    "start 18 b2 4", "end 11 a1 1",
    "start 18 a1 2", "recover 3",
    "start 17 b2 1",
    "open-order 3 * a1 city 2", "load 3 3 9",
    "open-order 4 a1 b2 cargo 1",
    "mark-dock a1 3 broken", "mark-dock b2 1 broken", "mark-dock b2 1 working", "mark-bike 11 disabled",
    "set-station c3 false true true", "set-rider 19 blocked", "retire-bike 8",
    "change-system Stadtrad Mo-Su office@example.org Europe/Rome https://bikes.example 60",
    "move-station c3 -0.000001 180", "move-station c3 45 9.1", "add-docks c3 4", "mark-dock c3 5 broken",
    "set-name station c3 en Closed_until_May", "set-name description day de Ein_ganzer_Tag",
    "add-name type city it Città", "remove-name type city it",
]


def asked():
    callers = ["office", "rider:17", "dock:a1", "crew:3", "import:first", "office:ann"]
    lines = (
        f"{1700000000 + 600 * at}\t{callers[at % 6]}\tk{at}\t{it.replace(' ', chr(9)).replace('_', ' ')}\n"
        for at, it in enumerate(ASKED)
    )
    return "".join(lines).replace("cargo bicycle", "cargo_bicycle").replace(
        "electric assist", "electric_assist"
    ).encode()


def made(program):
    """Makes the city and returns the bytes of its file, in which all of its log is, and of the file and the log as the
    program left them when it was killed: where it ends by itself it copies the log into the file."""
    with program.started("lines", "city.db", stdin=subprocess.PIPE) as running:
        running.stdin.write(asked())
        running.stdin.flush()
        told = [running.stdout.readline() for _ in ASKED]
        running.kill()
    assert all(told) and not any(it.startswith(b"refused") for it in told), told
    file, log = Path(program.folder, "city.db"), Path(program.folder, "city.db-wal")
    left = file.read_bytes(), log.read_bytes()
    changed(file)
    whole = file.read_bytes()
    removed(file)
    return whole, left


# ---- changes

def drawn(changes, salt):
    """A sample of the changes, in their order."""
    changes = list(changes)
    if TRIED == "all" or len(changes) <= int(TRIED):
        return changes
    pick = random.Random(f"{SEED} {salt}")
    return [changes[at] for at in sorted(pick.sample(range(len(changes)), int(TRIED)))]


# A log of fewer bytes holds nothing: no frame has room in it. Opening a file makes one of 41 bytes where there is none
# that holds something.
LEAST_LOG = 56


def parts(file):
    """The bytes of the file and of a log that holds something, and the names of whatever else stands beside it."""
    data = {it.name: it.read_bytes() for it in file.parent.glob(f"{file.name}*")}
    empty = f"{file.name}-wal"
    return {name: it for name, it in data.items() if name != empty or len(it) >= LEAST_LOG}


def says(program, file):
    """What `check` says of a file, which it leaves as it is; `lines` has to say the same, and to answer nothing where
    that is a fault."""
    before = parts(file)
    ended = program.run("check", file.name)
    assert parts(file) == before, (
        f"check changed {[it for it in parts(file) if parts(file)[it] != before.get(it)]}, after {ended}"
    )
    assert ended == SOUND or (ended[0] in (3, 5) and not ended[1] and ended[2].endswith(b"\n")), ended
    line = b"1700000000\toffice\tk0\tclose-order\t1\n"
    served = program.run("lines", file.name, given=b"" if ended == SOUND else line)
    assert served == (ended[0], b"", ended[2]) or (ended == SOUND and served == (0, b"", b"")), (
        f"lines says {served}, and check {ended}"
    )
    assert parts(file) == before, f"lines changed the file, after {served}"
    return ended


def holds(program, city, changes, wanted, salt):
    """Applies each change of the sample to the city, and holds what the program says to what is wanted of the changed
    file."""
    wrong = []
    for number, (name, change) in enumerate(drawn(changes, salt)):
        file = Path(program.folder, f"changed{number}.db")
        try:
            file.write_bytes(city)
            told = change(file)
            right = wanted(file, told)
            found = says(program, file)
            if found not in right:
                wrong.append(f"{name}: {found}, not {right[0]}")
        except (AssertionError, sqlite3.Error) as fault:
            wrong.append(f"{name}: {fault}")
        removed(file)
    assert not wrong, f"seed {SEED}\n" + "\n".join(wrong)


def by_sql(sql, values=(), loose=False):
    """A change by SQL. A loose one passes by what the tables demand of their columns: they lose STRICT and NOT NULL for
    it."""
    return functools.partial(done_by_sql, sql, values, loose)


def by_script(sql):
    """A change by several statements."""
    return lambda file: changed(file, sql)


def done_by_sql(sql, values, loose, file):
    """Changes a file so."""
    with contextlib.closing(sqlite3.connect(file, isolation_level=None)) as base:
        base.execute("PRAGMA synchronous = OFF")
        base.execute("PRAGMA journal_mode = DELETE").fetchall()
        if loose:
            texts = base.execute("SELECT name, sql FROM sqlite_schema WHERE type = 'table'").fetchall()
            base.execute("PRAGMA writable_schema = ON")
            base.execute(
                "UPDATE sqlite_schema SET sql = replace(replace(sql, ' STRICT', ''), ' NOT NULL', '') "
                "WHERE type = 'table'"
            )
            base.execute("PRAGMA writable_schema = RESET")
    with contextlib.closing(sqlite3.connect(file, isolation_level=None)) as base:
        base.execute("PRAGMA synchronous = OFF")
        base.execute(sql, values)
        if loose:
            base.execute("PRAGMA writable_schema = ON")
            for name, text in texts:
                base.execute("UPDATE sqlite_schema SET sql = ? WHERE name = ?", (text, name))
            base.execute("PRAGMA writable_schema = RESET")
        base.execute("PRAGMA journal_mode = WAL").fetchall()


NUMBERS = [
    -1, 0, 1, 2, 3, 4, 5, 7, 61, 201, 256, 500, 501, 60_000, 1_000_000, 1_000_001, 100_000_001, 2**31, 2**32 + 1,
    2**53 + 1, 2**63 - 1, -(2**63),
]
# A change of the system as its text is kept, and ones that no text is.
CORRECTIONS = [
    f"change-system\t{name}\t24/7\ta@example.org\tEtc/UTC\thttps://x.example\t{ttl}"
    for name, ttl in (("Metro", "86400"), ("Metro", "86401"), ("Metro", "060"), ("", "60"), ("metro\ten\tMetro", "60"))
]
WORDS = [
    "", "a1", "b2", "zz", "A1", "*", "city", "cargo", "basic", "day", "north", "south", "west", "a" * 36, "a" * 37, "é",
    "x\0y", "n" * 120, "n" * 121, "~" * 200, "~" * 201, "two\nlines", "a\tb", " ", "true", "NULL", "0", "1", "-1",
    "bicycle", "human", "electric_assist", "EUR", "office", "rider:17", "rider:0", "add-rider\t17", "ok", "balance\t5",
    "balance\t-0", "refused\t4\tunknown_rider", "rental\t1\t7", "fare\t1\t2", "order\t0", "x" * 9000, "k1",
    "add-region\tnorth\tNorth", "set-region\ta1\t*", "set-region\ta1\t", "add-name\tstation\ta1\tde\tHafen",
    "move-station\tzz\t0.000000\t0.000000", "move-station\tzz\t0\t0", *CORRECTIONS,
    "add-docks\tzz\t500", "add-docks\tzz\t501", "add-docks\tzz\t07", "set-name\tsystem\tother\ten\tX",
    "set-name\tbike\t7\ten\tX", "set-name\tstation\ta1\tde", "remove-name\tplan\tgold\tde",
    "remove-name\tplan\tgold\tde\tX",
    "add-name\tbike\t7\tde\tX", "en", "de", "EN", "zz-Zzzz", "d_e", "-" * 35, "metro", "system", "station", "type",
    "plan", "description", "region", "Region", "names",
]


def values_for(table, column, old):
    """Other values of a column, of its own kind."""
    if is_of_text(table, column):
        return [it for it in WORDS if old is None or it.encode() != old]
    near = [] if old is None else [old + 1, old - 1, old + 1000, -old]
    return [it for it in dict.fromkeys([*near, *NUMBERS]) if it != old and -(2**63) <= it < 2**63]


def updates(tables):
    """Each column of each table, in a row or two, at each other value of its kind; and NULL where that is allowed."""
    for name, rows in tables.items():
        for row in rows[:1] + rows[len(rows) // 2 : len(rows) // 2 + 1] + rows[-1:]:
            keys = list(row)[: TABLES[name]]
            where = " AND ".join(f"{it} = ?" for it in keys)
            found = [row[it].decode() if isinstance(row[it], bytes) else row[it] for it in keys]
            for column, old in row.items():
                empty = [None] if column in MAY_BE_NULL.get(name, ()) and old is not None else []
                for value in [*values_for(name, column, old), *empty]:
                    sql = f'UPDATE OR IGNORE {name} SET "{column}" = ? WHERE {where}'
                    yield f"{sql} {[value, *found]!r:.200}", by_sql(sql, (value, *found))


def filled(tables):
    """The tables with rows. Nothing was archived here, so books has none: archived.py changes its row."""
    return [(name, rows) for name, rows in tables.items() if rows]


def unlike(tables):
    """Values that the columns can't hold: of another kind, or NULL, and texts that are not UTF-8."""
    for name, rows in filled(tables):
        row = rows[-1]
        keys = list(row)[: TABLES[name]]
        where = " AND ".join(f"{it} IS ?" for it in keys)
        found = [row[it].decode() if isinstance(row[it], bytes) else row[it] for it in keys]
        for column in row:
            if column in keys and TABLES[name] == 1 and not is_of_text(name, column):
                continue
            others = ["NULL", "x'6131'"] if is_of_text(name, column) else ["'a1'", "NULL", "x'31'", "1.5", "'1x'"]
            if column in MAY_BE_NULL.get(name, ()):
                others.remove("NULL")
            for value in others:
                sql = f'UPDATE {name} SET "{column}" = {value} WHERE {where}'
                yield f"{sql} {found}", by_sql(sql, found, loose=True)


def not_utf8(tables):
    for name, rows in filled(tables):
        row = rows[-1]
        keys = list(row)[: TABLES[name]]
        where = " AND ".join(f"{it} = ?" for it in keys)
        found = [row[it].decode() if isinstance(row[it], bytes) else row[it] for it in keys]
        for column in [it for it in row if is_of_text(name, it)]:
            for value in "ff", "c3", "c0af", "eda080", "61ff", "6100":
                sql = f"UPDATE {name} SET \"{column}\" = CAST(x'{value}' AS TEXT) WHERE {where}"
                yield f"{sql} {found}", by_sql(sql, found)


def rows_added_and_removed(tables):
    for name, rows in filled(tables):
        columns = list(rows[0])
        keys = columns[: TABLES[name]]
        for row in rows:
            found = [row[it].decode() if isinstance(row[it], bytes) else row[it] for it in keys]
            yield (
                f"DELETE FROM {name} {found}",
                by_sql(f"DELETE FROM {name} WHERE {' AND '.join(f'{it} = ?' for it in keys)}", found),
            )
        for key in itertools.product(
            *(
                [
                    ["a0", "zz", "city"] if is_of_text(name, it) else [0, 1, 2, 3, 4, 9, 100, 999_999, 1_000_000]
                    for it in keys
                ]
            )
        ):
            for row in rows[0], rows[-1]:
                whole = [
                    *key, *(row[it].decode() if isinstance(row[it], bytes) else row[it] for it in columns[len(keys) :])
                ]
                sql = f"INSERT OR IGNORE INTO {name} VALUES ({', '.join('?' * len(whole))})"
                yield f"{sql} {whole!r:.200}", by_sql(sql, whole)
        yield f"DELETE FROM {name}", by_sql(f"DELETE FROM {name}")


def of_rows(file, told):
    return [verdict(read(file))]


def of_rows_or_no_store(file, told):
    """Where the store itself finds the row against its table it need not be read."""
    return [STORE_FAILED]


def tables_of(city, program):
    file = Path(program.folder, "read.db")
    file.write_bytes(city)
    tables = read(file)
    file.unlink()
    assert verdict(tables) == SOUND and all(rows for name, rows in tables.items() if name != "books"), verdict(tables)
    return tables


def test_each_column_of_each_table(program):
    city, _ = made(program)
    holds(program, city, updates(tables_of(city, program)), of_rows, "updates")


def test_regions(program):
    """Each column of regions, the region of each station, and regions that are added or go. All of it in one sample of
    its own."""
    city, _ = made(program)
    tables = tables_of(city, program)
    begins = ("UPDATE OR IGNORE regions ", 'UPDATE OR IGNORE stations_4 SET "region_id" ')
    changes = [it for it in updates(tables) if it[0].startswith(begins)]
    changes += [it for it in rows_added_and_removed({"regions": tables["regions"]})]
    assert len(changes) > 300, len(changes)
    holds(program, city, changes, of_rows, "regions")


def test_history(program):
    """Each column of the history; rows that are added or go, at the end and in the midst; two that change places; and a
    key that comes again. All of it in one sample of its own."""
    city, _ = made(program)
    tables = tables_of(city, program)
    count = len(tables["history"])
    changes = [it for it in updates(tables) if it[0].startswith("UPDATE OR IGNORE history ")]
    changes += rows_added_and_removed({"history": tables["history"]})
    for number, other in itertools.product((1, 2, count // 2, count - 1, count), repeat=2):
        for column in "moment", "caller", "req_key", "caller, req_key", "command, reply":
            row = f"(SELECT {column} FROM history WHERE number = {other})"
            sql = f"UPDATE history SET ({column}) = {row} WHERE number = {number}"
            changes.append((sql, by_sql(sql)))
        sql = f"UPDATE history SET number = CASE number WHEN {number} THEN -{other} ELSE -{number} END"
        sql = f"{sql} WHERE number IN ({number}, {other}); UPDATE history SET number = abs(number)"
        changes.append((sql, by_script(sql)))
    for more in 1, 2:
        for moment in 0, "moment - 1", "moment", "moment + 1":
            for key in "req_key", "'new'", "'k'", "''":
                sql = f"INSERT INTO history SELECT {count + more}, {moment}, caller, {key}, command, reply FROM history"
                sql = f"{sql} WHERE number = {count}"
                changes.append((sql, by_sql(sql)))
    assert len(changes) > 700, len(changes)
    holds(program, city, changes, of_rows, "history")


def with_entry(number, kind, rental, amount, more):
    """One more entry of rider 17, and so much more on the rider's balance."""
    return by_script(
        f"INSERT INTO entries VALUES ({number}, {kind}, 17, {rental}, {amount}, 1700000000); "
        f"UPDATE riders_4 SET balance = balance + {more} WHERE rider = 17"
    )


def test_entries_of_each_kind(program):
    """An entry more of each kind and of others, of no rental, of a closed one and of an open one, with a balance that
    fits and with others. First by hand, and then all of it in one sample of its own."""
    city, _ = made(program)
    number = len(tables_of(city, program)["entries"]) + 1
    for salt, right, rows in (
        ("sound kinds", SOUND, [(4, 0, 30, -30), (5, 0, 30, -30), (6, 0, 30, 30), (4, 0, 1_000_000, -1_000_000)]),
        ("balances", (5, b"", b"unsound riders_4 17\n"), [(4, 0, 30, 30), (5, 0, 30, 0), (6, 0, 30, -30)]),
        (
            "no kinds", (5, b"", f"unsound entries {number}\n".encode()),
            [
                (7, 0, 30, 0), (0, 0, 30, 0), (4, 1, 30, 0), (5, 1, 30, 0), (6, 1, 30, 0), (4, 0, 0, 0),
                (6, 0, 1_000_001, 0),
            ],
        ),
    ):
        changes = [(repr(it), with_entry(number, *it)) for it in rows]
        holds(program, city, changes, lambda file, told, right=right: [right], salt)
    changes = [
        (repr((kind, rental, amount, sign)), with_entry(number, kind, rental, amount, sign * amount))
        for kind in range(9)
        for rental in (0, 1, 4)
        for amount in (0, 1, 1_000_000, 1_000_001)
        for sign in (-1, 0, 1)
    ]
    holds(program, city, changes, of_rows, "entries")


def with_names(*rows):
    """Rows of more_names, whatever stood under their keys."""
    sql = f"INSERT OR REPLACE INTO more_names VALUES {', '.join(['(?, ?, ?, ?)'] * len(rows))}"
    return f"{sql} {rows!r:.300}", by_sql(sql, [it for row in rows for it in row])


LANGUAGES = ["aa", "de", "en", "EN", "fr", "it", "zh-Hant", "zz", "e", "d_e", "x" * 35, "x" * 36]


def test_names_in_further_languages(program):
    """Each column of more_names; names added and gone, of what is there and of what isn't, in the system's language and
    in many; and the system and the plans, types, regions and stations that are named under other identifiers or not at
    all."""
    city, _ = made(program)
    tables = tables_of(city, program)
    begins = (
        "UPDATE OR IGNORE more_names ", 'UPDATE OR IGNORE system SET "system_id" ',
        'UPDATE OR IGNORE system SET "language" ',
        'UPDATE OR IGNORE system SET "one" ',
        *(f'UPDATE OR IGNORE {it}s SET "{it}_id" ' for it in ("plan", "type", "region")),
    )
    changes = [it for it in updates(tables) if it[0].startswith(begins)]
    changes += [it for it in rows_added_and_removed({it: tables[it] for it in ("more_names", "system", "regions")})]
    changes += [
        with_names((kind, ident, language, "Name"))
        for kind in (*formats.NAMED, "bike")
        for ident in ("metro", "a1", "city", "day", "south", "zz")
        for language in LANGUAGES
    ]
    pick = random.Random(f"{SEED} names")
    for _ in range(200):
        kind, ident = pick.choice([
            ("station", "a1"), ("station", "c3"), ("system", "metro"), ("plan", "basic"), ("region", "south")
        ])
        names = [
            (kind, ident, it, pick.choice(["Name", "", "n" * 121]) if pick.random() < 0.3 else "Name")
            for it in pick.sample(LANGUAGES, pick.randint(2, 6))
        ]
        changes.append(with_names(*names))
    assert len(changes) > 1000, len(changes)
    holds(program, city, changes, of_rows, "names")


def texts_of_types(pick):
    """A text that is made of parts as a station's bicycles by type are, and seldom of the right ones."""
    kinds = ["city", "cargo", "zz", "City", "", "-"]
    counts = ["0:0", "1:0", "0:1", "1:1", "2:0", "01:0", "-1:0", "1", ""]
    parts = [f"{pick.choice(kinds)}{pick.choice('::::;,')}{pick.choice(counts)}" for _ in range(pick.randint(0, 3))]
    return pick.choice([";", ";", ";", ";;", ",", "; "]).join(parts)


def with_bicycles(pick):
    """Bicycles more in docks of a station, some of which break, and a text of them that is right or nearly so."""
    docks = pick.sample(range(1, 5), pick.randint(1, 4))
    broken = [it for it in docks if pick.random() < 0.3]
    types, script = {}, [f"INSERT OR REPLACE INTO docks VALUES ('b2', {it}, 1)" for it in broken]
    for dock in docks:
        kind, state = pick.choice(["city", "cargo", "zz"]), pick.choice([0, 0, 1])
        types.setdefault(kind, [0, 0])[dock in broken or state > 0] += 1
        script.append(f"INSERT INTO bikes VALUES ({20 + dock}, '{kind}', {state}, 'b2', {dock}, NULL, NULL, NULL)")
    right = by_type((kind, *counts) for kind, counts in types.items())
    parts = right.split(";")
    others = [";".join(pick.sample(parts, len(parts))), right.replace(":1:", ":2:"), right.replace(";", ","), "-"]
    others += [f"{right};{parts[0]}", ";".join(parts[1:]), right.replace(":0:1", ":1:0"), f"a:0:0;{right}"]
    text = pick.choice([right, right, right, *others])
    numbers = f"free = {4 - len(docks)}, broken = {len(broken)}"
    return "; ".join([*script, f"UPDATE stations_4 SET {numbers}, by_type = '{text}' WHERE station_id = 'b2'"])


def test_bicycles_by_type(program):
    """The text of a station's bicycles by type: any text, and that of other bicycles there. All of it in one sample of
    its own."""
    city, _ = made(program)
    pick = random.Random(f"{SEED} types")
    setting = "UPDATE stations_4 SET by_type = ? WHERE station_id = ?"
    texts = {texts_of_types(pick) for _ in range(400)} | {"cargo:0:1"}
    changes = [
        (f"{setting} {text!r} {station}", by_sql(setting, (text, station)))
        for text in sorted(texts)
        for station in ("a1", "b2", "c3")
    ]
    scripts = {with_bicycles(pick) for _ in range(400)}
    changes += [(it, by_script(it)) for it in sorted(scripts)]
    assert len(changes) > 1000, len(changes)
    holds(program, city, changes, of_rows, "types")


def test_columns_of_a_bicycles_place(program):
    """A column out of its bounds beside a whole place, several whole places, and halves of one. All of it in one sample
    of its own."""
    city, _ = made(program)
    tables = tables_of(city, program)
    odd = {
        "station_id": ["a1", "b2", "zz", "A1", "", None], "dock": [1, 2, 3, 500, 501, 0, -1, None],
        "rental": [1, 4, 5, 0, 10**8, 10**12, None],
        "truck": [3, 4, 5, 0, -1, 999_999, 1_000_000, None], "ord": [3, 4, 5, 0, -1, 10**8 + 1, None],
    }
    pick, changes = random.Random(f"{SEED} places"), []
    for bike in tables["bikes"]:
        for _ in range(60):
            new = {it: pick.choice(odd[it]) for it in pick.sample(list(odd), pick.choice([1, 1, 1, 2, 3]))}
            sql = f"UPDATE bikes SET {', '.join(f'{it} = ?' for it in new)} WHERE bike = ?"
            values = (*new.values(), bike["bike"])
            changes.append((f"{sql} {values!r}", by_sql(sql, values)))
    changes += [(it, by_sql(it)) for it in (
        "DELETE FROM trucks", "DELETE FROM trucks WHERE truck = 3", "DELETE FROM trucks WHERE truck = 4",
        "UPDATE trucks SET truck = 7 WHERE truck = 3",
        "UPDATE trucks SET capacity = 0 WHERE truck = 3", "UPDATE trucks SET capacity = 61",
        "UPDATE trucks SET capacity = 1 WHERE truck = 3",
    )]
    holds(program, city, changes, of_rows, "places")


def test_columns_of_another_kind(program):
    city, _ = made(program)
    holds(program, city, unlike(tables_of(city, program)), of_rows_or_no_store, "unlike")


def test_texts_that_are_not_utf_8(program):
    city, _ = made(program)
    holds(program, city, not_utf8(tables_of(city, program)), of_rows, "utf8")


def test_rows_added_and_removed(program):
    city, _ = made(program)
    holds(program, city, rows_added_and_removed(tables_of(city, program)), of_rows, "rows")


def test_tables_and_columns(program):
    """A table that is missing or has other columns, or a UNIQUE index beside its key, is another program's. Other
    tables, and plain indexes of ours, are left alone."""
    city, _ = made(program)
    tables = tables_of(city, program)
    foreign, sound = [], []
    for name in tables:
        columns = list(BOUNDS[name])
        foreign += [
            f"DROP TABLE {name}",
            f"ALTER TABLE {name} RENAME TO {name}_old",
            f"ALTER TABLE {name} ADD COLUMN more INTEGER",
        ]
        foreign += [f'ALTER TABLE {name} RENAME COLUMN "{it}" TO other' for it in columns]
        last = columns[-1]
        # sqlite3 drops no column that an index has.
        foreign += [f'ALTER TABLE {name} DROP COLUMN "{last}"'] if name not in ("bikes", "more_names") else []
        foreign += [f"CREATE TABLE pointing_{name} (a INTEGER REFERENCES {name})"]
        key, others = columns[: TABLES[name]], columns[TABLES[name] :]
        named = [", ".join(f'"{it}"' for it in [*key, other]) for other in others]
        foreign += [f"CREATE UNIQUE INDEX one_{name} ON {name} ({it})" for it in named]
        sound += [f"CREATE INDEX more_{name} ON {name} ({columns[1]})"]
    sound += [
        "DROP INDEX bikes_by_dock", "DROP INDEX rentals_by_rider", "DROP INDEX more_names_by_language",
        "DROP INDEX more_names_by_thing", "DROP INDEX history_by_key", "CREATE TABLE notes (note TEXT)",
        "CREATE VIEW seen AS SELECT bike FROM bikes",
    ]
    # The names of tables that other versions have are free here.
    sound += [f"CREATE TABLE {it} (note TEXT)" for it in ("stations", "stations_2", "stations_3", "counts", "kept")]
    sound += [
        "CREATE TABLE helmets (helmet INTEGER PRIMARY KEY, size TEXT UNIQUE)",
        "PRAGMA user_version = 7",
        "PRAGMA application_id = 77",
        "VACUUM",
    ]
    holds(program, city, [(it, by_sql(it)) for it in foreign], lambda file, told: [FOREIGN, STORE_FAILED], "foreign")
    holds(program, city, [(it, by_sql(it)) for it in sound], lambda file, told: [SOUND], "sound")


def with_bytes(edit):
    return lambda file: file.write_bytes(edit(bytearray(file.read_bytes())))


def set_byte(at, value):
    def edit(data):
        data[at] = value
        return data

    return with_bytes(edit)


def cut(size):
    return with_bytes(lambda data: data[:size])


def readable(file):
    """What SQLite reads of a file, and none where it finds it damaged."""
    try:
        with contextlib.closing(sqlite3.connect(f"file:{file}?immutable=1", uri=True)) as base:
            base.text_factory = bytes
            is_whole(base)
        tables = read(file)
        # A byte of a table's text may have changed the name of a column.
        are_ours = all(list(row) == list(BOUNDS[name]) for name, rows in tables.items() for row in rows[:1])
        return tables if are_ours else None
    except (AssertionError, sqlite3.Error, UnicodeDecodeError):
        return None


def as_sqlite_reads(file, told):
    """A fault of the store may always be named. What SQLite reads as whole may be judged by its rows, and nothing else
    may be called sound."""
    tables = readable(file)
    if tables is None:
        return [STORE_FAILED, FOREIGN]
    return [STORE_FAILED, FOREIGN, verdict(tables)]


def test_bytes_of_the_header(program):
    city, _ = made(program)
    changes = [
        (f"byte {at} = {value}", set_byte(at, value))
        for at in range(100)
        for value in {0, 1, 2, 127, 255, city[at] ^ 1, city[at] ^ 128} - {city[at]}
    ]
    holds(program, city, changes, as_sqlite_reads, "header")


def test_bytes_anywhere(program):
    city, _ = made(program)
    pick = random.Random(f"{SEED} bytes")
    count = 3000 if TRIED == "all" else int(TRIED)
    changes = []
    for _ in range(count):
        # Most of a page is at its begin and its end.
        page, at = (
            pick.randrange(len(city) // 4096),
            pick.choice([pick.randrange(16), pick.randrange(200), 4095 - pick.randrange(400), pick.randrange(4096)]),
        )
        value = pick.choice([0, 1, 255, pick.randrange(256)])
        changes.append((f"byte {4096 * page + at} = {value}", set_byte(4096 * page + at, value)))
    holds(program, city, changes, as_sqlite_reads, "bytes")


def test_pages_that_are_cut(program):
    city, _ = made(program)
    sizes = sorted(
        {
            *range(0, len(city), 4096), *range(1, 200, 11), 100, 4095, 4097, len(city) - 1, len(city) - 4095,
            len(city) + 0,
        } - {len(city)}
    )

    # A file of one byte or none is taken for one whose making was stopped: the tables are made, as where there is no
    # file.
    holds(
        program, city, [(f"cut to {it}", cut(it)) for it in sizes if it > 1], lambda file, told: [STORE_FAILED], "cut"
    )
    for size in 0, 1:
        file = Path(program.folder, f"begun{size}.db")
        file.write_bytes(city[:size])
        assert program.run("check", file.name) == SOUND and program.run("check", file.name) == SOUND, size
    more = [
        (
            f"{count} bytes of {value} behind",
            with_bytes(lambda data, count=count, value=value: data + bytes([value]) * count),
        )
        for count in (1, 100, 4096, 8192)
        for value in (0, 255)
    ]
    holds(program, city, more, lambda file, told: [SOUND, STORE_FAILED], "more")


def test_pages_in_other_places(program):
    city, _ = made(program)
    pick = random.Random(f"{SEED} pages")
    pages = len(city) // 4096

    def swapped(one, other):
        def edit(data):
            a, b = slice(4096 * one, 4096 * one + 4096), slice(4096 * other, 4096 * other + 4096)
            data[a], data[b] = data[b], data[a]
            return data

        return with_bytes(edit)

    def filled(page, value):
        def edit(data):
            data[4096 * page : 4096 * page + 4096] = bytes([value]) * 4096
            return data

        return with_bytes(edit)

    changes = [
        (f"pages {one} and {other} swapped", swapped(one, other))
        for one, other in (sorted(pick.sample(range(pages), 2)) for _ in range(40))
    ]
    changes += [(f"page {page} of {value}", filled(page, value)) for page in range(pages) for value in (0, 255)]
    holds(program, city, changes, as_sqlite_reads, "pages")


def has_bad_header(log):
    """Whether a log that may hold a request has a header that fails its checksum, and the engine wasn't about to write
    it anew, which it tells by a magic number with a first byte of 0."""
    one = two = 0
    words = struct.unpack("<6I" if log[3:4] == b"\x82" else ">6I", log[:24].ljust(24, b"\0"))
    for at in 0, 2, 4:
        one = (one + words[at] + two) & 0xFFFFFFFF
        two = (two + words[at + 1] + one) & 0xFFFFFFFF
    is_good = log[:4] in (b"\x37\x7f\6\x82", b"\x37\x7f\6\x83") and struct.pack(">2I", one, two) == log[24:32]
    return len(log) >= 568 and log[:4] not in (b"\0\x7f\6\x82", b"\0\x7f\6\x83") and not is_good


def test_logs_that_are_changed(program):
    """A log that is damaged ends where the damage is, so the city is that after a front of the requests; or a fault is
    named, as it is where its header is damaged. No byte of FILE and of the log is changed."""
    _, (main, log) = made(program)
    pick = random.Random(f"{SEED} log")
    count = 400 if TRIED == "all" else int(TRIED) // 2
    sizes = [0, 1, 31, 32, 33, 55, 56, 57, len(log) - 1, *(pick.randrange(len(log)) for _ in range(count // 2))]
    used = 32 + (len(log) - 32) // 4120 * 4120
    changes = [(f"log cut to {it}", log[:it]) for it in sizes]
    for _ in range(count):
        places = [pick.randrange(32), pick.randrange(used)]
        places.append(32 + 4120 * pick.randrange(used // 4120) + pick.randrange(24))
        at, value = pick.choice(places), pick.randrange(256)
        changes.append((f"byte {at} of the log = {value}", log[:at] + bytes([value]) + log[at + 1 :]))
    wrong = []
    for number, (name, bytes_of_log) in enumerate(changes):
        file = Path(program.folder, f"log{number}.db")
        file.write_bytes(main)
        beside = file.with_name(file.name + "-wal")
        beside.write_bytes(bytes_of_log)
        ended = program.run("check", file.name)
        if ended not in ((STORE_FAILED,) if has_bad_header(bytes_of_log) else (SOUND, STORE_FAILED)):
            wrong.append(f"{name}: {ended}")
        if (file.read_bytes(), beside.read_bytes()) != (main, bytes_of_log):
            wrong.append(f"{name}: FILE or its log was changed")
        again = program.run("check", file.name)
        if again != ended:
            wrong.append(f"{name}: first {ended} and then {again}")
        if ended == SOUND:
            with contextlib.closing(sqlite3.connect(file)) as base:
                (there,) = base.execute("SELECT count(*) FROM sqlite_schema WHERE name = 'history'").fetchone()
                count = base.execute("SELECT count(*) FROM history").fetchone()[0] if there else 0
            # Of a young city whose log doesn't hold, no table is left: that is an empty city.
            if there and verdict(read(file)) != SOUND:
                wrong.append(f"{name}: {verdict(read(file))}, and check says sound, of {count} requests")
        removed(file)
    assert not wrong, f"seed {SEED}\n" + "\n".join(wrong)


def test_files_of_no_city(program):
    """Files that are no database, and databases of others."""
    pick = random.Random(f"{SEED} files")
    folder = Path(program.folder)
    for number, data in enumerate([
        b"xx", b"SQ", b"SQLite format 3\0", b"SQLite format 3", bytes(100), bytes(4096), bytes(8192),
        pick.randbytes(4096), b"SQLite format 3\0" + bytes(4080), b"SQLite format 3\0" + pick.randbytes(4080),
        b"text\n" * 1000,
    ]):
        file = folder / f"no{number}.db"
        file.write_bytes(data)
        assert says(program, file) == STORE_FAILED, (data[:20], says(program, file))
    for number, name in enumerate([*TABLES, "stations", "stations_2", "stations_3", "counts", "kept"]):
        sql = f"CREATE TABLE {name} (a)"
        file = folder / f"other{number}.db"
        by_sql(sql)(file)
        found = says(program, file)
        assert found == FOREIGN, (sql, found)
