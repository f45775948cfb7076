"""A raise that meets what is bad: rows, tables and bytes of a file that was changed from outside, a stop at any moment,
calls that fail, and refused memory. What `raise` says of rows is worked out in audit.py.

raising.py tells by which variables more is tried than a sample.
"""

import collections
import inspect
import itertools
import random
import sqlite3
import time
from pathlib import Path

import audit
import formats
import kept_files
import kill
import memory
import stops
import tampered
from raising import (
    COLUMNS, COUNTS_COLUMNS, DONE, KEPT, KEPT_COLUMNS, MOST_DOCKS, MOST_DOCKS_BEFORE, NEW, NEWEST, OLD, RIDERS_COLUMNS,
    SECONDS, SEED, UNSETTLED, WITHOUT_MEMORY, by_type_of, held, is_raised, lowered, newer, of_sql, older, quoted,
    raised, stays, unsound, where_built,
)
from shared import (
    FOREIGN, KILLED, SOUND, STORE_FAILED, changed, disturbed, nothing_is, put, quickly, removed, taken, tell, told_with,
    wrong_of,
)


# ---- Rows that are bad


def read(file, version):
    """The tables of an earlier schema by the names of today, and `counts`, texts as bytes. What is kept is numbered by
    its rowids."""
    names = {it: it for it in audit.TABLES if it not in NEW[version]} | {"counts": "counts"}
    olds = {"stations_4": OLD[version], "riders_4": "riders", "history": "kept ORDER BY rowid"}
    tables = audit.read(file, {**names, **olds})
    return tables | {"history": [{"number": at, "moment": 0, **it} for at, it in enumerate(tables["history"], 1)]}


def spells_counts(row):
    numbers = row["available"], row["disabled"]
    is_type = isinstance(row["type_id"], bytes) and formats.is_ident(row["type_id"])
    return is_type and all(isinstance(it, int) and 0 <= it < 2**32 for it in numbers)


def station_of_today(row, counts):
    """A station's row with what came later: no region, and the text of its rows of `counts`, or one that is none where
    a row spells no counts."""
    rows = [it for it in counts if it["station_id"] == row["station_id"]]
    types = [(it["type_id"], it["available"], it["disabled"]) for it in rows]
    text = by_type_of(types) if all(map(spells_counts, rows)) else b"?"
    return {**row, "region_id": row.get("region_id"), "by_type": text}


def verdict(file, version):
    """What `raise` has to end with: the first bad row by the rules of today, or a station of too many docks where that
    comes before it. One of what is kept is told as of `history`, and one of `counts` by its station."""
    tables = read(file, version)
    row = next((it for it in tables["meta"] if it["one"] == 1), None)
    if row is None or row["app"] != b"bikeshare" or not (row["version"] == version or row["version"] > NEWEST):
        return FOREIGN
    if row["version"] > NEWEST:
        return newer(row["version"])
    # The sums tell nothing.
    row |= {"version": NEWEST, "cash": 0, "revenue": 0}
    stations = [station_of_today(it, tables["counts"]) for it in tables["stations_4"]]
    riders = [{**it, "before": 0, "plan_id": None} for it in tables["riders_4"]]
    whole = {name: tables.get(name, []) for name in audit.TABLES} | {"stations_4": stations, "riders_4": riders}
    most = MOST_DOCKS_BEFORE if version < 3 else MOST_DOCKS
    many = [("stations_4", [it["station_id"]]) for it in stations if it["docks"] > most]
    bad = [it for it in (*many, audit.Audit(whole).first_bad()) if it]
    if not bad:
        return DONE
    table, key = min(bad, key=lambda it: (list(audit.TABLES).index(it[0]), [audit.rank(value) for value in it[1]]))
    before = {"stations_4": OLD[version], "riders_4": "riders"}
    return unsound(before.get(table, table), b"/".join(audit.shown(it) for it in key))


def test_a_station_of_more_docks(program):
    """Before the newest schema it had at most 200. The bad row that comes first is told, of this rule and the
    others."""
    for name, version in ("every", 1), ("regions", 2):
        file = kept_files.unpacked(program, name)
        base = file.read_bytes()
        (most,) = [row[0] for row in held(file).rows[OLD[version]] if row[4] == MOST_DOCKS_BEFORE]
        old, others = OLD[version], ", ".join(map(quoted, COLUMNS[version][1:]))
        more = f"UPDATE {old} SET docks = docks + 1, free = free + 1 WHERE docks = {MOST_DOCKS_BEFORE}"
        new = f"INSERT INTO {old} SELECT {{}}, {others} FROM {old} WHERE docks = 201"
        for change, wanted in (
            ("", None),
            (more, unsound(old, most)),
            (f"{more}; UPDATE counts SET available = available + 1", None),
            (f"{more}; DELETE FROM counts", None),
            (f"{more}; UPDATE meta SET cash = cash + 1", unsound(old, most)),
            (
                f"{more}; {new.format(quoted('-', chr(39)))}; "
                f"UPDATE {old} SET free = 201, broken = 0 WHERE station_id = '-'",
                unsound(old, b"-"),
            ),
            (f"{more}; {new.format(quoted('~', chr(39)))}", unsound(old, most)),
            (f"{more}; UPDATE {old} SET name = '' WHERE station_id = (SELECT min(station_id) FROM {old})", None),
            (
                f"UPDATE {old} SET docks = 501, free = free + 301 WHERE docks = {MOST_DOCKS_BEFORE}",
                unsound(old, most),
            ),
        ):
            removed(file)
            file.write_bytes(base)
            changed(file, change)
            right = verdict(file, version)
            assert wanted in (None, right), (change, wanted, right)
            if right == DONE:
                is_raised(program, file, version)
            else:
                stays(program, file, right)


def old_city(program, version):
    """The bytes of the city of tampered.py in a file of an earlier schema, and its rows by the names of today."""
    whole, _ = tampered.made(program)
    file = Path(program.folder, f"city{version}.db")
    file.write_bytes(whole)
    lowered(file, version)
    tables = read(file, version)
    assert verdict(file, version) == DONE and all(tables.values())
    return file.read_bytes(), tables


def changes_of(version, kind, tables):
    """The changes of tampered.py, as statements of SQL that name the tables of an earlier schema: a number of the
    history is a rowid there, and there are no moments."""
    for name, change in getattr(tampered, kind)({it: rows for it, rows in tables.items() if it != "counts"}):
        sql, values, *more = change.args
        if " history " in f"{sql} ":
            if '"moment"' in sql:
                continue
            sql = sql.replace(" history", " kept").replace("number", "rowid")
            if sql.startswith("INSERT"):
                sql, values = sql.replace("kept VALUES (?, ", f"kept (rowid, {', '.join(KEPT_COLUMNS)}) VALUES ("), [
                    values[0], *values[2:]
                ]
        sql = sql.replace("stations_4", OLD[version]).replace("riders_4", "riders")
        yield name, tampered.by_sql(sql, values, *more)


def judged(program, city, version, changes, salt, wanted=None):
    """Applies each change of a sample, and holds what `raise` says to what is wanted, or to the audit of the rows. What
    isn't raised stays."""
    wrong = []
    for number, (name, change) in enumerate(tampered.drawn(changes, f"raised {version} {salt}")):
        file = Path(program.folder, f"changed{number}.db")
        try:
            file.write_bytes(city)
            change(file)
            right = [verdict(file, version)] if wanted is None else wanted(file)
            if right == [DONE]:
                is_raised(program, file, version)
            else:
                ended = stays(program, file, *right, whole=False)
                assert ended != DONE or program.run("check", file.name) == SOUND
        except (AssertionError, sqlite3.Error) as fault:
            wrong.append(f"version {version}, {name}: {fault}")
        removed(file)
    nothing_is(wrong, f"seed {SEED}")


def each_change(program, kind, wanted=None):
    for version in OLD:
        city, tables = old_city(program, version)
        judged(program, city, version, changes_of(version, kind, tables), kind, wanted)


def test_each_column_of_each_table(program):
    each_change(program, "updates")


def test_columns_of_another_kind(program):
    """The store itself finds the row against its table."""
    each_change(program, "unlike", lambda file: [STORE_FAILED])


def test_texts_that_are_not_utf_8(program):
    each_change(program, "not_utf8")


def test_rows_added_and_removed(program):
    each_change(program, "rows_added_and_removed")


def changes_of_counts(rows):
    """Each column of some rows of `counts` at other values, and rows that are added or go."""
    setting = 'UPDATE OR IGNORE counts SET "{}" = ? WHERE station_id = ? AND type_id = ?'
    for row in rows[0], rows[len(rows) // 2], rows[-1]:
        key = [row[it].decode() for it in COUNTS_COLUMNS[:2]]
        for column in COUNTS_COLUMNS:
            others = tampered.WORDS if column in COUNTS_COLUMNS[:2] else tampered.NUMBERS
            for value in others:
                yield setting.format(column), [value, *key]
        yield "DELETE FROM counts WHERE station_id = ? AND type_id = ?", key
    kinds, numbers = ["city", "cargo", "a", "zz", "City", ""], [0, 1, 2, -1, 2**32 - 1, 2**32]
    for row in itertools.product(["a0", "a1", "b2", "zz", ""], kinds, numbers, numbers[:4]):
        yield "INSERT OR REPLACE INTO counts VALUES (?, ?, ?, ?)", row


def test_rows_of_counts(program):
    """Rows of `counts` that were changed, added or removed. All of it in one sample of its own."""
    for version in OLD:
        city, tables = old_city(program, version)
        changes = list(changes_of_counts(tables["counts"]))
        assert len(changes) > 900, len(changes)
        changes = [(f"{sql} {[*values]!r:.200}", tampered.by_sql(sql, values)) for sql, values in changes]
        judged(program, city, version, changes, "counts")
        unlike = [(it, value) for it in COUNTS_COLUMNS for value in ("NULL", "x'6131'")]
        unlike += [(it, value) for it in COUNTS_COLUMNS[2:] for value in ("1.5", "'1x'")]
        unlike = [f"UPDATE counts SET {it} = {value} WHERE rowid = 1" for it, value in unlike]
        changes = [(sql, tampered.by_sql(sql, (), True)) for sql in unlike]
        judged(program, city, version, changes, "unlike counts", lambda file: [STORE_FAILED])


def test_kept_requests_are_judged_by_todays_texts(program):
    """A command that came later, or a dock beyond 200, is as good a text in a file of an earlier schema."""
    good = [
        "add-name|station|a1|de|Hafen", "add-region|north|North", "set-region|a1|*",
        "add-station|b2|Hall|1.000000|2.000000|500", "mark-dock|a1|201|broken",
        "change-system|N|24/7|c|UTC|https://x|0", "move-station|a1|1.000000|2.000000",
        "add-docks|a1|500", "set-name|station|zz|de|N", "set-name|system|other|en|N", "remove-name|region|zz|de",
    ]
    bad = [
        "add-name|bike|7|de|N", "add-station|b2|Hall|1.000000|2.000000|501", "add-station|b2|Hall|1|2|500",
        "change-system|N|24/7|c|UTC|https://x|86401", "move-station|a1|1|2", "add-docks|a1|501",
        "set-name|bike|7|de|N", "set-name|station|zz|de", "remove-name|station|zz|d", "remove-name|station|zz|de|N",
        "raise|city",
    ]
    for version in OLD:
        for text in [*good, *bad]:
            file = of_sql(program.folder, version)
            changed(file, f"UPDATE kept SET command = '{text.replace('|', chr(9))}' WHERE req_key = 'f5'")
            with told_with(f"version {version}, {text}"):
                if text in good:
                    is_raised(program, file, version)
                else:
                    stays(program, file, unsound("history", b"5"))
            removed(file)


def test_tables_and_columns(program):
    """A table that is missing or has other columns is another program's."""
    for version in OLD:
        city, tables = old_city(program, version)
        changes = []
        for name, rows in tables.items():
            columns = KEPT_COLUMNS if name == "history" else list(rows[0])
            name = {"stations_4": OLD[version], "riders_4": "riders", "history": "kept"}.get(name, name)
            changes += [
                f"DROP TABLE {name}",
                f"ALTER TABLE {name} RENAME TO {name}_old",
                f"ALTER TABLE {name} ADD COLUMN more INTEGER",
            ]
            changes += [f'ALTER TABLE {name} RENAME COLUMN "{it}" TO other' for it in columns]
            # sqlite3 drops no column that an index has.
            if name not in ("bikes", "more_names"):
                changes += [f'ALTER TABLE {name} DROP COLUMN "{columns[-1]}"']
        judged(
            program, city, version, [(it, tampered.by_sql(it)) for it in changes], "tables",
            lambda file: [FOREIGN, STORE_FAILED],
        )


def as_sqlite_reads(file, version):
    """A fault of the store may always be named. What SQLite reads as whole may be judged by its rows, and nothing else
    may be raised."""
    try:
        held(file)
        found = read(file, version)
        others = {"stations_4": COLUMNS[version], "riders_4": RIDERS_COLUMNS, "counts": COUNTS_COLUMNS}
        columns = {name: others.get(name) or list(audit.BOUNDS[name]) for name in found}
        # A byte of a table's text may have changed the name of a column.
        same = all(list(rows[0]) == columns[name] for name, rows in found.items() if rows)
        return [STORE_FAILED, FOREIGN, *([verdict(file, version)] if same else [])]
    except (AssertionError, sqlite3.Error, UnicodeDecodeError):
        return [STORE_FAILED, FOREIGN]


def test_bytes_anywhere(program):
    wrong = []
    for version in OLD:
        city, _ = old_city(program, version)
        pick = random.Random(f"{SEED} raised bytes")
        for number in range(1500 if tampered.TRIED == "all" else int(tampered.TRIED)):
            at, value = pick.randrange(len(city)), pick.choice([0, 1, 255, pick.randrange(256)])
            file = Path(program.folder, f"bytes{number}.db")
            file.write_bytes(city)
            tampered.set_byte(at, value)(file)
            right, before = as_sqlite_reads(file, version), tampered.parts(file)
            ended = program.run("raise", file.name)
            after = program.run("check", file.name) if ended == DONE else SOUND
            if ended not in right or after != SOUND or (ended != DONE and tampered.parts(file) != before):
                wrong.append(f"version {version}, byte {at} = {value}: {ended}, not {right}; and then {after}")
            removed(file)
    nothing_is(wrong, f"seed {SEED}")


# ---- Stops

FAILURES = {**stops.FAILURES, **stops.SHORT}
ENDS = {**stops.STOPS, **stops.LOSSES, **FAILURES}
# Every so many of the turns of each kind stands in the gate.
STRIDES = {"tour": 31, "regions": 37, "every": 41, "city": 43, "names": 47}


class Raising:
    """The raise of a file, and what the file holds before and after it."""

    def __init__(self, program, name, version):
        self.program, self.name, self.version = program, name, version
        file = kept_files.unpacked(program, name)
        self.before, self.parts, self.ends = held(file), {"": file.read_bytes()}, collections.Counter()
        self.after = raised(program, self.before, version)
        ended, self.calls, _ = self.disturbed(file.name)
        assert ended == DONE and held(file) == self.after, ended
        self.feed = self.shown(file.name)
        assert self.feed[1].decode() == kept_files.shown_of(name)["feeds"]["station_status"]
        removed(program.folder, file.name)

    def shown(self, file):
        return self.program.run("feed", file, "station_status", "--at", str(kept_files.shown_of(self.name)["moment"]))

    def disturbed(self, file, **faults):
        """Raises the file under faults: how that ends, how many calls it makes, and which of them was hit."""
        ran = disturbed(self.program, ["raise", file], file=file, ONLY_CHANGES=1, ENDS=1, **faults)
        return ran[:3], ran.calls, ran.hit

    def stands(self, file, ended):
        """What a fault left is the file of the earlier schema or the raised one, whole. Where it was answered it is the
        raised one."""
        file = Path(self.program.folder, file)
        found = held(file)
        assert found in (self.before, self.after), (
            f"the file is neither as it was nor raised: {[it[:2] for it in found.schema if it[0] == 'table']}"
        )
        is_done = found == self.after
        assert is_done or not ended[1], f"it said {ended[1]} too early"
        # What opens the file may clean up behind the stop, so another copy of it is looked at.
        other = file.with_name(f"other-{file.name}")
        put(taken(file), other)
        checked = self.program.run("check", other.name)
        assert checked == (SOUND if is_done else older(self.version)), f"check: {checked}"
        assert held(other) == found, "check changed the file"
        removed(other)
        how = "killed" if ended[0] == KILLED else ended[2].decode().strip() or "done"
        self.ends[f"{how}, {'raised' if is_done else 'as it was'}"] += 1

    def finishes(self, file):
        """A raise without faults has the file raised, and it is served."""
        ended = self.program.run("raise", file)
        assert ended == DONE, f"raised again: {ended}"
        assert held(Path(self.program.folder, file)) == self.after, "raised again, the file holds something else"
        assert self.shown(file) == self.feed
        removed(self.program.folder, file)

    def tried(self, file, how, at, *more):
        """A fault at a call, and perhaps one at a call of the raise behind it."""
        put(self.parts, self.program.folder, file)
        for how, at in ((how, at), *more):
            with told_with(f"{how}, {at}"):
                ended, _, hit = self.disturbed(file, **ENDS[how](at))
                assert is_an_end(how, ended) or (hit == "nothing" and ended == DONE), f"{ended}, {hit}"
                self.stands(file, ended)
        self.finishes(file)

    def each(self, turns):
        """Tries turns, as many at once as BIKESHARE_JOBS says, and returns what is wrong."""

        return [f"{self.name}, {it}" for it in wrong_of(self.tried, turns)]


def is_an_end(how, ended):
    """Whether a raise may end so under such a fault."""
    if how in FAILURES:
        # A line that was not written is another fault, and comes when the file is raised.
        return ended in (DONE, UNSETTLED, STORE_FAILED) or (ended[0] == 6 and ended[2] == b"write failed\n")
    return ended[0] == KILLED and DONE[1].startswith(ended[1]) and not ended[2]


def disturbs(program, kinds, salt):
    """Faults of these kinds at every so many calls of the raise of each kept file."""
    wrong = []
    for name, version in KEPT:
        raising = Raising(program, name, version)
        stride = stops.STRIDE or STRIDES[name]
        turns = [
            (how, at)
            for first, how in enumerate(kinds)
            for at in range(1 + (7 * first + stops.FIRST) % stride, raising.calls + 1, stride)
        ]
        wrong += raising.each(turns)
        tell(f"raise, {salt}", name, raising.ends, len(turns))
    nothing_is(wrong)


@quickly
def test_stops_before_a_call_and_in_its_midst(program):
    disturbs(program, stops.STOPS, "stop")


@quickly
def test_a_disk_that_loses_what_was_not_flushed(program):
    disturbs(program, stops.LOSSES, "loss")


@quickly
def test_changes_that_fail(program):
    disturbs(program, FAILURES, "failure")


@quickly
def test_a_second_stop_while_it_is_raised_again(program):
    wrong, count = [], 2000 if stops.STRIDE == 1 else 8
    for name, version in KEPT[::2]:
        raising, pick = Raising(program, name, version), random.Random(f"{SEED} {name}")
        ways = [*stops.STOPS, *stops.LOSSES]
        turns = [[(pick.choice(ways), pick.randint(1, raising.calls)) for _ in range(3)] for _ in range(count)]
        wrong += raising.each((*first, *more) for first, *more in turns)
        tell("raise, three stops", name, raising.ends, len(turns))
    nothing_is(wrong)


@quickly
def test_killed_at_random_moments(program):
    """By a signal, whenever it comes."""
    pick, number = random.Random(f"{SEED} kills"), 0
    raising = {name: Raising(program, name, version) for name, version in KEPT}
    ends = collections.Counter()
    while number < kill.KILLS:
        it, file = raising[pick.choice(["city", "city", "every", "regions", "names"])], f"killed{number}.db"
        put(it.parts, program.folder, file)
        begun = time.monotonic()
        it.disturbed(file)
        lasted = time.monotonic() - begun
        removed(program.folder, file)
        put(it.parts, program.folder, file)
        for _ in range(pick.randint(1, 3)):
            number += 1
            with program.started("raise", file) as child:
                time.sleep(pick.random() * lasted)
                child.kill()
                out, said = child.communicate(timeout=SECONDS)
            with told_with(f"seed {SEED}, kill {number}, {it.name}"):
                assert not said and DONE[1].startswith(out), (out, said)
                it.stands(file, (child.returncode, out, said))
        with told_with(f"seed {SEED}, kill {number}, {it.name}"):
            it.finishes(file)
        ends += it.ends
        it.ends.clear()
    tell("raise", "kills at random moments", ends, number)


# ---- Memory


def test_refused_memory(program):
    """Each request for memory is refused in turn. The file is as it was, or raised."""
    for name, version in ("tour", 1), ("regions", 2), ("names", 3):
        raising = Raising(program, name, version)
        file = Path(program.folder, "city.db")
        put(raising.parts, file)
        opened, right = memory.opened(program, "check", older(version)), disturbed(program, ["raise", file.name])
        assert right[:3] == DONE, right

        def tried(mine, refusal, raising=raising):
            there = Path(mine.folder, "city.db")
            put(raising.parts, there)
            ended = disturbed(mine, ["raise", there.name], **refusal)[:3]
            with told_with(f"{raising.name}, {refusal}: {ended}"):
                assert ended in (DONE, UNSETTLED, STORE_FAILED, WITHOUT_MEMORY)
                found = held(there)
                assert found in ([raising.after] if ended in (DONE, UNSETTLED) else [raising.before, raising.after])
                assert mine.run("raise", there.name) == DONE
                assert held(there) == raising.after

        memory.try_each(program, right.memory, tried, opened)
        removed(file)


# ---- Where the word isn't built

globals().update({
    name: where_built(it) for name, it in list(globals().items()) if name.startswith("test_") and inspect.isfunction(it)
})
