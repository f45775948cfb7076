"""Files of which the first requests, entries and rentals were archived, and riders with plans of their own
(docs/FORMATS.md, section 10). No command makes either, so SQL does: what such a file shows, that numbers and sums go on
in it, that what was archived is there no more, and which of them are refused.
"""

import sqlite3
from pathlib import Path

import adoption
import audit
from shared import (
    FEEDS, SOUND, Server, ask, body_of, changed, city, feed, get, held, is_sound, quickly, removed, rows_of,
    told_with,
)

# The city of adoption.py: after its 37 requests rider 17 rides by rental 2, rental 1 is closed, and the entries are a
# top-up of rider 17, the fare and a refund of rental 1, and a top-up of rider 18.
REQUESTS, ENTRIES, RENTALS = 37, 4, 1
# What a kind adds to a balance, to cash and to revenue.
BALANCE = "CASE WHEN kind IN (2, 4, 5) THEN -amount ELSE amount END"
CASH = "CASE kind WHEN 1 THEN amount WHEN 4 THEN -amount ELSE 0 END"
REVENUE = "CASE WHEN kind IN (2, 5) THEN amount WHEN kind IN (3, 6) THEN -amount ELSE 0 END"
ARCHIVED = f"""
UPDATE riders_4 SET before = coalesce(
  (SELECT sum({BALANCE}) FROM entries WHERE entries.rider = riders_4.rider AND entry <= {{1}}), 0);
UPDATE meta SET cash = coalesce((SELECT sum({CASH}) FROM entries WHERE entry <= {{1}}), 0),
  revenue = coalesce((SELECT sum({REVENUE}) FROM entries WHERE entry <= {{1}}), 0),
  now = max(now, coalesce((SELECT max(moment) FROM history WHERE number <= {{0}}), 0));
DELETE FROM history WHERE number <= {{0}};
DELETE FROM entries WHERE entry <= {{1}};
DELETE FROM rentals WHERE rental <= {{2}};
INSERT INTO books VALUES (1, {{0}}, {{1}}, {{2}})
"""
# Each of these is accepted, whatever was archived.
MORE = [
    "end 7 a1 1", "top-up 17 100", "refund 2 25", "start 17 a1 1", "recover 3", "add-rider 21", "top-up 18 5",
    "set-rider 18 blocked", "open-order 3 * b2 city 1", "load 3 4 7", "top-up 21 1",
]


def archive(file, requests, entries, rentals):
    """Takes so many requests, entries and rentals out of a file in which nothing was archived."""
    changed(file, ARCHIVED.format(requests, entries, rentals))


def answers(program, file, lines, first=1):
    """The answers to commands of the office."""
    return ask(program, [it.replace(" ", "\t") for it in lines], adoption.NOW + 10, first=first, key="m", file=file)


def shown(program, file):
    """All feeds of a file."""
    return [feed(program, name, "1800000000", file) for name in FEEDS]


def some_counts():
    """How many were archived: each alone, together, and all. Of a rental that stays, fare and refunds stay."""
    return [(1, 0, 0), (REQUESTS, 0, 0), (0, 1, 0), (0, 0, 1), (0, 3, 1), (20, 3, 1), (REQUESTS, ENTRIES, RENTALS)]


@quickly
def test_numbers_and_sums_go_on(program):
    """The file is sound and shows the same feeds; further requests are answered as without the archive, and lead to
    the rows from which the same would be archived."""
    whole = adoption.made(program, "city.db").read_bytes()
    twin = Path(program.folder, "twin.db")
    twin.write_bytes(whole)
    feeds = shown(program, "twin.db")
    wanted = answers(program, "twin.db", MORE)
    assert not [it for it in wanted if it.startswith("refused")] and wanted[3] == "rental\t3\t7", wanted
    later, after = shown(program, "twin.db"), twin.read_bytes()
    for counts in some_counts():
        with told_with(f"archived {counts}"):
            file = Path(program.folder, "city.db")
            file.write_bytes(whole)
            archive(file, *counts)
            is_sound(program)
            assert audit.verdict(audit.read(file)) == SOUND
            assert shown(program, "city.db") == feeds
            assert answers(program, "city.db", MORE) == wanted
            assert shown(program, "city.db") == later
            is_sound(program)
            twin.write_bytes(after)
            archive(twin, *counts)
            assert held(file) == held(twin)


@quickly
def test_what_was_archived_is_not_there(program):
    """Its rentals are unknown, its keys new, and no table, page or line tells of it."""
    file = adoption.made(program, "city.db")
    Path(program.folder, "twin.db").write_bytes(file.read_bytes())
    requests, entries, rentals = 20, 3, 1
    archive(file, requests, entries, rentals)
    assert program.run("history", "city.db", str(requests - 1)) == (5, b"", b"begins %d\n" % requests)
    for after in requests, requests + 3, REQUESTS:
        told = program.run("history", "twin.db", str(after))
        assert program.run("history", "city.db", str(after)) == told and told[0] == 0, after
    for table, first in ("entries", entries), ("rentals", rentals), ("requests", requests):
        words = table, "2023-11-14", "UTC0"
        head, *rows = program.run("day", "twin.db", *words)[1].decode().splitlines()
        rows = [it for it in rows if int(it.split(",")[0]) > first]
        told = program.run("day", "city.db", *words)
        assert told == (0, "".join(f"{it}\n" for it in [head, *rows]).encode(), b""), table
    with Server(program) as server, Server(program, file="twin.db") as other:
        assert server.ask(get("/rentals/1")).startswith(b"HTTP/1.1 404 ")
        for path, same in ("/rentals/2", "/rentals/2"), ("/riders/17", "/riders/17"), ("/history/0", "/history/20"):
            assert body_of(server.ask(get(path))) == body_of(other.ask(get(same))), path
    unknown = "refused\t5\tunknown_rental"
    assert answers(program, "city.db", ["refund 1 1", "recover 1", "refund 2 1"]) == [
        unknown, unknown, "refused\t31\trental_open"
    ]
    # Of the requests k12 and k16 were archived, and k36 wasn't.
    lines = "".join(
        f"{adoption.NOW}\toffice\t{key}\t{command}\n"
        for key, command in (("k12", "top-up\t17\t2500"), ("k16", "add-rider\t18"), ("k36", "add-bike\t10\tcity"),
                             ("k36", "add-bike\t11\tcity"), ("k12", "top-up\t17\t2500"))
    )
    told = b"balance\t4900\nrefused\t10\talready_there\nok\nrefused\t33\tkey_reused\nbalance\t4900\n"
    assert program.run("lines", "city.db", given=lines.encode()) == (0, told, b"")
    assert rows_of("SELECT number FROM history ORDER BY number DESC LIMIT 1", file) == [(REQUESTS + 1,)]
    is_sound(program)


def test_where_all_was_archived(program):
    """The first row of each table has the next number, and the city's moment stays."""
    file = adoption.made(program, "city.db")
    archive(file, REQUESTS, ENTRIES, RENTALS)
    is_sound(program)
    assert ask(program, ["top-up\t17\t100"], 0, key="late") == ["balance\t2500"]
    assert rows_of("SELECT entry, at FROM entries", file) == [(ENTRIES + 1, adoption.NOW)]
    assert rows_of("SELECT number, moment FROM history", file) == [(REQUESTS + 1, adoption.NOW)]
    is_sound(program)


# Changes of a city of which 20 requests, 3 entries and rental 1 were archived: rider 17 had 24.00, cash was 25.00 and
# revenue 1.00. Entry 4 and rental 2 are there.
MOST = 3 * 34_561_800_000
DAMAGED = [
    ("", None),
    # How many were archived.
    ("UPDATE books SET requests = 21", "history 21"), ("UPDATE books SET requests = 19", "history 21"),
    ("UPDATE books SET entries = 2", "entries 4"), ("UPDATE books SET entries = 4", "entries 4"),
    ("UPDATE books SET rentals = 0", "rentals 2"), ("UPDATE books SET rentals = 2", "rentals 2"),
    ("UPDATE books SET requests = 9223372036854775807", "history 21"),
    ("DELETE FROM history WHERE number = 21", "history 22"), ("DELETE FROM history", None),
    ("DELETE FROM history; UPDATE books SET requests = 9223372036854775807", None),
    ("DELETE FROM history; UPDATE meta SET now = now - 1", "stations_4 a1"),
    # Without a good row of books nothing was archived, so cash has to be 0, and then what riders had before.
    ("DELETE FROM books", "meta 1"), ("UPDATE books SET one = 2", "meta 1"),
    ("UPDATE books SET entries = 0", "meta 1"),
    ("UPDATE books SET requests = -1", "meta 1"), ("UPDATE books SET entries = 100000001", "meta 1"),
    ("UPDATE books SET rentals = 100000001", "meta 1"), ("INSERT INTO books VALUES (2, 0, 0, 1)", "books 2"),
    ("INSERT INTO books VALUES (0, 0, 0, 1)", "books 0"),
    ("DELETE FROM books; UPDATE meta SET cash = 0", "meta 1"),
    ("DELETE FROM books; UPDATE meta SET cash = 0, revenue = 0", "riders_4 17"),
    ("DELETE FROM books; UPDATE meta SET cash = 0, revenue = 0; "
     "UPDATE riders_4 SET balance = 0, before = 0 WHERE rider = 17", "rentals 2"),
    # Cash, revenue and what riders had before: each within what 3 entries can come to, and together conserved.
    ("UPDATE meta SET cash = cash + 1", "books 1"), ("UPDATE meta SET revenue = revenue - 1", "books 1"),
    ("UPDATE meta SET cash = cash + 1, revenue = revenue + 1", None),
    ("UPDATE meta SET cash = cash - 5000, revenue = revenue - 5000", None),
    (f"UPDATE meta SET cash = {MOST}", "books 1"), (f"UPDATE meta SET cash = {MOST + 1}", "meta 1"),
    (f"UPDATE meta SET cash = -{MOST}", "books 1"), (f"UPDATE meta SET cash = -{MOST + 1}", "meta 1"),
    (f"UPDATE meta SET revenue = {MOST}", "books 1"), (f"UPDATE meta SET revenue = {MOST + 1}", "meta 1"),
    (f"UPDATE meta SET revenue = -{MOST + 1}", "meta 1"),
    (f"UPDATE meta SET revenue = {MOST - 2400}, cash = {MOST}", None),
    ("UPDATE riders_4 SET before = before + 1 WHERE rider = 17", "riders_4 17"),
    ("UPDATE riders_4 SET balance = balance + 1 WHERE rider = 17", "riders_4 17"),
    ("UPDATE riders_4 SET before = before + 1, balance = balance + 1 WHERE rider = 17", "books 1"),
    ("UPDATE riders_4 SET before = before + 35 - 2 * rider, balance = balance + 35 - 2 * rider", None),
    (f"UPDATE riders_4 SET before = {MOST}, balance = {MOST} WHERE rider = 17", "books 1"),
    (f"UPDATE riders_4 SET before = {MOST + 1}, balance = {MOST + 1} WHERE rider = 17", "riders_4 17"),
    (f"UPDATE riders_4 SET before = -{MOST + 1}, balance = -{MOST + 1} WHERE rider = 17", "riders_4 17"),
    # Entries of an archived rental are taken; others aren't.
    ("INSERT INTO entries VALUES (5, 3, 18, 1, 9, 1700002000); UPDATE riders_4 SET balance = 1009 WHERE rider = 18",
     None),
    ("INSERT INTO entries VALUES (5, 2, 18, 1, 9, 1700002000); UPDATE riders_4 SET balance = 991 WHERE rider = 18",
     None),
    ("INSERT INTO entries VALUES (5, 3, 17, 2, 9, 1700002000); UPDATE riders_4 SET balance = 2409 WHERE rider = 17",
     "rentals 2"),
    ("INSERT INTO entries VALUES (5, 2, 17, 2, 9, 1700002000); UPDATE riders_4 SET balance = 2391 WHERE rider = 17",
     "entries 5"),
    ("INSERT INTO entries VALUES (5, 3, 17, 3, 9, 1700002000); UPDATE riders_4 SET balance = 2409 WHERE rider = 17",
     "entries 5"),
    # No more rentals than entries and open rentals, and no more of these than there may be.
    ("UPDATE books SET rentals = 4; UPDATE rentals SET rental = 5; UPDATE bikes SET rental = 5 WHERE bike = 7", None),
    ("UPDATE books SET rentals = 5; UPDATE rentals SET rental = 6; UPDATE bikes SET rental = 6 WHERE bike = 7",
     "books 1"),
    ("UPDATE books SET entries = 99999998; UPDATE entries SET entry = 99999999", None),
    ("UPDATE books SET entries = 99999999; UPDATE entries SET entry = 100000000", "entries 100000000"),
    ("UPDATE books SET entries = 99999999; DELETE FROM entries; UPDATE riders_4 SET before = balance; "
     "UPDATE meta SET cash = 3500", None),
    ("UPDATE books SET entries = 100000000; DELETE FROM entries; UPDATE riders_4 SET before = balance; "
     "UPDATE meta SET cash = 3500", "books 1"),
    # A row of an earlier table is told first.
    ("UPDATE meta SET cash = cash + 1; UPDATE more_names SET language = 'f' WHERE language = 'fr'",
     "more_names station/b2/f"),
]


@quickly
def test_damaged_files(program):
    """What `check` says is what is wanted here, and what the audit in Python says."""
    file = adoption.made(program, "city.db")
    archive(file, 20, 3, 1)
    whole, wrong = file.read_bytes(), []
    for change, bad in DAMAGED:
        file.write_bytes(whole)
        try:
            changed(file, change)
        except sqlite3.Error as fault:
            wrong.append((change, fault))
            continue
        wanted = (5, b"", f"unsound {bad}\n".encode()) if bad else SOUND
        found = program.run("check", "city.db"), audit.verdict(audit.read(file))
        wrong += [(change, found, wanted)] if found != (wanted, wanted) else []
    assert not wrong, wrong


@quickly
def test_a_file_at_its_limit_takes_no_ride(program):
    """Archived entries count: with room for one more the open rental has it, and no other is begun."""
    file = adoption.made(program, "city.db")
    archive(file, 20, 3, 1)
    changed(file, "UPDATE books SET entries = 99999998; UPDATE entries SET entry = 99999999")
    full = "refused\t32\tlimit_reached"
    told = answers(program, "city.db", ["top-up 17 1", "start 18 b2 1", "end 7 a1 1", "top-up 17 1"])
    assert told[:2] == [full] * 2 and told[2].startswith("fare\t") and told[3] == full, told
    assert rows_of("SELECT max(entry) FROM entries", file) == [(100_000_000,)]
    is_sound(program)


@quickly
def test_a_plan_of_the_rider_s_own(program):
    """A ride is charged by it, whichever type the bicycle has; a ride that began before isn't."""
    city(program, "add-plan\tfree\tFree\t0\tfalse\tFree\t-", "add-rider\t18")
    file = Path(program.folder, "city.db")
    assert ask(program, ["start\t17\ta1\t1"], 1700000000, key="a") == ["rental\t1\t7"]
    changed(file, "UPDATE riders_4 SET plan_id = 'free' WHERE rider = 17")
    is_sound(program)
    told = ask(program, ["end\t7\ta1\t1", "start\t17\ta1\t1"], 1700003600, key="b")
    assert told == ["fare\t275\t2225", "rental\t2\t7"]
    with Server(program, 2) as server:
        assert [server.told(f"/rentals/{it}")["plan"] for it in (1, 2)] == ["basic", "free"]
    changed(file, "UPDATE riders_4 SET plan_id = NULL WHERE rider = 17")
    told = ask(program, ["end\t7\ta1\t1", "start\t18\ta1\t1"], 1700007200, key="c")
    assert told == ["fare\t0\t2225", "rental\t3\t7"]
    assert rows_of("SELECT plan_id FROM rentals", file) == [("basic",), ("free",), ("basic",)]
    # No request takes it away, or sets it.
    changed(file, "UPDATE riders_4 SET plan_id = 'free' WHERE rider = 18")
    told = ask(program, ["set-rider\t18\tblocked", "top-up\t18\t5", "set-plan\tcity\tfree"], 1700007300, key="d")
    assert told == ["ok", "balance\t5", "ok"]
    assert rows_of("SELECT rider, plan_id FROM riders_4", file) == [(17, None), (18, "free")]
    changed(file, "UPDATE riders_4 SET plan_id = 'gold' WHERE rider = 18")
    assert program.run("check", "city.db") == (5, b"", b"unsound riders_4 18\n")
    removed(file)
