"""A day's tables, as `day` writes them: the worked day, days of many time zones beside a table of facts that Python's
zoneinfo made, a made city whose sums are those of plain SQL, the days and zones that are refused, and dates and time
zones of every form.

The bounds of days in made time zones are those of Python's zoneinfo; the other wanted answers follow from
docs/OPERATOR.md and docs/FORMATS.md by hand.

A sample of made time zones and dates stands in the gate. By hand more, from the environment:

    BIKESHARE_MADE=2000 BIKESHARE_SEED=7 tests/run days.

BIKESHARE_MADE is how many are made, BIKESHARE_SEED what they are made from; a failure tells the seed and the input.
"""

import csv
import io
import os
import random
import re
import sqlite3
import subprocess
import sys
from datetime import date, datetime, timedelta, timezone
from pathlib import Path

import shared
from shared import ask, changed, held, is_sound, quickly, removed

MADE = int(os.environ.get("BIKESHARE_MADE", "120"))
SEED = int(os.environ.get("BIKESHARE_SEED", "1"))

UTC, ROME = "UTC0", "CET-1CEST,M3.5.0,M10.5.0/3"
ENTRIES = "number,kind,rider,rental,amount,at\n"
RENTALS = "number,rider,bike,plan,from,start,to,end,fare\n"
REQUESTS = "number,moment,caller,key,command,reply\n"
CITY = [it for it in shared.CITY if not it.startswith("mark-dock")]

# Moments about the bounds of the first day of UTC and of the last, the hundredths that are paid in then, and how both
# are printed.
BOUNDS = [
    (0, 1, "0.01,1970-01-01T00:00:00Z"),
    (86399, 7, "0.07,1970-01-01T23:59:59Z"),
    (86400, 350, "3.50,1970-01-02T00:00:00Z"),
    (253370678399, 99999, "999.99,9998-12-30T23:59:59Z"),
    (253370678400, 100000, "1000.00,9998-12-31T00:00:00Z"),
    (253370764799, 1000000, "10000.00,9998-12-31T23:59:59Z"),
    (253370764800, 2, "0.02,9999-01-01T00:00:00Z"),
]

FACTS = shared.HERE / "facts"
day_bounds = shared.loaded(FACTS / "day_bounds.py")


def table(program, which, day, zone):
    """The text of a day's table, which stands alone on standard output."""
    status, out, said = program.run("day", "city.db", which, day, zone)
    assert (status, said) == (0, b""), (which, day, zone, status, said)
    return out.decode()


def text_of(moment):
    return datetime.fromtimestamp(moment, timezone.utc).strftime("%Y-%m-%dT%H:%M:%SZ")


def test_worked_day(program):
    assert ask(program, CITY)[-1] == "balance\t2500"
    for at, command, answer in (
        (1711918800, "start\t17\ta1\t1", "rental\t1\t7"),
        (1711922399, "end\t7\ta1\t1", "fare\t250\t2250"),
        (1711922399, "start\t17\ta1\t1", "rental\t2\t7"),
        (1711922400, "end\t7\ta1\t1", "fare\t100\t2150"),
    ):
        caller = "rider:17" if command.startswith("start") else "dock:a1"
        assert ask(program, [command], at, first=at, caller=caller) == [answer], command
    short = "1,17,7,basic,a1,2024-03-31T21:00:00Z,a1,2024-03-31T21:59:59Z,2.50\n"
    long = "2,17,7,basic,a1,2024-03-31T21:59:59Z,a1,2024-03-31T22:00:00Z,1.00\n"
    assert table(program, "rentals", "2024-03-31", ROME) == RENTALS + short
    assert table(program, "rentals", "2024-04-01", ROME) == RENTALS + long
    assert table(program, "rentals", "2024-03-31", "UTC0") == RENTALS + short + long
    assert table(program, "entries", "2024-03-31", ROME) == ENTRIES + "2,fare,17,1,2.50,2024-03-31T21:59:59Z\n"
    assert table(program, "entries", "2023-11-14", "UTC0") == ENTRIES + "1,topup,17,0,25.00,2023-11-14T22:00:00Z\n"
    assert table(program, "entries", "2024-04-02", ROME) == ENTRIES


def test_recovered_rental_ends_nowhere(program):
    ask(program, CITY)
    assert ask(program, ["start\t17\ta1\t1"], 1700000000, first=50) == ["rental\t1\t7"]
    assert ask(program, ["recover\t1"], 1700000060, first=51) == ["fare\t100\t2400"]
    assert table(program, "rentals", "2023-11-14", "UTC0") == RENTALS + (
        "1,17,7,basic,a1,2023-11-14T22:13:20Z,*,2023-11-14T22:14:20Z,1.00\n"
    )


def test_entries_of_kinds_that_no_command_makes(program):
    """A withdrawal, a charge and a credit are written into the file, with the balance that they leave."""
    ask(program, CITY)
    added = [(2, 4, "withdrawal", 100, "1.00"), (3, 5, "charge", 1, "0.01"), (4, 6, "credit", 1000000, "10000.00")]
    rows = ", ".join(f"({number}, {kind}, 17, 0, {amount}, 1699999200)" for number, kind, _, amount, _ in added)
    change = f"INSERT INTO entries VALUES {rows}; UPDATE riders_4 SET balance = 1002399 WHERE rider = 17"
    changed(Path(program.folder, "city.db"), change)
    is_sound(program)
    lines = [f"{number},{name},17,0,{amount}" for number, _, name, _, amount in added]
    lines = "".join(f"{it},2023-11-14T22:00:00Z\n" for it in ["1,topup,17,0,25.00", *lines])
    assert table(program, "entries", "2023-11-14", "UTC0") == ENTRIES + lines
    assert ask(program, ["top-up\t17\t1"], first=50) == ["balance\t1002400"]
    lines += "5,topup,17,0,0.01,2023-11-14T22:00:00Z\n"
    assert table(program, "entries", "2023-11-14", "UTC0") == ENTRIES + lines
    is_sound(program)


def test_a_file_without_tables_has_an_empty_day(program):
    changed(Path(program.folder, "city.db"), "CREATE TABLE notes (note TEXT)")
    assert table(program, "entries", "2024-03-31", "UTC0") == ENTRIES
    assert table(program, "rentals", "2024-03-31", "UTC0") == RENTALS
    assert table(program, "requests", "2024-03-31", "UTC0") == REQUESTS


def test_refused_days(program):
    program.run("init", "city.db")
    for day, zone, word in (
        ("2024-02-30", "UTC0", "bad date"),
        ("2023-02-29", "UTC0", "bad date"),
        ("24-02-01", "UTC0", "bad date"),
        ("2024-2-1", "UTC0", "bad date"),
        ("2024-02-01 ", "UTC0", "bad date"),
        ("", "UTC0", "bad date"),
        ("2024-02-30", "x", "bad date"),
        ("2024-02-01", "x", "bad zone"),
        ("2024-02-01", "", "bad zone"),
        ("2024-02-01", "Europe/Rome", "bad zone"),
        ("1969-12-31", "x", "bad zone"),
        ("1969-12-31", "UTC0", "day out of range"),
        ("1970-01-01", "CET-1", "day out of range"),
        ("9999-12-31", "UTC0", "day out of range"),
        ("9999-01-01", "UTC0", "day out of range"),
    ):
        for which in ("entries", "rentals", "requests"):
            ended = program.run("day", "city.db", which, day, zone)
            assert ended == (1, b"", word.encode() + b"\n"), (day, zone, ended)
    for day in ("1970-01-01", "9998-12-31"):
        assert table(program, "entries", day, "UTC0") == ENTRIES
    for words in (
        ["fares", "2024-02-01", "UTC0"], ["entries", "2024-02-01"], ["entries"], ["Entries", "2024-02-01", "UTC0"]
    ):
        status, out, said = program.run("day", "city.db", *words)
        assert (status, out) == (2, b"") and said, (words, status, out)


def facts():
    """When days of a dozen time zones begin and end, as a stored table has it: zone, date, begin, end."""
    with open(FACTS / "day_bounds.tsv", encoding="utf-8", newline="") as rows:
        for zone, day, begin, end in csv.reader(rows, delimiter="\t", quoting=csv.QUOTE_NONE):
            yield zone, day, int(begin), int(end)


def test_days_of_many_zones(program):
    days = list(facts())
    assert len(days) >= 400 and len({zone for zone, *_ in days}) == 12, len(days)
    moments = sorted({at for _, _, begin, end in days for at in (begin - 1, begin, end - 1, end)})
    given = "".join(f"{at}\toffice\tz{number}\ttop-up\t17\t1\n" for number, at in enumerate(moments))
    assert moments[0] > 900000000
    assert ask(program, ["add-rider\t17"], at=900000000) == ["ok"]
    status, out, said = program.run("lines", "city.db", given=given.encode())
    assert (status, said) == (0, b"") and out.count(b"balance") == len(moments)
    for zone, day, begin, end in days:
        rows = list(csv.DictReader(io.StringIO(table(program, "entries", day, zone))))
        wanted = [text_of(at) for at in moments if begin <= at < end]
        assert [row["at"] for row in rows] == wanted, (zone, day, begin, end)


def test_the_facts_are_those_of_zoneinfo(program):
    made = subprocess.run([sys.executable, FACTS / "day_bounds.py"], capture_output=True, check=True).stdout
    assert made == (FACTS / "day_bounds.tsv").read_bytes()


def test_days_whose_midnight_is_skipped_or_comes_twice(program):
    begins = {day: begin for zone, day, begin, _ in facts() if zone == "AAA3BBB,M10.3.0/0,M2.3.0/1"}
    assert (begins["2024-10-20"], begins["2024-10-21"]) == (1729393200, 1729476000)
    assert (begins["2024-02-18"], begins["2024-02-19"]) == (1708221600, 1708311600)


def test_the_first_day_and_the_last(program):
    given = "0\toffice\tk\tadd-rider\t17\n" + "".join(
        f"{at}\toffice\tk{at}\ttop-up\t17\t{amount}\n" for at, amount, _ in BOUNDS
    )
    status, out, said = program.run("lines", "city.db", given=given.encode())
    assert (status, said) == (0, b"") and out.startswith(b"ok\n") and out.count(b"balance") == len(BOUNDS), (
        status, out, said
    )
    for day, rows in ("1970-01-01", 2), ("1970-01-02", 1), ("9998-12-30", 1), ("9998-12-31", 2):
        wanted = [
            f"{number},topup,17,0,{told}\n" for number, (_, _, told) in enumerate(BOUNDS, 1) if f",{day}T" in told
        ]
        found = table(program, "entries", day, "UTC0")
        assert len(wanted) == rows and found == ENTRIES + "".join(wanted), (day, found)


# The greatest fare and one of nothing: rentals of 30 days and of no time, under a plan that costs as much as one may
# and under one that gives back more than its price.
RIDES = [
    (0, "add-plan\tmost\tMost\t1000000\tfalse\tMost\t" + ";".join(["0:100000:1:-"] * 8), "ok"),
    (0, "add-plan\tgift\tGift\t100\tfalse\tGift\t0:-200:0:-", "ok"),
    (0, "set-plan\tcity\tmost", "ok"),
    (0, "start\t17\ta1\t1", "rental\t1\t7"),
    (2592000, "end\t7\ta1\t1", "fare\t34561800000\t-34561797500"),
    (2592000, "refund\t1\t1000000", "balance\t-34560797500"),
    (2592000, "refund\t1\t1", "balance\t-34560797499"),
    (2592000, "set-plan\tcity\tgift", "ok"),
    (2592000, "add-rider\t18", "ok"),
    (2592000, "start\t18\ta1\t1", "rental\t2\t7"),
    (2592000, "end\t7\ta1\t1", "fare\t0\t0"),
    (2592000, "refund\t2\t1", "refused\t30\trefund_too_large"),
]


def test_the_greatest_amount_and_the_least(program):
    """The city stands at 2023-11-14, 22 hours; 30 days later it is the 14th of December."""
    ask(program, CITY)
    given = "".join(f"{1699999200 + after}\toffice\tr{at}\t{command}\n" for at, (after, command, _) in enumerate(RIDES))
    assert program.run("lines", "city.db", given=given.encode()) == (
        0, "".join(f"{answer}\n" for _, _, answer in RIDES).encode(), b""
    )
    entries = ["2,fare,17,1,345618000.00", "3,refund,17,1,10000.00", "4,refund,17,1,0.01", "5,fare,18,2,0.00"]
    wanted = "".join(f"{entry},2023-12-14T22:00:00Z\n" for entry in entries)
    assert table(program, "entries", "2023-12-14", "UTC0") == ENTRIES + wanted
    rentals = [
        "1,17,7,most,a1,2023-11-14T22:00:00Z,a1,2023-12-14T22:00:00Z,345618000.00\n",
        "2,18,7,gift,a1,2023-12-14T22:00:00Z,a1,2023-12-14T22:00:00Z,0.00\n",
    ]
    assert table(program, "rentals", "2023-12-14", "UTC0") == RENTALS + "".join(rentals)
    is_sound(program)


def made_city(program, seed):
    """Plays some days of trips, top-ups and refunds, and returns a copy of its file, so that the file is free for the
    program."""
    draw = random.Random(seed)
    ask(
        program,
        CITY + [f"add-rider\t{rider}" for rider in range(100, 120)] + [
            f"top-up\t{rider}\t100000" for rider in range(100, 120)
        ],
    )
    at, key, rental, commands = 1711000000, 1000, 0, []
    for trip in range(140):
        at += draw.randrange(1, 4000)
        rider = draw.randrange(100, 120)
        key += 10
        commands.append((at, f"start\t{rider}\ta1\t1", key))
        at += draw.randrange(0, 9000)
        rental += 1
        if trip == 139:
            commands.append((at, f"recover\t{rental}", key + 1))
            break
        commands.append((at, "end\t7\ta1\t1", key + 1))
        if draw.random() < 0.3:
            commands.append((at + draw.randrange(90000), f"refund\t{rental}\t{draw.randrange(1, 100)}", key + 2))
        if draw.random() < 0.3:
            commands.append((at, f"top-up\t{rider}\t{draw.randrange(1, 10000)}", key + 3))
    given = "".join(f"{at}\toffice\tk{key}\t{command}\n" for at, command, key in commands)
    status, out, said = program.run("lines", "city.db", given=given.encode())
    assert (status, said) == (0, b""), (status, said)
    stored = sqlite3.connect(Path(program.folder) / "city.db")
    memory = sqlite3.connect(":memory:")
    stored.backup(memory)
    stored.close()
    return memory


def midnight(day):
    """When a day of March 2024 begins in Rome, whose summer time begins on the 31st at two."""
    since = (
        datetime(day.year, day.month, day.day, tzinfo=timezone.utc) - datetime(1970, 1, 1, tzinfo=timezone.utc)
    ).total_seconds()
    return int(since) - (3600 if day <= date(2024, 3, 31) else 7200)


def hundredths(text):
    whole, part = text.split(".")
    assert len(part) == 2
    return int(whole) * 100 + int(part)


def test_sums_are_those_of_plain_sql(program):
    stored = made_city(program, 7)
    kinds = {"topup": 1, "fare": 2, "refund": 3}
    seen = 0
    for number in range(12):
        day = date(2024, 3, 20) + timedelta(number)
        begin = midnight(day)
        end = midnight(day + timedelta(1))
        rows = list(csv.DictReader(io.StringIO(table(program, "entries", day.isoformat(), ROME))))
        for name, kind in kinds.items():
            wanted = stored.execute(
                "SELECT count(*), coalesce(sum(amount), 0) FROM entries WHERE kind = ? AND at >= ? AND at < ?",
                (kind, begin, end),
            ).fetchone()
            found = [hundredths(row["amount"]) for row in rows if row["kind"] == name]
            assert (len(found), sum(found)) == wanted, (day, name)
            seen += len(found)
        ended = list(csv.DictReader(io.StringIO(table(program, "rentals", day.isoformat(), ROME))))
        wanted = stored.execute(
            (
                "SELECT rental, rider, bike, plan_id, from_station, start, to_station, finish, fare FROM rentals "
                "WHERE finish >= ? AND finish < ? ORDER BY rental"
            ),
            (begin, end),
        ).fetchall()
        found = [
            (
                int(row["number"]), int(row["rider"]), int(row["bike"]), row["plan"], row["from"], row["start"],
                None if row["to"] == "*" else row["to"], row["end"], hundredths(row["fare"]),
            )
            for row in ended
        ]
        assert found == [(*row[:5], text_of(row[5]), row[6], text_of(row[7]), row[8]) for row in wanted], day
        numbers = [int(row["number"]) for row in rows]
        assert numbers == sorted(numbers)
    assert seen > 50


# ---- Dates and time zones of every form


def said_of(program, word, *words, given=b""):
    """Runs a word with nothing on standard output wanted, and returns its status and what it says."""
    status, out, said = program.run(word, *words, given=given)
    assert out == b"", (word, words, out)
    return status, said.decode()


def test_dates_of_other_spellings(program):
    """A date is YYYY-MM-DD in ASCII digits and stands in the calendar; one of the year 0 is, and lies out of range."""
    bad = [
        "20240101", "+002024-01-01", "02024-01-01", "2024-01-01T00:00", "2024-01-01Z", " 2024-01-01", "2024/01/01",
        "2024-01", "2024-001", "2024-W01-1", "01-01-2024", "2024-1-01", "2024-01-1", "2024-00-01", "2024-13-01",
        "2024-01-00", "2024-01-32", "2024-04-31", "2100-02-29", "1900-02-29", "0001-02-29", "٢٠٢٤-01-01", "２０２４-01-01",
        "2024–01–01", "2024-01-0x", "today", "2024-01-01\n", "9999-02-29",
    ]
    out = [
        "0000-01-01", "0000-02-29", "0001-01-01", "1600-02-29", "1900-02-28", "1969-12-31", "9999-01-01", "9999-12-31"
    ]
    for day in bad:
        assert said_of(program, "day", ":memory:", "entries", day, UTC) == (1, "bad date\n"), day
    for day in out:
        assert said_of(program, "day", ":memory:", "rentals", day, UTC) == (1, "day out of range\n"), day
    for day in "1970-01-01", "2000-02-29", "2024-02-29", "9998-12-31":
        assert program.run("day", ":memory:", "rentals", day, UTC) == (0, RENTALS.encode(), b""), day


def test_zones_that_are_none(program):
    """POSIX has no such zones. A bad date is told before a bad zone, and that before a day out of range."""
    rules = [
        "M3.5.0", "M0.5.0,M10.5.0", "M13.5.0,M10.5.0", "M3.0.0,M10.5.0", "M3.6.0,M10.5.0", "M3.5.7,M10.5.0",
        "M3.5,M10.5",
    ]
    rules += ["J0,J300", "J60,J366", "60,366", "M3.5.0,M10.5.0,", "M3.5.0;M10.5.0"]
    names = [
        "EST5EDT", "UTC", "UT0", "0", "+0", "A1B0", "CET-25", "CET-1:60", "CET-1:00:60", "CET--1", "CET-", "<CET-1",
        "<C+>0", "<>0",
    ]
    names += ["Europe/Rome", "ÜTC0", " UTC0", "UTC0 ", "UTC0\n", "UTC0x", "CET-1CEST M3.5.0 M10.5.0"]
    for zone in [*names, *(f"CET-1CEST,{it}" for it in rules)]:
        assert said_of(program, "day", ":memory:", "entries", "2024-02-01", zone) == (1, "bad zone\n"), zone
    for day, word in (
        ("2024-02-30", "bad date\n"),
        ("1969-12-31", "bad zone\n"),
        ("0000-01-01", "bad zone\n"),
        ("9999-12-31", "bad zone\n"),
    ):
        assert said_of(program, "day", ":memory:", "entries", day, "UTC") == (1, word), day


def test_the_first_days_of_zones(program):
    """A day that begins before moment 0 is out of range; 1969-12-31 is so too where it begins at moment 0."""
    for day, zone in (
        ("1970-01-01", "CET-1"), ("1970-01-01", "AAA-0:00:01"), ("1969-12-31", "AAA24"), ("1969-12-31", "AAA12")
    ):
        assert said_of(program, "day", ":memory:", "entries", day, zone) == (1, "day out of range\n"), (day, zone)
    good = [
        ("1970-01-01", "AAA24"), ("1970-01-01", "AAA0:00:01"), ("1970-01-02", "AAA-24"), ("9998-12-31", "AAA24"),
        ("9998-12-31", "AAA-24"),
    ]
    for day, zone in good:
        assert program.run("day", ":memory:", "entries", day, zone) == (0, ENTRIES.encode(), b""), (day, zone)


def holds_days(program, found, where):
    """Books a top-up just before and at each bound of these days, and holds each day's table to those that lie in it. A
    day is a rule, a date and the moments of its begin and end."""
    moments = sorted({at for _, _, begin, end in found for at in (begin - 1, begin, end - 1, end) if at >= 0})
    booked = (f"{at}\toffice\tz{number}\ttop-up\t17\t1\n" for number, at in enumerate(moments))
    given = "0\toffice\tz\tadd-rider\t17\n" + "".join(booked)
    removed(program.folder, "city.db")
    status, out, said = program.run("lines", "city.db", given=given.encode())
    assert (status, said, out.count(b"balance")) == (0, b"", len(moments)), (status, said, out[:200])
    for rule, day, begin, end in found:
        rows = table(program, "entries", day.isoformat(), rule).splitlines()[1:]
        wanted = [text_of(at) for at in moments if begin <= at < end]
        assert [row.rpartition(",")[2] for row in rows] == wanted, (
            f"{where}: {rule}, {day}, from {begin} to {end}: {rows}, not {wanted}"
        )


def days_of(rule, year, few):
    """Days of a year in a zone, with their bounds: those that aren't 24 hours long, some of their neighbours, and
    others up to the number."""
    zone, found = day_bounds.zone_of(rule), set()
    bounds = [day_bounds.begin_of(date(year, 1, 1) + timedelta(number), zone) for number in range(366)]
    for number in range(1, 364):
        if bounds[number + 1] - bounds[number] != 86400:
            found |= {number, number + 1}
    draw = random.Random(f"{SEED} {rule} {year}")
    while len(found) < few:
        found.add(draw.randrange(365))
    return [
        (rule, date(year, 1, 1) + timedelta(number), bounds[number], bounds[number + 1]) for number in sorted(found)
    ]


@quickly
def test_zones_of_every_form(program):
    """Names in angles, offsets to the second, days by their number in the year, changes at odd hours, and summer time
    behind winter time."""
    # Python counts days from 0 as if they were from 1: these bounds are by hand. Day 59 is the 29th of February, or the
    # 1st of March.
    found = [
        ("CET-1CEST,59,299", date(2024, 2, 29), 1709161200, 1709244000),
        ("CET-1CEST,59,299", date(2023, 3, 1), 1677625200, 1677708000),
    ]
    found += [
        ("CET-1CEST,J59,J299", date(2024, 2, 28), 1709074800, 1709157600),
        ("CET-1CEST,59,299", date(2023, 10, 27), 1698357600, 1698447600),
    ]
    for rule in (
        "<-03>3", "<+0330>-3:30", "AAA+3", "AAA-14", "AAA12", "<LMT>-0:53:28", "NST3:30NDT,M3.2.0,M11.1.0",
        "CET-1CEST,J60,J300", "CET-1CEST-2,J91/0,J299/24", "CET-1CEST,M3.5.0/2:30:15,M10.5.0/3:59:59",
        "IST-1GMT0,M10.5.0,M3.5.0/1", "AAA0BBB-0:20,M2.1.1/0,M12.1.1/0:20", "LHST-10:30LHDT-11,M10.1.0/0,M4.1.0/0",
        "AAAAAAAAAAAAAAA-2BBBBBBBBBBBBBBB,M3.5.4/24,M10.5.4/1",
    ):
        found += [*days_of(rule, 2024, 5), *days_of(rule, 2101, 4)]
    holds_days(program, found, "zones by hand")


def made_zone(pick):
    """A POSIX time zone whose two changes are months apart."""
    names = ["AAA", "CET", "Etcet", "<-03>", "<+0530>", "<A1b-2>"]
    hours = f"{pick.choice(['', '-', '+'])}{pick.randint(0, 12)}"
    standard = pick.choice(names) + hours + pick.choice(["", "", ":30", ":45:30"])
    if pick.random() < 0.3:
        return standard
    dates = [
        lambda low, high: f"M{pick.randint(low, high)}.{pick.randint(1, 5)}.{pick.randint(0, 6)}",
        lambda low, high: f"J{pick.randint(30 * low, 30 * high)}",
    ][pick.randrange(2)]
    both = [dates(2, 4), dates(8, 10)]
    if pick.random() < 0.4:
        both.reverse()
    times = [pick.choice(["", "/0", "/1", "/2:30", "/3", "/24", "/23:59:59"]) for _ in both]
    return standard + pick.choice(names[:4]) + "," + ",".join(it + time for it, time in zip(both, times))


@quickly
def test_made_zones(program):
    """Of made zones the bounds of days are those of Python's zoneinfo."""
    pick = random.Random(f"{SEED} zones")
    for _ in range(max(1, MADE // 120)):
        found = [day for _ in range(14) for day in days_of(made_zone(pick), pick.randint(1971, 2120), 5)]
        holds_days(program, found, f"seed {SEED}")


def spoiled(pick, text):
    """A text with a few characters changed, left out, doubled or put in. There is no U+0000, which no word can hold."""
    letters = list(text)
    for _ in range(pick.choice([1, 1, 2, 4])):
        at = pick.randrange(len(letters) + 1)
        kind = pick.randrange(4)
        if kind == 0:
            letters.insert(at, pick.choice("0123456789:,./<>+-MJZ aé\t\n\U0001f6b2٣"))
        elif letters and kind == 1:
            del letters[at % len(letters)]
        elif letters and kind == 2:
            letters[at % len(letters)] = pick.choice("0123456789:,./<>+-MJZ a")
        elif letters:
            letters[at:at] = letters[at : at + pick.choice([1, 3, 40])]
    return "".join(letters)


def fault_of_date(text):
    """The fault of a date in UTC, or none."""
    if re.fullmatch("[0-9]{4}-[0-9]{2}-[0-9]{2}", text) is None:
        return "bad date\n"
    year, month, day = map(int, text.split("-"))
    try:
        date(year or 400, month, day)
    except ValueError:
        return "bad date\n"
    return None if 1970 <= year <= 9998 else "day out of range\n"


def test_spoiled_dates_and_zones(program):
    """Each is answered by a header alone or by a named fault; of dates it is known by which."""
    pick = random.Random(f"{SEED} spoiled")
    for _ in range(MADE // 2):
        day, zone = (
            spoiled(pick, pick.choice(["2024-03-31", "1970-01-01", "9998-12-31", "2024-02-29"])),
            spoiled(pick, made_zone(pick)),
        )
        where = f"seed {SEED}: {day!r} in {zone!r}"
        if not day.startswith("-"):
            wanted = fault_of_date(day)
            ended = program.run("day", ":memory:", "entries", day, UTC)
            assert ended == ((1, b"", wanted.encode()) if wanted else (0, ENTRIES.encode(), b"")), (where, ended)
        if not zone.startswith("-"):
            ended = program.run("day", ":memory:", "rentals", "2024-03-31", zone)
            assert ended in ((0, RENTALS.encode(), b""), (1, b"", b"bad zone\n")), (where, ended)


@quickly
def test_rows_by_number(program):
    """A rental that began first and ended last stands first; one of no length lies in the day at whose begin it is."""
    more = [
        "add-bike\t8\tcity", "open-order\t3\t*\ta1\tcity\t1", "load\t3\t2\t8", "unload\t3\t2\t8\tto\t2",
        "add-rider\t18", "top-up\t18\t1000",
    ]
    ask(program, [*CITY, *more])
    begin, last = 1711839600, 1711922399
    for number, (at, command, answer) in enumerate((
        (begin, "start\t17\ta1\t1", "rental\t1\t7"), (begin, "start\t18\ta1\t2", "rental\t2\t8"),
        (begin, "end\t8\ta1\t2", "fare\t100\t900"),
        (last, "end\t7\ta1\t1", "fare\t6850\t-4350"),
    )):
        assert ask(program, [command], at, first=90 + number) == [answer], command
    first = "1,17,7,basic,a1,2024-03-30T23:00:00Z,a1,2024-03-31T21:59:59Z,68.50\n"
    second = "2,18,8,basic,a1,2024-03-30T23:00:00Z,a1,2024-03-30T23:00:00Z,1.00\n"
    assert table(program, "rentals", "2024-03-31", ROME) == RENTALS + first + second
    assert table(program, "rentals", "2024-03-30", ROME) == RENTALS
    assert table(program, "rentals", "2024-03-30", UTC) == RENTALS + second
    fares = "3,fare,18,2,1.00,2024-03-30T23:00:00Z\n", "4,fare,17,1,68.50,2024-03-31T21:59:59Z\n"
    assert table(program, "entries", "2024-03-31", ROME) == ENTRIES + "".join(fares)
    assert table(program, "entries", "2024-04-01", ROME) == ENTRIES


@quickly
def test_a_table_changes_nothing(program):
    """Neither a day's table nor a day that is refused changes a byte of the file."""
    ask(program, CITY)
    file = Path(program.folder, "city.db")
    before = file.read_bytes(), held(file)
    for which in "entries", "rentals":
        table(program, which, "2023-11-14", UTC)
        said_of(program, "day", "city.db", which, "2023-02-29", UTC)
    assert (file.read_bytes(), held(file)) == before
