"""Additions up to their limits, and one past each; a station whose 500 docks are all in use, and 5,000 stations that
are named in four languages. Lists that reach the other limits are too long for a test."""

import contextlib
import sqlite3
from pathlib import Path

from shared import copied, data_of, is_sound, rows_of

HEAD = "1700000000\toffice\t"
SYSTEM = "set-system\tmetro\ten\tMetro\t24/7\tfeeds@example.org\tEtc/UTC\tEUR\thttp://127.0.0.1:8080\t30"
PLAN = "add-plan\tbasic\tBasic\t100\tfalse\tBy time\t-"
LIMIT_REACHED = "refused\t32\tlimit_reached"
ALREADY_THERE = "refused\t10\talready_there"


def asks(program, rows):
    """Sends commands, each under a key of its own, and holds the answers to those beside them."""
    given = "".join(f"{HEAD}k{at}\t{command}\n" for at, (command, _) in enumerate(rows))
    program.answers(given.encode(), "".join(f"{answer}\n" for _, answer in rows).encode())


def reaches(program, before, most, command, last):
    """Adds as many as there may be, and holds the answers to what comes then."""
    added = [(command(number), "ok") for number in range(1, most + 1)]
    asks(
        program,
        [
            *((it, "ok") for it in before), *added, (command(most + 1), LIMIT_REACHED), (command(1), ALREADY_THERE),
            *last,
        ],
    )


def test_256_plans(program):
    reaches(program, [], 256, lambda number: f"add-plan\tp{number}\tName\t0\tfalse\tNone\t-", [])


def test_256_regions(program):
    """A station may stand in the last region, and in none that was refused."""
    last = [
        ("add-station\ta1\tHarbour\t0\t0\t1", "ok"),
        ("set-region\ta1\tr256", "ok"),
        ("set-region\ta1\tr257", "refused\t37\tunknown_region"),
    ]
    reaches(program, [], 256, lambda number: f"add-region\tr{number}\tName", [*last, ("set-region\ta1\t*", "ok")])


def test_32_types(program):
    def add(number, plan="basic"):
        return f"add-type\tt{number}\tName\tbicycle\thuman\t0\t{plan}"

    reaches(program, [PLAN], 32, add, [(add(33, "gold"), "refused\t7\tunknown_plan"), ("add-bike\t7\tt32", "ok")])


def test_5000_stations(program):
    reaches(
        program,
        [],
        5000,
        lambda number: f"add-station\ts{number}\tName\t45.5\t9.1\t500",
        [("mark-dock\ts5000\t500\tbroken", "ok")],
    )


def test_1000_trucks(program):
    reaches(program, [], 1000, lambda number: f"add-truck\t{number}\t60", [])


def test_60_bicycles_on_a_truck(program):
    bikes = range(1, 62)
    rows = [(PLAN, "ok"), ("add-type\tcity\tCity\tbicycle\thuman\t0\tbasic", "ok")]
    rows += [("add-station\ta1\tHarbour\t0\t0\t500", "ok"), ("add-truck\t3\t60", "ok")]
    rows += [(f"add-bike\t{bike}\tcity", "ok") for bike in bikes]
    rows += [("open-order\t3\t*\ta1\tcity\t60", "order\t1"), ("open-order\t3\t*\ta1\tcity\t1", "order\t2")]
    rows += [(f"load\t3\t1\t{bike}", "ok") for bike in bikes[:60]]
    rows += [("load\t3\t1\t61", "refused\t28\torder_filled"), ("load\t3\t2\t61", "refused\t34\ttruck_full")]
    rows += [(f"unload\t3\t1\t{bike}\tto\t{bike}", "ok") for bike in bikes[:60]]
    rows += [
        ("close-order\t1", "ok"),
        ("load\t3\t2\t61", "ok"),
        ("unload\t3\t2\t61\tto\t500", "ok"),
        ("close-order\t2", "ok"),
    ]
    asks(program, rows)


def test_three_further_names(program):
    """Of each kind and identifier, whatever else has that identifier; the fourth is refused, and so is one in a
    language that is there."""
    rows = [(SYSTEM, "ok"), (PLAN.replace("basic", "x"), "ok"), ("add-type\tx\tCity\tbicycle\thuman\t0\tx", "ok")]
    rows += [("add-station\tx\tHarbour\t0\t0\t1", "ok"), ("add-region\tx\tNorth", "ok")]
    for kind in "system", "station", "type", "plan", "description", "region":
        names = [
            (f"add-name\t{kind}\t{'metro' if kind == 'system' else 'x'}\t{language}\tName")
            for language in ("fr", "de", "it", "es", "de", "en", "EN")
        ]
        rows += zip(names, ["ok", "ok", "ok", LIMIT_REACHED, ALREADY_THERE, ALREADY_THERE, LIMIT_REACHED])
    asks(program, rows)


def test_a_name_that_goes_makes_room(program):
    """Of each kind and identifier: one that goes makes room for one, and one that changes needs none."""
    rows = [(SYSTEM, "ok"), (PLAN.replace("basic", "x"), "ok"), ("add-type\tx\tCity\tbicycle\thuman\t0\tx", "ok")]
    rows += [("add-station\tx\tHarbour\t0\t0\t1", "ok"), ("add-region\tx\tNorth", "ok")]
    unknown = "refused\t39\tunknown_name"
    for kind in "system", "station", "type", "plan", "description", "region":
        for word, language, answer in (
            ("add", "fr", "ok"), ("add", "de", "ok"), ("add", "it", "ok"), ("add", "es", LIMIT_REACHED),
            ("set", "de", "ok"), ("set", "es", unknown), ("set", "en", "ok"), ("add", "es", LIMIT_REACHED),
            ("remove", "en", unknown), ("remove", "es", unknown), ("remove", "de", "ok"), ("add", "es", "ok"),
            ("add", "de", LIMIT_REACHED), ("remove", "fr", "ok"), ("remove", "it", "ok"), ("remove", "es", "ok"),
            ("add", "de", "ok"), ("add", "fr", "ok"), ("add", "it", "ok"), ("add", "es", LIMIT_REACHED),
        ):
            fields = [f"{word}-name", kind, "metro" if kind == "system" else "x", language]
            rows.append(("\t".join(fields if word == "remove" else [*fields, "Name"]), answer))
    asks(program, rows)


def served(program, rows):
    """As `asks`, over a file that is sound then."""
    given = "".join(f"{HEAD}{key}\t{command}\n" for key, command, _ in rows)
    status, out, said = program.run("lines", "city.db", given=given.encode())
    wrong = [(row, found) for row, found in zip(rows, out.decode().splitlines()) if row[2] != found]
    assert (status, said) == (0, b"") and out.count(b"\n") == len(rows) and not wrong, (status, said, wrong[:3])
    is_sound(program)


def counted(program):
    """Of each station: bicycles available and disabled, docks available and disabled, as the feed tells them and as the
    tables store them."""
    names = ["num_vehicles_available", "num_vehicles_disabled", "num_docks_available", "num_docks_disabled"]
    stations = data_of(program, "station_status")["stations"]
    told = {station["station_id"]: tuple(station[name] for name in names) for station in stations}
    with copied(program.folder, "city.db") as base:
        rows = base.execute("SELECT station_id, by_type, free, broken FROM stations_4").fetchall()
    stored = {}
    for station, text, *docks in rows:
        # There is one type, city.
        numbers = [0, 0] if text == "-" else [int(it) for it in text.removeprefix("city:").split(":")]
        stored[station] = (*numbers, *docks)
    assert told == stored, (told, stored)
    return told


def full_station(program):
    """Has a city made whose station a1 has a bicycle in each of 500 docks, and b2 none in as many."""
    rows = [
        (SYSTEM, "ok"),
        (PLAN.replace("100", "0"), "ok"),
        ("add-type\tcity\tCity\tbicycle\thuman\t0\tbasic", "ok"),
        ("add-truck\t3\t60", "ok"),
    ]
    rows += [
        ("add-station\ta1\tHarbour\t0\t0\t501", "refused\t11\tbad_field"), ("add-station\ta1\tHarbour\t0\t0\t500", "ok")
    ]
    rows += [("add-station\tb2\tBridge\t0\t0\t500", "ok"), ("add-rider\t17", "ok")]
    rows += [(f"add-bike\t{dock}\tcity", "ok") for dock in range(1, 501)]
    for order, first in enumerate(range(1, 501, 60), 1):
        part = range(first, min(first + 60, 501))
        rows += [
            (f"open-order\t3\t*\ta1\tcity\t{len(part)}", f"order\t{order}"),
            *((f"load\t3\t{order}\t{dock}", "ok") for dock in part),
        ]
        rows += [*((f"unload\t3\t{order}\t{dock}\tto\t{dock}", "ok") for dock in part), (f"close-order\t{order}", "ok")]
    served(program, [(f"k{at}", *row) for at, row in enumerate(rows)])


def test_a_station_of_500_docks_in_use(program):
    """A bicycle comes into each dock, every other dock breaks, each bicycle that may be ridden goes to the station
    across, into the dock that has its number from the other end, and the docks are repaired; then a bicycle is carried
    out of the last dock and back."""
    docks, odd = range(1, 501), range(1, 501, 2)
    full_station(program)
    assert counted(program) == {"a1": (500, 0, 0, 0), "b2": (0, 0, 500, 0)}
    served(program, [(f"m{dock}", f"mark-dock\ta1\t{dock}\tbroken", "ok") for dock in docks if dock not in odd])
    assert counted(program) == {"a1": (250, 250, 0, 250), "b2": (0, 0, 500, 0)}
    rows = []
    for rental, dock in enumerate(odd, 1):
        rows += [
            (f"s{dock}", f"start\t17\ta1\t{dock}", f"rental\t{rental}\t{dock}"),
            (f"e{dock}", f"end\t{dock}\tb2\t{501 - dock}", "fare\t0\t0"),
        ]
    served(
        program,
        [
            *rows,
            ("s500", "start\t17\ta1\t500", "refused\t14\tdock_broken"),
            ("s499", "start\t17\ta1\t499", "rental\t250\t499"),
        ],
    )
    assert counted(program) == {"a1": (0, 250, 250, 250), "b2": (250, 0, 250, 0)}
    served(program, [(f"w{dock}", f"mark-dock\ta1\t{dock}\tworking", "ok") for dock in docks])
    assert counted(program) == {"a1": (250, 0, 250, 0), "b2": (250, 0, 250, 0)}
    served(program, [
        ("o1", "open-order\t3\tb2\ta1\tcity\t1", "order\t10"), ("o2", "load\t3\t10\t1", "ok"),
        ("o3", "unload\t3\t10\t1\tto\t500", "refused\t13\tdock_full"),
        ("o3", "unload\t3\t10\t1\tto\t499", "ok"), ("o4", "close-order\t10", "ok"),
        ("o5", "mark-dock\tb2\t500\tbroken", "ok"),
    ])
    assert counted(program) == {"a1": (251, 0, 249, 0), "b2": (249, 0, 250, 1)}
    found = dict(rows_of("SELECT bike, dock FROM bikes WHERE station_id = 'a1'", program.folder, "city.db"))
    assert found == {1: 499, **{dock: dock for dock in docks if dock not in odd}}, found


def test_a_station_with_bicycles_of_32_types(program):
    """Types of the longest names, which come from the last to the first, two bicycles of each: the text of the station
    has them in their order, and the feed tells each."""
    types = [f"{'x' * 33}{number:03}" for number in range(32, 0, -1)]
    rows = [(SYSTEM, "ok"), (PLAN, "ok"), *((f"add-type\t{it}\tT\tbicycle\thuman\t0\tbasic", "ok") for it in types)]
    rows += [("add-truck\t3\t60", "ok"), ("add-station\ta1\tHarbour\t0\t0\t500", "ok")]
    for bike, kind in enumerate([*types, *types], 1):
        rows += [(f"add-bike\t{bike}\t{kind}", "ok"), (f"open-order\t3\t*\ta1\t{kind}\t1", f"order\t{bike}")]
        rows += [(f"load\t3\t{bike}\t{bike}", "ok"), (f"unload\t3\t{bike}\t{bike}\tto\t{501 - bike}", "ok")]
    served(program, [(f"k{at}", *row) for at, row in enumerate(rows)])
    for part, count, disabled in ([], 2, 0), (range(1, 33), 1, 1), (range(33, 65), 0, 2):
        served(program, [(f"m{bike}", f"mark-bike\t{bike}\tdisabled", "ok") for bike in part])
        wanted = ";".join(f"{it}:{count}:{disabled}" for it in sorted(types))
        assert rows_of("SELECT by_type FROM stations_4", program.folder, "city.db") == [(wanted,)]
        (station,) = data_of(program, "station_status")["stations"]
        told = [{"vehicle_type_id": it, "count": count} for it in sorted(types)]
        assert (station["vehicle_types_available"], station["num_vehicles_disabled"]) == (told, 32 * disabled)


def test_5000_stations_in_four_languages(program):
    """As many names as stations may have, put into the file from outside: it is sound, and the feed tells each in its
    place."""
    served(program, [("k1", SYSTEM, "ok")])
    stations, languages = [f"s{number}" for number in range(1, 5001)], ["de", "fr", "it"]
    with contextlib.closing(sqlite3.connect(Path(program.folder, "city.db"))) as base, base:
        place = "INSERT INTO stations_4 VALUES (?, ?, 0, 0, 500, 1, 1, 1, 0, 500, 0, NULL, '-')"
        base.executemany(place, [(station, f"Station {station}") for station in stations])
        names = [
            ("station", station, language, f"{station} in {language}") for station in stations for language in languages
        ]
        base.executemany("INSERT INTO more_names VALUES (?, ?, ?, ?)", names)
    is_sound(program)
    places = data_of(program, "station_information")["stations"]
    found = {it["station_id"]: [(part["language"], part["text"]) for part in it["name"]] for it in places}
    assert list(found) == sorted(stations), list(found)[:3]
    for station, told in found.items():
        assert told == [
            ("en", f"Station {station}"), *((language, f"{station} in {language}") for language in languages)
        ], (station, told)
    assert data_of(program, "system_information")["languages"] == ["en", *languages]
    fourth = (
        b"1700000000\toffice\tk2\tadd-name\tstation\ts5000\tes\tS\n"
        b"1700000000\toffice\tk2\tadd-name\tstation\ts5001\tes\tS\n"
    )
    assert program.run("lines", "city.db", given=fourth) == (
        0, b"refused\t32\tlimit_reached\nrefused\t1\tunknown_station\n", b""
    )
