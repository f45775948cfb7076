"""Files that are opened again: what `check` finds of a small city whose rows were changed from outside, one change at a
time.

The wanted words follow from the rules in docs/FORMATS.md, sections 10 and 11, by hand: the first row that is bad, by
the order of the tables and of their keys, where a row out of its bounds counts as absent for the others.
"""

import sqlite3
from pathlib import Path

from shared import (
    BY_KEY, COUNTS, FOREIGN, HERE, HISTORY, KEYED, READY, SOUND, STATIONS_3, STORE_FAILED, changed, held, laid_out,
    removed, rows_of, to_schema_3, told_with,
)

NOW = 1700003000

# What was asked of the city, a minute apart or so; each under a key of its own, by the office.
ASKED = [
    (1699999200, "set-system metro en Metro_Bikes 24/7 feeds@example.org Etc/UTC EUR http://127.0.0.1:8080 30", "ok"),
    (1699999200, "add-plan basic Basic 100 false One_euro_and_then_a_quarter 30:25:5:-", "ok"),
    (1699999200, "add-type city City bicycle human 0 basic", "ok"),
    (1699999200, "add-station a1 Harbour 41.890169 12.492269 2", "ok"),
    (1699999200, "add-bike 7 city", "ok"),
    (1699999200, "add-truck 3 20", "ok"),
    (1699999200, "open-order 3 * a1 city 1", "order 1"),
    (1699999200, "load 3 1 7", "ok"),
    (1699999200, "unload 3 1 7 to 1", "ok"),
    (1699999200, "close-order 1", "ok"),
    (1699999200, "mark-dock a1 2 broken", "ok"),
    (1699999200, "add-rider 17", "ok"),
    (1699999200, "top-up 17 2500", "balance 2500"),
    (1700000000, "start 17 a1 1", "rental 1 7"),
    (1700001800, "end 7 a1 1", "fare 125 2375"),
    (1700001900, "refund 1 25", "balance 2400"),
    (1700001900, "add-rider 18", "ok"),
    (1700001900, "top-up 18 1000", "balance 1000"),
    (1700002000, "start 17 a1 1", "rental 2 7"),
    (1700002000, "add-station b2 Bridge 45.000000 9.100000 3", "ok"),
    (1700002000, "add-bike 8 city", "ok"),
    (1700002000, "open-order 3 * b2 city 1", "order 2"),
    (1700002000, "load 3 2 8", "ok"),
    (1700002000, "unload 3 2 8 to 1", "ok"),
    (1700002000, "close-order 2", "ok"),
    (1700002000, "add-bike 9 city", "ok"),
    (1700002000, "open-order 3 * a1 city 2", "order 3"),
    (1700002000, "load 3 3 9", "ok"),
    (1700002000, "add-region north North", "ok"),
    (1700002000, "add-region south South", "ok"),
    (1700002000, "set-region b2 north", "ok"),
    (1700002000, "add-name station b2 de Brücke", "ok"),
    (1700002000, "add-name station b2 fr Pont", "ok"),
    (1700002000, "add-name description basic de Ein_Euro", "ok"),
    (1700002000, "add-name system metro DE Metro", "ok"),
    (1700002000, "add-name region south de Süden", "ok"),
    (NOW, "add-bike 10 city", "ok"),
]

# The numbers from 1 on, so many of them.
COUNTED = "WITH RECURSIVE counted (n) AS (SELECT 1 UNION ALL SELECT n + 1 FROM counted WHERE n < {})"

# A bicycle of another type, in a dock of b2.
OF_TWO_TYPES = (
    "INSERT INTO types SELECT 'cargo', name, form, propulsion, range_m, plan_id FROM types; "
    "UPDATE bikes SET type_id = 'cargo', station_id = 'b2', dock = 2 WHERE bike = 10;"
)

# In the end bicycle 7 is in rental 2, 8 in dock 1 of b2, 9 on truck 3 for order 3, 10 in the depot. Rental 1 is closed
# at 125, of which 25 were refunded; entries 1 to 4 are a top-up of 17, that fare, that refund and a top-up of 18.
# Station b2 stands in region north, a1 in none, and no station in region south. The system, b2, the description of plan
# basic and region south have names in further languages, b2 in two.
CHANGES = [
    ("UPDATE meta SET cash = cash + 1", "unsound meta 1"),
    ("UPDATE meta SET revenue = revenue - 1", "unsound meta 1"),
    ("UPDATE meta SET now = -1", "unsound meta 1"),
    ("UPDATE meta SET now = 1600000000", None),
    ("UPDATE meta SET now = now - 1", "unsound meta 1"),
    ("UPDATE meta SET now = now + 1", None),
    ("UPDATE meta SET app = 'other'", "foreign"),
    ("UPDATE meta SET app = 'other', version = 1", "foreign"),
    ("UPDATE meta SET version = 0", "foreign"),
    ("UPDATE meta SET version = -1", "foreign"),
    ("UPDATE meta SET version = 1", "older 1"),
    ("UPDATE meta SET version = 2", "older 2"),
    ("UPDATE meta SET version = 2; DROP TABLE more_names; DROP TABLE stations_4", "older 2"),
    ("UPDATE meta SET version = 2, cash = cash + 1", "older 2"),
    ("UPDATE meta SET version = 1, cash = cash + 1", "older 1"),
    ("UPDATE meta SET version = 1; DROP TABLE docks", "older 1"),
    ("UPDATE meta SET version = 1; DROP TABLE regions; DELETE FROM riders_4", "older 1"),
    ("UPDATE meta SET version = 3", "older 3"),
    ("UPDATE meta SET version = 3; DROP TABLE history", "older 3"),
    ("UPDATE meta SET version = 5", "newer 5"),
    ("UPDATE meta SET version = 5; DROP TABLE docks", "newer 5"),
    ("UPDATE meta SET version = 9", "newer 9"),
    ("DELETE FROM meta", "unsound meta 1"),
    ("DELETE FROM meta; DROP TABLE regions", "foreign"),
    ("DELETE FROM meta; DROP TABLE more_names", "foreign"),
    ("INSERT INTO meta VALUES (2, 'bikeshare', 4, 0, 0, 0)", "unsound meta 2"),
    ("UPDATE system SET ttl = 86401", "unsound system 1"),
    ("UPDATE system SET currency = 'eur'", "unsound system 1"),
    ("UPDATE system SET system_id = ''", 'unsound system 1'),
    ("UPDATE system SET language = ''", 'unsound system 1'),
    ("UPDATE system SET name = ''", 'unsound system 1'),
    ("UPDATE system SET hours = ''", 'unsound system 1'),
    ("UPDATE system SET contact = ''", 'unsound system 1'),
    ("UPDATE system SET zone = ''", 'unsound system 1'),
    ("UPDATE system SET base_url = ''", 'unsound system 1'),
    ("UPDATE system SET one = 2", "unsound system 2"),
    ("DELETE FROM system", "unsound more_names description/basic/de"),
    (
        "DELETE FROM system; DELETE FROM more_names WHERE kind IN ('description', 'system')",
        "unsound more_names region/south/de",
    ),
    ("DELETE FROM system; DELETE FROM more_names", None),
    ("UPDATE plans SET price = -1", "unsound plans basic"),
    ("UPDATE plans SET price = 1000001", "unsound plans basic"),
    ("UPDATE plans SET taxable = 2", "unsound plans basic"),
    ("UPDATE plans SET name = ''", "unsound plans basic"),
    ("UPDATE plans SET description = ''", 'unsound plans basic'),
    ("UPDATE plans SET plan_id = 'Basic'", "unsound plans Basic"),
    ("UPDATE plans SET plan_id = 'gold'", "unsound segments basic/1"),
    (
        "UPDATE plans SET plan_id = 'gold'; UPDATE segments SET plan_id = 'gold'; UPDATE types SET plan_id = 'gold'",
        "unsound rentals 1",
    ),
    (
        "UPDATE plans SET plan_id = 'gold'; UPDATE segments SET plan_id = 'gold'; UPDATE types SET plan_id = 'gold'; "
        "UPDATE rentals SET plan_id = 'gold'",
        "unsound more_names description/basic/de",
    ),
    ("DELETE FROM plans", "unsound segments basic/1"),
    ("UPDATE segments SET seq = 2", "unsound segments basic/2"),
    ("UPDATE segments SET seq = 0", "unsound segments basic/0"),
    ("UPDATE segments SET rate = 100001", "unsound segments basic/1"),
    ("UPDATE segments SET start = -1", "unsound segments basic/1"),
    ("UPDATE segments SET every = 100001", "unsound segments basic/1"),
    ("UPDATE segments SET finish = 30", "unsound segments basic/1"),
    ("INSERT INTO segments VALUES ('basic', 3, 60, 1, 1, NULL)", "unsound segments basic/3"),
    ("INSERT INTO segments VALUES ('basic', 2, 60, 1, 1, NULL)", None),
    ("INSERT INTO segments VALUES ('aa', 1, 60, 1, 1, NULL)", "unsound segments aa/1"),
    ("DELETE FROM segments", None),
    ("UPDATE types SET plan_id = 'gold'", "unsound types city"),
    ("UPDATE types SET form = 'boat'", "unsound types city"),
    ("UPDATE types SET name = ''", 'unsound types city'),
    ("UPDATE types SET propulsion = 'steam'", 'unsound types city'),
    ("UPDATE types SET range_m = -1", "unsound types city"),
    ("UPDATE types SET range_m = 5", "unsound types city"),
    ("UPDATE types SET type_id = 'x'", 'unsound bikes 7'),
    ("DELETE FROM types", "unsound bikes 7"),
    ("UPDATE regions SET name = 'N' || char(10) || 'orth'", None),
    ("UPDATE regions SET name = ''", "unsound regions north"),
    ("UPDATE regions SET name = '' WHERE region_id = 'south'", "unsound regions south"),
    (f"UPDATE regions SET name = '{'n' * 120}'", None),
    (f"UPDATE regions SET name = '{'n' * 121}' WHERE region_id = 'south'", "unsound regions south"),
    ("UPDATE regions SET region_id = 'North' WHERE region_id = 'north'", "unsound regions North"),
    ("UPDATE regions SET region_id = '' WHERE region_id = 'south'", "unsound regions "),
    ("UPDATE regions SET region_id = 'x' WHERE region_id = 'north'", "unsound stations_4 b2"),
    ("UPDATE regions SET region_id = 'x' WHERE region_id = 'south'", "unsound more_names region/south/de"),
    (
        "UPDATE regions SET region_id = 'x' WHERE region_id = 'south'; "
        "UPDATE more_names SET id = 'x' WHERE id = 'south'",
        None,
    ),
    ("DELETE FROM regions", "unsound stations_4 b2"),
    ("DELETE FROM regions WHERE region_id = 'north'", "unsound stations_4 b2"),
    ("DELETE FROM regions WHERE region_id = 'south'", "unsound more_names region/south/de"),
    ("DELETE FROM regions WHERE region_id = 'south'; DELETE FROM more_names WHERE id = 'south'", None),
    ("INSERT INTO regions VALUES ('a1', 'Harbour')", None),
    ("INSERT INTO regions VALUES ('*', 'None')", "unsound regions *"),
    ("INSERT INTO regions VALUES ('east', '')", "unsound regions east"),
    (f"{COUNTED.format(254)} INSERT INTO regions SELECT 'r' || n, 'R' FROM counted", None),
    (f"{COUNTED.format(255)} INSERT INTO regions SELECT 'r' || n, 'R' FROM counted", "unsound regions south"),
    (f"{COUNTED.format(255)} INSERT INTO regions SELECT 'z' || n, 'R' FROM counted", "unsound regions z99"),
    (
        f"{COUNTED.format(255)} INSERT INTO regions SELECT 'r' || n, 'R' FROM counted; "
        "UPDATE regions SET name = '' WHERE region_id = 'r7'",
        "unsound regions r7",
    ),
    ("UPDATE stations_4 SET region_id = 'north'", None),
    ("UPDATE stations_4 SET region_id = 'south' WHERE station_id = 'b2'", None),
    ("UPDATE stations_4 SET region_id = NULL", None),
    ("UPDATE stations_4 SET region_id = 'east' WHERE station_id = 'a1'", "unsound stations_4 a1"),
    ("UPDATE stations_4 SET region_id = 'b2' WHERE station_id = 'b2'", "unsound stations_4 b2"),
    ("UPDATE stations_4 SET region_id = 'North' WHERE station_id = 'b2'", "unsound stations_4 b2"),
    ("UPDATE stations_4 SET region_id = '*' WHERE station_id = 'b2'", "unsound stations_4 b2"),
    ("UPDATE stations_4 SET region_id = '' WHERE station_id = 'b2'", "unsound stations_4 b2"),
    (
        "INSERT INTO regions VALUES ('*', 'None'); UPDATE stations_4 SET region_id = '*' WHERE station_id = 'a1'",
        "unsound regions *",
    ),
    (
        "UPDATE regions SET name = '' WHERE region_id = 'south'; "
        "UPDATE stations_4 SET region_id = 'east' WHERE station_id = 'a1'",
        "unsound regions south",
    ),
    ("UPDATE stations_4 SET free = free + 1 WHERE station_id = 'a1'", "unsound stations_4 a1"),
    ("UPDATE stations_4 SET free = free + 1", "unsound stations_4 a1"),
    ("UPDATE stations_4 SET broken = broken + 1 WHERE station_id = 'b2'", "unsound stations_4 b2"),
    ("UPDATE stations_4 SET lat = 90000001 WHERE station_id = 'b2'", "unsound stations_4 b2"),
    ("UPDATE stations_4 SET docks = 0 WHERE station_id = 'b2'", "unsound stations_4 b2"),
    ("UPDATE stations_4 SET docks = 201, free = free + 198 WHERE station_id = 'b2'", None),
    ("UPDATE stations_4 SET docks = 500, free = free + 497 WHERE station_id = 'b2'", None),
    ("UPDATE stations_4 SET docks = 500, free = free + 498 WHERE station_id = 'b2'", "unsound stations_4 b2"),
    ("UPDATE stations_4 SET docks = 501, free = free + 498 WHERE station_id = 'b2'", "unsound stations_4 b2"),
    (
        "UPDATE stations_4 SET docks = 500, free = free + 496, broken = 1 WHERE station_id = 'b2'; "
        "INSERT INTO docks VALUES ('b2', 500, 1)",
        None,
    ),
    (
        "UPDATE stations_4 SET docks = 500, free = free + 496, by_type = 'city:2:0' WHERE station_id = 'b2'; "
        "UPDATE bikes SET station_id = 'b2', dock = 500 WHERE bike = 10",
        None,
    ),
    ("UPDATE stations_4 SET reported = 1800000000 WHERE station_id = 'b2'", "unsound stations_4 b2"),
    ("UPDATE stations_4 SET renting = 2 WHERE station_id = 'b2'", "unsound stations_4 b2"),
    ("UPDATE stations_4 SET name = '' WHERE station_id = 'b2'", 'unsound stations_4 b2'),
    ("UPDATE stations_4 SET lon = -180000001 WHERE station_id = 'b2'", 'unsound stations_4 b2'),
    ("UPDATE stations_4 SET lon = 180000000 WHERE station_id = 'b2'", None),
    ("UPDATE stations_4 SET lon = 180000001 WHERE station_id = 'b2'", "unsound stations_4 b2"),
    ("UPDATE stations_4 SET lon = -2147483648 WHERE station_id = 'b2'", "unsound stations_4 b2"),
    ("UPDATE stations_4 SET installed = 2 WHERE station_id = 'b2'", 'unsound stations_4 b2'),
    ("UPDATE stations_4 SET \"returning\" = -1 WHERE station_id = 'b2'", 'unsound stations_4 b2'),
    ("UPDATE stations_4 SET station_id = 'zz' WHERE station_id = 'b2'", 'unsound stations_4 zz'),
    ("DELETE FROM stations_4 WHERE station_id = 'b2'", "unsound bikes 8"),
    *(
        (f"UPDATE stations_4 SET by_type = {text!r} WHERE station_id = 'b2'", "unsound stations_4 b2")
        for text in (
            "city:2:0", "city:0:1", "city:1:1", "city:0:0", "cargo:1:0", "City:1:0", "-", "", "?", " ", "city",
            "city:1", "city:1:", "city::0", ":1:0", "1:0", "city:1:0:0", "city:01:0", "city:1:00", "city:+1:0",
            "city: 1:0", " city:1:0", "city:1:0 ", "city:1:0;", ";city:1:0", "city:1:0;-", "-;city:1:0", "city;1;0",
            "city,1,0", "city:1;0", "city 1 0", "city:4294967297:0", "city:1.0:0", "city:1:0;city:1:0",
            "cargo:0:0;city:1:0", "city:1:0;zz:0:0", "cargo:0:1;city:1:0", "city:1:0;zz:1:0", "ä:1:0", "city:1:0\n",
        )
    ),
    *(
        (f"UPDATE stations_4 SET by_type = {text!r} WHERE station_id = 'a1'", "unsound stations_4 a1")
        for text in ("", "--", "?", " ", "0", "NULL", ";", "::", "-:0:0", "-;", "city:0:0", "city:1:0", "city:0:1")
    ),
    ("UPDATE stations_4 SET by_type = 1 WHERE station_id = 'b2'", "unsound stations_4 b2"),
    ("UPDATE stations_4 SET by_type = by_type || char(0) WHERE station_id = 'b2'", "unsound stations_4 b2"),
    ("UPDATE stations_4 SET by_type = CAST(x'ff' AS TEXT) WHERE station_id = 'b2'", "unsound stations_4 b2"),
    ("UPDATE stations_4 SET by_type = upper(by_type)", "unsound stations_4 b2"),
    ("UPDATE stations_4 SET by_type = '?'", "unsound stations_4 a1"),
    *(
        (f"{OF_TWO_TYPES} UPDATE stations_4 SET free = 1, by_type = '{text}' WHERE station_id = 'b2'", wanted)
        for text, wanted in (
            ("cargo:1:0;city:1:0", None),
            *(
                (it, "unsound stations_4 b2")
                for it in (
                    "city:1:0;cargo:1:0", "cargo:1:0,city:1:0", "cargo:1:0;;city:1:0", "cargo:1:0; city:1:0",
                    "cargo:1:0:city:1:0", "cargo:1:0|city:1:0", "cargo:1:0\tcity:1:0", "cargo:1:0", "city:1:0",
                    "city:2:0", "cargo:2:0", "cargo:0:1;city:1:0", "cargo:1:0;city:0:1", "-", "cargo:1:0;city:1:0;",
                    "cargo:1:0;city:1:0;zz:0:0", "cargo:1:0;cargo:1:0;city:1:0", "city:1:0;cargo:1:0;city:1:0",
                )
            ),
        )
    ),
    ("UPDATE bikes SET state = 1 WHERE bike = 8", "unsound stations_4 b2"),
    ("UPDATE bikes SET state = 1 WHERE bike = 8; UPDATE stations_4 SET by_type = 'city:0:1' WHERE free = 2", None),
    ("INSERT INTO docks VALUES ('b2', 1, 1); UPDATE stations_4 SET broken = 1", "unsound stations_4 b2"),
    (
        "INSERT INTO docks VALUES ('b2', 1, 1); UPDATE stations_4 SET broken = 1, by_type = 'city:0:1' WHERE free = 2",
        None,
    ),
    ("UPDATE bikes SET type_id = 'cargo' WHERE bike = 8", "unsound stations_4 b2"),
    (
        "UPDATE bikes SET type_id = 'cargo' WHERE bike = 8; UPDATE stations_4 SET by_type = 'cargo:1:0' WHERE free = 2",
        "unsound bikes 8",
    ),
    ("DELETE FROM bikes WHERE bike = 8", "unsound stations_4 b2"),
    ("DELETE FROM bikes WHERE bike = 8; UPDATE stations_4 SET free = 3, by_type = '-' WHERE free = 2", None),
    ("INSERT INTO docks VALUES ('a1', 3, 0)", "unsound docks a1/3"),
    ("INSERT INTO docks VALUES ('zz', 1, 0)", "unsound docks zz/1"),
    ("INSERT INTO docks VALUES ('b2', 3, 0)", None),
    ("INSERT INTO docks VALUES ('b2', 3, 1)", "unsound stations_4 b2"),
    ("UPDATE docks SET broken = 2 WHERE station_id = 'a1'", "unsound stations_4 a1"),
    ("UPDATE docks SET dock = 201 WHERE station_id = 'a1'", 'unsound stations_4 a1'),
    ("UPDATE docks SET dock = 501 WHERE station_id = 'a1'", 'unsound stations_4 a1'),
    ("INSERT INTO docks VALUES ('b2', 500, 0)", "unsound docks b2/500"),
    ("INSERT INTO docks VALUES ('b2', 501, 0)", "unsound docks b2/501"),
    ("UPDATE docks SET station_id = 'b2' WHERE station_id = 'a1'", 'unsound stations_4 a1'),
    ("DELETE FROM docks WHERE station_id = 'a1'", "unsound stations_4 a1"),
    ("UPDATE bikes SET truck = 3, ord = 3 WHERE bike = 8", "unsound bikes 8"),
    ("UPDATE bikes SET truck = 3 WHERE bike = 8", "unsound bikes 8"),
    ("UPDATE bikes SET ord = 100000000 WHERE bike = 8", "unsound bikes 8"),
    ("UPDATE bikes SET rental = 100000000, truck = 999999, ord = 1 WHERE bike = 8", "unsound bikes 8"),
    ("UPDATE bikes SET ord = 0 WHERE bike = 8", "unsound stations_4 b2"),
    ("UPDATE bikes SET ord = 100000001 WHERE bike = 8", "unsound stations_4 b2"),
    ("UPDATE bikes SET truck = -1 WHERE bike = 8", "unsound stations_4 b2"),
    ("UPDATE bikes SET truck = 0 WHERE bike = 8", "unsound stations_4 b2"),
    ("UPDATE bikes SET truck = 1000000 WHERE bike = 8", "unsound stations_4 b2"),
    ("UPDATE bikes SET rental = 0 WHERE bike = 8", "unsound stations_4 b2"),
    ("UPDATE bikes SET rental = 1000000000000 WHERE bike = 8", "unsound stations_4 b2"),
    ("UPDATE bikes SET dock = 0 WHERE bike = 8", "unsound stations_4 b2"),
    ("UPDATE bikes SET dock = 500 WHERE bike = 8", "unsound stations_4 b2"),
    ("UPDATE bikes SET dock = 501 WHERE bike = 8", "unsound stations_4 b2"),
    ("UPDATE bikes SET station_id = 'B2' WHERE bike = 8", "unsound stations_4 b2"),
    ("UPDATE bikes SET station_id = '' WHERE bike = 8", "unsound stations_4 b2"),
    ("UPDATE bikes SET ord = 0 WHERE bike = 7", "unsound bikes 7"),
    ("UPDATE bikes SET dock = 501 WHERE bike = 7", "unsound bikes 7"),
    ("UPDATE bikes SET station_id = 'b2', dock = 501 WHERE bike = 7", "unsound bikes 7"),
    ("UPDATE bikes SET station_id = 'b2', dock = 2 WHERE bike = 7", "unsound stations_4 b2"),
    ("UPDATE bikes SET station_id = 'b2', dock = 2, ord = 0 WHERE bike = 7", "unsound bikes 7"),
    ("UPDATE bikes SET rental = 0 WHERE bike = 9", "unsound bikes 9"),
    ("UPDATE bikes SET station_id = 'b2', dock = 2, rental = 0 WHERE bike = 9", "unsound bikes 9"),
    ("UPDATE bikes SET station_id = 'b2', dock = 501 WHERE bike = 10", "unsound bikes 10"),
    ("UPDATE bikes SET station_id = 'b2', dock = 2, truck = 0 WHERE bike = 10", "unsound bikes 10"),
    ("UPDATE bikes SET state = 3 WHERE bike = 10", "unsound bikes 10"),
    ("UPDATE bikes SET state = 2 WHERE bike = 8", "unsound stations_4 b2"),
    ("UPDATE bikes SET state = 2 WHERE bike = 8; UPDATE stations_4 SET by_type = 'city:0:1' WHERE free = 2",
     "unsound bikes 8"),
    ("UPDATE bikes SET state = 2 WHERE bike = 10", None),
    ("UPDATE bikes SET type_id = 'cargo' WHERE bike = 10", "unsound bikes 10"),
    # A bicycle is told by its type though another is in that dock, or the station hasn't it.
    *(
        it
        for dock in (1, 4)
        for change in (f"UPDATE bikes SET station_id = 'b2', dock = {dock} WHERE bike = 10",)
        for it in (
            (change, "unsound stations_4 b2"),
            (f"{change}; UPDATE stations_4 SET by_type = 'city:2:0' WHERE free = 2", "unsound bikes 10"),
        )
    ),
    ("UPDATE bikes SET station_id = 'b2', dock = 2 WHERE bike = 10", "unsound stations_4 b2"),
    ("UPDATE bikes SET dock = NULL WHERE bike = 8", "unsound stations_4 b2"),
    ("UPDATE bikes SET station_id = 'zz' WHERE bike = 8", 'unsound stations_4 b2'),
    ("UPDATE bikes SET rental = 1 WHERE bike = 10", "unsound bikes 10"),
    ("UPDATE bikes SET rental = 2 WHERE bike = 10", "unsound bikes 10"),
    ("UPDATE bikes SET rental = 3 WHERE bike = 10", "unsound bikes 10"),
    ("UPDATE bikes SET ord = 1 WHERE bike = 9", "unsound bikes 9"),
    ("UPDATE bikes SET truck = 4 WHERE bike = 9", "unsound bikes 9"),
    ("UPDATE bikes SET rental = NULL WHERE bike = 7", "unsound rentals 2"),
    ("UPDATE bikes SET bike = 0 WHERE bike = 10", "unsound bikes 0"),
    ("UPDATE bikes SET bike = 1000000 WHERE bike = 10", "unsound bikes 1000000"),
    ("DELETE FROM bikes WHERE bike = 10", None),
    ("DELETE FROM bikes WHERE bike = 9", None),
    ("DELETE FROM bikes WHERE bike = 7", "unsound rentals 1"),
    ("UPDATE trucks SET capacity = 0", "unsound bikes 9"),
    ("UPDATE trucks SET capacity = 61", "unsound bikes 9"),
    ("UPDATE trucks SET capacity = 1", "unsound orders 3"),
    ("DELETE FROM trucks", "unsound bikes 9"),
    ("UPDATE trucks SET truck = 4", "unsound bikes 9"),
    ("UPDATE trucks SET truck = 4; UPDATE orders SET truck = 4", "unsound bikes 9"),
    ("UPDATE trucks SET truck = 4; UPDATE orders SET truck = 4; UPDATE bikes SET truck = 4 WHERE bike = 9", None),
    ("DELETE FROM trucks; DELETE FROM bikes WHERE bike = 9", "unsound orders 1"),
    ("UPDATE trucks SET capacity = 0; DELETE FROM bikes WHERE bike = 9", "unsound trucks 3"),
    ("INSERT INTO trucks VALUES (4, 61)", "unsound trucks 4"),
    ("UPDATE riders_4 SET balance = balance + 1 WHERE rider = 17", "unsound riders_4 17"),
    ("UPDATE riders_4 SET balance = balance + 1", "unsound riders_4 17"),
    ("UPDATE riders_4 SET balance = balance + 1 WHERE rider = 18", "unsound riders_4 18"),
    ("UPDATE riders_4 SET blocked = 2 WHERE rider = 18", "unsound riders_4 18"),
    ("UPDATE riders_4 SET rider = 19 WHERE rider = 18", "unsound riders_4 19"),
    ("INSERT INTO riders_4 VALUES (19, 0, 1, 0, NULL)", "unsound riders_4 19"),
    ("INSERT INTO riders_4 VALUES (19, 0, 0, 0, NULL)", None),
    ("INSERT INTO riders_4 VALUES (1000000, 0, 0, 0, NULL)", "unsound riders_4 1000000"),
    ("UPDATE riders_4 SET plan_id = 'basic'", None),
    ("UPDATE riders_4 SET plan_id = 'gold' WHERE rider = 18", "unsound riders_4 18"),
    ("UPDATE riders_4 SET plan_id = 'Basic' WHERE rider = 17", "unsound riders_4 17"),
    ("UPDATE riders_4 SET before = 1, balance = balance + 1 WHERE rider = 17", "unsound riders_4 17"),
    ("UPDATE riders_4 SET before = 1 WHERE rider = 18", "unsound riders_4 18"),
    ("DELETE FROM riders_4 WHERE rider = 18", "unsound entries 4"),
    ("DELETE FROM riders_4 WHERE rider = 17", "unsound rentals 1"),
    ("UPDATE rentals SET refunded = 24 WHERE rental = 1", "unsound rentals 1"),
    ("UPDATE rentals SET fare = 126 WHERE rental = 1", "unsound entries 2"),
    ("UPDATE rentals SET fare = 20 WHERE rental = 1", "unsound rentals 1"),
    ("UPDATE rentals SET finish = start - 1 WHERE rental = 1", "unsound rentals 1"),
    ("UPDATE rentals SET finish = NULL WHERE rental = 1", "unsound rentals 1"),
    ("UPDATE rentals SET start = 1800000000 WHERE rental = 2", "unsound rentals 2"),
    ("UPDATE rentals SET plan_id = 'gold' WHERE rental = 2", "unsound rentals 2"),
    ("UPDATE rentals SET from_station = 'zz' WHERE rental = 1", "unsound rentals 1"),
    ("UPDATE rentals SET to_station = 'zz' WHERE rental = 1", "unsound rentals 1"),
    ("UPDATE rentals SET to_station = NULL WHERE rental = 1", None),
    ("UPDATE rentals SET bike = 10 WHERE rental = 2", "unsound bikes 7"),
    ("UPDATE rentals SET rider = 18 WHERE rental = 1", "unsound entries 2"),
    ("UPDATE rentals SET rider = 19 WHERE rental = 2", "unsound rentals 2"),
    ("UPDATE rentals SET rental = 3 WHERE rental = 2", "unsound bikes 7"),
    ("DELETE FROM rentals WHERE rental = 1", "unsound rentals 2"),
    (
        "INSERT INTO rentals SELECT 3, 17, 10, plan_id, from_station, start, NULL, NULL, NULL, 0 FROM rentals "
        "WHERE rental = 2",
        "unsound riders_4 17",
    ),
    ("UPDATE orders SET quantity = 0 WHERE ord = 3", "unsound bikes 9"),
    ("UPDATE orders SET delivered = 2 WHERE ord = 3", "unsound orders 3"),
    ("UPDATE orders SET to_end = '*' WHERE ord = 1", "unsound orders 1"),
    ("UPDATE orders SET to_end = 'zz' WHERE ord = 2", "unsound orders 2"),
    ("UPDATE orders SET type_id = 'cargo' WHERE ord = 1", "unsound orders 1"),
    ("UPDATE orders SET truck = 4 WHERE ord = 1", "unsound orders 1"),
    ("UPDATE orders SET from_end = 'a1' WHERE ord = 1", 'unsound orders 1'),
    ("UPDATE orders SET ord = 5 WHERE ord = 3", "unsound bikes 9"),
    ("UPDATE orders SET is_open = 0 WHERE ord = 3", "unsound bikes 9"),
    ("DELETE FROM orders WHERE ord = 1", "unsound orders 2"),
    ("UPDATE entries SET amount = 2501 WHERE entry = 1", "unsound riders_4 17"),
    ("UPDATE entries SET kind = 4 WHERE entry = 4", "unsound riders_4 18"),
    ("UPDATE entries SET rider = 18 WHERE entry = 1", "unsound riders_4 17"),
    ("UPDATE entries SET at = 1800000000 WHERE entry = 1", "unsound entries 1"),
    ("UPDATE entries SET entry = 5 WHERE entry = 4", "unsound entries 5"),
    ("UPDATE entries SET rental = 2 WHERE entry = 2", "unsound rentals 1"),
    (
        "INSERT INTO entries VALUES (5, 2, 17, 1, 125, 1700003000);"
        " UPDATE riders_4 SET balance = balance - 125 WHERE rider = 17",
        "unsound entries 5",
    ),
    # Nothing was archived, whatever books says: the first number that doesn't go on from there is bad.
    ("INSERT INTO books VALUES (1, 0, 0, 0)", "unsound books 1"),
    ("INSERT INTO books VALUES (2, 1, 1, 1)", "unsound books 2"),
    ("INSERT INTO books VALUES (1, -1, 0, 1)", "unsound books 1"),
    ("INSERT INTO books VALUES (1, 0, 0, 1)", "unsound rentals 1"),
    ("INSERT INTO books VALUES (1, 0, 1, 0)", "unsound entries 1"),
    ("INSERT INTO books VALUES (1, 1, 0, 0)", "unsound history 1"),
    ("UPDATE history SET reply = 'refused\t4\tunknown_rider' WHERE req_key = 'k2'", "unsound history 3"),
    ("UPDATE history SET command = 'add-rider\t017' WHERE req_key = 'k2'", "unsound history 3"),
    ("UPDATE history SET caller = 'rider:0' WHERE req_key = 'k2'", "unsound history 3"),
    ("UPDATE history SET req_key = '' WHERE req_key = 'k2'", "unsound history 3"),
    ("UPDATE history SET req_key = 'k 2' WHERE req_key = 'k2'", "unsound history 3"),
    ("UPDATE history SET command = 'set-region\tb2\t*' WHERE req_key = 'k2'", None),
    ("UPDATE history SET command = 'set-region\tb2\tNorth' WHERE req_key = 'k2'", "unsound history 3"),
    ("UPDATE history SET command = 'add-region\tnorth\t' WHERE req_key = 'k2'", "unsound history 3"),
    ("UPDATE history SET command = 'move-station\tzz\t-0.500000\t180.000000' WHERE req_key = 'k2'", None),
    ("UPDATE history SET command = 'change-system\tM\t24/7\tc\tUTC\thttps://x\t86400' WHERE req_key = 'k2'", None),
    ("UPDATE history SET command = 'add-docks\tzz\t500' WHERE req_key = 'k2'", None),
    *(
        (f"UPDATE history SET command = '{text}' WHERE req_key = 'k2'", "unsound history 3")
        for text in (
            "add-docks\tb2\t0", "add-docks\tb2\t501", "add-docks\tb2\t01", "add-docks\tb2", "add-docks\tB2\t1",
            "move-station\tb2\t-0.5\t180.000000", "move-station\tb2\t90.000001\t0.000000", "move-station\tb2\t0.000000",
            "change-system\tM\t24/7\tc\tUTC\thttps://x\t86401", "change-system\t\t24/7\tc\tUTC\thttps://x\t60",
            "change-system\tM\t24/7\tc\tUTC\thttps://x",
            "change-system\tmetro\ten\tM\t24/7\tc\tUTC\tEUR\thttps://x\t60",
        )
    ),
    ("UPDATE history SET reply = 'refused\t37\tunknown_region' WHERE req_key = 'k2'", "unsound history 3"),
    ("DELETE FROM history", "unsound stations_4 a1"),
    ("INSERT INTO more_names VALUES ('station', 'zz', 'de', 'Name')", "unsound more_names station/zz/de"),
    ("INSERT INTO more_names VALUES ('station', 'a1', 'de', 'Name')", None),
    ("INSERT INTO more_names VALUES ('station', 'a1', 'EN', 'Name')", None),
    ("INSERT INTO more_names VALUES ('station', 'a1', 'en', 'Name')", "unsound more_names station/a1/en"),
    ("INSERT INTO more_names VALUES ('station', 'basic', 'de', 'Name')", "unsound more_names station/basic/de"),
    ("INSERT INTO more_names VALUES ('station', '*', 'de', 'Name')", "unsound more_names station/*/de"),
    ("INSERT INTO more_names VALUES ('plan', 'basic', 'de', 'Name')", None),
    ("INSERT INTO more_names VALUES ('plan', 'gold', 'de', 'Name')", "unsound more_names plan/gold/de"),
    ("INSERT INTO more_names VALUES ('description', 'gold', 'de', 'Name')", "unsound more_names description/gold/de"),
    ("INSERT INTO more_names VALUES ('description', 'basic', 'en', 'Name')", "unsound more_names description/basic/en"),
    ("INSERT INTO more_names VALUES ('type', 'city', 'de', 'Name')", None),
    ("INSERT INTO more_names VALUES ('type', 'basic', 'de', 'Name')", "unsound more_names type/basic/de"),
    ("INSERT INTO more_names VALUES ('region', 'north', 'de', 'Name')", None),
    ("INSERT INTO more_names VALUES ('region', 'a1', 'de', 'Name')", "unsound more_names region/a1/de"),
    ("INSERT INTO more_names VALUES ('system', 'metro', 'de', 'Name')", None),
    ("INSERT INTO more_names VALUES ('system', 'other', 'de', 'Name')", "unsound more_names system/other/de"),
    ("INSERT INTO more_names VALUES ('system', 'a1', 'de', 'Name')", "unsound more_names system/a1/de"),
    ("INSERT INTO more_names VALUES ('Station', 'a1', 'de', 'Name')", "unsound more_names Station/a1/de"),
    ("INSERT INTO more_names VALUES ('bike', '7', 'de', 'Name')", "unsound more_names bike/7/de"),
    ("INSERT INTO more_names VALUES ('', '', '', '')", "unsound more_names //"),
    ("INSERT INTO more_names VALUES ('station', 'b2', 'it', 'Ponte')", None),
    (
        "INSERT INTO more_names VALUES ('station', 'b2', 'it', 'Ponte'), ('station', 'b2', 'pt', 'Ponte')",
        "unsound more_names station/b2/pt",
    ),
    (
        "INSERT INTO more_names VALUES ('station', 'b2', 'aa', 'N'), ('station', 'b2', 'bb', 'N')",
        "unsound more_names station/b2/fr",
    ),
    (
        "INSERT INTO more_names VALUES ('station', 'b2', 'aa', 'N'), ('station', 'b2', 'bb', 'N'), "
        "('station', 'b2', 'cc', 'N')",
        "unsound more_names station/b2/de",
    ),
    (
        "INSERT INTO more_names VALUES ('station', 'a1', 'aa', 'N'), ('station', 'a1', 'bb', 'N'), "
        "('station', 'a1', 'cc', 'N')",
        None,
    ),
    (
        "INSERT INTO more_names VALUES ('description', 'basic', 'aa', 'N'), ('description', 'basic', 'bb', 'N'), "
        "('plan', 'basic', 'aa', 'N'), ('plan', 'basic', 'bb', 'N')",
        None,
    ),
    ("INSERT INTO more_names VALUES ('station', 'b2', 'it', '')", "unsound more_names station/b2/it"),
    ("UPDATE more_names SET name = '' WHERE kind = 'system'", "unsound more_names system/metro/DE"),
    (f"UPDATE more_names SET name = '{'n' * 120}'", None),
    (f"UPDATE more_names SET name = '{'n' * 121}' WHERE language = 'fr'", "unsound more_names station/b2/fr"),
    ("UPDATE more_names SET name = char(128690) || char(10)", None),
    ("UPDATE more_names SET language = 'f' WHERE language = 'fr'", "unsound more_names station/b2/f"),
    ("UPDATE more_names SET language = 'fr_FR' WHERE language = 'fr'", "unsound more_names station/b2/fr_FR"),
    (f"UPDATE more_names SET language = '{'f' * 35}' WHERE language = 'fr'", None),
    (
        f"UPDATE more_names SET language = '{'f' * 36}' WHERE language = 'fr'",
        f"unsound more_names station/b2/{'f' * 36}",
    ),
    ("UPDATE more_names SET language = 'en' WHERE kind = 'system'", "unsound more_names system/metro/en"),
    ("UPDATE more_names SET kind = 'plan' WHERE kind = 'description'", None),
    ("UPDATE more_names SET kind = 'type' WHERE kind = 'description'", "unsound more_names type/basic/de"),
    ("UPDATE more_names SET id = 'a1' WHERE kind = 'station'", None),
    ("UPDATE more_names SET id = 'metro'", "unsound more_names description/metro/de"),
    ("UPDATE system SET language = 'de'", "unsound more_names description/basic/de"),
    ("UPDATE system SET language = 'DE'", "unsound more_names system/metro/DE"),
    ("UPDATE system SET language = 'fr'", "unsound more_names station/b2/fr"),
    ("UPDATE system SET system_id = 'other'", "unsound more_names system/metro/DE"),
    ("UPDATE system SET ttl = 86401; DELETE FROM more_names", "unsound system 1"),
    ("DELETE FROM more_names", None),
    ("DELETE FROM more_names WHERE language = 'de'", None),
    ("DROP INDEX more_names_by_language", None),
    ("DROP INDEX more_names_by_thing", None),
    ("UPDATE history SET command = 'add-name\tstation\tb2\tit\tPonte' WHERE req_key = 'k2'", None),
    ("UPDATE history SET command = 'add-name\tsystem\tother\tit\tPonte' WHERE req_key = 'k2'", None),
    ("UPDATE history SET command = 'add-name\tbike\tb2\tit\tPonte' WHERE req_key = 'k2'", "unsound history 3"),
    ("UPDATE history SET command = 'add-name\tstation\tb2\ti\tPonte' WHERE req_key = 'k2'", "unsound history 3"),
    *(
        (f"UPDATE history SET command = '{text}' WHERE req_key = 'k2'", None)
        for text in (
            "set-name\tstation\tb2\tit\tPonte", "set-name\tsystem\tother\ten\tPonte", "remove-name\tplan\tgold\tde",
            "remove-name\tstation\tb2\ten",
        )
    ),
    *(
        (f"UPDATE history SET command = '{text}' WHERE req_key = 'k2'", "unsound history 3")
        for text in (
            "set-name\tbike\tb2\tit\tPonte", "set-name\tstation\tb2\ti\tPonte", "set-name\tstation\tb2\tit",
            "set-name\tstation\tb2\tit\t", "set-name\tstation\tB2\tit\tPonte", "remove-name\tstation\tb2\tit\tPonte",
            "remove-name\tstation\tb2", "remove-name\tstation\tb2\ti_t", "remove-name\ttruck\t3\tit",
        )
    ),
    ("UPDATE history SET reply = 'refused\t39\tunknown_name' WHERE req_key = 'k2'", "unsound history 3"),
    ("UPDATE history SET command = 'add-station\tz9\tNew\t0.000000\t0.000000\t500' WHERE req_key = 'k2'", None),
    (
        "UPDATE history SET command = 'add-station\tz9\tNew\t0.000000\t0.000000\t501' WHERE req_key = 'k2'",
        "unsound history 3",
    ),
    ("UPDATE history SET reply = 'refused\t38\tsystem_missing' WHERE req_key = 'k2'", "unsound history 3"),
    ("DROP TABLE docks", "foreign"),
    ("DROP TABLE more_names", "foreign"),
    ("ALTER TABLE more_names RENAME COLUMN language TO lang", "foreign"),
    ("ALTER TABLE more_names ADD COLUMN more TEXT", "foreign"),
    ("DROP TABLE meta", "foreign"),
    ("DROP TABLE regions", "foreign"),
    ("ALTER TABLE stations_4 RENAME TO stations", "foreign"),
    ("ALTER TABLE stations_4 RENAME TO stations_2", "foreign"),
    ("ALTER TABLE stations_4 RENAME TO stations_3", "foreign"),
    ("ALTER TABLE stations_4 DROP COLUMN region_id", "foreign"),
    ("ALTER TABLE stations_4 DROP COLUMN by_type", "foreign"),
    ("ALTER TABLE stations_4 RENAME COLUMN by_type TO types", "foreign"),
    ("ALTER TABLE regions ADD COLUMN colour TEXT", "foreign"),
    ("ALTER TABLE bikes DROP COLUMN ord", "foreign"),
    ("ALTER TABLE riders_4 ADD COLUMN nickname TEXT", "foreign"),
    ("ALTER TABLE riders_4 DROP COLUMN plan_id", "foreign"),
    ("ALTER TABLE riders_4 RENAME TO riders", "foreign"),
    ("DROP TABLE books", "foreign"),
    ("ALTER TABLE books ADD COLUMN orders INTEGER", "foreign"),
    ("CREATE TABLE helmets (rider INTEGER REFERENCES riders)", None),
    ("CREATE TABLE riders (name TEXT UNIQUE); INSERT INTO riders VALUES ('x')", None),
    ("CREATE TABLE helmets (rider INTEGER REFERENCES riders_4)", "foreign"),
    ("CREATE TABLE offices (region TEXT REFERENCES regions)", "foreign"),
    ("CREATE TABLE stations (station TEXT); CREATE TABLE stations_2 (station TEXT)", None),
    ("CREATE TABLE stations_3 (name TEXT UNIQUE); CREATE TABLE counts (a); INSERT INTO counts VALUES (1), (1)", None),
    (f"{COUNTS}; INSERT INTO counts VALUES ('b2', 'city', -1, 7)", None),
    (f"{STATIONS_3}; CREATE UNIQUE INDEX one_name ON stations_3 (name)", None),
    ("CREATE TABLE counts (station TEXT REFERENCES stations_4)", "foreign"),
    ("CREATE TABLE kept (key TEXT UNIQUE); INSERT INTO kept VALUES ('k2')", None),
    ("DROP TABLE history", "foreign"),
    ("ALTER TABLE history RENAME TO kept", "foreign"),
    ("ALTER TABLE history RENAME COLUMN moment TO at", "foreign"),
    ("ALTER TABLE history ADD COLUMN more TEXT", "foreign"),
    ("CREATE TABLE helmets (request INTEGER REFERENCES history)", "foreign"),
    (
        "DROP TABLE meta; CREATE TABLE meta (one INTEGER PRIMARY KEY, app TEXT NOT NULL, version TEXT NOT NULL, now "
        "INTEGER NOT NULL, cash INTEGER NOT NULL, revenue INTEGER NOT NULL) STRICT; "
        "INSERT INTO meta VALUES (1, 'bikeshare', 'x', 0, 0, 0)",
        'foreign',
    ),
    ("CREATE TABLE notes (note TEXT); INSERT INTO notes VALUES ('x')", None),
    # Of a partial index, or one over an expression, it isn't known what it refuses.
    ("CREATE UNIQUE INDEX one_balance ON riders_4 (balance) WHERE balance > 0", "foreign"),
    ("CREATE INDEX by_balance ON riders_4 (balance) WHERE balance > 0", "foreign"),
    ("CREATE INDEX by_half ON riders_4 (balance / 2)", "foreign"),
    # What a key refuses already.
    ("CREATE UNIQUE INDEX again ON plans (plan_id ASC)", None),
    ("CREATE UNIQUE INDEX again ON history (number)", "foreign"),
    ("CREATE UNIQUE INDEX again ON history (caller, req_key)", "foreign"),
    ("CREATE UNIQUE INDEX again ON docks (station_id, dock)", None),
    ("CREATE UNIQUE INDEX again ON docks (dock, station_id)", "foreign"),
    ("CREATE UNIQUE INDEX again ON docks (station_id COLLATE NOCASE, dock)", "foreign"),
    ("CREATE UNIQUE INDEX again ON docks (station_id, dock DESC)", "foreign"),
    ("CREATE INDEX by_balance ON riders_4 (balance); CREATE INDEX by_name ON stations_4 (name COLLATE NOCASE)", None),
    ("CREATE TABLE notes (note TEXT, size INTEGER UNIQUE); CREATE UNIQUE INDEX one_note ON notes (note)", None),
    ("CREATE TABLE stations (name TEXT); CREATE UNIQUE INDEX one_name ON stations (name)", None),
    # It is told before the version and the rows are looked at.
    ("UPDATE meta SET version = 1; CREATE UNIQUE INDEX one_balance ON riders_4 (balance)", "foreign"),
    ("UPDATE meta SET version = 5; CREATE UNIQUE INDEX one_balance ON riders_4 (balance)", "foreign"),
    ("UPDATE riders_4 SET balance = balance + 1; CREATE UNIQUE INDEX one_balance ON riders_4 (balance)", "foreign"),
    ("CREATE UNIQUE INDEX one_balance ON riders_4 (balance); DROP INDEX one_balance", None),
]

# The 37 requests are numbered as they are asked: k2 is number 3. The first 13 have one moment, and number 37 has `now`.
AGAIN = f"INSERT INTO history SELECT 38, {NOW}, caller, req_key, command, reply FROM history WHERE req_key = 'k2'"
HISTORY_CHANGES = [
    # Numbers.
    ("DELETE FROM history WHERE number = 37", None),
    ("DELETE FROM history WHERE number > 3", "unsound stations_4 a1"),
    ("DELETE FROM history WHERE number = 1", "unsound history 2"),
    ("DELETE FROM history WHERE number = 20", "unsound history 21"),
    ("UPDATE history SET number = 38 WHERE number = 37", "unsound history 38"),
    ("UPDATE history SET number = 38 WHERE number = 5", "unsound stations_4 a1"),
    ("UPDATE history SET number = 0 WHERE number = 1", "unsound history 0"),
    ("UPDATE history SET number = -1 WHERE number = 37", "unsound history -1"),
    ("UPDATE history SET number = -number", "unsound stations_4 a1"),
    ("UPDATE history SET number = -number; UPDATE history SET number = 1 - number", "unsound history 2"),
    ("UPDATE history SET number = -number; UPDATE history SET number = -1 - number", "unsound history 0"),
    ("UPDATE history SET number = 9223372036854775807 WHERE number = 37", "unsound history 9223372036854775807"),
    ("UPDATE history SET number = -9223372036854775808 WHERE number = 37", "unsound history -9223372036854775808"),
    # Moments.
    ("UPDATE history SET moment = 0", "unsound stations_4 a1"),
    ("UPDATE history SET moment = 0 WHERE number <= 13", None),
    (f"UPDATE history SET moment = {NOW}", None),
    ("UPDATE history SET moment = moment - 1 WHERE number = 1", None),
    ("UPDATE history SET moment = moment - 1 WHERE number = 5", "unsound history 5"),
    ("UPDATE history SET moment = moment + 1 WHERE number = 5", "unsound history 6"),
    ("UPDATE history SET moment = moment + 1 WHERE number = 13", None),
    ("UPDATE history SET moment = moment - 1 WHERE number = 37", None),
    ("UPDATE history SET moment = moment + 1 WHERE number = 37", None),
    ("UPDATE history SET moment = -1 WHERE number = 1", "unsound history 1"),
    ("UPDATE history SET moment = -9223372036854775808 WHERE number = 1", "unsound history 1"),
    ("UPDATE history SET moment = 9223372036854775807 WHERE number = 20", "unsound history 20"),
    ("UPDATE history SET moment = 253402300799 WHERE number = 37", None),
    ("UPDATE history SET moment = 253402300799 WHERE number = 36", "unsound history 36"),
    ("UPDATE history SET moment = 253402300800 WHERE number = 37", "unsound stations_4 a1"),
    (
        "UPDATE history SET moment = 253402300800 WHERE number = 37; UPDATE meta SET now = 253402300799",
        "unsound history 37",
    ),
    # A row whose texts spell nothing.
    ("UPDATE history SET caller = '' WHERE number = 37", "unsound history 37"),
    ("UPDATE history SET caller = 'office ' WHERE number = 1", "unsound history 1"),
    (f"UPDATE history SET req_key = '{'k' * 65}' WHERE number = 7", "unsound history 7"),
    ("UPDATE history SET command = '' WHERE number = 37", "unsound history 37"),
    ("UPDATE history SET reply = '' WHERE number = 37", "unsound history 37"),
    ("UPDATE history SET reply = 'refused' WHERE number = 37", "unsound history 37"),
    # One caller and key twice: the later row is bad.
    (AGAIN, "unsound history 38"),
    (f"INSERT INTO history VALUES (38, {NOW}, 'office', 'k2', 'add-rider\t99', 'ok')", "unsound history 38"),
    ("UPDATE history SET req_key = 'k3' WHERE req_key = 'k2'", "unsound history 4"),
    ("UPDATE history SET req_key = 'k2' WHERE req_key = 'k3'", "unsound history 4"),
    ("UPDATE history SET req_key = 'k3' WHERE req_key IN ('k1', 'k2')", "unsound history 3"),
    ("UPDATE history SET req_key = 'k4' WHERE number = 20; UPDATE history SET req_key = 'k8' WHERE number = 10",
     "unsound history 10"),
    ("UPDATE history SET req_key = 'k0' WHERE number = 37; UPDATE history SET req_key = 'k35' WHERE number = 2",
     "unsound history 36"),
    ("UPDATE history SET caller = 'crew:3', req_key = 'k'", "unsound history 2"),
    (
        f"INSERT INTO history SELECT number + 37, {NOW}, caller, req_key, command, reply FROM history",
        "unsound history 38",
    ),
    # Of two bad rows the first is told, whichever rule it breaks.
    (f"{AGAIN}; UPDATE riders_4 SET balance = balance + 1", "unsound riders_4 17"),
    (f"{AGAIN}; UPDATE history SET reply = 'no' WHERE number = 37", "unsound history 37"),
    ("UPDATE history SET req_key = 'k2' WHERE number = 9; UPDATE history SET reply = 'no' WHERE number = 10",
     "unsound history 9"),
    ("UPDATE history SET req_key = 'k2' WHERE number = 11; UPDATE history SET moment = 0 WHERE number = 10",
     "unsound history 10"),
    ("UPDATE history SET req_key = 'k3', reply = 'no' WHERE number = 3", "unsound history 3"),
    (f"{AGAIN}; DELETE FROM system", "unsound history 38"),
    (f"{AGAIN}; DELETE FROM meta", "unsound meta 1"),
    # Before the rows it is told that the file is another program's, or another version's.
    (f"{AGAIN}; UPDATE meta SET app = 'other'", "foreign"),
    (f"{AGAIN}; DROP TABLE docks", "foreign"),
    (f"{AGAIN}; CREATE UNIQUE INDEX one_balance ON riders_4 (balance)", "foreign"),
    (f"{AGAIN}; CREATE TABLE helmets (key TEXT REFERENCES history)", "foreign"),
    (f"{AGAIN}; ALTER TABLE history ADD COLUMN more TEXT", "foreign"),
    (f"{AGAIN}; UPDATE meta SET version = 2", "older 2"),
    (f"{AGAIN}; UPDATE meta SET version = 5", "newer 5"),
    # By their bytes these keys are apart, and so are those of two callers.
    *(
        (f"INSERT INTO history SELECT number + 37, {NOW}, {caller}, {key}, command, reply FROM history", None)
        for caller, key in (("caller", "upper(req_key)"), ("'crew:3'", "req_key"), ("'import:' || req_key", "'k2'"))
    ),
    # The index makes reading fast, and no more.
    ("DROP INDEX history_by_key", None),
    (f"DROP INDEX history_by_key; {AGAIN}", "unsound history 38"),
    ("DROP INDEX history_by_key; CREATE INDEX history_by_key ON history (reply)", None),
    ("DROP INDEX history_by_key; CREATE UNIQUE INDEX history_by_key ON history (caller, req_key)", "foreign"),
]
# What is no layout of `history`.
OTHERS = [
    HISTORY.replace("reply TEXT NOT NULL)", "reply TEXT NOT NULL, UNIQUE (caller, req_key))"),
    HISTORY.replace("reply TEXT NOT NULL)", "reply TEXT NOT NULL, CHECK (moment > 0))"),
    HISTORY.replace("PRIMARY KEY", "PRIMARY KEY AUTOINCREMENT"), HISTORY.replace("INTEGER PRIMARY", "INT PRIMARY"),
    HISTORY.replace("STRICT", "STRICT, WITHOUT ROWID"), HISTORY.replace(" STRICT", ""),
    HISTORY.replace("number INTEGER PRIMARY KEY", "number INTEGER NOT NULL"),
    HISTORY.replace("PRIMARY KEY", "NOT NULL").replace("reply TEXT NOT NULL)", "reply TEXT NOT NULL, UNIQUE (number))"),
    HISTORY.replace("moment INTEGER NOT NULL", "moment INTEGER"), HISTORY.replace("moment INTEGER", "moment ANY"),
    HISTORY.replace("reply TEXT NOT NULL", "reply TEXT"), HISTORY.replace("reply TEXT", "reply ANY"),
]

# UNIQUE indexes that the rows of the small city allow, on each of its tables.
ADDED = [
    "meta (app)", "system (system_id)", "plans (price)", "segments (rate)", "types (name)", "regions (name)",
    "stations_4 (name)", "docks (station_id)", "bikes (station_id, dock)", "bikes (rental)", "bikes (bike)",
    "trucks (capacity)", "riders_4 (balance)", "riders_4 (rider)", "rentals (start)", "orders (to_end, quantity)",
    "entries (amount)", "history (req_key)", "stations_4 (by_type)", "more_names (name)", "books (entries)",
]
# The indexes of a new file beside those of the keys: the table of each, and its columns.
INDEXES = {
    "bikes_by_dock": ("bikes", "station_id", "dock"), "bikes_by_truck": ("bikes", "truck"),
    "rentals_by_rider": ("rentals", "rider"), "more_names_by_language": ("more_names", "language"),
    "more_names_by_thing": ("more_names", "kind", "id", "language", "name"),
    "history_by_key": ("history", "caller", "req_key"),
}
EACH_WORD = [
    ["init"], ["check"], ["lines"], ["serve", "--port", "0", "--count", "1"], ["feed", "station_status"],
    ["day", "entries", "2023-11-14", "UTC0"], ["history"], ["import", "first"], ["raise"],
]


def asked():
    return "".join(
        f"{at}\toffice\tk{n}\t{what.replace(' ', chr(9)).replace('_', ' ')}\n" for n, (at, what, _) in enumerate(ASKED)
    ).encode()


def told():
    return "".join(answer.replace(" ", "\t") + "\n" for _, _, answer in ASKED).encode()


def made(program, name):
    """Makes the city in a file."""
    ended = program.run("lines", name, given=asked())
    assert ended == (0, told(), b""), ended
    file = Path(program.folder, name)
    changed(file)
    return file


def checked(program, file, wanted):
    """Holds what `check` says of a file, which it leaves as it is, to what is wanted; none is `sound`."""
    before, rows = file.read_bytes(), held(file, whole=False)
    ended = program.run("check", file.name)
    right = SOUND if wanted is None else (5, b"", wanted.encode() + b"\n")
    assert ended == right, (ended, right)
    assert file.read_bytes() == before and held(file, whole=False) == rows, "the file was changed"


def each_is_found(program, city, changes):
    wrong = []
    for n, (change, wanted) in enumerate(changes):
        file = Path(program.folder, f"changed{n}.db")
        file.write_bytes(city)
        try:
            changed(file, change)
            checked(program, file, wanted)
        except (AssertionError, sqlite3.Error) as fault:
            wrong.append(f"{change}: {fault}")
        file.unlink()
    assert not wrong, "\n".join(wrong)


def test_each_change_of_a_small_city_is_found(program):
    each_is_found(program, made(program, "city.db").read_bytes(), CHANGES)


def test_each_change_of_a_history_is_found(program):
    each_is_found(program, made(program, "city.db").read_bytes(), HISTORY_CHANGES)


# The plain index of a `kept` of schema 3 becomes that of a key.
KEY_DECLARED = (
    f"PRAGMA writable_schema = ON; UPDATE sqlite_schema SET sql = '{KEYED}' WHERE name = 'kept'; "
    "UPDATE sqlite_schema SET name = 'sqlite_autoindex_kept_1', sql = NULL WHERE name = 'kept_by_key'"
)
KEPT_AGAIN = "INSERT INTO kept SELECT * FROM kept WHERE req_key = 'k2'"


def test_two_rows_of_a_key_that_is_declared(program):
    """The index of a PRIMARY KEY with an entry twice is damaged, to SQLite too: no word reads such a file."""
    file = made(program, "city.db")
    to_schema_3(file)
    whole = file.read_bytes()
    changed(file, KEY_DECLARED)
    checked(program, file, "older 3")
    file.write_bytes(whole)
    changed(file, f"{KEPT_AGAIN}; {KEY_DECLARED}")
    before = file.read_bytes()
    for word, *more in EACH_WORD:
        ended = program.run(word, file.name, *more, given=b"1700000001\toffice\tk2\tadd-rider\t18\n")
        assert ended == STORE_FAILED, (word, ended)
        assert file.read_bytes() == before, word


def test_other_layouts_of_history(program):
    file = made(program, "city.db")
    city = file.read_bytes()
    for table in OTHERS:
        file.write_bytes(city)
        laid_out(file, table)
        with told_with(table):
            checked(program, file, "foreign")
    file.write_bytes(city)
    laid_out(file, HISTORY)
    checked(program, file, None)


def test_an_index_that_somebody_added(program):
    """A UNIQUE one on a table of ours makes the file another program's, and a plain one changes nothing."""
    city = made(program, "city.db").read_bytes()
    for n, where in enumerate(ADDED):
        for unique, wanted in ("UNIQUE", "foreign"), ("", None):
            file = Path(program.folder, f"added{n}{unique}.db")
            file.write_bytes(city)
            changed(file, f"CREATE {unique} INDEX added ON {where}")
            with told_with(where):
                checked(program, file, wanted)
            removed(file)


def test_no_word_takes_a_file_with_such_an_index(program):
    """A good request fails on it. No word reads one, and each leaves the file as it is."""
    file = Path(program.folder, "city.db")
    ended = program.run("lines", file.name, given=b"1700000000\toffice\tk1\tadd-rider\t17\n")
    assert ended == (0, b"ok\n", b""), ended
    changed(file, "CREATE UNIQUE INDEX one_blocked ON riders_4 (blocked)")
    before, rows = file.read_bytes(), held(file)
    for word, *more in EACH_WORD:
        ended = program.run(word, file.name, *more, given=b"1700000001\toffice\tk2\tadd-rider\t18\n")
        assert ended == FOREIGN, (word, ended)
        assert file.read_bytes() == before and held(file) == rows, word
    changed(file, "DROP INDEX one_blocked")
    ended = program.run("lines", file.name, given=b"1700000001\toffice\tk2\tadd-rider\t18\n")
    assert ended == (0, b"ok\n", b""), ended


def test_a_file_goes_on_where_it_was(program):
    goes_on(program, made(program, "city.db"))


def test_a_file_goes_on_without_an_index_of_history(program):
    """It isn't made."""
    file = made(program, "city.db")
    changed(file, "DROP INDEX history_by_key")
    goes_on(program, file)
    assert rows_of("SELECT count(*) FROM sqlite_schema WHERE name = 'history_by_key'", file) == [(0,)]


def goes_on(program, file):
    checked(program, file, None)
    # The same requests come again: each has its kept answer, and nothing is changed.
    before = held(file)
    ended = program.run("lines", file.name, given=asked())
    assert ended == (0, told(), b""), ended
    assert held(file) == before, "kept answers changed the file"
    more = b"1700004000\toffice\tnew\tend\t7\ta1\t1\n"
    ended = program.run("lines", file.name, given=more)
    assert ended == (0, b"fare\t125\t2275\n", b""), ended
    ended = program.run("lines", file.name, given=more)
    assert ended == (0, b"fare\t125\t2275\n", b""), ended
    checked(program, file, None)


def plain_indexes(file):
    """The indexes of a file that a statement made and that aren't UNIQUE: the table of each, and its columns in their
    order, as far as they rise by their bytes."""
    found = {}
    for name, table, column in rows_of(
        "SELECT made.name, made.tbl_name, part.name FROM sqlite_schema AS made, "
        "pragma_index_list(made.tbl_name) AS list, pragma_index_xinfo(made.name) AS part "
        "WHERE made.type = 'index' AND made.sql IS NOT NULL "
        'AND list.name = made.name AND NOT list."unique" AND NOT list.partial '
        "AND part.key AND NOT part.\"desc\" AND part.coll = 'BINARY' ORDER BY made.name, part.seqno", file,
    ):
        found[name] = (*found.get(name, (table,)), column)
    return found


def test_a_new_file_gets_the_tables(program):
    ended = program.run("init", "new.db")
    assert ended == READY, ended
    file = Path(program.folder, "new.db")
    assert rows_of("SELECT * FROM meta", file) == [(1, "bikeshare", 4, 0, 0, 0)]
    made_so = rows_of("SELECT sql FROM sqlite_schema WHERE tbl_name = 'history' ORDER BY name", file)
    assert made_so == [(HISTORY,), (BY_KEY,)], made_so
    assert plain_indexes(file) == INDEXES, plain_indexes(file)
    changed(file)
    checked(program, file, None)
    ended = program.run("init", "new.db")
    assert ended == READY, ended


def test_a_file_that_is_no_database(program):
    Path(program.folder, "text.db").write_bytes(b"no database at all\n" * 100)
    ended = program.run("check", "text.db")
    assert ended == STORE_FAILED, ended


def test_a_balance_that_is_off_by_one(program):
    lines = b"1700000000\toffice\tk1\tadd-rider\t17\n1700000001\toffice\tk2\ttop-up\t17\t2500\n"
    ended = program.run("lines", "city.db", given=lines)
    assert ended == (0, b"ok\nbalance\t2500\n", b""), ended
    file = Path(program.folder, "city.db")
    changed(file, "UPDATE riders_4 SET balance = 2501")
    checked(program, file, "unsound riders_4 17")


def test_what_others_have_stays_beside_new_tables(program):
    """A file that has none of the product's tables gets them beside a stranger's: tables of every kind, equal rows, an
    index and a view."""
    file = Path(program.folder, "others.db")
    changed(file, ";".join([
        "CREATE TABLE notes (note TEXT CHECK (note <> ''), size INTEGER DEFAULT 7)",
        "INSERT INTO notes (note) VALUES ('x'), ('x')",
        "CREATE TABLE numbered (id INTEGER PRIMARY KEY AUTOINCREMENT, note TEXT UNIQUE)",
        "INSERT INTO numbered (note) VALUES ('y'), ('z')",
        "CREATE TABLE pointing (note TEXT REFERENCES numbered (note))", "INSERT INTO pointing VALUES ('y'), ('y')",
        "CREATE INDEX notes_by_size ON notes (size)", "CREATE VIEW seen AS SELECT note FROM notes",
        "CREATE TABLE stations_5 (a)", "CREATE TABLE names (a)",
    ]))
    before = held(file)
    assert program.run("init", file.name) == READY
    after = held(file)
    assert [it for it in after if it in before] == before and any("stations_4" in it for it in after)
    checked(program, file, None)


def test_changes_of_the_city_of_the_examples(program):
    given = (HERE / "lines/the_city_of_the_examples.in").read_bytes()
    ride = b"1700000000\toffice\tr1\tstart\t17\ta1\t1\n1700001800\toffice\tr2\tend\t7\ta1\t1\n"
    before = [
        ("UPDATE bikes SET truck = 3, ord = 1 WHERE bike = 7", "unsound bikes 7"),
        ("UPDATE entries SET entry = 3 WHERE entry = 1", "unsound entries 3"),
        ("INSERT INTO docks VALUES ('a1', 3, 0)", "unsound docks a1/3"),
        ("DELETE FROM meta", "unsound meta 1"),
        ("ALTER TABLE bikes DROP COLUMN ord", "foreign"),
        ("CREATE TABLE notes (note TEXT)", None),
    ]
    after = [
        ("UPDATE meta SET cash = cash - 1", "unsound meta 1"),
        ("UPDATE stations_4 SET by_type = 'city:0:1'", "unsound stations_4 a1"),
        ("UPDATE stations_4 SET by_type = '-'", "unsound stations_4 a1"),
        ("UPDATE stations_4 SET free = 1", "unsound stations_4 a1"),
    ]
    for n, (lines, changes) in enumerate([(given, before), (given + ride, after)]):
        for m, (change, wanted) in enumerate(changes):
            file = Path(program.folder, f"city{n}_{m}.db")
            ended = program.run("lines", file.name, given=lines)
            assert ended[0] == 0 and b"refused" not in ended[1], ended
            changed(file, change)
            checked(program, file, wanted)
    # What is served over a table of a stranger's leaves it.
    file = Path(program.folder, "city0_5.db")
    ended = program.run("lines", file.name, given=ride)
    assert ended == (0, b"rental\t1\t7\nfare\t125\t2375\n", b""), ended
    assert "CREATE TABLE notes (note TEXT);" in held(file)
