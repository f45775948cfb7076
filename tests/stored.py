"""The numbers that the tables store beside the rows that they follow from: a rider's balance, a station's free and
broken docks, its bicycles by type; the entries of each kind; the texts that are kept of commands and callers, and the
values of their fields."""

import model
from shared import copied, is_sound, rows_of

# One station of two docks, of which the second is broken, and bicycle 7 in the first; rider 17 has paid 25.00.
CITY = [
    (
        "1699999200|office|f1|set-system|metro|en|Metro Bikes|24/7|feeds@example.org|Etc/UTC|EUR|"
        "http://127.0.0.1:8080|30",
        "ok",
    ),
    ("1699999200|office|f2|add-plan|basic|Basic|100|false|One euro and then a quarter|30:25:5:-", "ok"),
    ("1699999200|office|f3|add-type|city|City|bicycle|human|0|basic", "ok"),
    ("1699999200|office|f4|add-station|a1|Harbour|41.890169|12.492269|2", "ok"),
    ("1699999200|office|f5|add-bike|7|city", "ok"),
    ("1699999200|office|f6|add-truck|3|20", "ok"),
    ("1699999200|office|f7|open-order|3|*|a1|city|1", "order|1"),
    ("1699999200|office|f8|load|3|1|7", "ok"),
    ("1699999200|office|f9|unload|3|1|7|to|1", "ok"),
    ("1699999200|office|f10|close-order|1", "ok"),
    ("1699999200|office|f11|mark-dock|a1|2|broken", "ok"),
    ("1699999200|office|g1|add-rider|17", "ok"),
    ("1699999200|office|g2|top-up|17|2500", "balance|2500"),
]

# Rider 17 takes bicycle 7.
START = [("1700000000|rider:17|s1|start|17|a1|1", "rental|1|7")]

# It comes back, by a clock that went back: no time passed.
END = [("1699990000|dock:a1|e1|end|7|a1|1", "fare|100|2400")]

# The dock in which bicycle 7 stands is broken too.
BREAK = [("1699999200|office|h1|mark-dock|a1|1|broken", "ok")]

# It comes back after half an hour, and a part of the fare is paid back.
REFUND = [
    *START, ("1700001800|dock:a1|e1|end|7|a1|1", "fare|125|2375"), ("1700001900|office|r1|refund|1|50", "balance|2425")
]

# Rider 18 has nothing: rides, gets a part back and pays in.
DEBT = [
    ("1700000000|office|d1|add-rider|18", "ok"),
    ("1700000000|rider:18|d2|start|18|a1|1", "rental|1|7"),
    ("1700000000|dock:a1|d3|end|7|a1|1", "fare|100|-100"),
    ("1700000000|office|d4|refund|1|50", "balance|-50"),
    ("1700000000|office|d5|top-up|18|2500", "balance|2450"),
]

# No request writes the table.
META = "SELECT cash + revenue, now FROM meta"
RIDER = "SELECT balance, blocked FROM riders_4 WHERE rider = 17"
STATION = "SELECT free, broken FROM stations_4 WHERE station_id = 'a1'"
BY_TYPE = "SELECT by_type, docks FROM stations_4 WHERE station_id = 'a1'"
RENTAL = "SELECT fare, refunded FROM rentals WHERE rental = 1"
DEBTOR = "SELECT balance, blocked FROM riders_4 WHERE rider = 18"

# What is served after the city stands, and the two values that each query answers then.
NUMBERS = [
    (START + END, {RIDER: (2400, 0), META: (0, 0), STATION: (0, 1), BY_TYPE: ("city:1:0", 2)}),
    (START, {RIDER: (2500, 0), STATION: (1, 1), BY_TYPE: ("-", 2)}),
    (BREAK, {STATION: (0, 2), BY_TYPE: ("city:0:1", 2)}),
    (REFUND, {RIDER: (2425, 0), META: (0, 0), RENTAL: (125, 50)}),
    (DEBT, {RIDER: (2500, 0), DEBTOR: (2450, 0), META: (0, 0), RENTAL: (100, 50)}),
]

# The entries of REFUND: number, kind, rider, rental or 0, amount and moment.
ENTRIES = [(1, 1, 17, 0, 2500, 1699999200), (2, 2, 17, 1, 125, 1700001800), (3, 3, 17, 1, 50, 1700001900)]

# Commands, each with its own text, which is kept whatever spelling was sent.
OWN = [
    ("set-system|s|de|N|\\\\|f|t|EUR|u|86400", "set-system|s|de|N|\\\\|f|t|EUR|u|86400"),
    ('add-plan|p1|Q "1"\\t|1|true|D|-', 'add-plan|p1|Q "1"\\t|1|true|D|-'),
    (
        "add-plan|p2|\\n\\r\\\\|1|true|D|0:-100000:0:1;99999:100000:100000:100000",
        "add-plan|p2|\\n\\r\\\\|1|true|D|0:-100000:0:1;99999:100000:100000:100000",
    ),
    ("add-plan|p3|Corso, nörd|1|true|\\\\n|-", "add-plan|p3|Corso, nörd|1|true|\\\\n|-"),
    ("add-station|a1|N|-0.000001|90|1", "add-station|a1|N|-0.000001|90.000000|1"),
    ("add-station|a2|N|-0|-180|1", "add-station|a2|N|0.000000|-180.000000|1"),
    ("add-station|a3|N|007|180.000000|1", "add-station|a3|N|7.000000|180.000000|1"),
    ("add-station|a4|N|45.5|9.1|10", "add-station|a4|N|45.500000|9.100000|10"),
    ("add-station|a5|N|-90|000.1|500", "add-station|a5|N|-90.000000|0.100000|500"),
    ('add-region|r1|Q "1"\\t', 'add-region|r1|Q "1"\\t'),
    ("add-region|-r_2|\\n\\r\\\\🚲", "add-region|-r_2|\\n\\r\\\\🚲"),
    ("set-region|a2|-r_2", "set-region|a2|-r_2"),
    ("set-region|a3|r1", "set-region|a3|r1"),
    ("set-region|a3|*", "set-region|a3|*"),
    ("set-region|a4|*", "set-region|a4|*"),
    ("set-region|a5|-r_2", "set-region|a5|-r_2"),
    ("set-region|a5|r1", "set-region|a5|r1"),
    ("add-name|station|a1|en|Q \"1\"\\t", "add-name|station|a1|en|Q \"1\"\\t"),
    ("add-name|station|a1|DE|N", "add-name|station|a1|DE|N"),
    ("add-name|system|s|fr|\\\\", "add-name|system|s|fr|\\\\"),
    ("add-name|description|p1|fr|\\n\\r🚲", "add-name|description|p1|fr|\\n\\r🚲"),
    ("add-name|plan|p1|fr|Q", "add-name|plan|p1|fr|Q"),
    ("add-name|region|-r_2|zh-Hant-TW|N", "add-name|region|-r_2|zh-Hant-TW|N"),
]

# What the fields of these commands are: escapes are gone, degrees are millionths, and each segment has a row.
VALUES = {
    "SELECT language, hours, ttl FROM system": [("de", "\\", 86400)],
    "SELECT name, description FROM plans ORDER BY plan_id": [('Q "1"\t', "D"), ("\n\r\\", "D"), ("Corso, nörd", "\\n")],
    "SELECT plan_id, seq, start, rate, every, finish FROM segments": [
        ("p2", 1, 0, -100000, 0, 1), ("p2", 2, 99999, 100000, 100000, 100000)
    ],
    "SELECT * FROM regions ORDER BY region_id": [("-r_2", "\n\r\\🚲"), ("r1", 'Q "1"\t')],
    "SELECT * FROM more_names ORDER BY kind, id, language": [
        ("description", "p1", "fr", "\n\r🚲"), ("plan", "p1", "fr", "Q"), ("region", "-r_2", "zh-Hant-TW", "N"),
        ("station", "a1", "DE", "N"), ("station", "a1", "en", 'Q "1"\t'), ("system", "s", "fr", "\\"),
    ],
    "SELECT * FROM stations_4 ORDER BY station_id": [
        ("a1", "N", -1, 90000000, 1, 1, 1, 1, 1700000000, 1, 0, None, "-"),
        ("a2", "N", 0, -180000000, 1, 1, 1, 1, 1700000000, 1, 0, "-r_2", "-"),
        ("a3", "N", 7000000, 180000000, 1, 1, 1, 1, 1700000000, 1, 0, None, "-"),
        ("a4", "N", 45500000, 9100000, 10, 1, 1, 1, 1700000000, 10, 0, None, "-"),
        ("a5", "N", -90000000, 100000, 500, 1, 1, 1, 1700000000, 500, 0, "r1", "-"),
    ],
}

# Commands behind those that correct the system, places and docks of stations, and names, each with its own text, and
# what the fields are then: no others of the row have changed.
CORRECTED = [
    ('change-system|Q "1"\\t🚲|\\\\ "|c|z|u/|0', 'change-system|Q "1"\\t🚲|\\\\ "|c|z|u/|0'),
    ("move-station|a1|-000.5|180", "move-station|a1|-0.500000|180.000000"),
    ("move-station|a4|-0|045.1", "move-station|a4|0.000000|45.100000"),
    ("move-station|a5|90.000000|-180", "move-station|a5|90.000000|-180.000000"),
    ("move-station|a5|-0.000001|0", "move-station|a5|-0.000001|0.000000"),
    ("add-docks|a1|499", "add-docks|a1|499"),
    ("add-docks|a4|1", "add-docks|a4|1"),
    ("add-docks|a4|12", "add-docks|a4|12"),
    ("set-name|system|s|de|\\\\N", "set-name|system|s|de|\\\\N"),
    ('set-name|station|a1|de|Q "1"\\t', 'set-name|station|a1|de|Q "1"\\t'),
    ("set-name|plan|p1|de|P", "set-name|plan|p1|de|P"),
    ("set-name|description|p3|de|\\n\\r🚲", "set-name|description|p3|de|\\n\\r🚲"),
    ("set-name|region|r1|de|R", "set-name|region|r1|de|R"),
    ("set-name|station|a1|DE|Ö\\\\", "set-name|station|a1|DE|Ö\\\\"),
    ("set-name|description|p1|fr|D", "set-name|description|p1|fr|D"),
    ("remove-name|station|a1|en", "remove-name|station|a1|en"),
    ("remove-name|region|-r_2|zh-Hant-TW", "remove-name|region|-r_2|zh-Hant-TW"),
    ("add-name|region|-r_2|zh-Hant|M", "add-name|region|-r_2|zh-Hant|M"),
    ("remove-name|system|s|fr", "remove-name|system|s|fr"),
]
CORRECTED_VALUES = {
    "SELECT * FROM system": [(1, "s", "de", "\\N", '\\ "', "c", "z", "EUR", "u/", 0)],
    "SELECT name, description FROM plans ORDER BY plan_id": [("P", "D"), ("\n\r\\", "D"), ("Corso, nörd", "\n\r🚲")],
    "SELECT * FROM regions ORDER BY region_id": [("-r_2", "\n\r\\🚲"), ("r1", "R")],
    "SELECT * FROM more_names ORDER BY kind, id, language": [
        ("description", "p1", "fr", "D"), ("plan", "p1", "fr", "Q"), ("region", "-r_2", "zh-Hant", "M"),
        ("station", "a1", "DE", "Ö\\"),
    ],
    "SELECT * FROM stations_4 ORDER BY station_id": [
        ("a1", 'Q "1"\t', -500000, 180000000, 500, 1, 1, 1, 1700000000, 500, 0, None, "-"),
        ("a2", "N", 0, -180000000, 1, 1, 1, 1, 1700000000, 1, 0, "-r_2", "-"),
        ("a3", "N", 7000000, 180000000, 1, 1, 1, 1, 1700000000, 1, 0, None, "-"),
        ("a4", "N", 0, 45100000, 23, 1, 1, 1, 1700000000, 23, 0, None, "-"),
        ("a5", "N", -1, 0, 500, 1, 1, 1, 1700000000, 500, 0, "r1", "-"),
    ],
}

CALLERS = [
    "office", "office:ann", "office:" + "a" * 36, "rider:1", "rider:7", "rider:999999", "dock:a1", "crew:7",
    "import:csv-2024", "import:" + "a" * 36,
]


def text(lines):
    """The lines as they are sent and answered, with TABs."""
    return "".join(f"{line}\n" for line in lines).replace("|", "\t").encode()


def test_numbers(program):
    for at, (served, wanted) in enumerate(NUMBERS):
        name, lines = f"city{at}.db", CITY + served
        asked, answers = (text(part) for part in zip(*lines))
        assert program.run("lines", name, given=asked) == (0, answers, b"")
        with copied(program.folder, name) as base:
            found = {query: base.execute(query).fetchone() for query in wanted}
        assert found == wanted, (served, found)


# Types in another order than that of their bytes, each with a bicycle, which comes into the dock of its number at a1;
# and what happens to these, and to docks there, then.
TYPES = ["z", "9", "city", "_", "-", "a-b", "ab", "a"]
MOVES = [
    "mark-bike|3|disabled", "mark-dock|a1|3|broken", "mark-bike|3|fit", "mark-bike|3|fit", "mark-dock|a1|3|working",
    "mark-dock|a1|9|broken", "mark-dock|a1|9|working", "add-docks|a1|1", "set-station|a1|true|true|true",
    "move-station|a1|1|1", "set-name|station|a1|en|A", "start|17|a1|3", "end|3|b2|1", "mark-dock|b2|1|broken",
    "mark-dock|b2|1|working", "start|17|b2|1", "recover|2", "mark-bike|3|fit", "open-order|3|a1|b2|z|1", "load|3|9|1",
    "unload|3|9|1|from|9", "load|3|9|1", "unload|3|9|1|to|1", "open-order|3|a1|b2|-|1", "load|3|10|5",
    "mark-bike|5|disabled", "unload|3|10|5|to|2", "add-bike|9|z", "open-order|3|*|b2|z|1", "load|3|11|9",
    "unload|3|11|9|to|3", "mark-bike|1|disabled", "start|17|b2|3", "end|9|a1|1", "top-up|17|1", "set-plan|z|basic",
]
# The texts of a1 and b2 after these.
AFTER = {
    "unload|3|8|8|to|8": ("-:1:0;9:1:0;_:1:0;a:1:0;a-b:1:0;ab:1:0;city:1:0;z:1:0", "-"),
    "mark-dock|a1|3|broken": ("-:1:0;9:1:0;_:1:0;a:1:0;a-b:1:0;ab:1:0;city:0:1;z:1:0", "-"),
    "end|3|b2|1": ("-:1:0;9:1:0;_:1:0;a:1:0;a-b:1:0;ab:1:0;z:1:0", "city:1:0"),
    "mark-bike|1|disabled": ("9:1:0;_:1:0;a:1:0;a-b:1:0;ab:1:0", "-:0:1;z:1:1"),
    "set-plan|z|basic": ("9:1:0;_:1:0;a:1:0;a-b:1:0;ab:1:0;z:1:0", "-:0:1;z:0:1"),
}


def test_bicycles_by_type(program):
    """After each request the text of a station is that of the bicycles in its docks."""
    commands = [f"add-type|{it}|T|bicycle|human|0|basic" for it in TYPES]
    commands += ["add-station|a1|A|0|0|9", "add-station|b2|B|0|0|3", "add-truck|3|20", "add-rider|17"]
    commands += ["top-up|17|100000", *(f"add-bike|{at}|{it}" for at, it in enumerate(TYPES, 1))]
    for at, kind in enumerate(TYPES, 1):
        commands += [f"open-order|3|*|a1|{kind}|1", f"load|3|{at}|{at}", f"unload|3|{at}|{at}|to|{at}"]
    lines = [line for line, _ in CITY[:2]] + [f"0|office|k{at}|{it}" for at, it in enumerate([*commands, *MOVES])]
    operator, told = model.Operator(), {}
    for line in lines:
        wanted = operator.answer(text([line]).removesuffix(b"\n"))
        assert program.run("lines", "city.db", given=text([line])) == (0, wanted + b"\n", b""), line
        assert not wanted.startswith(b"refused"), (line, wanted)
        found = dict(rows_of("SELECT station_id, by_type FROM stations_4", program.folder, "city.db"))
        assert found == operator.told_types(), (line, found)
        told[line.split("|", 3)[3]] = tuple(found.values())
    assert {it: told[it] for it in AFTER} == AFTER, told
    is_sound(program)


def test_kept_commands_and_their_values(program):
    are_kept(program, "kept.db", OWN, VALUES)


def test_kept_corrections_and_their_values(program):
    """They come at a later moment, which no station reports."""
    unchanged = {query: rows for query, rows in VALUES.items() if " system" not in query}
    are_kept(program, "corrected.db", [*OWN, *CORRECTED], {**unchanged, **CORRECTED_VALUES})


def are_kept(program, file, commands, wanted):
    """Holds what a file keeps of the commands, and the values of their fields."""
    rows = [(f"{1700000000 + 60 * (at // len(OWN))}|office|w{at}|{it}", "ok") for at, (it, _) in enumerate(commands)]
    asked, answers = (text(part) for part in zip(*rows))
    assert program.run("lines", file, given=asked) == (0, answers, b"")
    with copied(program.folder, file) as base:
        found = dict(base.execute("SELECT req_key, command FROM history"))
        values = {query: base.execute(query).fetchall() for query in wanted}
    assert found == {f"w{at}": own.replace("|", "\t") for at, (_, own) in enumerate(commands)}, found
    assert values == wanted, values


def test_entries(program):
    asked, answers = (text(part) for part in zip(*CITY, *REFUND))
    assert program.run("lines", "city.db", given=asked) == (0, answers, b"")
    found = rows_of(
        "SELECT entry, kind, rider, rental, amount, at FROM entries ORDER BY entry", program.folder, "city.db"
    )
    assert found == ENTRIES, found


def test_kept_callers(program):
    asked = text(f"0|{caller}|k|add-rider|{rider}" for rider, caller in enumerate(CALLERS, 1))
    assert program.run("lines", "city.db", given=asked) == (0, b"ok\n" * len(CALLERS), b"")
    found = rows_of("SELECT caller, command FROM history", program.folder, "city.db")
    assert sorted(found) == sorted((caller, f"add-rider\t{rider}") for rider, caller in enumerate(CALLERS, 1)), found
