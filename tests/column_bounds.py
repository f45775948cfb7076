"""Each column of each table at the bounds that docs/FORMATS.md, section 10, has for it, and one beyond. A row that
breaks them is absent when others are tested, and one that breaks another rule is there: so each value is set wherever
another table gets the blame for it.

What `check` has to say is worked out in audit.py, which reads the bounds from there, and of some columns here by hand.
"""

from pathlib import Path

from audit import BOUNDS, MAY_BE_NULL, TABLES, TEXTS, WRITTEN, read, span_of, verdict, words_of
from shared import SOUND, removed
from tampered import by_sql, made, tables_of

LEAST, MOST = -(2**63), 2**63 - 1

# Of each kind of text the shortest and the longest that is one, and others; and texts that are none.
EDGES = {
    "identifier": (["-", "a1", "z" * 36], ["", "z" * 37, "A", "a.", "ä"]),
    "name": (["\n", "é" * 60, "n" * 120], ["", "n" * 121, "n\0"]),
    "ASCII": ([" ", "~" * 200], ["", "~" * 201, "\t", "é"]),
    "language": (["de", "x" * 35, "Zz-9"], ["d", "x" * 36, "d_e"]),
    "any text": (["", "-", "?", "cargo:0:1", "city:1:0", "cargo:1:0;city:1:0", "\0", "é" * 5000], []),
    "currency": (["AZZ"], ["EU", "EURO", "EUr"]),
    "end": (["*", "-", "z" * 36], ["", "**", "z" * 37]),
    "caller": (
        ["office", "office:-", "office:" + "z" * 36, "rider:1", "crew:999999", "dock:-", "import:" + "z" * 36],
        ["office:", "office:A", "office:" + "z" * 37, "rider:0", "crew:1000000"],
    ),
    "key": (["-", "Z" * 64], ["", "Z" * 65, "a.b"]),
    "command": (
        ["add-rider\t999999", "add-docks\ta1\t500", "remove-name\tplan\tday\tde", "set-name\ttype\tcity\ten\tC"],
        [
            "add-rider\t1000000", "add-docks\ta1\t501", "remove-name\tplan\tday", "set-name\tbike\t7\ten\tC", "ok", "",
        ],
    ),
    "reply": (
        ["ok", "order\t100000000", "fare\t34561800000\t-1", f"balance\t{LEAST}"],
        ["order\t0", "fare\t34561800001\t0", f"balance\t{MOST + 1}", "refused\t4\tunknown_rider"],
    ),
}

# Columns of rows of the city of tampered.py, and the first row that is bad then: the bounds are broken where a row that
# needs the one that was changed has the blame. Of order 3, which wants two, bicycle 9 is on truck 3; rental 4 is open,
# of bicycle 7, and rental 1 closed, with entry 3 for its fare; entry 1 is a top-up; dock 3 of a1 is broken.
BY_HAND = [
    ("orders", "delivered", 3, {1: None, 2: "orders 3", 60: "orders 3", 61: "bikes 9", -1: "bikes 9"}),
    ("orders", "quantity", 3, {1: None, 20: None, 21: "orders 3", 60: "orders 3", 61: "bikes 9", 0: "bikes 9"}),
    ("trucks", "capacity", 3, {60: None, 1: "orders 1", 61: "bikes 9", 0: "bikes 9"}),
    ("rentals", "refunded", 4, {1: "rentals 4", LEAST: "rentals 4", MOST: "rentals 4"}),
    ("rentals", "start", 4, {0: None, 253402300799: "rentals 4", 253402300800: "bikes 7", -1: "bikes 7"}),
    ("rentals", "fare", 4, {100: "bikes 7"}),
    ("entries", "rental", 1, {1: "riders_4 17"}),
    ("entries", "rental", 3, {0: "riders_4 17", 2: "rentals 1", 4: "rentals 1", 10**8: "rentals 1"}),
    ("entries", "rental", 3, {10**8 + 1: "riders_4 17"}),
    ("entries", "at", 1, {0: None, 253402300799: "entries 1", 253402300800: "riders_4 17"}),
    ("docks", "broken", ("a1", 3), {0: "stations_4 a1", 2: "stations_4 a1"}),
    ("stations_4", "broken", "a1", {2**32 - 1: "stations_4 a1", 2**32: "stations_4 a1", -1: "stations_4 a1"}),
    ("stations_4", "by_type", "a1", {"cargo:0:1": None, "-": "stations_4 a1", "cargo:0:1;city:0:0": "stations_4 a1"}),
    ("stations_4", "by_type", "b2", {"-": None, "": "stations_4 b2", "cargo:0:1": "stations_4 b2"}),
    ("stations_4", "free", "a1", {LEAST: "stations_4 a1", MOST: "stations_4 a1"}),
    ("riders_4", "balance", 17, {LEAST: "riders_4 17", MOST: "riders_4 17"}),
    ("riders_4", "before", 17, {0: None, LEAST: "riders_4 17", MOST: "riders_4 17"}),
    ("riders_4", "plan_id", 17, {"day": None, "night": "riders_4 17", "Day": "riders_4 17", "-": "riders_4 17"}),
]


def values_of(bounds):
    """Values at bounds and others within, and values beyond them."""
    span = span_of(bounds)
    if span:
        return list(dict.fromkeys(span)), [it for it in (span[0] - 1, span[1] + 1) if LEAST <= it <= MOST]
    words = [it.decode() for it in words_of(bounds)]
    return (words, ["", *(f"{it}s" for it in words), words[0].upper()]) if words else EDGES[bounds]


def plain(value):
    return value.decode() if isinstance(value, bytes) else value


def stored(value):
    return value.encode() if isinstance(value, str) else value


def setting(table, column, key, value):
    where = " AND ".join(f"{it} = ?" for it in list(WRITTEN[table])[: TABLES[table]])
    return by_sql(f'UPDATE OR IGNORE {table} SET "{column}" = ? WHERE {where}', [value, *key])


def blamed(tables, table, column, value):
    """The keys of rows that are to get the value, one for each table that has the blame then."""
    found = {}
    for at, row in list(enumerate(tables[table]))[-4:]:
        rows = [*tables[table][:at], {**row, column: stored(value)}, *tables[table][at + 1 :]]
        key = [plain(it) for it in list(row.values())[: TABLES[table]]]
        found.setdefault(verdict({**tables, table: rows})[2].split(b" ")[:2][-1], key)
    return found.values()


def said(program, city, change):
    """What `check` says of the city after a change, and what it has to say by its rows."""
    file = Path(program.folder, "changed.db")
    file.write_bytes(city)
    change(file)
    told = program.run("check", file.name), verdict(read(file))
    removed(file)
    return told


def test_bounds_of_each_column(program):
    city, _ = made(program)
    tables, wrong, tried = tables_of(city, program), [], 0
    assert set(EDGES) == set(TEXTS), set(EDGES) ^ set(TEXTS)
    for table, columns in WRITTEN.items():
        for column, bounds in columns.items():
            within, beyond = values_of(bounds)
            good = [it for it in (*within, *beyond) if BOUNDS[table][column](stored(it))]
            assert good == list(within), (table, column, bounds, good)
            for value in (*within, *beyond, *([None] if column in MAY_BE_NULL[table] else [])):
                for key in blamed(tables, table, column, value):
                    found, wanted = said(program, city, setting(table, column, key, value))
                    wrong += [(table, column, key, value, found, wanted)] if found != wanted else []
                    tried += 1
    assert tried > 500 and not wrong, (tried, *wrong[:20])


def test_bounds_by_hand(program):
    city, _ = made(program)
    for table, column, key, values in BY_HAND:
        for value, bad in values.items():
            key = key if isinstance(key, tuple) else (key,)
            wanted = SOUND if bad is None else (5, b"", f"unsound {bad}\n".encode())
            found = said(program, city, setting(table, column, key, value))
            assert found == (wanted, wanted), (table, column, key, value, found, wanted)
