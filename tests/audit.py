"""What `check` has to say of a database file, worked out by Python alone from docs/FORMATS.md, sections 10 and 11. The
tables, their columns and the bounds of each are those of section 10's table. It holds no test.
"""

import contextlib
import re
import sqlite3

import formats
from shared import FOREIGN, SOUND, TOP

NEWEST = 4
SECTION = (TOP / "docs/FORMATS.md").read_text(encoding="utf-8").split("## 10. Database", 1)[1].split("\n## ", 1)[0]
# The columns of each table, each with its mark and its bounds as they are written.
COLUMNS = {
    table: re.findall(r"(\w+)([*?]?) \(([^)]+)\)", columns.split(";")[0])
    for table, columns in re.findall(r"^\| ([a-z_0-9]+) \| (\w+\* \([^|]+)\|", SECTION, re.M)
}
TABLES = {table: sum(mark == "*" for _, mark, _ in columns) for table, columns in COLUMNS.items()}
MAY_BE_NULL = {table: {name for name, mark, _ in columns if mark == "?"} for table, columns in COLUMNS.items()}
WRITTEN = {table: {name: bounds for name, _, bounds in columns} for table, columns in COLUMNS.items()}
# What is written for the same bounds of many columns: of numbers, and of texts.
SPANS = dict(re.findall(r"\*\*(\w+)\*\* (?:is )?(-?[\d,]*\d to -?[\d,]*\d)", " ".join(SECTION.split())))
TEXTS = {
    "identifier": formats.is_ident, "name": formats.is_name_value, "ASCII": formats.is_ascii_value,
    "language": formats.is_language, "currency": formats.is_currency, "end": formats.is_end,
    "caller": formats.is_caller, "key": formats.is_key, "command": lambda it: formats.command_text(it) == it,
    "reply": lambda it: formats.is_reply(it) and not it.startswith(b"refused"), "any text": formats.is_utf8,
}


def span_of(bounds):
    """The least and the greatest number of bounds as they are written, or none where they are those of texts."""
    ends = re.fullmatch(r"(-?[\d,]+)(?: to (-?[\d,]+))?", SPANS.get(bounds, bounds))
    return ends and tuple(int(it.replace(",", "")) for it in (ends[1], ends[2] or ends[1]))


def words_of(bounds):
    return [it.encode() for it in re.findall("`([^`]+)`", bounds)]


def keeps(bounds):
    """Whether a value keeps the bounds that are written so."""
    if span_of(bounds):
        least, most = span_of(bounds)
        return lambda it: isinstance(it, int) and least <= it <= most
    good = words_of(bounds).__contains__ if words_of(bounds) else TEXTS[bounds]
    return lambda it: isinstance(it, bytes) and good(it)


BOUNDS = {table: {name: keeps(bounds) for name, bounds in columns.items()} for table, columns in WRITTEN.items()}


def is_of_text(table, column):
    """Whether the column holds texts."""
    return span_of(WRITTEN[table][column]) is None


def agree(table, row):
    """What the table has behind a semicolon: conditions within one row, which are bounds too."""
    if table == "segments":
        return row["finish"] is None or row["finish"] > row["start"]
    if table == "types":
        return (row["propulsion"] == b"human") == (row["range_m"] == 0)
    if table == "entries":
        least, most = (0, formats.GREATEST_FARE) if row["kind"] == 2 else (1, 1_000_000)
        return least <= row["amount"] <= most and (row["rental"] > 0) == (row["kind"] in (2, 3))
    if table == "rentals":
        return (row["finish"] is None) == (row["fare"] is None) and (
            row["finish"] is not None or row["to_station"] is None
        )
    return True


def place_of(row):
    """The first whole place of a bicycle whose row keeps its bounds, and whether its row names no more than that."""
    named = [it for it in ("station_id", "dock", "rental", "truck", "ord") if row[it] is not None]
    dock = ("dock", row["station_id"], row["dock"]) if {"station_id", "dock"} <= set(named) else None
    rental = ("rental", row["rental"]) if "rental" in named else None
    truck = ("truck", row["truck"], row["ord"]) if {"truck", "ord"} <= set(named) else None
    first = dock or rental or truck or ("depot",)
    return first, len(named) == {"dock": 2, "rental": 1, "truck": 2, "depot": 0}[first[0]]


def key_of(table, row):
    """What a row has first: its key's one value, or all of them."""
    values = list(row.values())
    return tuple(values[: TABLES[table]]) if TABLES[table] > 1 else values[0]


class Audit:
    """The first bad row of the tables, which are lists of rows by column."""

    def __init__(self, tables):
        self.rows = {name: sorted(rows, key=lambda it, keys=keys: [rank(value) for value in list(it.values())[:keys]])
                     for (name, keys), rows in zip(TABLES.items(), (tables[name] for name in TABLES))}
        self.good = {name: [row for row in rows if self.keeps_bounds(name, row)] for name, rows in self.rows.items()}
        self.good["bikes"] = [{**it, "place": place_of(it)} for it in self.good["bikes"]]
        self.by = {name: {key_of(name, row): row for row in rows} for name, rows in self.good.items()}

    def keeps_bounds(self, table, row):
        optional = MAY_BE_NULL.get(table, ())
        return (
            all((row[it] is None and it in optional) or good(row[it]) for it, good in BOUNDS[table].items())
            and agree(table, row)
        )

    def archived(self):
        """How many requests, entries and rentals were archived: by the first good row of books."""
        return min(self.good["books"], key=lambda it: it["one"], default={"requests": 0, "entries": 0, "rentals": 0})

    def is_of_archived(self, amount):
        """Whether so many archived entries can come to an amount."""
        return abs(amount) <= formats.GREATEST_FARE * self.archived()["entries"]

    def last(self, table):
        """The greatest number of a table's rows, or how many were archived where it has none."""
        return self.archived()[table] + len(self.good[table])

    def open_rentals(self):
        return sum(it["finish"] is None for it in self.good["rentals"])

    def sum(self, kind, **of):
        return sum(
            entry["amount"]
            for entry in self.good["entries"]
            if entry["kind"] == kind and all(entry[name] == value for name, value in of.items())
        )

    def holds(self, station):
        """Each dock of a station: whether it is broken, and the bicycle in it."""
        bikes = {it["place"][0][1:]: it for it in reversed(self.good["bikes"]) if it["place"][0][0] == "dock"}
        number = station["docks"]
        for dock in range(1, number + 1):
            broken = self.by["docks"].get((station["station_id"], dock), {"broken": 0})["broken"]
            yield broken, bikes.get((station["station_id"], dock))

    def first_bad(self):
        """The table and key of the first bad row, or none."""
        for table, keys in TABLES.items():
            listed = [(list(it.values())[:keys], it) for it in self.rows[table]]
            is_missing = table == "meta" and [1] not in [key for key, _ in listed]
            listed = sorted(listed + [([1], None)] * is_missing, key=lambda it: [rank(value) for value in it[0]])
            for at, (key, row) in enumerate(listed):
                if row is None or not self.is_good(table, row, at):
                    return table, key
        return None

    def by_type(self, station):
        """The text of the bicycles whose place is a dock of a station, be it one that it hasn't."""
        told = {}
        for row in self.good["bikes"]:
            kind, *where = row["place"][0]
            if kind == "dock" and where[0] == station:
                dock = self.by["docks"].get(tuple(where), {"broken": 0})
                counts = told.setdefault(row["type_id"], [0, 0])
                counts[dock["broken"] == 1 or row["state"] != 0] += 1
        return b";".join(b"%s:%d:%d" % (kind, *told[kind]) for kind in sorted(told)) or b"-"

    def is_good(self, table, row, at):
        if table == "bikes":
            found = self.by["bikes"].get(row["bike"])
            return found is not None and found["place"][1] and self.bikes(found, at)
        if not self.keeps_bounds(table, row):
            return False
        return getattr(self, table)(row, at)

    def now(self):
        """The moment of the last request, and at least that in meta."""
        last = max(self.rows["history"], key=lambda it: it["number"], default={"moment": 0})["moment"]
        return max(self.by["meta"][1]["now"], last if BOUNDS["history"]["moment"](last) else 0)

    def on_truck(self, truck, order=None):
        places = [it["place"][0] for it in self.good["bikes"]]
        return sum(it[0] == "truck" and it[1] == truck and order in (None, it[2]) for it in places)

    def meta(self, row, at):
        return self.is_of_archived(row["cash"]) and self.is_of_archived(row["revenue"])

    def system(self, row, at):
        return True

    def plans(self, row, at):
        return at < 256

    def segments(self, row, at):
        before = sum(it["plan_id"] == row["plan_id"] and it["seq"] < row["seq"] for it in self.rows["segments"])
        return row["plan_id"] in self.by["plans"] and row["seq"] == before + 1

    def types(self, row, at):
        return at < 32 and row["plan_id"] in self.by["plans"]

    def regions(self, row, at):
        return at < 256

    def stations_4(self, row, at):
        held = list(self.holds(row))
        free = sum(not broken and it is None for broken, it in held)
        counted = row["free"] == free and row["broken"] == sum(broken for broken, _ in held)
        counted = counted and row["by_type"] == self.by_type(row["station_id"])
        return row["reported"] <= self.now() and counted and (
            row["region_id"] is None or row["region_id"] in self.by["regions"]
        )

    def has_dock(self, station, dock):
        return station in self.by["stations_4"] and dock <= self.by["stations_4"][station]["docks"]

    def docks(self, row, at):
        return self.has_dock(row["station_id"], row["dock"])

    def bikes(self, row, at):
        place = row["place"][0]
        good = True
        if place[0] == "dock":
            good = self.has_dock(*place[1:])
        elif place[0] == "rental":
            rental = self.by["rentals"].get(place[1])
            good = rental is not None and rental["finish"] is None and rental["bike"] == row["bike"]
        elif place[0] == "truck":
            order = self.by["orders"].get(place[2])
            carried = (
                order is not None
                and order["is_open"] == 1
                and order["truck"] == place[1]
                and order["type_id"] == row["type_id"]
            )
            good = carried and place[1] in self.by["trucks"]
        alone = (
            place[0] != "dock"
            or not any(it["place"][0] == place and it["bike"] < row["bike"] for it in self.good["bikes"])
        )
        return good and alone and row["type_id"] in self.by["types"] and (row["state"] != 2 or place[0] == "depot")

    def trucks(self, row, at):
        return self.on_truck(row["truck"]) <= row["capacity"]

    def riders_4(self, row, at):
        riding = sum(it["rider"] == row["rider"] and it["finish"] is None for it in self.good["rentals"])
        signs = {1: 1, 2: -1, 3: 1, 4: -1, 5: -1, 6: 1}
        balance = row["before"] + sum(sign * self.sum(kind, rider=row["rider"]) for kind, sign in signs.items())
        plan = row["plan_id"] is None or row["plan_id"] in self.by["plans"]
        return row["balance"] == balance and riding <= 1 and plan and self.is_of_archived(row["before"])

    def rentals(self, row, at):
        number = row["rental"]
        named = (
            row["rider"] in self.by["riders_4"]
            and row["plan_id"] in self.by["plans"]
            and row["from_station"] in self.by["stations_4"]
        )
        is_next = number == self.archived()["rentals"] + at + 1
        if not is_next or not named or row["bike"] not in self.by["bikes"] or row["start"] > self.now():
            return False
        if row["refunded"] != self.sum(3, rental=number):
            return False
        if row["finish"] is None:
            return row["refunded"] == 0 and self.by["bikes"][row["bike"]]["place"][0] == ("rental", number)
        station = row["to_station"] is None or row["to_station"] in self.by["stations_4"]
        has_fare = any(it["kind"] == 2 and it["rental"] == number for it in self.good["entries"])
        return station and has_fare and row["start"] <= row["finish"] <= self.now() and row["refunded"] <= row["fare"]

    def orders(self, row, at):
        truck = self.by["trucks"].get(row["truck"])
        ends = (
            all(it == b"*" or it in self.by["stations_4"] for it in (row["from_end"], row["to_end"]))
            and row["from_end"] != row["to_end"]
        )
        if (
            row["ord"] != at + 1
            or truck is None
            or not ends
            or row["type_id"] not in self.by["types"]
            or row["quantity"] > truck["capacity"]
        ):
            return False
        held = self.on_truck(row["truck"], row["ord"])
        return row["delivered"] + held <= row["quantity"] and (row["is_open"] == 1 or held == 0)

    def entries(self, row, at):
        archived = self.archived()
        is_next = row["entry"] == archived["entries"] + at + 1
        if not is_next or row["rider"] not in self.by["riders_4"] or row["at"] > self.now():
            return False
        if archived["entries"] + at + self.open_rentals() >= formats.MOST_ENTRIES:
            return False
        if row["rental"] <= archived["rentals"]:
            return True
        rental = self.by["rentals"].get(row["rental"])
        if rental is None or rental["finish"] is None or rental["rider"] != row["rider"]:
            return False
        earlier = any(
            it["kind"] == 2 and it["rental"] == row["rental"] and it["entry"] < row["entry"]
            for it in self.good["entries"]
        )
        return row["kind"] == 3 or (not earlier and row["amount"] == rental["fare"])

    def history(self, row, at):
        before = [it for it in self.good["history"] if it["number"] < row["number"]]
        again = any((it["caller"], it["req_key"]) == (row["caller"], row["req_key"]) for it in before)
        moments = [it["moment"] for it in before[-1:]] + [row["moment"], self.now()]
        is_next = row["number"] == self.archived()["requests"] + at + 1
        return is_next and moments == sorted(moments) and not again

    def more_names(self, row, at):
        system = self.by["system"].get(1)
        if system is None:
            return False
        there = {
            b"system": [system["system_id"]], b"station": self.by["stations_4"], b"type": self.by["types"],
            b"plan": self.by["plans"],
            b"description": self.by["plans"], b"region": self.by["regions"],
        }[row["kind"]]
        before = sum(
            (it["kind"], it["id"]) == (row["kind"], row["id"]) and it["language"] < row["language"]
            for it in self.good["more_names"]
        )
        return row["id"] in there and row["language"] != system["language"] and before < 3

    def books(self, row, at):
        ends = self.last("entries") + self.open_rentals()
        before = sum(it["before"] for it in self.good["riders_4"])
        is_conserved = before + self.by["meta"][1]["revenue"] == self.by["meta"][1]["cash"]
        is_some = row["requests"] + row["entries"] + row["rentals"] > 0
        return is_some and self.last("rentals") <= ends <= formats.MOST_ENTRIES and is_conserved


def rank(value):
    """A value by the order of keys: nothing, numbers, texts, blobs."""
    return (0, 0) if value is None else (1, value) if isinstance(value, (int, float)) else (2, value)


def read(file, names=None):
    """All rows of the product's tables by column, texts as bytes; a blob is told from a text by its class. A table may
    have another name in the file."""
    with contextlib.closing(sqlite3.connect(f"file:{file}?immutable=1", uri=True)) as base:
        base.text_factory = bytes
        told = {}
        for name, named in (names or dict(zip(TABLES, TABLES))).items():
            rows = base.execute(f"SELECT * FROM {named}")
            columns = [it[0] for it in rows.description]
            told[name] = [dict(zip(columns, row)) for row in rows]
        return told


def shown(value):
    if isinstance(value, int):
        return str(value).encode()
    return value if isinstance(value, bytes) and formats.is_utf8(value) else b"?"


def verdict(tables):
    """What `check` has to end with."""
    row = next((it for it in tables["meta"] if it["one"] == 1), None)
    if row is not None and (row["app"] != b"bikeshare" or row["version"] < 1):
        return FOREIGN
    if row is not None and row["version"] != NEWEST:
        return 5, b"", b"%s %d\n" % (b"newer" if row["version"] > NEWEST else b"older", row["version"])
    bad = Audit(tables).first_bad()
    if bad is None:
        return SOUND
    return 5, b"", b"unsound %s %s\n" % (bad[0].encode(), b"/".join(shown(it) for it in bad[1]))
