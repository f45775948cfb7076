"""A small model of the operator: what docs/OPERATOR.md has it answer to the requests that the tour sends, and what it
then holds. It stands alone, beside the larger one of tests/model.py, since a release has these examples and not that
file.

It knows the commands and refusals that the tour uses, and keeps everything in dictionaries and lists. Money is in
hundredths of the currency, moments are in seconds of UTC. Sections are those of docs/OPERATOR.md.
"""

import re

NAMES = {
    1: "unknown_station", 2: "unknown_dock", 3: "unknown_bike", 4: "unknown_rider", 5: "unknown_rental",
    6: "unknown_type", 7: "unknown_plan", 8: "unknown_truck", 9: "unknown_order", 10: "already_there", 11: "bad_field",
    12: "dock_empty", 13: "dock_full", 14: "dock_broken", 15: "bike_disabled", 16: "not_renting", 17: "not_returning",
    18: "rider_blocked", 19: "balance_negative", 20: "rider_is_riding", 21: "not_rented", 24: "truck_too_small",
    25: "wrong_place", 26: "wrong_type", 27: "order_closed", 28: "order_filled", 29: "bikes_on_truck",
    30: "refund_too_large", 31: "rental_open", 32: "limit_reached", 33: "key_reused", 34: "truck_full",
    35: "rental_closed", 36: "wrong_truck_or_ends", 37: "unknown_region", 38: "system_missing",
}
NUMBER = re.compile("0|[1-9][0-9]*")
# Which fields of a command are numbers: a command with another text there is unreadable.
NUMBERS = {
    "add-bike": [0], "mark-bike": [0], "mark-dock": [1], "add-rider": [0], "set-rider": [0], "top-up": [0, 1],
    "refund": [0, 1],
    "start": [0, 2], "end": [0, 2], "recover": [0], "add-truck": [0, 1], "open-order": [0, 4], "load": [0, 1, 2],
    "unload": [0, 1, 2, 4],
    "close-order": [0], "add-station": [4],
}
REGION, LANGUAGE = re.compile("[a-z0-9_-]{1,36}|[*]"), re.compile("[A-Za-z0-9-]{2,35}")
KINDS = ("system", "station", "type", "plan", "description", "region")
DEPOT = ("depot",)


class Refused(Exception):
    """A refusal, by its number."""


def refuse(number, holds):
    """Refuses with this number where the test holds."""
    if holds:
        raise Refused(number)


def fare(plan, elapsed):
    """The fare of so many seconds: the price, and what each segment charges at each whole minute (section 8)."""
    total = plan["price"]
    for start, rate, interval, end in plan["segments"]:
        for minute in range(start, min(elapsed, 2_592_000) // 60 + 1):
            charges = minute == start or (interval > 0 and (minute - start) % interval == 0)
            if charges and (end is None or minute < end):
                total += rate
    return max(0, total)


class City:
    """What the operator keeps (section 4), as far as the tour asks for it."""

    def __init__(self):
        """Begins with the empty operator."""
        self.now, self.system = 0, None
        self.plans, self.types, self.regions, self.stations, self.bikes, self.riders, self.trucks = (
            {}, {}, {}, {}, {}, {}, {}
        )
        self.docked, self.broken = {}, set()
        self.names = {}
        self.rentals, self.orders, self.entries, self.kept = [], [], [], {}

    def answer(self, line):
        """The answer to a request line, both without a line end (sections 5 and 6)."""
        moment, caller, key, text = line.split("\t", 3)
        word, *fields = text.split("\t")
        is_read = word != "set-region" or REGION.fullmatch(fields[1])
        if word == "add-name":
            is_read = fields[0] in KINDS and LANGUAGE.fullmatch(fields[2])
        if not is_read or not all(NUMBER.fullmatch(fields[it]) for it in NUMBERS.get(word, [])):
            return f"refused\t11\t{NAMES[11]}"
        if (caller, key) in self.kept:
            command, reply = self.kept[caller, key]
            return reply if command == text else f"refused\t33\t{NAMES[33]}"
        before, self.now = self.now, max(self.now, int(moment))
        values = [int(field) if at in NUMBERS.get(word, []) else field for at, field in enumerate(fields)]
        try:
            reply = getattr(self, word.replace("-", "_"))(*values) or "ok"
        except Refused as refusal:
            self.now = before
            return f"refused\t{refusal.args[0]}\t{NAMES[refusal.args[0]]}"
        self.kept[caller, key] = text, reply
        return reply

    # The commands (section 7), each with its tests in their order. None changes anything before its last test.

    def set_system(self, *fields):
        """The system is set, once: the tour does not do it twice."""
        self.system = fields

    def add_plan(self, plan, name, price, taxable, description, segments):
        """The plan is added; an end of a segment may be absent."""
        refuse(10, plan in self.plans)
        parts = [] if segments == "-" else [it.split(":") for it in segments.split(";")]
        rows = [
            (int(start), int(rate), int(interval), None if end == "-" else int(end))
            for start, rate, interval, end in parts
        ]
        self.plans[plan] = {"price": int(price), "segments": rows}

    def add_type(self, kind, name, form, propulsion, reach, plan):
        """The type is added, with its default plan."""
        refuse(10, kind in self.types)
        refuse(7, plan not in self.plans)
        self.types[kind] = plan

    def set_plan(self, kind, plan):
        """The default plan changes, for rentals that begin later."""
        refuse(6, kind not in self.types)
        refuse(7, plan not in self.plans)
        self.types[kind] = plan

    def add_region(self, region, name):
        """The region is added, without stations."""
        refuse(10, region in self.regions)
        self.regions[region] = name

    def add_station(self, station, name, lat, lon, docks):
        """The station is added, installed, renting and returning, with working docks, in no region."""
        refuse(10, station in self.stations)
        self.stations[station] = {
            "name": name, "lat": lat, "lon": lon, "docks": docks, "flags": (True, True, True), "region": None
        }
        self.report(station)

    def set_region(self, station, region):
        """The station stands in the region, or in none. That is no report."""
        refuse(1, station not in self.stations)
        refuse(37, region != "*" and region not in self.regions)
        self.stations[station]["region"] = None if region == "*" else region

    def add_name(self, kind, key, language, name):
        """The name is added in a further language. That is no report."""
        refuse(38, self.system is None)
        unknown, those = {
            "system": (11, self.system[:1]), "station": (1, self.stations), "type": (6, self.types),
            "plan": (7, self.plans),
            "description": (7, self.plans), "region": (37, self.regions),
        }[kind]
        refuse(unknown, key not in those)
        given = self.names.get((kind, key), {})
        refuse(10, language == self.system[1] or language in given)
        refuse(32, len(given) >= 3)
        self.names[kind, key] = {**given, language: name}

    def set_station(self, station, *flags):
        """The three flags are set."""
        refuse(1, station not in self.stations)
        self.stations[station]["flags"] = tuple(it == "true" for it in flags)
        self.report(station)

    def report(self, station):
        """The station's last report becomes now."""
        self.stations[station]["reported"] = self.now

    def mark_dock(self, station, dock, state):
        """The dock is broken or working."""
        refuse(1, station not in self.stations)
        refuse(2, dock > self.stations[station]["docks"])
        (self.broken.add if state == "broken" else self.broken.discard)((station, dock))
        self.report(station)

    def add_bike(self, bike, kind):
        """The bicycle is added, fit, in the depot."""
        refuse(10, bike in self.bikes)
        refuse(6, kind not in self.types)
        self.bikes[bike] = {"type": kind, "fit": True, "place": DEPOT}

    def mark_bike(self, bike, state):
        """The bicycle is disabled or fit, wherever it is."""
        refuse(3, bike not in self.bikes)
        self.bikes[bike]["fit"] = state == "fit"
        if self.bikes[bike]["place"][0] == "dock":
            self.report(self.bikes[bike]["place"][1])

    def put(self, bike, *place):
        """Takes a bicycle from its place to another; a dock that it leaves or comes to makes a report."""
        before, self.bikes[bike]["place"] = self.bikes[bike]["place"], place
        if before[0] == "dock":
            del self.docked[before[1:]]
            self.report(before[1])
        if place[0] == "dock":
            self.docked[place[1:]] = bike
            self.report(place[1])

    def add_rider(self, rider):
        """The rider is added, open, with balance 0."""
        refuse(10, rider in self.riders)
        self.riders[rider] = {"blocked": False, "balance": 0, "rental": 0}

    def set_rider(self, rider, state):
        """The rider is open or blocked."""
        refuse(4, rider not in self.riders)
        self.riders[rider]["blocked"] = state == "blocked"

    def enter(self, kind, rider, rental, amount):
        """Writes an entry into the ledger (section 10); a fare makes the balance less. Returns the new balance."""
        self.entries.append((kind, rider, rental, amount, self.now))
        self.riders[rider]["balance"] += -amount if kind == "fare" else amount
        return self.riders[rider]["balance"]

    def top_up(self, rider, amount):
        """The balance grows."""
        refuse(4, rider not in self.riders)
        return f"balance\t{self.enter('topup', rider, 0, amount)}"

    def refund(self, rental, amount):
        """Some of a closed rental's fare goes back to the rider."""
        refuse(5, rental > len(self.rentals))
        row = self.rentals[rental - 1]
        refuse(31, row["end"] is None)
        refuse(30, amount > row["fare"] - row["refunded"])
        row["refunded"] += amount
        return f"balance\t{self.enter('refund', row['rider'], rental, amount)}"

    def start(self, rider, station, dock):
        """A rental opens with the bicycle of the dock."""
        refuse(4, rider not in self.riders)
        refuse(18, self.riders[rider]["blocked"])
        refuse(19, self.riders[rider]["balance"] < 0)
        refuse(20, self.riders[rider]["rental"])
        refuse(1, station not in self.stations)
        refuse(2, dock > self.stations[station]["docks"])
        installed, renting, _ = self.stations[station]["flags"]
        refuse(16, not (installed and renting))
        refuse(14, (station, dock) in self.broken)
        refuse(12, (station, dock) not in self.docked)
        bike = self.docked[station, dock]
        refuse(15, not self.bikes[bike]["fit"])
        row = {
            "rider": rider, "bike": bike, "plan": self.types[self.bikes[bike]["type"]], "from": station,
            "start": self.now,
        }
        self.rentals.append({**row, "to": None, "end": None, "fare": 0, "refunded": 0})
        number = self.riders[rider]["rental"] = len(self.rentals)
        self.put(bike, "rental", number)
        return f"rental\t{number}\t{bike}"

    def close(self, rental, to):
        """Closes a rental and takes the fare. Returns the reply."""
        row = self.rentals[rental - 1]
        row.update(to=to, end=self.now, fare=fare(self.plans[row["plan"]], self.now - row["start"]))
        self.riders[row["rider"]]["rental"] = 0
        return f"fare\t{row['fare']}\t{self.enter('fare', row['rider'], rental, row['fare'])}"

    def takes(self, station, dock):
        """The tests of a dock that is to take a bicycle, after the station's own."""
        refuse(14, (station, dock) in self.broken)
        refuse(13, (station, dock) in self.docked)

    def end(self, bike, station, dock):
        """The rental of the bicycle closes at the dock."""
        refuse(3, bike not in self.bikes)
        refuse(21, self.bikes[bike]["place"][0] != "rental")
        refuse(1, station not in self.stations)
        refuse(2, dock > self.stations[station]["docks"])
        installed, _, returning = self.stations[station]["flags"]
        refuse(17, not (installed and returning))
        self.takes(station, dock)
        rental = self.bikes[bike]["place"][1]
        self.put(bike, "dock", station, dock)
        return self.close(rental, station)

    def recover(self, rental):
        """The rental closes without a dock: the bicycle is in the depot, and disabled."""
        refuse(5, rental > len(self.rentals))
        row = self.rentals[rental - 1]
        refuse(35, row["end"] is not None)
        self.put(row["bike"], *DEPOT)
        self.bikes[row["bike"]]["fit"] = False
        return self.close(rental, "*")

    def add_truck(self, truck, capacity):
        """The truck is added, empty."""
        refuse(10, truck in self.trucks)
        self.trucks[truck] = {"capacity": capacity, "load": 0}

    def open_order(self, truck, begin, end, kind, count):
        """An order opens, from one end to another."""
        refuse(8, truck not in self.trucks)
        refuse(1, any(it != "*" and it not in self.stations for it in (begin, end)))
        refuse(36, begin == end)
        refuse(6, kind not in self.types)
        refuse(24, count > self.trucks[truck]["capacity"])
        row = {
            "truck": truck, "from": begin, "to": end, "type": kind, "count": count, "load": 0, "delivered": 0,
            "open": True,
        }
        self.orders.append(row)
        return f"order\t{len(self.orders)}"

    def order_of(self, truck, order):
        """The open order of this truck."""
        refuse(8, truck not in self.trucks)
        refuse(9, order > len(self.orders))
        row = self.orders[order - 1]
        refuse(27, not row["open"])
        refuse(36, row["truck"] != truck)
        return row

    def load(self, truck, order, bike):
        """The bicycle goes onto the truck for the order."""
        row = self.order_of(truck, order)
        refuse(3, bike not in self.bikes)
        place = self.bikes[bike]["place"]
        refuse(25, place != DEPOT if row["from"] == "*" else place[:2] != ("dock", row["from"]))
        refuse(26, self.bikes[bike]["type"] != row["type"])
        refuse(28, row["delivered"] + row["load"] >= row["count"])
        refuse(34, self.trucks[truck]["load"] >= self.trucks[truck]["capacity"])
        self.put(bike, "truck", order)
        row["load"] += 1
        self.trucks[truck]["load"] += 1

    def unload(self, truck, order, bike, side, dock):
        """The bicycle goes to the order's end of that side."""
        row = self.order_of(truck, order)
        refuse(3, bike not in self.bikes)
        refuse(25, self.bikes[bike]["place"] != ("truck", order))
        end = row[side]
        refuse(2, dock != 0 if end == "*" else not 1 <= dock <= self.stations[end]["docks"])
        if end != "*":
            self.takes(end, dock)
        self.put(bike, *(DEPOT if end == "*" else ("dock", end, dock)))
        row["load"] -= 1
        row["delivered"] += side == "to"
        self.trucks[truck]["load"] -= 1

    def close_order(self, order):
        """The order closes, whatever was delivered."""
        refuse(9, order > len(self.orders))
        row = self.orders[order - 1]
        refuse(27, not row["open"])
        refuse(29, row["load"])
        row["open"] = False

    # What is shown of it.

    def counts(self, station):
        """A station's four counts (section 9), by the names of GBFS, and the available bicycles of each type."""
        kinds, found = dict.fromkeys(sorted(self.types), 0), [0, 0, 0, 0]
        for dock in range(1, self.stations[station]["docks"] + 1):
            bike, broken = self.docked.get((station, dock)), (station, dock) in self.broken
            available = bike is not None and not broken and self.bikes[bike]["fit"]
            if available:
                kinds[self.bikes[bike]["type"]] += 1
            for at, holds in enumerate((
                available, bike is not None and not available, bike is None and not broken, broken
            )):
                found[at] += holds
        names = ("num_vehicles_available", "num_vehicles_disabled", "num_docks_available", "num_docks_disabled")
        return dict(zip(names, found)), kinds
