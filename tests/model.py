"""The operator of docs/OPERATOR.md in Python: what each request line has to be answered. It holds no test.

It keeps plain lists and dictionaries, counts everything anew, and shares no thought with the program but the document.
"""

import formats
from shared import by_type

DEPOT = ("depot",)


class Refused(Exception):
    pass


def refuse(number, holds):
    if holds:
        raise Refused(number)


def fare(plan, elapsed):
    """Sections 8's rules, minute by minute as far as there are any."""
    elapsed = min(elapsed, 2_592_000)
    total = plan["price"]
    for start, rate, interval, end in plan["segments"]:
        last = elapsed // 60 if end is None else min(elapsed // 60, end - 1)
        if start <= last:
            total += rate * (1 + ((last - start) // interval if interval else 0))
    return max(0, total)


class Operator:
    def __init__(self):
        self.now = 0
        self.system = None
        self.plans, self.types, self.regions, self.stations, self.trucks, self.riders, self.bikes = (
            {}, {}, {}, {}, {}, {}, {}
        )
        self.broken, self.rentals, self.orders, self.entries = set(), [], [], []
        # What was accepted, in its order: the moment, caller, key, command and reply; and where a caller's key stands.
        self.history, self.kept = [], {}
        # Names, as commands spell them: of a kind and an identifier, and the further ones of these by language.
        self.named, self.further = {}, {}

    def answer(self, line):
        """The answer to a line without its line feed."""
        if not formats.spells_request(line):
            return b"refused\t11\tbad_field"
        moment, caller, key, text = line.split(b"\t", 3)
        text = formats.command_text(text)
        if (caller, key) in self.kept:
            *_, command, reply = self.history[self.kept[caller, key]]
            return reply if command == text else b"refused\t33\tkey_reused"
        word, *fields = text.decode().split("\t")
        later, self.later = self.now, max(self.now, int(moment))
        try:
            reply = getattr(self, word.replace("-", "_"))(*fields) or "ok"
        except Refused as refusal:
            (number,) = refusal.args
            return f"refused\t{number}\t{formats.REFUSALS[number]}".encode()
        assert later <= self.later
        self.now = self.later
        self.kept[caller, key] = len(self.history)
        self.history.append((self.now, caller, key, text, reply.encode()))
        return reply.encode()

    def told_names(self):
        """What feeds tell of each kind and identifier: languages and texts, the system's own language first and then by
        their bytes."""
        told = {
            key: [(self.system[1], own), *sorted(self.further.get(key, {}).items())] for key, own in self.named.items()
        }
        return {
            key: [(language, formats.unescaped(text.encode()).decode()) for language, text in names]
            for key, names in told.items()
        }

    def told_system(self):
        """What feeds tell of the system beside its names: opening hours, contact, time zone, base URL and ttl."""
        *texts, ttl = self.settings
        return [*(formats.unescaped(it.encode()).decode() for it in texts), int(ttl)]

    def told_places(self):
        """What feeds tell of each station's place, with the six decimals that they print."""
        return {station: it["at"] for station, it in self.stations.items()}

    def told_types(self):
        """What a file tells of each station's bicycles by type."""
        told = {station: {} for station in self.stations}
        for bike in self.bikes.values():
            if bike["place"][0] == "dock":
                counts = told[bike["place"][1]].setdefault(bike["type"], [0, 0])
                counts[bike["state"] != "fit" or bike["place"][1:] in self.broken] += 1
        return {station: by_type((it, *counts) for it, counts in types.items()) for station, types in told.items()}

    def languages(self):
        """The system's own, and then each other once by their bytes."""
        return [self.system[1], *sorted({language for names in self.further.values() for language in names})]

    # Each command tests first, and changes nothing before its last test.

    def report(self, station):
        self.stations[station]["reported"] = self.later

    def bike_in(self, station, dock):
        return next((number for number, it in self.bikes.items() if it["place"] == ("dock", station, dock)), None)

    def riding(self, rider):
        return any(it["rider"] == rider and it["finish"] is None for it in self.rentals)

    def balance(self, rider):
        return sum(-amount if kind == 2 else amount for kind, its, _, amount in self.entries if its == rider)

    def on_truck(self, truck, order=None):
        return sum(
            it["place"][0] == "truck" and it["place"][1] == truck and order in (None, it["place"][2])
            for it in self.bikes.values()
        )

    def is_full_of_entries(self):
        return len(self.entries) + sum(it["finish"] is None for it in self.rentals) >= 100_000_000

    def set_system(self, system, language, name, *fields):
        refuse(10, self.system)
        hours, contact, zone, _, url, ttl = fields
        self.system = system, language
        self.named["system", system] = name
        self.settings = hours, contact, zone, url, ttl

    def change_system(self, name, *settings):
        """Identifier, language and currency stay, and so do further names."""
        refuse(38, self.system is None)
        self.named["system", self.system[0]] = name
        self.settings = settings

    def add_plan(self, plan, name, price, taxable, description, segments):
        refuse(10, plan in self.plans)
        refuse(32, len(self.plans) >= 256)
        parts = [] if segments == "-" else [it.split(":") for it in segments.split(";")]
        rows = [
            (int(start), int(rate), int(interval), None if end == "-" else int(end))
            for start, rate, interval, end in parts
        ]
        self.plans[plan] = {"price": int(price), "segments": rows}
        self.named["plan", plan], self.named["description", plan] = name, description

    def add_type(self, kind, name, form, propulsion, most, plan):
        refuse(10, kind in self.types)
        refuse(7, plan not in self.plans)
        refuse(32, len(self.types) >= 32)
        self.types[kind] = plan
        self.named["type", kind] = name

    def set_plan(self, kind, plan):
        refuse(6, kind not in self.types)
        refuse(7, plan not in self.plans)
        self.types[kind] = plan

    def add_region(self, region, name):
        refuse(10, region in self.regions)
        refuse(32, len(self.regions) >= 256)
        self.regions[region] = True
        self.named["region", region] = name

    def add_station(self, station, name, lat, lon, docks):
        refuse(10, station in self.stations)
        refuse(32, len(self.stations) >= 5000)
        self.stations[station] = {
            "docks": int(docks), "flags": (True, True, True), "region": None, "at": (lat, lon)
        }
        self.named["station", station] = name
        self.report(station)

    def move_station(self, station, lat, lon):
        """It reports nothing. Docks, flags and region stay."""
        refuse(1, station not in self.stations)
        self.stations[station]["at"] = lat, lon

    def add_docks(self, station, count):
        """It reports nothing. The new docks are working and empty, and have the numbers after the last."""
        refuse(1, station not in self.stations)
        refuse(32, self.stations[station]["docks"] + int(count) > 500)
        self.stations[station]["docks"] += int(count)

    def set_region(self, station, region):
        """It reports nothing, and a station leaves its region for none whether it had one or not."""
        refuse(1, station not in self.stations)
        refuse(37, region != "*" and region not in self.regions)
        self.stations[station]["region"] = None if region == "*" else region

    def further_of(self, kind, ident):
        """The further names of a thing by their languages; the refusal where there is no such thing, or no system."""
        refuse(38, self.system is None)
        there, unknown = {
            "system": ([self.system[0]], 11), "station": (self.stations, 1), "type": (self.types, 6),
            "plan": (self.plans, 7),
            "description": (self.plans, 7), "region": (self.regions, 37),
        }[kind]
        refuse(unknown, ident not in there)
        return self.further.get((kind, ident), {})

    def add_name(self, kind, ident, language, name):
        """A plan has two lists, of its name and of its description. A language is another where one byte is."""
        given = self.further_of(kind, ident)
        refuse(10, language == self.system[1] or language in given)
        refuse(32, len(given) >= 3)
        self.further[kind, ident] = {**given, language: name}

    def set_name(self, kind, ident, language, name):
        """In the system's language it is the thing's own name, which is always there."""
        given = self.further_of(kind, ident)
        refuse(39, language != self.system[1] and language not in given)
        if language == self.system[1]:
            self.named[kind, ident] = name
        else:
            self.further[kind, ident] = {**given, language: name}

    def remove_name(self, kind, ident, language):
        """An own name is none that may go."""
        given = self.further_of(kind, ident)
        refuse(39, language not in given)
        self.further[kind, ident] = {other: name for other, name in given.items() if other != language}

    def set_station(self, station, *flags):
        refuse(1, station not in self.stations)
        self.stations[station]["flags"] = tuple(it == "true" for it in flags)
        self.report(station)

    def mark_dock(self, station, dock, state):
        refuse(1, station not in self.stations)
        refuse(2, int(dock) > self.stations[station]["docks"])
        (self.broken.add if state == "broken" else self.broken.discard)((station, int(dock)))
        self.report(station)

    def add_bike(self, bike, kind):
        refuse(10, bike in self.bikes)
        refuse(6, kind not in self.types)
        refuse(32, len(self.bikes) >= 100_000)
        self.bikes[bike] = {"type": kind, "state": "fit", "place": DEPOT}

    def mark_bike(self, bike, state):
        refuse(3, bike not in self.bikes)
        refuse(23, self.bikes[bike]["state"] == "retired")
        self.bikes[bike]["state"] = state
        if self.bikes[bike]["place"][0] == "dock":
            self.report(self.bikes[bike]["place"][1])

    def retire_bike(self, bike):
        refuse(3, bike not in self.bikes)
        refuse(23, self.bikes[bike]["state"] == "retired")
        refuse(22, self.bikes[bike]["place"] != DEPOT)
        self.bikes[bike]["state"] = "retired"

    def add_rider(self, rider):
        refuse(10, rider in self.riders)
        refuse(32, len(self.riders) >= 500_000)
        self.riders[rider] = "open"

    def set_rider(self, rider, state):
        refuse(4, rider not in self.riders)
        self.riders[rider] = state

    def top_up(self, rider, amount):
        refuse(4, rider not in self.riders)
        refuse(32, self.is_full_of_entries())
        self.entries.append((1, rider, 0, int(amount)))
        return f"balance\t{self.balance(rider)}"

    def refund(self, rental, amount):
        number = int(rental)
        refuse(5, number > len(self.rentals))
        row = self.rentals[number - 1]
        refuse(31, row["finish"] is None)
        given = sum(amount for kind, _, its, amount in self.entries if kind == 3 and its == number)
        refuse(30, int(amount) > row["fare"] - given)
        refuse(32, self.is_full_of_entries())
        self.entries.append((3, row["rider"], number, int(amount)))
        return f"balance\t{self.balance(row['rider'])}"

    def start(self, rider, station, dock):
        refuse(4, rider not in self.riders)
        refuse(18, self.riders[rider] == "blocked")
        refuse(19, self.balance(rider) < 0)
        refuse(20, self.riding(rider))
        refuse(1, station not in self.stations)
        refuse(2, int(dock) > self.stations[station]["docks"])
        refuse(16, not all(self.stations[station]["flags"][:2]))
        refuse(14, (station, int(dock)) in self.broken)
        bike = self.bike_in(station, int(dock))
        refuse(12, bike is None)
        refuse(15, self.bikes[bike]["state"] != "fit")
        refuse(32, self.is_full_of_entries())
        plan = self.types[self.bikes[bike]["type"]]
        self.rentals.append({
            "rider": rider, "bike": bike, "plan": plan, "start": self.later, "finish": None, "fare": None
        })
        self.bikes[bike]["place"] = ("rental", len(self.rentals))
        self.report(station)
        return f"rental\t{len(self.rentals)}\t{bike}"

    def close(self, number):
        row = self.rentals[number - 1]
        row["finish"], row["fare"] = self.later, fare(self.plans[row["plan"]], self.later - row["start"])
        self.entries.append((2, row["rider"], number, row["fare"]))
        return f"fare\t{row['fare']}\t{self.balance(row['rider'])}"

    def end(self, bike, station, dock):
        refuse(3, bike not in self.bikes)
        refuse(21, self.bikes[bike]["place"][0] != "rental")
        refuse(1, station not in self.stations)
        self.takes(station, int(dock), 17)
        number = self.bikes[bike]["place"][1]
        self.bikes[bike]["place"] = ("dock", station, int(dock))
        self.report(station)
        return self.close(number)

    def takes(self, station, dock, returning=None):
        """The tests of a dock that is to take a bicycle."""
        refuse(2, not 1 <= dock <= self.stations[station]["docks"])
        refuse(returning, returning and not (self.stations[station]["flags"][0] and self.stations[station]["flags"][2]))
        refuse(14, (station, dock) in self.broken)
        refuse(13, self.bike_in(station, dock) is not None)

    def recover(self, rental):
        number = int(rental)
        refuse(5, number > len(self.rentals))
        refuse(35, self.rentals[number - 1]["finish"] is not None)
        bike = self.bikes[self.rentals[number - 1]["bike"]]
        bike["place"], bike["state"] = DEPOT, "disabled"
        return self.close(number)

    def add_truck(self, truck, capacity):
        refuse(10, truck in self.trucks)
        refuse(32, len(self.trucks) >= 1000)
        self.trucks[truck] = int(capacity)

    def open_order(self, truck, begin, end, kind, count):
        refuse(8, truck not in self.trucks)
        refuse(1, begin != "*" and begin not in self.stations)
        refuse(1, end != "*" and end not in self.stations)
        refuse(36, begin == end)
        refuse(6, kind not in self.types)
        refuse(24, int(count) > self.trucks[truck])
        refuse(32, len(self.orders) >= 10_000_000)
        self.orders.append({
            "truck": truck, "from": begin, "to": end, "type": kind, "count": int(count), "delivered": 0, "open": True
        })
        return f"order\t{len(self.orders)}"

    def order_of(self, truck, order):
        refuse(8, truck not in self.trucks)
        refuse(9, int(order) > len(self.orders))
        row = self.orders[int(order) - 1]
        refuse(27, not row["open"])
        refuse(36, row["truck"] != truck)
        return row

    def load(self, truck, order, bike):
        row = self.order_of(truck, order)
        refuse(3, bike not in self.bikes)
        found = self.bikes[bike]
        refuse(23, found["state"] == "retired")
        place = found["place"]
        refuse(25, place != DEPOT if row["from"] == "*" else place[:2] != ("dock", row["from"]))
        refuse(26, found["type"] != row["type"])
        refuse(28, row["delivered"] + self.on_truck(truck, int(order)) >= row["count"])
        refuse(34, self.on_truck(truck) >= self.trucks[truck])
        found["place"] = ("truck", truck, int(order))
        if place[0] == "dock":
            self.report(place[1])

    def unload(self, truck, order, bike, side, dock):
        row = self.order_of(truck, order)
        refuse(3, bike not in self.bikes)
        refuse(25, self.bikes[bike]["place"] != ("truck", truck, int(order)))
        end = row[side]
        if end == "*":
            refuse(2, int(dock) != 0)
        else:
            self.takes(end, int(dock))
        self.bikes[bike]["place"] = DEPOT if end == "*" else ("dock", end, int(dock))
        row["delivered"] += side == "to"
        if end != "*":
            self.report(end)

    def close_order(self, order):
        refuse(9, int(order) > len(self.orders))
        row = self.orders[int(order) - 1]
        refuse(27, not row["open"])
        refuse(29, self.on_truck(row["truck"], int(order)) > 0)
        row["open"] = False
