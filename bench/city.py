#!/usr/bin/env python3
"""Makes a city and its traffic as request lines (docs/FORMATS.md, section 1): the same ones for the same options.

    bench/city.py DIR [--stations N] [--docks N] [--types N] [--bicycles N] [--riders N] [--trucks N] [--daily N]
                      [--seed N] [--requests N] [--refused SHARE] [--repeated SHARE] [--rentals N] [--bad N]
                      [--make FILE --program PROGRAM]

It writes into the folder DIR

    setup.txt    the requests that build the city: catalogue, stations, bicycles in docks, trucks, riders with 20.00
                 each
    traffic.txt  --requests requests that may follow: starts, ends, top-ups, refunds, marks, recovered bicycles, trucks
                 on their rounds; a share is refused on purpose, a share is sent twice
    history.txt  starts and ends of --rentals rentals that may follow the setup in place of the traffic, with the
                 top-ups they need
    bad.txt      --bad lines that spell no request

With --make it has PROGRAM (by the words `lines FILE`) make a file of the setup and, where --rentals is given, the
history. Places of bicycles and balances are simulated, so that what is meant to be accepted is. A moment never goes
back.
"""

import argparse
import heapq
import itertools
import json
import os
import random
import subprocess
import sys

FIRST_MOMENT = 1_704_067_200  # 2024-01-01T00:00:00Z
DAY = 86_400
BALANCE = 2_000
PLANS = {  # price, and segments of start, rate, interval and end
    "basic": (100, [(30, 25, 5, None)]),
    "cargo": (150, [(0, 10, 1, 20), (20, 50, 10, None)]),
}
TOPPED_UP, REFUNDED, LOST, MARKED, BLOCKED = 0.15, 0.01, 0.001, 0.01, 0.005  # shares of trips


class Pool:
    """A set of which a member is drawn at random in constant time."""

    def __init__(self, members=()):
        """Holds the members."""
        self.members, self.places = [], {}
        for it in members:
            self.add(it)

    def __len__(self):
        """How many members there are."""
        return len(self.members)

    def add(self, it):
        """Adds what isn't a member."""
        self.places[it] = len(self.members)
        self.members.append(it)

    def remove(self, it):
        """Removes a member."""
        at, last = self.places.pop(it), self.members.pop()
        if last != it:
            self.members[at], self.places[last] = last, at

    def any(self, chance):
        """Draws a member."""
        return self.members[chance.randrange(len(self.members))]

    def take(self, chance):
        """Draws a member and removes it."""
        it = self.any(chance)
        self.remove(it)
        return it


def fare(plan, seconds):
    """The fare in hundredths, by docs/OPERATOR.md, section 8; seconds are below 30 days."""
    price, segments = PLANS[plan]
    for start, rate, interval, end in segments:
        last = seconds // 60 if end is None else min(seconds // 60, end - 1)
        price += rate * ((last - start) // interval + 1) if last >= start else 0
    return max(0, price)


def spelled(segment):
    """A segment as the command's text has it."""
    start, rate, interval, end = segment
    return f"{start}:{rate}:{interval}:{'-' if end is None else end}"


class City:
    """A city whose requests are told one by one; what it holds is as if each that was told had been accepted."""

    def __init__(
        self, stations=500, docks=20, types=2, bicycles=5000, riders=50000, trucks=20, daily=None, seed=1, **_
    ):
        """An empty city of these sizes; `daily` is how many trips begin a day, two for each bicycle if it isn't
        given."""
        assert 1 <= bicycles <= stations * docks * 3 // 4 and stations > 1 and types > 0 and trucks > 0 and riders > 1
        self.chance = random.Random(seed)
        self.moment, self.keys, self.turns, self.agenda = FIRST_MOMENT, itertools.count(1), itertools.count(), []
        self.stations = [f"s{it:04}" for it in range(1, stations + 1)]
        self.docks = range(1, docks + 1)
        self.types = [f"model-{it:02}" for it in range(1, types + 1)]
        self.trucks = Pool(range(1, trucks + 1))
        self.type_of = {it: self.types[(it - 1) // stations % types] for it in range(1, bicycles + 1)}
        self.riders, self.daily = riders, daily or 2 * bicycles
        self.docked = {}  # station and dock: the bicycle in it
        self.free = Pool((station, dock) for station in self.stations for dock in self.docks)
        self.ready = Pool()  # docks with a bicycle that may be taken
        self.idle, self.balance = Pool(), {}
        self.rentals = self.orders = 0

    def ask(self, caller, *fields):
        """The line of a request under a key of its own."""
        return f"{self.moment}\t{caller}\tk{next(self.keys)}\t" + "\t".join(map(str, fields)) + "\n"

    def plan_of(self, type_id):
        """The plan of a vehicle type: every second type is a cargo bicycle."""
        return "cargo" if self.types.index(type_id) % 2 else "basic"

    # The setup

    def setup(self):
        """Tells the requests that build the city."""
        office = ["office"]
        yield self.ask(
            *office, "set-system", "metro", "en", "Metro", "24/7", "feeds@example.org", "Etc/UTC", "EUR",
            "http://127.0.0.1:8080", 30,
        )
        for plan, (price, segments) in PLANS.items():
            yield self.ask(
                *office, "add-plan", plan, plan.title(), price, "true", f"From {price} on",
                ";".join(map(spelled, segments)),
            )
        for it in self.types:
            kind = (
                ("cargo_bicycle", "electric_assist", 60000) if self.plan_of(it) == "cargo" else ("bicycle", "human", 0)
            )
            yield self.ask(*office, "add-type", it, it.title(), *kind, self.plan_of(it))
        for at, it in enumerate(self.stations):
            place = f"{45 + at // 70 * 0.003:.6f}", f"{9 + at % 70 * 0.004:.6f}"
            yield self.ask(*office, "add-station", it, f"Station {at + 1}", *place, len(self.docks))
        for it in self.trucks.members:
            yield self.ask(*office, "add-truck", it, 40)
        for bike, type_id in self.type_of.items():
            yield self.ask(*office, "add-bike", bike, type_id)
        yield from self.filled()
        for rider in range(1, self.riders + 1):
            yield from self.joined(rider)

    def filled(self):
        """Trucks bring each station its bicycles, an order for each type."""
        for at, station in enumerate(self.stations):
            own = range(at + 1, len(self.type_of) + 1, len(self.stations))
            for type_id in self.types:
                bikes = [it for it in own if self.type_of[it] == type_id]
                for few in (bikes[it : it + 40] for it in range(0, len(bikes), 40)):
                    yield from (
                        it for it in self.carried(1 + at % len(self.trucks), "*", station, few) if isinstance(it, str)
                    )

    def joined(self, rider):
        """A rider is added, with a balance."""
        yield self.ask("office", "add-rider", rider)
        yield self.ask("office", "top-up", rider, BALANCE)
        self.idle.add(rider)
        self.balance[rider] = BALANCE

    # What happens: each is a generator of lines, and of seconds that pass before it goes on

    def park(self, bike, station=None):
        """Puts a bicycle into a free dock, of the station if one is named, and returns the dock."""
        if station is None:
            place = self.free.take(self.chance)
        else:
            place = next((station, it) for it in self.docks if (station, it) in self.free.places)
            self.free.remove(place)
        self.docked[place] = bike
        self.ready.add(place)
        return place

    def leave(self, place):
        """Takes the bicycle out of a dock where one is ready, and returns it."""
        self.ready.remove(place)
        self.free.add(place)
        return self.docked.pop(place)

    def carried(self, truck, source, target, bikes):
        """A truck carries bicycles of one type from a station, or `*`, to a station."""
        self.orders += 1
        order, crew, type_id = self.orders, f"crew:{truck}", self.type_of[bikes[0]]
        yield self.ask("office", "open-order", truck, source, target, type_id, len(bikes))
        aboard = []
        for bike in bikes:
            here = ((source, dock) for dock in self.docks if (source, dock) in self.ready.places)
            place = next((it for it in here if self.docked[it] == bike), None)
            if source == "*" or place:
                aboard.append(self.leave(place) if place else bike)
                yield self.ask(crew, "load", truck, order, bike)
                yield 20
        for bike in aboard:
            while not any((target, it) in self.free.places for it in self.docks):
                yield 300
            yield self.ask(crew, "unload", truck, order, bike, "to", self.park(bike, target)[1])
            yield 20
        yield self.ask("office", "close-order", order)

    def round(self):
        """A truck takes a few bicycles from one of the fuller stations to one of the emptier ones."""
        few = self.chance.sample(self.stations, min(6, len(self.stations)))
        ready = {it: [(it, dock) for dock in self.docks if (it, dock) in self.ready.places] for it in few}
        source, target = max(few, key=lambda it: len(ready[it])), min(few, key=lambda it: len(ready[it]))
        if source == target or not ready[source] or not len(self.trucks):
            return
        bikes = [self.docked[it] for it in ready[source]]
        bikes = [it for it in bikes if self.type_of[it] == self.type_of[bikes[0]]][:4]
        truck = self.trucks.take(self.chance)
        yield from self.carried(truck, source, target, bikes)
        self.trucks.add(truck)

    def topped_up(self, rider):
        """The line of a top-up of 5.00, 10.00 or 20.00."""
        amount = self.chance.choice((500, 1000, 2000))
        self.balance[rider] += amount
        return self.ask("office", "top-up", rider, amount)

    def trip(self, plain=False):
        """A rider takes a bicycle from one dock to another; a plain trip has nothing beside its start and end and what
        it needs."""
        if not len(self.idle) or not len(self.ready):
            return
        rider = self.idle.take(self.chance)
        while self.balance[rider] < 0:
            yield self.topped_up(rider)
        if not plain and self.chance.random() < TOPPED_UP:
            yield self.topped_up(rider)
        place = self.ready.any(self.chance)
        bike, began = self.leave(place), self.moment
        self.rentals += 1
        rental = self.rentals
        yield self.ask(f"rider:{rider}", "start", rider, *place)
        yield 60 + int(min(self.chance.expovariate(1 / 840), 10_000))
        price = fare(self.plan_of(self.type_of[bike]), self.moment - began)
        self.balance[rider] -= price
        if not plain and self.chance.random() < LOST:
            yield self.ask("office", "recover", rental)
            self.begin(self.repaired(bike))
        else:
            place = self.park(bike)
            yield self.ask(f"dock:{place[0]}", "end", bike, *place)
            if not plain:
                yield from self.after_trip(place, rider, rental, price)
        self.idle.add(rider)

    def after_trip(self, place, rider, rental, price):
        """What comes of some trips: a refund, a rider who is blocked for a while, a bicycle or a dock out of order for
        a while."""
        if price and self.chance.random() < REFUNDED:
            yield self.ask("office", "refund", rental, min(price, 100))
            self.balance[rider] += min(price, 100)
        if self.chance.random() < BLOCKED:
            yield self.ask("office", "set-rider", rider, "blocked")
            yield 3600
            yield self.ask("office", "set-rider", rider, "open")
        if self.chance.random() < MARKED:
            self.begin(self.marked())

    def marked(self):
        """A bicycle in its dock, or an empty dock, is out of order for half an hour."""
        pool = self.ready if self.chance.random() < 0.5 else self.free
        if not len(pool):
            return
        place = pool.take(self.chance)
        dock = f"dock:{place[0]}"
        words = (
            ("mark-bike", self.docked[place], "disabled", "fit")
            if pool is self.ready
            else ("mark-dock", *place, "broken", "working")
        )
        yield self.ask(dock, *words[:-1])
        yield 1800
        yield self.ask(dock, *words[:-2], words[-1])
        pool.add(place)

    def repaired(self, bike):
        """A recovered bicycle is made fit in the depot and brought back."""
        yield 7200
        yield self.ask("office", "mark-bike", bike, "fit")
        while not len(self.trucks):
            yield 60
        truck = self.trucks.take(self.chance)
        yield from self.carried(truck, "*", self.free.any(self.chance)[0], [bike])
        self.trucks.add(truck)

    # The traffic

    def begin(self, happening, after=0):
        """Puts what happens into the agenda, to begin or go on after so many seconds."""
        heapq.heappush(self.agenda, (self.moment + after, next(self.turns), happening))

    def every(self, seconds, happening):
        """Begins what happens again and again, seconds apart in the mean."""
        late = 0.0
        while True:
            late += self.chance.expovariate(1 / seconds)
            yield int(late)
            late -= int(late)
            self.begin(happening())

    def lines(self):
        """Tells, without end, the requests of what is in the agenda, by their moments."""
        while True:
            self.moment, _, happening = heapq.heappop(self.agenda)
            for it in happening:
                if isinstance(it, int):
                    self.begin(happening, it)
                    break
                yield it

    def wrong(self):
        """A request that is refused."""
        chance, idle = self.chance, self.idle.any(self.chance)
        station, dock = self.free.any(chance)
        taken = self.ready.any(chance)
        return chance.choice((
            lambda: self.ask(f"rider:{self.riders + 1}", "start", self.riders + 1, *taken),
            lambda: self.ask(f"rider:{idle}", "start", idle, station, dock),
            lambda: self.ask(f"dock:{station}", "end", self.docked[taken], station, dock),
            lambda: self.ask("office", "top-up", idle, 0),
            lambda: self.ask("office", "add-rider", idle),
            lambda: self.ask("office", "refund", self.rentals + 1000, 100),
            lambda: f"{self.moment}\toffice\tk1\tadd-rider\t{self.riders + 1}\n",
        ))()

    def traffic(self, refused=0.02, repeated=0.01):
        """Tells mixed traffic without end."""
        self.begin(self.every(DAY / self.daily, self.trip))
        self.begin(self.every(25 * DAY / self.daily, self.round))
        for line in self.lines():
            yield line
            if self.chance.random() < repeated:
                yield line
            if self.chance.random() < refused:
                yield self.wrong()

    def history(self):
        """Tells plain trips alone, without end."""
        self.begin(self.every(DAY / self.daily, lambda: self.trip(plain=True)))
        return self.lines()


def until_rentals(lines, most):
    """The lines of a history up to the end of as many rentals."""
    for line in lines:
        yield line
        most -= line.split("\t", 4)[3] == "end"
        if most <= 0:
            return


def bad_lines(count, seed=1):
    """Tells lines that spell no request: each is answered `refused 11 bad_field`."""
    chance = random.Random(seed)
    moment = FIRST_MOMENT
    for key in range(count):
        rider, dock = chance.randint(1, 50000), chance.randint(1, 20)
        yield chance.choice((
            f"{moment}\trider:{rider}\tb{key}\tstart\t{rider}\tS0001\t{dock}\n",
            f"{moment}\trider:{rider}\tb{key}\tstart\t{rider}\ts0001\n",
            f"{moment}\trider:0{rider}\tb{key}\tstart\t{rider}\ts0001\t{dock}\n",
            f"{moment}\tdock:s0001\tb{key}\tend\t{rider}\ts0001\t{dock + 500}\n",
            f"{moment}\toffice\tb{key}!\ttop-up\t{rider}\t500\n",
            f"{moment}\toffice\tb{key}\ttop-up\t{rider}\t1000001\n",
            f"{moment}\toffice\tb{key}\ttopup\t{rider}\t500\n",
            f"{moment} office b{key} top-up {rider} 500\n",
        ))


def post(line):
    """The HTTP request that asks what a line asks, as bytes; its moment is the server's."""
    _, caller, key, command = line.rstrip("\n").split("\t", 3)
    word, *fields = command.split("\t")
    name = caller.partition(":")[2]
    number = [int(it) if it.isdigit() else it for it in fields]
    path, members = {
        "start": lambda: (f"/riders/{name}/start", {"station": fields[1], "dock": number[2]}),
        "end": lambda: (f"/docks/{name}/end", {"bike": number[0], "dock": number[2]}),
        "mark-dock": lambda: (f"/docks/{name}/mark-dock", {"dock": number[1], "state": fields[2]}),
        "load": lambda: (f"/crews/{name}/load", {"order": number[1], "bike": number[2]}),
        "unload": lambda: (
            f"/crews/{name}/unload", {"order": number[1], "bike": number[2], "side": fields[3], "dock": number[4]}
        ),
    }.get(word, lambda: ("/office", {"command": command}))()
    if word == "mark-bike" and caller.startswith("dock:"):
        path, members = f"/docks/{name}/mark-bike", {"bike": number[0], "state": fields[1]}
    body = json.dumps({"key": key, **members}, separators=(",", ":"))
    head = (
        f"POST {path} HTTP/1.1\r\nHost: 127.0.0.1\r\nContent-Type: application/json\r\n"
        f"Content-Length: {len(body)}\r\n\r\n"
    )
    return (head + body).encode()


def words(given):
    """What the command line asks for."""
    reader = argparse.ArgumentParser(description=__doc__, formatter_class=argparse.RawDescriptionHelpFormatter)
    reader.add_argument("folder", metavar="DIR")
    sizes = {
        "stations": 500, "docks": 20, "types": 2, "bicycles": 5000, "riders": 50000, "trucks": 20, "daily": None,
        "seed": 1,
    }
    for name, size in {**sizes, "requests": 100_000, "rentals": 0, "bad": 0}.items():
        reader.add_argument(f"--{name}", type=int, default=size, metavar="N")
    reader.add_argument("--refused", type=float, default=0.02, metavar="SHARE")
    reader.add_argument("--repeated", type=float, default=0.01, metavar="SHARE")
    reader.add_argument("--make", metavar="FILE")
    reader.add_argument("--program")
    return reader.parse_args(given)


def main(given):
    """Writes the lists, and makes the file."""
    asked = words(given)
    os.makedirs(asked.folder, exist_ok=True)
    file = {it: os.path.join(asked.folder, f"{it}.txt") for it in ("setup", "traffic", "history", "bad")}

    def write(name, lines):
        """Writes one list."""
        with open(file[name], "w", encoding="ascii") as out:
            out.writelines(lines)

    city = City(**vars(asked))
    write("setup", city.setup())
    write("traffic", itertools.islice(city.traffic(asked.refused, asked.repeated), asked.requests))
    write("bad", bad_lines(asked.bad, asked.seed))
    if asked.rentals:
        city = City(**vars(asked))
        for _ in city.setup():
            pass
        write("history", until_rentals(city.history(), asked.rentals))
    for name in ("setup", "history") if asked.make and asked.rentals else ("setup",) if asked.make else ():
        with open(file[name], "rb") as lines:
            subprocess.run([asked.program, "lines", asked.make], stdin=lines, stdout=subprocess.DEVNULL, check=True)
    return 0


if __name__ == "__main__":
    sys.exit(main(sys.argv[1:]))
