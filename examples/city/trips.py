"""The requests that the tour makes up: the fleet, the orders that bring it to the docks, and a day of trips.

Every request is told to the model of the city as it is made, so its wanted answer stands beside it, and what riders and
crews do next follows from it. Moments are in seconds of UTC. Chance comes from Random.random alone, which gives the
same numbers in every Python.
"""

import heapq
import itertools
import math
import random

OPENED = 1730016000  # Sunday 2024-10-27, 08:00 UTC: the trips begin
LASTS = 57000  # for so many seconds, to 23:50 UTC, further trips begin
MIDDAY, AFTERNOON = 1730030400, 1730044800  # 12:00 and 16:00 UTC: the trucks go out
EVENING = 1730052000  # 18:00 UTC: the evening's plan begins
AT_HOME, IN_TOWN = "nsw", "oh"  # where people live and where they go, by the first letter of a station


class Requests:
    """Request lines in the order of their moments, each with the answer that the model gives it."""

    def __init__(self, city, prefix):
        """Begins with none; keys are the prefix with a number."""
        self.city, self.lines, self.wanted = city, [], []
        self.keys = (f"{prefix}{number}" for number in itertools.count(1))

    def ask(self, at, caller, *command):
        """Adds a request under a key of its own, and returns the words of its answer."""
        line = "\t".join(map(str, (at, caller, next(self.keys), *command)))
        self.lines.append(line)
        self.wanted.append(self.city.answer(line))
        return self.wanted[-1].split("\t")

    def again(self, at, line):
        """Sends a request once more, at another moment."""
        self.lines.append("\t".join([str(at), *line.split("\t")[1:]]))
        self.wanted.append(self.city.answer(self.lines[-1]))


def kinds_of(docks):
    """How many bicycles of each type a station of so many docks begins the day with."""
    return {"city": docks * 45 // 100, "electric": docks * 15 // 100, "cargo": int(docks >= 20)}


def riders_of(trips):
    """The riders of so many trips: 101 and up, one for four trips, at least 40."""
    return range(101, 101 + max(40, trips // 4))


def fleet(city, at, trips):
    """Adds the bicycles, 1001 and up, 2001 and up, 3001 and up by type, and the riders with 5.00 to 20.00 each."""
    asked, draw = Requests(city, "fleet"), random.Random(1)
    for first, kind in ((1001, "city"), (2001, "electric"), (3001, "cargo")):
        for number in range(sum(kinds_of(it["docks"])[kind] for it in city.stations.values())):
            asked.ask(at, "office", "add-bike", first + number, kind)
    for rider in riders_of(trips):
        asked.ask(at, "office", "add-rider", rider)
        asked.ask(at, "office", "top-up", rider, 500 + 100 * int(draw.random() * 16))
    return asked


def orders(city, at):
    """Brings the bicycles from the depot to the docks by an order for each station and type: docks 1 and up, lowest
    number first."""
    asked, order = Requests(city, "docks"), 0
    waiting = {kind: [bike for bike, it in city.bikes.items() if it["type"] == kind] for kind in city.types}
    for station, row in city.stations.items():
        dock = 0
        for kind, count in kinds_of(row["docks"]).items():
            if not count:
                continue
            order, bikes = order + 1, [waiting[kind].pop(0) for _ in range(count)]
            truck = order % len(city.trucks) + 1
            asked.ask(at, "office", "open-order", truck, "*", station, kind, count)
            for bike in bikes:
                asked.ask(at, f"crew:{truck}", "load", truck, order, bike)
            for bike in bikes:
                dock += 1
                asked.ask(at + 60, f"crew:{truck}", "unload", truck, order, bike, "to", dock)
            asked.ask(at + 60, "office", "close-order", order)
            at += 120
    return asked


class Day:
    """A day of trips: what happens when, each happening making requests and further happenings."""

    def __init__(self, city, trips):
        """Plans so many trips, the crews' ways, and the evening's plan."""
        self.city, self.asked, self.draw = city, Requests(city, "day"), random.Random(27)
        self.riders, self.coming, self.order = riders_of(trips), [], itertools.count()
        for number in range(trips):
            # Most begin in the afternoon, where the mean of two draws lies, and some at any time.
            draws = [self.draw.random() for _ in range(1 if self.likely(0.3) else 2)]
            self.plan(OPENED + int(LASTS * sum(draws) / len(draws)), self.trip)
        for at, truck in itertools.product((MIDDAY, AFTERNOON), city.trucks):
            self.plan(at + 300 * truck, self.carry, truck)
        self.plan(EVENING, lambda now: self.asked.ask(now, "office", "set-plan", "city", "evening"))

    def play(self):
        """Plays the day to its last happening, and returns its requests."""
        while self.coming:
            at, _, happens, about = heapq.heappop(self.coming)
            happens(at, *about)
        return self.asked

    def plan(self, at, happens, *about):
        """Has something happen at a moment."""
        heapq.heappush(self.coming, (at, next(self.order), happens, about))

    def one_of(self, things):
        """One thing of a list, by chance."""
        return things[int(self.draw.random() * len(things))]

    def likely(self, share):
        """True by chance, in this share of cases."""
        return self.draw.random() < share

    def docks(self, station, with_bike):
        """The working docks of a station that hold a fit bicycle, or those that hold none."""
        numbers = range(1, self.city.stations[station]["docks"] + 1)
        working = [it for it in numbers if (station, it) not in self.city.broken]
        if not with_bike:
            return [it for it in working if (station, it) not in self.city.docked]
        bikes = {it: self.city.docked.get((station, it)) for it in working}
        return [it for it, bike in bikes.items() if bike is not None and self.city.bikes[bike]["fit"]]

    def some_station(self, at, going):
        """A station to go to, or to come from, by chance and size: before 16:00 rather from home to town, afterwards
        home again."""
        liked = IN_TOWN if going == (at < AFTERNOON) else AT_HOME
        sizes = [(it, row["docks"] * (1.2 if it[0] in liked else 1)) for it, row in self.city.stations.items()]
        left = self.draw.random() * sum(size for _, size in sizes)
        for station, size in sizes:
            left -= size
            if left < 0:
                break
        return station

    def kilometres(self, one, other):
        """How far two stations are from each other, on a flat map."""
        here, there = self.city.stations[one], self.city.stations[other]
        north = float(here["lat"]) - float(there["lat"])
        east = (float(here["lon"]) - float(there["lon"])) * math.cos(math.radians(float(here["lat"])))
        return 111.2 * math.hypot(north, east)

    def trip(self, at):
        """A rider begins at some station: mostly at a good dock, sometimes at any, or while riding."""
        station = self.some_station(at, going=False)
        riding = self.likely(0.02)
        some = (self.one_of(self.riders) for _ in range(50))
        self.begin(
            at, next((it for it in some if bool(self.city.riders[it]["rental"]) == riding), self.riders[0]), station
        )

    def begin(self, at, rider, station):
        """The rider takes a bicycle and is to arrive somewhere, or tops up and tries once more, or goes away."""
        good = self.docks(station, with_bike=True)
        dock = (
            self.one_of(good)
            if good and not self.likely(0.03)
            else 1 + int(self.draw.random() * self.city.stations[station]["docks"])
        )
        answer = self.asked.ask(at, f"rider:{rider}", "start", rider, station, dock)
        if answer[0] == "rental":
            to = self.some_station(at, going=True)
            minutes = 2 + 6 * self.kilometres(station, to) * (1 + self.draw.random()) + (
                90 * self.draw.random() if self.likely(0.1) else 0
            )
            self.plan(at + int(60 * minutes), self.arrive, rider, int(answer[2]), to)
        elif answer[-1] == "balance_negative":
            self.asked.ask(at, "office", "top-up", rider, 1000)
            self.plan(at + 60, self.begin, rider, station)

    def arrive(self, at, rider, bike, station):
        """The rider brings the bicycle to a free dock, or finds none and goes to the nearest station that has one."""
        free = self.docks(station, with_bike=False)
        dock = (
            self.one_of(free)
            if free and not self.likely(0.03)
            else 1 + int(self.draw.random() * self.city.stations[station]["docks"])
        )
        answer = self.asked.ask(at, f"dock:{station}", "end", bike, station, dock)
        if answer[0] == "fare":
            self.ended(at, station, dock, bike, int(answer[1]))
            return
        others = sorted((it for it in self.city.stations if it != station), key=lambda it: self.kilometres(station, it))
        stays = free and answer[-1] != "not_returning"
        next_one = station if stays else next(it for it in others if self.docks(it, with_bike=False))
        self.plan(at + 30 + int(360 * self.kilometres(station, next_one)), self.arrive, rider, bike, next_one)

    def ended(self, at, station, dock, bike, fare):
        """What may follow: the dock asks again, is or becomes broken, the bicycle has a fault, the rider gets money
        back."""
        if self.likely(0.02):
            self.plan(at + 5, self.asked.again, self.asked.lines[-1])
        if self.likely(0.006):
            self.asked.ask(at, f"dock:{station}", "mark-dock", station, dock, "broken")
        if self.likely(0.006):
            self.asked.ask(at, f"dock:{station}", "mark-bike", bike, "disabled")
        if fare and self.likely(0.01):
            number = max(it for it, row in enumerate(self.city.rentals, 1) if row["bike"] == bike)
            self.plan(at + 600, lambda now: self.asked.ask(now, "office", "refund", number, fare // 2))

    def carry(self, at, truck):
        """A crew takes up to eight city bicycles from the fullest station, and brings them to the emptiest."""
        share = {it: len(self.docks(it, with_bike=True)) / row["docks"] for it, row in self.city.stations.items()}
        begin, end = max(share, key=share.get), min(share, key=share.get)
        order = int(self.asked.ask(at, "office", "open-order", truck, begin, end, "city", 8)[1])
        found = [self.city.docked[begin, dock] for dock in self.docks(begin, with_bike=True)]
        taken = [bike for bike in found if self.city.bikes[bike]["type"] == "city"][:8]
        for bike in taken:
            self.asked.ask(at, f"crew:{truck}", "load", truck, order, bike)
        self.plan(at + 240, self.deliver, truck, order, end, taken)

    def deliver(self, at, truck, order, station, bikes):
        """The crew puts the bicycles into free docks, as many as there are, and the order is closed."""
        for bike, dock in zip(bikes, self.docks(station, with_bike=False)):
            self.asked.ask(at, f"crew:{truck}", "unload", truck, order, bike, "to", dock)
        self.asked.ask(at, "office", "close-order", order)
