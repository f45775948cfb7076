"""A reader of the GBFS v3.0 feeds of a station-based bike share system, as a trip planner's would be.

It relies on these members, which GBFS v3.0 requires: of every feed `last_updated`, `ttl`, `version` ("3.0") and `data`;
of gbfs `name` and `url` of `feeds`; of system_information `name` and `languages`; of station_information `station_id`,
`name`, `lat` and `lon`; of station_status `station_id`, `num_vehicles_available`, `is_installed`, `is_renting`,
`is_returning` and `last_reported`; where there is the feed vehicle_types, its `vehicle_type_id`; where there is the
feed system_regions, its `region_id` and `name`; where there is the feed system_pricing_plans, its `plan_id`, `name`,
`currency`, `price` and `description`, and of each segment `start`, `rate` and `interval`.

It takes these where they are there: `capacity` and `region_id` of station_information; `num_docks_available`,
`num_vehicles_disabled`, `num_docks_disabled` and `vehicle_types_available` (`vehicle_type_id`, `count`) of
station_status; `name` and `default_pricing_plan_id` of vehicle_types; `per_min_pricing` and `per_km_pricing` of
system_pricing_plans, and `end` of a segment. A count that is absent is 0, and a station without capacity is as large as
its counts together. All other feeds and members are passed over, and so is a station that stands in only one of
station_information and station_status.
"""

import datetime
import http.client
import json
import re
import urllib.request
from decimal import Decimal
from pathlib import Path

SECONDS = 30
LARGEST = 64 * 1024 * 1024
TIMESTAMP = re.compile(r"(\d{4}-\d\d-\d\dT\d\d:\d\d:\d\d)(?:\.\d+)?(Z|[+-]\d\d:\d\d)", re.ASCII)


class NotGbfs(Exception):
    """What is wrong with a feed, in one line."""


def moment_of(text):
    """Returns the moment that a timestamp tells, in whole seconds of UTC, or none where it is no timestamp."""
    found = TIMESTAMP.fullmatch(text)
    try:
        moment = found and datetime.datetime.fromisoformat(found[1] + found[2].replace("Z", "+00:00"))
        return moment and moment.astimezone(datetime.timezone.utc)
    except (ValueError, OverflowError):
        return None


# What a member may be: the words for it, and the test.
WHOLE = "a whole number from 0 to 1000000000", lambda it: type(it) is int and 0 <= it <= 1_000_000_000
NUMBER = "a number", lambda it: type(it) in (int, Decimal)
TEXT = "a text", lambda it: isinstance(it, str)
FLAG = "true or false", lambda it: isinstance(it, bool)
ROWS = "a list of objects", lambda it: isinstance(it, list) and all(isinstance(row, dict) for row in it)
MOMENT = "a moment such as 2024-10-27T12:00:00Z", lambda it: isinstance(it, str) and moment_of(it) is not None


def member(row, name, kind, where):
    """Returns a member that has to be there and be of this kind."""
    if name not in row:
        raise NotGbfs(f"{where} has no {name}")
    words, holds = kind
    if not holds(row[name]):
        raise NotGbfs(f"{where}: {name} is not {words}")
    return row[name]


def optional(row, name, kind, where, absent):
    """Returns a member of this kind, or what stands for it where it is absent."""
    return member(row, name, kind, where) if name in row else absent


def by_key(rows, key, where):
    """Returns rows by a text that each has to itself."""
    found = {}
    for row in rows:
        name = member(row, key, TEXT, f"a row of {where}")
        if name in found:
            raise NotGbfs(f"{where}: {key} {name} stands twice")
        found[name] = row
    return found


def fetched(source):
    """Returns the bytes of a URL or a file."""
    try:
        if isinstance(source, Path):
            return source.read_bytes()
        if not re.match("https?://", source):
            raise NotGbfs(f"{source}: no URL of HTTP")
        with urllib.request.urlopen(source, timeout=SECONDS) as answer:
            data = answer.read(LARGEST + 1)
    except (OSError, ValueError, http.client.HTTPException) as fault:
        raise NotGbfs(f"{source}: {fault}") from fault
    if len(data) > LARGEST:
        raise NotGbfs(f"{source}: more than {LARGEST} bytes")
    return data


def no_number(text):
    """Refuses what Python reads as a number and JSON does not have: NaN and the infinities."""
    raise ValueError(f"{text} is no number")


def feed_of(source):
    """Reads a feed, and returns its moment and its data."""
    try:
        feed = json.loads(fetched(source).decode("utf-8"), parse_float=Decimal, parse_constant=no_number)
    except (ValueError, RecursionError) as fault:
        raise NotGbfs(f"{source}: no JSON of UTF-8: {fault}") from fault
    if not isinstance(feed, dict):
        raise NotGbfs(f"{source}: not an object")
    if member(feed, "version", TEXT, source) != "3.0":
        raise NotGbfs(f"{source}: version is {feed['version']!r}, not '3.0'")
    member(feed, "ttl", WHOLE, source)
    if not isinstance(feed.get("data"), dict):
        raise NotGbfs(f"{source}: data is not an object")
    return moment_of(member(feed, "last_updated", MOMENT, source)), feed["data"]


def sources_of(source):
    """Returns where each feed is, by its name: the URL that the feed gbfs tells, or the file of a folder."""
    folder = None if re.match("[a-z]+://", source) else Path(source)
    _, data = feed_of(folder / "gbfs.json" if folder else source)
    feeds = by_key(member(data, "feeds", ROWS, "gbfs"), "name", "gbfs")
    return {
        name: folder / f"{name}.json" if folder else member(row, "url", TEXT, f"gbfs, {name}")
        for name, row in feeds.items()
    }


def segment(row, unit, where):
    """Says a segment of a plan in words."""
    rate = member(row, "rate", NUMBER, where)
    start, interval = (member(row, it, WHOLE, where) for it in ("start", "interval"))
    each = "once" if interval == 0 else f"each {unit}" if interval == 1 else f"each {interval} {unit}s"
    until = f", before {unit} {member(row, 'end', WHOLE, where)}" if "end" in row else ""
    return f"from {unit} {start}: {rate} {each}{until}"


class Text(str):
    """A text that knows its language."""

    def __new__(cls, text, language):
        """The text, in this language."""
        it = super().__new__(cls, text)
        it.language = language
        return it


class System:
    """What the feeds say of a system: its name and languages, the moment of station_status, types, plans and
    stations."""

    def __init__(self, source, language=None):
        """Reads the feeds from the URL of gbfs, or from a folder. Texts are taken in this language where they are there
        in it."""
        self.sources = sources_of(source)
        _, about = self.feed("system_information")
        if not isinstance(about.get("languages"), list):
            raise NotGbfs("system_information: languages is not a list")
        languages = [it for it in about["languages"] if isinstance(it, str)]
        self.languages = sorted(languages, key=lambda it: it != language)
        self.name = self.text(about, "name", "system_information")
        self.types = self.read_types()
        self.regions = self.read_regions()
        self.plans = self.read_plans()
        _, places = self.feed("station_information")
        self.moment, states = self.feed("station_status")
        places = by_key(member(places, "stations", ROWS, "station_information"), "station_id", "station_information")
        states = by_key(member(states, "stations", ROWS, "station_status"), "station_id", "station_status")
        self.stations = [self.station(it, places[it], states[it]) for it in places if it in states]

    def feed(self, name, required=True):
        """Returns the moment and data of a feed. One that is not required, and not there, is without data."""
        if name in self.sources:
            return feed_of(self.sources[name])
        if required:
            raise NotGbfs(f"gbfs names no {name}")
        return None, {}

    def text(self, row, name, where):
        """Returns a localized text in the first of the system's languages that it has, else in its own first."""
        rows = member(row, name, ROWS, where)
        texts = [Text(member(it, "text", TEXT, where), member(it, "language", TEXT, where)) for it in rows]
        if not texts:
            raise NotGbfs(f"{where}: {name} has no text")
        return next((text for it in self.languages for text in texts if text.language == it), texts[0])

    def read_types(self):
        """Returns the name and the default plan of each vehicle type."""
        _, data = self.feed("vehicle_types", required=False)
        rows = by_key(optional(data, "vehicle_types", ROWS, "vehicle_types", []), "vehicle_type_id", "vehicle_types")
        return {
            kind: {
                "name": self.text(row, "name", f"vehicle type {kind}") if "name" in row else kind,
                "plan": optional(row, "default_pricing_plan_id", TEXT, f"vehicle type {kind}", None),
            }
            for kind, row in rows.items()
        }

    def read_regions(self):
        """Returns the name of each region."""
        _, data = self.feed("system_regions", required=False)
        rows = by_key(optional(data, "regions", ROWS, "system_regions", []), "region_id", "system_regions")
        return {region: self.text(row, "name", f"region {region}") for region, row in rows.items()}

    def read_plans(self):
        """Returns the plans."""
        _, data = self.feed("system_pricing_plans", required=False)
        rows = by_key(optional(data, "plans", ROWS, "system_pricing_plans", []), "plan_id", "system_pricing_plans")
        return [self.plan(key, row, f"plan {key}") for key, row in rows.items()]

    def plan(self, key, row, where):
        """Returns a plan's name, description and price, what it charges, and the types whose default it is."""
        charges = []
        for name, unit in ("per_min_pricing", "minute"), ("per_km_pricing", "kilometre"):
            charges += [segment(it, unit, f"{where}, {name}") for it in optional(row, name, ROWS, where, [])]
        texts = {it: self.text(row, it, where) for it in ("name", "description")}
        price = f"{member(row, 'price', NUMBER, where)} {member(row, 'currency', TEXT, where)}"
        types = [it["name"] for it in self.types.values() if it["plan"] == key]
        return {**texts, "price": price, "charges": charges, "types": types}

    def station(self, key, place, state):
        """Returns a station: its members by their names, but for counts (of each type), reported (its last report) and
        region (the name of its region, or the identifier of one that has none, or nothing)."""
        where = f"station {key}"
        names = ("num_docks_available", "num_vehicles_disabled", "num_docks_disabled")
        found = {name: optional(state, name, WHOLE, where, 0) for name in names}
        found["num_vehicles_available"] = member(state, "num_vehicles_available", WHOLE, where)
        found["capacity"] = optional(place, "capacity", WHOLE, where, sum(found.values()))
        for name, most in ("lat", 90), ("lon", 180):
            found[name] = float(member(place, name, NUMBER, where))
            if not -most <= found[name] <= most:
                raise NotGbfs(f"{where}: {name} is not from -{most} to {most}")
        for name in ("is_installed", "is_renting", "is_returning"):
            found[name] = member(state, name, FLAG, where)
        types = optional(state, "vehicle_types_available", ROWS, where, [])
        found["counts"] = {
            member(it, "vehicle_type_id", TEXT, where): member(it, "count", WHOLE, where) for it in types
        }
        found["reported"] = moment_of(member(state, "last_reported", MOMENT, where))
        region = optional(place, "region_id", TEXT, where, "")
        found["region"] = self.regions.get(region, region)
        return {"station_id": key, "name": self.text(place, "name", where), **found}
