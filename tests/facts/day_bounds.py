#!/usr/bin/env python3
"""Makes the table of facts day_bounds.tsv: when days of a dozen time zones begin and end, as Python's zoneinfo has it.

    tests/facts/day_bounds.py > tests/facts/day_bounds.tsv

A line is a zone (POSIX's TZ), a date, the moment at which that date begins there, and the one at which the next does,
in seconds since 1970. A midnight that comes twice counts when it comes first; one that is skipped, as the clock before
the gap would have it. The days are those that are no 24 hours long, their neighbours, and others drawn at random from a
fixed seed.
"""

import io
import random
import struct
from datetime import date, datetime, timedelta, timezone
from zoneinfo import ZoneInfo

EACH = 34

# Rules with a change of the clock at midnight, at other hours, over the new year, of half an hour, and with none; and
# the years.
ZONES = {
    "UTC0": (2024, 2023),
    "CET-1CEST,M3.5.0,M10.5.0/3": (2024, 2025),
    "EST5EDT,M3.2.0,M11.1.0": (2024, 2031),
    "AAA3BBB,M10.3.0/0,M2.3.0/1": (2024, 2018),
    "<-03>3<-02>,M10.3.0/0,M2.3.0/0": (2023, 2024),
    "AEST-10AEDT,M10.1.0,M4.1.0/3": (2024, 2026),
    "<+1030>-10:30<+11>-11,M10.1.0,M4.1.0": (2024, 2029),
    "IST-5:30": (2024, 1999),
    "<-04>4<-03>,M9.1.6/24,M4.1.6/24": (2024, 2022),
    "EET-2EEST,M3.5.5/0,M10.5.5/0": (2022, 2024),
    "<+0545>-5:45": (2024, 2100),
    "NZST-12NZDT,M9.5.0,M4.1.0/3": (2024, 2027),
}


def zone_of(rule):
    """The time zone of a POSIX rule, by Python: a file of the tz database with no transition and this rule behind
    it."""
    counts = struct.pack(">6l", 0, 0, 0, 0, 1, 4)
    block = struct.pack(">lBB", 0, 0, 0) + b"UTC\0"
    head = b"TZif2" + bytes(15)
    return ZoneInfo.from_file(io.BytesIO(head + counts + block + head + counts + block + b"\n" + rule.encode() + b"\n"))


def begin_of(day, zone):
    """The moment of the local midnight: of two the earlier, and where there is none, as the offset before the gap has
    it."""
    return int(
        (
            datetime(day.year, day.month, day.day, tzinfo=zone) - datetime(1970, 1, 1, tzinfo=timezone.utc)
        ).total_seconds()
    )


def days_of(zone, years):
    """Days of a zone: those whose length isn't a day's and their neighbours, then others up to the number."""
    found = set()
    for year in years:
        for number in range(364):
            day = date(year, 1, 1) + timedelta(number)
            if begin_of(day + timedelta(1), zone) - begin_of(day, zone) != 86400:
                found |= {day - timedelta(1), day, day + timedelta(1)}
    draw = random.Random(EACH)
    while len(found) < EACH:
        found.add(date(draw.choice(years), 1, 1) + timedelta(draw.randrange(364)))
    return sorted(found)


def table():
    """The lines of the table."""
    for rule, years in ZONES.items():
        zone = zone_of(rule)
        for day in days_of(zone, years):
            yield f"{rule}\t{day.isoformat()}\t{begin_of(day, zone)}\t{begin_of(day + timedelta(1), zone)}\n"


if __name__ == "__main__":
    print("".join(table()), end="")
