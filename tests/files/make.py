#!/usr/bin/env python3
"""Made the files that stand here, each once, with the last program that writes its schema. No later program can.

    tests/files/make.py PROGRAM NAME ..

Each city is served from its request lines, closed, and kept as NAME.db.gz; NAME.json tells what that program showed of
it: its feeds for one moment, its day tables, the answers of `lines` to some lines sent to a copy, and `check`.
README.md tells what a later program owes.
"""

import gzip
import importlib.machinery
import importlib.util
import json
import subprocess
import sys
import tempfile
from pathlib import Path

sys.dont_write_bytecode = True
HERE = Path(__file__).resolve().parent
TOP = HERE.parent.parent
FEEDS = ["gbfs", "system_information", "vehicle_types", "station_information", "station_status", "system_pricing_plans"]
EXAMPLE = TOP / "examples/city"


class Made:
    """A city's file in the making."""

    def __init__(self, program, folder):
        self.program, self.folder = program, folder

    def run(self, *words, given=b""):
        """Runs the program over a file of the folder, and returns its output; anything but status 0 in silence ends it
        all."""
        ran = subprocess.run([self.program, *words], input=given, cwd=self.folder, capture_output=True, timeout=300)
        assert not ran.returncode and not ran.stderr, (words, ran.returncode, ran.stderr)
        return ran.stdout

    def keep(self, name, moment, days, again, feeds=FEEDS):
        """Keeps the file and what the program shows of it."""
        kept = (self.folder / "city.db").read_bytes()
        for copy in ("alone.db", "again.db"):
            (self.folder / copy).write_bytes(kept)
        feeds = {it: self.run("feed", "alone.db", it, "--at", str(moment)).decode() for it in feeds}
        tables = [
            [which, date, zone, self.run("day", "alone.db", which, date, zone).decode()]
            for date, zone in days
            for which in ("entries", "rentals")
        ]
        assert self.run("check", "alone.db") == b"sound\n"
        (HERE / f"{name}.db.gz").write_bytes(gzip.compress(kept, 9, mtime=0))
        answers = self.run("lines", "again.db", given="".join(f"{it}\n" for it in again).encode()).decode().splitlines()
        shown = {
            "moment": moment,
            "feeds": feeds,
            "days": tables,
            "lines": [list(it) for it in zip(again, answers, strict=True)],
        }
        (HERE / f"{name}.json").write_text(json.dumps(shown, ensure_ascii=False, indent=1) + "\n", encoding="utf-8")


def served(program, folder, name, given, moment, days, new, feeds=FEEDS):
    """Serves the lines into a new file and keeps it; all of the lines are sent again, and then the new ones."""
    made = Made(program, folder)
    made.run("lines", "city.db", given=given)
    made.keep(name, moment, days, [*given.decode().splitlines(), *new], feeds)


def example(program, folder):
    """The city of the examples after its morning, by the example's own steps, with its feeds at one URL."""
    sys.path.insert(0, str(EXAMPLE))
    loader = importlib.machinery.SourceFileLoader("example_city", str(EXAMPLE / "run"))
    spec = importlib.util.spec_from_loader("example_city", loader)
    city = importlib.util.module_from_spec(spec)
    loader.exec_module(city)
    tour = city.Tour(program, folder, 40)
    tour.url = "http://127.0.0.1:8080"
    for step in (city.init, city.setup, city.stations, city.fleet, city.docks, city.morning):
        step(tour)
    again = (EXAMPLE / "morning.in").read_text(encoding="utf-8").replace("BASE_URL", tour.url).splitlines()
    Made(program, folder).keep("city", tour.city.now, [(city.DAY, city.ZONE), ("2024-10-26", city.ZONE)], again)


def main(words):
    program = str(Path(words[0]).resolve())
    for name in words[1:]:
        with tempfile.TemporaryDirectory(prefix="bikeshare-files-") as folder:
            folder = Path(folder)
            if name == "city":
                example(program, folder)
            elif name == "tour":
                new, given = ["1700003000\trider:17\ts9\tstart\t17\ta1\t2"], (TOP / "docs/tour.txt").read_bytes()
                served(program, folder, name, given, 1700000600, [("2023-11-14", "UTC0")], new)
            elif name == "regions":
                new = ["1700100000\toffice\tn1\tset-region\ta1\t*", "1700100000\toffice\tn2\tset-region\tb2\twest"]
                days, given = [("2023-11-15", "UTC0")], (HERE / "regions.in").read_bytes()
                served(program, folder, name, given, 1700050000, days, new, [*FEEDS, "system_regions"])
            elif name == "names":
                new = [
                    "1700100000\toffice\tn1\tadd-name\tstation\ta1\tes\tPuerto",
                    "1700100000\toffice\tn2\tadd-name\tstation\te5\tfr\tHalle",
                    "1700100000\toffice\tn3\tadd-name\tstation\te5\tes\tSala",
                    "1700100000\toffice\tn4\tadd-name\tsystem\tother\tes\tOtro",
                    "1700100000\toffice\tn5\tmark-dock\te5\t499\tbroken",
                    "1700100000\toffice\tn6\tmark-dock\te5\t501\tbroken",
                ]
                days, given = [("2023-11-15", "UTC0")], (HERE / "names.in").read_bytes()
                served(program, folder, name, given, 1700050000, days, new, [*FEEDS, "system_regions"])
            else:
                new = [
                    "1700100000\toffice\tn1\ttop-up\t17\t100", "1700100000\toffice\tn2\tadd-station\td4\tNew\t1\t2\t200"
                ]
                days = [("2023-11-14", "UTC0"), ("2023-11-15", "CET-1CEST,M3.5.0,M10.5.0/3")]
                served(program, folder, name, (HERE / "every.in").read_bytes(), 1700050000, days, new)


if __name__ == "__main__":
    main(sys.argv[1:])
