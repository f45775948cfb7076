"""Hostile inputs from a seeded generator: request lines and words of the command line. HTTP requests that are made of
the same have a file of their own, hostile_http.py.

Whatever comes, the program neither crashes nor hangs. Each line is answered exactly once, as the operator in model.py
answers it; words end with a status of docs/OPERATOR.md, section 12, and its line. Afterwards `check` says `sound`, and
the feeds tell all names that the operator has, what of the system may be changed, and where stations stand.

Some 2,000 inputs stand in the gate. By hand, from the environment:

    BIKESHARE_INPUTS=100000 BIKESHARE_SEED=7 tests/run hostile

BIKESHARE_INPUTS is how many inputs are made in all, six of ten lines, three HTTP requests and one a list of words;
BIKESHARE_SEED is what they are made from. A failure tells the seed and the input.
"""

import contextlib
import os
import random
import re
import socket
import subprocess
import threading
from pathlib import Path

import corrections
import feeds
import formats
import model
from shared import accepted, data_of, get, is_sound, line_of, requests_of, rest, tells_mistake, told

INPUTS = int(os.environ.get("BIKESHARE_INPUTS", "2000"))
SEED = int(os.environ.get("BIKESHARE_SEED", "1"))
SECONDS = 40


# ---- what inputs are made of

TYPES, PLANS, STATIONS, REGIONS = (
    ["city", "cargo", "none"], ["basic", "day", "none"], ["a1", "b2", "c3", "zz"], ["north", "south", "a1", "zz"]
)
NAMED = {
    "system": ["metro", "other"], "station": STATIONS, "type": TYPES, "plan": PLANS, "description": PLANS,
    "region": REGIONS,
}
TEXTS = [
    "Name", "Łódź 🚲", "a\\tb", "\\\\", "\\n\\r", "\\x", "\\", "", "é" * 60, "é" * 61, "n" * 120, "n" * 121, " ", "\x7f",
    "\x01", "\u0085", "\u2028", "\ufeff", "\U0010ffff", "'; DROP TABLE bikes; --", "%s%n", "../..", '"', "\u202e",
]
DEGREES = "0 -0 45.5 -45.123456 007 90 180 90.000001 -180 180.000001 1. .5 +1 1.0000000 x 000.0 0000".split()
SEGMENTS = [
    "-", "30:25:5:-", "0:-60:0:30;20:50:10:-", "1:2:3:1", "0:-0:1:-", ":::", "1:1:1:-;", "0:1:1:5;" * 8 + "0:1:1:5",
    "100000:-100000:100000:-", "",
]
LANGUAGES, CURRENCIES = ["en", "e", "x" * 35, "x" * 36, "e n"], ["EUR", "eur", "EURO"]
FURTHER = ["en", "de", "DE", "fr", "it", "zh-Hant-TW", "00", "--", "x" * 35]
FORMS, PROPULSIONS, RANGES = (
    ["bicycle", "cargo_bicycle", "boat"], ["human", "electric_assist"], ["0", "60000", "1000001"]
)
BIG = [
    "4294967296", "18446744073709551616", "9" * 30, "9" * 400, "-1", "+1", "01", "1.0", "1e3", "0x10", "٣", "¹", "",
    "١٢",
]


def numbers(pick, least, most):
    """Mostly a number within its bounds, and mostly a small one."""
    kind = pick.random()
    if kind < 0.9:
        return str(pick.randint(least, min(most, least + 12)))
    if kind < 0.95:
        return str(pick.choice([least, most, most + 1, max(0, least - 1), pick.randint(least, most)]))
    return pick.choice(BIG)


class Fields:
    """Draws the fields of commands, mostly good ones."""

    def __init__(self, pick):
        self.pick = pick

    def mostly(self, often, good, bad):
        """One of the good ones so often, else one of the bad."""
        return self.pick.choice(good) if self.pick.random() < often else self.pick.choice(bad)

    def number(self, least, most):
        return numbers(self.pick, least, most)

    def bike(self):
        return self.number(1, 999_999) if self.pick.random() < 0.1 else str(self.pick.randint(1, 20))

    rider = bike

    def truck(self):
        return self.pick.choice(["1", "2", "3", self.bike()])

    def serial(self):
        return self.number(1, 100_000_000)

    def text(self):
        return self.pick.choice(TEXTS) if self.pick.random() < 0.2 else "Name"

    def flag(self):
        return self.mostly(0.95, ["true", "false"], ["True", "1", "", "yes"])

    def degrees(self):
        return self.pick.choice(DEGREES)

    def place(self):
        """A latitude and a longitude, mostly such that both are read."""
        return [self.mostly(0.6, ["-0.5", "45.5", "007"], DEGREES) for _ in range(2)]

    def segments(self):
        return self.pick.choice(SEGMENTS)

    def station(self):
        return self.mostly(0.9, STATIONS, ["A1", "", "*", "a" * 36, "a" * 37, "a b"])

    def end(self):
        return "*" if self.pick.random() < 0.4 else self.station()

    def region(self):
        return self.mostly(0.9, REGIONS, ["North", "", "*", "**", "r" * 36, "r" * 37, "a b"])

    def kind(self):
        return self.pick.choice(TYPES)

    def dock(self):
        return self.number(1, formats.MOST_DOCKS) if self.pick.random() < 0.2 else str(self.pick.randint(1, 6))

    def named(self):
        """The fields of add-name, as of set-name."""
        what = self.pick.choice(list(NAMED))
        if self.pick.random() < 0.9:
            ident = self.pick.choice(NAMED[what])
        else:
            ident = self.pick.choice([self.station(), self.region()])
        good = self.pick.random() < 0.9
        if not good:
            what = self.pick.choice(["Station", "", "bike", "stations", "system "])
        language = self.mostly(0.6, ["en", "de"], FURTHER) if good else self.pick.choice(LANGUAGES)
        return [what, ident, language, self.text()]


def of_the_catalogue(pick, some):
    """How the fields are drawn of the commands that set up a city."""
    return {
        "set-system": lambda: [
            "metro", pick.choice(LANGUAGES), some.text(), some.text(), some.text(), some.text(),
            pick.choice(CURRENCIES), some.text(), some.number(0, 86_400),
        ],
        "change-system": lambda: [some.text() for _ in range(5)] + [some.number(0, 86_400)],
        "add-plan": lambda: [
            pick.choice(["basic", "day", f"p{pick.randint(0, 300)}"]), some.text(), some.number(0, 1_000_000),
            some.flag(), some.text(), some.segments(),
        ],
        "add-type": lambda: [
            pick.choice(["city", "cargo", f"t{pick.randint(0, 40)}"]), some.text(), pick.choice(FORMS),
            pick.choice(PROPULSIONS), pick.choice(RANGES), pick.choice(PLANS),
        ],
        "set-plan": lambda: [some.kind(), pick.choice(PLANS)],
        "add-station": lambda: [
            pick.choice([some.station(), f"s{pick.randint(0, 500)}"]), some.text(), some.degrees(), some.degrees(),
            some.dock(),
        ],
        "move-station": lambda: [some.station(), *some.place()],
        "add-docks": lambda: [some.station(), some.dock()],
        "set-station": lambda: [some.station(), some.flag(), some.flag(), some.flag()],
        "add-region": lambda: [pick.choice([some.region(), f"r{pick.randint(0, 300)}"]), some.text()],
        "set-region": lambda: [some.station(), "*" if pick.random() < 0.3 else some.region()],
        "mark-dock": lambda: [some.station(), some.dock(), pick.choice(["broken", "working", "fit"])],
        "add-bike": lambda: [some.bike(), some.kind()],
    }


def of_the_day(pick, some):
    """How the fields are drawn of the others, and of one that there isn't."""
    return {
        "mark-bike": lambda: [some.bike(), pick.choice(["disabled", "fit", "broken"])],
        "retire-bike": lambda: [some.bike()],
        "add-rider": lambda: [some.rider()],
        "set-rider": lambda: [some.rider(), pick.choice(["open", "blocked", ""])],
        "top-up": lambda: [some.rider(), some.number(1, 1_000_000)],
        "refund": lambda: [some.serial(), some.number(1, 1_000_000)],
        "start": lambda: [some.rider(), some.station(), some.dock()],
        "end": lambda: [some.bike(), some.station(), some.dock()],
        "recover": lambda: [some.serial()],
        "add-truck": lambda: [some.truck(), some.number(1, 60)],
        "open-order": lambda: [some.truck(), some.end(), some.end(), some.kind(), some.number(1, 60)],
        "load": lambda: [some.truck(), some.serial(), some.bike()],
        "unload": lambda: [
            some.truck(), some.serial(), some.bike(), pick.choice(["from", "to"]), pick.choice(["0", some.dock()])
        ],
        "close-order": lambda: [some.serial()],
        "add-name": some.named,
        "set-name": some.named,
        "remove-name": lambda: some.named()[:3],
        "raise": lambda: [""],
    }


def command(pick):
    """The words of a command, mostly a good one."""
    some = Fields(pick)
    made = {**of_the_catalogue(pick, some), **of_the_day(pick, some)}
    often = ["start", "end", "load", "unload", "open-order", "add-bike", "top-up", "mark-bike", "mark-dock"]
    often += ["add-name", "set-name", "remove-name"]
    name = pick.choice(often if pick.random() < 0.6 else list(made))
    return [name, *made[name]()]


def caller(pick):
    if pick.random() < 0.95:
        return pick.choice(["office", "office", "office:ann", "rider:17", "dock:a1", "crew:3", "import:first"])
    return pick.choice([
        "rider:0", "rider:017", "dock:", "dock:A1", "crew:1000000", "Office", "office:", "office:Ann", "", "rider:1:2"
    ])


def key(pick):
    if pick.random() < 0.97:
        return f"k{pick.randrange(100_000)}"
    return pick.choice(["", "k", "K" * 64, "K" * 65, "k.1", "k 1", "é", "_-", "k\u0000", "k1"])


def moment(pick):
    if pick.random() < 0.97:
        return str(1_700_000_000 + pick.randrange(10_000_000))
    return pick.choice(["0", "253402300799", "253402300800", *BIG])


def good_line(pick):
    return "\t".join([moment(pick), caller(pick), key(pick), *command(pick)]).encode()


SPICE = [
    b"\0", b"\t", b"\t\t", b"\r", b"\xff", b"\xc3", b"\xc0\xaf", b"\xed\xa0\x80", b"\xf4\x90\x80\x80", b"\xef\xbb\xbf",
    b" ", b"\\", b"\\\\", b"9" * 40, b"a" * 5000, b"\x1b[2J", b"\x1a", b"\x7f", b";", b"'", b'"', b"{", b"\xe2\x80\xae",
    b"-", b"0",
]


def mutated(pick, data, feeds=False):
    """Some bytes changed, cut, doubled, put in or left out, once or several times."""
    data = bytearray(data)
    for _ in range(pick.choice([1, 1, 1, 2, 3, 8])):
        at, kind = pick.randrange(len(data) + 1), pick.randrange(9)
        size = pick.choice([1, 1, 1, 2, 3, 10, 60])
        if kind == 0 and data:
            data[at % len(data)] = pick.randrange(256)
        elif kind == 1 and data:
            data[at % len(data)] ^= 1 << pick.randrange(8)
        elif kind == 2:
            del data[at : at + size]
        elif kind == 3:
            data[at:at] = data[at : at + size] or b"x"
        elif kind == 4:
            data[at:at] = pick.choice(SPICE)
        elif kind == 5:
            del data[at:]
        elif kind == 6:
            data[at:at] = bytes(pick.randrange(256) for _ in range(size))
        elif kind == 7:
            data += data[:at]
        elif data:
            other = pick.randrange(len(data))
            data[at % len(data)], data[other] = data[other], data[at % len(data)]
    return bytes(data) if feeds else bytes(data).replace(b"\n", b"")


# ---- request lines

CITY = [
    "set-system\tmetro\ten\tMetro\t24/7\tfeeds@example.org\tEtc/UTC\tEUR\thttp://127.0.0.1:8080\t30",
    "add-plan\tbasic\tBasic\t100\tfalse\tBasic\t30:25:5:-", "add-plan\tday\tDay\t250\ttrue\tDay\t-",
    "add-type\tcity\tCity\tbicycle\thuman\t0\tbasic",
    "add-type\tcargo\tCargo\tcargo_bicycle\telectric_assist\t60000\tday",
    "add-station\ta1\tHarbour\t41.890169\t12.492269\t6", "add-station\tb2\tBridge\t-45\t9.1\t5", "add-truck\t3\t20",
    "add-truck\t1\t3",
    "add-region\tnorth\tNorth", "set-region\tb2\tnorth", "add-name\tstation\ta1\tde\tHafen",
    "add-name\tdescription\tday\tfr\tJour",
    "change-system\tMetro Bikes\tMo-Su\toffice@example.org\tEurope/Rome\thttps://example.org\t60",
    "move-station\tb2\t-45.000001\t9.2", "add-docks\tb2\t2", "set-name\tplan\tday\ten\tA day",
    "set-name\tdescription\tday\tfr\tUn jour", "add-name\tregion\tnorth\tde\tNorden",
    "remove-name\tregion\tnorth\tde",
    *(f"add-bike\t{it}\t{'cargo' if it % 3 == 0 else 'city'}" for it in range(1, 9)),
    *(f"add-rider\t{it}" for it in range(1, 9)), *(f"top-up\t{it}\t10000" for it in range(1, 9)),
    "open-order\t3\t*\ta1\tcity\t4", *(f"load\t3\t1\t{it}" for it in (1, 2, 4)),
    *(f"unload\t3\t1\t{it}\tto\t{it}" for it in (1, 2, 4)),
]


def make_city(program, file):
    """Makes the city in a file, and returns the operator who holds the same."""
    how, operator = {"at": 1699990000, "first": 0, "key": "c"}, model.Operator()
    answers = accepted(program, CITY, file=file, **how)
    assert answers == [operator.answer(it).decode() for it in requests_of(CITY, **how).splitlines()], answers
    return operator


def hostile_line(pick):
    kind = pick.random()
    if kind < 0.45:
        return good_line(pick)
    if kind < 0.9:
        return mutated(pick, good_line(pick))
    if kind < 0.93:
        return good_line(pick).ljust(pick.choice([4095, 4096, 4097, 4098, 9000, 70_000]), b"5")
    if kind < 0.96:
        return bytes(pick.randrange(256) for _ in range(pick.randrange(300))).replace(b"\n", b"")
    return pick.choice([
        b"", b"\r", b"\t\t\t", b"\0", b"\t" * 5000, b"\xff" * 4096, good_line(pick) + b"\r",
        b"\xef\xbb\xbf" + good_line(pick), b"GET / HTTP/1.1\r",
    ])


def fed(program, file, data, pick):
    """Feeds the input in pieces of odd sizes, and returns the status, the output and what is said."""

    def feed(stdin):
        at = 0
        with contextlib.suppress(BrokenPipeError):
            while at < len(data):
                size = pick.choice([1, 7, 100, 4096, 4097, 65_536, 100_000])
                stdin.write(data[at : at + size])
                stdin.flush()
                at += size
            stdin.close()

    with program.started("lines", file, stdin=subprocess.PIPE) as child:
        feeding = threading.Thread(target=feed, args=(child.stdin,))
        # Only the thread writes to it.
        child.stdin = None
        feeding.start()
        out, said = child.communicate(timeout=SECONDS)
    feeding.join()
    return child.returncode, out, said


def test_lines(program):
    pick = random.Random(f"{SEED} lines")
    operator = make_city(program, "city.db")
    left = INPUTS * 6 // 10
    batch = 0
    while left > 0:
        lines = [hostile_line(pick) for _ in range(min(left, 400))]
        left -= len(lines)
        batch += 1
        data = b"\n".join(lines) + (pick.choice([b"\n", b"\n", b""]) if lines[-1] else b"\n")
        answered(program, operator, lines, data, pick, f"seed {SEED}, batch {batch}")
        if batch % 4 == 1:
            # What was accepted is answered as before, in whatever pieces it comes.
            answered(program, operator, lines, data, pick, f"seed {SEED}, batch {batch}, again")
        is_sound(program, where=f"seed {SEED}, batch {batch}")
    # Feeds tell all names, in all languages, that the operator has then.
    found, right = feeds.told_names(program), operator.told_names()
    assert found == right, (
        f"seed {SEED}: "
        f"{[(it, found.get(it), right.get(it)) for it in found | right if found.get(it) != right.get(it)][:3]}"
    )
    found = data_of(program, "system_information")["languages"]
    assert found == operator.languages(), f"seed {SEED}: {found}, not {operator.languages()}"
    # So they tell what of the system may be changed, and where stations stand.
    for found, right in (
        (corrections.told_system(program), operator.told_system()),
        (corrections.told_places(program), operator.told_places()),
    ):
        assert found == right, f"seed {SEED}: {found}, not {right}"


def answered(program, operator, lines, data, pick, where):
    """Holds the answers to the lines to those of the operator."""
    status, out, said = fed(program, "city.db", data, pick)
    answers = out.split(b"\n")
    last = told(lines[min(len(answers), len(lines)) - 1], 600)
    assert (status, said) == (0, b""), f"{where}: status {status}, {said!r}, after {len(answers) - 1} answers: {last}"
    assert answers.pop() == b"" and len(answers) == len(lines), f"{where}: {len(answers)} answers to {len(lines)} lines"
    for line, found in zip(lines, answers):
        right = operator.answer(line)
        assert formats.is_reply(found) and found == right, (
            f"{where}: {told(line, 600)} is answered by {found!r}, not {right!r}"
        )


# ---- words

VOCABULARY = [
    "init", "check", "lines", "feed", "serve", "day", "history", "import", "raise", "help", "--port", "--count", "--at",
    "--", "-", "--help", "-h", "-V", "--version", "--port=0", "--port=x", "--port=0=1", "--ports", "--por", "-p", "-p0",
    "--count=1", "--at=1", "--at=", "0", "1", "2", "65535", "65536", "-1", "+1", "00", "1e3", "253402300799",
    "253402300800", "9" * 400, "", " ", "city.db", "new.db", ":memory:", "text.db", "no/such.db", ".",
    "file:city.db?mode=ro", "gbfs", "station_status", "system_regions", "nothing", "é", "\udcff", "x" * 300,
    "x" * 100_000, "a\nb", "%s", "*", "~",
]
ENDS = re.compile(
    (
        rb"system missing|bad header|bad date|bad zone|day out of range|row [0-9]+ [a-z_]+|store failed|out of memory|"
        rb"foreign|unsound [a-z0-9_]+ .*|older [0-9]+|newer [0-9]+|begins [0-9]+|read failed|write failed"
    ),
    re.S,
)
OUTPUT = re.compile(
    rb"|ready\n|sound\n|version [0-9]+\n|rows [0-9]+\n|\{.*\}|number,[a-z0-9,\n.:TZ*-]*\n|"
    rb"number,moment,caller,key,command,reply\n(?s:.*\n)?|(?:[0-9]+\t[a-z0-9:_-]+\t[A-Za-z0-9_-]+\t[^\n]+\n)+"
)
STATUS_OF = {
    b"system": 1, b"bad": 1, b"day": 1, b"row": 1, b"store": 3, b"out": 4, b"foreign": 5, b"unsound": 5, b"older": 5,
    b"newer": 5, b"begins": 5, b"read": 6, b"write": 6,
}


def some_words(pick):
    kind = pick.random()
    if kind < 0.5:
        base = pick.choice([
            ["init", "city.db"], ["check", "city.db"], ["lines", "city.db"], ["feed", "city.db", "gbfs"],
            ["feed", "city.db", "station_status", "--at", "0"],
            ["serve", "city.db", "--port", "0", "--count", "1"], ["import", "city.db", "spring"],
            ["day", "city.db", "entries", "2023-11-14", "CET-1CEST,M3.5.0,M10.5.0/3"],
            ["day", "city.db", "requests", "2023-11-14", "UTC0"], ["history", "city.db"], ["history", "city.db", "7"],
            ["check", "text.db"], ["lines", ":memory:"], ["feed", "new.db", "gbfs"], [],
        ])
        words = list(base)
        for _ in range(pick.choice([0, 1, 1, 2, 3])):
            at = pick.randrange(len(words) + 1)
            if words and pick.random() < 0.4:
                words[at % len(words)] = pick.choice(VOCABULARY)
            elif words and pick.random() < 0.3:
                del words[at % len(words)]
            else:
                words.insert(at, pick.choice(VOCABULARY))
        return words
    return [pick.choice(VOCABULARY) for _ in range(pick.choice([0, 1, 2, 3, 4, 6, 12]))]


def run_words(program, words):
    """The status, output and faults; a server that listens is asked once, and ended where it goes on."""
    with program.started(*(it.encode("utf-8", "surrogateescape") for it in words)) as child:
        if "serve" not in words:
            out, said = child.communicate(timeout=SECONDS)
            return child.returncode, out, said
        line = line_of(child, SECONDS)
        listens = re.fullmatch(rb"listening 127\.0\.0\.1:([0-9]+)\n", line)
        if not listens:
            out, said = child.communicate(timeout=SECONDS)
            return child.returncode, line + out, said
        with socket.create_connection(("127.0.0.1", int(listens[1])), timeout=SECONDS) as client:
            client.sendall(get("/riders/1"))
            assert rest(client).startswith(b"HTTP/1.1 ")
        # One connection may be all that it was to serve.
        try:
            child.wait(timeout=0.5)
        except subprocess.TimeoutExpired:
            return "listens", b"", b""
        out, said = child.communicate(timeout=SECONDS)
        return child.returncode, out, said


def test_words(program):
    pick = random.Random(f"{SEED} words")
    make_city(program, "city.db")
    Path(program.folder, "text.db").write_bytes(b"no database\n" * 400)
    for _ in range(INPUTS // 10):
        words = some_words(pick)
        before = set(os.listdir(program.folder))
        try:
            status, out, said = run_words(program, words)
        except subprocess.TimeoutExpired:
            raise AssertionError(f"seed {SEED}: {words!r:.500}: it had not ended after {SECONDS} seconds") from None
        where = f"seed {SEED}: {words!r:.500}: {status, out[:200], said[:200]}"
        if status == 2:
            assert (
                not out
                and (said.startswith(b"usage: bikeshare ") or tells_mistake(said))
                and set(os.listdir(program.folder)) == before
            ), where
        elif status in (0, "listens"):
            assert not said and OUTPUT.fullmatch(out), where
        else:
            assert (
                status in (1, 3, 5, 6)
                and said.endswith(b"\n")
                and ENDS.fullmatch(said[:-1])
                and STATUS_OF[said.split()[0]] == status
                and not out
            ), where
        for file in set(os.listdir(program.folder)) - {"city.db", "city.db-wal", "text.db"}:
            os.unlink(os.path.join(program.folder, file))
        assert Path(program.folder, "text.db").read_bytes() == b"no database\n" * 400, where
    is_sound(program, where=f"seed {SEED}")
