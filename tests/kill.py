"""The program is ended by `kill -9` at random moments, while it answers request lines over a file or serves HTTP from
one.

Half of the files were made by an earlier program, and were raised; half are new.

After each kill SQLite's own integrity_check accepts the file, `check` says `sound`, and the file holds the city after
some front of the list: every acknowledged request is in it, and at most one more. The list, sent again from its first
request, has the answers of a run that nobody disturbed, and ends in the same city.

Requests that come over many connections at once have no order: those that were acknowledged are in the file, and at
most one more. There the program is also killed before a call that changes a file or sends an answer (stops/faults.c).

A few kills stand in the gate. By hand, each of these from the environment:

    BIKESHARE_KILLS=1000 BIKESHARE_SEED=7 tests/run kill.
    BIKESHARE_KILLS=500 BIKESHARE_MORE=140 tests/run kill.

BIKESHARE_KILLS is how many kills each of the tests makes, BIKESHARE_SEED what they are drawn from; a failure tells
both. With BIKESHARE_MORE so many requests more stand in the list: behind 140 the log has been copied into the file
once, and a third of the kills come about there.
"""

import contextlib
import itertools
import json
import os
import random
import re
import sqlite3
import subprocess
import threading
import time
from pathlib import Path

from shared import (
    DONE, READY, Server, at_once, copied, counted, environment, is_sound, is_whole, line_of, office, post, quickly,
    removed, rows_of, to_schema_3, told_with,
)

KILLS = int(os.environ.get("BIKESHARE_KILLS", "10"))
SEED = int(os.environ.get("BIKESHARE_SEED", "1"))
MORE = int(os.environ.get("BIKESHARE_MORE", "0"))
SECONDS = 30


# Each request has a caller and a command, and one that is refused is refused whatever comes behind it in the list. So
# all answers are the same when the list is sent again. A number after a command is the key that it takes from an
# earlier request.
LIST = [
    ("office", "set-system metro en Metro 24/7 feeds@example.org Etc/UTC EUR http://127.0.0.1:8080 30"),
    ("office", "add-plan basic Basic 100 false Basic 30:25:5:-"),
    ("office", "add-plan day Day 250 true Day -"),
    ("office", "add-type city City bicycle human 0 basic"),
    ("office", "add-type cargo Cargo cargo_bicycle electric_assist 60000 day"),
    ("office", "add-station a1 Harbour 41.890169 12.492269 4"),
    ("office", "add-station b2 Bridge -45 9.1 3"),
    ("office", "add-truck 3 20"),
    ("office", "add-truck 3 20"),
    *[
        each
        for order, (bike, kind, station, dock) in enumerate(
            [(7, "city", "a1", 1), (8, "cargo", "b2", 2), (9, "city", "a1", 3)], 1
        )
        for each in (
            ("office", f"add-bike {bike} {kind}"),
            ("office", f"open-order 3 * {station} {kind} 1"),
            ("crew:3", f"load 3 {order} {bike}"),
            ("crew:3", f"unload 3 {order} {bike} to {dock}"),
            ("office", f"close-order {order}"),
        )
    ],
    ("office", "top-up 99 100"),
    *[
        each
        for rider in (17, 18, 19)
        for each in (("office", f"add-rider {rider}"), ("office", f"top-up {rider} 5000"))
    ],
    ("office", "top-up 17 0"),
    *[
        each
        for bike, rider, station, dock, to, end in [
            (7, 17, "a1", 1, "b2", 1), (8, 18, "b2", 2, "a1", 2), (9, 19, "a1", 3, "a1", 4), (7, 18, "b2", 1, "b2", 3),
            (8, 17, "a1", 2, "b2", 1), (9, 19, "a1", 4, "a1", 1), (7, 19, "b2", 3, "a1", 3), (8, 18, "b2", 1, "b2", 2),
        ]
        for each in ((f"rider:{rider}", f"start {rider} {station} {dock}"), (f"dock:{to}", f"end {bike} {to} {end}"))
    ],
    ("office", "refund 1 40"),
    ("office", "refund 2 250"),
    ("office", "refund 2 1"),
    ("dock:a1", "mark-dock a1 4 broken"),
    ("dock:a1", "mark-bike 9 disabled"),
    ("crew:3", "mark-bike 9 fit"),
    ("rider:17", "start 17 a1 3"),
    ("office", "recover 9"),
    ("office", "recover 9"),
    ("office", "set-rider 18 blocked"),
    ("office", "set-rider 18 open"),
    ("office", "set-plan city day"),
    ("office", "set-station b2 true false true"),
    ("office", "retire-bike 7"),
    ("office", "top-up 19 1", 30),
    ("office", "add-bike 8 city"),
    ("office", "top-up 19 1"),
    ("office", "add-region north North"),
    ("office", "set-region a1 north"),
    ("office", "set-region b2 south"),
    ("office", "set-region b2 north"),
    ("office", "set-region b2 *"),
    ("office", "add-name station a1 de Hafen"),
    ("office", "add-name station a1 en Harbour"),
    ("office", "add-name system other de Metro"),
    ("office", "add-name description day de Tag"),
    ("office", "change-system Stadtrad Mo-Su office@example.org Europe/Rome https://bikes.example 60"),
    ("office", "move-station b2 -45.5 9.2"),
    ("office", "move-station c3 0 0"),
    ("office", "move-station b2 -45 -180"),
    ("office", "add-docks b2 3"),
    ("office", "add-docks c3 1"),
    ("office", "add-docks b2 500"),
    ("office", "set-name station a1 en Haven"),
    ("office", "set-name station a1 de Kai"),
    ("office", "set-name region north fr Nord"),
    ("office", "set-name description day en Whole_day"),
    ("office", "add-name station b2 it Ponte"),
    ("office", "remove-name station b2 it"),
    ("office", "remove-name station b2 it"),
    ("office", "remove-name station a1 en"),
    ("office", "set-name system metro en Metro"),
    ("office", "remove-name description day de"),
    ("office", "add-name description day de Ein_Tag"),
    ("office", "set-name plan gold en Gold"),
    *[("office", f"top-up 17 {it}") for it in range(1, MORE + 1)],
]
REFUSED = {
    8: 10, 24: 4, 31: 11, 50: 30, 56: 35, 62: 33, 63: 10, 67: 37, 71: 10, 72: 11, 76: 1, 79: 1, 80: 32, 83: 39, 87: 39,
    88: 39, 92: 7,
}

# The columns that hold moments: HTTP requests have the clock's.
MOMENTS = {
    "stations_4": ["reported"], "rentals": ["start", "finish"], "entries": ["at"], "history": ["moment"],
}


def keyed():
    """Returns the caller, key and command of each request."""
    return [(it[0], f"k{it[2] if len(it) > 2 else number}", it[1].split(" ")) for number, it in enumerate(LIST)]


def as_lines():
    return [
        f"{1700000000 + 60 * number}\t{caller}\t{key}\t{chr(9).join(words)}\n".encode()
        for number, (caller, key, words) in enumerate(keyed())
    ]


def as_posts():
    """The same list as HTTP requests: what a route offers goes by it."""
    names = {
        "start": ["", "station", "dock"], "end": ["bike", "", "dock"], "load": ["", "order", "bike"],
        "unload": ["", "order", "bike", "side", "dock"], "mark-dock": ["", "dock", "state"],
        "mark-bike": ["bike", "state"],
    }
    posts = []
    for caller, key, (word, *fields) in keyed():
        if caller == "office":
            posts.append(office(key, "\t".join([word, *fields])))
            continue
        kind, name = caller.split(":")
        members = {
            it: int(field) if field.isdigit() else field for it, field in zip(names[word], fields, strict=True) if it
        }
        posts.append(post(f"/{kind}s/{name}/{word}".replace("/crew/", "/crews/"), json.dumps({"key": key, **members})))
    return posts


def held(file, timeless=False):
    """What a file holds and what SQLite's own test of it says, both read from a copy. It holds nothing where it isn't
    made yet."""
    with copied(file) as base:
        is_whole(base)
        names = [name for (name,) in base.execute("SELECT name FROM sqlite_schema WHERE type = 'table' ORDER BY name")]
        told = {}
        for name in names:
            rows = base.execute(f"SELECT * FROM {name}")
            columns = [it[0] for it in rows.description]
            out = [columns.index(it) for it in MOMENTS.get(name, [])] if timeless else []
            told[name] = sorted(
                (tuple((value is not None) if at in out else value for at, value in enumerate(row)) for row in rows),
                key=repr,
            )
        return told


class Talk:
    """A way to send the list: by lines or over HTTP. `begin` begins the program and `one` sends a request and returns
    its answer."""

    def __init__(self, program, file):
        self.program, self.file = program, file
        self.child = None

    def end(self):
        """Kills the program, and returns what it says of faults."""
        if self.child is None:
            return b""
        self.child.kill()
        return self.child.communicate(timeout=SECONDS)[1]

    def line(self):
        """A line of the program, or none where it ended before the line was whole."""
        line = line_of(self.child, SECONDS)
        assert not line or line.endswith(b"\n"), f"a part of an answer line: {line!r}"
        return line or None


class ByLines(Talk):
    timeless = False
    requests = as_lines()

    def begin(self):
        self.child = self.program.start("lines", self.file, stdin=subprocess.PIPE)

    def one(self, request):
        try:
            self.child.stdin.write(request)
            self.child.stdin.flush()
        except BrokenPipeError:
            return None
        return self.line()

    def strike(self, requests, delay):
        """Sends requests at once and kills the program after so many seconds, without a look at their answers."""
        with contextlib.suppress(BrokenPipeError):
            self.child.stdin.write(b"".join(requests))
            self.child.stdin.flush()
        time.sleep(delay)
        self.child.kill()

    def unread(self):
        """Answer lines that came before the kill."""
        return list(iter(self.line, None))


class ByHttp(Talk):
    timeless = True
    requests = as_posts()

    def begin(self):
        self.server = Server(self.program, file=self.file, seconds=SECONDS)
        self.child = self.server.child

    def one(self, request):
        if self.server.port is None:
            line = self.server.first_line()
            if not line:
                return None
            assert self.server.port, f"it said {line!r}"
        try:
            found = self.server.ask(request)
        except ConnectionError:
            return None
        # A request is acknowledged where its answer is there whole.
        head, _, body = found.partition(b"\r\n\r\n")
        length = re.search(rb"\r\nContent-Length: ([0-9]+)", head)
        return found if length and len(body) == int(length[1]) else None

    def strike(self, requests, delay):
        if self.server.port is None:
            time.sleep(delay)
            self.child.kill()
            return
        with contextlib.suppress(OSError), self.server.connect() as client:
            client.sendall(requests[0])
            time.sleep(delay)
            self.child.kill()

    def unread(self):
        return []


def numbered(answer):
    """The number of a refusal, in a line or a body."""
    found = re.search(rb'refused\t([0-9]+)\t|"result":"refused","number":([0-9]+),', answer)
    return int(found[1] or found[2]) if found else None


def undisturbed(program, kind):
    """Returns the answers of the list, what the file holds after each front of it, and the seconds that it takes."""
    file = Path(program.folder) / "whole.db"
    talk = kind(program, file.name)
    talk.begin()
    answers, fronts = [], []
    try:
        for request in kind.requests:
            answers.append(talk.one(request))
            assert answers[-1] is not None, (request, talk.end())
            fronts.append(held(file, kind.timeless))
    finally:
        talk.end()
    refused = {at: numbered(answer) for at, answer in enumerate(answers) if numbered(answer)}
    assert refused == REFUSED and len(answers) >= 60, (len(answers), refused, [answers[it] for it in refused])
    # The file before the first request has its tables or not.
    empty = {name: [] for name in fronts[0]}
    begun = {**empty, "meta": [(1, "bikeshare", 4, 0, 0, 0)]}
    again = kind(program, "timed.db")
    before = time.monotonic()
    again.begin()
    for request in kind.requests:
        again.one(request)
    lasted = time.monotonic() - before
    again.end()
    return answers, [begun, *fronts], lasted


def killed_in(talk, pick, lasted):
    """Sends the list, and kills the program at a moment that is drawn: returns the answers that came."""
    requests = type(talk).requests
    talk.begin()
    if pick.random() < 0.5:
        # At any time, while requests are sent one after the other.
        ending = threading.Timer(pick.random() * lasted * 1.1, talk.child.kill)
        ending.start()
        answers = list(till_none(map(talk.one, requests)))
        ending.join()
    else:
        # Right behind a request that was sent, where most is written.
        last = pick.randrange(len(requests))
        if MORE and pick.random() < 0.7:
            last = min(len(requests) - 1, pick.randint(140, 170))
        answers = list(till_none(map(talk.one, requests[:last])))
        talk.strike(requests[last : last + pick.choice([1, 1, 8])], pick.random() ** 2 * 0.004)
    talk.child.kill()
    return [*answers, *talk.unread()]


def till_none(answers):
    return itertools.takewhile(lambda it: it is not None, answers)


def kills(program, kind):
    pick = random.Random(SEED)
    wanted, fronts, lasted = undisturbed(program, kind)
    wrong = f"seed {SEED}, {KILLS} kills of {kind.__name__}"
    number = 0
    while number < KILLS:
        file = Path(program.folder) / f"killed{number}.db"
        least = 0
        if pick.random() < 0.5:
            assert program.run("init", file.name) == READY
            to_schema_3(file, "keyed")
            assert program.run("raise", file.name) == (0, b"version 4\n", b"")
        for _ in range(min(pick.randint(1, 4), KILLS - number)):
            number += 1
            told = f"{wrong}, kill {number}"
            talk = kind(program, file.name)
            answers = killed_in(talk, pick, lasted)
            said = talk.end()
            assert not said, f"{told}: it said {said!r}"
            assert answers == wanted[: len(answers)], f"{told}: {[(a, b) for a, b in zip(answers, wanted) if a != b]}"
            least = stands(program, file, kind, fronts, max(least, len(answers)), told)
        whole = kind(program, file.name)
        whole.begin()
        again = [whole.one(request) for request in kind.requests]
        said = whole.end()
        assert again == wanted and not said, (
            f"{told}: sent again: {[it for it in zip(kind.requests, again, wanted) if it[1] != it[2]][:3]}, {said!r}"
        )
        assert held(file, kind.timeless) == fronts[-1], f"{told}: the list, sent again, ends in another city"
        removed(file)


def stands(program, file, kind, fronts, least, told):
    """Holds the file to a front of the list with so many requests or one more, and returns how many it surely has."""
    try:
        found = held(file, kind.timeless) if file.exists() else {}
        if file.exists():
            is_sound(program, file.name)
    except (AssertionError, sqlite3.Error) as fault:
        raise AssertionError(f"{told}: after {least} answers: {fault}") from fault
    fits = [it for it in (least, least + 1) if it < len(fronts) and fronts[it] == found]
    assert fits or (least == 0 and not found), (
        f"{told}: the file holds neither the first {least} requests nor one more: {found}"
    )
    after = held(file, kind.timeless) if file.exists() else {}
    assert after == found, f"{told}: check changed the city"
    return fits[0] if fits else 0


def test_lines_killed_at_random_moments(program):
    kills(program, ByLines)


def test_serving_killed_at_random_moments(program):
    kills(program, ByHttp)


# ---- Many at once

AT_ONCE = 50
POSTS = {9000 + it: office(f"m{it}", f"add-rider\t{9000 + it}") for it in range(AT_ONCE)}


def asked_at_once(server, *more):
    """Sends all of POSTS at once, each over a connection of its own, while more is done, and returns the riders of
    those that are acknowledged."""

    def asked(request):
        with contextlib.suppress(OSError):
            return server.ask(request)
        return b""

    turns = [*more, *(lambda it=it: asked(it) for it in POSTS.values())]
    found = at_once(lambda turn: turn(), turns, len(turns))[len(more) :]
    assert all(DONE.startswith(it) for it in found), set(found)
    return {rider for rider, it in zip(POSTS, found) if it == DONE}


def riders(program, file):
    """The riders of a file."""
    return {rider for (rider,) in rows_of("SELECT rider FROM riders_4", program.folder, file)}


def stands_amid_many(program, file, told):
    """Those that were acknowledged stand, and at most one more. All are accepted when they are sent again."""
    stands = riders(program, file)
    assert told <= stands and len(stands - told) <= 1, f"told were {sorted(told)}, and {sorted(stands)} stand"
    is_sound(program, file)
    assert riders(program, file) == stands, "check changed the city"
    with Server(program, file=file, seconds=SECONDS) as server:
        again = asked_at_once(server)
    assert again == riders(program, file) == set(POSTS), (again, riders(program, file))
    is_sound(program, file)


def test_serving_killed_amid_many_at_random_moments(program):
    pick, counts = random.Random(f"{SEED} many"), set()
    assert program.run("init", "whole.db") == READY
    with Server(program, file="whole.db", seconds=SECONDS) as server:
        began = time.monotonic()
        assert asked_at_once(server) == set(POSTS)
        lasted = time.monotonic() - began
    for number in range(KILLS):
        file, delay = f"many{number}.db", pick.random() * lasted
        assert program.run("init", file) == READY
        with Server(program, file=file, seconds=SECONDS) as server:
            told = asked_at_once(server, lambda: (time.sleep(delay), server.child.kill()))
            _, _, said = server.end()
        with told_with(f"seed {SEED}, kill {number} after {delay:.4f} of {lasted:.4f} seconds"):
            assert not said, f"it said {said!r}"
            stands_amid_many(program, file, told)
        counts.add(len(told))
        removed(program.folder, file)
    assert len(counts) > 1 or KILLS < 10, counts


@quickly
def test_serving_killed_amid_many_before_a_call(program):
    """It is stopped before a call, or half of what that writes is written."""
    pick = random.Random(f"{SEED} calls")

    def served(file, **faults):
        """Who is told, and how many calls were made."""
        assert program.run("init", file) == READY
        env = environment(program.folder, file, ONLY_CHANGES=1, ENDS=1, **faults)
        server = Server(program, AT_ONCE, file, env, SECONDS)
        try:
            told = asked_at_once(server) if server.first_line() else set()
            ended = server.end()
        finally:
            server.stop()
        return told, counted(ended, program.folder, file)

    told, whole = served("whole.db")
    assert told == set(POSTS) and (whole.status, whole.said) == (0, b""), (told, whole)
    for number in range(KILLS):
        file, faults = f"call{number}.db", {pick.choice(["STOP_AT", "PART_AT"]): pick.randint(1, whole.calls)}
        told, ran = served(file, **faults)
        with told_with(f"seed {SEED}, kill {number}, {faults}, {ran.hit}"):
            assert (ran.status, ran.said) == (-9, b"") or (ran.status == 0 and told == set(POSTS)), ran
            stands_amid_many(program, file, told)
        removed(program.folder, file)
