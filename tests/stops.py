"""The program is stopped at every call that it makes on its files, its disk loses what was not flushed, fails, or moves
bytes one by one, and it is refused every request for memory, each in its turn. tests/stops/faults.c does it from
outside; cc builds it.

It does that while it makes a file, serves lines (of a new file, of one that is there, of one that an earlier program
made, and over the moment at which the log is copied into the file), imports stations, checks a file, writes a feed and
the table of a day, and answers HTTP.
After each fault, without faults:

  - SQLite's own integrity_check finds nothing, and `check` says `sound`, or `store failed` of a file that isn't made
    yet;
  - what was answered is a front of what a run that nobody disturbed answers;
  - the file holds, table by table and row by row, what it held in that run after the answered requests or one more, and
    the feed `station_status` is that one's;
  - the requests that were not answered, sent again, have that run's answers, and the file ends as that run's.

Every turn of the short runs and some of the long ones stand in the gate. By hand, from the environment:

    BIKESHARE_STOPS=1 BIKESHARE_JOBS=4 tests/run stops.

BIKESHARE_STOPS is the stride for all runs, so 1 tries each turn; BIKESHARE_STOPS_FIRST is how many turns are left out
before the first; BIKESHARE_SEED is what the losses are drawn from; BIKESHARE_JOBS is how many programs run at a time;
BIKESHARE_STOPS_TOLD names a file to which each test adds how many turns it tried and how they ended.
"""

import collections
import copy
import functools
import os
import sqlite3
import tempfile
from pathlib import Path

import shared
from shared import (
    DISTURBED, EINTR, EIO, ENOSPC, FAULTS, KILLED, NO_SYSTEM, ROOM, SOUND, STORE_FAILED, TOP, UNAVAILABLE, WANTS,
    Program, at_once, city, counted, environment, exchanged, faulty, get_feed, held, is_sound, nothing_is, post, put,
    quickly, removed, rows_of, taken, tell, to_schema_3,
)

STRIDE = int(os.environ.get("BIKESHARE_STOPS", "0"))
FIRST = int(os.environ.get("BIKESHARE_STOPS_FIRST", "0"))
SEED = int(os.environ.get("BIKESHARE_SEED", "5"))
AT = "1700009000"

# ---- What is asked, and the answers, written by hand

TOUR = (TOP / "docs/tour.txt").read_bytes().splitlines(keepends=True)
TOUR_ANSWERS = (
    "ok|ok|ok|ok|ok|ok|order 1|ok|ok|ok|ok|balance 2500|balance 2500|refused 33 key_reused|rental 1 7|"
    "refused 20 rider_is_riding|fare 125 2375|fare 125 2375"
)
MORE = [
    ("1700002400 office k11 refund 1 100", "balance 2475"),
    ("1700002500 rider:17 s3 start 17 a1 2", "rental 2 7"),
    ("1700004300 dock:a1 e2 end 7 a1 1", "fare 125 2350"),
    ("1700004400 office k12 top-up 17 150", "balance 2500"),
    ("1700004500 dock:a1 d1 mark-dock a1 2 broken", "ok"),
    ("1700004500 office k13 add-name station a1 de Hafen", "ok"),
]
# Over the city of all these: the commands that they don't have.
OTHERS = [
    ("1700004600 office n1 set-station a1 true true false", "ok"),
    ("1700004600 office n2 mark-bike 7 disabled", "ok"),
    ("1700004700 office n3 mark-bike 7 fit", "ok"),
    ("1700004700 rider:17 n4 start 17 a1 1", "rental 3 7"),
    ("1700004800 office n5 recover 3", "fare 100 2400"),
    ("1700004800 office n6 add-plan day Day 250 true Day -", "ok"),
    ("1700004800 office n7 set-plan city day", "ok"),
    ("1700004900 office n8 set-rider 17 blocked", "ok"),
    ("1700004900 office n9 mark-bike 7 fit", "ok"),
    ("1700004900 office n10 open-order 3 * a1 city 1", "order 2"),
    ("1700004950 crew:3 n11 load 3 2 7", "ok"),
    ("1700004950 crew:3 n12 unload 3 2 7 from 0", "ok"),
    ("1700004950 office n13 retire-bike 7", "ok"),
    ("1700004950 office n14 add-region north North", "ok"),
    ("1700004950 office n15 set-region a1 north", "ok"),
    ("1700004960 office n16 set-region a1 *", "ok"),
    ("1700004960 office n17 add-name station a1 fr Port", "ok"),
    ("1700004970 office n18 add-name description day de Tag", "ok"),
    ("1700004980 office n19 change-system Metro Mo-Su office@example.org Europe/Rome https://bikes.example 60", "ok"),
    ("1700004980 office n20 move-station a1 -45.5 9.1", "ok"),
    ("1700004990 office n21 add-docks a1 3", "ok"),
    ("1700004990 office n22 set-name station a1 en Haven", "ok"),
    ("1700004990 office n23 set-name station a1 de Kai", "ok"),
    ("1700004990 office n24 remove-name station a1 fr", "ok"),
    ("1700004995 office n25 remove-name description day de", "ok"),
    ("1700004995 office n26 set-name description day en Daily", "ok"),
]


def as_line(text):
    return text.replace(" ", "\t").encode() + b"\n"


LINES = TOUR + [as_line(line) for line, _ in MORE]
ANSWERS = [as_line(it) for it in TOUR_ANSWERS.split("|")] + [as_line(answer) for _, answer in MORE]
HEADER = shared.HEADER.encode()
ROWS = [b"c1,Canal,45.0,9.1,10\n", b'c2,"Corso, north",45.000001,9.2,12\n', b"c3,Castle,45,9.3,8\n"]
ENTRIES = b"""number,kind,rider,rental,amount,at
1,topup,17,0,25.00,2023-11-14T22:18:20Z
2,fare,17,1,1.25,2023-11-14T22:51:40Z
3,refund,17,1,1.00,2023-11-14T22:53:20Z
4,fare,17,2,1.25,2023-11-14T23:25:00Z
5,topup,17,0,1.50,2023-11-14T23:26:40Z
"""
START = post("/riders/17/start", '{"key":"h1","station":"a1","dock":1}')


def top_ups(count):
    """So many requests more, that fill the log."""
    told = [
        (as_line(f"1700004600 office t{it} top-up 17 1"), as_line(f"balance {2500 + it}")) for it in range(1, count + 1)
    ]
    return [line for line, _ in told], [answer for _, answer in told]


# ---- Runs


class Lines:
    """Words that are given lines. Each whole line of the output is an answer, where lines are given."""

    def __init__(self, file, parts, words, lines, answers):
        self.file, self.parts, self.words, self.lines, self.answers = file, parts, words, lines, answers
        self.wanted = b"".join(answers)
        self.is_new = not parts

    def given(self, folder, name, lines, env=None):
        """A run that is given lines."""
        words = [name if it == "FILE" else it for it in self.words]
        return Program(self.file, folder).run(*words, given=b"".join(lines), env=env, timeout=DISTURBED)

    def plain(self, folder, name, lines):
        """A run that nobody disturbs, which may be given a part of the lines."""
        return self.given(folder, name, lines)

    def disturbed(self, folder, name, env):
        return self.given(folder, name, self.lines, env)

    def answered(self, out):
        return out.count(b"\n") if self.lines else 0

    def fronts(self, answered, one_more):
        """How many requests the file may hold after so many answers."""
        return range(answered, min(answered + 1 + one_more, len(self.lines) + 1))

    def goes_on(self, folder, name, answered):
        """The requests that were not answered are sent again."""
        ended = self.plain(folder, name, self.lines[answered:])
        wanted = b"".join(self.answers[answered:]) if self.lines else self.wanted
        assert ended == (0, wanted, b""), f"sent again: {ended}"


class Import(Lines):
    """Stations of a CSV table, a row each. What it answers tells of all rows or of none, so that any front of them may
    stand."""

    def given(self, folder, name, lines, env=None):
        return super().given(folder, name, [HEADER, *lines], env)

    def answered(self, out):
        return len(self.lines) if out == self.wanted else 0

    def fronts(self, answered, one_more):
        return range(answered, len(self.lines) + 1)

    def goes_on(self, folder, name, answered):
        ended = self.plain(folder, name, self.lines)
        assert ended == (0, self.wanted, b""), f"imported again: {ended}"


class Exchange(Lines):
    """One HTTP request to a server of one connection. The clock stands still, so that the answer and the file are
    always the same."""

    def __init__(self, file, parts, request, env):
        super().__init__(file, parts, ["serve", "FILE", "--port", "0", "--count", "1"], [request], [])
        self.env = env

    def plain(self, folder, name, lines):
        return self.disturbed(folder, name, self.env) if lines else (0, b"", b"")

    def disturbed(self, folder, name, env):
        return exchanged(Program(self.file, folder), self.lines[0], name, env)

    def answered(self, out):
        return int(bool(self.wanted) and out == self.wanted)

    def goes_on(self, folder, name, answered):
        ended = self.plain(folder, name, self.lines[answered:])
        assert ended == (0, self.wanted if answered == 0 else b"", b""), f"sent again: {ended}"


class Reopened(Lines):
    """`check` of what a fault left of another run, of which so many requests were answered."""

    def __init__(self, run, left, count):
        super().__init__(run.file, left, ["check", "FILE"], [], [b"sound\n"])
        self.before, self.count, self.is_new = run, count, run.is_new

    def answered(self, out):
        return self.count

    def fronts(self, answered, one_more):
        return self.before.fronts(answered, one_more)

    def goes_on(self, folder, name, answered):
        self.before.goes_on(folder, name, answered)


@functools.cache
def room():
    """The folder of all files."""
    return tempfile.TemporaryDirectory(prefix="bikeshare-stops-", dir=ROOM)


def feed(file, folder, name):
    return Program(file, folder).run("feed", name, "station_status", "--at", AT, timeout=DISTURBED)


@functools.cache
def made(file, count):
    """A file after so many of the lines, with its log."""
    lines, answers = top_ups(max(0, count - len(LINES)))
    with tempfile.TemporaryDirectory(dir=ROOM) as folder:
        run = Lines(file, {}, ["lines", "FILE"], (LINES + lines)[:count], (ANSWERS + answers)[:count])
        ended = run.plain(folder, "city.db", run.lines)
        assert ended == (0, run.wanted, b""), ended
        return taken(folder, "city.db")


def made_raised(file, count):
    """The same as an earlier program made it, once it is raised."""
    with tempfile.TemporaryDirectory(dir=ROOM) as folder:
        put(made(file, count), folder, "city.db")
        to_schema_3(Path(folder, "city.db"))
        ended = Program(file, folder).run("raise", "city.db", timeout=DISTURBED)
        assert ended == (0, b"version 4\n", b""), ended
        return taken(folder, "city.db")


@functools.cache
def before_the_copy(file):
    """How many lines fill the log so far that the next few have it copied into the file."""
    few, many = len(LINES), 600
    short = len(made(file, few)[""])
    assert len(made(file, many)[""]) > short, "the log is never copied into the file"
    while many - few > 1:
        half = (few + many) // 2
        few, many = (half, many) if len(made(file, half)[""]) == short else (few, half)
    return few - 1


def run_named(file, name):
    """What is done, and over which file."""
    words = ["lines", "FILE"]
    if name == "init":
        return Lines(file, {}, ["init", "FILE"], [], [b"ready\n"])
    if name == "lines of a new file":
        return Lines(file, {}, words, LINES, ANSWERS)
    if name == "lines of a file":
        return Lines(file, made(file, 10), words, LINES[10:], ANSWERS[10:])
    if name == "lines of a raised file":
        return Lines(file, made_raised(file, 10), words, LINES[10:], ANSWERS[10:])
    if name == "lines of other commands":
        return Lines(
            file,
            made(file, len(LINES)),
            words,
            [as_line(line) for line, _ in OTHERS],
            [as_line(answer) for _, answer in OTHERS],
        )
    if name == "lines while the log is copied":
        begun = before_the_copy(file)
        lines, answers = top_ups(begun + 3 - len(LINES))
        return Lines(file, made(file, begun), words, lines[-3:], answers[-3:])
    if name == "check":
        return Lines(file, made(file, len(LINES)), ["check", "FILE"], [], [b"sound\n"])
    if name == "feed":
        return Lines(file, made(file, len(LINES)), ["feed", "FILE", "station_information", "--at", AT], [], [b""])
    if name == "a table of a day":
        return Lines(file, made(file, len(LINES)), ["day", "FILE", "entries", "2023-11-14", "UTC0"], [], [b""])
    if name == "import":
        return Import(file, made(file, len(LINES)), ["import", "FILE", "spring", "--at", AT], ROWS, [])
    env = environment(tempfile.gettempdir(), "none.db")
    del env["TOLD_TO"]
    return Exchange(
        file, made(file, len(LINES)), START if name == "a start over HTTP" else get_feed("station_status"), env
    )


LONG = ["lines of a new file", "lines of a file", "lines of a raised file", "lines of other commands"]
LONG += ["lines while the log is copied"]
RUNS = ["init", *LONG, "import"]
RUNS += ["check", "feed", "a table of a day", "a start over HTTP", "a feed over HTTP"]


@functools.cache
def undisturbed(file, name):
    """The run, what a file holds after each front of its requests, the feed then, and how many calls and requests for
    memory it makes."""
    run = run_named(file, name)
    fronts, feeds = [], []
    with tempfile.TemporaryDirectory(dir=ROOM) as folder:
        for count in range(len(run.lines) + 1):
            put(run.parts, folder, "front.db")
            ended = run.plain(folder, "front.db", run.lines[:count])
            assert (ended[0], ended[2]) == (0, b""), (name, count, ended)
            if run.answers == [b""] or isinstance(run, (Exchange, Import)):
                run.wanted = ended[1]
            else:
                assert ended[1] == b"".join(run.answers[: count if run.lines else None]), (name, count, ended)
            fronts.append(held(folder, "front.db"))
            feeds.append(feed(file, folder, "front.db"))
            removed(folder, "front.db")
    told = {
        "import": b"rows 3\n",
        "feed": (
            b'"name":[{"text":"Harbour","language":"en"},'
            b'{"text":"Hafen","language":"de"}],"lat":41.890169,"lon":12.492269,"capacity":2}]}}'
        ),
        "a table of a day": ENTRIES,
        "a start over HTTP": b'\r\n\r\n{"result":"ok","rental":3,"bike":7}',
        "a feed over HTTP": feeds[-1][1].partition(b'"ttl"')[2],
    }
    assert run.wanted.endswith(told.get(name, run.wanted)), (name, run.wanted)
    return run, fronts, feeds


# ---- One turn


class Turns:
    """The turns of a run, with faults of a kind."""

    def __init__(self, program, name, judge, **always):
        self.file, self.name, self.judge, self.always = program.file, name, judge, always
        self.run, self.fronts, self.feeds = undisturbed(program.file, name)
        self.folder = os.path.realpath(room().name)
        self.ends = collections.Counter()

    def disturbed(self, file, **faults):
        """The run over a file of its own, with these faults."""
        put(self.run.parts, self.folder, file)
        ended = self.run.disturbed(self.folder, file, environment(self.folder, file, **self.always, **faults))
        return counted(ended, self.folder, file)

    def total(self, of):
        """How many calls, or requests for memory, there are where no fault comes."""
        ran = self.disturbed("whole.db")
        assert (ran.status, ran.out, ran.said) == (0, self.run.wanted, b""), (self.name, ran)
        assert held(self.folder, "whole.db") == self.fronts[-1], self.name
        removed(self.folder, "whole.db")
        return getattr(ran, of)

    def opened(self):
        """How many requests for memory there are until the file is open."""
        if self.run.is_new or "FILE" not in self.run.words:
            return 1
        opening = copy.copy(self)
        opening.run = Lines(self.run.file, self.run.parts, ["check", "FILE"], [], [b"sound\n"])
        return opening.disturbed("opened.db").memory

    def holds(self, file, begins):
        """What the file holds. One that is being made may hold a part of a page, which is no database to SQLite."""
        try:
            return held(self.folder, file)
        except sqlite3.DatabaseError as fault:
            assert begins and str(fault) == "file is not a database", f"SQLite: {fault}"
            return []

    def stands(self, file, answered, one_more=True):
        """Holds what a fault left to a front of the requests. Where no request was answered there may be no tables
        yet."""
        begins = answered == 0 and self.run.is_new
        is_there = Path(self.folder, file).exists()
        found = self.holds(file, begins)
        ended = Lines(self.file, {}, ["check", "FILE"], [], []).plain(self.folder, file, [])
        assert ended == (SOUND if is_there else STORE_FAILED), f"check: {ended}"
        is_left = Path(self.folder, file).exists() == is_there
        assert is_left and self.holds(file, begins) == found, "check changed the file"
        fits = [it for it in self.run.fronts(answered, one_more) if self.fronts[it] == found]
        why = f"after {answered} answers the file holds neither what it held then nor after one more"
        assert fits or (begins and not found), f"{why}: {len(found)} lines of SQL"
        wanted = self.feeds[fits[0]] if fits else NO_SYSTEM if is_there else STORE_FAILED
        told = feed(self.file, self.folder, file)
        assert told == wanted, f"the feed: {told}, not {wanted}"
        self.run.goes_on(self.folder, file, answered)
        assert held(self.folder, file) == self.fronts[-1], "sent again, the requests end elsewhere"

    def turn(self, number, faults):
        """Returns what is wrong after a fault, or nothing."""
        file = f"turn{number}.db"
        try:
            ran = self.disturbed(file, **faults)
            assert self.run.wanted.startswith(ran.out) or (ran.out == UNAVAILABLE and ran.status != KILLED), (
                f"it answered {ran.out[-300:]}"
            )
            answered = self.run.answered(ran.out)
            if ran.hit == "nothing":
                assert (ran.status, ran.out, ran.said) == (0, self.run.wanted, b""), f"without a fault: {ran}"
            else:
                self.judge(ran, self.run.wanted)
            # Where memory is refused, nothing was changed by the request; and a 503 of a server that goes on is one of
            # the city before.
            exact = ran.status == 4 or (ran.out == UNAVAILABLE and ran.status == 0)
            self.stands(file, answered, one_more=not exact)
            end = {0: "all answered", KILLED: "killed"}.get(ran.status, ran.said.decode().strip())
            self.ends["no fault came" if ran.hit == "nothing" else end] += 1
        except FAULTS as fault:
            hit = Path(self.folder, file + ".told")
            return f"{self.name}, {faults}, {hit.read_text().splitlines() if hit.exists() else 'nothing told'}: {fault}"
        finally:
            removed(self.folder, file)
        return None

    def tried(self, of, faults, stride, first=0):
        """Tries turns: faults gives the names and numbers of each. In the turn behind the last no fault comes."""
        turns = range(1 + (FIRST + first) % stride, self.total(of) + 2, stride)
        return self.at_once([(it, faults(it)) for it in turns]), len(turns)

    def at_once(self, turns):
        return [it for it in at_once(lambda turn: self.turn(*turn), turns) if it]


def each_turn(program, kind, judge, of, kinds, strides, **always):
    """Tries turns of all runs. Each kind of fault begins elsewhere."""
    wrong = []
    for name in RUNS:
        for first, (how, faults) in enumerate(kinds.items()):
            turns = Turns(program, name, judge, **always)
            found, tried = turns.tried(of, faults, STRIDE or strides.get(name, strides[""]), first)
            tell(f"{kind}, {how}", name, turns.ends, tried)
            wrong += found
    nothing_is(wrong)


# ---- How a run may end


def is_killed(ran, wanted):
    assert (ran.status, ran.said) == (KILLED, b""), f"it wasn't stopped: {ran}"


def fails_or_goes_on(ran, wanted):
    """A call that failed ends the program, or was none that is needed."""
    whole = (ran.status, ran.said) == (0, b"") and ran.out in (wanted, UNAVAILABLE)
    # A feed whose head is written ends where the store fails.
    assert whole or (ran.status, ran.said) == (3, b"store failed\n"), f"{ran}"


def goes_on(ran, wanted):
    assert (ran.status, ran.out, ran.said) == (0, wanted, b""), f"{ran}"


def wants_memory(ran, wanted):
    whole = (ran.status, ran.said) == (0, b"") and (ran.out in (wanted, UNAVAILABLE) or is_cut(ran.out, wanted))
    assert whole or ran.said == WANTS.get(ran.status), f"{ran}"


def loses_an_end(ran, wanted):
    """An input or output that failed is told; of a connection it is told to nobody."""
    told = (ran.status, ran.said) in ((6, b"write failed\n"), (6, b"read failed\n"))
    assert told or (wanted.startswith(b"HTTP") and (ran.status, ran.said) == (0, b"")), f"{ran}"


def is_cut(out, wanted):
    """Whether a feed's answer over HTTP ends after its head, or nothing came."""
    return wanted.startswith(b"HTTP") and wanted.startswith(out)


# ---- The tests

STOPS = {"before a call": lambda at: {"STOP_AT": at}, "in its midst": lambda at: {"PART_AT": at}}
LOSSES = {
    "all that was not flushed": lambda at: {"LOSE_AT": at},
    "some of it": lambda at: {"LOSE_AT": at, "LOSE_SEED": 2 * at + 1},
    "other of it": lambda at: {"LOSE_AT": at, "LOSE_SEED": 7919 * at + SEED},
}
FAILURES = {
    "the call alone": lambda at: {"FAIL_AT": at, "FAIL_WITH": EIO},
    "all calls from then on": lambda at: {"FAIL_FROM": at, "FAIL_WITH": EIO},
    "no room from then on": lambda at: {"FAIL_FROM": at, "FAIL_WITH": ENOSPC},
    "a byte and then no room": lambda at: {"SHORT_AT": at, "FAIL_FROM": at + 1, "FAIL_WITH": ENOSPC},
    "interrupted": lambda at: {"FAIL_AT": at, "FAIL_WITH": EINTR},
    "what was not flushed is lost too": lambda at: {
        "FAIL_AT": at, "FAIL_WITH": EIO, "LOSE_AT_END": 1, "LOSE_SEED": at % 3 and SEED + at
    },
}
SHORT = {
    "a byte by the call alone": lambda at: {"SHORT_AT": at},
    "at most 500 bytes from then on": lambda at: {"SHORT_FROM": at, "SHORT_BYTES": 500},
}
# The strides of runs whose reads are counted too.
READING = {"": 311, "lines of a new file": 97, "lines while the log is copied": 2503}
REFUSALS = {"alone": lambda at: {"REFUSE_AT": at}, "with all after it": lambda at: {"REFUSE_FROM": at}}


def long_runs(short, long):
    """The strides of short and of long runs."""
    return {"": short, **dict.fromkeys(LONG, long)}


def test_stops_before_a_call_and_in_its_midst(program):
    each_turn(program, "stop", is_killed, "calls", STOPS, long_runs(2, 5), ONLY_CHANGES=1, ENDS=1)


def test_a_disk_that_loses_what_was_not_flushed(program):
    each_turn(program, "loss", is_killed, "calls", LOSSES, long_runs(6, 13), ONLY_CHANGES=1, ENDS=1)


def test_a_disk_that_lies_is_noticed(program):
    """That these tests see what is lost: flushes that are answered and not done lose requests that were answered."""
    turns = Turns(program, "lines of a file", is_killed, ONLY_CHANGES=1, ENDS=1, NO_FLUSH=1)
    found = turns.at_once([(at, {"LOSE_AT": at}) for at in range(20, 50, 13)])
    assert found and all("holds neither" in it for it in found), found


def test_a_second_stop_while_what_is_left_is_opened(program):
    wrong, tried, ends = [], 0, collections.Counter()
    for name, stride in ("init", 13), ("lines of a new file", 47), ("lines while the log is copied", 23):
        first = Turns(program, name, is_killed, ONLY_CHANGES=1, ENDS=1)
        for at in range(1 + FIRST, first.total("calls") + 1, 3 * STRIDE or stride):
            faults = {"LOSE_AT": at, "LOSE_SEED": SEED + at} if at % 2 else {"STOP_AT": at}
            ran = first.disturbed("first.db", **faults)
            left = taken(first.folder, "first.db")
            if "" not in left:
                continue
            second = Turns(program, name, is_killed, ONLY_CHANGES=1, ENDS=1)
            second.run = Reopened(first.run, left, first.run.answered(ran.out))
            put(left, first.folder, "first.db")
            last = second.disturbed("first.db").calls
            turns = range(1 + at % 4, last + 2, STRIDE or 4)
            kinds = ({"STOP_AT": it} if it % 2 else {"LOSE_AT": it, "LOSE_SEED": SEED + 31 * it + at} for it in turns)
            wrong += [f"after {faults} ({ran.hit}): {it}" for it in second.at_once(list(zip(turns, kinds)))]
            tried, ends = tried + len(turns), ends + second.ends
    tell("second stop", "check of what is left", ends, tried)
    nothing_is(wrong)


def test_changes_that_fail(program):
    each_turn(program, "failure", fails_or_goes_on, "calls", FAILURES, long_runs(11, 37), ONLY_CHANGES=1)


def test_calls_that_fail(program):
    """Reads, lengths, names and locks among them."""
    kinds = {name: FAILURES[name] for name in ("the call alone", "all calls from then on")}
    each_turn(program, "failure of any call", fails_or_goes_on, "calls", kinds, READING)


def test_writes_of_few_bytes(program):
    each_turn(program, "short write", goes_on, "calls", SHORT, long_runs(13, 41), ONLY_CHANGES=1)


def test_reads_of_few_bytes(program):
    """A page that is read again has to come whole, else the store fails."""
    kinds = {"a byte by the call alone": SHORT["a byte by the call alone"]}
    each_turn(
        program, "short call", fails_or_goes_on, "calls", kinds,
        {"": 211, "lines of a new file": 41, "lines while the log is copied": 1301},
    )


def test_refused_memory(program):
    """Most requests for memory are made where a file is opened; those behind it are tried more closely."""
    wrong = []
    for name in RUNS:
        for first, (how, faults) in enumerate(REFUSALS.items()):
            turns = Turns(program, name, wants_memory)
            total, opened = turns.total("memory"), turns.opened()
            asked = [
                *range(1 + first, opened, STRIDE or 9001),
                *range(opened + first, total + 1, STRIDE or max(1, (total - opened) // 5)),
                total + 1,
            ]
            wrong += turns.at_once([(it, faults(it)) for it in asked])
            tell(f"memory, {how}", name, turns.ends, len(asked))
    nothing_is(wrong)


def test_ends_that_fail(program):
    """Standard input, standard output and sockets, at once and a byte a call."""
    fails = {"the call": lambda at: {"FAIL_AT": at, "FAIL_WITH": EIO}}
    each_turn(program, "end", loses_an_end, "calls", fails, long_runs(2, 9), ONLY_ENDS=1)
    each_turn(
        program, "end of which each call moves a byte", loses_an_end, "calls", fails,
        {"": 101, "lines of a new file": 701}, ONLY_ENDS=1, SHORT_FROM=1,
    )
    takes = {"takes nothing": lambda at: {"SHORT_AT": at, "SHORT_BYTES": 0}}
    each_turn(program, "end", loses_an_end, "calls", takes, long_runs(3, 11), ONLY_ENDS=2)


@quickly
def test_stops_in_an_end(program):
    """The bicycle is in its rental and the balance is 25.00, or it is in dock 1 and a fare is booked; sent again the
    end has its answer."""
    city(program)
    assert program.run("lines", "city.db", given=b"1700000000\trider:17\ts1\tstart\t17\ta1\t1\n") == (
        0, b"rental\t1\t7\n", b""
    )
    parts, end = taken(program.folder, "city.db"), b"1700000000\tdock:a1\te1\tend\t7\ta1\t1\n"
    fares = "(SELECT count(*) FROM entries WHERE kind = 2)"
    query = f"SELECT balance, rental, station_id, dock, {fares} FROM riders_4, bikes WHERE rider = 17 AND bike = 7"
    before, after, seen, calls = (2500, 1, None, None, 0), (2400, None, "a1", 1, 1), set(), 0
    while calls < 200:
        put(parts, program.folder, "city.db")
        calls += 1
        status, out, said = faulty(program, ["lines", "city.db"], end, STOP_AT=calls, ONLY_CHANGES=1, ENDS=1)
        (found,) = rows_of(query, program.folder, "city.db")
        is_sound(program)
        assert found in (before, after) and out in (b"", b"fare\t100\t2400\n"), (calls, found, out)
        assert not out or found == after, calls
        seen.add(found)
        assert (
            program.run("lines", "city.db", given=end) == (0, b"fare\t100\t2400\n", b"")
            and rows_of(query, program.folder, "city.db") == [after]
        ), calls
        if status == 0:
            break
        assert (status, said) == (KILLED, b""), (calls, status, said)
    assert seen == {before, after} and 5 < calls < 200, (calls, seen)
