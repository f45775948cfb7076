"""Requests that are sent again over stops: whatever stops the program and wherever, each has one effect, and the answer
that it had first.

The program is stopped at its calls on the file of a city, from outside (tests/stops/faults.c): before a call, in its
midst, or behind it with a disk that loses what was not flushed. Then it is started again on the same file.

  - Three sessions on one file: a start, stopped at a call; the start again and an end, stopped at a call; both again.
  - A start over HTTP, whose server is stopped or whose store fails at a call; the same twice more to a server that goes
    on.
  - Lists of 200 requests of a made city (tests/traffic.py) with ten stops. Each session goes on behind the last answer
    that came, and in the end the whole list comes again. A request that is refused is asked anew each time, so what it
    is answered then is what the operator of model.py answers.

A sample stands in the gate. By hand each pair of calls of the first two sessions and each call of the server, and more
lists:

    BIKESHARE_RETRIES=all BIKESHARE_JOBS=4 tests/run retries.
    BIKESHARE_LISTS=500 BIKESHARE_SEED=7 BIKESHARE_JOBS=4 tests/run retries.

BIKESHARE_RETRIES is how many pairs, and how many calls of the server, are drawn; BIKESHARE_LISTS is how many lists are
made, each of a seed of its own, the first of which BIKESHARE_SEED is; BIKESHARE_JOBS is how many are tried at a time. A
failure tells the draw.
"""

import collections
import itertools
import os
import random

import stored
import traffic
from shared import (
    EIO, ENOSPC, KILLED, START, STARTED, UNAVAILABLE, Server, counted, disturbed, environment, exchanged, held,
    is_sound, nothing_is, post, put, quickly, removed, rows_of, taken, tell, told_with, wrong_of,
)
from stops import as_line

TRIED = os.environ.get("BIKESHARE_RETRIES", "30")
LISTS = int(os.environ.get("BIKESHARE_LISTS", "3"))
SEED = int(os.environ.get("BIKESHARE_SEED", "1"))
LONG, STOPPED = 200, 10

# How a program is stopped at its call of this number.
STOPS = {
    "before": lambda at: {"STOP_AT": at},
    "in the midst of": lambda at: {"PART_AT": at},
    "behind": lambda at: {"LOSE_AT": at, "LOSE_SEED": SEED + 7919 * at},
}
FAILURES = {
    "no disk from": lambda at: {"FAIL_FROM": at, "FAIL_WITH": EIO},
    "no room from": lambda at: {"FAIL_FROM": at, "FAIL_WITH": ENOSPC},
    "an error at": lambda at: {"FAIL_AT": at, "FAIL_WITH": EIO},
}

# ---- Sessions


def session(program, file, lines, **faults):
    """The program is started on a file, is given lines, and is stopped where that is told."""
    return disturbed(program, ["lines", file], b"".join(lines), file, ONLY_CHANGES=1, ENDS=1, **faults)


def is_whole(ran, answers):
    """Nothing stopped it."""
    assert (ran.status, ran.out, ran.said) == (0, b"".join(answers), b""), ran


def is_stopped(ran, answers):
    """It was stopped, and what it answered is a front of the answers. Returns how many came whole."""
    assert (ran.status, ran.said) == (KILLED, b""), f"it wasn't stopped: {ran}"
    assert b"".join(answers).startswith(ran.out), f"it answered {ran.out[-300:]}"
    return ran.out.count(b"\n")


def each(tried, draws):
    """Tries these at once, and tells of those that are wrong. Each has a file of its own by its number."""
    nothing_is(wrong_of(tried, draws), f"seed {SEED}")


# ---- Three sessions

ASKED, RENTED = as_line("1700000000 rider:17 s1 start 17 a1 1"), b"rental\t1\t7\n"
END, CHARGED = as_line("1700001800 dock:a1 e1 end 7 a1 1"), b"fare\t125\t2375\n"
ENTRIES = b"""number,kind,rider,rental,amount,at
1,topup,17,0,25.00,2023-11-14T22:00:00Z
2,fare,17,1,1.25,2023-11-14T22:43:20Z
"""
RENTALS = b"""number,rider,bike,plan,from,start,to,end,fare
1,17,7,basic,a1,2023-11-14T22:13:20Z,a1,2023-11-14T22:43:20Z,1.25
"""


def small_city(program):
    """The city of docs/FORMATS.md with rider 17, who has 25.00: its file with its log."""
    lines, answers = (stored.text(part) for part in zip(*stored.CITY))
    assert program.run("lines", "city.db", given=lines) == (0, answers, b"")
    return taken(program.folder, "city.db")


def has_ridden_once(program, file):
    """One rental and two entries stand, and bicycle 7 is back in its dock."""
    is_sound(program, file)
    assert program.run("day", file, "entries", "2023-11-14", "UTC0") == (0, ENTRIES, b"")
    assert program.run("day", file, "rentals", "2023-11-14", "UTC0") == (0, RENTALS, b"")
    assert rows_of("SELECT (SELECT count(*) FROM rentals), (SELECT count(*) FROM entries)", program.folder, file) == [
        (1, 2)
    ]
    place = rows_of("SELECT station_id, dock, rental, truck, ord FROM bikes WHERE bike = 7", program.folder, file)
    assert place == [("a1", 1, None, None, None)], place


class ThreeSessions:
    """The sessions over a small city, and what its file holds at their end."""

    def __init__(self, program):
        self.program, self.city = program, small_city(program)
        self.ends = collections.Counter()
        put(self.city, program.folder, "whole.db")
        self.first = session(program, "whole.db", [ASKED])
        is_whole(self.first, [RENTED])
        for _ in range(2):
            is_whole(session(program, "whole.db", [ASKED, END]), [RENTED, CHARGED])
        has_ridden_once(program, "whole.db")
        self.held = held(program.folder, "whole.db")

    def left_by(self, file, how, at):
        """The file as a first session leaves it that is stopped at a call, and how many calls the second then makes."""
        put(self.city, self.program.folder, file)
        is_stopped(session(self.program, file, [ASKED], **STOPS[how](at)), [RENTED])
        left = taken(self.program.folder, file)
        second = session(self.program, file, [ASKED, END])
        is_whole(second, [RENTED, CHARGED])
        removed(self.program.folder, file)
        return left, second.calls

    def ended(self, file, left, how, at):
        """The second session is stopped at a call, and the third is not."""
        put(left, self.program.folder, file)
        came = is_stopped(session(self.program, file, [ASKED, END], **STOPS[how](at)), [RENTED, CHARGED])
        self.ends[f"{came} answers of the second session"] += 1
        is_whole(session(self.program, file, [ASKED, END]), [RENTED, CHARGED])
        assert held(self.program.folder, file) == self.held, "the file holds another city"
        removed(self.program.folder, file)

    def of_a_first(self, file, how, at):
        """Each call of the second session after a stop of the first."""
        left, calls = self.left_by(file, how, at)
        for second in range(1, calls + 1):
            with told_with(f"{second} of the second session"):
                self.ended(file, left, how, second)

    def of_a_draw(self, file, how, at, other, share):
        """A call of the second session after a stop of the first."""
        left, calls = self.left_by(file, how, at)
        with told_with(f"{1 + int(share * calls)} of the second session"):
            self.ended(file, left, other, 1 + int(share * calls))


@quickly
def test_three_sessions(program):
    three = ThreeSessions(program)
    calls = three.first.calls
    if TRIED == "all":
        each(three.of_a_first, itertools.product(STOPS, range(1, calls + 1)))
    else:
        pick = random.Random(f"{SEED} sessions")
        each(
            three.of_a_draw,
            [
                (pick.choice(list(STOPS)), pick.randint(1, calls), pick.choice(list(STOPS)), pick.random())
                for _ in range(int(TRIED))
            ],
        )
    tell("retries", "three sessions", three.ends, sum(three.ends.values()))


# ---- Over HTTP

POST = post("/riders/17/start", START)


@quickly
def test_a_start_over_http(program):
    city, ends = small_city(program), collections.Counter()
    kinds = {**STOPS, **FAILURES}

    def first(file, **faults):
        """The first connection of a server, under faults."""
        put(city, program.folder, file)
        env = environment(program.folder, file, ONLY_CHANGES=1, ENDS=1, **faults)
        return counted(exchanged(program, POST, file, env), program.folder, file)

    def sent_again(file, found):
        """The request comes twice more to a server that goes on, after what was answered first."""
        ends["200" if found == STARTED else "503" if found == UNAVAILABLE else "no answer"] += 1
        with Server(program, 2, file) as server:
            again = [server.ask(POST) for _ in range(2)]
        assert again == [STARTED] * 2, f"after {found!r} it answered {again}"
        assert rows_of("SELECT rental, rider, bike, finish FROM rentals", program.folder, file) == [(1, 17, 7, None)]
        is_sound(program, file)
        removed(program.folder, file)

    def tried(file, how, at):
        status, found, said, *_ = first(file, **kinds[how](at))
        killed, failed = (status, said) == (KILLED, b""), (status, said) == (3, b"store failed\n")
        # Where the port can't be told, nobody is served.
        untold = (status, found, said) == (6, b"", b"write failed\n")
        assert killed if how in STOPS else failed or untold or (status, said) == (0, b""), (
            f"it ended with {status} and said {said!r}"
        )
        assert found == UNAVAILABLE or STARTED.startswith(found), f"it answered {found!r}"
        sent_again(file, found)

    # The answer is the last that the server writes: it is whole where no fault comes.
    whole = first("whole.db")
    assert whole[:3] == (0, STARTED, b""), whole
    sent_again("whole.db", whole.out)
    turns = list(itertools.product(kinds, range(1, whole.calls + 1)))
    each(tried, turns if TRIED == "all" else random.Random(f"{SEED} http").sample(turns, min(len(turns), int(TRIED))))
    tell("retries", "a start over HTTP", ends, sum(ends.values()))
    assert TRIED != "all" or all(ends[it] for it in ("200", "503", "no answer")), ends


# ---- Lists


class Listed:
    """A list of requests that a city's traffic has, and what the operator of model.py answers: to the list, and then to
    the same once more."""

    def __init__(self, seed):
        city = traffic.city.City(seed=seed, **traffic.SIZES)
        self.setup = [it.encode() for it in city.setup()]
        lines = traffic.corrected(city.traffic(refused=0.1, repeated=0.05), seed)
        self.lines = [it.encode() for it in itertools.islice(lines, LONG)]
        operator = traffic.model.Operator()
        answers = [operator.answer(it.rstrip(b"\n")) + b"\n" for it in [*self.setup, *self.lines, *self.lines]]
        self.built, self.answers, self.again = answers[: -2 * LONG], answers[-2 * LONG : -LONG], answers[-LONG:]


class Lists:
    """Lists over the city that they have in common, under faults that always come."""

    def __init__(self, program, **always):
        self.program, self.always = program, always
        self.ends = collections.Counter()
        listed = Listed(SEED)
        assert program.run("lines", "begun.db", given=b"".join(listed.setup)) == (0, b"".join(listed.built), b"")
        self.setup, self.city = listed.setup, taken(program.folder, "begun.db")

    def undisturbed(self, file, listed):
        """How many calls a list makes that nothing stops, and what the file holds when it came twice."""
        put(self.city, self.program.folder, file)
        ran = session(self.program, file, listed.lines)
        is_whole(ran, listed.answers)
        is_whole(session(self.program, file, listed.lines), listed.again)
        whole = held(self.program.folder, file)
        removed(self.program.folder, file)
        return ran.calls, whole

    def stopped(self, file, seed):
        """Sends a list with ten stops. They are as far apart as calls that are drawn from the undisturbed run, so each
        of them comes in time."""
        listed, pick = Listed(seed), random.Random(f"{SEED} {seed} list")
        assert listed.setup == self.setup
        calls, whole = self.undisturbed(file, listed)
        put(self.city, self.program.folder, file)
        answered, told = 0, []
        for before, at in itertools.pairwise([0, *sorted(pick.sample(range(1, calls + 1), STOPPED))]):
            how = pick.choice(list(STOPS))
            told.append(f"{how} call {at - before}")
            with told_with(f"stopped {', '.join(told)}"):
                ran = session(self.program, file, listed.lines[answered:], **STOPS[how](at - before), **self.always)
                answered += is_stopped(ran, listed.answers[answered:])
            self.ends[f"stopped {how} a call"] += 1
        with told_with(f"stopped {', '.join(told)}, {answered} answered"):
            is_whole(session(self.program, file, listed.lines[answered:]), listed.answers[answered:])
            is_whole(session(self.program, file, listed.lines), listed.again)
            assert held(self.program.folder, file) == whole, "the file holds another city"
        removed(self.program.folder, file)


@quickly
def test_lists_with_ten_stops(program):
    lists = Lists(program)
    each(lists.stopped, [(SEED + it,) for it in range(LISTS)])
    tell("retries", f"{LISTS} lists", lists.ends, sum(lists.ends.values()))


@quickly
def test_a_disk_that_lies_is_noticed(program):
    """That the lists see a lost request: where flushes are answered and not done, the rest of a list goes on over a
    hole."""
    lists = Lists(program, NO_FLUSH=1)
    try:
        each(lists.stopped, [(SEED + it,) for it in range(3)])
    except AssertionError:
        return
    raise AssertionError("a disk that lost requests was not noticed")
