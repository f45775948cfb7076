"""Each connection has ten seconds for its whole exchange, from its acceptance to the last byte of its answer. Whatever
its client does meanwhile, silent, slow or one that reads nothing, the others are answered at once.

At most 1,000 are open at once, and who comes then waits; so does who asks for a feed while the answers under way hold
much memory.
"""

import contextlib
import itertools
import json
import os
import resource
import signal
import socket
import time
from pathlib import Path

from newest import processor
from shared import (
    DONE, EIO, FAULTS, START, STARTED, UNAVAILABLE, Server, answer, ask, at_once, body_of, city, environment, error,
    feed, get, get_feed, is_sound, nothing_is, office, post, put, quickly, request, rest, rows_of, taken, told,
)

PATIENCE, MOST_OPEN, DESCRIPTORS = 10, 1000, 1016
# What a busy machine with a slow disk may take, in seconds: for an answer, and beyond the patience until a connection
# is closed. An answer that waits for a slow client takes as long as the patience is.
SOON, SLACK = 5, 5
# How long what is sent behind an early answer is still read.
LINGER = 0.2
# How much more memory many connections take, and so do all answers under way.
MEMORY, ANSWERS = 30_000_000, 33_554_432
# How many sockets the clients of all cases have together.
SOCKETS = 5000
STATIONS, TYPES = 5000, 32

RIDE, STATUS = post("/riders/17/start", START), get_feed("station_status")
EXPECTING = request("POST", "/office", "Expect: 100-continue", "Content-Length: 100")
LONGEST = request("POST", "/office", "Content-Length: 16384", "X: " + "x" * 8139, body=b" " * 16384)
NOTHING_MORE = b"", 60


# ---- Slow clients


def slowly(seconds):
    """A request, a byte each so many seconds."""
    return ((bytes([byte]), seconds) for byte in RIDE)


def without_end():
    """A head, a field a second."""
    return itertools.chain([(b"GET /riders/17 HTTP/1.1\r\n", 1)], itertools.repeat((b"X: y\r\n", 1)))


# What each sends, and for how many seconds it then sends nothing. None of them reads.
UNREAD = "a feed that nobody reads"
MANNERS = {
    "silent": lambda: [],
    "a byte a second": lambda: slowly(1),
    "a byte each nine seconds": lambda: slowly(9),
    "a head that never ends": without_end,
    "stopped in the body": lambda: [(RIDE[:-5], 60)],
    "waiting for 100 Continue": lambda: [(EXPECTING, 60)],
    "stopped in the longest request": lambda: [(LONGEST[:-1], 60)],
    UNREAD: lambda: [(STATUS, 60)],
}


class Slow:
    """A client that sends in some manner, and reads nothing."""

    def __init__(self, server, manner):
        self.socket, self.manner = server.connect(), manner
        self.pieces, self.due = iter(MANNERS[manner]()), time.monotonic()

    def go_on(self):
        """Sends what is due. The server may have given it up."""
        while self.due <= time.monotonic():
            piece, pause = next(self.pieces, NOTHING_MORE)
            with contextlib.suppress(OSError):
                self.socket.sendall(piece)
            self.due += pause

    def judge(self, wanted):
        """Holds what it was sent to what is wanted: nothing, or a front of the feed. Returns how much that was."""
        found = undated(rest(self.socket))
        self.socket.close()
        assert not found or (self.manner == UNREAD and wanted.startswith(found) and len(found) < len(wanted)), (
            f"{self.manner}: it was sent {told(found)}"
        )
        return len(found)


def undated(found):
    """The answer without the moment at which a feed was asked for. No station of these cities changes."""
    head, name, behind = found.partition(b'"last_updated":"')
    return head + name + behind[20:]


def waited(server, asked, wanted):
    """How many seconds a request takes that is sent whole, and whose answer is as wanted."""
    begun = time.monotonic()
    found = server.ask(asked)
    took = time.monotonic() - begun
    assert undated(found) == wanted, f"{told(asked)}: {told(found)}, not {told(wanted)}"
    return took


def row(rider):
    """The answer of the row of a rider without money."""
    return answer(200, f'{{"rider":{rider},"state":"open","balance_cents":0,"rental":0}}')


def until(holds, seconds, what):
    """Waits until something holds, and returns for how many seconds."""
    begun = time.monotonic()
    while not holds():
        took = time.monotonic() - begun
        assert took < seconds, f"not after {took:.1f} seconds: {what}"
        time.sleep(0.02)
    return time.monotonic() - begun


def riders(program, file="city.db"):
    """How many the city has."""
    return rows_of("SELECT count(*) FROM riders_4", program.folder, file)[0][0]


def clock():
    """The moment, in UTC."""
    return time.strftime("%Y-%m-%dT%H:%M:%SZ", time.gmtime())


def begin(server, opened):
    """Begins a client by each of these, and waits until all are accepted."""
    before, begun, clients = server.descriptors(), time.monotonic(), []
    for it in opened:
        clients.append(it())
        assert time.monotonic() - begun < 2 * SLACK, f"{len(clients)} connections took long"
    until(lambda: server.descriptors() == before + len(clients), SOON, f"{len(clients)} connections are accepted")
    return clients


# ---- The cases. Each has a server and a copy of a city to itself.


class Case:
    """The program, the file of a case, and the feeds' answers, which never change."""

    def __init__(self, program, file, feeds):
        self.program, self.file, self.feeds = program, file, feeds

    def serve(self, count=None, **how):
        return Server(self.program, count, self.file, seconds=PATIENCE + 2 * SLACK, **how)


def others_are_answered(counts, case):
    """So many clients in each manner are held, and given up after ten seconds. Meanwhile another client asks again and
    again."""
    whole, is_published = case.feeds[case.file.split("-")[0]], UNREAD not in counts
    with case.serve() as server:
        before, memory, begun = server.descriptors(), server.memory(), time.monotonic()
        manners = [manner for manner, count in counts.items() for _ in range(count)]
        slow = begin(server, [lambda manner=manner: Slow(server, manner) for manner in manners])
        for number in itertools.count():
            for it in slow:
                it.go_on()
            at, left = time.monotonic() - begun, server.descriptors() - before
            if not left:
                break
            assert at < PATIENCE + SLACK and (left == len(slow) or at > PATIENCE - 1), (
                f"{left} are open after {at:.1f} seconds"
            )
            more = server.memory() - memory
            assert more < MEMORY + (0 if is_published else ANSWERS), f"it takes {more} bytes more"
            asked = [(office(f"k{number}", f"add-rider\t{1000 + number}"), DONE)]
            asked += [(get(f"/riders/{1000 + number}"), row(1000 + number))]
            asked += [(STATUS, whole)] if is_published else []
            for it in asked:
                took = waited(server, *it)
                assert took < SOON, f"{took:.1f} seconds for {told(it[0])}, {at:.1f} after the slow ones came"
            time.sleep(0.1)
        assert at > PATIENCE - 1, f"all were closed after {at:.1f} seconds"
        sent = sum(it.judge(whole) for it in slow)
        assert bool(sent) != is_published, f"{sent} bytes were sent"


def no_more_than_a_thousand_are_open(case):
    """Others wait, and are answered in full once those are given up. They have ten seconds from then on."""
    with case.serve() as server:
        pid = server.child.pid
        resource.prlimit(pid, resource.RLIMIT_NOFILE, (DESCRIPTORS, DESCRIPTORS))
        before, begun = server.descriptors(), time.monotonic()
        silent = begin(server, [server.connect] * MOST_OPEN)
        late = server.connect()
        late.sendall(RIDE[:-1])

        def answered(asked):
            waited(server, *asked)
            return time.monotonic() - begun

        asked = [(office("k1", "add-rider\t1001"), DONE), (get("/riders/9"), error(404)), (STATUS, case.feeds["city"])]
        found = at_once(answered, asked, len(asked))
        assert PATIENCE - 1 < min(found) and max(found) < PATIENCE + SLACK, found
        assert {rest(it) for it in silent} == {b""}
        # The last has waited for longer than ten seconds by now.
        time.sleep(max(0, begun + PATIENCE + 1.5 - time.monotonic()))
        late.sendall(RIDE[-1:])
        found = rest(late)
        assert found == STARTED, found
        # A connection may end a moment after its client.
        until(lambda: server.descriptors() == before, SOON, "no connection is open")


def feeds_wait_for_room(case):
    """While answers that nobody reads hold much memory no feed is begun, and other answers are. It comes in full once
    those are given up."""
    with case.serve() as server:
        begun = time.monotonic()
        slow = begin(server, [lambda: Slow(server, UNREAD)] * 20)
        for it in slow:
            it.go_on()
        time.sleep(3)

        def beside(number):
            return waited(server, office(f"k{number}", f"add-rider\t{1000 + number}"), DONE)

        def published(_):
            waited(server, STATUS, case.feeds["wide"])
            return time.monotonic() - begun

        took, *others = at_once(lambda it: it[0](it[1]), [(published, 0), *((beside, it) for it in range(9))], 10)
        assert max(others) < SOON and PATIENCE - 1 < took < PATIENCE + SLACK, (took, others)
        assert sum(bool(it.judge(case.feeds["wide"])) for it in slow) < len(slow)


def clients_that_are_in_time(case):
    """Those that take seven seconds to send a request, and one that takes as long to read a feed, are answered in
    full."""
    steps, whole = 70, case.feeds["wide"]
    with case.serve() as server:
        posts = [office(f"k{it}", f"add-rider\t{1000 + it}") for it in range(20)]
        reader, *clients = begin(server, [server.connect] * (1 + len(posts)))
        reader.sendall(STATUS)
        begun, found = time.monotonic(), bytearray()
        for step in range(steps):
            for client, asked in zip(clients, posts):
                at = len(asked) * step // steps
                client.sendall(asked[at : len(asked) * (step + 1) // steps])
            found += reader.recv(len(whole) // steps // 2)
            time.sleep(max(0, begun + (step + 1) / 10 - time.monotonic()))
        found += rest(reader)
        assert undated(bytes(found)) == whole, told(bytes(found))
        answers = {rest(it) for it in clients}
        assert answers == {DONE}, answers


def a_count_that_ends(case):
    """A silent client is one of those that are counted, and the server ends with it."""
    begun = time.monotonic()
    with case.serve(3) as server:
        silent = server.connect()
        assert waited(server, office("k1", "add-rider\t1001"), DONE) < SOON
        assert waited(server, get("/riders/1001"), row(1001)) < SOON
        assert server.end() == (0, b"", b"")
        at = time.monotonic() - begun
        assert PATIENCE - 1 < at < PATIENCE + SLACK and rest(silent) == b"", at
        assert socket.socket().connect_ex(("127.0.0.1", server.port))


def answers_under_way(case):
    """Behind the last of those that were counted an answer is still sent, also to one that begins to read later. One
    that nobody takes is given up."""
    for is_read in True, False:
        begun = time.monotonic()
        with case.serve(2) as server:
            slow = Slow(server, UNREAD)
            slow.go_on()
            assert waited(server, office(f"k{is_read}", f"add-rider\t{1001 + is_read}"), DONE) < SOON
            if is_read:
                time.sleep(1)
                assert undated(rest(slow.socket)) == case.feeds["wide"]
            assert server.end() == (0, b"", b"")
            at = time.monotonic() - begun
        if not is_read:
            assert PATIENCE - 1 < at < PATIENCE + SLACK and slow.judge(case.feeds["wide"]), at


def told_at(found):
    """The moment of a feed, and the one at which its first station changed."""
    told_of = json.loads(body_of(found))
    return told_of["last_updated"], told_of["data"]["stations"][0]["last_reported"]


def moments_are_those_of_acceptance(case):
    """A request that becomes whole later has the moment at which its connection was accepted, or a later one of a
    request that acted before. So the city's time never goes back, and no feed is older than what it tells."""
    with case.serve() as server:
        first, second, third = begin(server, [server.connect] * 3)
        at = clock()
        first.sendall(STATUS[:-1])
        second.sendall(RIDE[:-1])
        third.sendall(STATUS[:-1])
        time.sleep(2.2)
        first.sendall(STATUS[-1:])
        found, _ = told_at(rest(first))
        assert found <= at, (found, at)
        assert server.ask(office("k1", "mark-dock\ta1\t2\tworking")) == DONE
        third.sendall(STATUS[-1:])
        found, changed = told_at(rest(third))
        assert at < changed <= found <= clock(), (at, changed, found, clock())
        second.sendall(RIDE[-1:])
        found = rest(second)
        assert found == STARTED, found
        start = server.told("/rentals/1")["start"]
        assert changed <= start <= clock(), (changed, start, clock())


def a_store_that_fails(case):
    """What was answered stands. The answers under way are sent for a second, and nobody is waited for."""
    program, parts = case.program, {it: taken(case.program.folder, f"{it}.db") for it in ("city", "wide")}

    def failing(name, first):
        """A server whose changes fail, from one of them on."""
        put(parts[name], program.folder, case.file)
        env = environment(program.folder, case.file, FAIL_FROM=first, FAIL_WITH=EIO, ONLY_CHANGES=1)
        return Server(program, file=case.file, env=env)

    # The first changes are made where a file is opened, and are alike for all.
    for first in itertools.count(1):
        server = failing("city", first)
        is_open = server.first_line()
        server.stop()
        if is_open:
            break
    for is_read in True, False:
        server = failing("wide", first)
        assert server.first_line(), server.end()
        try:
            slow = [Slow(server, it) for it in MANNERS for _ in range(5)]
            for it in slow:
                it.go_on()
            time.sleep(2)

            def asked(number):
                with contextlib.suppress(ConnectionError):
                    return server.ask(office(f"k{number}", f"add-rider\t{1000 + number}"))
                return b""

            def taken_late(_):
                return rest(next(it.socket for it in slow if it.manner == UNREAD)) if is_read else b""

            begun = time.monotonic()
            late, *found = at_once(lambda it: it[0](it[1]), [(taken_late, 0), *((asked, it) for it in range(20))], 21)
            ended = server.end()
            at = time.monotonic() - begun
            assert ended == (3, b"", b"store failed\n") and at < 1 + SOON, (ended, at)
            assert set(found) <= {UNAVAILABLE, b""} and UNAVAILABLE in found, set(found)
            assert riders(program, case.file) == 1
            assert not is_read or undated(late) == case.feeds["wide"], told(late)
        finally:
            server.stop()


def wide_city(program):
    """A city with as many types and stations as there may be, and the longest identifiers: `station_status` has some
    12 MB."""
    put(taken(program.folder, "city.db"), program.folder, "wide.db")
    commands = [f"add-type\tt{at:035}\tT\tbicycle\thuman\t0\tbasic" for at in range(TYPES - 1)]
    commands += [f"add-station\ts{at:035}\tS\t1.0\t2.0\t1" for at in range(STATIONS - 1)]
    assert ask(program, commands, file="wide.db", key="w") == ["ok"] * len(commands)


@contextlib.contextmanager
def with_sockets(count):
    """Lets this process have so many descriptors; tells whether it may."""
    soft, hard = resource.getrlimit(resource.RLIMIT_NOFILE)
    may = hard == resource.RLIM_INFINITY or hard >= count
    if may and soft < count:
        resource.setrlimit(resource.RLIMIT_NOFILE, (count, hard))
    try:
        yield may
    finally:
        resource.setrlimit(resource.RLIMIT_NOFILE, (soft, hard))


def cases():
    """Each case by its name, with the city that it is of."""
    found = {
        f"{count} clients, {manner}": ("wide" if manner == UNREAD else "city", {manner: count})
        for manner, count in itertools.product(MANNERS, (20, 100))
    }
    for manner in "silent", "stopped in the longest request":
        found[f"900 clients, {manner}"] = "city", {manner: 900}
    found["320 slow clients"] = (
        "wide", {"silent": 100, "a byte a second": 100, "stopped in the body": 100, UNREAD: 20}
    )
    found = {
        name: (file, lambda case, counts=counts: others_are_answered(counts, case))
        for name, (file, counts) in found.items()
    }
    found["1,000 silent clients"] = "city", no_more_than_a_thousand_are_open
    found["feeds that wait"] = "wide", feeds_wait_for_room
    found["clients that are in time"] = "wide", clients_that_are_in_time
    found["a count that ends"] = "city", a_count_that_ends
    found["answers under way at the end"] = "wide", answers_under_way
    found["moments"] = "city", moments_are_those_of_acceptance
    found["a store that fails"] = "wide", a_store_that_fails
    return found


@quickly
def test_slow_clients(program):
    with with_sockets(SOCKETS) as may:
        if not may:
            print(f"slow_clients.test_slow_clients: not tried, {SOCKETS} sockets may not be open", flush=True)
            return
        city(program)
        wide_city(program)
        feeds = {it: undated(answer(200, feed(program, "station_status", file=f"{it}.db"))) for it in ("city", "wide")}
        assert len(feeds["wide"]) > 12_000_000, len(feeds["wide"])

        def tried(numbered):
            number, (name, (file, holds)) = numbered
            copy = f"{file}-{number}.db"
            put(taken(program.folder, f"{file}.db"), program.folder, copy)
            try:
                holds(Case(program, copy, feeds))
                is_sound(program, copy)
            except FAULTS as fault:
                return f"{name}: {fault}"
            return None

        all_cases = cases()
        nothing_is([it for it in at_once(tried, enumerate(all_cases.items()), len(all_cases)) if it])


# ---- What takes no ten seconds


def test_more_clients_than_may_wait(program):
    """Many come at once, and each has its answer."""
    city(program)
    before, count = riders(program), 512
    with Server(program) as server:
        found = at_once(lambda it: server.ask(office(f"m{it}", f"add-rider\t{9000 + it}")), range(count), count)
    assert set(found) == {DONE}, set(found)
    assert riders(program) == before + count
    is_sound(program)


def is_at_rest(child):
    """Whether a program waits for something to happen."""
    return Path(f"/proc/{child.pid}/stat").read_text(encoding="ascii").rsplit(")", 1)[1].split()[0] == "S"


# How many bytes of a head come at once, how many come one by one behind them, and of how many clients.
SHORT_HEAD, LONG_HEAD, BYTES, SENDERS = 100, 8000, 50, 100


def cost_of_bytes(server, length):
    """The nanoseconds of a processor that bytes take which come one by one behind so many of a head."""
    front = b"GET /riders/9 HTTP/1.1\r\nX: "
    at_rest = server.descriptors()
    clients = begin(server, [server.connect] * SENDERS)
    for client in clients:
        client.sendall(front.ljust(length, b"x"))
    until(lambda: is_at_rest(server.child), SOON, "the server waits for more")
    before = processor(server.child)
    for _ in range(BYTES):
        # It is stopped meanwhile, so that it finds them all at once.
        os.kill(server.child.pid, signal.SIGSTOP)
        for client in clients:
            client.sendall(b"x")
        os.kill(server.child.pid, signal.SIGCONT)
        until(lambda: is_at_rest(server.child), SOON, "the server waits for more")
    took = processor(server.child) - before
    for client in clients:
        client.sendall(b"\r\n\r\n")
        found = rest(client)
        assert found == error(404), found
        client.close()
    until(lambda: server.descriptors() == at_rest, SOON, "the connections are closed")
    return took


def test_a_long_head_that_comes_byte_by_byte(program):
    """It isn't looked at anew for each byte: one of a long head costs no more than one of a short head."""
    city(program)
    costs = {SHORT_HEAD: [], LONG_HEAD: []}
    with Server(program) as server:
        for length in 3 * list(costs):
            costs[length].append(cost_of_bytes(server, length))
    short, long = (min(it) / BYTES / SENDERS for it in costs.values())
    assert long < 3 * short, f"a byte behind {LONG_HEAD} took {long:.0f} ns, and {short:.0f} ns behind {SHORT_HEAD}"


def test_clients_that_send_on(program):
    """What is sent behind an early answer is read for a moment, and holds nobody."""
    city(program)
    early = {
        request("POST", "/office", "Content-Length: 20000"): error(413),
        request("POST", "/office", "Content-Length: x"): error(400),
        request("POST", "/riders/17", "Content-Length: 2", body=b"{}"): error(405, "GET"),
        request("POST", "/nowhere", "Content-Length: 2", body=b"{}"): error(404),
    }
    with Server(program) as server:
        status = undated(server.ask(STATUS))
        before, begun = server.descriptors(), time.monotonic()
        clients = [(it, *pair) for pair in early.items() for it in begin(server, [server.connect] * 10)]
        for client, asked, _ in clients:
            client.sendall(asked)
        left = len(clients)
        while left:
            for client, *_ in clients:
                with contextlib.suppress(OSError):
                    client.sendall(b"x" * 1000)
            at, left = time.monotonic() - begun, server.descriptors() - before
            assert at < LINGER + SOON, f"{left} are open after {at:.1f} seconds"
            took = waited(server, get("/riders/9"), error(404)) + waited(server, STATUS, status)
            assert took < SOON, took
            time.sleep(0.02)
        for client, asked, wanted in clients:
            found = rest(client)
            assert found == wanted, (asked, found)


def test_an_early_answer_is_not_lost(program):
    """Who is refused before all that he sends has come, sends on for a moment and reads only then: the answer is there,
    and behind it an end, and no reset, by which some systems drop what wasn't read yet."""
    city(program)
    long = b"x" * 20_000
    early = {
        "too long a body": (request("POST", "/office", "Content-Length: 20000"), error(413)),
        "a bad length": (request("POST", "/office", "Content-Length: x"), error(400)),
        "another method": (request("POST", "/riders/17", "Content-Length: 2", body=b"{}"), error(405, "GET")),
        "no such path": (request("POST", "/nowhere", "Content-Length: 2", body=b"{}"), error(404)),
        "a coded body": (request("POST", "/office", "Transfer-Encoding: chunked"), error(400)),
    }
    with Server(program) as server:
        for name, (asked, wanted) in early.items():
            with server.connect() as client:
                client.sendall(asked)
                # By now it is answered.
                client.settimeout(SOON)
                assert client.recv(1, socket.MSG_PEEK) == wanted[:1], name
                for at in range(0, 16_000, 4000):
                    time.sleep(LINGER / 20)
                    client.sendall(long[at : at + 4000])
                client.shutdown(socket.SHUT_WR)
                found = b""
                try:
                    while piece := client.recv(65536):
                        found += piece
                except ConnectionResetError as fault:
                    raise AssertionError(f"{name}: the connection was reset behind {len(found)} bytes") from fault
                assert found == wanted, (name, found)


def test_a_server_that_stands_still(program):
    """It is stopped and goes on, as while deploy/backup copies its file. The connections that are open stay so."""
    city(program)
    with Server(program) as server:
        held = begin(server, [server.connect] * 5)
        for it in held:
            it.sendall(RIDE[:-1])
        for number in range(5):
            os.kill(server.child.pid, signal.SIGSTOP)
            with server.connect() as client:
                client.sendall(office(f"k{number}", f"add-rider\t{1000 + number}"))
                time.sleep(0.05)
                os.kill(server.child.pid, signal.SIGCONT)
                assert rest(client) == DONE, number
        for it in held:
            it.sendall(RIDE[-1:])
        found = {rest(it) for it in held}
        assert found == {STARTED}, found
