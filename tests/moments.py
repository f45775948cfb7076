"""The moments of requests where the clock was wrong for a while, or moments of lines are.

A request that acts has the clock's moment as its connection was accepted, or that of the last accepted one, where that
is later: the city's time never goes back. What only shows has the later of both too. What was refused, shown or empty
moves nothing: once the clock is right the moments are.
"""

import time

from serving import seconds
from shared import (
    CITY, DONE, START, STARTED, Server, accepted, city, error, get, get_feed, office, post, put, refused, removed,
    requests_of, reset, rest, rows_of, taken,
)
from system_faults import System

DAY, HOUR = 86_400, 3660
# What a busy machine may take, in seconds.
SLACK = 5
FEED = "/gbfs/3.0/station_status.json"
REFUSED = '{"key":"r1","station":"a1","dock":2}'


def half_closed(server):
    """A connection that sends nothing and ends its input."""
    assert server.ask(b"", ends=True) == b""


def closed(server):
    """One that is closed at once."""
    server.connect().close()
    time.sleep(0.05)


def aborted(server):
    """One that is reset in the midst of a request."""
    client = server.connect()
    client.sendall(post("/riders/17/start", START)[:-1])
    reset(client)
    time.sleep(0.05)


def answered(asked, wanted):
    """One that asks this, and has an answer that begins so."""

    def connection(server):
        found = server.ask(asked)
        assert found.startswith(wanted), (asked, found)

    return connection


# What moves nothing.
IDLE = {
    "a row": answered(get("/riders/17"), b"HTTP/1.1 200"),
    "a feed": answered(get_feed("station_status"), b"HTTP/1.1 200"),
    "a path without a route": answered(get("/nonsense"), error(404)),
    "no request": answered(b"x\r\n\r\n", error(400)),
    "another method": answered(get("/office"), error(405, "POST")),
    "a bad field": answered(post("/riders/17/start", "{}"), b"HTTP/1.1 400"),
    "a refusal": answered(post("/riders/17/start", REFUSED), refused(14, "dock_broken")),
    "a request that comes again": answered(office("f12", CITY[11]), DONE),
    "an empty connection, half closed": half_closed,
    "an empty connection": closed,
    "a half request": aborted,
}


def is_now(moment, what, ahead=0):
    """Holds that a moment's text is the clock's, which is so much ahead."""
    behind = time.time() + ahead - seconds(moment)
    assert -1 <= behind <= SLACK, f"{what}: {moment} is {behind:.0f} seconds behind the clock"


def cost_of_an_hour(program):
    """What a ride of an hour costs, in a city of its own."""
    accepted(program, CITY, file="cost.db", key="f")
    begin = b"1700000000\trider:17\ts1\tstart\t17\ta1\t1\n"
    end = b"%d\tdock:a1\te1\tend\t7\ta1\t1\n" % (1700000000 + HOUR)
    status, out, _ = program.run("lines", "cost.db", given=begin + end)
    assert status == 0, out
    removed(program.folder, "cost.db")
    return int(out.split()[-2])


def test_a_clock_that_was_ahead_for_what_moves_nothing(program):
    """One connection of each kind while the clock is a day ahead: then it is right again, and all moments are."""
    city(program)
    parts, fare = taken(program.folder, "city.db"), cost_of_an_hour(program)
    system = System(program)
    for name, connection in IDLE.items():
        put(parts, program.folder, "city.db")
        system.clock(0)
        with Server(program, env=system.env) as server:
            system.clock(DAY)
            connection(server)
            system.clock(0)
            is_now(server.told(FEED)["last_updated"], f"{name}, and then a feed")
            assert server.ask(post("/riders/17/start", START)) == STARTED
            is_now(server.told("/rentals/1")["start"], f"{name}, and then a start")
            system.clock(HOUR)
            found = server.ask(post("/docks/a1/end", '{"key":"e1","bike":7,"dock":1}'))
            wanted = f'{{"result":"ok","fare_cents":{fare},"balance_cents":{2500 - fare}}}'.encode()
            assert found.endswith(wanted), f"{name}, and then a ride of an hour: {found}"
            is_now(server.told(FEED)["last_updated"], f"{name}, and then an end", HOUR)


def test_all_that_moves_nothing_at_once(program):
    """While the clock is a day ahead one is silent, and all the others come; it sends its request when it is right."""
    city(program)
    system = System(program)
    with Server(program, env=system.env) as server:
        with server.connect() as early:
            early.sendall(get_feed("station_status")[:-1])
            time.sleep(0.1)
            system.clock(DAY)
            for connection in IDLE.values():
                connection(server)
            system.clock(0)
            early.sendall(get_feed("station_status")[-1:])
            assert rest(early).startswith(b"HTTP/1.1 200")
        assert server.ask(post("/riders/17/start", START)) == STARTED
        is_now(server.told("/rentals/1")["start"], "a start")
    ((now,),) = rows_of("SELECT max(moment) FROM history", program.folder, "city.db")
    assert abs(now - time.time()) < SLACK, now


def test_a_clock_that_was_ahead_for_what_acts(program):
    """The moment of an accepted request stays: the city's time never goes back, and no feed is older than what it
    tells."""
    city(program)
    system = System(program)
    with Server(program, env=system.env) as server:
        system.clock(DAY)
        assert server.ask(office("m1", "mark-dock\ta1\t2\tworking")) == DONE
        system.clock(0)
        ahead = server.told(FEED)["data"]["stations"][0]["last_reported"]
        is_now(ahead, "the request", DAY)
        told = server.told(FEED)["last_updated"]
        assert told == ahead, f"a feed of {told}, and the city's moment is {ahead}"
        assert server.ask(post("/riders/17/start", START)) == STARTED
        start = server.told("/rentals/1")["start"]
        assert start == ahead, f"a start of {start}, and the city's moment is {ahead}"
        # Further ahead than the city, the clock tells again.
        system.clock(DAY + HOUR)
        is_now(server.told(FEED)["last_updated"], "a feed later", DAY + HOUR)
        system.clock(0)
        told = server.told(FEED)["last_updated"]
        assert told == ahead, f"a feed of {told} behind one that was later, and the city's moment is {ahead}"


def test_a_clock_that_is_set_back(program):
    city(program)
    system = System(program)
    with Server(program, env=system.env) as server:
        assert server.ask(post("/riders/17/start", START)) == STARTED
        start = server.told("/rentals/1")["start"]
        for behind in -1, -HOUR, -DAY:
            system.clock(behind)
            told = server.told(FEED)
            assert told["last_updated"] >= start == told["data"]["stations"][0]["last_reported"], (behind, told)
        found = server.ask(post("/docks/a1/end", '{"key":"e1","bike":7,"dock":1}'))
        assert found.endswith(b'"fare_cents":100,"balance_cents":2400}'), found
        told = server.told("/rentals/1")
        assert told["end"] == start, told


def test_a_request_begun_before_another(program):
    """A request has the moment of its own acceptance, however late it is whole, or that of one accepted before it."""
    city(program)
    system = System(program)
    with Server(program, env=system.env) as server:
        with server.connect() as early:
            early.sendall(post("/riders/17/start", START)[:-1])
            time.sleep(0.1)
            system.clock(HOUR)
            assert server.ask(get("/riders/17")).startswith(b"HTTP/1.1 200")
            early.sendall(b"}")
            assert rest(early) == STARTED
        is_now(server.told("/rentals/1")["start"], "a start whose connection came before the clock was set on")


NOW = 1_700_000_000


def test_moments_of_lines(program):
    """The same of lines: what is refused, unreadable or comes again moves nothing, and what is accepted does."""
    later, far = NOW + 60, 4_102_444_800
    idle = {
        "a refusal": (f"{far}\toffice\tr1\tadd-rider\t17\n", "refused\t10\talready_there"),
        "a bad field": (f"{far}\trider:17\tr1\tstart\t17\ta1\tx\n", "refused\t11\tbad_field"),
        "an unknown word": (f"{far}\toffice\tr1\tnonsense\n", "refused\t11\tbad_field"),
        "an empty line": ("\n", "refused\t11\tbad_field"),
        "a bad moment": (f"{far}0000000000\toffice\tr1\tadd-rider\t99\n", "refused\t11\tbad_field"),
        "a used key": (f"{far}\toffice\tk1\tadd-rider\t99\n", "refused\t33\tkey_reused"),
        "a request that comes again": (f"{far}\toffice\tk12\t{CITY[11]}\n", "ok"),
    }
    given = requests_of(CITY, at=NOW)
    for name, (line, wanted) in idle.items():
        begin, end = f"{later}\trider:17\ts1\tstart\t17\ta1\t1\n", f"{later + HOUR}\tdock:a1\te1\tend\t7\ta1\t1\n"
        status, out, _ = program.run("lines", "city.db", given=given + (line + begin + line + end + line).encode())
        found = out.decode().splitlines()[len(CITY) :]
        assert status == 0 and [found[0], found[2], found[4]] == [wanted] * 3, (name, status, found)
        assert rows_of("SELECT start, finish FROM rentals", program.folder, "city.db") == [(later, later + HOUR)], name
        assert rows_of("SELECT max(moment) FROM history", program.folder, "city.db") == [(later + HOUR,)], name
        removed(program.folder, "city.db")


def test_an_accepted_line_ahead(program):
    """Its moment stays for what comes behind it."""
    lines = requests_of(CITY, at=NOW).decode() + (
        f"{NOW + DAY}\toffice\tm1\tmark-dock\ta1\t2\tworking\n{NOW}\trider:17\ts1\tstart\t17\ta1\t1\n"
    )
    status, out, _ = program.run("lines", "city.db", given=lines.encode())
    assert status == 0 and out.endswith(b"ok\nrental\t1\t7\n"), out
    assert rows_of("SELECT start FROM rentals", program.folder, "city.db") == [(NOW + DAY,)]
