"""Two and three exchanges at once, whose requests come byte by byte, in an order that is drawn. Each answer is, byte
for byte, the one that a second server gives to the same requests, sent whole and one after the other.

Requests that change nothing of what the others are told are answered alike in any order. Of those that do, such as
three starts at one dock, each last byte is sent when all that were whole before are answered, so that the order is
known.

Some clients end their input behind their last byte, which may be one in the midst of a request.

Some draws stand in the gate. By hand, from the environment:

    BIKESHARE_DRAWS=5000 BIKESHARE_SEED=7 tests/run interleaved.

BIKESHARE_DRAWS is how many are made, and BIKESHARE_SEED what they are made from. A failure tells both.
"""

import contextlib
import json
import os
import random
import shutil
import socket
import time
from pathlib import Path

from shared import (
    FEEDS, Server, city, feed, get, get_feed, is_sound, office, post, quickly, request, rest, rows_of, timeless, told,
    told_with,
)

DRAWS = int(os.environ.get("BIKESHARE_DRAWS", "120"))
SEED = int(os.environ.get("BIKESHARE_SEED", "1"))
RIDERS, DOCKS = [17, 18, 19], [1, 3]
UNREADABLE = [
    b"GET  /riders/17 HTTP/1.1\r\n\r\n", b"GET /riders/17 HTTP/2.0\r\n\r\n", b"G(T / HTTP/1.1\r\n\r\n",
    b"GET /riders/17 HTTP/1.1\r\nHost : a\r\n\r\n", b"GET /riders/17 HTTP/1.1\r\nX: a\0b\r\n\r\n",
    b"\x16\x03\x01\x02\x00\x01\x00\x01\xfc\x03\x03\r\n\r\n",
]


def unlike(pick, number):
    """A request that no other one's answer depends on."""
    return pick.choice([
        lambda: office(f"p{number}", f"add-rider\t{1000 + number}"),
        lambda: office(f"p{number}", f"add-rider\t{1000 + number}"),
        lambda: office(f"p{number}", "add-rider\t17"),
        lambda: get(pick.choice(["/riders/17", "/bikes/7", "/orders/1", "/rentals/999999"])),
        lambda: get_feed(pick.choice(FEEDS)),
        lambda: pick.choice(UNREADABLE),
        lambda: post(pick.choice(["/nowhere", "/riders/17", "/office/"]), "{}" + " " * pick.choice([0, 100, 500])),
        lambda: get("/office"),
        lambda: post("/office", pick.choice(["[]", "{}", '{"key":1}', '{"key":"k","command":"top-up\\t17"}'])),
        lambda: request("POST", "/office", "Content-Length: 20000"),
    ])()


def alike(pick, number):
    """A request of those that change what the others are told."""
    rider, dock, to = pick.choice(RIDERS), pick.choice(DOCKS), pick.choice(DOCKS)
    state = pick.choice(["broken", "working", "working"])
    return pick.choice([
        lambda: post(f"/riders/{rider}/start", json.dumps({"key": f"s{number}", "station": "a1", "dock": dock})),
        lambda: post(f"/riders/{rider}/start", json.dumps({"key": f"s{number}", "station": "a1", "dock": dock})),
        lambda: post("/docks/a1/end", json.dumps({"key": f"e{number}", "bike": 7, "dock": to})),
        lambda: post("/docks/a1/end", json.dumps({"key": f"e{number}", "bike": 7, "dock": to})),
        lambda: post("/docks/a1/mark-dock", json.dumps({"key": f"d{number}", "dock": dock, "state": state})),
        lambda: office(f"t{number}", f"top-up\t{rider}\t{pick.randint(1, 999)}"),
        lambda: naming(pick, number),
        lambda: get(f"/riders/{rider}"),
        lambda: get("/bikes/7"),
        lambda: get_feed("station_status"),
        lambda: get_feed("station_information"),
    ])()


def naming(pick, number):
    """A name of the station comes, changes or goes, in the system's language or in another."""
    word, language = pick.choice(["add-name", "set-name", "set-name", "remove-name"]), pick.choice(["en", "de"])
    fields = [word, "station", "a1", language, f"Name {number}"]
    return office(f"n{number}", "\t".join(fields[:4] if word == "remove-name" else fields))


def cut(pick, asked, is_changing):
    """A request, and whether its input ends behind it. It may be a front of one, but of none that would change what the
    others are told."""
    if pick.random() < 0.8:
        return asked, pick.random() < 0.2
    return asked if is_changing else asked[: pick.randrange(1, len(asked) + 1)], True


class Draw:
    """Some requests, and the order in which their bytes are sent."""

    def __init__(self, pick, number):
        self.is_ordered = pick.random() < 0.5
        one = alike if self.is_ordered else unlike
        count = pick.choice([2, 3])
        self.asked = [cut(pick, one(pick, 10 * number + it), self.is_ordered) for it in range(count)]
        self.bytes = [at for at, (it, _) in enumerate(self.asked) for _ in it]
        pick.shuffle(self.bytes)
        if pick.random() < 0.3:
            # All but the last bytes first.
            lasts = list(range(count))
            pick.shuffle(lasts)
            for at in lasts:
                self.bytes.remove(at)
            self.bytes += lasts
        # Between two bytes, so that most are read alone, or many at once.
        self.pause = pick.choice([0, 0, 0, 0, 0.0003]) if len(self.bytes) < 1000 else 0

    def exchanged(self, server):
        """Sends them to a server: the answers, and the order in which the requests were whole."""
        sent, found, order = [0] * len(self.asked), [None] * len(self.asked), []
        with contextlib.ExitStack() as stack:
            clients = [stack.enter_context(server.connect()) for _ in self.asked]
            for at in self.bytes:
                asked, is_ended = self.asked[at]
                sent[at] += 1
                is_last = sent[at] == len(asked)
                if is_last:
                    for it in order if self.is_ordered else []:
                        found[it] = rest(clients[it]) if found[it] is None else found[it]
                    order.append(at)
                # What comes behind the byte that tells that it can't be read may meet a closed connection.
                with contextlib.suppress(OSError):
                    clients[at].sendall(asked[sent[at] - 1 : sent[at]])
                    if is_last and is_ended:
                        clients[at].shutdown(socket.SHUT_WR)
                if self.pause:
                    time.sleep(self.pause)
            return [rest(client) if it is None else it for client, it in zip(clients, found)], order


@quickly
def test_exchanges_byte_by_byte(program):
    """Both servers' cities are alike at the end, too."""
    riders = [it for rider in RIDERS[1:] for it in (f"add-rider\t{rider}", f"top-up\t{rider}\t1000000")]
    city(program, "add-docks\ta1\t2", "top-up\t17\t1000000", *riders)
    shutil.copy(Path(program.folder, "city.db"), Path(program.folder, "beside.db"))
    pick, answered = random.Random(f"{SEED} interleaved"), set()
    with Server(program) as alone, Server(program, file="beside.db") as server:
        for number in range(DRAWS):
            draw = Draw(pick, number)
            found, order = draw.exchanged(server)
            for at in order:
                wanted = timeless(alone.ask(*draw.asked[at]))
                with told_with(f"seed {SEED}, draw {number}, the requests {draw.asked}, whole in the order {order}"):
                    assert timeless(found[at]) == wanted, f"{at} is answered by {told(found[at])}, not {told(wanted)}"
                answered.add(wanted[9:12])
        assert server.child.poll() is None, server.child.poll()
    assert answered == {b"200", b"400", b"404", b"405", b"409", b"413"} or DRAWS < 100, answered
    files = "city.db", "beside.db"
    for file in files:
        is_sound(program, file)
    for query in (
        "SELECT rider, balance FROM riders_4 ORDER BY rider", "SELECT caller, req_key FROM history ORDER BY 1, 2",
        "SELECT name FROM stations_4", "SELECT * FROM more_names",
    ):
        one, other = (rows_of(query, program.folder, file) for file in files)
        assert one == other, query
    one, other = (timeless(feed(program, "station_status", file=file).encode()) for file in files)
    assert one == other, (one, other)
