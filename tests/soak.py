"""A server that is asked for some time by many clients, good ones and slow ones, has the descriptors and the memory in
the end that it had in the beginning.

Some seconds stand in the gate. By hand, from the environment, as ten minutes:

    BIKESHARE_SOAK=600 tests/run soak.
"""

import os
import random
import threading
import time

from shared import FEEDS, Server, city, get, get_feed, is_sound, office, rows_of
from slow_clients import MANNERS, SOON, UNREAD, Slow, until

SOAK = float(os.environ.get("BIKESHARE_SOAK", "4"))
GOOD, SLOW = 12, 60
# What the engine may still take of its own, as its file grows.
MORE = 4 << 20


class Asker(threading.Thread):
    """A client that asks one request after the other, and counts the payments that it was told are booked."""

    def __init__(self, server, name, ends):
        super().__init__(name=name)
        self.server, self.ends, self.paid, self.wrong = server, ends, 0, []

    def ask(self, turn, pick):
        kind = pick.randrange(4)
        if kind == 0:
            found = self.server.ask(get_feed(pick.choice(FEEDS)))
            assert found.startswith(b"HTTP/1.1 200 OK\r\n"), found[:100]
        elif kind == 1:
            found = self.server.ask(get("/riders/17"))
            assert found.startswith(b"HTTP/1.1 200 OK\r\n") and b'{"rider":17,' in found, found
        else:
            found = self.server.ask(office(f"soak-{self.name}-{turn}", "top-up\t17\t1"))
            assert found.startswith(b"HTTP/1.1 200 OK\r\n"), found
            self.paid += 1

    def run(self):
        pick, turn = random.Random(self.name), 0
        try:
            while time.monotonic() < self.ends:
                turn += 1
                self.ask(turn, pick)
        except (AssertionError, OSError) as fault:
            self.wrong.append(f"client {self.name}, request {turn}: {fault}")


def soaked(server, name, ends):
    """Asks until then, beside clients that are slow in every manner and are closed at some moment. Returns how many
    payments were booked."""
    pick, slow = random.Random(7), []
    askers = [Asker(server, f"{name}{it}", ends) for it in range(GOOD)]
    for it in askers:
        it.start()
    while time.monotonic() < ends:
        if len(slow) < SLOW:
            slow.append(Slow(server, pick.choice([it for it in MANNERS if it != UNREAD])))
        for it in slow:
            it.go_on()
        if pick.random() < 0.3:
            slow.pop(pick.randrange(len(slow))).socket.close()
        time.sleep(0.005)
    for it in askers:
        it.join()
    for it in slow:
        it.socket.close()
    wrong = [said for it in askers for said in it.wrong]
    assert not wrong, wrong[:3]
    return sum(it.paid for it in askers)


def payments(program):
    """How many are booked."""
    return rows_of("SELECT count(*) FROM entries", program.folder, "city.db")[0][0]


def test_soak(program):
    city(program)
    before = payments(program)
    with Server(program) as server:
        server.ask(get("/riders/17"))
        descriptors = server.descriptors()
        paid = soaked(server, "a", time.monotonic() + 1)
        memory = server.memory()
        paid += soaked(server, "b", time.monotonic() + SOAK)
        until(lambda: server.descriptors() == descriptors, SOON, "all of their descriptors are closed")
        assert server.memory() < memory + MORE, f"{server.memory()} bytes of memory, {memory} before"
        server.stop()
    assert payments(program) == before + paid
    is_sound(program)
