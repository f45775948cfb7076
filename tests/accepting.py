"""Connections that the system can't accept for a while, for want of descriptors or of memory or for a fault of the
network: the server goes on, without turning in place, and serves those that are open meanwhile. One that it can never
accept ends it. The failures come from stops/system.c.
"""

import contextlib
import errno
import os
import tempfile
import time

from newest import processor
from shared import DONE, READ_FAILED, SECONDS, Program, Server, at_once, city, get, is_sound, office, rest
from system_faults import System

# What passes by itself.
PASSING = [
    errno.EMFILE, errno.ENFILE, errno.ENOBUFS, errno.ENOMEM, errno.EPROTO, errno.EPERM, errno.ENETDOWN,
    errno.ECONNABORTED, errno.EINTR,
]
# What is over with one try: the connection of this failure alone is gone.
OVER_AT_ONCE = errno.ECONNABORTED, errno.EINTR
# How long accepting fails, in seconds, and how often it is tried then, for each of these seconds.
FAILING, LEAST_TRIES, MOST_TRIES = 1, 3, 16
# Within how many seconds of the end of it the next client is answered, and who is open meanwhile. That it is tried
# again soon is told by the count of tries; these seconds leave room for a disk on which one commit takes some of them.
SOON = 8
# How many nanoseconds of a processor the failing may take.
MOST_WORK = 200_000_000


class Clients:
    """Requests to add a rider each."""

    def __init__(self, server):
        self.server, self.asked = server, 0

    def request(self):
        self.asked += 1
        return office(f"c{self.asked}", f"add-rider\t{100 + self.asked}")

    def is_answered(self, what):
        """Holds that a client that comes now is answered soon."""
        since = time.monotonic()
        with self.server.connect() as client:
            client.sendall(self.request())
            self.has_answer(client, since, what)

    def has_answer(self, client, since, what):
        found = rest(client)
        took = time.monotonic() - since
        assert found == DONE and took < SOON, f"{what}: {found} after {took:.2f} seconds"


def test_accepting_that_fails_once(program):
    """Alone and beside another client."""
    city(program)
    system = System(program)
    with Server(program, env=system.env) as server:
        clients = Clients(server)
        for number in PASSING:
            name = os.strerror(number)
            system.no_accept(number, once=True)
            clients.is_answered(f"alone, {name}")
            with server.connect() as open_one:
                asked = clients.request()
                open_one.sendall(asked[:-1])
                time.sleep(0.05)
                system.no_accept(number, once=True)
                clients.is_answered(f"beside another, {name}")
                since = time.monotonic()
                open_one.sendall(asked[-1:])
                clients.has_answer(open_one, since, f"the other, {name}")
            assert system.tried() >= 2 and server.child.poll() is None, name
    is_sound(program)


def failing(server, system, clients, number, is_alone):
    """Accepting fails for a second, with a client that waits. Those that are open are served."""
    name = f"{os.strerror(number)}, {'alone' if is_alone else 'beside others'}"
    with server.connect() as first, server.connect() as second:
        parts = [] if is_alone else [(first, clients.request()), (second, clients.request())]
        for client, asked in parts:
            client.sendall(asked[:-1])
        if is_alone:
            for client in first, second:
                client.sendall(get("/riders/9"))
                assert rest(client), name
        time.sleep(0.1)
        system.tried()
        system.no_accept(number)
        work, begun = processor(server.child), time.monotonic()
        with server.connect() as waiting:
            waiting.sendall(clients.request())
            for at, (client, asked) in enumerate(parts, 1):
                time.sleep(max(0, begun + FAILING * at / 3 - time.monotonic()))
                since = time.monotonic()
                client.sendall(asked[-1:])
                clients.has_answer(client, since, f"{name}: one that is open")
            time.sleep(max(0, begun + FAILING - time.monotonic()))
            work, tries, took = processor(server.child) - work, system.tried(), time.monotonic() - begun
            assert server.child.poll() is None, f"{name}: it ended"
            if number not in OVER_AT_ONCE:
                assert LEAST_TRIES <= tries <= MOST_TRIES * took, f"{name}: {tries} tries in {took:.1f} seconds"
                assert work < MOST_WORK * took, f"{name}: {work} ns of a processor in {took:.1f} seconds"
            since = time.monotonic()
            system.accept()
            clients.has_answer(waiting, since, f"{name}: who waited")
    clients.is_answered(f"{name}: who came later")


def test_accepting_that_fails_for_a_second(program):
    """Each failure with nobody else open, and, in a city of its own at the same time, beside others."""

    def tried(is_alone):
        here = Program(program.file, tempfile.mkdtemp(dir=program.folder))
        city(here)
        system = System(here)
        with Server(here, env=system.env) as server:
            clients = Clients(server)
            for number in PASSING:
                # That a signal came, which is said once, is no failure for the library: it tries again at once.
                if is_alone or number != errno.EINTR:
                    failing(server, system, clients, number, is_alone)
        is_sound(here)

    at_once(tried, (True, False), 2)


def test_accepting_that_never_goes_well(program):
    """What doesn't pass ends it: its descriptor is none."""
    city(program)
    system = System(program)
    for is_alone in True, False:
        with Server(program, env=system.env) as server:
            others = [] if is_alone else [server.connect()]
            time.sleep(0.05)
            system.no_accept(errno.EBADF)
            with contextlib.suppress(ConnectionError), server.connect():
                server.child.wait(SECONDS)
            ended = server.end()
            assert ended == READ_FAILED, (is_alone, ended)
            for it in others:
                assert rest(it) == b""
                it.close()
        system.accept()
    is_sound(program)
