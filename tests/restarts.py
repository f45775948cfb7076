"""A city comes back by itself: deploy/bikeshare@.service starts the program again however often it ended, until room,
descriptors or memory are back, and leaves it down where no start helps.

systemd isn't run here: a small manager does what the unit says of restarts (Restart, RestartSec, the limit of starts),
with a fiftieth of its pauses. What needs a disk of memory is tried where one can be mounted, and a line says where not.
"""

import contextlib
import re
import resource
import sqlite3
import subprocess
import threading
import time
from pathlib import Path

from shared import CITY, TOP, Server, accepted, body_of, can_mount, city, disk, free_port, is_sound, office

UNIT = TOP / "deploy/bikeshare@.service"
SECONDS, FASTER = 30, 50
UNITS = {"": 1, "s": 1, "min": 60, "h": 3600}


def told_by(unit):
    """What a unit file says, by its keys."""
    return dict(re.findall(r"^(\w+)=(.*)$", unit.read_text(encoding="utf-8"), re.M))


def seconds_of(text):
    number, name = re.fullmatch(r"(\d+)(\w*)", text).groups()
    return int(number) * UNITS[name]


class Unit:
    """Runs the program as the unit does, without systemd: again after the ends of which the unit says so, until it is
    stopped or the limit of starts is reached."""

    def __init__(self, program, file="city.db", preexec=None):
        told = told_by(UNIT)
        assert told["Restart"] == "on-failure", told
        self.never = {int(it) for it in told["RestartPreventExitStatus"].split()}
        self.pause = seconds_of(told["RestartSec"]) / FASTER
        self.span = seconds_of(told["StartLimitIntervalSec"]) / FASTER
        self.most = int(told.get("StartLimitBurst", 5))
        self.program, self.words, self.preexec = program, ["serve", file, "--port"], preexec
        self.port, self.starts, self.ends, self.over = free_port(), [], [], threading.Event()
        self.child, self.thread = None, threading.Thread(target=self.run)

    def run(self):
        while not self.over.is_set():
            now = time.monotonic()
            if self.span and sum(now - it < self.span for it in self.starts) >= self.most:
                self.ends.append("start-limit-hit")
                return
            self.starts.append(now)
            words = [self.program.file, *self.words, str(self.port)]
            how = {"stdin": subprocess.DEVNULL, "stdout": subprocess.DEVNULL, "stderr": subprocess.DEVNULL}
            self.child = subprocess.Popen(words, cwd=self.program.folder, preexec_fn=self.preexec, **how)
            self.ends.append(self.child.wait())
            if self.ends[-1] == 0 or self.ends[-1] in self.never:
                return
            self.over.wait(self.pause)

    def __enter__(self):
        self.thread.start()
        return self

    def __exit__(self, kind, fault, trace):
        self.over.set()
        if self.child:
            self.child.kill()
        self.thread.join(SECONDS)

    def ask(self, request):
        """The body of the answer, or none where there is none."""
        with contextlib.suppress(OSError):
            server = Server.__new__(Server)
            server.port, server.seconds = self.port, SECONDS
            found = server.ask(request)
            return body_of(found) if found else None
        return None

    def wait(self, is_so, what):
        until = time.monotonic() + SECONDS
        while not is_so():
            assert time.monotonic() < until, f"{what}: it ended {self.ends}"
            time.sleep(0.01)

    def comes_back(self, key):
        """Holds that a request is answered at last, with nobody's help."""
        request = office(key, "top-up\t17\t1")
        self.wait(lambda: b'"balance_cents"' in (self.ask(request) or b""), "it doesn't come back")


def test_no_limit_of_starts(program):
    """The unit has none, and its pause leaves time between two openings; the statuses that stay so are 2 and 5."""
    told = told_by(UNIT)
    assert told["StartLimitIntervalSec"] == "0" and "StartLimitBurst" not in told, told
    assert 10 <= seconds_of(told["RestartSec"]) <= 30, told["RestartSec"]
    assert told["RestartPreventExitStatus"] == "2 5", told
    # systemd counts starts where it isn't said in the section of the unit.
    text = UNIT.read_text(encoding="utf-8")
    assert text.index("[Unit]") < text.index("StartLimitIntervalSec") < text.index("[Service]")


def test_it_comes_back_from_a_full_disk(program):
    """However many requests end the program on a full disk, and however long that takes: once there is room the next
    request is answered. What was answered before is there."""
    if not can_mount(program, "restarts.test_it_comes_back_from_a_full_disk"):
        return
    here = Path(program.folder, "disk")
    here.mkdir()
    with disk(here, 1_000_000):
        program.folder = str(here)
        city(program)
        with Unit(program) as unit:
            unit.comes_back("first")
            with contextlib.suppress(OSError), open(here / "fill", "wb", buffering=0) as file:
                while True:
                    file.write(bytes(4096))
            number = 0

            def fails():
                nonlocal number
                number += 1
                unit.ask(office(f"n{number}", "top-up\t17\t1"))
                return len(unit.ends) >= 12

            unit.wait(fails, "it goes on without room")
            assert set(unit.ends) == {3}, unit.ends
            (here / "fill").unlink()
            unit.comes_back("last")
        is_sound(program)


def comes_back(program, kind, few, status):
    """Holds that a city which may have only so much of a resource ends each start by this status, and answers once it
    may have what it had."""
    is_short = threading.Event()
    is_short.set()

    def short():
        if is_short.is_set():
            resource.setrlimit(kind, (few, resource.getrlimit(kind)[1]))

    with Unit(program, preexec=short) as unit:
        unit.wait(lambda: len(unit.ends) >= 8, "it begins")
        assert set(unit.ends) == {status}, unit.ends
        is_short.clear()
        unit.comes_back(f"back{status}")


def test_it_comes_back_when_descriptors_and_memory_are_back(program):
    city(program)
    comes_back(program, resource.RLIMIT_NOFILE, 500, 6)
    # So little that the program itself begins, and its city isn't opened.
    comes_back(program, resource.RLIMIT_AS, 10 << 20, 4)


def test_it_stays_down_where_no_start_helps(program):
    """A wrong command line and a file that isn't a sound one of this program end it once."""
    city(program)
    accepted(program, CITY[:2], file="foreign.db")
    with contextlib.closing(sqlite3.connect(Path(program.folder, "foreign.db"))) as base:
        base.execute("CREATE UNIQUE INDEX mine ON plans (name)")
        base.commit()
    with Unit(program, "foreign.db") as unit:
        unit.wait(lambda: not unit.thread.is_alive(), "it is started again")
    assert unit.ends == [5], unit.ends
    unit = Unit(program)
    unit.port = "080"
    with unit:
        unit.wait(lambda: not unit.thread.is_alive(), "it is started again")
    assert unit.ends == [2], unit.ends
