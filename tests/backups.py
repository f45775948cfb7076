"""Copies by deploy/backup: onto disks of every size between too small and large enough, and with calls that fail in
each of the script's programs, of a city that is served and takes requests, and of one whose server was killed.

After each copying:

  - where the status is 0, COPY is there with nothing beside it, SQLite's integrity_check finds nothing in it, and its
    tables are those of the city at a moment between the begin and the end of the copying;
  - where it is another, one line says what failed, and COPY isn't there, or is no less than that;
  - the city is what it was, and its server goes on.

Disks are of memory, and are mounted where the test is root. Faults come from tests/stops/faults.c. A sample stands in
the gate. By hand, all of it:

    BIKESHARE_BACKUPS=1 BIKESHARE_JOBS=3 tests/run backups.

BIKESHARE_BACKUPS is the stride for sizes and calls; BIKESHARE_JOBS is how many cities are copied at a time;
BIKESHARE_STOPS_TOLD names a file to which tests add how many copies they tried and how they ended.
"""

import collections
import contextlib
import functools
import os
import re
import shutil
import signal
import subprocess
import tempfile
import time
from pathlib import Path

from operating import DEPLOY, Sender, keys_in, top_ups
from shared import (
    CITY, EIO, ENOSPC, FAULTS, JOBS, Program, Server, accepted, at_once, can_mount, copied, disk, environment, is_sound,
    is_whole, nothing_is, office, put, quickly, removed, taken, tell, told_with,
)

STRIDE = int(os.environ.get("BIKESHARE_BACKUPS", "0"))
SECONDS = 120
PAGE = 4096
# How far apart the requests of a city under load are.
PAUSE = 0.02


# ---- cities that are copied


def tables(*where):
    """The rows of each table of a whole file."""
    with copied(*where) as base:
        is_whole(base)
        names = [it for (it,) in base.execute("SELECT name FROM sqlite_schema WHERE type = 'table'")]
        return {name: sorted(base.execute(f"SELECT * FROM {name}"), key=repr) for name in names}


def number_of(key):
    """The number of the top-up that has this key, and 0 where it is another request's."""
    return int(key[1:]) if re.fullmatch(r"n\d+", key) else 0


def rolled_back(city, count):
    """The tables of a city as they were after so many top-ups of 1 hundredth each. Rider 17 had 25.00 before."""
    # The first entry is that of the 25.00.
    entries = [it for it in city["entries"] if it[0] <= count + 1]
    riders = [(rider, blocked, 2500 + count, *more) for rider, blocked, _, *more in city["riders_4"]]
    requests = [it for it in city["history"] if number_of(it[3]) <= count]
    return city | {"entries": entries, "riders_4": riders, "history": requests}


def finished(words, **how):
    """Runs a script to its end. Where that takes too long it is killed with all that it runs."""
    how = {"stdout": subprocess.PIPE, "stderr": subprocess.PIPE, "start_new_session": True, **how}
    with subprocess.Popen(words, **how) as script:
        try:
            out, said = script.communicate(timeout=SECONDS)
        except subprocess.TimeoutExpired:
            os.killpg(script.pid, signal.SIGKILL)
            raise
    return subprocess.CompletedProcess(words, script.returncode, out, said)


class Copies:
    """A city in a folder of its own, and what became of its copies."""

    def __init__(self, program, folder):
        self.folder = Path(folder)
        self.program = Program(program.file, str(self.folder))
        self.file, self.copy = self.folder / "city.db", self.folder / "disk/copy.db"
        (self.folder / "disk").mkdir()
        self.ends, self.found = collections.Counter(), []

    def backup(self, env):
        """Copies it, and returns how that ended, and the copy's tables if it is there."""
        words, env = [DEPLOY / "backup", self.file, self.copy], {"BIKESHARE": self.program.file, **env}
        made = finished(words, env=env)
        left = sorted(it.name for it in self.copy.parent.iterdir())
        if made.returncode == 0:
            assert left == [self.copy.name] and not made.stderr, (made, left)
        else:
            assert made.returncode == 1 and re.fullmatch(rb"backup: [^\n]+\n", made.stderr), made
        self.ends["copied" if made.returncode == 0 else "failed"] += 1
        return made, self.seen(taken(self.copy)) if self.copy.exists() else None

    def seen(self, parts):
        """The tables of a file and its log. They are looked at elsewhere, since a disk may be full."""
        put(parts, self.folder, "seen.db")
        return tables(self.folder, "seen.db")

    def turn(self, **env):
        """Returns what is wrong with a copying, or nothing."""
        try:
            self.tried({**os.environ, **{key: str(value) for key, value in env.items()}})
        except FAULTS as fault:
            return f"{env}: {fault}"
        return None

    def cleared(self):
        """Removes what a copying left."""
        for it in self.copy.parent.iterdir():
            shutil.rmtree(it) if it.is_dir() else it.unlink()


@functools.cache
def killed(file):
    """The file and the log of a city whose server was killed, and its tables."""
    with tempfile.TemporaryDirectory() as folder:
        with Server(Program(file, folder), seconds=SECONDS) as server:
            made_over(server)
            assert top_ups(server, range(1, 6)) == [1, 2, 3, 4, 5]
        return taken(folder, "city.db"), tables(folder, "city.db")


class Killed(Copies):
    """A city whose server was killed, and which is all in its log."""

    def __init__(self, program, folder):
        super().__init__(program, folder)
        self.parts, self.wanted = killed(program.file)
        assert len(self.parts[""]) < PAGE < len(self.parts["-wal"])
        put(self.parts, self.file)

    def tried(self, env):
        made, found = self.backup(env)
        assert found in (None, self.wanted), "the copy is another city"
        assert taken(self.file) == self.parts, "the city isn't what it was"
        if b"doesn't take the copy" in made.stderr or b"wasn't brought into" in made.stderr:
            left = Path(f"{self.copy}.unfinished")
            parts = {"": (left / "city.db").read_bytes(), "-wal": (left / "city.db-log").read_bytes()}
            assert self.seen(parts) == self.wanted, "the copy with the log that was kept is another city"

    def are_right(self):
        """Nothing is left to hold."""


class Loaded(Copies):
    """A city that is served and takes top-ups in turn."""

    def __init__(self, program, folder):
        super().__init__(program, folder)
        self.stack = contextlib.ExitStack()
        self.server = self.stack.enter_context(Server(self.program, seconds=SECONDS))
        made_over(self.server)
        self.sender = self.stack.enter_context(Sender(self.server, PAUSE))

    def tried(self, env):
        before = self.sender.answered
        _, found = self.backup(env)
        after = self.sender.answered + 1
        if found:
            self.found.append((before, after, found))
        until = time.monotonic() + SECONDS
        while self.sender.answered <= after:
            assert time.monotonic() < until, "the server doesn't go on"
            time.sleep(0.005)

    def are_right(self):
        """Holds the copies to the city's front that each has to be, and the city to what was answered."""
        self.stack.close()
        is_sound(self.program)
        city, count = tables(self.file), self.sender.answered
        assert len(keys_in(self.file)) - count in (0, 1), "the city lacks a request"
        for before, after, found in self.found:
            count = sum(number_of(it[3]) > 0 for it in found["history"])
            assert before <= count <= after, f"a copy holds {count} requests, and {before} to {after} were answered"
            assert found == rolled_back(city, count), "a copy is another city"


def made_over(server):
    """Makes the city of docs/FORMATS.md over HTTP, so that it is all in the log."""
    for number, it in enumerate(CITY, 1):
        found = server.ask(office(f"f{number}", it))
        assert found.startswith(b"HTTP/1.1 200 OK\r\n"), (it, found)


@contextlib.contextmanager
def cities(program, kind):
    """Cities of a kind, so many as are copied at a time. In the end each has to be right."""
    with contextlib.ExitStack() as stack:
        made = []
        for _ in range(JOBS):
            made.append(kind(program, tempfile.mkdtemp(dir=program.folder)))
            stack.callback(made[-1].are_right)
        yield made


def tried(among, name, turns):
    """Tries turns over cities at once, each with its share. A turn is done with a city, and returns what is wrong."""

    def share(number):
        wrong = []
        for turn in turns[number :: len(among)]:
            wrong.append(turn(among[number]))
            among[number].cleared()
        return wrong

    for city in among:
        city.ends.clear()
    wrong = [it for part in at_once(share, range(len(among))) for it in part if it]
    ends = sum((city.ends for city in among), collections.Counter())
    tell("backup", name, ends, len(turns))
    nothing_is(wrong, name)
    return ends


# ---- disks


def hiding(program):
    """A program that brings the log into the file as the program does, and never says that it failed."""
    made = Path(program.folder, "hiding")
    run = f'"{program.file}" "$@" 2>/dev/null'
    lines = ["#!/bin/sh", run, "status=$?", '[ "$1" = lines ] && exit 0', "exit $status", ""]
    made.write_text("\n".join(lines))
    made.chmod(0o755)
    return made


def on_disk(length, **env):
    """The turn of a copy onto a disk of so many bytes."""

    def turn(city):
        with disk(city.copy.parent, length):
            wrong = city.turn(**env)
            city.cleared()
        return wrong and f"a disk of {length} bytes: {wrong}"

    return turn


def needed(parts):
    """More bytes than the copying of a file with its log takes: both, the log once more, and its pages in the file."""
    return len(parts[""]) + 3 * len(parts["-wal"]) + 64 * PAGE


def test_disks_of_every_size(program):
    """Of a city that is all in its log; by the program, and by one that tells no failure of the bringing in."""
    if not can_mount(program, "backups.test_disks_of_every_size"):
        return
    most = needed(killed(program.file)[0])
    with cities(program, Killed) as among:
        for name, env in ("as it is", {}), ("that hides failures", {"BIKESHARE": hiding(program)}):
            turns = [on_disk(length, **env) for length in range(PAGE, most, PAGE * (STRIDE or 17))]
            ends = tried(among, f"disks of every size, by a program {name}", turns)
            assert min(ends["copied"], ends["failed"]) > 3, ends


def test_disks_that_fill_under_load(program):
    """A city that is served and grows, onto disks between too small and large enough for it as it is then."""
    if not can_mount(program, "backups.test_disks_that_fill_under_load"):
        return

    def part(share):
        def turn(city):
            return on_disk(max(PAGE, int(needed(taken(city.file)) * share / 40)))(city)

        return turn

    with cities(program, Loaded) as among:
        ends = tried(among, "disks that fill under load", [part(it) for it in range(0, 41, STRIDE or 3)])
    assert min(ends["copied"], ends["failed"]) > 1, ends


# ---- calls that fail

PROGRAMS = ["bash", "realpath", "stat", "ls", "find", "mkdir", "cp", "cksum", "sync", "rm", "mv", "rmdir"]
FAILURES = {
    "the call": lambda at: {"FAIL_AT": at, "FAIL_WITH": EIO},
    "all calls from then on": lambda at: {"FAIL_FROM": at, "FAIL_WITH": EIO},
    "no room from then on": lambda at: {"FAIL_FROM": at, "FAIL_WITH": ENOSPC},
}
# A file that seems to end there, which cp takes for its end.
ENDS_EARLY = {"no byte from the call on": lambda at: {"SHORT_FROM": at, "SHORT_BYTES": 0}}


def disturbed(city, name, **faults):
    """Copies a city with these faults in programs of a name. Returns what is wrong, and how many calls there were."""
    count = city.folder / "count"
    count.unlink(missing_ok=True)
    told = environment(city.file, FAULT_FOLDER=city.folder, FAULT_IN=name, COUNT_IN=count, **faults)
    names = ("LD_PRELOAD", "FAULT_FOLDER", "FAULT_IN", "COUNT_IN", *faults)
    wrong = city.turn(**{it: told[it] for it in names})
    return wrong and f"{name}: {wrong}", int.from_bytes(count.read_bytes() if count.exists() else b"", "little")


def each_call(program, kind, names, stride, failures=FAILURES):
    """Tries calls of the programs of these names, each way in which they fail. They are counted first."""

    def turn(name, faults):
        return lambda city: disturbed(city, name, **faults)[0]

    with cities(program, kind) as among:
        counts = {}
        for name in names:
            wrong, counts[name] = disturbed(among[0], name)
            assert not wrong and among[0].ends["failed"] == 0 < counts[name], (name, wrong, counts)
            among[0].cleared()
        for first, (how, faults) in enumerate(failures.items()):
            numbered = [(it, at) for it in names for at in range(1 + first % stride, counts[it] + 2, stride)]
            turns = [turn(it, faults(at)) for it, at in numbered]
            ends = tried(among, f"{how} of {', '.join(names)}", turns)
            assert ends["failed"], (how, ends)


@quickly
def test_calls_that_fail_under_load(program):
    each_call(program, Loaded, PROGRAMS, STRIDE or 7)


@quickly
def test_calls_that_fail_after_a_kill(program):
    each_call(program, Killed, PROGRAMS, STRIDE or 11)


@quickly
def test_copies_that_end_early(program):
    each_call(program, Killed, ["cp"], STRIDE or 2, ENDS_EARLY)


@quickly
def test_calls_of_the_program_that_fail(program):
    """Of what brings the log into the copy and checks it."""
    each_call(program, Killed, [Path(program.file).name], STRIDE or 41)


# ---- what is refused, and ends of the script


def copying(program, *words, **env):
    """Runs deploy/backup with these words, and returns its status and its line."""
    env = {**os.environ, "BIKESHARE": program.file, **env}
    made = finished([DEPLOY / "backup", *words], cwd=program.folder, env=env)
    return made.returncode, made.stderr.decode()


def test_what_is_no_city_and_what_is_there(program):
    """Each has a line of the script's own, and nothing is made."""
    here = Path(program.folder)
    city = Killed(program, tempfile.mkdtemp(dir=here)).file
    (here / "empty.db").write_bytes(b"")
    (here / "there.db").write_bytes(b"")
    (here / "left.db-wal").write_bytes(b"")
    (here / "begun.db.unfinished").mkdir()
    before = sorted(here.iterdir())
    for words, line in (
        ([city], "usage: backup FILE COPY"),
        (["a\ncity.db", "copy.db"], "a name with a line feed isn't taken: a; city.db copy.db"),
        ([city, "a\ncopy.db"], f"a name with a line feed isn't taken: {city} a; copy.db"),
        (["none.db", "copy.db"], "there is no none.db"),
        (["empty.db", "copy.db"], f"{here.resolve()}/empty.db is empty"),
        ([city, "none/copy.db"], "there is no folder none"),
        ([city, "there.db"], "there is something at there.db already"),
        ([city, "left.db"], "there is something at left.db-wal already"),
        ([city, "begun.db"], "there is something at begun.db.unfinished already"),
    ):
        assert copying(program, *words) == (1, f"backup: {line}\n"), words
    assert sorted(here.iterdir()) == before


def test_a_program_that_is_not_there(program):
    """Or that doesn't run: that is told before anything is stopped, copied or made."""
    here = Path(program.folder)
    (here / "city.db").write_bytes(b"city")
    for name, text, line in (
        ("none", None, "there is no program {}\n"),
        ("closed", "#!/bin/sh\n", "there is no program {}\n"),
        ("lost", "#!/none/sh\n", "{} doesn't run: .+\n"),
        ("fails", "#!/bin/sh\necho no library >&2\nexit 127\n", "{} doesn't run: no library\n"),
    ):
        if text:
            (here / name).write_text(text)
            (here / name).chmod(0o644 if name == "closed" else 0o755)
        before = sorted(here.iterdir())
        status, said = copying(program, "city.db", "copy.db", BIKESHARE=str(here / name))
        assert status == 1 and re.fullmatch("backup: " + line.format(re.escape(str(here / name))), said), (name, said)
        assert sorted(here.iterdir()) == before, name


def test_a_program_that_does_nothing(program):
    """One that says `sound` of all and brings no log into its file makes no copy."""
    here = Path(program.folder)
    city = Killed(program, tempfile.mkdtemp(dir=here))
    (here / "nothing").write_text('#!/bin/sh\n[ "$1" = check ] && echo sound\nexit 0\n')
    (here / "nothing").chmod(0o755)
    status, said = copying(program, city.file, "copy.db", BIKESHARE=str(here / "nothing"))
    left = "copy.db.unfinished"
    line = f"{left}/city.db-wal wasn't brought into the copy (what was copied is in {left})"
    assert (status, said) == (1, f"backup: {line}\n")
    assert not (here / "copy.db").exists() and taken(here / left / "city.db") == city.parts


def test_links(program):
    """The log of a file that a link names stands beside the file."""
    here = Path(program.folder)
    city = Killed(program, tempfile.mkdtemp(dir=here))
    (here / "link.db").symlink_to(city.file)
    assert copying(program, "link.db", "copy.db") == (0, "")
    assert tables(here, "copy.db") == city.wanted and taken(city.file) == city.parts


def test_a_log_at_a_link(program):
    """A log that was left at the name of a link, at any of a chain, is no part of the city that is copied: nothing is
    copied, and nothing is changed."""
    here = Path(program.folder)
    city = Killed(program, tempfile.mkdtemp(dir=here))
    (here / "middle.db").symlink_to(city.file)
    (here / "link.db").symlink_to("middle.db")
    for name in "link.db", "middle.db":
        left = here / f"{name}-wal"
        for length, wanted in (567, 0), (568, 1), (100_000, 1):
            left.write_bytes(b"x" * length)
            status, said = copying(program, "link.db", "copy.db")
            assert status == wanted, (name, length, status, said)
            assert (here / "copy.db").exists() == (not wanted) and left.stat().st_size == length, (name, length)
            assert not wanted or said.startswith("backup: a log was left at the name of a link to "), said
            (here / "copy.db").unlink(missing_ok=True)
        left.unlink()
        left.symlink_to(f"{city.file}-wal")
        assert copying(program, "link.db", "copy.db") == (0, ""), name
        (here / "copy.db").unlink()
        left.unlink()
    assert taken(city.file) == city.parts


def test_a_process_that_only_reads(program):
    """One that has FILE open for reading alone, as another copy has, is in no copy's way; one that may write is."""
    here = Path(program.folder)
    city = Killed(program, tempfile.mkdtemp(dir=here))
    with open(city.file, "rb"):
        assert copying(program, city.file, "copy.db") == (0, "")
    assert tables(here, "copy.db") == city.wanted
    # Two that may write: no copy is made, and none of them is stopped.
    with contextlib.ExitStack() as both:
        for _ in range(2):
            child = subprocess.Popen(["sleep", "60"], stdin=both.enter_context(open(city.file, "rb+")))
            both.callback(child.wait)
            both.callback(child.kill)
        status, said = copying(program, city.file, "other.db")
    assert status == 1 and "more than one process has" in said and not (here / "other.db").exists(), said


def test_a_log_that_was_removed(program):
    """A served city whose log lost its name isn't copied: the file alone is an older city. By hand both can be had."""
    here = Path(program.folder)
    with Server(program, seconds=SECONDS) as server:
        made_over(server)
        (here / "city.db-wal").unlink()
        status, said = copying(program, "city.db", "copy.db")
        line = rf"backup: process {server.child.pid} has \S+/city.db open, and not \S+/city.db-wal: .*\n"
        assert status == 1 and re.fullmatch(line, said), said
        assert not (here / "copy.db").exists() and top_ups(server, [1]) == [1]
        os.kill(server.child.pid, signal.SIGSTOP)
        (log,) = (it for it in Path(f"/proc/{server.child.pid}/fd").iterdir() if "city.db-wal" in os.readlink(it))
        put({"": (here / "city.db").read_bytes(), "-wal": log.read_bytes()}, here, "by_hand.db")
    assert keys_in(here / "by_hand.db") == [1]


def moved_away(here):
    for part in "", "-wal":
        (here / f"city.db{part}").rename(here / f"moved.db{part}")


def test_a_file_that_is_not_the_served_one(program):
    """What stands at FILE is another city than the one that is served: it was put over that, or that was moved away, or
    a link leads elsewhere now. Nobody would have a copy of what is served."""
    here = Path(program.folder)
    accepted(program, CITY, file="other.db", key="f")
    for name, exchange in (
        ("city.db", lambda: os.replace(here / "new.db", here / "city.db")),
        ("city.db", lambda: (moved_away(here), (here / "new.db").rename(here / "city.db"))),
        ("link.db", lambda: ((here / "link.db").unlink(), (here / "link.db").symlink_to("new.db"))),
    ):
        removed(here, "city.db")
        assert program.run("init", "city.db")[0] == 0
        (here / "link.db").unlink(missing_ok=True)
        (here / "link.db").symlink_to("city.db")
        shutil.copy(here / "other.db", here / "new.db")
        with Server(program, file=name, seconds=SECONDS) as server:
            made_over(server)
            exchange()
            status, said = copying(program, name, "copy.db")
            line = rf"backup: process {server.child.pid} was called with \S+ and has another file open: .*\n"
            assert status == 1 and re.fullmatch(line, said), (name, said)
            assert not (here / "copy.db").exists() and top_ups(server, [1]) == [1]


def test_a_journal_of_another_program(program):
    """By it SQLite takes back what another program left unfinished, so FILE alone is no city. One that begins with a 0,
    as it stands there for the next change, is in no copy's way."""
    here = Path(program.folder)
    accepted(program, CITY, key="f")
    journal = here / "city.db-journal"
    for make in (
        lambda: journal.write_bytes(bytes.fromhex("d9d505f920a163d7") + bytes(504)),
        lambda: journal.write_bytes(b"text"),
        journal.mkdir, lambda: os.mkfifo(journal), lambda: journal.symlink_to("none"),
    ):
        make()
        status, said = copying(program, "city.db", "copy.db")
        assert status == 1 and "city.db-journal may take back" in said and not (here / "copy.db").exists(), said
        journal.rmdir() if journal.is_dir() else journal.unlink()
    for number, data in enumerate((b"", bytes(512))):
        journal.write_bytes(data)
        assert copying(program, "city.db", f"copy{number}.db") == (0, "")


def test_a_program_of_another_name(program):
    """What another program was called with is its own: a script that starts the city's, say."""
    here = Path(program.folder)
    city = Killed(program, tempfile.mkdtemp(dir=here))
    (here / "serve").write_text("#!/bin/sh\nsleep 60\n")
    with subprocess.Popen(["sh", "serve", city.file], cwd=here) as child:
        assert copying(program, city.file, "copy.db") == (0, "")
        child.kill()


def test_a_reader_that_goes_away(program):
    """Readers that open FILE and close it meanwhile are in no copy's way."""
    here = Path(program.folder)
    city = Killed(program, tempfile.mkdtemp(dir=here))
    loop = f"while :; do exec 5<{city.file}; sleep 0.01; exec 5<&-; done"
    with contextlib.ExitStack() as readers:
        for _ in range(4):
            child = subprocess.Popen(["bash", "-c", loop])
            readers.callback(child.wait)
            readers.callback(child.kill)
        for number in range(5):
            assert copying(program, city.file, f"copy{number}.db") == (0, "")


def heeds_signals():
    """In a process: what was told to be ignored by nohup, as a gate may be, ends it as ever."""
    for kind in signal.SIGHUP, signal.SIGINT, signal.SIGQUIT, signal.SIGTERM:
        signal.signal(kind, signal.SIG_DFL)


@contextlib.contextmanager
def begun(program, file, copy, before=()):
    """The script, begun on a file, whose cp waits until there is a file `go` beside it. Programs of the folders before
    come before others of their names."""
    folder = Path(tempfile.mkdtemp(dir=program.folder))
    waits = f"while [ ! -e {folder}/go ]; do sleep 0.05; done"
    (folder / "cp").write_text(f'#!/bin/sh\ntouch {folder}/begun\n{waits}\nexec {shutil.which("cp")} "$@"\n')
    (folder / "cp").chmod(0o755)
    path = ":".join([*(str(it) for it in before), str(folder), os.environ["PATH"]])
    env = {**os.environ, "BIKESHARE": program.file, "PATH": path}
    words = [DEPLOY / "backup", file, copy]
    script = subprocess.Popen(words, env=env, stderr=subprocess.PIPE, start_new_session=True, preexec_fn=heeds_signals)
    try:
        until = time.monotonic() + SECONDS
        while not (folder / "begun").exists():
            assert time.monotonic() < until and script.poll() is None, "it never came so far"
            time.sleep(0.005)
        yield script, folder / "go"
    finally:
        with contextlib.suppress(ProcessLookupError):
            os.killpg(script.pid, signal.SIGKILL)
        script.communicate()


def goes_on(server, number):
    """Whether a server answers a top-up."""
    with contextlib.suppress(TimeoutError):
        return top_ups(server, [number]) == [number]
    return False


def is_stopped(child):
    """Whether a process stands still."""
    return re.search(r"^State:\s*T", Path(f"/proc/{child.pid}/status").read_text(), re.M)


ENDS = [(signal.SIGKILL, False), (signal.SIGTERM, False), (signal.SIGHUP, False)]
ENDS += [(signal.SIGTERM, True), (signal.SIGHUP, True), (signal.SIGINT, True), *[(signal.SIGKILL, True)] * 10]
# Within how many seconds the program goes on.
AT_ONCE = 5


def test_a_script_that_is_ended(program):
    """Whatever signal ends it, alone or sent to all as by a terminal, the server goes on at once. There is no copy."""
    here = Path(program.folder)
    with Server(program, seconds=SECONDS / 8) as server:
        made_over(server)
        for number, (kind, to_all) in enumerate(ENDS, 1):
            copy = here / f"copy{number}.db"
            with begun(program, here / "city.db", copy) as (script, _):
                assert is_stopped(server.child)
                (os.killpg if to_all else os.kill)(script.pid, kind)
                since = time.monotonic()
                with told_with(f"{kind.name}, to all: {to_all}"):
                    assert goes_on(server, number), "the program stands still"
                    took = time.monotonic() - since
                    assert took < AT_ONCE, f"the program stood still for {took:.1f} seconds"
            assert not copy.exists()


def test_a_copying_that_hangs(program):
    """The program stands still no longer than what lets it go on waits: a minute, and here two seconds."""
    here = Path(program.folder)
    (here / "shorter").mkdir()
    words = 'exec /usr/bin/setsid "$1" "$2" "${3/-t 60/-t 2}" "${@:4}"'
    (here / "shorter/setsid").write_text(f"#!/bin/bash\n{words}\n")
    (here / "shorter/setsid").chmod(0o755)
    with Server(program, seconds=SECONDS / 8) as server:
        made_over(server)
        with begun(program, here / "city.db", here / "copy.db", [here / "shorter"]) as (script, go):
            since = time.monotonic()
            assert goes_on(server, 1), "the program stands still"
            took = time.monotonic() - since
            assert 1 < took < 2 + AT_ONCE, took
            go.touch()
            said = script.communicate(timeout=SECONDS)[1]
        assert script.returncode == 1 and b" went on while " in said, (script.returncode, said)
    assert not (here / "copy.db").exists()


def test_nothing_is_stopped_that_nothing_would_let_go_on(program):
    here = Path(program.folder)
    (here / "none").mkdir()
    (here / "none/setsid").write_text("#!/bin/sh\nexit 1\n")
    (here / "none/setsid").chmod(0o755)
    with Server(program, seconds=SECONDS) as server:
        made_over(server)
        status, said = copying(program, "city.db", "copy.db", PATH=f"{here}/none:{os.environ['PATH']}")
        assert status == 1 and "setsid doesn't run" in said and top_ups(server, [1]) == [1], said
    assert not (here / "copy.db").exists()


def test_the_unit_lets_the_city_go_on(_):
    """A kill of all processes of the unit ends also what lets the program go on. Then the unit does."""
    unit = (DEPLOY / "bikeshare-backup@.service").read_text()
    kill = "/usr/bin/systemctl kill --kill-who=main --signal=CONT bikeshare@%i.service"
    assert re.findall(r"^ExecStopPost=(.*)$", unit, re.M) == [f"-+{kill}"], unit


def test_a_city_that_changes_while_it_is_copied(program):
    """A server that somebody lets go on, and a writer that nobody sees."""
    here = Path(program.folder)
    with Server(program, seconds=SECONDS) as server:
        made_over(server)
        with begun(program, here / "city.db", here / "copy.db") as (script, go):
            os.kill(server.child.pid, signal.SIGCONT)
            assert top_ups(server, [1]) == [1]
            go.touch()
            said = script.communicate(timeout=SECONDS)[1]
        assert script.returncode == 1 and b" went on while " in said, (script.returncode, said)
    with begun(program, here / "city.db", here / "other.db") as (script, go):
        with open(here / "city.db-wal", "ab") as log:
            log.write(b"more")
        go.touch()
        said = script.communicate(timeout=SECONDS)[1]
    assert script.returncode == 1 and b" was changed while it was copied" in said, (script.returncode, said)
    assert not (here / "copy.db").exists() and not (here / "other.db").exists()


# ---- damaged logs

STATUS_DAMAGED = 3


def damaged(parts, at, bit):
    """The parts of a city with a bit of its log turned."""
    log = bytearray(parts["-wal"])
    log[at] ^= 1 << bit
    return {**parts, "-wal": bytes(log)}


def test_a_damaged_log(program):
    """Of a city whose log is damaged behind its head no copy is made: the program would pass over what stands behind.
    Wherever a bit is turned, either the copy is the city, or there is none. What was being written as a program was
    killed is no damage."""
    here = Path(program.folder)
    city = Killed(program, tempfile.mkdtemp(dir=here))
    page = 24 + int.from_bytes(city.parts["-wal"][8:12], "big")
    frames = (len(city.parts["-wal"]) - 32) // page
    stride = STRIDE or frames // 2 - 1
    within = 0, 5, 9, 16, 23, 24, page - 1
    places = [32 + page * frame + at for frame in range(0, frames - 1, stride) for at in within]
    ends = collections.Counter()
    for number, at in enumerate(places):
        parts = damaged(city.parts, at, number % 8)
        put(parts, city.file)
        status, said = copying(program, city.file, "copy.db")
        ends[status] += 1
        if status == 0:
            assert tables(here, "copy.db") == city.wanted, f"bit {number % 8} of byte {at}: an older city"
            removed(here, "copy.db")
            continue
        assert not (here / "copy.db").exists() and taken(city.file) == parts, at
        line = r"backup: \S+/city\.db-wal: passed over: frame \d+ is damaged.* \(what was copied is in \S+\)\n"
        assert status == STATUS_DAMAGED and re.fullmatch(line, said), (at, status, said)
        left = {it.name for it in (here / "copy.db.unfinished").iterdir()}
        assert left == {"city.db", "city.db-wal", "city.db-log"}, left
        shutil.rmtree(here / "copy.db.unfinished")
    assert ends[STATUS_DAMAGED] > 10, ends


def test_a_log_that_nothing_can_look_at(program):
    """Where bikeshare-doctor doesn't run, as without Python, the copy is made all the same, and a line says so."""
    here = Path(program.folder)
    city = Killed(program, tempfile.mkdtemp(dir=here))
    (here / "alone").mkdir()
    shutil.copy(DEPLOY / "backup", here / "alone/backup")
    (here / "alone/bikeshare-doctor").write_text("#!/none/python3\n")
    (here / "alone/bikeshare-doctor").chmod(0o755)
    env = {**os.environ, "BIKESHARE": program.file}
    made = finished([here / "alone/backup", city.file, "copy.db"], cwd=here, env=env)
    said = f"whether the log is damaged wasn't looked at: {here}/alone/bikeshare-doctor doesn't run\n"
    assert (made.returncode, made.stdout.decode(), made.stderr) == (0, said, b""), made
    assert tables(here, "copy.db") == city.wanted
