"""The ends of the words that may change a city: what their log holds is brought into FILE.

After status 0, 1 or 6 of `init`, `lines`, `import` and `raise` FILE alone, without its log, is the whole city. Where
the log can't be brought into FILE that is `store failed`, status 3, whatever else the word had to say. Then FILE with
its log is the city, and the word, given the same again, ends as it does where nothing fails.

Calls on the files fail in turn, alone or with all after them (tests/stops/faults.c), and the words run on disks of
memory of every size between too small and large enough, where the test is root. A sample stands in the gate, with the
last calls of each word. By hand, all of it:

    BIKESHARE_CLOSING=1 BIKESHARE_JOBS=4 tests/run closing.

BIKESHARE_CLOSING is the stride for calls and sizes; BIKESHARE_JOBS is how many turns are tried at a time;
BIKESHARE_STOPS_TOLD names a file to which the tests add how many turns they tried and how they ended.
"""

import collections
import contextlib
import functools
import os
import sqlite3
import tempfile
from pathlib import Path

import adoption
import raising
from shared import (
    DISTURBED, EIO, ENOSPC, FAULTS, HEADER, JOBS, READY, READ_FAILED, SOUND, STORE_FAILED, Program, at_once, can_mount,
    counted, disk, environment, held, killed, nothing_is, put, quickly, removed, rows_of, taken, tell,
)

STRIDE = int(os.environ.get("BIKESHARE_CLOSING", "0"))
PAGE = 4096
# So many calls at the end of a word are always tried.
LAST = 12
UNCLOSED = "all was told, and the store failed"
BEGUN = 20
ASKED, TOLD = (text.splitlines(keepends=True) for text in (adoption.asked(), adoption.told()))
FIRST, FIRST_ANSWERS = b"".join(ASKED[:BEGUN]), b"".join(TOLD[:BEGUN])
MORE, ANSWERS = b"".join(ASKED[BEGUN:]), b"".join(TOLD[BEGUN:])
IMPORT = ["import", "FILE", "spring", "--at", "1700009000"]
TABLE = HEADER.encode() + b"c1,Canal,45.0,9.1,10\nc2,Corso,45.000001,9.2,12\nc3,Castle,45,9.3,8\n"
WRITE_FAILED, ROW_3 = (6, None, b"write failed\n"), (1, b"", b"row 3 bad_field\n")

FAILURES = {
    "an error of the device": lambda at: {"FAIL_AT": at, "FAIL_WITH": EIO},
    "errors from then on": lambda at: {"FAIL_FROM": at, "FAIL_WITH": EIO},
    "no room once": lambda at: {"FAIL_AT": at, "FAIL_WITH": ENOSPC},
    "no room from then on": lambda at: {"FAIL_FROM": at, "FAIL_WITH": ENOSPC},
}
# The words over a file and its log, their input, which is a folder where there is none, and how they end where nothing
# fails.
Word = collections.namedtuple("Word", "words begins given wanted")
WORDS = {
    "init": Word(["init", "FILE"], "nothing", b"", READY),
    "init of a killed city": Word(["init", "FILE"], "killed", b"", READY),
    "lines of a new file": Word(["lines", "FILE"], "nothing", FIRST, (0, FIRST_ANSWERS, b"")),
    "lines of a killed city": Word(["lines", "FILE"], "killed", MORE, (0, ANSWERS, b"")),
    "no lines of a killed city": Word(["lines", "FILE"], "killed", b"", (0, b"", b"")),
    "lines that nobody takes": Word(["lines", "FILE"], "killed", MORE, WRITE_FAILED),
    "lines that can't be read": Word(["lines", "FILE"], "killed", None, READ_FAILED),
    "import": Word(IMPORT, "killed", TABLE, (0, b"rows 3\n", b"")),
    "import of a bad row": Word(IMPORT, "killed", TABLE.replace(b"45,9.3", b"91,9.3"), ROW_3),
    "import that nobody is told of": Word(IMPORT, "killed", TABLE, WRITE_FAILED),
    "raise": Word(["raise", "FILE"], "older", b"", raising.DONE),
    "raise that nobody is told of": Word(["raise", "FILE"], "older", b"", WRITE_FAILED),
}


@functools.cache
def begun(file, begins):
    """The parts of the file over which a word begins."""
    with tempfile.TemporaryDirectory() as folder:
        if begins == "killed":
            found = killed(Program(file, folder), FIRST)
            assert found == FIRST_ANSWERS, found
            return taken(folder, "city.db")
        return taken(raising.of_sql(folder, 1)) if begins == "older" else {}


def ran(word, program, name, env=None):
    """Runs a word over a file of this name."""
    with contextlib.ExitStack() as stack:
        how = {"env": env, "timeout": DISTURBED}
        if word.wanted == WRITE_FAILED:
            how["stdout"] = stack.enter_context(open("/dev/full", "wb"))
        if word.given is None:
            how["stdin"] = os.open(program.folder, os.O_RDONLY)
            stack.callback(os.close, how["stdin"])
        else:
            how["given"] = word.given
        return program.run(*[name if it == "FILE" else it for it in word.words], **how)


def requests(*where):
    """How many requests a file with its log has. It may have no tables yet, or no whole first page."""
    try:
        return rows_of("SELECT count(*) FROM history", *where)[0][0]
    except sqlite3.DatabaseError as fault:
        assert str(fault) in ("no such table: history", "file is not a database"), fault
        return 0


class Turns:
    """The turns of a word."""

    def __init__(self, program, name):
        self.program, self.name, self.word = program, name, WORDS[name]
        self.parts = begun(program.file, self.word.begins)
        self.ends = collections.Counter()
        put(self.parts, program.folder, "whole.db")
        self.begun = requests(program.folder, "whole.db") if self.parts else 0
        self.calls = self.disturbed("whole.db").calls
        self.state = held(program.folder, "whole.db")
        removed(program.folder, "whole.db")

    def disturbed(self, file, **faults):
        """The word over a file of its own under faults."""
        put(self.parts, self.program.folder, file)
        env = environment(self.program.folder, file, ONLY_CHANGES=1, **faults)
        found = counted(ran(self.word, self.program, file, env), self.program.folder, file)
        assert faults or found[:3] == self.word.wanted, (self.name, found)
        return found

    def is_whole(self, file):
        """FILE alone is the city that the word leaves."""
        put({"": taken(self.program.folder, file)[""]}, self.program.folder, f"alone_{file}")
        try:
            assert held(self.program.folder, f"alone_{file}") == self.state, "the file alone isn't the whole city"
            ended = self.program.run("check", f"alone_{file}")
            assert ended == SOUND, f"check of the file alone: {ended}"
        finally:
            removed(self.program.folder, f"alone_{file}")

    def goes_on(self, file, out):
        """FILE with its log has what was answered and at most one request more; the word, given the same again, ends
        as wanted."""
        if self.word.words[0] == "lines":
            answered = (out or b"").count(b"\n")
            most = min((self.word.given or b"").count(b"\n"), answered + 1)
        else:
            answered, most = 3 * (out == b"rows 3\n"), 3
        if self.word.begins != "older":
            count = requests(self.program.folder, file) - self.begun
            assert answered <= count <= most, f"{answered} were answered, and the file with its log has {count}"
        again = ran(self.word, self.program, file)
        assert again == self.word.wanted, f"again: {again}"
        self.is_whole(file)

    def judged(self, file, ended):
        """Holds how the word ended, and what it left, to what is wanted."""
        status, out, said = ended
        if (status, out, said) == self.word.wanted:
            self.ends["done"] += 1
            return self.is_whole(file)
        assert (status, said) == (3, STORE_FAILED[2]), f"{ended}"
        assert out is None or self.word.wanted[1].startswith(out), f"it told {out}"
        self.ends[UNCLOSED if out == self.word.wanted[1] else "the store failed"] += 1
        return self.goes_on(file, out)

    def turn(self, number, faults):
        """Returns what is wrong after a fault, or nothing."""
        file = f"turn{number}.db"
        try:
            found = self.disturbed(file, **faults)
            self.judged(file, found[:3])
        except FAULTS as fault:
            return f"{self.name}, {faults}: {fault}"
        finally:
            removed(self.program.folder, file)
        return None


@quickly
def test_calls_that_fail(program):
    wrong = []
    for name in WORDS:
        turns = Turns(program, name)
        last = range(max(1, turns.calls + 1 - LAST), turns.calls + 1)
        tried = []
        for first, faults in enumerate(FAILURES.values()):
            at = {*range(1 + first, turns.calls + 1, STRIDE or 97), *last[0 if STRIDE else first :: 1 if STRIDE else 4]}
            tried += [faults(it) for it in sorted(at)]
        wrong += [it for it in at_once(lambda turn: turns.turn(*turn), enumerate(tried), JOBS) if it]
        tell("failure of a call", name, turns.ends, len(tried))
        # The closing itself failed in some of them.
        if turns.word.wanted[1] and not turns.ends[UNCLOSED]:
            wrong.append(f"{name}: no closing failed in {len(tried)} turns, {dict(turns.ends)}")
    nothing_is(wrong)


def on_disk(turns, folder, size):
    """The word on a disk of so many bytes. What it left is judged elsewhere, where there is room."""
    with disk(folder, size):
        try:
            put(turns.parts, folder, "city.db")
        except OSError:
            return None
        ended = ran(turns.word, Program(turns.program.file, folder), "city.db")
        left = taken(folder, "city.db")
    put(left, turns.program.folder, "left.db")
    try:
        turns.judged("left.db", ended) if left else None
    except FAULTS as fault:
        return f"{turns.name}, a disk of {size} bytes: {fault}"
    finally:
        removed(turns.program.folder, "left.db")
    return None


@quickly
def test_disks_of_every_size(program):
    """The log finds room, and not what it is brought into: that is told."""
    if not can_mount(program, "closing.test_disks_of_every_size"):
        return
    folder = Path(program.folder, "disk")
    folder.mkdir()
    assert killed(program, b"".join(ASKED), "sized.db") == b"".join(TOLD)
    most = len(taken(program.folder, "sized.db")["-wal"]) + 48 * PAGE
    wrong = []
    for name in ("lines of a new file", "lines of a killed city", "import"):
        turns = Turns(program, name)
        sizes = range(16 * PAGE, most, (STRIDE or 7) * PAGE)
        wrong += [it for it in (on_disk(turns, folder, size) for size in sizes) if it]
        tell("disk of memory", name, turns.ends, len(sizes))
        # Of some disks the log alone found room.
        if not (turns.ends["done"] and turns.ends[UNCLOSED]):
            wrong.append(f"{name}: of {len(sizes)} disks {dict(turns.ends)}")
    nothing_is(wrong)
