"""Words that only look. `check`, `feed`, `day` and `history` change nothing: no byte of FILE and of its log, whatever
these hold, and not FILE's journal mode. They make no table, and leave no log where there was none. They and `raise`
make no FILE. A file that is refused gets no log, and a log whose header is damaged is refused by every word. So is a
file in which something else has a name that our tables take.
"""

import collections
import contextlib
import itertools
import os
import random
import sqlite3
import subprocess
from pathlib import Path

import adoption
import lone_logs
import raising
from days import ENTRIES, RENTALS, REQUESTS
from shared import (
    CITY, DISTURBED, DONE, FOREIGN, HEADER, NO_SYSTEM, READY, SOUND, STORE_FAILED, Server, at_once, changed, city, held,
    killed, office, put, quickly, removed, requests_of, rows_of, taken, told_with,
)

LOOKS = {
    "check": (["check", "FILE"], SOUND),
    "feed": (["feed", "FILE", "gbfs", "--at", "1700000000"], NO_SYSTEM),
    "entries": (["day", "FILE", "entries", "2024-01-01", "UTC0"], (0, ENTRIES.encode(), b"")),
    "rentals": (["day", "FILE", "rentals", "2024-01-01", "CET-1"], (0, RENTALS.encode(), b"")),
    "requests": (["day", "FILE", "requests", "2024-01-01", "UTC0"], (0, REQUESTS.encode(), b"")),
    "history": (["history", "FILE", "7"], (0, b"", b"")),
}
LOOKING = {words[0] for words, _ in LOOKS.values()}
OTHERS = "CREATE TABLE notes (note TEXT); INSERT INTO notes VALUES ('x'), ('y'); CREATE INDEX by_note ON notes (note)"


def asks(program, words, file):
    """Runs words over a file."""
    return program.run(*[file if it == "FILE" else it for it in words])


def beside(program):
    """The bytes of all files in the folder."""
    return {it.name: it.read_bytes() for it in Path(program.folder).iterdir()}


def stays(program, file, wanted=None):
    """Words that look end so over a file, or as over a database without our tables, and nothing changes."""
    before = beside(program)
    for name, (words, empty) in LOOKS.items():
        ended = asks(program, words, file)
        assert ended == (wanted or empty), (file, name, ended)
        assert beside(program) == before, (file, name, "something was changed")


def test_no_file_is_made(program):
    """Not in a folder that isn't there either; the words that make FILE make it as ever."""
    for file in "none.db", "none/none.db":
        for words in [*(it for it, _ in LOOKS.values()), ["raise", "FILE"]]:
            assert asks(program, words, file) == STORE_FAILED, (words, file)
            assert not os.listdir(program.folder), (words, os.listdir(program.folder))
    for file, words, given, wanted in (
        ("init.db", ["init", "FILE"], b"", READY), ("lines.db", ["lines", "FILE"], b"", (0, b"", b"")),
        ("import.db", ["import", "FILE", "spring"], HEADER.encode(), (0, b"rows 0\n", b"")),
    ):
        ended = program.run(*[file if it == "FILE" else it for it in words], given=given)
        assert ended == wanted and Path(program.folder, file).exists(), (words, ended)
    with Server(program, file="serve.db"):
        assert Path(program.folder, "serve.db").exists()


@quickly
def test_databases_of_others(program):
    """In either journal mode, and with rows that stand in their log alone."""
    for mode in "delete", "wal":
        file = Path(program.folder, f"{mode}.db")
        with contextlib.closing(sqlite3.connect(file)) as base:
            assert base.execute(f"PRAGMA journal_mode = {mode}").fetchone() == (mode,)
            base.executescript(OTHERS)
        assert file.read_bytes()[18] == {"delete": 1, "wal": 2}[mode] and list(taken(file)) == [""]
        stays(program, file.name)
    file = Path(program.folder, "wal.db")
    with contextlib.closing(sqlite3.connect(file, isolation_level=None)) as base:
        base.execute("INSERT INTO notes VALUES ('z')")
        parts = {part: data for part, data in taken(file).items() if part in ("", "-wal")}
    put(parts, file)
    rows = held(file)
    stays(program, file.name)
    assert held(file) == rows
    log = parts["-wal"]
    for name, other in damages(log):
        if name != "header":
            with told_with(name):
                put({"": parts[""], "-wal": other}, file)
                stays(program, file.name)


@quickly
def test_files_of_a_byte_or_none(program):
    """They stay so, with a log beside them that holds no commit, and without one. `lines` makes a city of them."""
    for data in b"", b"S":
        for log in None, b"", b"x" * 100:
            file = Path(program.folder, "city.db")
            put({"": data} if log is None else {"": data, "-wal": log}, file)
            stays(program, file.name)
        removed(file)
        put({"": data}, file)
        before = beside(program)
        assert program.run("raise", file.name) == STORE_FAILED and beside(program) == before, data
        assert program.run("lines", file.name, given=b"") == (0, b"", b"") and held(file), data
        removed(file)


@quickly
def test_a_city(program):
    """One that ended, without its log, and one whose server was killed."""
    file = adoption.made(program, "city.db")
    put({"": file.read_bytes()}, file)
    for words, _ in LOOKS.values():
        before = beside(program)
        assert asks(program, words, file.name)[0] == 0, words
        assert beside(program) == before, (words, "something was changed")
    with Server(program) as server:
        assert server.ask(office("o1", "add-rider\t40")) == DONE
    rows, before = held(file), beside(program)
    for words, _ in LOOKS.values():
        assert asks(program, words, file.name)[0] == 0, words
        assert beside(program) == before, (words, "something was changed")
    assert held(file) == rows


def damages(log):
    """A log in which something is damaged, with a name for what is: its header, or else what stands behind."""
    page = 24 + int.from_bytes(log[8:12], "big")
    for at in 0, 1, 3, 5, 9, 14, 17, 22, 24, 31:
        yield "header", log[:at] + bytes([log[at] ^ 0x40]) + log[at + 1 :]
    for front in b"\1" * 32, b"\0" * 32, b"\0" * 512, b"\0" * 2, log[:1] + b"\0" * 31:
        yield "header", front + log[len(front) :]
    # The engine itself leaves a first byte of 0 while it writes a header anew.
    yield "begun anew", b"\0" + log[1:]
    for at in 33, 40, 41, 50, 60, 32 + page + 8, 32 + page + 100:
        if at < len(log):
            yield f"byte {at}", log[:at] + bytes([log[at] ^ 0x40]) + log[at + 1 :]
    for size in 568, 600, 32 + page - 1, 32 + page, 32 + page + 9:
        if size < len(log):
            yield f"cut to {size}", log[:size]
    # The gate behind the last frame stands open, as if the next one had been written.
    for end in 32, 32 + page:
        if end + page <= len(log):
            yield f"open at {end}", log[: end + 8] + log[16:24] + log[end + 16 :]


def killed_city(file):
    """FILE and its log after a kill, of a young city, whose log holds all, and of one that has a log of the newest
    requests alone."""
    for is_young in True, False:
        yield is_young, lone_logs.left(file, is_young)[0]


@quickly
def test_a_damaged_log(program):
    """What stands behind its header is passed over where it is damaged, and a damaged header is refused; no byte is
    changed."""
    for is_young, parts in killed_city(program.file):
        for name, log in damages(parts["-wal"]):
            put({"": parts[""], "-wal": log}, program.folder, "city.db")
            before = beside(program)
            for words, _ in LOOKS.values():
                with told_with(f"{'young' if is_young else 'grown'}, {name}, {words}"):
                    ended = asks(program, words, "city.db")
                    if name == "header":
                        assert ended == STORE_FAILED, ended
                    else:
                        assert ended[0] in (0, 1), ended
                    assert beside(program) == before, "something was changed"


@quickly
def test_a_log_with_a_damaged_header(program):
    """Each word refuses it, and changes nothing; with its bytes put back the city is whole. One that is too short to
    hold a request is passed over."""
    parts, state = lone_logs.left(program.file, False)
    for number, log in enumerate(log for name, log in damages(parts["-wal"]) if name == "header"):
        put({"": parts[""], "-wal": log}, program.folder, "city.db")
        before = beside(program)
        words = adoption.EACH_WORD if number == 0 else [adoption.EACH_WORD[number % len(adoption.EACH_WORD)]]
        for word, *more in words:
            with told_with(f"{number}, {word}"):
                ended = program.run(word, "city.db", *more, given=lone_logs.INPUT)
                assert ended == STORE_FAILED, ended
                assert beside(program) == before, "something was changed"
    put(parts, program.folder, "city.db")
    lone_logs.is_whole(program, state)
    for size, wanted in (lone_logs.LEAST_LOG, STORE_FAILED), (lone_logs.LEAST_LOG - 1, READY):
        put({"": parts[""], "-wal": b"\1" * size}, program.folder, "city.db")
        assert program.run("init", "city.db") == wanted, size


@quickly
def test_a_log_that_is_begun_anew(program):
    """A header that the engine had begun to write anew is no damage: FILE has all by then."""
    with Server(program) as server:
        assert server.ask(office("o1", "add-rider\t40")) == DONE
    file = Path(program.folder, "city.db")
    rows = held(file)
    assert program.run("lines", file.name, given=b"") == (0, b"", b"")
    log = lone_logs.left(program.file, True)[0]["-wal"]
    for anew in b"\0" + log[1:], b"\0" + log[1:8] + b"\5" * 24 + log[32:]:
        put({"": file.read_bytes(), "-wal": anew}, file)
        before = beside(program)
        assert program.run("check", file.name) == SOUND and beside(program) == before
        assert program.run("lines", file.name, given=b"") == (0, b"", b"") and held(file) == rows


@quickly
def test_a_byte_beside_a_log(program):
    """Every word refuses a FILE of one byte beside a log that may hold requests, whether the log is good or not."""
    log = lone_logs.left(program.file, True)[0]["-wal"]
    for other in log, b"\1" * len(log), b"\0" + log[1:]:
        put({"": b"S", "-wal": other}, program.folder, "city.db")
        before = beside(program)
        for word, *more in adoption.EACH_WORD:
            with told_with(word):
                assert program.run(word, "city.db", *more, given=lone_logs.INPUT) == STORE_FAILED
                assert beside(program) == before, "something was changed"


def gets_no_log(program, file, wanted, words):
    """Each word refuses the file so, and nothing stands beside it."""
    before = beside(program)
    for word, *more in words:
        with told_with(f"{file}, {word}"):
            ended = program.run(word, file, *more, given=b"1700000000\toffice\tk1\tadd-rider\t17\n")
            assert ended == wanted, ended
            assert beside(program) == before, f"in the folder there are {sorted(beside(program))}"


@quickly
def test_a_file_that_is_no_database_gets_no_log(program):
    here = Path(program.folder)
    (here / "notes.txt").write_text("no database\n" * 100)
    (here / "noise.db").write_bytes(random.Random(1).randbytes(8192))
    for file in "notes.txt", "noise.db":
        gets_no_log(program, file, STORE_FAILED, adoption.EACH_WORD)


def foreign(program):
    """Another program's file by a table's columns, and one by an index that somebody added."""
    files = {
        "other.db": "CREATE TABLE meta (one INTEGER PRIMARY KEY, app TEXT)",
        "index.db": "CREATE TABLE riders_4 (rider INTEGER); CREATE UNIQUE INDEX one ON riders_4 (rider)",
    }
    for file, sql in files.items():
        changed(Path(program.folder, file), sql)
    return list(files)


NOTES = "CREATE TABLE notes (note TEXT); "
# Files without our tables, in which something else has a name that they or their indexes take.
TAKEN = [
    "CREATE VIEW meta AS SELECT 1 AS one", "CREATE VIEW history AS SELECT 1 AS one",
    "CREATE VIEW History AS SELECT 1 AS one", "CREATE VIEW history_by_key AS SELECT 1 AS one",
    "CREATE VIEW stations_4 AS SELECT 1 AS one", "CREATE TABLE bikes_by_dock (note TEXT)",
    "CREATE TABLE more_names_by_thing (note TEXT)",
    *(f"{NOTES}CREATE INDEX {it} ON notes (note)" for it in ("meta", "bikes", "bikes_by_dock", "history_by_key")),
    *(
        f"{NOTES}CREATE TRIGGER {it} AFTER INSERT ON notes BEGIN SELECT 1; END"
        for it in ("meta", "bikes", "bikes_by_dock", "more_names")
    ),
]
# .. and such in which nothing has.
FREE = [
    "CREATE VIEW stations AS SELECT 1 AS one", f"{NOTES}CREATE INDEX notes_by_note ON notes (note)",
    "CREATE VIEW kept AS SELECT 1 AS one", f"{NOTES}CREATE INDEX kept_by_key ON notes (note)",
    "CREATE VIEW counts AS SELECT 1 AS one", f"{NOTES}CREATE INDEX stations_3 ON notes (note)",
    f"{NOTES}CREATE TRIGGER stations_2 AFTER INSERT ON notes BEGIN SELECT 1; END",
]


@quickly
def test_a_name_of_ours_that_is_taken(program):
    """No word takes the file, and none changes it."""
    file = Path(program.folder, "taken.db")
    for sql in TAKEN:
        changed(file, sql)
        with told_with(sql):
            gets_no_log(program, file.name, STORE_FAILED, adoption.EACH_WORD)
        removed(file)


@quickly
def test_names_of_ours_that_are_free(program):
    file = Path(program.folder, "free.db")
    for sql in FREE:
        changed(file, sql)
        with told_with(sql):
            stays(program, file.name)
            assert program.run("raise", file.name) == raising.DONE
            assert program.run("init", file.name) == READY
            assert program.run("check", file.name) == SOUND
        removed(file)


@quickly
def test_a_foreign_file_that_is_looked_at_gets_no_log(program):
    for file in foreign(program):
        gets_no_log(program, file, FOREIGN, [it for it in adoption.EACH_WORD if it[0] in LOOKING])


@quickly
def test_a_foreign_file_gets_no_log_from_other_words(program):
    for file in foreign(program):
        gets_no_log(program, file, FOREIGN, [it for it in adoption.EACH_WORD if it[0] not in LOOKING])


# ---- Looks and other programs at one time

# Of a FILE of at most so many bytes a look has a copy.
COPIED = 65_536
ROWS = HEADER.encode() + b"".join(b"s%d,Station %d,45.%06d,9.1,10\n" % (it, it, it) for it in range(2000))


def holds_its_file(program, name):
    """While a look at this feed isn't done, since nobody reads what it writes, no other program opens FILE. Then it is
    as whole as ever."""
    before, words = beside(program), ["feed", "city.db", name, "--at", "1700000000"]
    wanted = program.run(*words)
    assert wanted[0] == 0 and len(wanted[1]) > 200000, len(wanted[1])
    with program.started(*words) as looking:
        first = os.read(looking.stdout.fileno(), 1)
        for word, *more in adoption.EACH_WORD:
            ended = program.run(word, "city.db", *more, given=lone_logs.INPUT)
            assert ended == STORE_FAILED, (word, ended)
            assert beside(program) == before, (word, "something was changed")
        out, said = looking.communicate(timeout=DISTURBED)
    assert (looking.returncode, first + out, said) == wanted
    assert beside(program) == before


@quickly
def test_a_look_holds_its_file(program):
    city(program)
    ended = program.run("import", "city.db", "spring", given=ROWS)
    assert ended == (0, b"rows 2000\n", b""), ended
    assert Path(program.folder, "city.db").stat().st_size > COPIED
    holds_its_file(program, "station_information")


@quickly
def test_a_look_holds_a_file_that_it_copied(program):
    """A young city that was killed: all but the first page is in the log, and of both files a look has a copy."""
    commands = [f"add-type\tt{at:035}\tT\tbicycle\thuman\t0\tbasic" for at in range(31)]
    commands += [f"add-station\ts{at:035}\tS\t1.0\t2.0\t1" for at in range(120)]
    answers = killed(program, requests_of([*CITY, *commands]))
    assert b"refused" not in answers and answers.endswith(b"ok\n" * len(commands)), answers[-300:]
    assert Path(program.folder, "city.db").stat().st_size <= COPIED
    holds_its_file(program, "station_status")


@quickly
def test_looks_while_another_program_begins(program):
    """Each says what it sees or `store failed`, and no request is lost by it."""
    parts = lone_logs.left(program.file, False)[0]
    keys = itertools.count()

    def began(turn):
        """`lines` and a look at once. Returns whether the look saw the city, and how many requests were answered."""
        name, (words, _) = f"turn{turn}.db", list(LOOKS.values())[turn % len(LOOKS)]
        put(parts, program.folder, name)
        given = b"".join(b"1700009000\toffice\tn%d\tadd-rider\t%d\n" % (next(keys), 500 + it) for it in range(3))
        with program.started("lines", name, stdin=subprocess.PIPE) as lines:
            status, out, said = asks(program, words, name)
            answers, fault = lines.communicate(given, timeout=DISTURBED)
        assert (status, said) == (0, b"") or (status, out, said) == STORE_FAILED, (status, out, said)
        assert (lines.returncode, answers, fault) in ((0, b"ok\n" * 3, b""), STORE_FAILED), (lines.returncode, answers)
        if answers:
            again = program.run("lines", name, given=given)
            assert again == (0, b"ok\n" * 3, b""), again
        else:
            assert taken(program.folder, name) == parts, "something was changed"
        ((riders,),) = rows_of("SELECT count(*) FROM riders_4 WHERE rider >= 500", program.folder, name)
        assert riders == answers.count(b"ok\n"), riders
        return status != 3, bool(answers)

    ends = collections.Counter(at_once(began, range(40), 4))
    # Neither holds up the other for good.
    assert (False, False) not in ends, ends
