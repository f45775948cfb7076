"""A log whose FILE is missing, empty or damaged at its begin, or stands elsewhere, behind a link. It may be the only
copy of the newest requests, or of the whole city: no word begins anew over it, passes it over or takes it away.

A log of 568 bytes or more may hold a commit: its header, and a frame of the smallest page. Where its FILE is missing
or has at most one byte every word says `store failed`, makes no FILE and leaves the log; with FILE put back the city is
whole.
Where FILE's first page is damaged a word says `store failed` and changes nothing, or the log has that page, and then
the city is what it was.
Where FILE is a link, and such a log stands at a link's name, every word says `store failed` and changes nothing, unless
it is the log beside the file that the link leads to; once it stands there the city is whole.
"""

import contextlib
import functools
import os
import random
import shutil
import tempfile
from pathlib import Path

from adoption import EACH_WORD, asked, told
from shared import (
    DISTURBED, DONE, EIO, READY, SOUND, STORE_FAILED, Program, Server, accepted, ask, city, counted, environment, held,
    killed, office, put, quickly, removed, taken, told_with,
)

# What holds a commit, and what the engine takes for a log beside a FILE of one byte, whose pages aren't its own.
LEAST_LOG, LEAST_HEAD = 32 + 24 + 512, 32 + 24
LINES, ANSWERS = asked().splitlines(keepends=True), told().splitlines(keepends=True)
BEGUN = 30
OTHER_WORDS = [it for it in EACH_WORD if it[0] not in ("check", "serve")]
INPUT = b"1700009000\toffice\tnew\tadd-region\twest\tWest\n"


@functools.cache
def left(file, is_young):
    """FILE and the log that a kill leaves of the city, and what they hold. Of a young one the log holds all, and of
    another the newest requests."""
    with tempfile.TemporaryDirectory() as folder:
        program, begun = Program(file, folder), 0 if is_young else BEGUN
        if begun:
            ended = program.run("lines", "city.db", given=b"".join(LINES[:begun]))
            assert ended == (0, b"".join(ANSWERS[:begun]), b""), ended
        assert killed(program, b"".join(LINES[begun:])) == b"".join(ANSWERS[begun:])
        return taken(folder, "city.db"), held(folder, "city.db")


def beside(program):
    """The bytes of all files in the folder."""
    return {it.name: it.read_bytes() for it in Path(program.folder).iterdir()}


def is_whole(program, state, file="city.db"):
    """The city is all there."""
    assert program.run("lines", file) == (0, b"", b"")
    assert held(program.folder, file) == state, "it isn't the city that it was"


@quickly
def test_no_word_begins_anew_over_a_log(program):
    for is_young in True, False:
        parts, state = left(program.file, is_young)
        for name, rest in ("missing", {}), ("empty", {"": b""}), ("a byte", {"": b"S"}):
            put({**rest, "-wal": parts["-wal"]}, program.folder, "city.db")
            before = beside(program)
            for word, *more in EACH_WORD:
                ended = program.run(word, "city.db", *more, given=INPUT)
                assert ended == STORE_FAILED, (name, word, ended)
                assert beside(program) == before, (name, word, "something was changed")
            put({"": parts[""], "-wal": (Path(program.folder) / "city.db-wal").read_bytes()}, program.folder, "city.db")
            assert program.run("check", "city.db") == SOUND, name
            is_whole(program, state)


@quickly
def test_the_least_log(program):
    """A shorter log holds no commit, and doesn't keep a FILE from being made. Beside a FILE of one byte one of 56 bytes
    does, by its whole header."""
    log = left(program.file, True)[0]["-wal"]
    for rest, least in ({}, LEAST_LOG), ({"": b""}, LEAST_LOG), ({"": b"S"}, LEAST_HEAD):
        for size in (it for it in (LEAST_HEAD, LEAST_LOG - 1, LEAST_LOG) if it >= least):
            put({**rest, "-wal": log[:size]}, program.folder, "city.db")
            before = beside(program)
            assert program.run("init", "city.db") == STORE_FAILED, (rest, size)
            assert beside(program) == before, (rest, size)
        put({**rest, "-wal": log[: least - 1]}, program.folder, "city.db")
        assert program.run("init", "city.db") == READY, (rest, least)
        assert program.run("check", "city.db") == SOUND, (rest, least)


def damages(main):
    """FILE with a first page that is damaged, each with its name."""
    page = int.from_bytes(main[16:18], "big")
    zeros, noise = bytes(page), random.Random(1).randbytes(page)
    for name, front in ("zeros", zeros), ("noise", noise), ("no header", zeros[:100]), ("no name", zeros[:16]):
        yield name, front + main[len(front) :]
    for size in 1, 15, 100, page // 2, page - 1:
        yield f"{size} bytes", main[:size]


@quickly
def test_a_first_page_that_is_damaged(program):
    """An empty city is never what is found."""
    for is_young in True, False:
        parts, state = left(program.file, is_young)
        for number, (name, main) in enumerate(damages(parts[""])):
            # Each damage is met by `check`, and by another word in turn.
            for word, *more in ["check"], OTHER_WORDS[number % len(OTHER_WORDS)]:
                with told_with(f"{'young' if is_young else 'grown'}, {name}, {word}"):
                    put({"": main, "-wal": parts["-wal"]}, program.folder, "city.db")
                    before = beside(program)
                    ended = program.run(word, "city.db", *more)
                    if ended == STORE_FAILED:
                        assert beside(program) == before, "something was changed"
                        put(parts, program.folder, "city.db")
                    else:
                        assert ended[0] in (0, 1), ended
                    is_whole(program, state)
        removed(program.folder, "city.db")


# ---- FILE behind links

# Links to FILE, each with where it leads; the first one is what the program is given.
CHAINS = [
    {"city.db": "big/real.db"},
    {"city.db": "links/next.db", "links/next.db": "../big/real.db"},
]


def below(program):
    """What stands below the folder: the bytes of files, and where links lead."""
    return {
        str(it): os.readlink(it) if it.is_symlink() else it.read_bytes()
        for it in Path(program.folder).rglob("*") if it.is_symlink() or it.is_file()
    }


def linked(program, chain, parts):
    """FILE and its log in their own folder, and the links to FILE. Returns the folder of all."""
    here = Path(program.folder)
    for folder in "big", "links":
        shutil.rmtree(here / folder, ignore_errors=True)
        (here / folder).mkdir()
    removed(here / "city.db")
    put(parts, here / "big/real.db")
    for name, leads in chain.items():
        (here / name).symlink_to(leads)
    return here


def each_word_refuses(program):
    """No word opens the city, and nothing is changed."""
    before = below(program)
    for word, *more in EACH_WORD:
        ended = program.run(word, "city.db", *more, given=INPUT)
        assert ended == STORE_FAILED, (word, ended)
        assert below(program) == before, (word, "something was changed")


@quickly
def test_a_log_at_the_name_of_a_link(program):
    """FILE was moved and linked, and its log forgotten. Once the log is where it belongs all requests are there."""
    for chain in CHAINS:
        for is_young, name in ((young, name) for young in (True, False) for name in chain):
            parts, state = left(program.file, is_young)
            with told_with(f"{chain}, the log at {name}, {'young' if is_young else 'grown'}"):
                here = linked(program, chain, {"": parts[""]})
                log = Path(f"{here / name}-wal")
                log.write_bytes(parts["-wal"])
                each_word_refuses(program)
                log.rename(here / "big/real.db-wal")
                assert program.run("check", "city.db") == SOUND
                is_whole(Program(program.file, here / "big"), state, "real.db")


@quickly
def test_the_least_log_at_the_name_of_a_link(program):
    """A shorter one holds no commit, and is left alone."""
    parts, _ = left(program.file, False)
    for chain in CHAINS:
        for name in chain:
            with told_with(f"{chain}, the log at {name}"):
                here = linked(program, chain, {"": parts[""]})
                log = Path(f"{here / name}-wal")
                log.write_bytes(parts["-wal"][:LEAST_LOG])
                each_word_refuses(program)
                log.write_bytes(parts["-wal"][: LEAST_LOG - 1])
                before = below(program)
                assert program.run("check", "city.db") == SOUND and below(program) == before
                assert program.run("lines", "city.db", given=INPUT) == (0, b"ok\n", b"")
                assert log.read_bytes() == parts["-wal"][: LEAST_LOG - 1]


@quickly
def test_a_log_beside_another_one(program):
    """A log at a link's name isn't passed over for the log beside FILE. Where both names are those of one log, by a
    link, the city is served. Where no file is behind the link nothing is made."""
    for is_young in True, False:
        parts, state = left(program.file, is_young)
        for chain in CHAINS:
            here = linked(program, chain, parts)
            for name in chain:
                Path(f"{here / name}-wal").write_bytes(parts["-wal"])
                each_word_refuses(program)
                Path(f"{here / name}-wal").unlink()
                Path(f"{here / name}-wal").symlink_to(here / "big/real.db-wal")
            before = below(program)
            assert program.run("check", "city.db") == SOUND and below(program) == before
            ended = program.run("lines", "city.db", given=b"")
            assert ended == (0, b"", b"") and held(here / "big/real.db") == state, ended
            here = linked(program, chain, {})
            Path(f"{here / 'city.db'}-wal").write_bytes(parts["-wal"])
            each_word_refuses(program)


@quickly
def test_links_that_lead_nowhere(program):
    """More links than the system follows, and links in a circle."""
    here = Path(program.folder)
    for number in range(60):
        (here / f"link{number}.db").symlink_to(f"link{number + 1}.db")
    (here / "circle.db").symlink_to("circle.db")
    before = below(program)
    for file in "link0.db", "link59.db", "circle.db":
        for word, *more in EACH_WORD:
            assert program.run(word, file, *more, given=INPUT) == STORE_FAILED, (file, word)
            assert below(program) == before, (file, word)


# ---- Serving where there is no log

ASKED = [office("o1", "add-rider\t40"), office("o2", "add-rider\t41")]


def without_a_log(program, is_there):
    """A city that ended, without its log, or no FILE at all."""
    removed(program.folder, "city.db")
    if is_there:
        city(program)
        Path(program.folder, "city.db-wal").unlink(missing_ok=True)


def are_riders(program, numbers):
    """Each of these riders is there, as a payment shows."""
    paid = [f"top-up\t{number}\t100" for number in numbers]
    assert ask(program, paid, at=1999999999, key="p") == ["balance\t100"] * len(numbers)


@quickly
def test_a_server_that_made_the_log(program):
    """What it answered stands in the log that it made, and stays there when it ends."""
    for is_there in True, False:
        without_a_log(program, is_there)
        with Server(program, len(ASKED)) as server:
            for request in ASKED:
                assert server.ask(request) == DONE
        assert program.run("check", "city.db") == SOUND
        are_riders(program, [40, 41])


def served(program, **faults):
    """Sends both requests to a server under these faults: how many were answered, how it ended, and the calls on its
    files."""
    env, answered = environment(program.folder, "city.db", ONLY_CHANGES=1, **faults), 0
    server = Server(program, len(ASKED), env=env, seconds=DISTURBED)
    try:
        server.first_line()
        with contextlib.suppress(ConnectionError):
            while server.port and answered < len(ASKED) and server.ask(ASKED[answered]) == DONE:
                answered += 1
        ended = server.end()
    finally:
        server.stop()
    return answered, ended, counted(ended, program.folder, "city.db").calls


@quickly
def test_a_server_that_made_the_log_and_fails(program):
    """The same where its store fails behind an answered request."""
    for is_there in True, False:
        without_a_log(program, is_there)
        answered, ended, calls = served(program)
        assert (answered, ended) == (len(ASKED), (0, b"", b"")), (answered, ended)
        failed = 0
        for first in range(calls, 0, -1):
            without_a_log(program, is_there)
            answered, ended, _ = served(program, FAIL_FROM=first, FAIL_WITH=EIO)
            with told_with(f"calls from {first} of {calls} fail, {answered} answered, {ended}"):
                assert ended[0] in (0, 3), ended
                if answered == 0:
                    break
                failed += ended[0] == 3
                assert program.run("check", "city.db") == SOUND
                are_riders(program, [40, 41][:answered])
        assert failed, "no store failed behind an answered request"
