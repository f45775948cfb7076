"""How far long work is: told on standard error where that is a terminal, on one line below that of the
answers, which is written anew and taken away."""

import os
import pty
import subprocess
from pathlib import Path

from shared import CITY, HEADER, SOUND, ask, changed, is_sound

ANEW, BACK, ERASED = b"\r\r\n\x1b[K", b"\x1b[A\r", b"\r\x1b[J"
TABLES = (
    "meta system plans segments types regions stations_4 docks bikes trucks riders_4 rentals orders entries history "
    "more_names books"
).split()


def looked_on(program, *words, given=b""):
    """Runs the program with a terminal as standard error, and returns its status, its output and what that terminal was
    told."""
    above, below = pty.openpty()
    try:
        started = subprocess.Popen(
            [program.file, *words], cwd=program.folder, stdin=subprocess.PIPE, stdout=subprocess.PIPE, stderr=below
        )
        os.close(below)
        out, _ = started.communicate(given, timeout=60)
        told = b""
        while True:
            try:
                piece = os.read(above, 65536)
            except OSError:
                break
            if not piece:
                break
            told += piece
    finally:
        os.close(above)
    return started.returncode, out, told


def made(program):
    assert ask(program, CITY[:1]) == ["ok"]


def test_a_check_tells_its_tables(program):
    made(program)
    steps = [
        b"opening the file",
        *(f"checking {name}, table {place} of {len(TABLES)}".encode() for place, name in enumerate(TABLES, 1)),
    ]
    assert looked_on(program, "check", "city.db") == (
        0, b"sound\n", b"".join(ANEW + step + BACK for step in steps) + ERASED
    )


def test_a_check_that_fails_tells_up_to_the_table(program):
    made(program)
    changed(Path(program.folder, "city.db"), "INSERT INTO riders_4 VALUES (17, 0, 5, 0, NULL)")
    status, out, told = looked_on(program, "check", "city.db")
    assert (status, out) == (5, b"")
    assert told.endswith(b"checking riders_4, table 11 of 17" + BACK + ERASED + b"unsound riders_4 17\r\n"), told


def test_an_import_tells_its_lines(program):
    made(program)
    rows = "".join(f"s{number},Place {number},41.89{number:04},12.49{number:04},3\n" for number in range(600))
    status, out, told = looked_on(
        program, "import", "city.db", "spring", "--at", "1700000000", given=(HEADER + rows).encode()
    )
    assert (status, out) == (0, b"rows 600\n")
    steps = told.split(ANEW)
    assert steps[:2] == [b"", b"opening the file" + BACK] and steps[-1] == b"lines read: 601" + BACK + ERASED, told
    assert len(steps) > 3 and all(step.startswith(b"lines read: ") and BACK in step for step in steps[2:])


def test_nobody_is_told_otherwise(program):
    made(program)
    is_sound(program)
    given = (HEADER + "s1,One,41.0,12.0,3\n").encode()
    assert program.run("import", "city.db", "spring", "--at", "1700000000", given=given) == (0, b"rows 1\n", b"")
    for words in (
        ["init", "city.db"],
        ["feed", "city.db", "system_information", "--at", "1700000000"],
        ["day", "city.db", "entries", "2023-11-14", "UTC0"], ["history", "city.db"],
    ):
        status, _, told = looked_on(program, *words)
        assert (status, told) == (0, b""), words


def test_a_memory_is_not_told(program):
    assert looked_on(program, "check", ":memory:") == SOUND
