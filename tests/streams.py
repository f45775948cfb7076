"""Standard streams and connections that fail: closed, full or left early, inputs that pause, come byte by byte or can't
be read, outputs that take few bytes or none, and faults behind each byte of an answer, a feed, a table, a list of lines
or a request.

Wanted are the one line on standard error and the exit status of docs/OPERATOR.md, section 12, and then a file that is
as it was before the request at which the program ended, or after it. Faults come from tests/stops/faults.c, as in
stops.py.

A sample of the bytes stands in the gate. By hand each of them, from the environment:

    BIKESHARE_STREAMS=all tests/run streams.
"""

import os
import subprocess
import time
from pathlib import Path

import adoption
import days
import imports
import paths
from shared import (
    HEADER, READ_FAILED, SOUND, START, STARTED, STORE_FAILED, WRITE_FAILED, ask, changed, city, error, exchanged,
    faulty, faulty_exchange, held, holds, put, quickly, removed, rows_of, taken,
)

SECONDS = 30
ALL = os.environ.get("BIKESHARE_STREAMS") == "all"
ASKED, TOLD = adoption.asked(), adoption.told()

LINES = (
    b"1700000000\toffice\tk1\tadd-rider\t17\n1700000001\toffice\tk2\ttop-up\t17\t2500\n"
    b"1700000002\toffice\tk2\ttop-up\t17\t2500\n"
)
ANSWERS = b"ok\nbalance\t2500\nbalance\t2500\n"
# What a server says first is written byte by byte too; a free port has five digits.
LISTENING = len(b"listening 127.0.0.1:65535\n")
ROW_13 = b"POST /riders/17/start HTTP/1.1\r\nContent-Length: 36\r\n\r\n" + START.encode()


def shell(program, redirected, *words, given=b""):
    """Runs the program under the shell's redirections."""
    return program.shell(redirected, *words, given=given, timeout=SECONDS)


# ---- Streams that are closed, full, left or no files


def test_output_that_is_closed(program):
    """The file may not take the place of an output that is closed."""
    for words in paths.WORDS:
        for file in "new.db", "city.db":
            asked = [file if it == "city.db" else it for it in words]
            if file == "city.db":
                paths.goes_on(program)
            ended = shell(program, ">&-", *asked, given=ASKED)
            is_made = file == "city.db" or words[0] not in ("check", "feed")
            assert ended == (WRITE_FAILED if is_made else STORE_FAILED), (asked, ended)
            if is_made:
                paths.goes_on(program, file)
            removed(program.folder, file)


def test_errors_that_are_closed(program):
    """A fault is told by the status alone, and nothing is written into the file in its place."""
    paths.goes_on(program)
    file = Path(program.folder, "city.db")
    changed(file, "UPDATE meta SET cash = cash + 1")
    before = file.read_bytes()
    for words in paths.WORDS:
        assert shell(program, "2>&-", *words, given=ASKED) == (5, b"", b""), words
        assert file.read_bytes() == before, words
    changed(file, "UPDATE meta SET cash = cash - 1")
    for redirected in ">&- 2>&-", "> /dev/full 2>&-", "<&- >&- 2>&-":
        for words in paths.WORDS:
            ended = shell(program, redirected, *words, given=ASKED)
            assert ended == (6, b"", b""), (redirected, words, ended)
            paths.goes_on(program)


def test_input_that_is_closed(program):
    """The file may not take the place of an input that is closed."""
    paths.goes_on(program)
    for words in ["lines", "city.db"], ["lines", "new.db"], []:
        assert shell(program, "<&-", *words) == READ_FAILED, (words, shell(program, "<&-", *words))
    paths.goes_on(program)
    assert shell(program, "<&-", "check", "city.db") == SOUND


def test_output_that_is_full(program):
    for words in paths.WORDS:
        paths.goes_on(program)
        assert shell(program, "> /dev/full", *words, given=ASKED) == WRITE_FAILED, words
    assert shell(program, "> /dev/full", "lines", "city.db") == (0, b"", b""), "no line is no answer"
    assert shell(program, "> /dev/full 2> /dev/full", "lines", "city.db", given=ASKED) == (6, b"", b"")
    paths.goes_on(program)


def test_output_that_nobody_reads(program):
    """A pipe whose reader is gone is an output that fails, and no signal ends the program."""
    for words in paths.WORDS:
        paths.goes_on(program)
        reader, writer = os.pipe()
        os.close(reader)
        try:
            ended = program.run(*words, given=ASKED, stdout=writer, timeout=SECONDS)
        finally:
            os.close(writer)
        assert ended == (6, None, b"write failed\n"), (words, ended)
    paths.goes_on(program)


def test_output_that_is_left_early(program):
    """What was answered counts, and of the rest at most one request."""
    lines = ASKED.splitlines(keepends=True)
    for count in 0, 1, 5, len(lines) - 1:
        file = f"left{count}.db"
        with program.started("lines", file, stdin=subprocess.PIPE) as child:
            child.stdin.write(b"".join(lines[:count]))
            child.stdin.flush()
            for _ in range(count):
                child.stdout.readline()
            child.stdout.close()
            child.stdin.write(b"".join(lines[count:]))
            child.stdin.close()
            said = child.stderr.read()
            assert (child.wait(timeout=SECONDS), said) == (6, b"write failed\n"), (count, said)
        ((found,),) = rows_of("SELECT count(*) FROM history", program.folder, file)
        assert found == count + 1, (count, found)
        paths.goes_on(program, file)


def test_errors_that_nobody_reads(program):
    paths.goes_on(program)
    reader, writer = os.pipe()
    os.close(reader)
    for status, words in (2, ["feed", "city.db", "gbfs", "--at", "x"]), (3, ["check", "no/city.db"]):
        ended = program.run(*words, stderr=writer, timeout=SECONDS)
        assert ended == (status, b"", None), (words, ended)
    os.close(writer)


def test_input_that_is_a_directory(program):
    paths.goes_on(program)
    for words in ["lines", "city.db"], ["lines", ":memory:"], []:
        ended = shell(program, "< .", *words)
        assert ended == READ_FAILED, (words, ended)
    paths.goes_on(program)


def test_words_that_read_no_input(program):
    paths.goes_on(program)
    assert shell(program, "< .", "check", "city.db") == SOUND


def test_an_input_that_pauses(program):
    """A line is answered when it is whole, before the next one comes."""
    with program.started("lines", "city.db", stdin=subprocess.PIPE) as child:
        for line, answer in list(zip(ASKED.splitlines(keepends=True), TOLD.splitlines(keepends=True)))[:6]:
            child.stdin.write(line[:7])
            child.stdin.flush()
            time.sleep(0.01)
            child.stdin.write(line[7:])
            child.stdin.flush()
            assert child.stdout.readline() == answer
        out, said = child.communicate(timeout=SECONDS)
        assert (child.returncode, out, said) == (0, b"", b"")
    paths.goes_on(program)


# ---- Inputs that come in pieces, and long ones

BYTE_BY_BYTE = {"ONLY_ENDS": 1, "SHORT_FROM": 1}


@quickly
def test_reads_are_counted(program):
    """An import ends after 1,000,000 reads, in a row without end too, and its rows stand."""
    rows = [b"\n" * 60_000 + b"c%d,Canal,45,9.1,10\n" % number for number in range(1, 18)]
    for count, wanted in (15, (0, b"rows 15\n", b"")), (17, READ_FAILED):
        assert faulty(program, imports.IMPORT, b"".join([HEADER.encode(), *rows[:count]]), **BYTE_BY_BYTE) == wanted, (
            count
        )
        assert len(imports.stations(program)) == min(count, 16), count
        removed(program.folder, "city.db")
    row = HEADER.encode() + b"c1,Canal,45,9.1,10\n"
    assert faulty(program, imports.IMPORT, row + b"x" * 1_000_000, **BYTE_BY_BYTE) == READ_FAILED
    assert [it[0] for it in imports.stations(program)] == ["c1"]


@quickly
def test_the_longest_request_comes_byte_by_byte(program):
    """Its answer goes out so too."""
    city(program)
    head = b"POST /riders/17/start HTTP/1.1\r\nContent-Length: 16384\r\nX: \r\n\r\n"
    asked = head.replace(b"X: ", b"X: " + b"x" * (8192 - len(head))) + START.encode() + b" " * (16384 - 36)
    assert len(asked) == 8192 + 16384
    assert faulty_exchange(program, asked, **BYTE_BY_BYTE) == (0, STARTED, b"")


# Texts, and how many lines each has. None of them spells a request.
CUT = [
    (b"", 0),
    (b"\n", 1),
    (b"ab", 1),
    (b"ab\n", 1),
    (b"ab\n\ncd", 3),
    (b"\r\n\xff\0\n", 2),
    (b"a" * 4096 + b"\n" + b"a" * 4097 + b"\nx", 3),
    (b"a" * 3 * 4096, 1),
]


@quickly
def test_texts_that_come_byte_by_byte(program):
    """They have as many lines as where they come at once, and the line behind them is read whole."""
    for text, count in CUT:
        behind = b"" if text.endswith(b"\n") or not text else b"\n"
        for given, answers in (text, b""), (text + behind + LINES, ANSWERS):
            wanted = (0, b"refused\t11\tbad_field\n" * count + answers, b"")
            found = (
                program.run("lines", ":memory:", given=given),
                faulty(program, ["lines", ":memory:"], given, **BYTE_BY_BYTE),
            )
            assert found == (wanted, wanted), (text[:20], found)


def test_a_longer_line_takes_no_more_memory(program):
    """A line of 64 MB is read to its end in the address space in which a short one is, and the next one whole."""
    for size in 1000, 64_000_000:
        given = LINES + b"x" * size + b"\n" + LINES
        ended = program.run(given=given, timeout=imports.SECONDS, preexec_fn=imports.limited)
        assert ended == (0, ANSWERS + b"refused\t11\tbad_field\n" + ANSWERS, b""), (size, ended)


def test_fronts_of_a_request(program):
    """No front of a request is one, with a head of two lines as with another."""
    city(program)
    fronts = [(ROW_13[:size], error(400) if size else b"") for size in range(len(ROW_13))]
    holds(program, [*fronts, (ROW_13, STARTED), (ROW_13, STARTED)], ends=True)
    assert rows_of("SELECT count(*) FROM rentals", program.folder, "city.db") == [(1,)]


# ---- Faults behind each byte


def some(count, stride):
    """The numbers below the count, all of them or some."""
    return range(0, count, 1 if ALL else stride)


@quickly
def test_an_answer_that_fails_behind_each_byte(program):
    """Of an answer over HTTP exactly the bytes before are sent, and the request, sent again, has its answer."""
    city(program)
    parts = taken(program.folder, "city.db")
    for size in some(len(STARTED), 19):
        put(parts, program.folder, "city.db")
        ended = faulty_exchange(program, ROW_13, ONLY_ENDS=2, SHORT_FROM=1, FAIL_AT=LISTENING + size + 1)
        assert ended == (0, STARTED[:size], b""), (size, ended)
        again = exchanged(program, ROW_13)
        assert again == (0, STARTED, b""), (size, again)
        assert rows_of("SELECT count(*) FROM rentals", program.folder, "city.db") == [(1,)], size
        removed(program.folder, "city.db")


@quickly
def test_answer_lines_that_fail_behind_each_byte(program):
    """Exactly the bytes before are written; the line at which it ends has acted, and no other."""
    for size in some(len(ANSWERS), 1):
        removed(program.folder, "city.db")
        found = faulty(program, ["lines", "city.db"], LINES, ONLY_ENDS=2, SHORT_FROM=1, FAIL_AT=size + 1)
        assert found == (6, ANSWERS[:size], b"write failed\n"), (size, found)
        lines = ANSWERS[:size].count(b"\n") + 1
        assert rows_of("SELECT count(*) FROM history", program.folder, "city.db") == [(min(lines, 2),)], size
        assert program.run("lines", "city.db", given=LINES) == (0, ANSWERS, b""), size
        assert rows_of("SELECT * FROM entries", program.folder, "city.db") == [(1, 1, 17, 0, 2500, 1700000001)], size


@quickly
def test_ends_that_take_few_bytes_or_none(program):
    """An output takes three bytes a write, or twenty, and then fails; or it takes all and then nothing, which is a
    failure too. What was taken is a front of the answers."""
    memory, answers = ["lines", ":memory:"], ANSWERS.splitlines(keepends=True)
    for step in 3, 20:
        pieces = [line[at : at + step] for line in answers for at in range(0, len(line), step)]
        assert faulty(program, memory, LINES, ONLY_ENDS=2, SHORT_FROM=1, SHORT_BYTES=step) == (0, ANSWERS, b""), step
        for count in range(len(pieces)):
            found = faulty(program, memory, LINES, ONLY_ENDS=2, SHORT_FROM=1, SHORT_BYTES=step, FAIL_AT=count + 1)
            assert found == (6, b"".join(pieces[:count]), b"write failed\n"), (step, count, found)
    for count in range(len(answers)):
        found = faulty(program, memory, LINES, ONLY_ENDS=2, SHORT_FROM=count + 1, SHORT_BYTES=0)
        assert found == (6, b"".join(answers[:count]), b"write failed\n"), (count, found)
    city(program)
    feed = ["feed", "city.db", "station_status", "--at", imports.AT]
    whole = program.run(*feed)
    assert whole[0] == 0 and faulty(program, feed, ONLY_ENDS=2, SHORT_FROM=1, SHORT_BYTES=20) == whole
    assert faulty(program, feed, ONLY_ENDS=2, SHORT_FROM=1, SHORT_BYTES=0) == (6, b"", b"write failed\n")
    assert faulty_exchange(program, ROW_13, ONLY_ENDS=2, SHORT_FROM=2, SHORT_BYTES=0) == (0, b"", b"")
    holds(program, [(ROW_13, STARTED)])


@quickly
def test_texts_that_fail_behind_each_byte(program):
    """So it is with a feed, a day's table, and the one line of other words: after one write that fails none comes. What
    stands doesn't depend on it."""
    ask(program, [*days.CITY, "add-name\tsystem\tmetro\tde\tMetro", "add-name\tstation\ta1\tfr\tPort"])
    before = held(program.folder, "city.db")
    feed, day = (
        ["feed", "city.db", "station_status", "--at", imports.AT], ["day", "city.db", "entries", "2023-11-14", "UTC0"]
    )
    named, history = ["feed", "city.db", "system_information", "--at", imports.AT], ["history", "city.db"]
    others = (["check", "city.db"], 2), (["init", "city.db"], 2)
    for words, stride in (feed, 61), (named, 53), (day, 17), (history, 31), *others:
        whole = program.run(*words)
        assert whole[0] == 0 and whole[1] and not whole[2], whole
        for size in some(len(whole[1]), stride):
            found = faulty(program, words, ONLY_ENDS=2, SHORT_FROM=1, FAIL_AT=size + 1)
            assert found == (6, whole[1][:size], b"write failed\n"), (words, size, found)
        assert held(program.folder, "city.db") == before, words
    for size in range(len(b"rows 3\n")):
        removed(program.folder, "city.db")
        found = faulty(
            program, imports.IMPORT, (HEADER + imports.ROWS).encode(), ONLY_ENDS=2, SHORT_FROM=1, FAIL_AT=size + 1
        )
        assert found == (6, b"rows 3\n"[:size], b"write failed\n"), (size, found)
        assert len(imports.stations(program)) == 3 and imports.load(program, HEADER + imports.ROWS) == (
            0, "rows 3\n", ""
        ), size


@quickly
def test_inputs_that_fail_at_each_read(program):
    """The lines that were read whole are answered, and no other acts. Each call moves a byte, so that a fault comes
    behind each byte."""
    lines, wanted, seen = LINES.splitlines(keepends=True), ANSWERS.splitlines(keepends=True), 0
    for turn in some(len(LINES) + len(ANSWERS) + 1, 5):
        removed(program.folder, "city.db")
        status, out, said = faulty(program, ["lines", "city.db"], LINES, FAIL_AT=turn + 1, **BYTE_BY_BYTE)
        if said == b"write failed\n":
            assert status == 6 and ANSWERS.startswith(out), (turn, status, out, said)
            continue
        seen += 1
        whole = LINES[: turn - len(out)].count(b"\n")
        assert (status, out, said) == (6, b"".join(wanted[:whole]), b"read failed\n"), (turn, status, out, said)
        assert rows_of("SELECT count(*) FROM history", program.folder, "city.db") == [(min(whole, 2),)], turn
        assert program.run("lines", "city.db", given=b"".join(lines[whole:])) == (0, b"".join(wanted[whole:]), b""), (
            turn
        )
    assert seen > 10, seen


@quickly
def test_tables_that_fail_at_each_read(program):
    """The rows that were read whole stand. A row is whole behind its line end, and nothing is told on standard
    output."""
    table = (HEADER + imports.ROWS).encode()
    for turn in some(len(table) + 1, 7):
        removed(program.folder, "city.db")
        ended = faulty(program, imports.IMPORT, table, FAIL_AT=turn + 1, **BYTE_BY_BYTE)
        assert ended == READ_FAILED, (turn, ended)
        whole = max(0, table[:turn].count(b"\n") - 1)
        assert [it[0] for it in imports.kept(program, "spring")] == [f"row-{it}" for it in range(1, whole + 1)], (
            turn, imports.kept(program, "spring")
        )
        assert imports.load(program, table) == (0, "rows 3\n", ""), turn


@quickly
def test_a_request_whose_reading_fails(program):
    """Nothing is answered and nothing acts, at whatever byte a read fails; the server goes on to its end."""
    city(program)
    parts = taken(program.folder, "city.db")
    for turn in some(len(ROW_13), 13):
        ended = faulty_exchange(program, ROW_13, ONLY_ENDS=1, SHORT_FROM=1, FAIL_AT=LISTENING + turn + 1)
        assert ended == (0, b"", b""), (turn, ended)
    assert rows_of("SELECT count(*) FROM history WHERE caller = 'rider:17'", program.folder, "city.db") == [(0,)]
    holds(program, [(ROW_13, STARTED)])
