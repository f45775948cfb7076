"""The words of the program: what it does with a file, also with one that it refuses or that isn't there, what it says
where the words are none of its own, and what it does at a moment that its clock can't tell."""

import contextlib
import os
import sqlite3
from pathlib import Path

import adoption
import days
import formats
import imports
from shared import (
    DONE, HEADER, READY, READ_FAILED, SOUND, STORE_FAILED, Server, ask, changed, faulty, faulty_exchange, get, held,
    is_sound, is_whole, office, quickly, removed, rows_of, tells_mistake,
)

ADD = b"1700000000\toffice\tk0\tadd-rider\t17\n"
ADD_AGAIN = b"1700000000\toffice\tk1\tadd-rider\t17\n"

# Each word with what it takes, and what is wanted of its values.
FORMS = (
    "init FILE", "check FILE", "raise FILE", "lines FILE", "feed FILE NAME [--at M]", "day FILE WHICH DATE ZONE",
    "history FILE [AFTER]", "import FILE NAME [--at M]", "serve FILE --port P [--count N]",
)
FILE = "an SQLite database, or :memory:"
FEEDS = (
    "gbfs, system_information, vehicle_types, station_information, station_status, system_pricing_plans or "
    "system_regions"
)
TABLES = "entries, rentals or requests"
AFTER = "a whole number from 0 to 9223372036854775807, with no leading zeros"
ZONE = "a POSIX time zone as CET-1CEST,M3.5.0,M10.5.0/3"
IDENT = "1 to 36 of a-z 0-9 _ -"
MOMENT = "a whole number from 0 to 253402300799, with no leading zeros"
PORT = "a whole number from 0 to 65535, with no leading zeros"
COUNT = "a whole number from 1 to 1000000000, with no leading zeros"


def refused(program, *words):
    """What is told of words that ask for nothing, on standard error alone; no file is left."""
    status, out, said = program.run(*words, given=ADD)
    assert (status, out) == (2, b""), (words, status, out)
    assert said.endswith(b"\n"), (words, said)
    assert not os.listdir(program.folder), (words, os.listdir(program.folder))
    return said.decode()


def helped(program, *words):
    """The usage that a wish for help is answered with: no mistake is told."""
    said = refused(program, *words)
    assert said.startswith("usage: bikeshare "), (words, said)
    return said


def is_mistaken(program, line, *words):
    """Holds the program to this mistake, and to the usage of the word, or to the whole usage where the first word is
    none."""
    names = [it.split()[0] for it in FORMS]
    usage = helped(program, words[0], "--help") if words[0] in names else helped(program, "--help")
    said = refused(program, *words)
    assert said == f"bikeshare: {line}\n{usage}", (words, line, said)
    assert tells_mistake(said.encode()), (words, said)


def test_no_words_are_lines_in_memory(program):
    for words in [], ["lines", ":memory:"]:
        assert program.run(*words, given=ADD) == (0, b"ok\n", b""), words
        assert program.run(*words, given=ADD_AGAIN) == (0, b"ok\n", b""), words
    assert not os.listdir(program.folder), os.listdir(program.folder)


def test_init(program):
    assert program.run("init", "city.db") == READY
    assert program.run("init", "city.db") == READY
    with open(os.path.join(program.folder, "city.db"), "rb") as file:
        assert file.read(16) == b"SQLite format 3\0"


def page_length(path):
    """The length of a database's pages, as its header tells it."""
    with open(path, "rb") as file:
        return int.from_bytes(file.read(18)[16:], "big")


def test_a_file_keeps_its_pages(program):
    for length in 512, 1024, 2048, 4096, 8192, 32768:
        path = os.path.join(program.folder, f"{length}.db")
        with contextlib.closing(sqlite3.connect(path)) as base:
            base.execute(f"PRAGMA page_size = {length}")
            base.execute("VACUUM")
        assert program.run("init", path) == READY, length
        assert program.run("lines", path, given=ADD) == (0, b"ok\n", b""), length
        assert program.run("lines", path, given=ADD_AGAIN) == (0, b"refused\t10\talready_there\n", b""), length
        assert page_length(path) == length, (length, page_length(path))
        with contextlib.closing(sqlite3.connect(path)) as base:
            is_whole(base)


def test_an_empty_file_becomes_a_database(program):
    path = os.path.join(program.folder, "city.db")
    with open(path, "wb"):
        pass
    assert program.run("init", path) == READY
    assert program.run("check", path) == SOUND


def test_what_names_no_file_makes_none(program):
    for name in "file:city.db", os.path.join("missing", "city.db"):
        assert program.run("init", name) == STORE_FAILED, name
    assert not os.listdir(program.folder), os.listdir(program.folder)


def test_init_reads_no_lines(program):
    assert program.run("init", "city.db", given=ADD) == READY
    assert program.run("lines", "city.db", given=ADD_AGAIN) == (0, b"ok\n", b"")


def test_init_keeps_what_is_there(program):
    assert program.run("lines", "city.db", given=ADD) == (0, b"ok\n", b"")
    assert program.run("init", "city.db") == READY
    assert program.run("lines", "city.db", given=ADD_AGAIN) == (0, b"refused\t10\talready_there\n", b"")


def test_check(program):
    assert program.run("init", "city.db") == READY
    assert program.run("check", "city.db") == SOUND
    assert program.run("lines", "city.db", given=ADD) == (0, b"ok\n", b"")
    assert program.run("check", "city.db", given=ADD_AGAIN) == SOUND


def test_check_in_memory(program):
    assert program.run("check", ":memory:") == SOUND
    assert not os.listdir(program.folder), os.listdir(program.folder)


def test_lines_of_a_file_are_kept(program):
    assert program.run("lines", "city.db", given=ADD) == (0, b"ok\n", b"")
    assert program.run("lines", "city.db", given=ADD) == (0, b"ok\n", b"")
    assert program.run("lines", "city.db", given=ADD_AGAIN) == (0, b"refused\t10\talready_there\n", b"")


def test_a_file_that_begins_with_a_hyphen(program):
    refused(program, "init", "-city.db")
    assert program.run("init", "--", "-city.db") == READY
    assert "-city.db" in os.listdir(program.folder), os.listdir(program.folder)


def test_usage_has_a_line_for_each_word(program):
    said = helped(program, "--help")
    for form in FORMS:
        assert f"\n  {form}  " in said, (form, said)
    for option in "--at M", "--port P", "--count N":
        assert f"\n  {option}  " in said, (option, said)
    assert ":memory:" in said, said


def test_usage_of_a_word(program):
    """It is what the whole usage says of the word, of its options and of its values."""
    whole = helped(program, "--help")
    for form in FORMS:
        said = helped(program, form.split()[0], "--help")
        head, *lines = said.splitlines()
        assert head == f"usage: bikeshare {form}" and f"\n  {form}  " in said, (form, said)
        assert set(lines) < set(whole.splitlines()), (form, said)
        for option in "--at M", "--port P", "--count N":
            assert (f"\n  {option}  " in said) == (option in form), (form, option, said)
        assert (
            ("A feed's NAME is " in said) == form.startswith("feed ")
            and ("An import's NAME is " in said) == form.startswith("import ")
        ), (form, said)
        assert ("WHICH is " in said) == form.startswith("day ") and "\nFILE is " in said, (form, said)
        assert ("AFTER is " in said) == form.startswith("history "), (form, said)


def test_help(program):
    whole = helped(program, "--help")
    for words in ["-h"], ["help"], ["help", "feed"], ["--help", "city.db"]:
        assert helped(program, *words) == whole, words
    feed = helped(program, "feed", "--help")
    for words in ["-h"], ["city.db", "--help"], ["city.db", "nothing", "-h"]:
        assert helped(program, "feed", *words) == feed, words


def test_first_words_that_are_none(program):
    wanted = "init, check, raise, lines, feed, day, history, import or serve"
    for words in (
        ["start", "city.db"], ["Init", "city.db"], ["city.db"], ["-x"], ["--"], ["--", "init", "city.db"],
        ["help", "nothing"],
    ):
        is_mistaken(program, f"{words[0]} is no subcommand of bikeshare; wanted is {wanted}", *words)
    is_mistaken(program, f"(empty) is no subcommand of bikeshare; wanted is {wanted}", "")


def test_values_that_are_missing(program):
    for word in "init", "check", "raise", "lines", "feed", "day", "history", "import", "serve":
        is_mistaken(program, f"FILE is missing; wanted is {FILE}", word)
    is_mistaken(program, f"FILE is missing; wanted is {FILE}", "serve", "--port", "x")
    is_mistaken(program, f"NAME is missing; wanted is {FEEDS}", "feed", "gbfs")
    is_mistaken(program, f"NAME is missing; wanted is {FEEDS}", "feed", "city.db", "--at", "x")
    is_mistaken(program, f"NAME is missing; wanted is {IDENT}", "import", "city.db")
    is_mistaken(program, f"WHICH is missing; wanted is {TABLES}", "day", "city.db")
    is_mistaken(program, "DATE is missing; wanted is a day's date as 2024-03-31", "day", "city.db", "entries")
    is_mistaken(program, f"ZONE is missing; wanted is {ZONE}", "day", "city.db", "entries", "2024-03-31")
    is_mistaken(program, f"--port is missing; wanted is {PORT}", "serve", "city.db", "--count", "1")


def test_values_that_are_bad(program):
    for text, shown in (
        ("080", "080"), ("65536", "65536"), ("+80", "+80"), ("x", "x"), ("", "(empty)"), (" 1", " 1"),
        ("\u0661", "\u0661"),
    ):
        is_mistaken(program, f"--port is {shown}; wanted is {PORT}", "serve", "city.db", "--port", text)
        is_mistaken(
            program, f"--port is {shown}; wanted is {PORT}", "serve", f"--port={text}", "--count", "0", "city.db"
        )
    for text in "0", "01", "1000000001":
        is_mistaken(
            program, f"--count is {text}; wanted is {COUNT}", "serve", "city.db", "--port", "0", "--count", text
        )
    is_mistaken(
        program, f"--at is 253402300800; wanted is {MOMENT}", "import", "city.db", "spring", "--at", "253402300800"
    )
    is_mistaken(program, f"--at is -1; wanted is {MOMENT}", "feed", "city.db", "gbfs", "--at=-1")
    for text in "-1", "-x", "-1.5":
        is_mistaken(program, f"--port is {text}; wanted is {PORT}", "serve", "city.db", "--port", text)
        is_mistaken(
            program, f"--count is {text}; wanted is {COUNT}", "serve", "--port", "0", "--count", text, "city.db"
        )
        is_mistaken(program, f"--at is {text}; wanted is {MOMENT}", "feed", "city.db", "gbfs", "--at", text)
        is_mistaken(program, f"--at is {text}; wanted is {MOMENT}", "import", "--at", text, "city.db", "spring")
    is_mistaken(program, f"NAME is nothing; wanted is {FEEDS}", "feed", "city.db", "nothing", "--at", "x")
    is_mistaken(program, f"NAME is Spring; wanted is {IDENT}", "import", "city.db", "Spring")
    is_mistaken(program, f"WHICH is riders; wanted is {TABLES}", "day", "city.db", "riders", "2024-03-31", "UTC0")
    for text, shown in ("x", "x"), ("01", "01"), ("9223372036854775808", "9223372036854775808"), ("", "(empty)"):
        is_mistaken(program, f"AFTER is {shown}; wanted is {AFTER}", "history", "city.db", text)


def test_options_without_a_value_or_twice(program):
    for words in ["--port"], ["--port", "--count", "1"], ["--count", "1", "--port"], ["--port", "--"]:
        is_mistaken(program, f"--port has no value; wanted is {PORT}", "serve", "city.db", *words)
    is_mistaken(program, f"--count has no value; wanted is {COUNT}", "serve", "city.db", "--port", "1", "--count")
    is_mistaken(program, f"--at has no value; wanted is {MOMENT}", "feed", "city.db", "gbfs", "--at", "1", "--at")
    for words in (
        ["--port", "1", "--port", "2"], ["--port=1", "--port=1"], ["--port", "1", "--count", "2", "--port", "3"]
    ):
        is_mistaken(program, "--port is given twice; wanted is one value", "serve", "city.db", *words)
    is_mistaken(
        program, "--at is given twice; wanted is one value", "import", "city.db", "spring", "--at", "1", "--at=2"
    )


def test_words_too_many(program):
    for form in FORMS:
        name = form.split()[0]
        options = [it for it in ("--at", "--port", "--count") if it not in form]
        for text in ["-1", "--force", "-x", "--help=yes", *options]:
            is_mistaken(program, f"{text} is unexpected; wanted is {form}", name, "city.db", text, "80")
    is_mistaken(
        program, "--cuont is unexpected; wanted is serve FILE --port P [--count N]", "serve", "city.db", "--port",
        "--cuont", "1",
    )
    is_mistaken(program, "other.db is unexpected; wanted is init FILE", "init", "city.db", "other.db", "third.db")
    is_mistaken(program, "-city.db is unexpected; wanted is init FILE", "init", "-city.db")
    is_mistaken(program, "gbfs is unexpected; wanted is feed FILE NAME [--at M]", "feed", "city.db", "gbfs", "gbfs")
    is_mistaken(
        program, "-1 is unexpected; wanted is day FILE WHICH DATE ZONE", "day", "city.db", "entries", "-1", "UTC0"
    )
    is_mistaken(program, "7 is unexpected; wanted is history FILE [AFTER]", "history", "city.db", "1", "7")
    is_mistaken(program, "0 is unexpected; wanted is serve FILE --port P [--count N]", "serve", "city.db", "0")
    is_mistaken(program, "more is unexpected; wanted is init FILE", "init", "city.db", "more", *["word"] * 10_000)


def test_what_was_typed_is_shown_on_one_line(program):
    """Nothing of it is taken by a terminal as a command, and a long word is cut."""
    for text, shown in (
        ("st\x1b[31mart", r"st\u{1b}[31mart"), ("a\nb\r\tc", r"a\nb\r\tc"), ("\x7f\x9b2J", r"\u{7f}\u{9b}2J"),
        ("\u202egbfs", r"\u{202e}gbfs"),
        ("back\\slash", r"back\\slash"), ("it's \"it\"", "it's \"it\""), ("Zürich", "Zürich"), ("x" * 60, "x" * 60),
        ("y" * 100_000, "y" * 60 + ".."),
    ):
        is_mistaken(program, f"NAME is {shown}; wanted is {FEEDS}", "feed", "city.db", text)
        wanted = "init, check, raise, lines, feed, day, history, import or serve"
        is_mistaken(program, f"{shown} is no subcommand of bikeshare; wanted is {wanted}", text)


def test_words_that_are_not_utf_8(program):
    said = refused(program, "init", b"\xff")
    assert said == f"bikeshare: an argument isn't UTF-8; wanted is UTF-8\n{helped(program, '--help')}", said


# ---- Every word over a file that is refused, that others have tables in, or that isn't there


EVERY_WORD = [
    ["init", "city.db"], ["check", "city.db"], ["lines", "city.db"], ["feed", "city.db", "gbfs"], imports.IMPORT,
    ["feed", "city.db", "station_status", "--at", "0"], ["day", "city.db", "entries", "2023-11-14", "UTC0"],
    ["day", "city.db", "rentals", "2023-02-29", "UTC0"], ["history", "city.db"],
    ["serve", "city.db", "--port", "0", "--count", "1"],
]


@quickly
def test_no_word_serves_a_file_that_is_refused(program):
    """Each says of it what `check` says, reads nothing, and changes no byte."""
    city = adoption.made(program, "city.db").read_bytes()
    file = Path(program.folder, "city.db")
    for change, wanted in (
        ("UPDATE riders_4 SET balance = balance + 1 WHERE rider = 17", "unsound riders_4 17"),
        ("DELETE FROM meta", "unsound meta 1"),
        ("UPDATE history SET reply = 'no' WHERE req_key = 'k2'", "unsound history 3"),
        (adoption.AGAIN, "unsound history 38"),
        ("UPDATE meta SET app = 'other'", "foreign"),
        ("DROP TABLE docks", "foreign"), ("UPDATE meta SET version = 9", "newer 9"),
        ("UPDATE meta SET version = 1", "older 1"),
        ("UPDATE meta SET version = 2", "older 2"),
        ("UPDATE meta SET version = 3", "older 3"),
        ("UPDATE more_names SET id = 'zz' WHERE kind = 'region'", "unsound more_names region/zz/de"),
    ):
        file.write_bytes(city)
        changed(file, change)
        before = file.read_bytes()
        for words in EVERY_WORD:
            ended = program.run(*words, given=HEADER.encode() + b"c1,Canal,45,9.1,10\n")
            assert ended == (5, b"", wanted.encode() + b"\n"), (change, words, ended)
            assert file.read_bytes() == before, (change, words)


@quickly
def test_tables_of_others_stay(program):
    """A table of another name stays as it is, whatever the word."""
    file = adoption.made(program, "city.db")
    changed(file, "CREATE TABLE notes (note TEXT); INSERT INTO notes VALUES ('x'), (NULL), (7)")
    wanted = rows_of("SELECT * FROM notes", program.folder, "city.db")
    for words in EVERY_WORD[:-1]:
        program.run(
            *words,
            given=(
                b"1700009000\toffice\tn1\ttop-up\t17\t5\n"
                if words[0] == "lines"
                else (HEADER + "c1,Canal,45,9.1,10\n").encode()
            ),
        )
        assert rows_of("SELECT * FROM notes", program.folder, "city.db") == wanted, words
    with Server(program, 1) as server:
        assert server.ask(office("o1", "add-rider\t40")) == DONE
    assert rows_of("SELECT * FROM notes", program.folder, "city.db") == wanted
    is_sound(program)


@quickly
def test_files_that_are_not_there(program):
    """Words that may change a city make the tables first, also where nothing is taken."""
    for words, ended in (
        (["init", "city.db"], (0, b"ready\n", b"")), (["lines", "city.db"], (0, b"", b"")),
        (["import", "city.db", "spring"], (1, b"", b"bad header\n")),
    ):
        assert program.run(*words) == ended, words
        assert rows_of("SELECT * FROM meta", program.folder, "city.db") == [(1, "bikeshare", 4, 0, 0, 0)], words
        removed(program.folder, "city.db")


def test_numbers_among_the_words(program):
    """Numbers are spelled as in request lines."""
    ask(program, days.CITY)
    for text in "01", "+1", "-1", " 1", "1 ", "1.0", "1e3", "0x1", "", "١", "253402300800", "9" * 40:
        for word, *more in (
            ["feed", "gbfs", "--at", text], ["feed", "gbfs", f"--at={text}"], ["import", "spring", "--at", text]
        ):
            status, out, said = program.run(word, "city.db", *more, given=HEADER.encode())
            assert (status, out) == (2, b"") and tells_mistake(said), (word, more, status, out, said)
    for text in "0", "253402300799":
        assert program.run("feed", "city.db", "gbfs", f"--at={text}")[0] == 0, text


@quickly
def test_a_clock_without_a_moment(program):
    """Beyond the last moment the clock gives none. Only what asks it fails, and changes nothing."""
    ask(program, days.CITY)
    before = held(program.folder, "city.db")
    late, table = {"CLOCK": formats.LAST_MOMENT + 1}, (HEADER + "c1,Canal,45,9.1,10\n").encode()
    for words in ["feed", "city.db", "gbfs"], ["import", "city.db", "spring"]:
        assert faulty(program, words, table, **late) == READ_FAILED, words
    assert faulty_exchange(program, get("/riders/17"), **late) == READ_FAILED
    assert held(program.folder, "city.db") == before
    for word, *more in (
        ["check"], ["init"], ["lines"], ["day", "entries", "2023-11-14", "UTC0"], ["feed", "gbfs", "--at", imports.AT]
    ):
        assert faulty(program, [word, "city.db", *more], **late)[0] == 0, word
    assert faulty(program, imports.IMPORT, table, **late) == (0, b"rows 1\n", b"")
    assert faulty(program, ["feed", "city.db", "gbfs"], CLOCK=formats.LAST_MOMENT)[1].startswith(
        b'{"last_updated":"9999-12-31T23:59:59Z"'
    )
