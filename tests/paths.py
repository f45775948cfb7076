"""Paths at which the program can't have its database: where none can be, where one may not be written, where a second
program has it, and a file that is removed while it serves.

Wanted are the one line on standard error and the exit status of docs/OPERATOR.md, section 12, and then a file that is
as it was.
"""

import os
import shutil
import socket
from pathlib import Path

import adoption
from shared import DONE, STORE_FAILED, Program, Server, get, is_sound, office, told_with

SECONDS = 30
ASKED, TOLD = adoption.asked(), adoption.told()
WORDS = [
    ["init", "city.db"],
    ["check", "city.db"],
    ["lines", "city.db"],
    ["feed", "city.db", "gbfs"],
    ["serve", "city.db", "--port", "0", "--count", "1"],
]


def goes_on(program, file="city.db"):
    """The file is sound if it is there, and the list of requests has its answers whatever it had before."""
    if Path(program.folder, file).exists():
        is_sound(program, file)
    ended = program.run("lines", file, given=ASKED)
    assert ended == (0, TOLD, b""), ended
    is_sound(program, file)


def each_word(program, file, wanted, **how):
    for word, _, *words in WORDS:
        ended = program.run(word, file, *words, given=ASKED, timeout=SECONDS, **how)
        assert ended == wanted, (word, file, ended)


def test_paths_where_no_database_can_be(program):
    here = Path(program.folder)
    (here / "folder").mkdir()
    (here / "text").write_bytes(b"no folder\n")
    (here / "loop").symlink_to("loop")
    (here / "dangling").symlink_to("no/such/folder/city.db")
    with socket.socket(socket.AF_UNIX) as listening:
        listening.bind(str(here / "socket"))
        for file in (
            "no/city.db", "folder", "folder/", ".", "/", "", "text/city.db", "city.db/", "loop", "dangling", "socket",
            "n" * 256, "n/" * 3000 + "city.db", "/proc/version", "/proc/self/mem", "/dev/full",
        ):
            each_word(program, file, STORE_FAILED)
    left = sorted(
        it.name for it in here.iterdir() if not it.name.startswith(("folder", "text", "loop", "dangling", "socket"))
    )
    assert not left, left
    assert not list((here / "folder").iterdir()), list((here / "folder").iterdir())


def test_a_link_is_its_file(program):
    """The log stands beside one of both; a link may be used in place of its file."""
    goes_on(program)
    folder = Path(program.folder, "elsewhere")
    folder.mkdir()
    (folder / "link.db").symlink_to("../city.db")
    ended = program.run("lines", "elsewhere/link.db", given=b"1700005000\toffice\tlinked\ttop-up\t18\t5\n")
    assert ended == (0, b"balance\t1005\n", b""), ended
    ended = program.run("lines", "city.db", given=b"1700005000\toffice\tlinked\ttop-up\t18\t5\n")
    assert ended == (0, b"balance\t1005\n", b""), ended
    goes_on(program)


def as_nobody(program):
    """How to run as a user who isn't root: for root, files may always be written."""
    if os.geteuid():
        return program, {}
    copy = Path(program.folder, "bikeshare")
    shutil.copy(program.file, copy)
    copy.chmod(0o755)
    os.chmod(program.folder, 0o755)
    return Program(str(copy), program.folder), {"user": 65534, "group": 65534, "extra_groups": []}


def test_files_that_may_not_be_written(program):
    goes_on(program)
    other, how = as_nobody(program)
    here = Path(program.folder)
    locked = here / "locked"
    locked.mkdir()
    for part in here.glob("city.db*"):
        shutil.move(part, locked)
    parts = {it: it.read_bytes() for it in locked.iterdir()}
    try:
        for at_files, at_folder in (0o444, 0o777), (0o444, 0o555), (0o000, 0o777), (0o666, 0o000):
            for part in parts:
                part.chmod(at_files)
            locked.chmod(at_folder)
            with told_with(f"{at_files:o} {at_folder:o}"):
                each_word(other, "locked/city.db", STORE_FAILED, **how)
    finally:
        locked.chmod(0o755)
        for part in parts:
            part.chmod(0o644)
    assert {it: it.read_bytes() for it in locked.iterdir()} == parts


def test_a_file_that_is_removed_while_it_serves(program):
    """What is answered then is nowhere, as RELIABILITY says; the next word begins anew."""
    goes_on(program)
    with Server(program) as server:
        for file in Path(program.folder).glob("city.db*"):
            file.unlink()
        assert server.ask(office("late", "add-rider\t9001")) == DONE
    assert program.run("check", "city.db") == STORE_FAILED
    goes_on(program)


def test_a_name_that_is_too_long(program):
    """The log's name has to fit too."""
    each_word(program, "c" * 252, STORE_FAILED)


def test_a_second_program_on_one_file(program):
    """Only one program at a time may have the file open; the second one says so and changes nothing."""
    goes_on(program)
    with Server(program, 1) as server:
        each_word(program, "city.db", STORE_FAILED)
        server.ask(get("/riders/17"))
    goes_on(program)
