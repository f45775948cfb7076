"""The database file that the program makes where there is none: the length of its pages, and what a stop leaves while
it is made."""

import os
from pathlib import Path

from shared import HEADER, TOP, at_once, copied, is_sound, is_whole

TOUR = TOP / "docs/tour.txt"


def page_size(program, name="city.db"):
    """How long a page of the file is, as its header tells; SQLite's own test of the file finds nothing."""
    data = Path(program.folder, name).read_bytes()
    assert data[:16] == b"SQLite format 3\0", data[:16]
    with copied(program.folder, name) as base:
        is_whole(base)
    return int.from_bytes(data[16:18], "big")


def names(program):
    return sorted(it.name for it in Path(program.folder).iterdir() if not it.name.endswith(("-wal", "-shm")))


def serves(program):
    """The tour is served, and the file is sound after it."""
    status, out, said = program.run("lines", "city.db", given=TOUR.read_bytes())
    assert (status, said) == (0, b""), (status, said)
    is_sound(program)
    return out


def test_new_file(program):
    for word, *more in ["init"], ["lines"], ["import", "spring"]:
        name = f"{word}.db"
        status, _, said = program.run(word, name, *more, given=HEADER.encode() if more else b"")
        assert (status, said) == (0, b""), (word, status, said)
        assert page_size(program, name) == 2048, word
    assert names(program) == ["import.db", "init.db", "lines.db"], names(program)
    assert os.stat(Path(program.folder, "init.db")).st_nlink == 1
    assert serves(program).startswith(b"ok\n")
    assert page_size(program) == 2048


def test_who_may_use_a_new_file(program):
    """Its owner may read and write it, and others may read it where the process doesn't forbid that; so its log."""
    for umask, wanted in (0, 0o644), (0o022, 0o644), (0o027, 0o640), (0o077, 0o600):
        for word, *more in ["init"], ["lines"], ["import", "spring"]:
            name = f"{word}{umask:o}.db"
            status, _, said = program.run(word, name, *more, given=HEADER.encode() if more else b"", umask=umask)
            assert (status, said) == (0, b""), (word, status, said)
            for part in Path(program.folder).glob(f"{name}*"):
                found = part.stat().st_mode & 0o777
                assert found == wanted, f"umask {umask:o}, {part.name}: {found:o}, not {wanted:o}"


def test_stop_before_the_first_name_goes(program):
    """Both names stand there: the next start takes the first one away, whatever its word, and goes on."""
    serves(program)
    city, made = Path(program.folder, "city.db"), Path(program.folder, "city.db-new")
    for words in (["check"], ["init"], ["lines"], ["feed", "system_information", "--at", "1700003000"]):
        os.link(city, made)
        status, _, said = program.run(words[0], "city.db", *words[1:])
        assert (status, said) == (0, b""), (words, status, said)
        assert not made.exists(), words
    is_sound(program)


def test_name_that_a_stop_left(program):
    """A part of a page under the first name stays as it is, and the engine makes the file."""
    left = Path(program.folder, "city.db-new")
    left.write_bytes(b"SQLite form")
    serves(program)
    assert left.read_bytes() == b"SQLite form", left.read_bytes()
    assert page_size(program) == 4096, page_size(program)
    # it is another file than the database, so no later start takes it away
    is_sound(program)
    assert left.exists()


def test_log_without_its_file(program):
    """Where a log stands without its file nothing is made before the engine opens both."""
    Path(program.folder, "city.db-wal").write_bytes(b"")
    serves(program)
    assert page_size(program) == 4096


def test_folder_that_is_not_there(program):
    status, out, said = program.run("init", "none/city.db")
    assert (status, out) == (3, b"") and said, (status, out, said)
    assert names(program) == []


def test_many_starts_at_once(program):
    """Of programs that make one file at once each ends well or finds it taken, and the file is sound. One may begin
    when another has ended, so the lines are those that are accepted: they are answered as before."""
    given = b"".join(TOUR.read_bytes().splitlines(True)[:12])
    for turn in range(5):
        name = f"city{turn}.db"
        ends = at_once(lambda _, name=name: program.run("lines", name, given=given), range(6), 6)
        served = [out for status, out, _ in ends if status == 0]
        assert served and len(set(served)) == 1, ends
        assert all(status in (0, 3) for status, _, _ in ends), ends
        is_sound(program, name)
        assert names(program) == [f"city{it}.db" for it in range(turn + 1)], names(program)
