"""deploy/bikeshare-doctor where FILE or its log isn't where it was: behind a link, moved while it is served, beside a
journal of sqlite3, or with a damaged head that only the log has whole."""

import itertools
import shutil
import sqlite3
import subprocess
from pathlib import Path

from doctor import city_file, doctor, looked_at, told
from shared import CITY, SOUND, STORE_FAILED, Server, held, killed, put, requests_of, taken

MORE = requests_of(["add-region\tnew\tNew"], first=900, key="m")


def killed_city(program, name="city.db"):
    """A city whose newest request only its log has, and what it holds."""
    city = city_file(program, name)
    assert killed(program, MORE, name).endswith(b"\n")
    return city, held(city)


def test_a_log_beside_a_link(program):
    """It isn't read, and so the program refuses the city until it is moved beside FILE."""
    city, whole = killed_city(program)
    (city.parent / "big").mkdir()
    real = city.parent / "big/city.db"
    city.rename(real)
    city.symlink_to(real)
    assert program.run("check", "city.db") == STORE_FAILED and held(real) != whole
    found = looked_at(city)
    assert [(it.where, it.word) for it in found] == [(f"{city}-wal", "store failed")], found
    command = f"mv {city}-wal {real}-wal"
    assert command in found[0].text, found
    # So it is where another link leads to that one.
    (city.parent / "first.db").symlink_to("city.db")
    assert [it.where for it in looked_at(city.parent / "first.db")] == [f"{city}-wal"]
    # With a log at both places neither is to be moved over the other.
    shutil.copy(f"{city}-wal", f"{real}-wal")
    found = looked_at(city)
    assert found[0].where == f"{city}-wal" and "is there too" in found[0].text and "mv " not in found[0].text, found
    Path(f"{real}-wal").unlink()
    subprocess.run(command.split(), check=True)
    assert looked_at(city) == [] and program.run("check", "city.db") == SOUND and held(real) == whole


def test_a_new_file_beside_a_journal(program):
    """Words that make a FILE leave a page beside the journal of the right one. Nothing is to be taken back in that."""
    city, folder = city_file(program), Path(program.folder)
    whole = held(city)
    base = sqlite3.connect(city, isolation_level=None)
    base.executescript("PRAGMA journal_mode = DELETE; PRAGMA cache_size = 1; BEGIN IMMEDIATE; CREATE TABLE z (a)")
    for _ in range(50):
        base.execute("INSERT INTO z VALUES (?)", ("x" * 3000,))
    parts = {it: Path(f"{city}{it}").read_bytes() for it in ("", "-journal")}
    base.close()
    for word in "init", "lines":
        put({"-journal": parts["-journal"]}, city)
        assert program.run(word, "city.db") == STORE_FAILED and city.stat().st_size == 2048, word
        (found,) = looked_at(city)
        assert found.word == "store failed" and "move this FILE away, and put the right one" in found.text, found
        assert "PRAGMA quick_check" not in found.text, found
    # The right one is put back by what is advised now, and taken back by what is advised then.
    (folder / "city.db").write_bytes(parts[""])
    (found,) = looked_at(city)
    assert f"sqlite3 {city} 'PRAGMA quick_check'" in found.text, found
    with sqlite3.connect(city) as base:
        assert base.execute("PRAGMA quick_check").fetchall() == [("ok",)]
    base.close()
    assert looked_at(city) == [] and held(city) == whole


def test_a_file_moved_while_it_is_served(program):
    """Its service is told as this city's own, which is to be ended, by whatever path it was called, with its port and
    without."""
    folder = Path(program.folder)
    city = city_file(program)
    other = city_file(program, "other.db")
    (folder / "kept").mkdir()
    with Server(program, seconds=60) as server:
        for it in list(folder.glob("city.db*")):
            it.rename(folder / "kept" / it.name)
        for is_copied in False, True:
            if is_copied:
                shutil.copy(folder / "kept/city.db", city)
            for name, port in itertools.product(("city.db", city), ([], ["--port", server.port])):
                status, lines = told(name, *port, cwd=folder)
                assert status == 1 and len(lines) == (2 if port else 1), lines
                assert lines[0].startswith(f"{name}: moved: process {server.child.pid} ("), lines
                assert "That is this city's own service. Its file was moved" in lines[-1] or not port, lines
                for line in lines:
                    assert f"it has {folder}/kept/city.db open." in line and "End it before" in line, line
                    assert "another port." not in line, line
        # What was called with another FILE is another city's.
        status, lines = told(other, "--port", server.port, cwd=folder)
        assert f"That is another city ({folder}/kept/city.db): give this one another port." in lines[-1], lines
        assert told(other, cwd=folder)[0] == 0 and "has it open" in told("kept/city.db", cwd=folder)[1][0]
        # Where the moved one goes too, only the service still has it.
        shutil.rmtree(folder / "kept")
        (found,) = looked_at(city)
        assert found.word == "removed" and f"cp /proc/{server.child.pid}/fd/" in found.text, found


def test_a_folder_moved_while_it_is_served(program):
    """So it is told where the folder was renamed, or a link to FILE leads to another one now."""
    folder = Path(program.folder)
    (folder / "first").mkdir()
    city, link, other = city_file(program, "first/city.db"), folder / "link.db", city_file(program, "other.db")
    with Server(program, file=str(city), seconds=60) as server:
        city.parent.rename(folder / "second")
        (found,) = doctor.findings_of_file(str(city))
        assert found.word == "moved" and f"process {server.child.pid} (" in found.text, found
        assert f"it has {folder}/second/city.db open." in found.text, found
    assert "there is no folder" in doctor.findings_of_file(str(city))[0].text
    link.symlink_to("second/city.db")
    with Server(program, file="link.db", seconds=60):
        assert [it.word for it in looked_at(link)] == ["store failed"], looked_at(link)
        link.unlink()
        link.symlink_to("other.db")
        (found,) = looked_at(link)
        assert found.word == "moved" and f"it has {folder}/second/city.db open." in found.text, found
        # Of the one to which the link leads now nothing is wrong.
        assert f"and not in {link}." in found.text and looked_at(other) == [], found
    assert looked_at(link) == []
    # So it is where lines has the file.
    with program.started("lines", "other.db", stdin=subprocess.PIPE) as running:
        running.stdin.write(MORE)
        running.stdin.flush()
        assert running.stdout.readline()
        for it in list(folder.glob("other.db*")):
            it.rename(folder / f"moved{it.name.removeprefix('other')}")
        (found,) = looked_at(other)
        assert found.word == "moved" and f"it has {folder}/moved.db open." in found.text, found


def test_a_damaged_head_that_the_log_has(program):
    """Where the program takes FILE with its log, nothing is to be restored, and what is advised heals FILE. Where it
    doesn't, the log is to be kept."""
    city = Path(program.folder, "city.db")
    assert killed(program, requests_of(CITY) + MORE).count(b"\n") == len(CITY) + 1
    parts, whole = taken(city), held(city)
    main = parts[""]
    fronts = bytes(16), b"X", bytes(100), bytes(len(main)), b"Dear all,\n" * 30, main[:16] + b"\0\0", main[:20] + b"\5"
    for front in fronts:
        put({**parts, "": front + main[len(front) :]}, city)
        found = looked_at(city)
        assert [it.word for it in found] == ["a damaged head"], (front[:20], found)
        assert found[0].text.endswith(f": bikeshare lines {city} < /dev/null"), found
        assert "restore a copy" not in found[0].text.lower(), found
        assert program.run("check", "city.db") == SOUND
        assert program.run("lines", "city.db") == (0, b"", b"")
        assert looked_at(city) == [] and held(city) == whole, front[:20]
    # A log without the first page heals nothing.
    program.run("lines", "city.db")
    assert killed(program, requests_of(["add-region\tlast\tLast"], key="l")).count(b"\n") == 1
    with open(city, "r+b") as opened:
        opened.write(bytes(16))
    assert program.run("check", "city.db") == STORE_FAILED
    (found,) = looked_at(city)
    assert found.word == "store failed" and "Keep its log too" in found.text, found
