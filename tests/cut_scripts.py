"""Scripts of deploy/ that end too early, as where a disk lost their end: cut behind any line, none of them ends with
status 0 without having done its work. A file of the first line alone, which names the interpreter, is an empty script.
"""

import os
import subprocess
import tempfile
from pathlib import Path

from shared import CITY, TOP, accepted, at_once, nothing_is

DEPLOY = TOP / "deploy"
JOBS = 4


def cuts(name):
    """The bytes of a script up to each line's end, from the second on."""
    lines = (DEPLOY / name).read_bytes().splitlines(keepends=True)
    return [b"".join(lines[:count]) for count in range(2, len(lines) + 1)]


def tried(program, name, fronts, words, work):
    """Runs the fronts of a script, each in a folder of its own, and holds each that ends with 0 to its work."""
    accepted(program, CITY, key="f")
    city, env = Path(program.folder, "city.db").read_bytes(), {**os.environ, "BIKESHARE": program.file}

    def wrong(front):
        with tempfile.TemporaryDirectory(dir=program.folder) as folder:
            here = Path(folder)
            (here / "city.db").write_bytes(city)
            (here / "kept").mkdir()
            for it in DEPLOY.iterdir():
                (here / it.name).symlink_to(it)
            (here / name).unlink()
            (here / name).write_bytes(front)
            interpreter = front[2 : front.index(b"\n")].decode()
            words_of_it = [interpreter, here / name, *words]
            ran = subprocess.run(words_of_it, cwd=here, env=env, capture_output=True, timeout=30, check=False)
            lines = front.count(b"\n")
            if ran.returncode == 0:
                return None if work(here, ran.stdout) else f"{name}, {lines} lines: status 0 and no work"
            return None if not work(here, b"") else f"{name}, {lines} lines: {ran.returncode}, and all was done"

    found = at_once(wrong, fronts, JOBS)
    nothing_is([it for it in found if it])
    assert found, "nothing was tried"


def is_copy(file):
    return file.is_file() and file.stat().st_size > 4096


def test_backup(program):
    tried(program, "backup", cuts("backup"), ["city.db", "copy.db"], lambda here, _: is_copy(here / "copy.db"))


def test_keep_copies(program):
    def work(here, _):
        return any(is_copy(it) for it in (here / "kept").glob("city-*.db"))

    tried(program, "keep-copies", cuts("keep-copies"), ["city.db", "kept", "3"], work)


def test_bikeshare_doctor(program):
    """Of its thousands of lines the first ones, the last ones, and some between."""
    fronts = cuts("bikeshare-doctor")
    fronts = fronts[:25] + fronts[25:-12:120] + fronts[-12:]
    tried(program, "bikeshare-doctor", fronts, ["city.db"], lambda _, said: b"nothing found" in said)


def test_bikeshare_watch(program):
    """The first lines, the last ones, and some between, with the figures, whose status is 0."""
    fronts = cuts("bikeshare-watch")
    fronts = fronts[:25] + fronts[25:-12:40] + fronts[-12:]
    words = ["city", "--file", "city.db", "--state", "state", "--port", "1", "--prometheus"]
    tried(program, "bikeshare-watch", fronts, words, lambda _, said: said.count(b"bikeshare_point{") == 14)


def test_bikeshare_office(program):
    """Cut anywhere, it doesn't say that it found nothing in rows that it hasn't read."""
    Path(program.folder, "rows.txt").write_text("add-rider\tx\n", encoding="ascii")
    words = ["http://127.0.0.1:1", Path(program.folder, "rows.txt"), "--dry-run"]
    # What it finds has the status 1, so a status of 0 is never right.
    tried(program, "bikeshare-office", cuts("bikeshare-office")[:-1], words, lambda _, said: False)


def test_bikeshare_follow(program):
    """Cut anywhere, it doesn't say that it took all that there is, where nobody answers."""
    words = ["city.db", "http://127.0.0.1:1", "--once"]
    tried(program, "bikeshare-follow", cuts("bikeshare-follow")[:-1], words, lambda _, said: False)


def test_bikeshare_portal(program):
    """Cut anywhere, it doesn't say that all was made, where the program wasn't even there."""
    Path(program.folder, "office").mkdir()
    words = ["http://127.0.0.1:1", Path(program.folder, "office"), "published"]
    tried(program, "bikeshare-portal", cuts("bikeshare-portal")[:-1], words, lambda _, said: False)


def test_none_is_left_out(_):
    """Each script of deploy/ has its test here."""
    scripts = {it.name for it in DEPLOY.iterdir() if it.read_bytes().startswith(b"#!")}
    tests = {it.removeprefix("test_").replace("_", "-") for it in globals() if it.startswith("test_")}
    assert scripts == tests - {"none-is-left-out"}, scripts
