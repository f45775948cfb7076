"""deploy/backup on a disk that a city shares with its copies: a copy that would take the city's room isn't begun, and
what was copied until the room was gone is removed. Where no disk of memory can be mounted a line says so.
"""

import os
import re
import shutil
from pathlib import Path

from operating import DEPLOY, stands_in, top_ups
from shared import Server, can_mount, city, disk, is_sound, ran

MIB = 1 << 20


def room(folder):
    found = os.statvfs(folder)
    return found.f_bavail * found.f_frsize


def backup(program, copy, **how):
    env = {**os.environ, "BIKESHARE": program.file, **how}
    return ran(DEPLOY / "backup", "city.db", copy, cwd=program.folder, env=env)


def test_a_copy_beside_a_city_without_room(program):
    """It is refused before anything is made or stopped, in one line; the city goes on, and the copy is made once there
    is room for it and 16 MiB more."""
    if not can_mount(program, "room_for_copies.test_a_copy_beside_a_city_without_room"):
        return
    here = Path(program.folder, "disk")
    here.mkdir()
    with disk(here, 20 * MIB):
        program.folder = str(here)
        city(program)
        with Server(program) as server:
            fill = here / "fill"
            for length in 19 * MIB, 4 * MIB:
                fill.write_bytes(bytes(length))
                before = room(here)
                status, said = backup(program, "copy.db")
                wanted = r"backup: there is no room: the disk of \S+ has \d+ bytes, and a copy beside it wants \d+\n"
                assert status == 1 and re.fullmatch(wanted, said), (status, said)
                assert room(here) == before and sorted(it.name for it in here.iterdir()) == [
                    "city.db", "city.db-wal", "fill"
                ], sorted(here.iterdir())
                # Nothing was stopped.
                assert top_ups(server, [length]) == [length]
            fill.write_bytes(bytes(2 * MIB))
            status, said = backup(program, "copy.db")
            assert status == 0 and re.fullmatch(r"stopped for \d+ ms\n", said), (status, said)
        is_sound(program, "copy.db")


def test_a_copy_for_which_room_runs_out(program):
    """Where the room is gone in the midst of it, what was copied is removed, and the line says so; on another disk
    too."""
    if not can_mount(program, "room_for_copies.test_a_copy_for_which_room_runs_out"):
        return
    city(program)
    here = Path(program.folder, "disk")
    here.mkdir()
    with disk(here, 64 * 1024):
        status, said = backup(program, "disk/copy.db")
        wanted = r"backup: .*No space left.* \(for want of room what was copied is removed\)\n"
        assert status == 1 and re.fullmatch(wanted, said), (status, said)
        assert list(here.iterdir()) == [] and room(here) >= 60 * 1024, list(here.iterdir())
    # On the city's own disk, which something else fills meanwhile, so that the program can't bring the log in.
    with disk(here, 20 * MIB):
        for it in Path(program.folder).glob("city.db*"):
            shutil.copy(it, here)
        fill = 'head -c 30000000 /dev/zero >fill 2>/dev/null; echo "store failed" >&2; exit 3'
        env = stands_in(Path(program.folder, "scripts"), bikeshare=f'[ "$1" != lines ] || {{ {fill}; }}')
        status, said = ran(DEPLOY / "backup", "city.db", "copy.db", cwd=here, env=env)
        assert status == 1 and said.endswith("(for want of room what was copied is removed)\n"), (status, said)
        assert sorted(it.name for it in here.iterdir() if "copy" in it.name) == [], sorted(here.iterdir())
