"""Limits that the system sets: a disk without room, the size of a file, a small stack, and how many files may be open.
The program ends by the status of docs/OPERATOR.md, section 12, or by the system's signal, and the list of requests goes
on where there is room.
"""

import resource
import signal

import adoption
from paths import goes_on
from shared import STORE_FAILED, is_sound

SECONDS = 30
ASKED, TOLD = adoption.asked(), adoption.told()


def limited(limit):
    """Under a limit of what a file may hold, a write past it fails as on a disk without room."""

    def begin():
        signal.signal(signal.SIGXFSZ, signal.SIG_IGN)
        resource.setrlimit(resource.RLIMIT_FSIZE, (limit, limit))

    return begin


def test_a_disk_without_room(program):
    """Wherever the room ends, the requests that were answered stand, at most one more, and the list goes on where there
    is room."""
    answers = TOLD.splitlines(keepends=True)
    ends = set()
    for limit in (
        0, 1, 41, 100, 4096, 5000, 40_000, 130_000, 262_144, 300_000, 400_000, 600_001, 999_999, 1_100_000, 4_000_000
    ):
        file = f"full{limit}.db"
        status, out, said = program.run(
            "lines", file, given=ASKED, timeout=SECONDS, preexec_fn=limited(limit), restore_signals=False
        )
        found = out.splitlines(keepends=True)
        # Where all is answered, FILE may have no room for what the log holds.
        right = (status, said) == (3, b"store failed\n") or ((status, said) == (0, b"") and found == answers)
        assert right and found == answers[: len(found)], (limit, status, out, said)
        ends.add(status)
        if found:
            is_sound(program, file)
        assert program.run("lines", file, given=ASKED) == (0, TOLD, b""), limit
        is_sound(program, file)
    assert ends == {0, 3}, ends


def test_a_limit_on_file_size_that_is_a_signal(program):
    """Where nobody ignores SIGXFSZ it ends the program with no line, and the list goes on as after a kill."""
    answers = TOLD.splitlines(keepends=True)
    ends = set()
    for limit in (100, 40_000, 300_000, 4_000_000):
        file = f"signal{limit}.db"
        limit_it = lambda limit=limit: resource.setrlimit(resource.RLIMIT_FSIZE, (limit, limit))
        status, out, said = program.run("lines", file, given=ASKED, timeout=SECONDS, preexec_fn=limit_it)
        assert (status, said) in ((-signal.SIGXFSZ, b""), (0, b"")), (limit, status, said)
        found = out.splitlines(keepends=True)
        assert found == answers[: len(found)] and (status or found == answers), (limit, out)
        ends.add(status)
        assert program.run("lines", file, given=ASKED) == (0, TOLD, b""), limit
        is_sound(program, file)
    assert ends == {0, -signal.SIGXFSZ}, ends


def test_a_small_stack(program):
    """One that can't grow ends the program by SIGSEGV with no line, and the list goes on as after a kill."""
    ends = set()
    for size in (65_536, 8_388_608):
        limit = lambda size=size: resource.setrlimit(resource.RLIMIT_STACK, (size, size))
        status, out, said = program.run("lines", f"stack{size}.db", given=ASKED, timeout=SECONDS, preexec_fn=limit)
        assert (status, said) in ((-signal.SIGSEGV, b""), (0, b"")), (size, status, said)
        ends.add(status)
        assert program.run("lines", f"stack{size}.db", given=ASKED) == (0, TOLD, b""), size
    assert ends == {0, -signal.SIGSEGV}, ends


def test_few_files_may_be_open(program):
    # With fewer the system could not load the program.
    for count in (4,):
        limit = lambda: resource.setrlimit(resource.RLIMIT_NOFILE, (count, count))
        ended = program.run("lines", "city.db", given=ASKED, timeout=SECONDS, preexec_fn=limit)
        assert ended == STORE_FAILED, (count, ended)
    goes_on(program)
