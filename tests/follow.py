"""deploy/bikeshare-follow over servers of the tests that have a made-up history: the order in which it takes requests,
how it waits, where it ends, what is left by signals, and that a copy has one follower. Behind these a city that the
program serves, with kills of either side.

Where the program isn't there that answers to `lines`, this file stands in for it: it knows riders and top-ups alone.
BIKESHARE_FOLLOW is how many kills there are (12).
"""

import collections
import contextlib
import http.client
import http.server
import json
import os
import random
import re
import signal
import socket
import sqlite3
import subprocess
import sys
import threading
import time
from pathlib import Path

import raising
import tampered
from operating import TOKENS, Gateway
from package import sections_of
from shared import (
    HISTORY, READY, SOUND, TOP, Server, can_mount, disk, free_port, is_sound, line_of, loaded, needs, put, ran, removed,
    taken,
)

SCRIPT = TOP / "deploy/bikeshare-follow"
PAGE, COMPLETION = TOP / "deploy/bikeshare-follow.1", TOP / "deploy/bikeshare-follow.bash"
SECONDS, KILLS, BEGUN = 30, int(os.environ.get("BIKESHARE_FOLLOW", "12")), 1700000000
Row = collections.namedtuple("Row", "number moment caller key command reply")
Ended = collections.namedtuple("Ended", "status lines said")


# ---- What stands in for the program


class Riders:
    """Riders and their balances, as the rules have them."""

    def __init__(self):
        self.balances, self.kept = {}, {}

    def answer(self, caller, key, command):
        """The reply, and whether the request is added to the history."""
        if (caller, key) in self.kept:
            before, reply = self.kept[caller, key]
            return (reply if before == command else "refused\t33\tkey_reused"), False
        word, *fields = command.split("\t")
        rider, *amount = map(int, fields)
        if word == "add-rider" and rider in self.balances:
            return "refused\t10\talready_there", False
        if word == "top-up" and rider not in self.balances:
            return "refused\t4\tunknown_rider", False
        self.balances[rider] = self.balances.get(rider, 0) + sum(amount)
        reply = "ok" if word == "add-rider" else f"balance\t{self.balances[rider]}"
        self.kept[caller, key] = command, reply
        return reply, True


def stands_in(file):
    """Answers lines over a file whose history alone counts. STANDS_IN has it end, as by `3 5 unsound bikes 7` at the
    third line with status 5, or before the first by a 0, or answer a line wrongly, as `3 wrong`."""
    count, how, *said = os.environ.get("STANDS_IN", "0").split(" ", 2) + ["", ""]
    if count == "0" and how:
        print(said[0], file=sys.stderr)
        return int(how)
    base = sqlite3.connect(file, isolation_level=None, timeout=0)
    try:
        base.executescript("PRAGMA locking_mode = EXCLUSIVE; PRAGMA journal_mode = WAL; BEGIN IMMEDIATE; COMMIT")
    except sqlite3.Error:
        print("store failed", file=sys.stderr)
        return 3
    riders, last = Riders(), 0
    for last, *_, caller, key, command, _ in base.execute("SELECT * FROM history ORDER BY number"):
        riders.answer(caller, key, command)
    for at, line in enumerate(sys.stdin, 1):
        moment, caller, key, command = line.rstrip("\n").split("\t", 3)
        reply, is_added = riders.answer(caller, key, command)
        if at == int(count) and how != "wrong":
            print(said[0], file=sys.stderr)
            os._exit(int(how))
        if is_added:
            last += 1
            base.execute("INSERT INTO history VALUES (?, ?, ?, ?, ?, ?)", (last, moment, caller, key, command, reply))
        print("other" if at == int(count) else reply, flush=True)
    base.execute("PRAGMA wal_checkpoint(TRUNCATE)")
    base.close()
    return 0


def is_built(program):
    """Whether the program is the one that answers to lines."""
    return program.run("init", "probe.db") == READY


class Place:
    """A folder with copies, and the program that takes lines there."""

    def __init__(self, program, stands=False):
        self.folder, self.file = Path(program.folder), program.file
        if stands or not is_built(program):
            self.file = self.folder / "stands-in"
            self.file.write_text(f'#!/bin/sh\nexec {sys.executable} {__file__} "$@"\n', encoding="utf-8")
            self.file.chmod(0o755)
            self.is_real = False
        else:
            self.is_real = True

    def begin(self, rows, name="copy.db"):
        """Makes a copy that has these requests."""
        if self.is_real:
            given = "".join("\t".join(map(str, it[1:5])) + "\n" for it in rows)
            words = [self.file, "lines", name]
            done = subprocess.run(words, cwd=self.folder, input=given.encode(), capture_output=True, check=False)
            assert done.returncode == 0 and done.stdout.count(b"\n") == len(rows), done
            return
        with contextlib.closing(sqlite3.connect(self.folder / name)) as base, base:
            base.execute(HISTORY)
            base.executemany("INSERT INTO history VALUES (?, ?, ?, ?, ?, ?)", rows)

    def rows(self, name="copy.db"):
        """The history of a copy, read of the file alone."""
        assert not log_of(self.folder / name), "its log has something"
        address = f"file:{self.folder / name}?immutable=1"
        with contextlib.closing(sqlite3.connect(address, uri=True)) as base:
            return [Row(*it) for it in base.execute("SELECT * FROM history ORDER BY number")]

    def words(self, url, *words, name="copy.db", script=SCRIPT):
        return [str(it) for it in (sys.executable, script, name, url, "--every", "0.05", *words)]

    def env(self, **env):
        return {**os.environ, "BIKESHARE": str(self.file), **env}

    def follow(self, url, *words, name="copy.db", script=SCRIPT, **env):
        """Follows until it ends by itself: its status, its lines and what it says of its end."""
        how = {"cwd": self.folder, "env": self.env(**env), "capture_output": True, "text": True, "timeout": SECONDS}
        done = subprocess.run(self.words(url, *words, name=name, script=script), check=False, **how)
        return Ended(done.returncode, done.stdout.splitlines(), done.stderr.splitlines())

    @contextlib.contextmanager
    def following(self, url, *words, name="copy.db", **env):
        """A follower that runs, and is stopped where it still does."""
        how = {"cwd": self.folder, "env": self.env(**env), "stdout": subprocess.PIPE, "stderr": subprocess.PIPE}
        with subprocess.Popen(self.words(url, *words, name=name), **how) as child:
            try:
                yield child
            finally:
                if child.poll() is None:
                    stopped(child)


def log_of(file):
    """How long the log of a file is, where it may hold a request: a shorter one has no frame."""
    log = Path(f"{file}-wal")
    return log.stat().st_size if log.exists() and log.stat().st_size >= 568 else 0


def stopped(child, by=signal.SIGTERM):
    """Ends a follower by a signal: its status, and what it said."""
    child.send_signal(by)
    out, said = child.communicate(timeout=SECONDS)
    return Ended(child.returncode, out.decode().splitlines(), said.decode().splitlines())


# ---- What stands in for the city


def made(count, riders=5):
    """A history: some riders, who are topped up again and again, by persons of the office."""
    rules, rows = Riders(), []
    for number in range(1, count + 1):
        command = f"add-rider\t{number}" if number <= riders else f"top-up\t{number % riders + 1}\t{number}"
        caller = ("office", "office:anna", "office:till-2")[number % 3]
        reply, _ = rules.answer(caller, f"k{number}", command)
        rows.append(Row(number, BEGUN + number // 7, caller, f"k{number}", command, reply))
    return rows


def body_of(rows, number):
    """A page as the program writes it."""
    page = [it for it in rows if it.number > number][:64]
    told = [
        {**it._asdict(), "moment": time.strftime("%Y-%m-%dT%H:%M:%SZ", time.gmtime(it.moment))} for it in page
    ]
    return json.dumps({"requests": told}, ensure_ascii=False, separators=(",", ":"))


class City:
    """A server that has this history. What stands in `faults` is answered first, each once: a status, a body, and
    further fields; or None, at which it closes the connection."""

    def __init__(self, rows, port=0):
        self.rows, self.faults, self.asked = rows, [], []
        city = self

        class Handler(http.server.BaseHTTPRequestHandler):
            def do_GET(self):
                city.asked.append((self.command, self.path, self.headers["Authorization"]))
                found = city.faults.pop(0) if city.faults else (200, None, {})
                if found is None:
                    return
                status, text, fields = found
                text = body_of(city.rows, int(self.path.rsplit("/", 1)[1])) if text is None else text
                data = text.encode()
                self.send_response(status)
                for name, value in {"Content-Length": str(len(data)), **fields}.items():
                    self.send_header(name, value)
                with contextlib.suppress(BrokenPipeError, ConnectionResetError):
                    self.end_headers()
                    self.wfile.write(data)

            do_POST = do_PUT = do_DELETE = do_HEAD = do_GET

            def log_message(self, *_):
                pass

        self.server = http.server.ThreadingHTTPServer(("127.0.0.1", port), Handler)
        self.url = f"http://127.0.0.1:{self.server.server_address[1]}"

    def __enter__(self):
        self.thread = threading.Thread(target=self.server.serve_forever, kwargs={"poll_interval": 0.02})
        self.thread.start()
        return self

    def __exit__(self, *_):
        self.server.shutdown()
        self.thread.join()
        self.server.server_close()


def until(holds, seconds=SECONDS):
    """Waits until something holds."""
    end = time.monotonic() + seconds
    while not holds():
        assert time.monotonic() < end, "it didn't come"
        time.sleep(0.02)


# ---- Tests


def test_all_requests_in_their_order(program):
    """It takes what COPY hasn't, page by page, and then what comes, asks by GET alone, and ends at a signal with COPY
    whole by itself."""
    place, rows = Place(program), made(300)
    place.begin(rows[:20])
    with City(rows[:200]) as city:
        with place.following(city.url) as child:
            assert line_of(child) == b"follows after request 20\n"
            until(lambda: any(path == "/history/199" for _, path, _ in city.asked))
            city.rows = rows
            until(lambda: city.asked[-1][1] == "/history/299")
            ended = stopped(child)
        assert ended == (0, ["ended after request 300"], []), ended
        paths = [int(path.removeprefix("/history/")) for _, path, _ in city.asked]
        assert {method for method, *_ in city.asked} == {"GET"}, city.asked
        # Each page begins with the last request that COPY has, so a full one has 63 new ones.
        assert sorted(set(paths)) == [19, 82, 145, 199, 262, 299], paths
    assert place.rows() == rows
    # What is there already is not taken again, nor is anything of no new page.
    with City(rows) as city:
        assert place.follow(city.url, "--once") == (0, ["follows after request 300", "ended after request 300"], [])
        assert [path for _, path, _ in city.asked] == ["/history/299"], city.asked
    assert place.rows() == rows


def test_how_often_it_asks(program):
    """Pages that are full follow at once, others after a second; a signal ends that pause at once."""
    place, rows = Place(program), made(400)
    place.begin([])
    with City(rows) as city:
        with place.following(city.url, "--every", "60") as child:
            until(lambda: city.asked and city.asked[-1][1] == "/history/378")
            time.sleep(1)
            since = time.monotonic()
            assert stopped(child).status == 0 and time.monotonic() - since < 10
        assert place.rows() == rows and len(city.asked) == 7, city.asked
        city.asked.clear()
        with place.following(city.url, "--every", "1") as child:
            until(lambda: city.asked)
            time.sleep(3)
            assert stopped(child).status == 0
        assert 2 <= len(city.asked) <= 5, city.asked


def test_from_the_first_request(program):
    """A copy without a request begins with the first one."""
    place, rows = Place(program), made(65)
    place.begin([])
    with City([]) as city:
        assert place.follow(city.url, "--once") == (0, ["follows after request 0", "ended after request 0"], [])
        city.rows = rows[:1]
        assert place.follow(city.url, "--once").status == 0 and place.rows() == rows[:1]
        city.rows = rows
        assert place.follow(city.url, "--once").status == 0 and place.rows() == rows
        assert [path for _, path, _ in city.asked] == ["/history/0"] * 3 + ["/history/63"], city.asked


CUT = body_of(made(64), 0)
NO_PAGES = [
    CUT[:-1], CUT[: len(CUT) // 2], "", "[]", "{}", '{"requests":7}', '{"requests":[7]}', '{"requests":[{}]}',
    CUT.replace('"number":1,', '"number":"1",'), CUT.replace('"number":1,', '"number":true,'),
    CUT.replace("2023-11-14T22:13:20Z", "2023-13-14T22:13:20Z"), CUT.replace("2023-11-14T22:13:20Z", "1700000000"),
    CUT.replace('"key":"k1"', '"key":"k\\t1"'), CUT.replace("add-rider\\t1\"", "add-rider\\t1\\n7\""),
    CUT.replace('"caller":"office"', '"caller":""'), CUT.replace('"reply":"ok"', '"reply":"\\ud800"'),
    CUT.replace('"reply":"ok"', '"reply":null'), "<html>", "[" * 100_000,
]


def test_it_waits(program):
    """Where the other machine isn't there, answers with an error, or with what is no page, it says so once for each
    state, sends the same again, and goes on."""
    place, rows = Place(program), made(100)
    place.begin([])
    port = free_port()
    with place.following(f"http://127.0.0.1:{port}") as child:
        assert line_of(child).startswith(b"no answer ([Errno 111] Connection refused): waiting, after request 0")
        time.sleep(0.3)
        with City(rows[:70], port) as city:
            city.faults = [
                (503, "{}", {}), (503, "{}", {}), (502, "{}", {}), (429, "{}", {"Retry-After": "1"}), (401, "{}", {}),
                (403, "{}", {}), (404, "{}", {}), (301, "", {"Location": "/"}), None,
                (200, "{}", {"Content-Length": "9"}), (200, None, {}), (503, "{}", {}),
                (200, CUT, {"Content-Length": str(len(CUT) + 1)}), (200, CUT[:-9], {"Content-Length": str(len(CUT))}),
            ]
            until(lambda: city.asked and city.asked[-1][1] == "/history/69")
            assert not city.faults, city.faults
            city.rows = rows
            until(lambda: city.asked[-1][1] == "/history/99")
        ended = stopped(child)
    told = [re.match(r"(?:answered (\d+)|(no answer|follows|the answer is no page|ended))", it) for it in ended.lines]
    assert all(told), ended
    assert [it[1] or it[2] for it in told if it[2] != "no answer"] == [
        "503", "502", "429", "401", "403", "404", "301", "the answer is no page", "follows", "503",
        "the answer is no page", "follows", "ended",
    ], ended
    assert (ended.status, ended.said) == (0, []) and "(the token isn't known there): waiting" in ended.lines[3], ended
    assert place.rows() == rows
    # None of these is taken for a page.
    with City(rows) as city:
        place.begin([], "other.db")
        city.faults = [(200, text, {}) for text in NO_PAGES]
        with place.following(city.url, name="other.db") as child:
            until(lambda: city.asked[-1:] and city.asked[-1][1] == "/history/99")
            ended = stopped(child)
    assert ended == (0, [
        "the answer is no page of a history, or is cut short: waiting, after request 0", "follows after request 0",
        "ended after request 100",
    ], []), ended
    assert not city.faults and place.rows("other.db") == rows


def test_a_machine_that_hangs(program):
    """It waits for an answer as long as it says, and goes on."""
    place, rows = Place(program), made(10)
    place.begin(rows[:3])
    text = SCRIPT.read_text(encoding="utf-8").replace("PATIENCE, LONGEST_PAUSE = 10,", "PATIENCE, LONGEST_PAUSE = 1,")
    (place.folder / "hasty").write_text(text, encoding="utf-8")
    with City(rows) as city:
        city.faults = [(200, None, {"Content-Length": "90000"})]
        found = place.follow(city.url, "--once", script=place.folder / "hasty")
        assert found.status == 1 and "cut short" in found.said[0], found
    with socket.create_server(("127.0.0.1", 0)) as silent:
        url = f"http://127.0.0.1:{silent.getsockname()[1]}"
        found = place.follow(url, "--once", script=place.folder / "hasty")
        assert found == (1, [], ["copy.db: no answer (timed out), after request 3"]), found
        # A signal ends the waiting at once.
        with place.following(url) as child:
            time.sleep(1)
            since = time.monotonic()
            assert stopped(child) == (0, ["ended after request 3"], []) and time.monotonic() - since < 5
    assert place.rows() == rows[:3]


def test_where_it_ends(program):
    """Another reply, a number that doesn't follow, a begin that is gone, a city that was set back, another city: a line
    and the status say so, and COPY has what came before, whole by itself."""
    place, rows = Place(program), made(100)
    changed = rows[49]._replace(reply="balance\t7")
    other = rows[29]._replace(key="another")
    for at, (there, status, said, left) in enumerate([
        ([*rows[:49], changed, *rows[50:]], 5, f"request 50 is answered {{}} here, and was balance⇥7 there", 50),
        ([*rows[:60], *rows[61:]], 6, "the history there has a gap: request 62 follows 60", 60),
        ([*rows[:60], *rows[59:]], 6, "the history there has a gap: request 60 follows 60", 60),
        (rows[40:], 6, "the history there begins with 41, behind 30, the last here", 30),
        (rows[30:], 6, "the history there begins with 31, behind 30, the last here", 30),
        (rows[:20], 6, "the history there ends before request 30, the last one here", 30),
        ([*rows[:29], other, *rows[30:]], 6, "request 30, the last one here, is another there", 30),
    ]):
        name = f"copy{at}.db"
        place.begin(rows[:30], name)
        with City(there) as city:
            ended = place.follow(city.url, name=name)
        said = said.format(rows[49].reply.replace("\t", "⇥"))
        assert ended == (status, ["follows after request 30"], [f"{name}: {said}"]), ended
        assert place.rows(name) == rows[:left], (name, len(place.rows(name)))
    place.begin([], "empty.db")
    with City(rows[5:]) as city:
        ended = place.follow(city.url, name="empty.db")
    assert ended[::2] == (6, ["empty.db: the history there has a gap: request 6 follows the begin"]), ended
    # A city that is set back while it follows is seen at the next page.
    place.begin(rows[:30], "late.db")
    with City(rows) as city, place.following(city.url, name="late.db") as child:
        until(lambda: city.asked[-1:] and city.asked[-1][1] == "/history/99")
        city.rows = rows[:90]
        out, said = child.communicate(timeout=SECONDS)
    assert child.returncode == 6 and b"ends before request 100, the last one here" in said, (child.returncode, said)
    assert place.rows("late.db") == rows


def test_a_program_that_ends(program):
    """That the program ended is told with its line, and whether it is of use to begin again. What it answered is
    taken."""
    place, rows = Place(program, stands=True), made(100)
    with City(rows) as city:
        for how, status, said, left in (
            ("9 3 store failed", 7, "bikeshare lines ended with status 3: store failed", 28),
            ("1 5 unsound bikes 7", 8, "bikeshare lines ended with status 5: unsound bikes 7", 20),
            ("80 0 ", 7, "bikeshare lines ended with status 0", 99),
        ):
            place.begin(rows[:20])
            ended = place.follow(city.url, STANDS_IN=how)
            assert ended == (status, ["follows after request 20"], [f"copy.db: {said}"]), ended
            assert (log_of(place.folder / "copy.db") > 0) == (left > 20), "it closed the file"
            # It goes on behind that, once the log is brought in.
            assert place.follow(city.url, "--once").lines[0] == f"follows after request {left}"
            assert place.rows() == rows
            removed(place.folder, "copy.db")
        # It may end before it answers, also as it brings in a log that was left.
        for status, how, wanted in ((5, "unsound bikes 7", 8), (5, "older 3", 8), (3, "store failed", 7)):
            for has_log in False, True:
                place.begin(rows[:20])
                if has_log:
                    assert place.follow(city.url, STANDS_IN="9 3 store failed").status == 7
                ended = place.follow(city.url, STANDS_IN=f"0 {status} {how}")
                said = f"copy.db: bikeshare lines ended with status {status}: {how}"
                assert (ended.status, ended.said) == (wanted, [said]), (has_log, ended)
                removed(place.folder, "copy.db")
        # An answer that isn't the recorded one ends it, and what was done for it stays.
        place.begin(rows[:20])
        ended = place.follow(city.url, STANDS_IN="5 wrong")
        assert ended.status == 5 and "request 25 is answered other here" in ended.said[0], ended
        assert place.rows() == rows[:25]
        # So it is while nothing is asked.
        with place.following(city.url) as child:
            until(lambda: city.asked[-1][1] == "/history/99")
            (lines,) = children(child.pid)
            os.kill(lines, signal.SIGKILL)
            out, said = child.communicate(timeout=SECONDS)
        assert (child.returncode, said) == (7, b"copy.db: bikeshare lines ended by signal 9\n"), (out, said)


def children(pid):
    """The numbers of a process's children."""
    text = Path(f"/proc/{pid}/task/{pid}/children").read_text(encoding="ascii")
    return list(map(int, text.split()))


def test_two_followers(program):
    """The second one of a copy is told so, and ends; the first goes on. So it is beside another program that has it."""
    place, rows = Place(program), made(100)
    place.begin(rows[:20])
    text = SCRIPT.read_text(encoding="utf-8").replace("PATIENCE, LONGEST_PAUSE = 10,", "PATIENCE, LONGEST_PAUSE = 1,")
    (place.folder / "hasty").write_text(text, encoding="utf-8")
    with City(rows[:50]) as city:
        with place.following(city.url) as child:
            until(lambda: city.asked[-1:] and city.asked[-1][1] == "/history/49")
            ended = place.follow(city.url, script=place.folder / "hasty")
            assert ended == (4, [], ["copy.db: another program has it open, perhaps another follower"]), ended
            city.rows = rows
            until(lambda: city.asked[-1][1] == "/history/99")
            assert stopped(child).status == 0
        assert place.rows() == rows
        # One that comes while the other ends goes on behind it.
        place.begin(rows[:20], "pair.db")
        city.asked.clear()
        with place.following(city.url, name="pair.db") as one:
            until(lambda: city.asked and city.asked[-1][1] == "/history/99")
            with place.following(city.url, name="pair.db") as two:
                time.sleep(0.5)
                assert two.poll() is None and not children(two.pid), "it doesn't wait"
                assert stopped(one).status == 0
                assert line_of(two) == b"follows after request 100\n" and stopped(two).status == 0
    assert place.rows("pair.db") == rows


def test_signals(program):
    """At TERM, INT and HUP, whenever they come, the request that is under way is answered, COPY is whole by itself, and
    the status is 0."""
    place, rows, pick = Place(program), made(600), random.Random("follow signals")
    place.begin([])
    with City(rows) as city:
        for turn in range(KILLS):
            with place.following(city.url) as child:
                # One that comes before Python has read the script ends it as any.
                until(lambda: children(child.pid))
                time.sleep(pick.uniform(0, 0.2))
                by = pick.choice([signal.SIGTERM, signal.SIGINT, signal.SIGHUP])
                ended = stopped(child, by)
            assert (ended.status, ended.said) == (0, []) and ended.lines, (turn, by, ended)
            found = place.rows()
            assert found == rows[: len(found)] and ended.lines[-1] == f"ended after request {len(found)}", (turn, ended)
        assert place.follow(city.url, "--once").status == 0 and place.rows() == rows


def test_kills(program):
    """The follower or the program that it feeds is killed at any moment, or both: the next follower goes on, and no
    request is missing or done twice."""
    place, rows, pick = Place(program), made(2000), random.Random("follow kills")
    place.begin([])
    with City(rows) as city:
        for turn in range(KILLS):
            with place.following(city.url) as child:
                time.sleep(pick.uniform(0.02, 0.3))
                other = children(child.pid)
                for it in pick.choice([[child.pid], [child.pid, *other], other or [child.pid]]):
                    with contextlib.suppress(ProcessLookupError):
                        os.kill(it, signal.SIGKILL)
                child.communicate(timeout=SECONDS)
        ended = place.follow(city.url, "--once")
        assert ended.status == 0 and place.rows() == rows, ended


def test_words_that_are_wrong(program):
    """They have status 2 and a line, nothing is asked, and no file is made. The token is shown to the city alone."""
    place, rows = Place(program), made(10)
    place.begin(rows)
    (place.folder / "token").write_text(f"{'0f' * 16}\n")
    (place.folder / "empty").write_text("")
    (place.folder / "blank").write_text("a b\n")
    (place.folder / "text.db").write_text("no database" * 100)
    sqlite3.connect(place.folder / "none.db").execute("CREATE TABLE notes (note TEXT)").connection.close()
    before = sorted(it.name for it in place.folder.iterdir())
    with City(rows) as city:
        for words, said in (
            (["absent.db", city.url], "absent.db: No such file or directory"), ([".", city.url], ".: Is a directory"),
            (["text.db", city.url], "text.db: it is no city of this version"), (["none.db", city.url], "no such table"),
            (["copy.db", "metro.example"], "is no address"), (["copy.db", "ftp://metro.example"], "is no address"),
            (["copy.db", "http://"], "is no address"), (["copy.db", "http://a b"], "is no address"),
            (["copy.db", city.url, "--token-file", "absent"], "absent can't be read"),
            (["copy.db", city.url, "--token-file", "blank"], "has no token"), ([], "usage"), (["copy.db"], "usage"),
            (["copy.db", city.url, "--every", "0"], "usage"), (["copy.db", city.url, "--every", "x"], "usage"),
        ):
            status, text = ran(SCRIPT, *words, cwd=place.folder, env=place.env())
            assert status == 2 and said in text, (words, status, text)
        status, text = ran(SCRIPT, "copy.db", city.url, cwd=place.folder, env={**os.environ, "BIKESHARE": "/nowhere"})
        assert status == 2 and "No such file or directory: /nowhere" in text, text
        status, text = ran(SCRIPT, "copy.db", city.url, cwd=place.folder, env=place.env(BIKESHARE_TOKEN="a\nb"))
        assert status == 2 and "BIKESHARE_TOKEN has no token" in text, text
        assert not city.asked and sorted(it.name for it in place.folder.iterdir()) == before
        for words, env, shown in (
            (["--token-file", "token"], {}, f"Bearer {'0f' * 16}"), ([], {"BIKESHARE_TOKEN": "abc"}, "Bearer abc"),
            (["--token-file", "empty"], {}, None), ([], {}, None),
        ):
            assert place.follow(f"{city.url}/metro/", "--once", *words, **env).status == 0
            assert city.asked[-1] == ("GET", "/metro/history/9", shown), city.asked[-1]
        # A link leads to the file beside which the log is.
        (place.folder / "link.db").symlink_to("copy.db")
        assert place.follow(city.url, "--once", name="link.db").status == 0


@needs("nginx")
def test_through_the_gateway(program):
    """With a token of the office it gets the history, page by page, and with another's, or none, it is turned away."""
    place, rows = Place(program), made(400)
    place.begin(rows[:20])
    # The gateway knows the city by its host name, which leads here.
    text = SCRIPT.read_text(encoding="utf-8")
    named = text.replace('{"Authorization": f"Bearer {token}"}', '{"Host": HOST, "Authorization": f"Bearer {token}"}')
    named = named.replace("\nFULL,", '\nHOST = "metro.example"\nFULL,').replace(" if token else {}", "")
    (place.folder / "named").write_text(named, encoding="utf-8")
    with City(rows) as city, Gateway(program, {"metro": city.server.server_address[1]}) as gateway:
        url, how = f"http://127.0.0.1:{gateway.port}", {"script": place.folder / "named"}
        for caller, said in ("rider:17", "403 (the token isn't the office's)"), ("none", "401 (the token isn't known"):
            ended = place.follow(url, "--once", BIKESHARE_TOKEN=TOKENS.get(caller, "f" * 32), **how)
            assert ended.status == 1 and f"answered {said}" in ended.said[0] and not city.asked, (caller, ended)
        ended = place.follow(url, "--once", BIKESHARE_TOKEN=TOKENS["office:anna"], **how)
        assert ended.status == 0 and {it for it, *_ in city.asked} == {"GET"}, ended
    assert place.rows() == rows


def test_page_and_completion(program):
    """The manual page has the options and statuses of the script, and bash proposes them."""
    status, said = ran(SCRIPT, "--help")
    options = re.findall(r"^  (--[a-z-]+)(?: ([A-Z]+))?", said, re.M)
    page = sections_of(PAGE.read_text(encoding="utf-8"))
    assert status == 0 and [it for it, _ in page["OPTIONS"] if it] == [" ".join(it).strip() for it in options], page
    script = loaded(SCRIPT)
    names = "UNREACHED WRONG TAKEN OTHER_REPLY OTHER_HISTORY PROGRAM_ENDED UNSOUND".split()
    statuses = {0, 3, *(getattr(script, it) for it in names)}
    assert [int(it) for it, _ in page["EXIT STATUS"] if it] == sorted(statuses), page["EXIT STATUS"]
    unit = dict(re.findall(r"^(Restart\w*)=(.*)$", (TOP / "deploy/bikeshare-follow@.service").read_text(), re.M))
    never = {script.WRONG, script.OTHER_REPLY, script.OTHER_HISTORY, script.UNSOUND}
    assert unit["Restart"] == "on-failure" and set(map(int, unit["RestartPreventExitStatus"].split())) == never, unit
    Path(program.folder, "a.db").touch()
    given = f'. "{COMPLETION}"; COMP_WORDS=("$@"); COMP_CWORD=$(($# - 1)); _bikeshare_follow'
    given += '; printf "%s\\n" "${COMPREPLY[@]}"'
    completed = []
    for words in (("-",), ("",), ("a.db", ""), ("a.db", "http://x", "--token-file", ""), ("--every", "")):
        said = ran("bash", "-c", given, "bash", "bikeshare-follow", *words, cwd=program.folder)[1]
        completed.append(said.split())
    assert completed == [[name for name, _ in options], ["a.db"], [], ["a.db"], []], completed


# ---- Beside the program


def equal(place, one, other):
    """Holds that all tables of two files are the same."""
    tables = [raising.held(place.folder / it) for it in (one, other)]
    for name in tables[0].rows:
        assert tables[0].rows[name] == tables[1].rows[name], name


def test_a_city_of_all_commands(program):
    """A copy of a city that has nothing yet but its tables takes its whole history from the program, and is that city:
    all its tables are the same."""
    if not is_built(program):
        print("follow.test_a_city_of_all_commands: not tried, there is no program", flush=True)
        return
    place = Place(program)
    put({"": tampered.made(program)[0]}, program.folder, "city.db")
    assert program.run("init", "copy.db") == READY
    with Server(program) as server:
        ended = place.follow(f"http://127.0.0.1:{server.port}", "--once")
        assert ended.status == 0, ended
    equal(place, "city.db", "copy.db")
    is_sound(program, "copy.db")


def test_kills_of_both_sides(program):
    """The city's program and the follower are killed at any moment while riders are topped up: the copy has the history
    up to its own last request, and all of it in the end."""
    if not is_built(program):
        print("follow.test_kills_of_both_sides: not tried, there is no program", flush=True)
        return
    place, port, pick, number = Place(program), free_port(), random.Random("follow both"), 0
    for name in "city.db", "copy.db":
        place.begin(made(5), name)

    def serve():
        child = program.start("serve", "city.db", "--port", str(port))
        assert line_of(child).startswith(b"listening"), "it doesn't serve"
        return child

    city = serve()
    try:
        for turn in range(KILLS):
            with place.following(f"http://127.0.0.1:{port}") as child:
                end = time.monotonic() + pick.uniform(0.05, 0.5)
                while time.monotonic() < end:
                    number += 1
                    top_up(port, number)
                if pick.random() < 0.5:
                    for it in [child.pid, *children(child.pid)]:
                        os.kill(it, signal.SIGKILL)
                    child.communicate(timeout=SECONDS)
                if pick.random() < 0.5:
                    city.kill()
                    city.communicate()
                    city = serve()
        assert place.follow(f"http://127.0.0.1:{port}", "--once").status == 0
    finally:
        city.kill()
        city.communicate()
    assert program.run("lines", "city.db") == (0, b"", b"")
    equal(place, "city.db", "copy.db")
    assert len(place.rows()) == number + 5 and program.run("check", "copy.db") == SOUND


def top_up(port, number):
    """One request to the city's program."""
    body = json.dumps({"key": f"t{number}", "command": f"top-up\t1\t{number % 900 + 1}"}).encode()
    with contextlib.closing(http.client.HTTPConnection("127.0.0.1", port, timeout=SECONDS)) as client:
        client.request("POST", "/office/anna", body)
        assert client.getresponse().status == 200


def test_how_far_behind(program):
    """Beside a city that takes requests as fast as they come one after the other, the follower is never two seconds
    behind."""
    if not is_built(program):
        print("follow.test_how_far_behind: not tried, there is no program", flush=True)
        return
    place = Place(program)
    for name in "city.db", "copy.db":
        place.begin(made(5), name)
    with Server(program) as server:
        url = f"http://127.0.0.1:{server.port}"
        with place.following(url, "--every", "1") as child:
            assert line_of(child) == b"follows after request 5\n"
            since, number = time.monotonic(), 0
            while time.monotonic() - since < 5:
                number += 1
                top_up(server.port, number)
            time.sleep(2)
            ended = stopped(child)
        assert ended == (0, [f"ended after request {number + 5}"], []), (ended, number)
    equal(place, "city.db", "copy.db")


def test_a_full_disk(program):
    """The follower's disk is full: it ends as its program does, what it answered stays, and once there is room it goes
    on."""
    if not is_built(program) or not can_mount(program, "follow.test_a_full_disk"):
        print("follow.test_a_full_disk: not tried, there is no program or no disk of memory", flush=True)
        return
    place, rows = Place(program), made(3000)
    (place.folder / "small").mkdir()
    with disk(place.folder / "small", 1 << 20), City(rows) as city:
        place.begin(rows[:5], "small/copy.db")
        ended = place.follow(city.url, "--once", name="small/copy.db")
        assert ended.status == 7 and "store failed" in ended.said[0], ended
        left = taken(place.folder / "small/copy.db")
        put(left, place.folder, "copy.db")
    with City(rows) as city:
        assert place.follow(city.url, "--once").status == 0
    assert place.rows() == rows


if __name__ == "__main__":
    sys.exit(stands_in(sys.argv[2]))
