"""What docs/OPERATING.md says of running the program: copies of a city's file while it is served and after, restoring,
a standby, the exit statuses, a release, the unit files, and the gateway of deploy/nginx.conf.

The tests of the gateway need nginx, that of the unit files systemd-analyze. Where there is none a line says that they
weren't tried.
"""

import contextlib
import gzip
import http.client
import json
import os
import re
import shutil
import signal
import socket
import ssl
import subprocess
import threading
import time
from concurrent.futures import ThreadPoolExecutor
from datetime import datetime
from email.utils import parsedate_to_datetime
from pathlib import Path

import adoption
from serving import ended
from shared import (
    CITY, FEEDS, READY, STORE_FAILED, TOP, Server, answer, body_of, changed, city, free_port, get, held, is_sound,
    needs, office, put, ran, removed, rows_of, taken,
)

DEPLOY = TOP / "deploy"
SECONDS = 30
NOBODY = 65534


# ---- copies


def top_ups(server, numbers):
    """Sends a top-up of 1 hundredth for each number, and returns the numbers of those that were answered."""
    asked = ((it, office(f"n{it}", "top-up\t17\t1")) for it in numbers)
    return [it for it, request in asked if b'"balance_cents"' in server.ask(request)]


def keys_in(path):
    """The numbers of the top-ups that a file holds."""
    return sorted(int(it[1:]) for (it,) in rows_of("SELECT req_key FROM history WHERE req_key GLOB 'n[0-9]*'", path))


class Sender(threading.Thread):
    """Sends top-ups in turn, so many seconds apart, until it is told to end. A request that has no answer is sent
    again, as a client does."""

    def __init__(self, server, pause=0):
        super().__init__()
        self.server, self.answered, self.over, self.pause = server, 0, threading.Event(), pause

    def run(self):
        """Counts the requests that were answered, each under the key of its number."""
        while not self.over.is_set():
            with contextlib.suppress(ConnectionError):
                self.answered += len(top_ups(self.server, [self.answered + 1]))
            self.over.wait(self.pause)

    def __enter__(self):
        self.start()
        return self

    def __exit__(self, kind, fault, trace):
        self.over.set()
        self.join(SECONDS)
        assert not self.is_alive(), "a request has no end"


def backup(program, copy):
    """Runs deploy/backup on city.db."""
    return ran(DEPLOY / "backup", "city.db", copy, cwd=program.folder, env={**os.environ, "BIKESHARE": program.file})


def test_copies_while_it_serves(program):
    """A copy holds what was answered before it was begun, nothing that was asked after its end, and is one sound
    file."""
    city(program)
    here = Path(program.folder)
    with Server(program) as server, Sender(server) as sender:
        for turn in range(5):
            time.sleep(0.1)
            before = sender.answered
            status, said = backup(program, f"copy{turn}.db")
            after = sender.answered + 1
            assert status == 0 and re.fullmatch(r"stopped for \d+ ms\n", said), (status, said)
            found = keys_in(here / f"copy{turn}.db")
            assert found == list(range(1, len(found) + 1)) and before <= len(found) <= after, (
                before, len(found), after
            )
    assert sender.answered > 0
    for turn in range(5):
        is_sound(program, f"copy{turn}.db")
    is_sound(program, "city.db")
    assert backup(program, "copy0.db")[0] == 1, "a copy was written over"
    assert backup(program, "after.db") == (0, ""), "it told of a stop though none served"
    assert keys_in(here / "after.db") == keys_in(here / "city.db")


def test_a_copy_that_is_killed(program):
    """The program goes on where the script is killed while it stands still."""
    city(program)
    slow = Path(program.folder, "slow")
    slow.mkdir()
    (slow / "cp").write_text("#!/bin/sh\nsleep 1\n")
    (slow / "cp").chmod(0o755)
    with Server(program) as server:
        told = {**os.environ, "BIKESHARE": program.file, "PATH": f"{slow}:{os.environ['PATH']}"}
        copying = subprocess.Popen(
            [DEPLOY / "backup", "city.db", "copy.db"], cwd=program.folder, env=told, stdout=subprocess.DEVNULL
        )
        status, until = Path(f"/proc/{server.child.pid}/status"), time.monotonic() + SECONDS
        while not re.search(r"^State:\s*T", status.read_text(), re.M):
            assert time.monotonic() < until and copying.poll() is None, "the program wasn't stopped"
            time.sleep(0.005)
        copying.kill()
        copying.wait()
        assert top_ups(server, [1]) == [1]


def test_the_newest_copies_are_kept(program):
    """deploy/keep-copies makes a sound copy and then removes the oldest of this city; where the copy fails it removes
    none."""
    city(program)
    kept = Path(program.folder, "kept")
    kept.mkdir()
    before = ["city-20200101-000000.db", "city-20211231-235959.db", "city-20990101-000000.db"]
    others = ["city-2-20200101-000000.db", "town-20200101-000000.db", "city-notes.db", "city.db"]
    for name in [*before, *others, "city.new"]:
        (kept / name).write_text("other\n")
    for name in "city.new.unfinished", "city.failed":
        (kept / name).mkdir()
        (kept / name / name).touch()

    def keep(*words):
        told = {**os.environ, "BIKESHARE": program.file}
        status, said = ran(DEPLOY / "keep-copies", *words, cwd=program.folder, env=told)
        return status, said, sorted(it.name for it in kept.iterdir() if it.is_file() and it.name not in others)

    for words in ("city.db kept", "city.db kept 0", "city.db kept x", "city.db none 3", "none.db kept 1"):
        assert keep(*words.split())[::2] == (1, [*before, "city.new"]), words
    with Server(program):
        status, said, names = keep("city.db", "kept", "3")
    made = sorted(set(names) - set(before))
    assert status == 0 and len(made) == 1 and said.endswith(f"kept/{made[0]}\n"), (status, said, names)
    assert re.fullmatch(r"city-20\d{6}-\d{6}\.db", made[0]) and names == [before[1], made[0], before[2]], names
    is_sound(program, f"kept/{made[0]}")
    left = {it: [one.name for one in it.iterdir()] for it in kept.iterdir() if it.is_dir()}
    assert left == {kept / "city.failed": ["city.new.unfinished"]}, left
    # A look at a copy may leave a log beside it, which goes with it. The newest copy stays where all others are of a
    # time to come.
    (kept / f"{made[0]}-wal").touch()
    for it in list(kept.glob("city-20*")):
        it.rename(kept / it.name.replace("city-20", "city-21"))
    status, said, names = keep("city.db", "kept", "1")
    assert status == 0 and len(names) == 1 and said.endswith(f"kept/{names[0]}\n"), (status, said, names)
    assert names[0].startswith("city-20"), names
    assert {it.name for it in kept.iterdir()} == {*others, *names, "city.failed"}


def stands_in(folder, **scripts):
    """Scripts in a folder that come before the programs of their names, and in place of the program one that finds each
    file sound. Returns the environment in which they do."""
    folder.mkdir()
    for name, text in {"bikeshare": '[ "$1" != check ] || echo sound', **scripts}.items():
        (folder / name).write_text(f"#!/bin/sh\n{text}\n")
        (folder / name).chmod(0o755)
    return {**os.environ, "BIKESHARE": str(folder / "bikeshare"), "PATH": f"{folder}:{os.environ['PATH']}"}


def at_one_time(count, words, **how):
    """Begins a script so often, and returns the status and the output of each."""
    how = {"stdout": subprocess.PIPE, "stderr": subprocess.STDOUT, "text": True, **how}
    begun = [subprocess.Popen(words, **how) for _ in range(count)]
    said = [it.communicate(timeout=SECONDS)[0] for it in begun]
    return [(it.returncode, line) for it, line in zip(begun, said)]


def test_copies_of_one_second(program):
    """Runs of deploy/keep-copies at one time, which all end in the same second, make a copy each; deploy/backup makes
    one copy of a name and fails plainly for the others. The program isn't needed."""
    here = Path(program.folder)
    (here / "city.db").write_bytes(b"city" * 1000)
    (here / "kept").mkdir()
    # A copying that takes long enough for the others to come in its midst, and a clock that goes on at the fifth look.
    cp, looks = shutil.which("cp"), here / "looks"
    date = f"echo >>{looks}\nat=$(wc -l <{looks})\n[ $at -ge 5 ] || at=0\nprintf '20261127-0320%02d' $at"
    env = stands_in(here / "scripts", cp=f'sleep 0.2\nexec {cp} "$@"', date=date)
    found = at_one_time(3, [DEPLOY / "keep-copies", "city.db", "kept", "5"], cwd=here, env=env)
    names = sorted(it.name for it in (here / "kept").iterdir())
    assert sorted(found) == [(0, f"kept/{it}\n") for it in names] and len(names) == 3, (found, names)
    assert names == [f"city-20261127-0320{it}.db" for it in ("00", "05", "06")], names
    assert {it.read_bytes() for it in (here / "kept").iterdir()} == {b"city" * 1000}
    found = at_one_time(3, [DEPLOY / "backup", "city.db", "copy.db"], cwd=here, env=env)
    assert sorted(status for status, _ in found) == [0, 1, 1], found
    for status, said in found:
        assert said == "" if status == 0 else re.fullmatch("backup: .*copy.db.*\n", said), found
    assert (here / "copy.db").read_bytes() == b"city" * 1000


def test_a_first_city(program):
    """Each line of deploy/begin.txt is accepted, and is one that docs/OPERATING.md shows where it shows it."""
    text = (DEPLOY / "begin.txt").read_text(encoding="utf-8")
    program.answers(text.encode(), b"ok\n" * text.count("\n"))
    shown = re.findall(r"^\d+⇥office⇥begin\d+⇥.*$", (TOP / "docs/OPERATING.md").read_text(encoding="utf-8"), re.M)
    assert len(shown) == 2 and [it.replace("⇥", "\t") for it in shown] == text.splitlines()[:2], shown
    assert {it.split("\t")[0] for it in text.splitlines()} == {"1767225600"} and 1767225600 < time.time()


def test_sqlite3_beside_it(program):
    """While the program has the file, sqlite3 neither reads nor copies it, and after it was killed both do."""
    city(program)
    here = Path(program.folder)
    with Server(program) as server:
        assert top_ups(server, [1, 2, 3]) == [1, 2, 3]
        for words in (["SELECT count(*) FROM history"], [".backup beside.db"]):
            for ways in ([], ["-readonly"]):
                status, said = ran("sqlite3", *ways, "city.db", *words, cwd=here)
                assert status and "database is locked" in said, (ways, words, status, said)
        assert top_ups(server, [4]) == [4]
    assert ran("sqlite3", "city.db", ".backup after.db", cwd=here) == (0, "")
    is_sound(program, "after.db")
    is_sound(program, "city.db")
    assert keys_in(here / "after.db") == keys_in(here / "city.db") == [1, 2, 3, 4]


def plain_copy(here, to, log=True):
    """Copies city.db, with its log or without, as cp does."""
    parts = taken(here, "city.db")
    put({part: data for part, data in parts.items() if not part or (log and part == "-wal")}, here, to)


def test_plain_copies_after_the_end(program):
    """After a list that ended the file alone is whole. After a kill file and log are, and the file alone is an older
    city."""
    city(program)
    here = Path(program.folder)
    plain_copy(here, "ended.db", log=False)
    is_sound(program, "ended.db")
    assert rows_of("SELECT count(*) FROM history", here, "ended.db") == [(len(CITY),)]
    with Server(program) as server:
        top_ups(server, [1, 2, 3])
    plain_copy(here, "both.db")
    plain_copy(here, "alone.db", log=False)
    is_sound(program, "both.db")
    is_sound(program, "alone.db")
    assert keys_in(here / "both.db") == [1, 2, 3] and keys_in(here / "alone.db") == []
    assert program.run("lines", "city.db") == (0, b"", b"")
    plain_copy(here, "settled.db", log=False)
    is_sound(program, "settled.db")
    assert keys_in(here / "settled.db") == [1, 2, 3]


def test_restore(program):
    """The log goes with the file that is replaced. What was accepted since the copy is gone, and is accepted when it is
    sent again."""
    city(program)
    here = Path(program.folder)
    with Server(program) as server:
        top_ups(server, [1, 2])
        assert backup(program, "copy.db")[0] == 0
        top_ups(server, [3, 4])
    removed(here, "city.db")
    shutil.copy(here / "copy.db", here / "city.db")
    is_sound(program, "city.db")
    with Server(program) as server:
        assert body_of(server.ask(get("/riders/17"))) == b'{"rider":17,"state":"open","balance_cents":2502,"rental":0}'
        assert top_ups(server, [1, 2, 3, 4]) == [1, 2, 3, 4]
        assert body_of(server.ask(get("/riders/17"))) == b'{"rider":17,"state":"open","balance_cents":2504,"rental":0}'


def test_a_standby(program):
    """A second program isn't let at the file. A copy elsewhere goes on from its moment, and knows the requests before
    it."""
    city(program)
    with Server(program) as server:
        first = server.ask(office("n1", "top-up\t17\t1"))
        assert ended(program, "city.db", "--port", "0", "--count", "1") == STORE_FAILED
        Path(program.folder, "standby").mkdir()
        assert backup(program, "standby/city.db")[0] == 0
        lost = server.ask(office("n2", "top-up\t17\t1"))
    with Server(program, 3, "standby/city.db") as server:
        assert server.ask(office("n1", "top-up\t17\t1")) == first
        assert server.ask(office("n2", "top-up\t17\t1")) == lost
        assert b'"balance_cents":2502' in server.ask(get("/riders/17"))


def test_a_standby_that_is_open(program):
    """A program that has opened a copy answers while the first one serves, and goes on at once when that is dead."""
    city(program)
    plain_copy(Path(program.folder), "standby.db")
    with Server(program, 2, "standby.db") as standby:
        with Server(program) as server:
            assert server.ask(office("n1", "top-up\t17\t1")) == answer(200, '{"result":"ok","balance_cents":2501}')
        assert b'"balance_cents":2500' in standby.ask(get("/riders/17"))
        assert standby.ask(office("n1", "top-up\t17\t1")) == answer(200, '{"result":"ok","balance_cents":2501}')
    is_sound(program, "standby.db")


def test_other_pages(program):
    """By the statements of docs/OPERATING.md a file gets the pages of a new one."""
    file = adoption.made(program, "city.db")
    text = (TOP / "docs/OPERATING.md").read_text(encoding="utf-8")
    (sql,) = re.findall(r"sqlite3 /var/lib/bikeshare/metro\.db '(PRAGMA.*?)'", text, re.S)
    changed(file, "PRAGMA journal_mode = DELETE; PRAGMA page_size = 4096; VACUUM; PRAGMA journal_mode = WAL")
    rows = held(file)
    # A file with such pages the statements leave as it is.
    for _ in range(2):
        assert ran("sqlite3", "city.db", sql, cwd=program.folder) == (0, "delete\nwal\n")
        assert held(file) == rows and rows_of("PRAGMA page_size", file) == [(2048,)]
    adoption.goes_on(program, file)


# ---- documents, release, unit files


def test_every_fault_has_its_row(program):
    """The fault lines of docs/OPERATOR.md stand in docs/OPERATING.md, each with its status."""
    table = re.compile(r"^\| (\d) \| (.*?) \| ", re.M)
    wanted = set()
    for status, faults in table.findall((TOP / "docs/OPERATOR.md").read_text().split("## 12. Faults", 1)[1]):
        wanted |= {(status, it) for it in re.findall(r"`([^`]+)`", faults)}
    found = set()
    for status, faults in table.findall((TOP / "docs/OPERATING.md").read_text()):
        found |= {(status, it) for it in re.findall(r"`([^`]+)`", faults)}
    assert len(wanted) >= 14 and wanted <= found, sorted(wanted - found)


def released(program, folder):
    """Makes a release of the program, and returns its folder."""
    made = folder / "release"
    status, said = ran(TOP / "tools/release", made, env={**os.environ, "BIKESHARE": program.file}, timeout=4 * SECONDS)
    assert status == 0, said
    return made


def test_release(program):
    """The folder is whole by its checksums, and is made neither over another one nor of a program that fails."""
    made = released(program, Path(program.folder))
    assert ran("sha256sum", "-c", "--quiet", "SHA256SUMS", cwd=made) == (0, "")
    listed = {it.split("  ./", 1)[1] for it in (made / "SHA256SUMS").read_text().splitlines()}
    assert listed == {str(it.relative_to(made)) for it in made.rglob("*") if it.is_file()} - {"SHA256SUMS"}
    assert {"bikeshare", "README.md", "LICENSE", "copyright", "CHANGELOG.md", "RELEASE"} <= listed
    assert {"docs/OPERATING.md", "deploy/nginx.conf", "deploy/bikeshare@.service", "deploy/begin.txt"} <= listed
    assert re.fullmatch(r"version \S+\ncommit \w+\nchanged files \w+\n", (made / "RELEASE").read_text()), (
        made / "RELEASE"
    ).read_text()
    assert [it for it in sorted(listed) if os.access(made / it, os.X_OK) and (made / it).stat().st_mode & 0o111] == [
        "bikeshare",
        "deploy/backup",
        "deploy/bikeshare-doctor",
        "deploy/bikeshare-follow",
        "deploy/bikeshare-office",
        "deploy/bikeshare-portal",
        "deploy/bikeshare-watch",
        "deploy/keep-copies",
        "examples/city/run",
        "examples/map/map.py",
        "examples/map/show",
    ]
    assert ran(TOP / "tools/release", made, env={**os.environ, "BIKESHARE": program.file})[0] == 2, (
        "a release was written over"
    )
    (made / "docs/tour.txt").write_text("other\n")
    assert ran("sha256sum", "-c", "--quiet", "SHA256SUMS", cwd=made)[0] == 1
    bad = {**os.environ, "BIKESHARE": shutil.which("false")}
    assert (
        ran(TOP / "tools/release", Path(program.folder, "bad"), env=bad)[0] == 1
        and not Path(program.folder, "bad").exists()
    )


def test_release_in_an_empty_root(program):
    """In a root that holds the release and the C library, which the system's loader names, and nothing else, the
    program serves the tour."""
    root = Path(program.folder, "root")
    made = released(program, root)
    if os.geteuid() or ran("chroot", "/", "true")[0]:
        print("operating.test_release_in_an_empty_root: not tried, chroot needs the rights of root", flush=True)
        return
    status, said = ran("ldd", made / "bikeshare")
    libraries = re.findall(r"(/\S+) \(0x", said)
    assert status == 0 and {re.sub(r"[-.].*", "", Path(it).name) for it in libraries} <= {"libc", "ld"}, said
    for it in libraries:
        (root / it[1:]).parent.mkdir(parents=True, exist_ok=True)
        shutil.copy(it, root / it[1:])
    words = ["chroot", str(root), "/release/bikeshare"]
    with open(TOP / "docs/tour.txt", "rb") as tour:
        served = subprocess.run([*words, "lines", "/city.db"], stdin=tour, capture_output=True, timeout=SECONDS)
    assert (served.returncode, served.stderr, served.stdout[-14:]) == (0, b"", b"fare\t125\t2375\n"), served
    assert ran(*words, "check", "/city.db") == (0, "sound\n")


@needs("systemd-analyze")
def test_unit_files(program):
    """systemd knows each line of the unit files, and finds the programs that they name."""
    folder = Path(program.folder)
    names = ["bikeshare@.service", "bikeshare-gateway.service", "bikeshare-follow@.service"]
    names += [f"bikeshare-{it}@.{kind}" for it in ("backup", "portal") for kind in ("service", "timer")]
    for name in names:
        text = (DEPLOY / name).read_text().replace("/opt/bikeshare/bikeshare", program.file)
        shown = text.replace("/usr/sbin/nginx", "/bin/true").replace("/opt/bikeshare/deploy", str(DEPLOY))
        (folder / name).write_text(shown)
    status, said = ran("systemd-analyze", "verify", *(folder / it for it in names))
    assert status == 0 and "Unknown" not in said, said


def test_the_unit_starts_again_what_the_document_says(program):
    """The unit starts the program again after the statuses and signals of which docs/OPERATING.md, section 3, says
    so."""
    unit = dict(re.findall(r"^(Restart\w*)=(.*)$", (DEPLOY / "bikeshare@.service").read_text(), re.M))
    assert unit["Restart"] == "on-failure", unit
    never, always = unit["RestartPreventExitStatus"].split(), unit["RestartForceExitStatus"].split()
    # What on-failure takes for a clean end: status 0, and these signals.
    clean = {"0", "SIGHUP", "SIGINT", "SIGTERM", "SIGPIPE"}
    text = (TOP / "docs/OPERATING.md").read_text().split("## 3. How the program ends", 1)[1].split("\n## ", 1)[0]
    rows = re.findall(r"^\| (\d|signal [A-Z, ]+) \| .* \| (yes|no) \|$", text, re.M)
    each = [(it, again) for end, again in rows for it in re.findall(r"\d|[A-Z]+", end)]
    ends = {(it if it.isdigit() else f"SIG{it}"): again for it, again in each}
    assert ends.keys() == {"0", "2", "3", "4", "5", "6", "SIGTERM", "SIGHUP", "SIGINT"}, ends
    for end, again in ends.items():
        assert (again == "yes") == (end not in never and (end in always or end not in clean)), (end, again)
    assert "| another signal | (none) |" in text and re.search(r"^\| another signal .* \| yes \|$", text, re.M)


# ---- the gateway

TOKENS = {
    "rider:17": "17" * 16, "rider:1": "01" * 16, "dock:a1": "a1" * 16, "crew:3": "c3" * 16, "office:anna": "0f" * 16,
}
UNAUTHORIZED, FORBIDDEN = (401, "unauthorized"), (403, "forbidden")


def configuration(port, cities, ttl, feeds=""):
    """The text of deploy/nginx.conf on this port, with its city's lines once for each city, a name and its program's
    port. Feeds are kept in a folder whose name ends in a slash, or in nginx's own."""
    text = (DEPLOY / "nginx.conf").read_text()
    inner = "127.0.0.1:8079", f"127.0.0.1:{free_port()}"
    for found, wanted in ("max-age=30", f"max-age={ttl}"), inner, ("_path /run/bikeshare-gateway/", f"_path {feeds}"):
        assert found in text, found
        text = text.replace(found, wanted)
    before, city, after = re.fullmatch(
        r"(.*?)(    # Begin of the city metro.*?    # End of the city metro\.\n)(.*)", text, re.S
    ).groups()
    copies = [city.replace("metro", name).replace("127.0.0.1:8080", f"127.0.0.1:{at}") for name, at in cities.items()]
    return (before + "".join(copies) + after).replace("127.0.0.1:8081", f"127.0.0.1:{port}")


def on_the_network(text, port):
    """The configuration's text as it is on the public network: with its lines for TLS, here on this port."""
    lines = re.findall(r"^ +# (listen .*|ssl_.*);$", text, re.M)
    assert [it.split()[0] for it in lines] == ["listen", "listen", "ssl_certificate", "ssl_certificate_key"], lines
    lines = [re.sub(r"/etc/bikeshare/metro\.example", "tls", it.replace("443", str(port))) for it in lines]
    if not Path("/proc/net/if_inet6").exists():
        del lines[1]
    begin, count = r"listen 127\.0\.0\.1:8081( default_server)?;", text.count("listen 127.0.0.1:8081")
    assert count == 2, count
    return re.sub(begin, lambda it: " ".join(f"{one}{it[1] or '' if 'listen' in one else ''};" for one in lines), text)


def make_certificate(folder):
    """Makes what the gateway's lines for TLS name."""
    made = ran(
        "openssl", "req", "-x509", "-newkey", "ec", "-pkeyopt", "ec_paramgen_curve:prime256v1", "-nodes", "-days", "1",
        "-subj", "/CN=metro.example", "-keyout", folder / "tls.key", "-out", folder / "tls.pem",
    )
    assert made[0] == 0, made


@needs("nginx")
@needs("openssl")
def test_the_gateways_lines_for_tls(program):
    """nginx takes them as they stand, in place of those for trying it."""
    folder = Path(program.folder)
    make_certificate(folder)
    (folder / "nginx.conf").write_text(on_the_network(configuration(8081, {"metro": 8080}, 30), free_port()))
    (folder / "metro.callers").touch()
    (folder / "logs").mkdir()
    words = ["-p", f"{folder}/", "-e", "error.log", "-c", folder / "nginx.conf", "-t"]
    status, said = ran(shutil.which("nginx") or "/usr/sbin/nginx", *words)
    assert status == 0 and "test is successful" in said and "warn" not in said, said


class Gateway:
    """nginx with deploy/nginx.conf on a free port, as a user without rights, before the servers of these cities. Where
    it is public, its lines for TLS stand in place of those for trying it."""

    def __init__(self, program, cities, tokens=None, ttl=30, is_public=False, feeds=""):
        self.port = free_port()
        self.folder = Path(program.folder, "public" if is_public else "gateway")
        (self.folder / "logs").mkdir(parents=True)
        # Its lines for trying it have this port, by which those for TLS are put there.
        text = configuration(8081 if is_public else self.port, cities, ttl, feeds)
        (self.folder / "nginx.conf").write_text(on_the_network(text, self.port) if is_public else text)
        if is_public:
            make_certificate(self.folder)
        for name in cities:
            lines = (f'"Bearer {token}" {caller};\n' for caller, token in (tokens or {}).get(name, TOKENS).items())
            (self.folder / f"{name}.callers").write_text("".join(lines))
        how = {}
        if not os.geteuid():
            os.chmod(program.folder, 0o755)
            for it in (self.folder, *self.folder.iterdir()):
                os.chown(it, NOBODY, NOBODY)
            how = {"user": NOBODY, "group": NOBODY, "extra_groups": []}
        nginx = shutil.which("nginx") or "/usr/sbin/nginx"
        words = [
            nginx, "-p", f"{self.folder}/", "-e", "error.log", "-c", self.folder / "nginx.conf", "-g", "daemon off;"
        ]
        self.child = subprocess.Popen(
            words, stdin=subprocess.DEVNULL, stdout=subprocess.PIPE, stderr=subprocess.STDOUT, **how
        )

    def __enter__(self):
        until = time.monotonic() + SECONDS
        while True:
            with contextlib.suppress(ConnectionRefusedError), socket.create_connection(("127.0.0.1", self.port)):
                return self
            if self.child.poll() is not None or time.monotonic() > until:
                self.__exit__(None, None, None)
                said = [it.read_text() for it in self.folder.rglob("error.log")]
                raise AssertionError(f"the gateway didn't begin: {said}")
            time.sleep(0.02)

    def __exit__(self, kind, fault, trace):
        self.child.terminate()
        self.child.communicate(timeout=SECONDS)

    def ask(self, method, path, caller=None, body=None, host="metro.example", **fields):
        """Asks over a connection of its own: the status, the answer's head and the body, which is JSON."""
        token = {"Authorization": f"Bearer {TOKENS.get(caller, caller)}"} if caller else {}
        named = {name.replace("_", "-"): value for name, value in fields.items()}
        with contextlib.closing(http.client.HTTPConnection("127.0.0.1", self.port, timeout=SECONDS)) as client:
            client.request(
                method, path, body, {"Host": host, **token, **named}, encode_chunked="Transfer-Encoding" in named
            )
            answer = client.getresponse()
            text = answer.read()
        if text and answer.headers["Content-Encoding"] == "gzip":
            text = gzip.decompress(text)
        return answer.status, answer.headers, json.loads(text) if text else None

    def answer_to(self, data, host=None):
        """What is answered to these bytes, over a connection of its own: the status, the head and the body. Over TLS,
        where a host is given by which the server is to be known."""
        with contextlib.ExitStack() as closing:
            client = closing.enter_context(socket.create_connection(("127.0.0.1", self.port), timeout=SECONDS))
            if host:
                context = ssl.create_default_context(cafile=self.folder / "tls.pem")
                client = closing.enter_context(context.wrap_socket(client, server_hostname=host))
            with contextlib.suppress(OSError):
                # Of a head that is too long it doesn't read the rest.
                client.sendall(data)
            answer = http.client.HTTPResponse(client)
            answer.begin()
            return answer.status, answer.headers, answer.read()

    def told(self, *asked, **how):
        """The status, and the name where it is no success."""
        status, _, body = self.ask(*asked, **how)
        return status, (body or {}).get("name", "")


ROUTES = [
    ("POST", "/riders/17/start"), ("GET", "/riders/17"), ("POST", "/docks/a1/end"), ("POST", "/docks/a1/mark-dock"),
    ("POST", "/docks/a1/mark-bike"),
    ("POST", "/crews/3/load"), ("POST", "/crews/3/unload"), ("POST", "/crews/3/mark-bike"), ("POST", "/office"),
    ("GET", "/bikes/7"),
    ("GET", "/orders/1"), ("GET", "/rentals/1"), ("GET", "/history/0"),
]
MAY = {
    "rider:17": {"/riders/17/start", "/riders/17"},
    "rider:1": set(),
    "dock:a1": {"/docks/a1/end", "/docks/a1/mark-dock", "/docks/a1/mark-bike"},
    "crew:3": {"/crews/3/load", "/crews/3/unload", "/crews/3/mark-bike", "/bikes/7", "/orders/1"},
    "office:anna": {"/riders/17", "/office", "/bikes/7", "/orders/1", "/rentals/1", "/history/0"},
}
NEVER = [
    ("GET", "/riders/17/"), ("GET", "//riders/17"), ("GET", "/riders/17%0a"), ("GET", "/riders/1/../17/start"),
    ("PUT", "/office"), ("POST", "/office/anna"), ("POST", "/office/bob"), ("POST", "/office/"),
    ("GET", "/office"), ("GET", "/office/anna"), ("GET", "/riders/17/start"), ("POST", "/docks/a1/start"),
    ("POST", "/docks/b2/end"),
    ("POST", "/crews/33/load"), ("GET", "/"), ("GET", "/history"), ("GET", "/history/"), ("GET", "/history/x"),
    ("POST", "/history/0"),
]


@needs("nginx")
def test_gateway_callers(program):
    """Each caller gets to its own paths alone, and what isn't let through reaches no program."""
    city(program)
    with Server(program) as server, Gateway(program, {"metro": server.port}) as gateway:
        for method, path in ROUTES:
            body = "{}" if method == "POST" else None
            assert gateway.told(method, path, body=body) == UNAUTHORIZED, (method, path)
            assert gateway.told(method, path, "f" * 32, body) == UNAUTHORIZED, (method, path)
            for caller, paths in MAY.items():
                found = gateway.told(method, path, caller, body)
                wanted = (
                    ({(400, "bad_field")} if body else {(200, ""), (404, "not_found")})
                    if path in paths
                    else {FORBIDDEN}
                )
                assert found in wanted, (caller, method, path, found)
        for method, path in NEVER:
            assert gateway.told(method, path) == UNAUTHORIZED, (method, path)
            for caller in TOKENS:
                assert gateway.told(method, path, caller) == FORBIDDEN, (caller, method, path)
        assert gateway.told("GET", "/riders/17", "office:anna", host="other.example")[0] == 421


@needs("nginx")
def test_gateway_requests(program):
    """A request is done under its caller, and comes to the program with a length, whatever fields and pieces the client
    sent."""
    city(program)
    with Server(program) as server, Gateway(program, {"metro": server.port}) as gateway:
        start = '{"key":"s1","station":"a1","dock":1}'
        fields = {f"X_Field_{it}": "x" * 200 for it in range(40)}
        for how in {}, fields, {"Transfer_Encoding": "chunked"}:
            body = [start.encode()] if "Transfer_Encoding" in how else start
            status, _, found = gateway.ask("POST", "/riders/17/start", "rider:17", body, **how)
            assert (status, found) == (200, {"result": "ok", "rental": 1, "bike": 7}), (how, status, found)
        assert gateway.told("GET", "/riders/1", "rider:1") == (404, "not_found")
        assert gateway.told("POST", "/office", "office:anna", "{" + " " * 16383) == (400, "bad_request")
        assert gateway.told("POST", "/office", "office:anna", "{" + " " * 16384) == (413, "too_large")
        found = [gateway.told("GET", "/riders/17", "rider:17")[0] for _ in range(10)]
        assert 200 in found and found[-1] == 429, found
        assert gateway.told("GET", "/bikes/7", "crew:3") == (200, "")
        assert gateway.told("POST", "/office", "office:anna", '{"key":"s1","command":"top-up\\t17\\t1"}') == (200, "")
    found = rows_of("SELECT caller FROM history WHERE req_key = 's1' ORDER BY number", program.folder, "city.db")
    assert found == [("rider:17",), ("office:anna",)], found
    text = (gateway.folder / "logs/metro.log").read_text()
    log = [json.loads(it) for it in text.splitlines()]
    assert [it["caller"] for it in log[:3]] == ["rider:17"] * 3 and TOKENS["rider:17"] not in text


# What nginx can't read: heads of requests, and what ends a head.
HOST, LAST = "Host: metro.example\r\n", "Connection: close\r\n\r\n"
UNREADABLE = [
    *(f"GET {path} HTTP/1.1\r\n{HOST}{LAST}" for path in ("/%zz", "/gbfs/3.0/%", "/%00", "/../riders", "riders", "")),
    *(f"{line}\r\n{HOST}{LAST}" for line in ("GARBAGE", "get / HTTP/1.1", "GET / HTTQ/1.1", "GET / HTTP/3.0")),
    "CONNECT metro.example:443 HTTP/1.1\r\n" + HOST + LAST, "OPTIONS * HTTP/1.1\r\n" + HOST + LAST,
    f"GET /{'a' * 9000} HTTP/1.1\r\n{HOST}{LAST}", f"GET / HTTP/1.1\r\n{HOST}X: {'a' * 9000}\r\n{LAST}",
    f"GET / HTTP/1.1\r\n{HOST}" + "".join(f"X{it}: {'a' * 7000}\r\n" for it in range(6)) + LAST,
    f"GET / HTTP/1.1\r\n{LAST}", f"GET / HTTP/1.1\r\nHost: a/b\r\n{LAST}", f"GET / HTTP/1.1\r\n{HOST}{HOST}{LAST}",
    f"POST /office HTTP/1.1\r\n{HOST}Content-Length: x\r\n{LAST}",
    f"POST /office HTTP/1.1\r\n{HOST}Transfer-Encoding: gzip\r\n{LAST}",
    f"POST /office HTTP/1.1\r\n{HOST}Content-Length: 1\r\nTransfer-Encoding: chunked\r\n{LAST}",
]


@needs("nginx")
@needs("openssl")
def test_gateway_requests_that_cannot_be_read(program):
    """They are 400, and answered as all that the gateway answers itself, whether or not TLS has told the host before.
    No city's program is needed. By no path is the place reached where that answer stands."""
    cities = {"metro": free_port()}
    with Gateway(program, cities) as plain, Gateway(program, cities, is_public=True) as public:
        tried = [(plain, None, it) for it in UNREADABLE] + [(public, "metro.example", it) for it in UNREADABLE]
        # A request without TLS where that is wanted.
        tried.append((public, None, f"GET /riders/17 HTTP/1.1\r\n{HOST}{LAST}"))
        for gateway, host, asked in tried:
            status, head, body = gateway.answer_to(asked.encode(), host)
            assert (status, body) == (400, b'{"result":"error","name":"bad_request"}'), (host, asked[:80], status, body)
            assert (head["Content-Type"], readers(head)) == ("application/json", PRIVATE), (asked[:80], head.items())
        # At a feed's path a page of another site may see it.
        asked = f"GET {FEED} HTTP/1.1\r\n{HOST}Transfer-Encoding: chunked\r\n{LAST}x\r\n"
        for gateway, host in (plain, None), (public, "metro.example"):
            status, head, body = gateway.answer_to(asked.encode(), host)
            assert (status, body) == (400, b'{"result":"error","name":"bad_request"}'), (host, status, body)
            assert readers(head) == UNKEPT, head.items()
        for path in "/bad_request", "/./bad_request", "/%2e/bad_request", "//./bad_request", "/a/../bad_request":
            assert plain.told("GET", path) == UNAUTHORIZED, path
            assert plain.told("GET", path, "office:anna") == FORBIDDEN, path
            assert plain.told("GET", path, host="other.example") == (421, "misdirected"), path
        # Another host's request is misdirected, whatever its body.
        for size in 1, 20_000_000:
            asked = f"POST /office HTTP/1.1\r\nHost: other.example\r\nContent-Length: {size}\r\n{LAST}"
            assert plain.answer_to(asked.encode())[::2] == (421, b'{"result":"error","name":"misdirected"}'), size


@needs("nginx")
def test_gateway_feeds(program):
    """Everybody may read feeds, also while the program is down, and the program isn't asked for one again within its
    ttl."""
    city(program)
    with Server(program) as server, Gateway(program, {"metro": server.port}) as gateway:
        first = gateway.ask("GET", "/gbfs/3.0/station_status.json")
        assert first[0] == 200 and first[2]["ttl"] == 30, first
        server.stop()
        for path in ("/gbfs/3.0/station_status.json", "/gbfs/3.0/station_status.json?x=1"):
            again = gateway.ask("GET", path)
            assert again[0] == 200 and again[2] == first[2], again
        status, head, body = gateway.ask("HEAD", "/gbfs/3.0/station_status.json")
        assert (status, head["Content-Length"], body) == (200, first[1]["Content-Length"], None)
        for path, caller in (("/gbfs/3.0/gbfs.json", None), ("/riders/17", "rider:17")):
            status, head, body = gateway.ask("GET", path, caller)
            assert (status, head["Retry-After"], body) == (503, "5", {"result": "error", "name": "unavailable"})
        assert gateway.told("POST", "/gbfs/3.0/gbfs.json", body="{}") == (405, "method_not_allowed")
        for path in "/gbfs/3.0/vehicle_status.json", "/gbfs/3.0/gbfs.json%0a":
            assert gateway.told("GET", path) == (404, "not_found"), path
        assert gateway.told("GET", "/gbfs.json") == UNAUTHORIZED


@needs("nginx")
def test_gateway_slow_clients(program):
    """Clients that are slow hold up nobody: the program hears of a request when the gateway has all of it."""
    city(program)
    with Server(program) as server, Gateway(program, {"metro": server.port}) as gateway, contextlib.ExitStack() as slow:
        body = b'{"key":"slow","command":"top-up\\t17\\t1"}'
        head = (
            f"POST /office HTTP/1.1\r\nHost: metro.example\r\nAuthorization: Bearer {TOKENS['office:anna']}\r\n"
            f"Content-Length: {len(body)}\r\n\r\n"
        )
        clients = [
            slow.enter_context(socket.create_connection(("127.0.0.1", gateway.port), timeout=SECONDS))
            for _ in range(20)
        ]
        for client in clients:
            client.sendall(head.encode() + body[:10])
        since = time.monotonic()
        assert gateway.told("GET", "/riders/17", "office:anna") == (200, "")
        assert time.monotonic() - since < 5, "clients that don't go on held up another"
        clients[0].sendall(body[10:])
        assert b'"balance_cents":2501' in clients[0].recv(65536)


@needs("nginx")
def test_gateway_of_two_cities(program):
    """One gateway stands before two programs; a token is good for its city alone."""
    city(program)
    plain_copy(Path(program.folder), "rome.db")
    tokens = {"metro": TOKENS, "rome": {"office:bruno": "0b" * 16}}
    with Server(program) as one, Server(program, file="rome.db") as two:
        with Gateway(program, {"metro": one.port, "rome": two.port}, tokens) as gateway:
            body = '{"key":"r1","command":"add-rider\\t18"}'
            assert gateway.told("POST", "/office", "0b" * 16, body, "rome.example") == (200, "")
            assert gateway.told("GET", "/riders/18", "0b" * 16, host="rome.example") == (200, "")
            assert gateway.told("GET", "/riders/18", "office:anna") == (404, "not_found")
            assert gateway.told("GET", "/riders/18", "0b" * 16) == UNAUTHORIZED
            assert gateway.told("GET", "/riders/18", "office:anna", host="rome.example") == UNAUTHORIZED
            for host in "metro.example", "rome.example":
                assert gateway.told("GET", "/gbfs/3.0/gbfs.json", host=host) == (200, "")

# What an answer's head says: which pages may read it, and how long caches may keep it.
FEED, KEPT, UNKEPT, PRIVATE = "/gbfs/3.0/gbfs.json", ("*", "public, max-age=30"), ("*", "no-store"), (None, "no-store")


def readers(head):
    """Which pages may read an answer, and how long caches may keep it."""
    return head["Access-Control-Allow-Origin"], head["Cache-Control"]


@needs("nginx")
def test_gateway_feeds_for_pages_and_caches(program):
    """Pages of every site may read feeds, and caches may keep them as long as their ttl. HEAD tells the same as GET."""
    city(program)
    with Server(program) as server, Gateway(program, {"metro": server.port}) as gateway:
        found = {f"/gbfs/3.0/{name}.json": gateway.ask("GET", f"/gbfs/3.0/{name}.json") for name in FEEDS}
        server.stop()
        time.sleep(1.1)
        for path, (status, head, body) in found.items():
            assert (status, readers(head), head["Vary"]) == (200, KEPT, "Accept-Encoding"), (path, status, head.items())
            assert f"max-age={body['ttl']}" in head["Cache-Control"] and re.fullmatch('"[0-9a-f]{32}"', head["ETag"]), (
                head.items()
            )
            assert head["Content-Type"] == "application/json" and "ETag" in head["Access-Control-Expose-Headers"], (
                head.items()
            )
            # A cache counts from Date: that is when the program was asked, as the feed's own moment is.
            asked = parsedate_to_datetime(head["Date"]).timestamp()
            assert 0 <= asked - datetime.fromisoformat(body["last_updated"].replace("Z", "+00:00")).timestamp() <= 1, (
                head["Date"], body
            )
            for method, wanted in ("GET", body), ("HEAD", None):
                again = gateway.ask(method, path)
                assert (again[0], sorted(again[1].items()), again[2]) == (200, sorted(head.items()), wanted), (
                    path, method, again
                )
        assert len({head["ETag"] for _, head, _ in found.values()}) == len(found)


@needs("nginx")
def test_gateway_feeds_are_pressed(program):
    """Who takes gzip gets a feed as gzip, also through another proxy; who doesn't gets it as it is."""
    city(program)
    with Server(program) as server, Gateway(program, {"metro": server.port}) as gateway:
        _, plain, body = gateway.ask("GET", FEED)
        for fields in {"Accept_Encoding": "gzip"}, {"Accept_Encoding": "br, gzip;q=0.5", "Via": "1.1 other"}:
            status, head, pressed = gateway.ask("GET", FEED, **fields)
            assert (status, head["Content-Encoding"], pressed, readers(head)) == (200, "gzip", body, KEPT), (
                status, head.items()
            )
            assert (head["Vary"], head["ETag"]) == ("Accept-Encoding", f"W/{plain['ETag']}"), head.items()
        for fields in {"Accept_Encoding": "br"}, {"Accept_Encoding": "gzip;q=0"}, {}:
            _, head, same = gateway.ask("GET", FEED, **fields)
            assert (head["Content-Encoding"], same, head["ETag"]) == (None, body, plain["ETag"]), head.items()


@needs("nginx")
def test_gateway_feeds_that_are_still_good(program):
    """Who has a feed is told so until the program is asked anew. While that is away, the feed of before says how old it
    is."""
    city(program)
    with Server(program) as server, Gateway(program, {"metro": server.port}, ttl=2) as gateway:
        _, first, _ = gateway.ask("GET", FEED)
        tag, told = first["ETag"], ("*", "public, max-age=2")
        for method in "GET", "HEAD":
            for has_it in tag, f"W/{tag}", f'"other", {tag}', "*":
                status, head, body = gateway.ask(method, FEED, If_None_Match=has_it, Accept_Encoding="gzip")
                assert (status, body, readers(head), head["ETag"], head["Vary"]) == (
                    304, None, told, tag, "Accept-Encoding"
                ), (has_it, status)
                assert "Content-Encoding" not in head, head.items()
        assert gateway.ask("GET", FEED, If_None_Match='"other"')[0] == 200
        # nginx counts whole seconds, and the last of them to its end.
        time.sleep(3.2)
        status, second, _ = gateway.ask("GET", FEED, If_None_Match=tag)
        assert status == 200 and second["ETag"] != tag and second["Date"] != first["Date"], (status, second.items())
        server.stop()
        time.sleep(3.2)
        status, head, _ = gateway.ask("GET", FEED)
        assert (status, head["Date"], head["ETag"], readers(head)) == (200, second["Date"], second["ETag"], told), (
            status, head.items()
        )


@needs("nginx")
def test_gateway_feeds_after_a_quiet_time(program):
    """Of many that ask at once, the program being slow, none gets a feed whose time was over more than five seconds
    before. One whose time was over since is given while a new one is fetched."""
    city(program)
    with Server(program) as server, Gateway(program, {"metro": server.port}, ttl=1) as gateway:
        for quiet, is_old in (2.2, True), (7.2, False):
            _, _, before = gateway.ask("GET", FEED)
            time.sleep(quiet)
            found = asked_of_a_slow_program(server, gateway, 8)
            assert [status for status, _, _ in found] == [200] * 8, found
            old = [body["last_updated"] for _, _, body in found].count(before["last_updated"])
            assert old == (7 if is_old else 0), (old, before, found)


@needs("nginx")
def test_gateway_feeds_leave_room_for_requests(program):
    """However many ask at once for a feed whose time is long over, requests find their connections to the program."""
    city(program)
    with Server(program) as server, Gateway(program, {"metro": server.port}, ttl=1) as gateway:
        assert gateway.told("GET", FEED) == (200, "")
        time.sleep(7.2)
        found = asked_of_a_slow_program(server, gateway, 150, "office:anna")
        assert [status for status, _, _ in found] == [200] * 151, [status for status, _, _ in found]


@needs("nginx")
def test_gateway_feeds_of_a_program_that_stands_still(program):
    """Whoever asks meanwhile gets the feed of before within some two seconds, however old; what there is none of is
    unavailable as soon. Other requests wait for the program. When it goes on so do the feeds."""
    city(program)
    other = "/gbfs/3.0/station_status.json"
    with Server(program) as server, Gateway(program, {"metro": server.port}, ttl=1) as gateway:
        _, before, _ = gateway.ask("GET", FEED)
        time.sleep(7.2)

        def timed(path):
            since = time.monotonic()
            status, head, _ = gateway.ask("GET", path)
            return status, head["Date"] == before["Date"], time.monotonic() - since

        os.kill(server.child.pid, signal.SIGSTOP)
        try:
            with ThreadPoolExecutor(9) as pool:
                row = pool.submit(gateway.ask, "GET", "/riders/17", "office:anna")
                found = list(pool.map(timed, [FEED] * 6 + [other] * 2))
                assert not row.done(), "a row was answered"
                os.kill(server.child.pid, signal.SIGCONT)
                assert row.result()[0] == 200
        finally:
            os.kill(server.child.pid, signal.SIGCONT)
        assert [it[:2] for it in found] == [(200, True)] * 6 + [(503, False)] * 2, found
        assert max(took for _, _, took in found) < 3, found
        time.sleep(1.1)
        status, head, _ = gateway.ask("GET", FEED)
        assert status == 200 and head["Date"] != before["Date"] and gateway.ask("GET", other)[0] == 200


def asked_of_a_slow_program(server, gateway, count, caller=None):
    """What so many get, each from an address of its own, who ask for a feed while the program stands still for half a
    second; and at the end what a caller gets who asks for a rider meanwhile."""

    def ask(address):
        with contextlib.closing(
            http.client.HTTPConnection("127.0.0.1", gateway.port, timeout=SECONDS, source_address=(address, 0))
        ) as client:
            client.request("GET", FEED, headers={"Host": "metro.example"})
            answer = client.getresponse()
            found.append((answer.status, answer.headers, json.loads(answer.read())))

    found, last = [], []
    clients = [threading.Thread(target=ask, args=(f"127.0.1.{number + 1}",)) for number in range(count)]
    if caller:
        clients.append(threading.Thread(target=lambda: last.append(gateway.ask("GET", "/riders/17", caller))))
    os.kill(server.child.pid, signal.SIGSTOP)
    try:
        for client in clients:
            client.start()
        time.sleep(0.5)
    finally:
        os.kill(server.child.pid, signal.SIGCONT)
    for client in clients:
        client.join(SECONDS)
    return found + last


@needs("nginx")
def test_gateway_answers_preflights(program):
    """What a browser asks before a page's request is answered for feeds alone, and by the gateway itself."""
    city(program)
    asked = {
        "Origin": "https://other.example",
        "Access_Control_Request_Method": "GET",
        "Access_Control_Request_Headers": "x-page",
    }
    with Server(program) as server, Gateway(program, {"metro": server.port}) as gateway:
        server.stop()
        for name in FEEDS:
            status, head, body = gateway.ask("OPTIONS", f"/gbfs/3.0/{name}.json", **asked)
            found = [
                head[f"Access-Control-{it}"]
                for it in ("Allow-Origin", "Allow-Methods", "Allow-Headers", "Allow-Credentials")
            ]
            assert (status, found, head["Allow"], body) == (
                204, ["*", "GET, HEAD", "*", None], "GET, HEAD, OPTIONS", None
            ), (name, head.items())
        for path in ("/gbfs/3.0/", "/gbfs/3.0/vehicle_status.json"):
            status, head, _ = gateway.ask("OPTIONS", path, **asked)
            assert (status, readers(head)) == (404, UNKEPT), (path, status, head.items())
        for path in ("/", "/gbfs.json", *(path for _, path in ROUTES)):
            for caller, wanted in (None, 401), ("office:anna", 403):
                status, head, _ = gateway.ask("OPTIONS", path, caller, **asked)
                assert (status, readers(head)) == (wanted, PRIVATE), (path, status, head.items())
                assert not [it for it in head if it.startswith("Access-Control")], head.items()


@needs("nginx")
def test_gateway_keeps_callers_answers_to_them(program):
    """What the office, riders, docks and crews are answered, and errors there, no cache keeps and no page of another
    site reads."""
    city(program)
    origin = {"Origin": "https://other.example", "Accept_Encoding": "gzip"}
    with Server(program) as server, Gateway(program, {"metro": server.port}) as gateway:
        statuses = set()
        for method, path in [*ROUTES, ("GET", "/gbfs.json"), ("GET", "/riders/17/"), ("POST", "/riders/1/start")]:
            for caller in (None, *TOKENS):
                body = (
                    "{" + " " * 16384
                    if caller == "office:anna" and path == "/docks/a1/end"
                    else "{}"
                    if method == "POST"
                    else None
                )
                status, head, _ = gateway.ask(method, path, caller, body, **origin)
                statuses.add(status)
                assert (
                    readers(head) == PRIVATE and not set(head) & {"ETag", "Vary", "Content-Encoding", "Age", "Expires"}
                ), (path, head.items())
                assert head["WWW-Authenticate"] == ("Bearer" if status == 401 else None), (path, head.items())
        server.stop()
        for host in "metro.example", "other.example":
            status, head, _ = gateway.ask("GET", "/riders/17", "office:anna", host=host, **origin)
            statuses.add(status)
            assert readers(head) == PRIVATE and head["Retry-After"] == ("5" if status == 503 else None), (
                status, head.items()
            )
        assert statuses == {200, 400, 401, 403, 404, 413, 421, 503}, statuses


@needs("nginx")
def test_gateway_errors_at_feeds(program):
    """An error at a feed's path has the form of the program's, pages of every site may read it, and no cache keeps
    it."""
    assert program.run("init", "city.db") == READY

    def error(wanted, name, pause=None, **how):
        """Holds that a feed is answered by this error."""
        status, head, body = gateway.ask(**{"method": "GET", "path": FEED, **how})
        assert (status, body, readers(head)) == (wanted, {"result": "error", "name": name}, UNKEPT), (
            status, body, head.items()
        )
        assert (head["Content-Type"], head["Retry-After"], head["ETag"]) == ("application/json", pause, None), (
            head.items()
        )
        assert pause is None or "Retry-After" in head["Access-Control-Expose-Headers"], head.items()

    with Server(program) as server, Gateway(program, {"metro": server.port}) as gateway:
        error(404, "not_found")
        error(404, "not_found", If_None_Match="*", Accept_Encoding="gzip")
        error(405, "method_not_allowed", method="POST", body="{}")
        for method in ("POST", "DELETE", "PUT"):
            assert gateway.ask(method, FEED)[1]["Allow"] == "GET, HEAD, OPTIONS", method
        for path in ("/gbfs/3.0/vehicle_status.json", "/gbfs/2.3/gbfs.json", "/gbfs/gbfs.json"):
            error(404, "not_found", path=path)
        server.stop()
        error(503, "unavailable", "5")
        found = [gateway.ask("GET", FEED)[0] for _ in range(60)]
        assert 429 in found, found
        error(429, "too_many", "1")
