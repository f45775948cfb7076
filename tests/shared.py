"""What the files of tests have in common: the program and its server, requests over HTTP, a city's file and what it
holds, faults from outside, and many turns at once. It holds no test.

BIKESHARE_JOBS is how many turns are tried at a time; BIKESHARE_STOPS_TOLD names a file to which tests add how many
turns they tried and how they ended.
"""

import collections
import contextlib
import copy
import functools
import importlib.machinery
import importlib.util
import itertools
import json
import os
import random
import re
import select
import shutil
import socket
import sqlite3
import struct
import subprocess
import tempfile
import threading
import time
import unicodedata
from concurrent.futures import ThreadPoolExecutor
from pathlib import Path

HERE = Path(__file__).resolve().parent
TOP = HERE.parent
JOBS = int(os.environ.get("BIKESHARE_JOBS", "1"))
BUILDING = threading.Lock()
SHOWN = 5
# How long the program may run, how long a client or a server may be waited for, and how long those may that faults
# disturb.
LONGEST, SECONDS, DISTURBED = 120, 10, 60

READY, SOUND, STORE_FAILED, FOREIGN = (
    (0, b"ready\n", b""), (0, b"sound\n", b""), (3, b"", b"store failed\n"), (5, b"", b"foreign\n")
)
WRITE_FAILED, READ_FAILED = (6, b"", b"write failed\n"), (6, b"", b"read failed\n")
NO_SYSTEM = (1, b"", b"system missing\n")
# What is said where a request for memory is refused, by the exit status.
WANTS = {3: b"store failed\n", 4: b"out of memory\n"}


def loaded(file):
    """The module of a file that isn't one of tests."""
    loader = importlib.machinery.SourceFileLoader(f"tests_{file.parent.name}_{file.stem}", str(file))
    module = importlib.util.module_from_spec(importlib.util.spec_from_loader(loader.name, loader))
    loader.exec_module(module)
    return module


# ---- The program


def shown(line):
    """A line as it is told: its TABs as arrows, and cut where it is long."""
    if line is None:
        return "nothing"
    text = line.decode(errors="backslashreplace").replace("\t", "⇥")
    return repr(text if len(text) <= 160 else f"{text[:120]}.. ({len(line)} bytes)")


def tells_mistake(said):
    """Whether a mistake in the words is told: a line of characters that are seen, with what is wrong and what is
    wanted, and a usage below it."""
    line, _, usage = said.decode().partition("\n")
    is_seen = len(line) < 1000 and not {"Cc", "Cf", "Zl", "Zp"} & {unicodedata.category(it) for it in line}
    return (
        is_seen
        and re.fullmatch("bikeshare: .+; wanted is .+", line)
        and re.fullmatch(r"usage: bikeshare .+\n\n(?:.*\n)+", usage)
    )


def lines_of(data):
    """The parts between line feeds, where a last part counts if it isn't empty."""
    parts = data.split(b"\n")
    return parts if parts[-1] else parts[:-1]


def unlike(given, wanted, found):
    """Tells the first answers that are not as wanted, each beside its request line."""
    rows = itertools.zip_longest(lines_of(given), lines_of(wanted), lines_of(found))
    told = [
        f"line {at}, {shown(line)}: {shown(it)}, not {shown(want)}"
        for at, (line, want, it) in enumerate(rows, 1)
        if it != want
    ]
    more = [f"and {len(told) - SHOWN} more"] if len(told) > SHOWN else []
    return "\n".join([*told[:SHOWN], *more]) or "the output differs only in its line feeds"


class Program:
    """The built program, run in a folder."""

    def __init__(self, file, folder):
        self.file, self.folder = file, folder

    def run(self, *words, given=b"", **how):
        """Runs it with these words on this input, and returns its exit status, its output and what it says of
        faults."""
        how = {"cwd": self.folder, "stdout": subprocess.PIPE, "stderr": subprocess.PIPE, "timeout": LONGEST, **how}
        ran = subprocess.run([self.file, *words], **({} if "stdin" in how else {"input": given}), **how)
        return ran.returncode, ran.stdout, ran.stderr

    def shell(self, redirected, *words, **how):
        """The same under the shell's redirections."""
        return Program("sh", self.folder).run("-c", f'exec "$@" {redirected}', "sh", self.file, *words, **how)

    def start(self, *words, stdin=subprocess.DEVNULL, **how):
        """Starts it with these words."""
        return subprocess.Popen(
            [self.file, *words], cwd=self.folder, stdin=stdin, stdout=subprocess.PIPE, stderr=subprocess.PIPE, **how
        )

    @contextlib.contextmanager
    def started(self, *words, **how):
        """The same, and kills it at the end where it still runs."""
        with self.start(*words, **how) as child:
            try:
                yield child
            finally:
                if child.poll() is None:
                    child.kill()

    def answers(self, given, wanted, status=0):
        """Holds its answers to request lines, and its exit status, to what is wanted."""
        ended, found, said = self.run(given=given)
        assert found == wanted, unlike(given, wanted, found)
        assert ended == status, f"status {ended}, not {status}; it said {shown(said)}"
        assert status or not said, f"it said {shown(said)}"


def ran(*words, **how):
    """Runs any program, and returns its exit status and all that it said."""
    how = {"timeout": 30, **how}
    done = subprocess.run([str(it) for it in words], stdout=subprocess.PIPE, stderr=subprocess.STDOUT, **how)
    return done.returncode, done.stdout.decode(errors="replace")


def has(tool, test):
    """Whether there is such a program on this machine; where there is none it is told that the test wasn't tried."""
    if shutil.which(tool) or os.access(f"/usr/sbin/{tool}", os.X_OK):
        return True
    print(f"{test}: not tried, there is no {tool}", flush=True)
    return False


def needs(tool):
    """Makes a test one that is tried where there is such a program."""

    def where_there(test):
        @functools.wraps(test)
        def tried(program):
            if has(tool, f"{test.__module__}.{test.__name__}"):
                test(program)

        return tried

    return where_there


# ---- Cities

# The city of docs/FORMATS.md with rider 17, who has 25.00.
CITY = [
    "set-system\tmetro\ten\tMetro Bikes\t24/7\tfeeds@example.org\tEtc/UTC\tEUR\thttp://127.0.0.1:8080\t30",
    "add-plan\tbasic\tBasic\t100\tfalse\tOne euro and then a quarter\t30:25:5:-",
    "add-type\tcity\tCity\tbicycle\thuman\t0\tbasic",
    "add-station\ta1\tHarbour\t41.890169\t12.492269\t2",
    "add-bike\t7\tcity",
    "add-truck\t3\t20",
    "open-order\t3\t*\ta1\tcity\t1",
    "load\t3\t1\t7",
    "unload\t3\t1\t7\tto\t1",
    "close-order\t1",
    "mark-dock\ta1\t2\tbroken",
    "add-rider\t17",
    "top-up\t17\t2500",
]
FEEDS = [
    "gbfs", "system_information", "vehicle_types", "station_information", "station_status", "system_pricing_plans",
    "system_regions",
]
HEAD = '{"last_updated":"2023-11-14T22:13:20Z","ttl":30,"version":"3.0","data":'
HEADER = "station_id,name,lat,lon,docks\n"


def requests_of(commands, at=1699999200, first=1, caller="office", key="k"):
    """Request lines of these commands, each under a key of its own."""
    return "".join(
        f"{at}\t{caller}\t{key}{number}\t{command}\n" for number, command in enumerate(commands, first)
    ).encode()


def ask(program, commands, at=1699999200, file="city.db", **how):
    """Sends these commands as lines, and returns the answers."""
    status, out, said = program.run("lines", file, given=requests_of(commands, at, **how))
    assert (status, said) == (0, b"") and out.count(b"\n") == len(commands), (status, out[-300:], said)
    return out.decode().splitlines()


def accepted(program, commands, **how):
    """Sends these commands as lines, of which none may be refused, and returns the answers."""
    answers = ask(program, commands, **how)
    assert not [it for it in answers if it.startswith("refused")], answers
    return answers


def city(program, *more):
    """Makes the city of docs/FORMATS.md, and then sends these commands of the office."""
    accepted(program, [*CITY, *more], key="f")


def is_sound(program, file="city.db", where=""):
    """Holds that `check` accepts a file."""
    ended = program.run("check", file)
    assert ended == SOUND, f"{where or file}: check: {ended}"


def feed(program, name, at="1700000000", file="city.db"):
    """The text of a feed, which stands alone on standard output."""
    status, out, said = program.run("feed", file, name, "--at", at)
    assert (status, said) == (0, b""), (name, status, said)
    return out.decode()


def data_of(program, name, **how):
    """What a feed tells below its head."""
    return json.loads(feed(program, name, **how))["data"]


# ---- HTTP

REASONS = {
    200: "OK",
    400: "Bad Request",
    404: "Not Found",
    405: "Method Not Allowed",
    409: "Conflict",
    413: "Payload Too Large",
    503: "Service Unavailable",
}
ERRORS = {400: "bad_request", 404: "not_found", 405: "method_not_allowed", 413: "too_large", 503: "unavailable"}


def request(method, target, *fields, body=b""):
    """A request with these fields alone."""
    lines = [f"{method} {target} HTTP/1.1", *fields, "", ""]
    return "\r\n".join(lines).encode() + body


def get(target, method="GET"):
    """A request without a body."""
    return request(method, target, "Host: 127.0.0.1")


def get_feed(name):
    """A request for a feed."""
    return get(f"/gbfs/3.0/{name}.json")


def post(target, body):
    """A request with this body, and its length."""
    body = body if isinstance(body, bytes) else body.encode()
    return request("POST", target, "Host: 127.0.0.1", f"Content-Length: {len(body)}", body=body)


def office(key, command):
    """A command of the office; its TABs are escaped as JSON wants it."""
    return post("/office", json.dumps({"key": key, "command": command}))


def answer(status, body, allow=None):
    """The whole answer with this body."""
    head = (
        f"HTTP/1.1 {status} {REASONS[status]}\r\nContent-Type: application/json\r\n"
        f"Content-Length: {len(body.encode())}\r\n"
    )
    return (head + "Connection: close\r\n" + (f"Allow: {allow}\r\n" if allow else "") + "\r\n" + body).encode()


def error(status, allow=None):
    """The whole answer of an error."""
    return answer(status, f'{{"result":"error","name":"{ERRORS[status]}"}}', allow)


def refused(number, name):
    """The whole answer of a refusal."""
    return answer(400 if number == 11 else 409, f'{{"result":"refused","number":{number},"name":"{name}"}}')


START = '{"key":"s1","station":"a1","dock":1}'
DONE, STARTED = answer(200, '{"result":"ok"}'), answer(200, '{"result":"ok","rental":1,"bike":7}')
BAD_FIELD, UNAVAILABLE = refused(11, "bad_field"), error(503)
MOMENT = "0000-00-00T00:00:00Z"


def timeless(found):
    """The answer with one text, of the same length, in place of each moment."""
    return re.sub(rb"[0-9]{4}-[0-9]{2}-[0-9]{2}T[0-9]{2}:[0-9]{2}:[0-9]{2}Z", MOMENT.encode(), found)


def body_of(found):
    """What stands below an answer's head."""
    return found.split(b"\r\n\r\n", 1)[1]


def told(data, most=200):
    """A request or an answer as it is told: cut where it is long."""
    return repr(data if len(data) <= most else data[:most] + b" .. " + data[-100:]) + f" ({len(data)} bytes)"


def line_of(child, seconds=SECONDS):
    """The next line of a program, or what there is of one where the program ended."""
    line, until = b"", time.monotonic() + seconds
    # `select` takes no descriptor beyond 1,023.
    waiting = select.poll()
    waiting.register(child.stdout, select.POLLIN)
    while not line.endswith(b"\n"):
        ready = waiting.poll(1000 * max(0, until - time.monotonic()))
        assert ready, f"it said only {line!r} in {seconds} seconds"
        piece = os.read(child.stdout.fileno(), 1)
        if not piece:
            break
        line += piece
    return line


def free_port():
    """A port of 127.0.0.1 at which nobody listens, and which the system gives nobody who asks for any: other tests run
    meanwhile."""
    lowest = int(Path("/proc/sys/net/ipv4/ip_local_port_range").read_text(encoding="ascii").split()[0])
    while True:
        with contextlib.suppress(OSError):
            with socket.create_server(("127.0.0.1", random.randrange(lowest // 2, lowest))) as found:
                return found.getsockname()[1]


class Server:
    """`serve` on a free port, for so many connections, or without end. Leaving it waits for its end, or stops the one
    that has none."""

    def __init__(self, program, count=None, file="city.db", env=None, seconds=SECONDS):
        self.count, self.port, self.seconds = count, None, seconds
        self.child = program.start("serve", file, "--port", "0", *(["--count", str(count)] if count else []), env=env)

    def __enter__(self):
        try:
            line = self.first_line()
            assert line, f"it ended: {self.end()}"
            assert self.port, f"it said {line!r}"
        except BaseException:
            self.stop()
            raise
        return self

    def __exit__(self, kind, fault, trace):
        try:
            if kind is None and self.count:
                ended = self.end()
                assert ended == (0, b"", b""), ended
        finally:
            self.stop()

    def first_line(self):
        """Waits for its first line, which names its port."""
        line = line_of(self.child, self.seconds)
        found = re.fullmatch(rb"listening 127\.0\.0\.1:([1-9][0-9]{0,4})\n", line)
        self.port = int(found[1]) if found else None
        return line

    def end(self):
        """Waits for its end, and returns its status, what it said more and what it said of faults."""
        out, said = self.child.communicate(timeout=self.seconds)
        return self.child.returncode, out, said

    def stop(self):
        """Kills it where it still runs."""
        if self.child.poll() is None:
            self.child.kill()
        self.child.communicate()

    def connect(self):
        """A connection to it, on which nothing waits to be sent."""
        client = socket.create_connection(("127.0.0.1", self.port), timeout=self.seconds)
        client.setsockopt(socket.IPPROTO_TCP, socket.TCP_NODELAY, 1)
        return client

    def ask(self, request, ends=False):
        """Sends the bytes over a connection of their own, ends the input where told to, and returns all bytes that come
        back."""
        with self.connect() as client:
            client.sendall(request)
            if ends:
                client.shutdown(socket.SHUT_WR)
            return rest(client)

    def told(self, target):
        """What is told of a target, which is JSON."""
        return json.loads(body_of(self.ask(get(target))))

    def descriptors(self):
        """How many descriptors it has. Each connection that is open is one."""
        return len(os.listdir(f"/proc/{self.child.pid}/fd"))

    def memory(self):
        """The bytes of memory that it has."""
        status = Path(f"/proc/{self.child.pid}/status").read_text(encoding="ascii")
        return 1024 * int(re.search(r"^VmRSS:\s*([0-9]+) kB$", status, re.M)[1])


def rest(client):
    """Returns all bytes that still come."""
    found = bytearray()
    while True:
        try:
            piece = client.recv(65536)
        except ConnectionResetError:
            # A socket that is closed with bytes unread is reset behind its answer; that is an end too.
            return bytes(found)
        if not piece:
            return bytes(found)
        found += piece


def reset(client):
    """Closes a connection by a reset, as a system does whose program was ended."""
    client.setsockopt(socket.SOL_SOCKET, socket.SO_LINGER, struct.pack("ii", 1, 0))
    client.close()


def holds(program, rows, ends=False, file="city.db"):
    """Sends each request over a connection of its own, one after the other to one server, and holds each answer to what
    is wanted."""
    with Server(program, len(rows), file) as server:
        for asked, wanted in rows:
            found = timeless(server.ask(asked, ends))
            assert found == wanted, f"{told(asked)}: {found!r}, not {wanted!r}"


def exchanged(program, request, file="city.db", env=None):
    """Sends a request to a server of one connection: how that ends, its answer, which is empty where it ends before,
    and what it says of faults."""
    server = Server(program, 1, file, env, DISTURBED)
    try:
        server.first_line()
        found = b""
        if server.port:
            with contextlib.suppress(ConnectionError):
                found = server.ask(request)
        status, out, said = server.end()
        assert not out, f"it said {out!r} after its first line"
        return status, found, said
    finally:
        server.stop()


# ---- Files. Each is named by its path, or by a folder and its name in that.

PARTS = ["", "-wal", "-journal", "-shm"]


def taken(*where):
    """The bytes of a file, and of what SQLite keeps beside it, each by what stands behind the file's name."""
    files = {part: Path(f"{Path(*where)}{part}") for part in PARTS}
    return {part: file.read_bytes() for part, file in files.items() if file.exists()}


def removed(*where):
    """Removes a file and all that stands beside it by its name."""
    file = Path(*where)
    for part in file.parent.glob(f"{file.name}*"):
        part.unlink()


def put(parts, *where):
    """Puts a file that was taken in the place of one that is there."""
    removed(*where)
    for part, data in parts.items():
        Path(f"{Path(*where)}{part}").write_bytes(data)


def killed(program, given, file="city.db"):
    """Has lines answered and then kills the program, so that its log isn't brought into the file. Returns the
    answers."""
    with program.started("lines", file, stdin=subprocess.PIPE) as child:
        child.stdin.write(given)
        child.stdin.flush()
        answers = b"".join(line_of(child, DISTURBED) for _ in range(given.count(b"\n")))
        child.kill()
        child.communicate()
    return answers


@contextlib.contextmanager
def copied(*where):
    """A copy of a file with its log, opened by SQLite, so that the file stays as it is."""
    with tempfile.TemporaryDirectory(dir=Path(*where).parent) as folder:
        put(taken(*where), folder, "copy.db")
        with contextlib.closing(sqlite3.connect(Path(folder, "copy.db"))) as base:
            yield base


def rows_of(query, *where):
    """The rows that SQL has of a file."""
    with copied(*where) as base:
        return base.execute(query).fetchall()


def is_whole(base):
    """SQLite's own test finds nothing."""
    found = base.execute("PRAGMA integrity_check").fetchall()
    assert found in ([("ok",)], [(b"ok",)]), f"integrity_check: {found}"


def held(*where, whole=True):
    """All that a file holds, as SQL, and nothing where there is no table. SQLite finds it whole, where that is
    wanted."""
    with copied(*where) as base:
        if whole:
            is_whole(base)
        base.text_factory = lambda text: text.decode(errors="backslashreplace")
        lines = list(base.iterdump())
    return lines if len(lines) > 2 else []


def changed(file, change=""):
    """Changes a file by SQL, from outside. What stood in the log beside it is in the file afterwards."""
    with contextlib.closing(sqlite3.connect(file, isolation_level=None)) as base:
        base.execute("PRAGMA synchronous = OFF")
        base.executescript(change)
        base.execute("PRAGMA wal_checkpoint(TRUNCATE)").fetchall()


# How the program makes `history`.
HISTORY = (
    "CREATE TABLE history (number INTEGER PRIMARY KEY, moment INTEGER NOT NULL, caller TEXT NOT NULL, "
    "req_key TEXT NOT NULL, command TEXT NOT NULL, reply TEXT NOT NULL) STRICT"
)
BY_KEY = "CREATE INDEX history_by_key ON history (caller, req_key)"
# How earlier programs made what schema 3 has in place of `stations_4`: the stations, and their bicycles by type.
STATIONS_3 = (
    "CREATE TABLE stations_3 (station_id TEXT PRIMARY KEY NOT NULL, name TEXT NOT NULL, lat INTEGER NOT NULL, "
    "lon INTEGER NOT NULL, docks INTEGER NOT NULL, installed INTEGER NOT NULL, renting INTEGER NOT NULL, "
    '"returning" INTEGER NOT NULL, reported INTEGER NOT NULL, free INTEGER NOT NULL, broken INTEGER NOT NULL, '
    "region_id TEXT) STRICT"
)
STATIONS_4 = STATIONS_3.replace("stations_3", "stations_4").replace(") STRICT", ", by_type TEXT NOT NULL) STRICT")
COUNTS = (
    "CREATE TABLE counts (station_id TEXT NOT NULL, type_id TEXT NOT NULL, available INTEGER NOT NULL, "
    "disabled INTEGER NOT NULL, PRIMARY KEY (station_id, type_id)) STRICT"
)
# .. the riders, who have no plan and nothing before.
RIDERS_3 = (
    "CREATE TABLE riders (rider INTEGER PRIMARY KEY, blocked INTEGER NOT NULL, balance INTEGER NOT NULL) STRICT"
)
# How the program makes the tables that it has in place of these, and of what was archived.
RIDERS_4 = RIDERS_3.replace("riders", "riders_4").replace(") STRICT", ", before INTEGER NOT NULL, plan_id TEXT) STRICT")
BOOKS = (
    "CREATE TABLE books (one INTEGER PRIMARY KEY, requests INTEGER NOT NULL, entries INTEGER NOT NULL, "
    "rentals INTEGER NOT NULL) STRICT"
)
# .. and `kept`, which it has in place of `history`: first with a key.
KEYED = (
    "CREATE TABLE kept (caller TEXT NOT NULL, req_key TEXT NOT NULL, command TEXT NOT NULL, reply TEXT NOT NULL, "
    "PRIMARY KEY (caller, req_key)) STRICT"
)
UNKEYED = KEYED.replace(", PRIMARY KEY (caller, req_key)", "")
KEPT_BY_KEY = "CREATE INDEX kept_by_key ON kept (caller, req_key)"
# Both layouts of `kept` in files of schema 3.
LAYOUTS = {"keyed": KEYED, "unkeyed": f"{UNKEYED}; {KEPT_BY_KEY}"}


def laid_out(file, made):
    """Makes a table of the file anew by this text, with its rows and without an index."""
    name = made.split()[2]
    changed(
        file,
        f"CREATE TEMP TABLE rows AS SELECT * FROM {name} ORDER BY rowid; DROP TABLE {name}; {made}; "
        f"INSERT INTO {name} SELECT * FROM temp.rows ORDER BY rowid",
    )


def by_type(types):
    """The text of a station's types, each with its bicycles that can be rented and those that can't."""
    told = (f"{kind}:{fit}:{others}" for kind, fit, others in sorted(types) if (fit, others) != (0, 0))
    return ";".join(told) or "-"


def to_schema_3(file, layout="unkeyed"):
    """Makes a file of the newest schema one of schema 3: `counts` has the types of each station, and of every second
    station those of 0 and 0 too; `kept` in this layout has the requests of `history`, in their order, and neither their
    numbers nor their moments; the riders have no plan; and meta has the last moment, cash and revenue."""
    moment = "max(now, coalesce((SELECT max(moment) FROM history), 0))"
    cash, revenue = (
        f"coalesce((SELECT sum(amount * {of}) FROM entries), 0)" for of in ("(kind = 1)", "((kind = 2) - (kind = 3))")
    )
    changed(
        file,
        f"{STATIONS_3}; {COUNTS}; {LAYOUTS[layout]}; {RIDERS_3}; DROP TABLE books; "
        f"UPDATE meta SET version = 3, now = {moment}, cash = {cash}, revenue = {revenue}; "
        "INSERT INTO kept SELECT caller, req_key, command, reply FROM history ORDER BY number; DROP TABLE history; "
        "INSERT INTO riders SELECT rider, blocked, balance FROM riders_4; DROP TABLE riders_4",
    )
    with contextlib.closing(sqlite3.connect(file)) as base, base:
        rows = base.execute("SELECT * FROM stations_4").fetchall()
        base.executemany(f"INSERT INTO stations_3 VALUES ({', '.join('?' * 12)})", [it[:-1] for it in rows])
        types = [(station, *it.split(":")) for station, *_, text in rows if text != "-" for it in text.split(";")]
        base.executemany("INSERT INTO counts VALUES (?, ?, ?, ?)", types)
        others = "SELECT station_id, type_id, 0, 0 FROM stations_3, types WHERE stations_3.rowid % 2"
        base.execute(f"INSERT OR IGNORE INTO counts {others}")
    changed(file, "DROP TABLE stations_4")


def is_keyed(*where):
    """Whether the file's `kept` has a PRIMARY KEY."""
    return any(is_part for *_, is_part in rows_of("PRAGMA table_info(kept)", *where))


# ---- Disks


@contextlib.contextmanager
def disk(folder, length):
    """A disk of memory of so many bytes in the place of a folder."""
    status, said = ran("mount", "-t", "tmpfs", "-o", f"size={length},mode=0755", "tmpfs", folder)
    assert status == 0, said
    try:
        yield
    finally:
        # What still uses it holds nobody up.
        status, said = ran("umount", "-l", folder)
        assert status == 0, said


def can_mount(program, test):
    """Whether disks of memory can be mounted; where they can't it is told that the test wasn't tried."""
    folder = tempfile.mkdtemp(dir=program.folder)
    with contextlib.suppress(AssertionError), disk(folder, 4096):
        return True
    print(f"{test}: not tried, a disk of memory can't be mounted", flush=True)
    return False


# ---- Faults from outside

CLOCK = "1700005000"
KILLED = -9
EIO, ENOSPC, EINTR = 5, 28, 4
# The wrapper knows what was flushed, so the files may stand where a flush costs nothing.
ROOM = "/dev/shm" if os.access("/dev/shm", os.W_OK) else None

Ran = collections.namedtuple("Ran", "status out said calls memory hit")


@functools.cache
def built():
    """stops/faults.c, and the folder in which it stands built."""
    folder = tempfile.TemporaryDirectory(prefix="bikeshare-faults-")
    library = Path(folder.name, "faults.so")
    subprocess.run(["cc", "-shared", "-fPIC", "-O2", "-o", library, HERE / "stops/faults.c", "-ldl"], check=True)
    return folder, library


def faults():
    """stops/faults.c, built once, whoever asks first. Not every RAM disk lets a library be loaded from it, so it stands
    elsewhere."""
    with BUILDING:
        return built()


def environment(*where, **how):
    """What has the program run under these faults of stops/faults.c, over this file. The clock stands still."""
    file = Path(*where)
    told = {"LD_PRELOAD": faults()[1], "FAULT_FILE": file, "TOLD_TO": f"{file}.told", "CLOCK": CLOCK, **how}
    return {**os.environ, **{key: str(value) for key, value in told.items()}}


def counted(ended, *where):
    """How the program ended under faults, with the calls and requests for memory that were counted, and the one that
    was hit."""
    told = Path(f"{Path(*where)}.told")
    rows = (
        dict(it.split(" ", 1) for it in told.read_text().splitlines())
        if told.exists()
        else {"calls": -1, "memory": -1, "hit": "unknown"}
    )
    return Ran(*ended, int(rows["calls"]), int(rows["memory"]), rows["hit"])


def disturbed(program, words, given=b"", file="city.db", **how):
    """Runs the program under these faults."""
    ended = program.run(*words, given=given, env=environment(program.folder, file, **how), timeout=DISTURBED)
    return counted(ended, program.folder, file)


def faulty(program, words, given=b"", **faults):
    """Runs the program under these faults, and returns its status, its output and what it says."""
    return disturbed(program, words, given, **faults)[:3]


def faulty_exchange(program, request, **faults):
    """Sends a request to a server of one connection under these faults: its status, the answer and what it says."""
    return exchanged(program, request, env=environment(program.folder, "city.db", **faults))


# ---- Many turns

FAULTS = (AssertionError, sqlite3.Error, subprocess.TimeoutExpired, OSError)


def quickly(test):
    """The test with its files where a flush costs nothing."""

    @functools.wraps(test)
    def tried(program):
        with tempfile.TemporaryDirectory(prefix="bikeshare-quickly-", dir=ROOM) as folder:
            here = copy.copy(program)
            here.folder = os.path.realpath(folder)
            test(here)

    return tried


@contextlib.contextmanager
def told_with(what):
    """Tells this of what fails within."""
    try:
        yield
    except AssertionError as fault:
        raise AssertionError(f"{what}: {fault}") from fault


def at_once(tried, turns, jobs=JOBS):
    """Tries turns, so many at once, and returns what each gives."""
    with ThreadPoolExecutor(jobs) as pool:
        return list(pool.map(tried, turns))


def wrong_of(tried, turns):
    """Tries turns at once, each over a file by its number, and returns what is wrong."""

    def why(number, turn):
        try:
            return tried(f"turn{number}.db", *turn)
        except FAULTS as fault:
            return f"{turn}: {fault}"

    return [it for it in at_once(lambda numbered: why(*numbered), enumerate(turns)) if it]


def nothing_is(wrong, *about):
    """Fails where something is wrong, and tells the first of it."""
    assert not wrong, "\n".join([*about, *wrong[:SHOWN], f"{len(wrong)} in all"])


def tell(kind, name, ends, tried):
    """Adds to BIKESHARE_STOPS_TOLD how many turns were tried, and how they ended."""
    if "BIKESHARE_STOPS_TOLD" in os.environ:
        with open(os.environ["BIKESHARE_STOPS_TOLD"], "a", encoding="ascii") as told:
            told.write(
                f"{kind}; {name}: {tried} tried: " + ", ".join(
                    f"{count} {end}" for end, count in sorted(ends.items())
                ) + "\n"
            )
