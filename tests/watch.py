"""deploy/bikeshare-watch: what it says of each point of a city that runs, that is stopped, that has old copies or none,
no room, an old feed, a wrong clock; and the text of its figures.

systemctl is a script of the tests, and so are the time server and, where a point is about its feeds, the gateway.
"""

import contextlib
import http.server
import json
import os
import re
import shutil
import socket
import ssl
import struct
import subprocess
import sys
import threading
import time
from pathlib import Path

from package import sections_of
from shared import (
    CITY, TOP, Server, accepted, can_mount, city, disk, free_port, loaded, needs, office, ran,
)

SCRIPT = TOP / "deploy/bikeshare-watch"
PAGE, COMPLETION = TOP / "deploy/bikeshare-watch.1", TOP / "deploy/bikeshare-watch.bash"
watch = loaded(SCRIPT)
NOBODY = 65534
WELL = {"LoadState": "loaded", "ActiveState": "active", "SubState": "running", "NRestarts": "0", "UnitFileState": ""}


def name_at(at, city="city"):
    """The name of a copy of that moment."""
    return f"{city}-{time.strftime('%Y%m%d-%H%M%S', time.gmtime(at))}.db"


def logged(at, status=200, request="POST /riders/17/start HTTP/1.1", seconds="0.003"):
    """A line of the gateway's log."""
    moment = time.strftime("%Y-%m-%dT%H:%M:%S+00:00", time.gmtime(at))
    row = {"at": moment, "caller": "rider:17", "request": request, "status": status, "program_seconds": seconds}
    return f"{json.dumps(row)}\n"


class Place:
    """A machine with a city: its file, copies, the gateway's log, and what systemctl says of each unit."""

    def __init__(self, program):
        self.program, self.folder = program, Path(program.folder)
        self.state = self.folder / "state.json"
        for it in ("copies", "bin"):
            (self.folder / it).mkdir(exist_ok=True)
        self.log = self.folder / "city.log"
        self.log.write_text("")
        self.units()

    def units(self, **units):
        """Has systemctl say this of the units whose names begin so, and that all else is well."""
        script = ["#!/bin/sh", 'for unit; do :; done', 'case $unit in']
        for name, told in [*units.items(), ("", {})]:
            lines = "\n".join(f"{key}={value}" for key, value in {**WELL, "MainPID": str(os.getpid()), **told}.items())
            script.append(f"{name.replace('_', '-')}*) printf '%s\\n' '{lines}' ;;")
        (self.folder / "bin/systemctl").write_text("\n".join([*script, "esac", ""]))
        (self.folder / "bin/systemctl").chmod(0o755)

    def copied(self, at):
        """Makes a copy of that moment."""
        made = self.folder / "copies" / name_at(at)
        shutil.copy(self.folder / "city.db", made)
        return made

    def look(self, *words, port=None, without=(), **how):
        """The status, the first line, and each point with its level and what is said of it."""
        given = {
            "--file": self.folder / "city.db", "--log": self.log, "--copies": self.folder / "copies",
            "--state": self.state, **({"--port": port} if port else {}),
        }
        asked = [it for name, value in given.items() if name not in without for it in (name, str(value))]
        env = {**os.environ, "BIKESHARE": self.program.file, "PATH": f"{self.folder}/bin:{os.environ['PATH']}"}
        status, said = ran(SCRIPT, "city", *asked, *words, **{"env": env, **how})
        if "--prometheus" in words:
            return status, said, {}
        first, *lines = said.splitlines()
        found = [re.fullmatch(r"(ok|warning|critical|unknown) +([a-z]+): (.+)", it) for it in lines]
        assert all(found) and re.match("city (OK|WARNING|CRITICAL)", first), said
        return status, first, {it[2]: (it[1], it[3]) for it in found}


@contextlib.contextmanager
def time_server(ahead=0):
    """A server of time whose clock is so far ahead, and its address."""
    with socket.socket(socket.AF_INET, socket.SOCK_DGRAM) as here:
        here.bind(("127.0.0.1", 0))
        here.settimeout(0.1)
        over = threading.Event()

        def serve():
            while not over.is_set():
                with contextlib.suppress(TimeoutError):
                    data, client = here.recvfrom(512)
                    seconds, part = divmod(int((time.time() + ahead + 2_208_988_800) * 2**32), 2**32)
                    here.sendto(b"\x24\1" + bytes(22) + data[40:48] + struct.pack(">II", seconds, part) * 2, client)

        thread = threading.Thread(target=serve)
        thread.start()
        try:
            yield f"127.0.0.1:{here.getsockname()[1]}"
        finally:
            over.set()
            thread.join()


@contextlib.contextmanager
def planners_see(last_updated, status=200, certificate=None):
    """A gateway that has a feed of that moment, and its address."""

    class Handler(http.server.BaseHTTPRequestHandler):
        def do_GET(self):
            moment = time.strftime("%Y-%m-%dT%H:%M:%SZ", time.gmtime(last_updated))
            body = json.dumps({"last_updated": moment, "ttl": 30}).encode()
            self.send_response(status)
            self.send_header("Content-Length", str(len(body)))
            self.end_headers()
            self.wfile.write(body)

        def log_message(self, *_):
            pass

    with http.server.ThreadingHTTPServer(("127.0.0.1", 0), Handler) as here:
        if certificate:
            context = ssl.SSLContext(ssl.PROTOCOL_TLS_SERVER)
            context.load_cert_chain(*certificate)
            here.socket = context.wrap_socket(here.socket, server_side=True)
        thread = threading.Thread(target=here.serve_forever)
        thread.start()
        try:
            yield f"http{'s' if certificate else ''}://127.0.0.1:{here.server_address[1]}"
        finally:
            here.shutdown()
            thread.join()


def levels(points):
    return {name: level for name, (level, _) in points.items()}


def test_a_city_that_is_well(program):
    """Each point is well but those that can't be seen, the status is 0, and nothing but the state is written."""
    city(program)
    place = Place(program)
    place.copied(time.time() - 3600)
    place.log.write_text(logged(time.time() - 60) + logged(time.time(), request="GET /gbfs/3.0/gbfs.json HTTP/1.1"))
    with Server(program) as server, time_server() as clock, planners_see(time.time()) as url:
        server.ask(office("fresh", "set-station\ta1\ttrue\ttrue\ttrue"))
        before = {it: it.stat().st_mtime_ns for it in place.folder.rglob("*")}
        status, first, points = place.look("--time-server", clock, "--url", url, port=server.port)
        assert (status, first) == (0, "city OK - unknown: certificate"), (status, first, points)
        found = levels(points)
        assert found.pop("certificate") == "unknown" and set(found.values()) == {"ok"}, points
        assert list(points) == list(watch.POINTS), points
        assert re.search(r"answers 404 in \d+ ms", points["serves"][1]), points["serves"]
        assert points["requests"][1].startswith("2 requests in 15 minutes, 0 of them 503 (0.0 %)"), points["requests"]
        assert points["bicycles"][1].startswith("1 can be taken at 1 stations"), points["bicycles"]
        assert points["follower"] == ("ok", "none")
        changed = {it for it in place.folder.rglob("*") if before.get(it) != it.stat().st_mtime_ns}
        assert changed - {place.folder} == {place.state}, changed


def test_a_city_that_is_stopped(program):
    """What it would tell is critical or unknown; all other points are looked at."""
    city(program)
    place = Place(program)
    place.copied(time.time())
    status, first, points = place.look(port=free_port())
    assert status == 2 and first.startswith("city CRITICAL - critical: serves, publishes;"), (status, first)
    found = levels(points)
    assert found["serves"] == found["publishes"] == "critical" and found["copy"] == found["room"] == "ok", points
    assert found["stations"] == found["bicycles"] == "unknown", points
    # A city that is only opened, or stands still, doesn't answer either.
    with socket.create_server(("127.0.0.1", 0)) as silent:
        status, _, points = place.look(port=silent.getsockname()[1])
    assert status == 2 and "timed out" in points["serves"][1], points["serves"]
    # So it is before there is a system.
    assert program.run("init", "new.db")[0] == 0
    with Server(program, file="new.db") as server:
        status, _, points = place.look(port=server.port)
    assert points["serves"][0] == "ok" and points["publishes"] == (
        "warning", "no feed yet: no set-system was accepted"
    ), points


def test_old_copies(program):
    """A copy is old after 25 hours, and what isn't a sound one is critical. check is asked once for each copy."""
    city(program)
    place, now = Place(program), time.time()

    def copy_point(*words):
        return place.look(*words, port=1)[2]["copy"]

    assert copy_point()[0] == "critical" and "there is no copy in" in copy_point()[1]
    made = place.copied(now - 80 * 3600)
    assert copy_point()[0] == "critical", copy_point()
    made = place.copied(now - 26 * 3600)
    assert copy_point()[0] == "warning" and "26 hours old" in copy_point()[1], copy_point()
    # A copy of another city isn't one of this, and an unfinished one none.
    for other in name_at(now, "city-2"), name_at(now, "town"), "city.new":
        (place.folder / "copies" / other).touch()
    assert copy_point()[0] == "warning", copy_point()
    made = place.copied(now - 24 * 3600)
    assert copy_point() == ("ok", copy_point()[1]) and "checked as it was made; 3 in all" in copy_point()[1]
    assert "check said sound" in copy_point("--check")[1]
    with_other = {"env": {**os.environ, "BIKESHARE": "/bin/false", "PATH": f"{place.folder}/bin:{os.environ['PATH']}"}}
    assert "check said sound" in place.look("--check", port=1, **with_other)[2]["copy"][1], "it was checked again"
    data = bytearray(made.read_bytes())
    data[-2000:] = b"x" * 2000
    made.write_bytes(data)
    assert copy_point("--check")[0] == "critical" and "sound" not in copy_point("--check")[1].split("check said")[1][:7]
    made.write_bytes(b"no database" * 100)
    assert copy_point()[0] == "critical" and "it is no database" in copy_point()[1], copy_point()
    made = place.copied(now)
    (place.folder / "copies/city.new.unfinished").mkdir()
    assert copy_point()[0] == "ok", copy_point()
    os.utime(place.folder / "copies/city.new.unfinished", (now - 7200, now - 7200))
    assert copy_point()[0] == "warning" and "was left by one that failed" in copy_point()[1], copy_point()
    (place.folder / "copies/city.new.unfinished").rmdir()
    place.units(bikeshare_backup={"ActiveState": "failed"})
    assert copy_point()[0] == "warning" and "the last one failed" in copy_point()[1], copy_point()


def test_a_disk_that_is_full(program):
    """On a disk that is nearly full room is critical."""
    if not can_mount(program, "watch.test_a_disk_that_is_full"):
        return
    place = Place(program)
    here = place.folder / "small"
    here.mkdir()
    for length, wanted in ((8 << 20, "critical"), (24 << 20, "ok")):
        with disk(here, length):
            accepted(program, CITY, file="small/city.db")
            room = place.look("--file", str(here / "city.db"), without=("--file",), port=1)[2]["room"]
            assert room[0] == wanted, (length, room)
            with contextlib.suppress(OSError), open(here / "fill", "wb", buffering=0) as file:
                while True:
                    file.write(bytes(65536))
            status, _, points = place.look("--file", str(here / "city.db"), without=("--file",), port=1)
            assert status == 2 and points["room"][0] == "critical" and "0 bytes free" in points["room"][1], points
    assert place.look("--file", str(here / "city.db"), without=("--file",), port=1)[2]["room"][0] == "critical"


def test_when_room_is_used_up(program):
    """By the growth since an earlier look, or since the oldest copy; copies on the same disk grow too."""
    city(program)
    place, now = Place(program), time.time()
    length = (place.folder / "city.db").stat().st_size
    free = os.statvfs(place.folder).f_bavail * os.statvfs(place.folder).f_frsize
    assert "isn't known yet" in place.look(port=1)[2]["room"][1]
    for growth, wanted in ((length / 10, "ok"), (free / 20, "ok"), (free / 5, "warning"), (free, "critical")):
        place.state.write_text(json.dumps({"samples": [[now - 86400, length - min(growth, length)]]}))
        look = watch.Look(watch.parser().parse_args(["city", "--state", str(place.state)]))
        look.file, look.copies, look.now = str(place.folder / "city.db"), "/nowhere", now
        # A file that grew so much needn't be made: as long as the sample is shorter the growth is what counts.
        rate, since = watch.growth(look, length - min(growth, length) + growth)
        assert abs(rate - growth / 86400) < 1e-6 and round(since) == 86400, (growth, rate, since)
    # What is kept is one sample an hour, of the last fortnight, and none from before a copy was restored.
    samples = [[now - 20 * 86400, 1], [now - 86400, 1], [now - 7200, 10 * length]]
    place.state.write_text(json.dumps({"samples": samples}))
    text = place.look(port=1)[2]["room"][1]
    length = (place.folder / "city.db").stat().st_size + watch.length_of(place.folder / "city.db-wal")
    kept = json.loads(place.state.read_text())["samples"]
    grown = "by the growth of 24 hours it is full in"
    assert [it[1] for it in kept] == [1, length] and grown in text, (kept, text)
    assert json.loads(place.state.read_text())["samples"] == kept and place.look(port=1), kept
    # Without a look before, the oldest copy tells.
    place.state.unlink()
    (place.folder / "copies" / name_at(now - 3 * 86400)).write_bytes(b"SQLite format 3\0")
    assert "by the growth of 3 days it is full in" in place.look(port=1)[2]["room"][1]


def test_old_feeds(program):
    """Feeds through the gateway may be two ttl old; a city whose time is ahead of the clock is told by the clock."""
    city(program)
    place, now = Place(program), time.time()
    for age, status, wanted in ((20, 200, "ok"), (200, 200, "warning"), (7200, 200, "critical"), (0, 503, "critical")):
        with planners_see(now - age, status) as url:
            found = place.look("--url", url, port=1)[2]["passes"]
            assert found[0] == wanted, (age, status, found)
    assert place.look("--url", f"http://127.0.0.1:{free_port()}", port=1)[2]["passes"][0] == "critical"
    accepted(program, ["mark-dock\ta1\t2\tworking"], at=int(now) + 5000, key="ahead")
    with Server(program) as server:
        status, _, points = place.look(port=server.port)
    assert status == 2 and points["clock"][0] == "critical" and "ahead of the clock" in points["clock"][1], points


def test_the_clock(program):
    """A time server tells how far the clock is wrong; one that isn't there is no fault of the clock."""
    city(program)
    place = Place(program)
    for ahead, wanted in ((0, "ok"), (10, "warning"), (-90, "critical")):
        with time_server(ahead) as server:
            found = place.look("--time-server", server, port=1)[2]["clock"]
            assert found[0] == wanted and ("ahead of" if ahead < 0 else "s behind") in found[1] or not ahead, found
    found = place.look("--time-server", f"127.0.0.1:{free_port()}", port=1)[2]["clock"]
    assert "isn't reached" in found[1] and found[0] != "critical", found


def test_requests_of_the_log(program):
    """The share of 503, and the slowest POST, within the span; also over the turn of the log, and past lines that are
    none."""
    city(program)
    place, now = Place(program), time.time()
    point = lambda: place.look(port=1)[2]["requests"]
    good = "".join(logged(now - 5 * it) for it in range(99, 0, -1))
    place.log.write_text(logged(now - 1000, 503) + good)
    assert point()[0] == "ok" and point()[1].startswith("99 requests"), point()
    place.log.write_text(good + logged(now, 503))
    assert point()[0] == "warning" and "100 requests in 15 minutes, 1 of them 503 (1.0 %)" in point()[1], point()
    place.log.write_text(good + logged(now, 503, seconds="") * 10 + logged(now, 429))
    assert point()[0] == "critical" and "10 of them 503 (9.1 %), 1 429" in point()[1], point()
    place.log.write_text(good + logged(now, seconds="1.250") + logged(now, request="GET / HTTP/1.1", seconds="9.000"))
    assert point() == ("warning", point()[1]) and "the slowest POST took the program 1.250 s" in point()[1], point()
    place.log.write_text("not JSON\n[1]\n{}\n" + logged(now, seconds="0.001, 0.002") + '{"at":')
    Path(f"{place.log}.1").write_text(good)
    assert point()[0] == "ok" and point()[1].startswith("100 requests"), point()
    place.log.unlink()
    assert point()[0] == "unknown" and "give --log" in point()[1], point()


def test_stations_and_bicycles(program):
    """Stations that haven't reported for the hours that are given; those that are closed don't count."""
    city(program, "add-station\ta2\tCastle\t41.9\t12.5\t3")
    place = Place(program)
    with Server(program) as server:
        status, _, points = place.look(port=server.port)
        assert points["stations"][0] == "warning" and "2 of 2 haven't reported for 24 hours" in points["stations"][1]
        assert place.look("--silent", "999999", port=server.port)[2]["stations"][0] == "ok"
        server.ask(office("c", "set-station\ta2\tfalse\tfalse\tfalse"))
        server.ask(office("b", "mark-bike\t7\tdisabled"))
        points = place.look(port=server.port)[2]
        assert points["stations"][0] == "ok" and points["stations"][1].startswith("1 installed;"), points["stations"]
        assert points["bicycles"][0] == "warning" and points["bicycles"][1].startswith("0 can be taken"), points


def test_restarts_and_the_gateway(program):
    """systemd's count grows by a restart since the last look, and only that is a warning."""
    city(program)
    place = Place(program)
    for count, wanted in (("3", "ok"), ("3", "ok"), ("5", "warning"), ("5", "ok"), ("0", "ok")):
        place.units(**{"bikeshare@": {"NRestarts": count}})
        assert place.look(port=1)[2]["restarts"][0] == wanted, count
    place.units(**{"bikeshare@": {"ActiveState": "failed", "SubState": "failed"}})
    assert place.look(port=1)[2]["restarts"][0] == "critical"
    place.units(**{"bikeshare@": {"LoadState": "not-found"}, "bikeshare_gateway": {"ActiveState": "inactive"}})
    points = place.look(port=1)[2]
    assert points["restarts"][0] == "unknown" and points["gateway"] == ("critical", "inactive"), points
    place.units(bikeshare_gateway={"UnitFileState": "disabled"})
    assert place.look(port=1)[2]["gateway"][0] == "unknown"
    old = place.folder / "sleep"
    shutil.copy(shutil.which("sleep"), old)
    with subprocess.Popen([old, "60"]) as running:
        old.unlink()
        place.units(bikeshare_gateway={"MainPID": str(running.pid)})
        assert place.look(port=1)[2]["gateway"][0] == "warning", place.look(port=1)[2]["gateway"]
        running.kill()
    (place.folder / "bin/systemctl").write_text("#!/bin/sh\necho 'System has not been booted' >&2\nexit 1\n")
    points = place.look(port=1)[2]
    assert points["restarts"] == points["gateway"] == ("unknown", "System has not been booted"), points


@needs("openssl")
def test_the_certificate(program):
    """How long the certificate is good that the gateway shows."""
    city(program)
    place = Place(program)
    for days, wanted in ((1, "critical"), (10, "warning"), (90, "ok"), (20000, "ok")):
        names = [place.folder / f"{days}.{it}" for it in ("pem", "key")]
        made = ran(
            "openssl", "req", "-x509", "-newkey", "ec", "-pkeyopt", "ec_paramgen_curve:prime256v1", "-nodes", "-days",
            days, "-subj", "/CN=metro.example", "-out", names[0], "-keyout", names[1],
        )
        assert made[0] == 0, made
        with planners_see(time.time(), certificate=names) as url:
            points = place.look("--url", url, port=1)[2]
            # A certificate that nobody knows isn't let through as a planner would ask.
            assert points["certificate"][0] == wanted and points["passes"][0] == "critical", (days, points)
            left = float(re.search(r"good for ([\d,.]+) days", points["certificate"][1])[1].replace(",", ""))
            assert days - 0.1 < left <= days, (days, left)


def test_what_cant_be_seen(program):
    """Whatever can't be read is unknown with its reason, and the others are told; so it is where the state can't be
    written, or is none."""
    city(program)
    place = Place(program)
    place.copied(time.time())
    for text in "", "[]", "{", '{"samples": 7, "restarts": "x", "checked": {}}', '{"samples": [[1], ["a", 2]]}':
        place.state.write_text(text)
        points = place.look(port=1)[2]
        assert points["copy"][0] == "ok" and "memory" in points and "state" not in points, (text, points)
    status, _, points = place.look("--state", "/proc/none/state.json", port=1, without=("--state",))
    assert points["state"][0] == "unknown" and status == 2, points
    status, _, points = place.look("--state", "/proc/none/state.json", without=("--state",))
    assert points["serves"][0] == "unknown" and "give --port" in points["serves"][1], points
    if not os.geteuid():
        os.chmod(program.folder, 0o755)
        for it in ("copies", "city.log"):
            os.chmod(place.folder / it, 0)
        points = place.look(port=1, user=NOBODY, group=NOBODY, extra_groups=[])[2]
        assert points["copy"][0] == points["requests"][0] == "unknown" and points["memory"][0] == "ok", points
        assert "Permission denied" in points["copy"][1], points


SAMPLE = re.compile(r'([a-z_]+)\{((?:[a-z_]+="(?:[^"\\\n]|\\[\\"n])*",?)+)\} (-?[0-9.e+-]+)')


def figures_in(text):
    """The samples of a text for a textfile collector, by name and labels, held to the form."""
    assert text.endswith("\n") and "\n\n" not in text, text
    found, kinds, now = {}, {}, None
    for line in text.splitlines():
        if line.startswith("# HELP "):
            now = line.split(" ")[2]
            assert now not in kinds and len(line.split(" ", 3)[3]) > 10, line
        elif line.startswith("# TYPE "):
            name, kind = line.split(" ")[2:]
            assert name == now and name not in kinds and kind in ("gauge", "counter"), line
            assert (kind == "counter") == name.endswith("_total"), line
            kinds[name] = kind
        else:
            name, labels, value = SAMPLE.fullmatch(line).groups()
            assert name == now and name in kinds and (name, labels) not in found, line
            found[name, labels] = float(value)
    return found


def test_figures_for_prometheus(program):
    """The text has the form of a textfile collector, the levels and figures of the same look, and the status 0."""
    city(program)
    place = Place(program)
    place.copied(time.time() - 3600)
    with Server(program) as server, time_server() as clock, planners_see(time.time()) as url:
        words = "--time-server", clock, "--url", url
        points = place.look(*words, port=server.port)[2]
        status, text, _ = place.look(*words, "--prometheus", port=server.port)
    found = figures_in(text)
    assert status == 0, text
    for name, (level, _) in points.items():
        assert found["bikeshare_point", f'city="city",point="{name}"'] == watch.LEVELS.index(level), (name, level)
    told = {name: value for (name, labels), value in found.items() if labels == 'city="city"'}
    told = {name.removeprefix("bikeshare_"): value for name, value in told.items()}
    length = (place.folder / "city.db").stat().st_size + watch.length_of(f"{place.folder}/city.db-wal")
    assert told["file_bytes"] == length and told["copies"] == 1 and told["stations"] == 1, told
    assert abs(told["looked_seconds"] - time.time()) < 60 and 3590 < told["copy_age_seconds"] < 3700, told
    rest = {"disk_full_seconds", "certificate_seconds", "clock_synchronized"}
    assert told.keys() - {"looked_seconds"} - rest == watch.FIGURES.keys() - rest, told.keys() ^ watch.FIGURES.keys()
    assert watch.escaped('a"b\\c\n') == r"a\"b\\c\n"
    # Of a city that is stopped the text is whole too.
    status, text, _ = place.look("--prometheus", port=free_port())
    assert status == 0 and figures_in(text)["bikeshare_point", 'city="city",point="serves"'] == 2, text


def test_words_page_and_completion(program):
    """A wrong command line has the status 3. The manual page has the points and options of the script, and bash
    proposes them."""
    for words in ("", "a/b", "city --port x", "city --since -1", "city other", "city --pro"):
        status, said = ran(SCRIPT, *words.split())
        assert status == 3 and said.startswith("usage: bikeshare-watch "), (words, status, said)
    status, said = ran(SCRIPT, "--help")
    options = re.findall(r"^  (--[a-z-]+)(?: ([A-Z]+))?", said, re.M)
    page = sections_of(PAGE.read_text(encoding="utf-8"))
    assert status == 0 and len(options) == 11, options
    assert sorted(it for it, _ in page["OPTIONS"] if it) == sorted(" ".join(it).strip() for it in options), page
    assert [it for it, _ in page["POINTS"] if it] == list(watch.POINTS), page["POINTS"]
    assert {it for it, _ in page["EXIT STATUS"] if it} == {"0", "1", "2", "3"}
    copy = Path(program.folder, "alone")
    shutil.copy(SCRIPT, copy)
    status, said = ran(sys.executable, "-I", "-S", copy, "nowhere", "--state", Path(program.folder, "s"), "--port", "1")
    assert status == 2 and said.startswith("nowhere CRITICAL"), (status, said)
    script = f'. "{COMPLETION}"; COMP_WORDS=("$@"); COMP_CWORD=$(($# - 1)); _bikeshare_watch'
    script += '; printf "%s\\n" "${COMPREPLY[@]}"'
    completed = []
    for words in ("x", "-"), ("x", "--port", ""), ("x", "--file", "al"):
        said = ran("bash", "-c", script, "bash", "bikeshare-watch", *words, cwd=program.folder)[1]
        completed.append(sorted(said.split()))
    assert completed == [sorted(name for name, _ in options), [], ["alone"]], completed
