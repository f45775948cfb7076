"""The logs of the gateway: that no stranger fills them, what stands in a line and in which file, that they are begun
anew, and that a full one ends nothing.

They need nginx, those about turning the logs logrotate too. Where there is none a line says so.
"""

import contextlib
import functools
import json
import os
import re
import resource
import shutil
import signal
import socket
import subprocess
import threading
import time
from pathlib import Path

from operating import DEPLOY, SECONDS, TOKENS, Gateway, plain_copy
from restarts import Unit
from shared import FEEDS, Server, can_mount, city, disk, is_sound, needs, ran

LONG = "x/" + "a" * 7000


def logs_of(gateway):
    """The bytes of all that the gateway writes down."""
    return sum(it.stat().st_size for it in gateway.folder.rglob("*.log"))


def lines_of(gateway, name="metro"):
    text = (gateway.folder / f"logs/{name}.log").read_text(encoding="utf-8")
    return [json.loads(it) for it in text.splitlines()]


def flooded(port, request, count, at_once=10, most=1000):
    """Sends a request so often, over a connection for each thousand, and returns how many answers had each status."""
    found, guard = {}, threading.Lock()

    def send(times):
        with socket.create_connection(("127.0.0.1", port), timeout=SECONDS) as client:
            thread = threading.Thread(target=lambda: client.sendall(request * times))
            thread.start()
            data, seen = b"", 0
            while seen < times:
                piece = client.recv(1 << 20)
                if not piece:
                    break
                data += piece
                each = re.findall(rb"HTTP/1\.1 (\d{3}) ", data)
                seen += len(each)
                with guard:
                    for it in each:
                        found[int(it)] = found.get(int(it), 0) + 1
                # What may be the begin of the next head stays.
                data = data[data.rindex(b"HTTP/1.1 ") + 13 :] if each else data
            thread.join()

    left = [min(most, count - at) for at in range(0, count, most)]

    def work():
        while left:
            with contextlib.suppress(IndexError):
                send(left.pop())

    threads = [threading.Thread(target=work) for _ in range(at_once)]
    for it in threads:
        it.start()
    for it in threads:
        it.join()
    return found


def asking(path, *fields, method="GET", host="metro.example"):
    return "\r\n".join([f"{method} /{path} HTTP/1.1", f"Host: {host}", *fields, "", ""]).encode()


@needs("nginx")
def test_no_stranger_fills_the_logs(program):
    """40,000 requests of 7 KB without a token, some with one that nobody knows, with a body that is too long, at other
    hosts and at feeds' paths that aren't there, add nothing to the logs. All but a few are turned away by the limit."""
    city(program)
    with Server(program) as server, Gateway(program, {"metro": server.port}) as gateway:
        before = logs_of(gateway)
        found = flooded(gateway.port, asking(LONG), 40_000)
        assert sum(found.values()) == 40_000 and found.keys() == {401, 429}, found
        assert found[401] < 5_000, found
        for request, status in (
            (asking(LONG, f"Authorization: Bearer {'9' * 32}"), {401, 429}), (asking(LONG, host="other"), {421}),
            (asking(f"gbfs/{LONG}"), {404}), (asking("gbfs/3.0/gbfs.json", method="PUT"), {405}),
            (asking(LONG, "Content-Length: 99999999", method="POST"), {413}), (asking("%zz"), {400}),
            (asking("gbfs/3.0/gbfs.json"), {200, 429}),
        ):
            # Behind a body that isn't read, and a request that can't be, the connection is closed.
            single = status & {400, 413}
            found = flooded(gateway.port, request, 100 if single else 2_000, most=1 if single else 1000)
            assert found.keys() <= status and sum(found.values()) >= 100, (request[:60], found)
        # One line for each time that the program was asked for a feed, at most once in its ttl.
        assert logs_of(gateway) - before < 2_000, logs_of(gateway) - before
        # They are counted.
        text = (gateway.folder / "nginx.conf").read_text(encoding="utf-8")
        inner = int(re.search(r"listen 127\.0\.0\.1:(\d+);\n\s+server_name metro_feeds;", text)[1])
        with socket.create_connection(("127.0.0.1", inner)) as client:
            client.sendall(b"GET /status HTTP/1.0\r\n\r\n")
            told = client.makefile("rb").read().decode()
        assert int(re.search(r"^ \d+ \d+ (\d+)", told, re.M)[1]) > 48_000, told


@needs("nginx")
def test_a_full_disk(program):
    """Of a city and its gateway on one small disk: strangers take none of its room. Once it is full a POST is answered
    503 and ends the program, which shows rows again once the unit has started it, and the gateway goes on, with new
    feeds too. The first POST after there is room is accepted."""
    if not can_mount(program, "gateway_logs.test_a_full_disk"):
        return
    here = Path(program.folder, "disk")
    here.mkdir()
    # nginx runs as another user.
    here.parent.chmod(0o755)
    (feeds := here.parent / "feeds").mkdir()
    feeds.chmod(0o777)
    with disk(here, 64 << 20):
        program.folder = str(here)
        city(program)
        with Unit(program) as unit:
            unit.comes_back("first")
            with Gateway(program, {"metro": unit.port}, feeds=f"{feeds}/") as gateway:

                def post(key):
                    body = json.dumps({"key": key, "command": "top-up\t17\t1"})
                    return gateway.told("POST", "/office", "office:anna", body)[0]

                before = os.statvfs(here).f_bfree
                flooded(gateway.port, asking(LONG), 10_000)
                assert post("open") == 200 and before - os.statvfs(here).f_bfree < 16, "strangers take room"
                with contextlib.suppress(OSError), open(here / "fill", "wb", buffering=0) as file:
                    while True:
                        file.write(bytes(4096))
                assert [gateway.told("GET", f"/gbfs/3.0/{it}.json")[0] for it in FEEDS] == [200] * len(FEEDS)
                # A few still find room in the city's log.
                keys = (f"full{it}" for it in range(100))
                found = list(iter(lambda: post(next(keys)), 503))
                assert set(found) <= {200}, found
                for turn in range(3):
                    unit.wait(lambda: gateway.told("GET", "/riders/17", "office:anna")[0] == 200, "no row is shown")
                    assert post(f"turn{turn}") == 503
                unit.wait(lambda: len(unit.ends) == 4, "it goes on without room")
                assert unit.ends == [3] * 4, unit.ends
                (here / "fill").unlink()
                # Until the program is started again the gateway has no answer of it.
                unit.wait(lambda: gateway.told("GET", "/riders/17", "office:anna")[0] == 200, "no row is shown")
                assert post("last") == 200 and gateway.child.poll() is None
        is_sound(program)


@needs("nginx")
def test_what_stands_in_a_line(program):
    """The city's host, the caller by name, sizes and times, no body and no token, and so much of a request's line; each
    city has its own file."""
    city(program)
    plain_copy(Path(program.folder), "rome.db")
    tokens = {"metro": TOKENS, "rome": {"office:bruno": "0b" * 16}}
    with Server(program) as one, Server(program, file="rome.db") as two:
        with Gateway(program, {"metro": one.port, "rome": two.port}, tokens) as gateway:
            body = json.dumps({"key": "secret-key", "command": "top-up\t17\t123"})
            assert gateway.told("POST", "/office", "office:anna", body) == (200, "")
            assert gateway.told("GET", f"/{LONG}", "rider:17")[0] == 403
            assert gateway.told("GET", "/gbfs/3.0/gbfs.json")[0] == 200
            assert gateway.told("POST", "/office", "0b" * 16, body, "rome.example") == (200, "")
            one.stop()
            assert gateway.told("GET", "/riders/17", "office:anna")[0] == 503
            assert gateway.told("GET", "/gbfs/3.0/system_regions.json")[0] == 503
        metro, rome = lines_of(gateway), lines_of(gateway, "rome")
        text = "".join(it.read_text() for it in gateway.folder.rglob("*.log"))
    assert [(it["host"], it["caller"], it["status"]) for it in metro] == [
        ("metro.example", "office:anna", 200), ("metro.example", "rider:17", 403), ("metro.example", "", 200),
        ("metro.example", "office:anna", 503), ("metro.example", "", 503),
    ], metro
    assert [(it["host"], it["caller"], it["request"]) for it in rome] == [
        ("rome.example", "office:bruno", "POST /office HTTP/1.1")
    ], rome
    first = metro[0]
    assert float(first["program_seconds"]) >= 0 and first["seconds"] >= 0 and first["bytes_out"] > 36, first
    assert first["bytes_in"] > len(body) and re.fullmatch(r"\d{4}-\d\d-\d\dT[\d:]{8}[+-]\d\d:\d\d", first["at"]), first
    assert len(metro[1]["request"]) == 160 and len(json.dumps(metro[1])) < 600, metro[1]
    assert not [it for it in ("secret-key", "top-up", *TOKENS.values(), "0b" * 16) if it in text], text


@needs("nginx")
def test_callers_that_ask_too_much(program):
    """Of a known caller's requests that its limit turns away one of a hundred is written down, also of those that it
    mayn't ask."""
    city(program)
    with Server(program) as server, Gateway(program, {"metro": server.port}) as gateway:
        for caller, path in (("rider:17", "riders/17"), ("rider:17", "bikes/7"), ("office:anna", LONG)):
            request = asking(path, f"Authorization: Bearer {TOKENS[caller]}")
            found = flooded(gateway.port, request, 3_000)
            away = found[429]
            assert away > 2_500 and found.keys() <= {200, 403, 429}, (path, found)
            rows = [it for it in lines_of(gateway) if it["status"] == 429]
            assert 0 < len(rows) < away / 25 and {it["caller"] for it in rows} == {caller}, (path, len(rows), away)
            (gateway.folder / "logs/metro.log").write_text("")
        assert logs_of(gateway) < 100_000


@needs("nginx")
def test_a_log_that_is_full(program):
    """Where a log has reached the unit's limit, nginx goes on answering, and the limit holds."""
    unit = (DEPLOY / "bikeshare-gateway.service").read_text(encoding="utf-8")
    assert re.search(r"^LimitFSIZE=128M$", unit, re.M) and """ExecStart=/usr/bin/sh -c 'trap "" XFSZ; exec """ in unit
    city(program)
    with Server(program) as server, limited(4096), Gateway(program, {"metro": server.port}) as gateway:
        for at in range(60):
            body = json.dumps({"key": f"n{at}", "command": "top-up\t17\t1"})
            assert gateway.told("POST", "/office", "office:anna", body) == (200, ""), at
        assert 3500 < (gateway.folder / "logs/metro.log").stat().st_size <= 4096


@contextlib.contextmanager
def limited(most):
    """Has what is begun within write no file beyond this length, and ignore the signal for that, as the unit does."""

    def limit():
        signal.signal(signal.SIGXFSZ, signal.SIG_IGN)
        resource.setrlimit(resource.RLIMIT_FSIZE, (most, most))

    begin = subprocess.Popen
    subprocess.Popen = functools.partial(begin, restore_signals=False, preexec_fn=limit)
    try:
        yield
    finally:
        subprocess.Popen = begin


@needs("nginx")
@needs("logrotate")
def test_logs_are_begun_anew(program):
    """deploy/logrotate.conf, as the unit runs it: a long log gets another name and a new one is written, old ones are
    compressed and removed, and nothing that is asked meanwhile is lost."""
    city(program)
    with Server(program) as server, Gateway(program, {"metro": server.port}) as gateway:
        text = (DEPLOY / "logrotate.conf").read_text(encoding="utf-8")
        assert text.count("/var/lib/bikeshare-gateway") == 3, text
        settings = gateway.folder / "logrotate.conf"
        settings.write_text(text.replace("/var/lib/bikeshare-gateway", str(gateway.folder)))
        logs, about = gateway.folder / "logs", (gateway.folder / "logs").stat()
        user = {"user": about.st_uid, "group": about.st_gid, "extra_groups": []} if not os.geteuid() else {}
        words = [shutil.which("logrotate") or "/usr/sbin/logrotate", "--state", gateway.folder / "state", settings]

        def turn():
            assert ran(*words, **user) == (0, ""), ran(*words, **user)

        def ask(at):
            body = json.dumps({"key": f"n{at}", "command": "top-up\t17\t1"})
            assert gateway.told("POST", "/office", "office:anna", body) == (200, ""), at

        ask(0)
        turn()
        assert sorted(it.name for it in logs.glob("metro*")) == ["metro.log"], "a short log of today was turned"
        for at in range(1, 18):
            with open(logs / "metro.log", "r+b") as file:
                # A file of that length needs no room where nothing was written.
                file.truncate(33 << 20)
            turn()
            until = time.monotonic() + SECONDS
            while (logs / "metro.log").stat().st_size == 0:
                ask(f"{at}-{time.monotonic_ns()}")
                assert time.monotonic() < until, "nginx writes into the old one"
        names = sorted(it.name for it in logs.glob("metro*"))
        assert len(names) == 15 and "metro.log.1" in names and "metro.log.14.gz" in names, names
        # nginx writes a line once it has answered, so that more than one may have been asked for.
        assert lines_of(gateway) and (logs / "metro.log.1").stat().st_size >= 33 << 20, lines_of(gateway)
        assert (logs / "metro.log").stat().st_mode & 0o777 == 0o640


@needs("systemd-analyze")
def test_units_of_the_logs(program):
    """systemd knows each line of the units, the gateway's unit starts the timer, and the timer the unit."""
    folder = Path(program.folder)
    for name in "bikeshare-gateway.service", "bikeshare-logs.service", "bikeshare-logs.timer":
        text = (DEPLOY / name).read_text(encoding="utf-8").replace("/opt/bikeshare/deploy", str(DEPLOY))
        (folder / name).write_text(re.sub("/usr/sbin/(nginx|logrotate)", "/bin/true", text))
    status, said = ran("systemd-analyze", "verify", *sorted(folder.glob("bikeshare-*")))
    assert status == 0 and "Unknown" not in said, said
    gateway = (DEPLOY / "bikeshare-gateway.service").read_text(encoding="utf-8")
    assert re.search(r"^Wants=.*\bbikeshare-logs\.timer$", gateway, re.M), gateway
    assert "PartOf=bikeshare-gateway.service" in (DEPLOY / "bikeshare-logs.timer").read_text(encoding="utf-8")
