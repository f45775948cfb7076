"""deploy/bikeshare-office over a running city and over servers of the tests: what it sends of a file of commands or of
a table, that the same file does nothing twice, how it waits, and where it ends.

The test through the gateway needs nginx, and a line says where there is none.
"""

import contextlib
import http.server
import json
import os
import re
import shutil
import signal
import subprocess
import sys
import threading
import time
from pathlib import Path

from operating import TOKENS, Gateway
from package import sections_of
from shared import HEADER, SOUND, TOP, Server, city, free_port, line_of, needs, ran, rows_of

SCRIPT = TOP / "deploy/bikeshare-office"
PAGE, COMPLETION = TOP / "deploy/bikeshare-office.1", TOP / "deploy/bikeshare-office.bash"
SECONDS = 30
STATIONS = f"{HEADER.strip()},region_id\nb1,\"Corso, north\",41.9,12.5,10,centre\nb2,Bär\\,41.91,12.51,8,\n"


def office(program, url, name, text=None, *words, **env):
    """The status of a sending, and its lines: those of answers, and those beside."""
    if text is not None:
        Path(program.folder, name).write_text(text, encoding="utf-8")
    how = {"cwd": program.folder, "capture_output": True, "text": True, "timeout": SECONDS}
    done = subprocess.run([SCRIPT, url, name, *words], env={**os.environ, **env}, check=False, **how)
    return done.returncode, done.stdout.splitlines(), done.stderr.splitlines()


def here(server):
    return f"http://127.0.0.1:{server.port}"


def kept(program):
    """The requests that the city keeps whose keys a file's name begins."""
    query = "SELECT req_key, command, reply FROM history WHERE req_key GLOB '*-[0-9]*' ORDER BY number"
    return rows_of(query, program.folder, "city.db")


def test_a_file_that_is_sent_twice(program):
    """Each row is one request, whatever its kind of file, and the same file again does nothing and has the same
    answers. What is added behind follows."""
    city(program)
    with Server(program) as server:
        found = office(program, here(server), "regions.csv", "region_id,name\ncentre,Centre\n")
        assert found == (0, ["row 1: ok: add-region⇥centre⇥Centre"], ["1 accepted, 0 refused"]), found
        found = office(program, here(server), "spring.csv", STATIONS)
        wanted = [
            "row 1: ok: add-station⇥b1⇥Corso, north⇥41.9⇥12.5⇥10", "row 1: ok: set-region⇥b1⇥centre",
            "row 2: ok: add-station⇥b2⇥Bär\\\\⇥41.91⇥12.51⇥8",
        ]
        assert found == (0, wanted, ["3 accepted, 0 refused"]), found
        found = office(program, here(server), "fleet.csv", "\ufeffbike,type\r\n8,city\r\n9,city\r\n")
        assert found[0] == 0 and found[1][1] == "row 2: ok: add-bike⇥9⇥city", found
        money = "# of March\ntop-up\t17\t100\n\nadd-rider\t18\ntop-up\t18\t250\n"
        first = office(program, here(server), "2026-03.txt", money)
        wanted = ["line 2: ok balance_cents 2600: top-up⇥17⇥100", "line 4: ok: add-rider⇥18"]
        assert first[0] == 0 and first[1][:2] == wanted, first
        before = kept(program)
        assert [it[0] for it in before if it[0].startswith("2026")] == ["2026-03-2", "2026-03-4", "2026-03-5"], before
        assert office(program, here(server), "2026-03.txt") == first and kept(program) == before
        more = office(program, here(server), "2026-03.txt", money + "top-up\t18\t1\n")
        assert more[1][:3] == first[1] and more[1][3] == "line 6: ok balance_cents 251: top-up⇥18⇥1", more
        names = server.told("/gbfs/3.0/station_information.json")["data"]["stations"]
        assert [it["name"][0]["text"] for it in names][1:] == ["Corso, north", "Bär\\"], names
    assert program.run("check", "city.db") == SOUND


def test_rows_that_are_refused(program):
    """A refused row has its number and name, and the rows behind it are sent; so it is with one that was changed since
    it was sent, which has a hint."""
    city(program)
    with Server(program) as server:
        status, lines, said = office(program, here(server), "a.csv", "bike,type\n8,none\n9,city\n7,city\n10,city\n")
        assert (status, said) == (1, ["2 accepted, 2 refused"]), (status, lines, said)
        assert [re.sub(r"\d+ ", "", it.split(": ")[1]) for it in lines] == [
            "refused unknown_type", "ok", "refused already_there", "ok"
        ], lines
        # One that was refused may be put right, and one that was accepted may not be another.
        status, lines, _ = office(program, here(server), "a.csv", "bike,type\n8,city\n11,city\n")
        assert status == 1 and lines[0] == "row 1: ok: add-bike⇥8⇥city", lines
        assert "key_reused: this row was another when it was sent first" in lines[1], lines
        assert office(program, here(server), "a.csv", None, "--name", "anna-2")[0] == 1
        assert [it[0] for it in kept(program)][-1] == "anna-2-2", kept(program)
        status, lines, _ = office(program, here(server), "b.txt", "add-rider\tx\nadd-rider\t19\n")
        assert status == 1 and "bad_field" in lines[0] and lines[1].startswith("line 2: ok"), lines


def test_a_server_that_goes_away(program):
    """Rows wait for it, in the midst of a file and before its first one. None is sent in another order, lost or done
    twice."""
    city(program)
    port, count = free_port(), 60
    (Path(program.folder) / "riders.csv").write_text("rider\n" + "".join(f"{it}\n" for it in range(100, 100 + count)))

    def serve(*words):
        child = program.start("serve", "city.db", "--port", str(port), *words)
        assert line_of(child), "it doesn't serve"
        return child

    words = [SCRIPT, f"http://127.0.0.1:{port}", "riders.csv"]
    with subprocess.Popen(words, cwd=program.folder, stdout=subprocess.PIPE, stderr=subprocess.PIPE) as sending:
        time.sleep(0.3)
        child = serve("--count", "20")
        child.communicate(timeout=SECONDS)
        child = serve()
        # A kill in the midst of it.
        while len(kept(program)) < 30:
            time.sleep(0.01)
        child.send_signal(signal.SIGKILL)
        child.communicate()
        child = serve()
        out, said = sending.communicate(timeout=SECONDS)
        child.kill()
        child.communicate()
    assert sending.returncode == 0 and b"no answer" in said and b"waiting" in said, (sending.returncode, said)
    assert out.count(b": ok: add-rider") == count and b"row 1: no answer" in said, out
    assert [it[0] for it in kept(program)] == [f"riders-{it}" for it in range(1, count + 1)], kept(program)
    assert program.run("check", "city.db") == SOUND


@contextlib.contextmanager
def answering(*answers):
    """A server that gives these answers in turn, each a status, a body and further fields, and the last one from then
    on; its address, and each request with its moment."""
    asked, left = [], list(answers)

    class Handler(http.server.BaseHTTPRequestHandler):
        def do_POST(self):
            body = self.rfile.read(int(self.headers["Content-Length"]))
            asked.append((time.monotonic(), self.path, self.headers["Authorization"], json.loads(body)))
            status, text, fields = left.pop(0) if len(left) > 1 else left[0]
            if status == 0:
                return
            self.send_response(status)
            for name, value in {"Content-Length": str(len(text)), **fields}.items():
                self.send_header(name, value)
            self.end_headers()
            self.wfile.write(text.encode())

        def log_message(self, *_):
            pass

    with http.server.ThreadingHTTPServer(("127.0.0.1", 0), Handler) as server:
        thread = threading.Thread(target=server.serve_forever)
        thread.start()
        try:
            yield f"http://127.0.0.1:{server.server_address[1]}", asked
        finally:
            server.shutdown()
            thread.join()


OK = 200, '{"result":"ok"}', {}


def test_it_waits(program):
    """At 429, 503, and where an answer is missing or cut short, it waits longer each time, as long at least as it is
    told, and sends the same request."""
    busy = [(429, "{}", {"Retry-After": "2"}), (503, "{}", {}), (0, "", {}), (200, "{}", {"Content-Length": "90"})]
    with answering(busy[0], OK) as (url, asked):
        assert office(program, url, "a.txt", "add-rider\t17\n")[0] == 0
        assert len(asked) == 2 and asked[1][0] - asked[0][0] >= 2 and asked[0][1:] == asked[1][1:], asked
    with answering(*busy[1:], OK) as (url, asked):
        status, lines, said = office(program, url, "a.txt", "add-rider\t17\nadd-rider\t18\n")
        assert status == 0 and len(asked) == 5 and len(lines) == 2, (status, lines, said, asked)
        pauses = [two[0] - one[0] for one, two in zip(asked, asked[1:])]
        assert all(pause >= wanted for pause, wanted in zip(pauses, (1, 2, 4))) and pauses[3] < 1, pauses
        assert [it[3]["key"] for it in asked] == ["a-1"] * 4 + ["a-2"], asked
        assert said[0] == "line 1: 503: waiting" and len(said) == 2, said
    with answering((503, "{}", {})) as (url, asked):
        status, lines, said = office(program, url, "a.txt", "add-rider\t17\n", "--patience", "2")
        assert status == 3 and not lines and len(asked) == 2, (status, lines, said, asked)
        assert said[-1].startswith("ended before line 1 (0 of 1 requests were answered): 503 for 2 seconds."), said


def test_where_it_ends(program):
    """Where it is no use to go on it says why, and no further row is sent. The token is a file's or a variable's."""
    folder = Path(program.folder)
    (folder / "token").write_text(f"{'0f' * 16}\n")
    for status, word in (401, "token"), (403, "office's"), (404, "no /office"), (421, "host name"), (301, "address"):
        with answering(OK, (status, '{"result":"error","name":"x"}', {})) as (url, asked):
            ended = office(program, url, "a.txt", "add-rider\t17\nadd-rider\t18\nadd-rider\t19\n", "--token", "token")
            assert ended[0] == 3 and len(ended[1]) == 1 and word in ended[2][-1], (status, ended)
            assert "ended before line 2 (1 of 3" in ended[2][-1] and len(asked) == 2, (status, ended)
            assert asked[0][1:3] == ("/office", f"Bearer {'0f' * 16}"), asked
    with answering(OK) as (url, asked):
        assert office(program, f"{url}/metro/", "a.txt", BIKESHARE_TOKEN="abc")[0] == 0
        assert asked[0][1:3] == ("/metro/office", "Bearer abc"), asked
        assert asked[0][3] == {"key": "a-1", "command": "add-rider\t17"}, asked
    # An answer of another kind is told, and counts as a refusal.
    for answer in (400, '{"result":"error","name":"bad_request"}', {}), (200, "[]", {}), (500, "<html>", {}):
        with answering(answer) as (url, asked):
            ended = office(program, url, "a.txt")
            assert ended[0] == 1 and ended[1][0].startswith(f"line 1: answered {answer[0]}"), ended


def test_files_that_are_wrong(program):
    """Of a file that isn't right nothing is sent, and one line says why."""
    folder = Path(program.folder)
    wrong = {
        "a.csv": "station_id;name;lat;lon;docks\na;b;1;1;1\n", "b.csv": "bike,type\n8\n", "c.csv": 'bike,type\n8,"ci\n',
        "d.txt": "1767225600\toffice\tk\tadd-rider\t1\n", "e.txt": "add-rider\t1\n7\n", "f.txt": "\n# none\n",
        "g.csv": "bike,type\n", "h.txt": "Add-rider 7\n", f"{'x' * 60}.txt": "add-rider\t1\n",
    }
    (folder / "utf16.txt").write_text("add-rider\t1\n", encoding="utf-16")
    with answering(OK) as (url, asked):
        for name, text in [*wrong.items(), ("none.txt", None), ("utf16.txt", None)]:
            status, lines, said = office(program, url, name, text)
            assert (status, lines, len(said)) == (2, [], 1) and said[0].startswith(f"{name}: "), (name, status, said)
        assert office(program, url, "a.txt", "add-rider\t1\n", "--name", "a b")[0] == 2
        assert office(program, url, "a.txt", None, "--token", "none")[0] == 2
        for bad in "metro.example", "ftp://metro.example", "http://":
            assert office(program, bad, "a.txt")[0] == 2, bad
        assert not asked, asked


def test_a_dry_run(program):
    """The doctor looks at the rows, with their numbers, and nothing is sent."""
    table = f"{HEADER}b1,Corso,41.9,12.5,10\nb2,,41.9,12.5,600\nb3,HÃ´tel,91,12.5,8\n"
    with answering(OK) as (url, asked):
        status, lines, _ = office(program, url, "a.csv", table, "--dry-run")
        assert status == 1 and [re.match("row [0-9]+, [a-z]+", it)[0] for it in lines] == [
            "row 2, name", "row 2, docks", "row 3, lat", "row 3, name"
        ], lines
        assert office(program, url, "a.csv", f"{HEADER}b1,Corso,41.9,12.5,10\n", "--dry-run") == (0, [], [])
        # What isn't in the file may be in the city.
        assert office(program, url, "b.csv", "bike,type\n7,city\n", "--dry-run") == (0, [], [])
        status, lines, _ = office(program, url, "a.txt", "# new\nadd-ridr\t7\n", "--dry-run")
        assert status == 1 and lines[0].startswith("line 2, command: bad_field: 'add-ridr' is no command"), lines
        assert not asked, asked
        # Without the doctor it says so.
        shutil.copy(SCRIPT, Path(program.folder, "office"))
        env = {**os.environ, "PATH": "/nowhere"}
        status, said = ran(sys.executable, "office", url, "a.csv", "--dry-run", cwd=program.folder, env=env)
        assert status == 2 and "there is no bikeshare-doctor" in said, said


@needs("nginx")
def test_through_the_gateway(program):
    """With the token of one of the staff more rows than its rate lets through at once are all accepted; with another's
    none is."""
    city(program)
    rows = "rider\n" + "".join(f"{it}\n" for it in range(100, 300))
    with Server(program) as server, Gateway(program, {"metro": server.port}) as gateway:
        # The gateway knows the city by its host name, which leads here.
        url = f"http://127.0.0.1:{gateway.port}"
        assert office(program, url, "a.csv", rows, BIKESHARE_TOKEN=TOKENS["office:anna"])[0] == 3
        text = SCRIPT.read_text(encoding="utf-8").replace('"Content-Type"', '"Host": "metro.example", "Content-Type"')
        named = Path(program.folder, "named")
        named.write_text(text, encoding="utf-8")
        env = {**os.environ, "BIKESHARE_TOKEN": TOKENS["office:anna"]}
        status, said = ran(sys.executable, named, url, "a.csv", cwd=program.folder, env=env, timeout=SECONDS)
        assert status == 0 and "200 accepted, 0 refused" in said and "429: waiting" in said, (status, said[-300:])
        env["BIKESHARE_TOKEN"] = TOKENS["rider:17"]
        status, said = ran(sys.executable, named, url, "a.csv", cwd=program.folder, env=env)
        assert status == 3 and "403" in said, said
    assert len(kept(program)) == 200


def test_words_page_and_completion(program):
    """The manual page has the options and statuses of the script, and bash proposes them."""
    for words in ("", "http://x", "http://x a --patience x", "http://x a b"):
        status, said = ran(SCRIPT, *words.split())
        assert status == 2 and said.startswith("usage: bikeshare-office "), (words, status, said)
    status, said = ran(SCRIPT, "--help")
    options = re.findall(r"^  (--[a-z-]+)(?: ([A-Z]+))?", said, re.M)
    page = sections_of(PAGE.read_text(encoding="utf-8"))
    assert status == 0 and [it for it, _ in page["OPTIONS"] if it] == [" ".join(it).strip() for it in options], page
    assert {it for it, _ in page["EXIT STATUS"] if it} == {"0", "1", "2", "3"}
    script = SCRIPT.read_text(encoding="utf-8")
    tables = {",".join(re.findall('"([a-z_]+)"', it)) for it in re.findall(r"^    \((.*)\): \"", script, re.M)}
    assert len(tables) == 6 and {it for it, _ in page["FILES"] if it} == {"commands"} | {
        it for it in tables if not it.endswith("docks,region_id")
    }, (tables, page["FILES"])
    Path(program.folder, "a.csv").touch()
    given = f'. "{COMPLETION}"; COMP_WORDS=("$@"); COMP_CWORD=$(($# - 1)); _bikeshare_office'
    given += '; printf "%s\\n" "${COMPREPLY[@]}"'
    completed = []
    for words in (("-",), ("",), ("http://x", "a"), ("http://x", "a", "--name", "")):
        said = ran("bash", "-c", given, "bash", "bikeshare-office", *words, cwd=program.folder)[1]
        completed.append(said.split())
    assert completed == [[name for name, _ in options], [], ["a.csv"], []], completed
