"""What reads the history: `history FILE [AFTER]` prints it as the request lines that make the city again, from where it
begins in a file that was upgraded or of which requests were archived; GET /history/AFTER shows it in pages, and `day
FILE requests` has a day of it as a table. All only look.
"""

import csv
import io
import json
import random
from datetime import datetime, timezone
from pathlib import Path

import adoption
import archived
import histories
import kept_files
import raising
import tampered
import traffic
from days import REQUESTS, ROME, table
from shared import (
    CITY, FEEDS, Server, accepted, answer, ask, body_of, changed, city, error, feed, get, holds, is_sound, office, post,
    quickly, removed, requests_of,
)

LAST = 2**63 - 1


def ended(program, *after, file="city.db"):
    """How `history` ends, and that the file stays as it is."""
    before = {it.name: it.read_bytes() for it in Path(program.folder).glob(f"{file}*")}
    found = program.run("history", file, *map(str, after))
    assert {it.name: it.read_bytes() for it in Path(program.folder).glob(f"{file}*")} == before, "the file was changed"
    return found


def printed(program, *after, file="city.db"):
    """The lines that `history` prints, alone on standard output."""
    status, out, said = ended(program, *after, file=file)
    assert (status, said) == (0, b""), (after, status, said)
    return out


def lines_of(rows):
    """The request lines of rows of a history."""
    return b"".join(b"%d\t%s\t%s\t%s\n" % row[1:5] for row in rows)


def text_of(moment):
    return datetime.fromtimestamp(moment, timezone.utc).strftime("%Y-%m-%dT%H:%M:%SZ")


def shown(rows):
    """The body of a page of these rows."""
    members = ({
        "number": number, "moment": text_of(moment), "caller": caller.decode(), "key": key.decode(),
        "command": command.decode(), "reply": reply.decode(),
    } for number, moment, caller, key, command, reply in rows)
    told = ",".join(json.dumps(it, ensure_ascii=False, separators=(",", ":")) for it in members)
    return f'{{"requests":[{told}]}}'


def made(program, seed=21, count=700):
    """A city of traffic, whose moments jump, and the rows of its history."""
    lines = list(histories.jumping(traffic.made(seed, count)[0], seed))
    assert program.run("lines", "city.db", given="".join(lines).encode())[0] == 0
    return histories.history(program)


@quickly
def test_the_lines_make_the_city_again(program):
    """`history city.db | lines new.db` answers what was recorded, and all tables and feeds of it are the same, of a
    city of all commands and languages and of ones of traffic."""
    (Path(program.folder) / "city.db").write_bytes(tampered.made(program)[0])
    for turn in range(3):
        rows = histories.history(program)
        given = printed(program)
        assert given == printed(program, 0) == lines_of(rows), turn
        assert program.run("lines", "again.db", given=given) == (0, traffic.joined(it[5] for it in rows), b"")
        one, other = (raising.held(Path(program.folder, it)) for it in ("city.db", "again.db"))
        assert one.rows == other.rows, [it for it in one.rows if one.rows[it] != other.rows[it]]
        for name in FEEDS:
            assert feed(program, name, at="1900000000") == feed(program, name, at="1900000000", file="again.db"), name
        is_sound(program, "again.db")
        removed(program.folder, "city.db")
        removed(program.folder, "again.db")
        made(program, seed=30 + turn)


@quickly
def test_a_copy_goes_on(program):
    """What is behind a copy's last number makes it the city, from each of some numbers on."""
    rows, pick = made(program), random.Random("history copies")
    for last in [0, 1, len(rows) - 1, len(rows), *pick.sample(range(2, len(rows) - 1), 5)]:
        removed(program.folder, "copy.db")
        assert program.run("lines", "copy.db", given=lines_of(rows[:last]))[0] == 0
        given = printed(program, last)
        assert given == lines_of(rows[last:]), last
        told = traffic.joined(it[5] for it in rows[last:])
        assert program.run("lines", "copy.db", given=given) == (0, told, b""), last
        assert histories.history(program, "copy.db") == rows, last


def test_a_history_up_to_a_moment(program):
    """As docs/OPERATING.md cuts it: the city as it was then."""
    rows = made(program)
    moment = rows[len(rows) // 2][1]
    given = b"".join(it for it in printed(program).splitlines(keepends=True) if int(it.split(b"\t")[0]) <= moment)
    front = [it for it in rows if it[1] <= moment]
    assert given == lines_of(front) and len(rows) // 2 < len(front) < len(rows)
    assert program.run("lines", "then.db", given=given)[0] == 0
    assert histories.history(program, "then.db") == front


def test_where_nothing_is_behind(program):
    """Of a city without requests, of one without tables, and behind the last number nothing is printed."""
    assert program.run("init", "city.db")[0] == 0
    assert printed(program) == printed(program, 0) == printed(program, LAST) == b""
    changed(Path(program.folder, "notes.db"), "CREATE TABLE notes (note TEXT)")
    assert printed(program, file="notes.db") == printed(program, 7, file="notes.db") == b""
    assert program.run("history", ":memory:") == program.run("history", ":memory:", "7") == (0, b"", b"")
    city(program)
    assert printed(program, 12) == requests_of([CITY[12]], first=13, key="f")
    assert printed(program, 13) == printed(program, 14) == printed(program, LAST) == b""
    assert printed(program) == requests_of(CITY, key="f")


def begins(program, file, number):
    """Holds that a file's history begins behind this number: its lines are those behind it, and an AFTER below has the
    number as its answer, and nothing is printed."""
    rows = histories.history(program, file)
    behind = [it for it in rows if it[0] > number]
    last = max([number, *(it[0] for it in rows)])
    assert printed(program, file=file) == lines_of(behind), number
    for after in {number, number + 1, last, last + 1, LAST}:
        assert printed(program, after, file=file) == lines_of(it for it in behind if it[0] > after), after
    for after in {0, 1, number // 2, number - 2, number - 1} & set(range(number)):
        assert ended(program, after, file=file) == (5, b"", b"begins %d\n" % number), after
    return behind


# The commands that follow on an upgrade of the city of docs/FORMATS.md.
LATER = ["top-up\t17\t5", "add-region\tnorth\tNorth", "set-rider\t17\tblocked", "set-rider\t17\topen"]


def later(program, file, at=raising.AT, key="n"):
    """Sends those commands, which are the 14th to 17th requests."""
    return ask(program, LATER, at, file=file, key=key)


@quickly
def test_an_upgraded_file(program):
    """Of each earlier schema: what was accepted after the upgrade is printed, also at the moment of the last request
    before, and makes the city from a copy of just after the upgrade."""
    for version in raising.OLD:
        file = raising.of_sql(program.folder, version)
        raising.is_raised(program, file, version)
        assert begins(program, file.name, 13) == [], version
        upgraded = file.read_bytes()
        told = later(program, file.name, raising.AT - 7)
        told += ask(program, ["top-up\t17\t6"], raising.AT + 9, file=file.name, key="p")
        behind = begins(program, file.name, 13)
        assert [it[:2] for it in behind] == [(14 + it, raising.AT) for it in range(4)] + [(18, raising.AT + 9)], version
        Path(program.folder, "copy.db").write_bytes(upgraded)
        given = printed(program, file=file.name)
        assert program.run("lines", "copy.db", given=given) == (0, "".join(f"{it}\n" for it in told).encode(), b"")
        assert raising.held(Path(program.folder, "copy.db")).rows == raising.held(file).rows, version
        removed(program.folder, "copy.db")


@quickly
def test_files_that_earlier_programs_wrote(program):
    for name, version in raising.KEPT:
        file = kept_files.unpacked(program, name)
        before = raising.is_raised(program, file, version)
        count = len(before.rows["kept"])
        assert begins(program, file.name, count) == [], name
        assert ask(program, ["add-region\tlate\tLate"], 1900000000, file=file.name, key="late") == ["ok"], name
        assert len(begins(program, file.name, count)) == 1, name


@quickly
def test_moments_of_0(program):
    """A city of this version all of whose requests came at moment 0 begins with the first one. So does one that was at
    moment 0 when it was upgraded: of such requests the moment is known."""
    ask(program, CITY, 0)
    assert len(begins(program, "city.db", 0)) == 13
    file = raising.of_sql(program.folder, 3)
    changed(file, "UPDATE meta SET now = 0; UPDATE stations_3 SET reported = 0; UPDATE entries SET at = 0")
    raising.is_raised(program, file, 3)
    later(program, file.name)
    assert [it[1] for it in begins(program, file.name, 0)] == [0] * 13 + [raising.AT] * 4


@quickly
def test_archived_requests(program):
    """The history begins behind those that were archived, of each number of them; entries and rentals alone leave it
    whole."""
    whole = adoption.made(program, "city.db").read_bytes()
    file = Path(program.folder, "city.db")
    for counts in (0, 3, 1), (1, 0, 0), (2, 1, 0), (20, 3, 1), (archived.REQUESTS - 1, 4, 1), (archived.REQUESTS, 4, 1):
        file.write_bytes(whole)
        archived.archive(file, *counts)
        is_sound(program)
        assert len(begins(program, "city.db", counts[0])) == archived.REQUESTS - counts[0], counts
        accepted(program, ["top-up\t18\t7"], at=adoption.NOW + 3, key="late")
        assert len(begins(program, "city.db", counts[0])) == archived.REQUESTS + 1 - counts[0], counts


@quickly
def test_archived_requests_of_an_upgraded_file(program):
    """It begins behind the upgrade as long as a request from before is there, or the last one was archived; and behind
    the archived ones once they are more."""
    for count, wanted in (1, 13), (12, 13), (13, 13), (14, 14), (17, 17):
        file = raising.of_sql(program.folder, 2)
        raising.is_raised(program, file, 2)
        later(program, file.name)
        archived.archive(file, count, 0, 0)
        is_sound(program, file.name)
        assert len(begins(program, file.name, wanted)) == 17 - wanted, count
        removed(program.folder, file.name)


def test_words_that_are_no_number(program):
    """AFTER is a whole number within the bounds of a row's; others are mistakes of the command line."""
    city(program)
    for after in "-1", "+1", "01", "00", "1.0", "x", "", " 1", "1e3", str(LAST + 1), "9" * 40:
        status, out, said = program.run("history", "city.db", *(["--"] if after.startswith("-") else []), after)
        assert (status, out) == (2, b"") and said.startswith(b"bikeshare: "), (after, status, out, said)
    assert program.run("history", "city.db", "1", "2")[0] == 2
    assert program.run("history")[0] == 2


@quickly
def test_pages(program):
    """A page has the first 64 behind a number, a row each, and none behind the last; pages one behind the other are the
    history."""
    rows = made(program)
    with Server(program) as server:
        found, last = [], 0
        while True:
            body = body_of(server.ask(get(f"/history/{last}"))).decode()
            wanted = rows[last : last + 64]
            assert body == shown(wanted), last
            found += json.loads(body)["requests"]
            if not wanted:
                break
            last = wanted[-1][0]
        assert [it["number"] for it in found] == list(range(1, len(rows) + 1))
        for last in 0, 1, 63, 64, 65, len(rows) - 65, len(rows) - 64, len(rows) - 1, len(rows), len(rows) + 1, LAST:
            assert server.ask(get(f"/history/{last}")) == answer(200, shown(rows[last : last + 64])), last
    assert histories.history(program) == rows, "a page changed the history"


def test_a_page_of_what_json_escapes(program):
    """Names of other languages, quotes, backslashes, TABs and control characters come as they were written."""
    names = [
        "Hafen \u00fc\u20ac\U0001f6b2", 'a "quoted" one', "back\\\\slash", "a\\tTAB and \\n line",
        "\u0001\u001f\u007f",
    ]
    city(program, *(f"add-region\tr{at}\t{name}" for at, name in enumerate(names)))
    with Server(program) as server:
        body = body_of(server.ask(get("/history/13")))
        assert [it["command"] for it in json.loads(body)["requests"]] == [
            f"add-region\tr{at}\t{name}" for at, name in enumerate(names)
        ]
        assert body.startswith(
            '{"requests":[{"number":14,"moment":"2023-11-14T22:00:00Z","caller":"office","key":"f14",'
            '"command":"add-region\\tr0\\tHafen \u00fc\u20ac\U0001f6b2","reply":"ok"},'.encode()
        ), body


def test_the_longest_page(program):
    """64 of the longest commands that there are, all of whose characters are escaped, come whole."""
    name, text = "\\\\" * 120, "\\\\" * 200
    long = f"{name}\t{text}\t{text}\t{text}\t{text}\t60"
    city(program)
    accepted(program, [f"change-system\t{long}" for _ in range(70)], first=100, key="x" * 58)
    rows = histories.history(program)
    with Server(program) as server:
        found = server.ask(get("/history/13"))
        assert found == answer(200, shown(rows[13:77])) and len(found) > 230_000, len(found)
    given = printed(program)
    assert given == lines_of(rows) and max(map(len, given.splitlines())) < 4096


def test_routes(program):
    """Numbers that are none are no path, and there is GET alone. Without a request there is a page without a row."""
    assert program.run("init", "city.db")[0] == 0
    wrong = "x", "", "-1", "+1", "00", "01", "1.0", str(LAST + 1), "9" * 40, "1/", "%31"
    holds(program, [
        *((get(f"/history/{it}"), error(404)) for it in wrong), (get("/history"), error(404)),
        (get("/history/0"), answer(200, '{"requests":[]}')), (get(f"/history/{LAST}"), answer(200, '{"requests":[]}')),
        (get("/history/7?x"), answer(200, '{"requests":[]}')), (post("/history/0", "{}"), error(405, "GET")),
    ])


def test_what_is_in_no_page(program):
    """What is refused, comes again or is only read isn't there; what is accepted is at once."""
    city(program)
    with Server(program) as server:
        server.ask(office("n1", "add-rider\t17"))
        server.ask(office("f12", "add-rider\t17"))
        server.ask(get("/riders/17"))
        assert server.ask(get("/history/13")) == answer(200, '{"requests":[]}')
        server.ask(post("/office/anna", '{"key":"n1","command":"add-rider\\t18"}'))
        (row,) = json.loads(body_of(server.ask(get("/history/13"))))["requests"]
    assert list(row) == ["number", "moment", "caller", "key", "command", "reply"] and row | {"moment": ""} == {
        "number": 14, "moment": "", "caller": "office:anna", "key": "n1", "command": "add-rider\t18", "reply": "ok"
    }, row


@quickly
def test_days(program):
    """The third table of a day has the requests whose moments lie in it, each as the history has it, and reads back as
    CSV."""
    rows = made(program)
    days = {text_of(it[1])[:10] for it in rows}
    assert len(days) > 1
    count = 0
    for day in sorted(days):
        found = list(csv.reader(io.StringIO(table(program, "requests", day, "UTC0"), newline="")))
        wanted = [it for it in rows if text_of(it[1]).startswith(day)]
        assert found[0] == REQUESTS.strip().split(","), found[0]
        assert found[1:] == [
            [str(it[0]), text_of(it[1]), *(part.decode() for part in it[2:])] for it in wanted
        ], day
        count += len(wanted)
    assert count == len(rows)


def test_a_day_of_requests(program):
    """Fields with quotes and commas are quoted as CSV has it; a day has the bounds that other tables have."""
    ask(program, CITY)
    for at, command in (1711839599, "add-region\tr1\tOne"), (1711839600, 'add-region\tr2\tA "B", c'), (
        1711922399, "add-rider\t18"
    ), (1711922400, "add-rider\t19"):
        assert ask(program, [command], at, first=at) == ["ok"]
    assert table(program, "requests", "2024-03-31", ROME) == REQUESTS + (
        '15,2024-03-30T23:00:00Z,office,k1711839600,"add-region\tr2\tA ""B"", c",ok\n'
        "16,2024-03-31T21:59:59Z,office,k1711922399,add-rider\t18,ok\n"
    )
    assert table(program, "requests", "2024-04-02", ROME) == REQUESTS
