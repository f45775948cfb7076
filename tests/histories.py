"""The history of a city: a row for each accepted request in the order of their acceptance, numbered from 1, with the
city's moment after it, by lines, HTTP and imports. What is refused or comes again has none. The requests of a history,
sent at their moments, make the city anew.
"""

import random
import time
from pathlib import Path

import model
import raising
import tampered
import traffic
from shared import (
    CITY, DONE, HEADER, SOUND, START, STARTED, Server, accepted, changed, city, copied, get, get_feed, is_sound, office,
    post, quickly, refused, removed, rows_of,
)
from system_faults import System

DAY, HOUR, SLACK = 86_400, 3600, 2
BEGUN = 1699999200


def history(program, file="city.db"):
    """The rows of a history in their order, texts as bytes."""
    with copied(program.folder, file) as base:
        base.text_factory = bytes
        return base.execute("SELECT * FROM history ORDER BY number").fetchall()


def answered(lines):
    """An operator of the document after these lines, and its answers."""
    operator = model.Operator()
    return operator, [operator.answer(line) for line in lines]


def wanted(operator):
    """The rows of an operator's history."""
    return [(number, *it) for number, it in enumerate(operator.history, 1)]


def jumping(lines, seed):
    """The lines, of which some have an earlier moment or a later one."""
    pick = random.Random(f"{seed} moments")
    for line in lines:
        moment, rest = line.split("\t", 1)
        ahead = pick.choice([0, 0, 0, -DAY, -HOUR, -1, 1, HOUR]) if pick.random() < 0.5 else 0
        yield f"{max(0, int(moment) + ahead)}\t{rest}"


def sent(program, lines, file="city.db", parts=1):
    """Sends the lines, in so many runs, and holds the answers and the history to the operator's."""
    operator, answers = answered([it.rstrip("\n").encode() for it in lines])
    step = -(-len(lines) // parts)
    for at in range(0, len(lines), step):
        ended = program.run("lines", file, given="".join(lines[at : at + step]).encode())
        assert ended == (0, traffic.joined(answers[at : at + step]), b""), (at, ended)
    rows = history(program, file)
    assert rows == wanted(operator), [it for it in zip(rows, wanted(operator)) if it[0] != it[1]][:3]
    is_sound(program, file)
    return rows


@quickly
def test_lines_of_traffic(program):
    """Some are refused, some come again, some have a wrong moment; the file is opened anew in their midst."""
    for seed in 11, 12:
        lines = list(jumping(traffic.made(seed, 900)[0], seed))
        rows = sent(program, lines, parts=3)
        moments = [it[1] for it in rows]
        assert 500 < len(rows) < len(lines) - 50 and moments == sorted(moments) and len(set(moments)) > 30, seed
        removed(program.folder, "city.db")


def again(program, file):
    """Makes a city of the requests of another one's history, which is all of that city."""
    given = b"".join(b"%d\t%s\t%s\t%s\n" % it[1:5] for it in history(program, file))
    told = traffic.joined(it[5] for it in history(program, file))
    assert program.run("lines", "again.db", given=given) == (0, told, b"")
    one, other = (raising.held(Path(program.folder, it)) for it in (file, "again.db"))
    assert one.rows == other.rows, [it for it in one.rows if one.rows[it] != other.rows[it]]
    feeds = [program.run("feed", it, "station_information", "--at", "1800000000") for it in (file, "again.db")]
    assert feeds[0] == feeds[1]
    removed(program.folder, "again.db")


@quickly
def test_a_history_is_its_city(program):
    """Its requests make it anew, each at its own moment: all tables are the same."""
    Path(program.folder, "made.db").write_bytes(tampered.made(program)[0])
    again(program, "made.db")
    sent(program, list(jumping(traffic.made(13, 600)[0], 13)))
    again(program, "city.db")


def test_what_has_no_row(program):
    """What is refused, what can't be read, and what comes again, whatever its moment."""
    city(program)
    before = history(program)
    far = BEGUN + DAY
    for line, answer in (
        (f"{far}\toffice\tn1\tadd-rider\t17", "refused\t10\talready_there"),
        (f"{far}\toffice\tn1\tadd-rider\tx", "refused\t11\tbad_field"), (f"{far}\toffice", "refused\t11\tbad_field"),
        (f"{far}\toffice\tf12\tadd-rider\t18", "refused\t33\tkey_reused"), (f"{far}\toffice\tf12\tadd-rider\t17", "ok"),
        (f"0\toffice\tf13\ttop-up\t17\t2500", "balance\t2500"),
    ):
        assert program.run("lines", "city.db", given=f"{line}\n".encode()) == (0, f"{answer}\n".encode(), b""), line
        assert history(program) == before, line
    # A key that was refused is free, and one belongs to its caller.
    for number, (line, row) in enumerate([
        (f"{BEGUN - 5}\toffice\tn1\tadd-rider\t18", (BEGUN, b"office", b"n1", b"add-rider\t18", b"ok")),
        (f"{BEGUN + 5}\tcrew:3\tn1\tadd-rider\t19", (BEGUN + 5, b"crew:3", b"n1", b"add-rider\t19", b"ok")),
        (
            f"{BEGUN + 2}\trider:17\tn1\tmove-station\ta1\t-0.5\t9",
            (BEGUN + 5, b"rider:17", b"n1", b"move-station\ta1\t-0.500000\t9.000000", b"ok"),
        ),
    ], 14):
        assert program.run("lines", "city.db", given=f"{line}\n".encode()) == (0, b"ok\n", b""), line
        assert history(program)[number - 1 :] == [(number, *row)], (line, history(program)[number - 1 :])
    assert len(history(program)) == 16
    is_sound(program)


def test_moments_of_posts(program):
    """They are the clock's at the acceptance, or that of the row above, where that is later."""
    city(program)
    system, wanted, least = System(program), [], BEGUN
    refusal = refused(14, "dock_broken")
    with Server(program, env=system.env) as server:
        for ahead, request, answer in (
            (0, office("n1", "add-rider\t18"), DONE), (HOUR, get("/riders/17"), None),
            (HOUR, post("/riders/17/start", '{"key":"n2","station":"a1","dock":2}'), refusal),
            (HOUR, office("n1", "add-rider\t18"), DONE), (0, post("/riders/17/start", START), STARTED),
            (2 * HOUR, post("/docks/a1/end", '{"key":"n3","bike":7,"dock":1}'), None),
            (HOUR, office("n4", "add-rider\t19"), DONE), (-DAY, office("n5", "add-rider\t20"), DONE),
            (3 * HOUR, get_feed("station_status"), None), (2 * HOUR, office("n6", "add-rider\t21"), DONE),
            (DAY, office("n7", "add-rider\t22"), DONE), (0, office("n8", "add-rider\t23"), DONE),
        ):
            system.clock(ahead)
            before, count = time.time() + ahead, len(history(program))
            found = server.ask(request)
            assert answer in (None, found) and found.startswith(b"HTTP/1.1 ") and b" 503 " not in found[:13], found
            rows = history(program)[count:]
            if rows:
                ((number, moment, *_),) = rows
                assert number == count + 1 and max(least, before - 1) <= moment <= max(least, before + SLACK), (
                    ahead, request, rows, before, least
                )
                wanted.append((rows[0][3], ahead))
                least = moment
    assert wanted == [
        (b"n1", 0), (b"s1", 0), (b"n3", 2 * HOUR), (b"n4", HOUR), (b"n5", -DAY), (b"n6", 2 * HOUR), (b"n7", DAY),
        (b"n8", 0),
    ], wanted
    ((now,),) = rows_of("SELECT max(moment) FROM history", program.folder, "city.db")
    assert now == least
    is_sound(program)


def test_rows_of_an_import(program):
    """They have its moment, or the city's, where that is later, and stand in the order of the table."""
    city(program)
    for at, name in (BEGUN + 60, "one"), (BEGUN, "two"), (BEGUN + 90, "one"):
        table = HEADER + "".join(f"{name}{number},Place,{number},0,1\n" for number in (3, 1, 2))
        ended = program.run("import", "city.db", name, "--at", str(at), given=table.encode())
        assert ended == (0, b"rows 3\n", b""), ended
    rows = [
        (14 + at, BEGUN + 60, f"import:{name}".encode(), b"row-%d" % (at % 3 + 1))
        for at, name in enumerate(["one"] * 3 + ["two"] * 3)
    ]
    assert [it[:4] for it in history(program)[13:]] == rows, history(program)[13:]
    names = [it[4].split(b"\t")[1] for it in history(program)[13:]]
    assert names == [b"one3", b"one1", b"one2", b"two3", b"two1", b"two2"], names


def test_moments_of_a_raised_file(program):
    """What an earlier schema kept is at moment 0, and what comes then at its own."""
    accepted(program, CITY, key="f")
    file = Path(program.folder, "city.db")
    raising.lowered(file, 2)
    raising.is_raised(program, file, 2)
    accepted(program, ["add-rider\t18", "add-rider\t19"], at=BEGUN - DAY, key="n")
    accepted(program, ["add-rider\t20"], at=BEGUN + DAY, key="m")
    moments = [it[1] for it in history(program)]
    assert moments == [0] * 13 + [BEGUN, BEGUN, BEGUN + DAY], moments
    assert program.run("lines", "city.db", given=b"0\toffice\tf12\tadd-rider\t17\n") == (0, b"ok\n", b"")
    assert len(history(program)) == 16
    is_sound(program)


def test_the_last_numbers(program):
    """A history whose last number is the greatest that a row can have isn't without a gap, so no file has one."""
    city(program)
    file = Path(program.folder, "city.db")
    for number in 2**63 - 1, 2**63 - 2, 2**32:
        changed(file, f"UPDATE history SET number = {number} WHERE number >= 13")
        assert program.run("check", "city.db") == (5, b"", b"unsound history %d\n" % number), number
    changed(file, "UPDATE history SET number = 13 WHERE number > 13")
    assert program.run("check", "city.db") == SOUND
