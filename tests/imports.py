"""Stations from CSV, as `import` reads them: the worked tables, what counts as the header and as a row, what is left
after a fault, and tables from a seeded generator, of which the wanted answers are those of the operator in model.py.

A sample of made tables stands in the gate. By hand more, from the environment:

    BIKESHARE_MADE=2000 BIKESHARE_SEED=7 tests/run imports.

BIKESHARE_MADE is how many are made, BIKESHARE_SEED what they are made from; a failure tells the seed and the table.
"""

import contextlib
import json
import os
import random
import re
import resource
import subprocess
from pathlib import Path

import formats
import hostile
import model
import shared
from days import CITY
from shared import HEADER, READ_FAILED, data_of, held, is_sound, quickly, removed, rows_of

MADE = int(os.environ.get("BIKESHARE_MADE", "120"))
SEED = int(os.environ.get("BIKESHARE_SEED", "1"))
SECONDS = 60

ROWS = 'c1,Canal,45.0,9.1,10\nc2,"Corso, north",45.000001,9.2,12\nc3,Castle,45,9.3,8\n'
AT = "1700000000"
IMPORT = ["import", "city.db", "spring", "--at", AT]


def load(program, table, name="spring", *words):
    """Imports a table, and returns the status, the output and what is said of a fault."""
    given = table if isinstance(table, bytes) else table.encode()
    status, out, said = program.run("import", "city.db", name, *(words or ("--at", AT)), given=given)
    return status, out.decode(), said.decode()


def stations(program):
    """The stations in the file: identifier, name, latitude, longitude in microdegrees, docks."""
    return rows_of(
        "SELECT station_id, name, lat, lon, docks FROM stations_4 ORDER BY station_id", program.folder, "city.db"
    )


def test_worked_tables(program):
    assert load(program, HEADER + ROWS.replace("45,9.3", "91,9.3")) == (1, "", "row 3 bad_field\n")
    assert [row[0] for row in stations(program)] == ["c1", "c2"]
    assert load(program, HEADER + ROWS) == (0, "rows 3\n", "")
    wanted = [
        ("c1", "Canal", 45000000, 9100000, 10),
        ("c2", "Corso, north", 45000001, 9200000, 12),
        ("c3", "Castle", 45000000, 9300000, 8),
    ]
    assert stations(program) == wanted, stations(program)
    before = (Path(program.folder) / "city.db").read_bytes()
    assert load(program, HEADER + ROWS) == (0, "rows 3\n", "")
    assert stations(program) == wanted
    assert load(program, HEADER + ROWS.replace("Canal", "Kanal")) == (1, "", "row 1 key_reused\n")
    assert load(program, HEADER + ROWS, "summer") == (1, "", "row 1 already_there\n")
    assert stations(program) == wanted
    is_sound(program)
    assert before[:16] == b"SQLite format 3\0"


def test_rows_are_kept_as_requests(program):
    assert load(program, HEADER + ROWS) == (0, "rows 3\n", "")
    kept = rows_of("SELECT caller, req_key, command, reply FROM history ORDER BY number", program.folder, "city.db")
    assert [row[:2] for row in kept] == [("import:spring", f"row-{number}") for number in (1, 2, 3)], kept
    assert (
        kept[1][2] == "add-station\tc2\tCorso, north\t45.000001\t9.200000\t12" and {row[3] for row in kept} == {"ok"}
    ), kept
    again = f"{AT}\timport:spring\trow-1\tadd-station\tc1\tCanal\t45\t9.1\t10\n".encode()
    assert program.run("lines", "city.db", given=again) == (0, b"ok\n", b"")


def test_moment(program):
    system = (
        "1600000000\toffice\tk1\tset-system\tmetro\ten\tMetro\t24/7\tfeeds@example.org\tEtc/UTC\tEUR\thttp:"
        "//127.0.0.1:8080\t30\n"
    )
    assert program.run("lines", "city.db", given=system.encode()) == (0, b"ok\n", b"")
    assert load(program, HEADER + "c1,Canal,45,9.1,10\n", "spring", "--at", AT)[0] == 0
    (station,) = data_of(program, "station_status", at=AT)["stations"]
    assert station["last_reported"] == "2023-11-14T22:13:20Z", station
    status, out, said = program.run("import", "city.db", "autumn", given=(HEADER + "c2,Corso,45,9.1,10\n").encode())
    assert (status, out, said) == (0, b"rows 1\n", b"")


def test_headers(program):
    row = "c1,Canal,45,9.1,10\n"
    for header in (
        "", "\n", "station_id,name,lat,lon\n", "name,station_id,lat,lon,docks\n", "station_id, name,lat,lon,docks\n",
        "Station_id,name,lat,lon,docks\n", "station_id,name,lat,lon,docks,\n", "station_id;name;lat;lon;docks\n",
    ):
        assert load(program, header + (row if header.strip() else "")) == (1, "", "bad header\n"), header
    assert load(program, row) == (1, "", "bad header\n")
    assert load(program, b"\xff,name,lat,lon,docks\n" + row.encode()) == (1, "", "bad header\n")
    assert stations(program) == []
    for number, header in enumerate((
        HEADER.replace("\n", "\r\n"), '"station_id",name,"lat",lon,docks\n', "\n\n" + HEADER, "\ufeff" + HEADER
    )):
        assert load(program, header + f"d{number},Canal,45,9.1,10\n", f"n{number}") == (0, "rows 1\n", ""), header
    for table in (HEADER, HEADER.rstrip("\n"), HEADER + "\n\n"):
        assert load(program, table, "none") == (0, "rows 0\n", ""), table


def test_rows_of_every_form(program):
    table = (
        HEADER
        + 'q1,"He said ""ciao""",45,9.1,10\r\n'
        + '\nq2,"two\nlines",-0.000001,-180,1\n'
        + "q3,back\\tslash,90,180,500\n"
        + '"q4",Last,-90,"9.1","7"'
    )
    assert load(program, table) == (0, "rows 4\n", ""), load(program, table)
    assert stations(program) == [
        ("q1", 'He said "ciao"', 45000000, 9100000, 10),
        ("q2", "two\nlines", -1, -180000000, 1),
        ("q3", "back\\tslash", 90000000, 180000000, 500),
        ("q4", "Last", -90000000, 9100000, 7),
    ], stations(program)
    is_sound(program)


def test_500_docks_and_501(program):
    assert load(program, HEADER + "c1,Canal,45,9.1,500\nc2,Corso,45,9.1,499\nc3,Castle,45,9.1,501\n") == (
        1, "", "row 3 bad_field\n"
    )
    assert [(row[0], row[4]) for row in stations(program)] == [("c1", 500), ("c2", 499)]
    is_sound(program)
    lines = b"".join(
        b"%s\toffice\tk%d\tmark-dock\tc1\t%d\tbroken\n" % (AT.encode(), dock, dock) for dock in (499, 500, 501)
    )
    assert program.run("lines", "city.db", given=lines) == (0, b"ok\nok\nrefused\t11\tbad_field\n", b"")
    lines = f"{AT}\toffice\tm\tmark-dock\tc2\t500\tbroken\n".encode()
    assert program.run("lines", "city.db", given=lines) == (0, b"refused\t2\tunknown_dock\n", b"")
    is_sound(program)


def test_rows_that_are_unreadable(program):
    good = "c1,Canal,45,9.1,10\n"
    for number, (row, word) in enumerate(
        (
            ("c2,Corso,45,9.1\n", "unreadable"),
            ("c2,Corso,45,9.1,10,\n", "unreadable"),
            ("c2\n", "unreadable"),
            (b"c2,Cors\xff,45,9.1,10\n", "unreadable"),
            (b"c2,Corso,45,9.1,\xed\xa0\x80\n", "unreadable"),
            ('c2,"Corso,45,9.1,10\n' + "c3,Castle,45,9.3,8\n" * 5, "unreadable"),
            ("c2,Corso,45,9.1,0\n", "bad_field"),
            ("c2,Corso,45,9.1,501\n", "bad_field"),
            ("c2,Corso,45,9.1,1000\n", "bad_field"),
            ("c2,Corso,45,9.1,010\n", "bad_field"),
            ("c2,Corso,45,9.1, 10\n", "bad_field"),
            ("c2,Corso,45.1234567,9.1,10\n", "bad_field"),
            ("c2,Corso,+45,9.1,10\n", "bad_field"),
            ("c2,Corso,45,180.000001,10\n", "bad_field"),
            ("c 2,Corso,45,9.1,10\n", "bad_field"),
            (",Corso,45,9.1,10\n", "bad_field"),
            ("c2,,45,9.1,10\n", "bad_field"),
            ("c2," + "x" * 50_000 + ",45,9.1,10\n", "bad_field"),
            ("x" * 50_000 + "\n", "unreadable"),
        )
    ):
        table = (HEADER + good).encode() + (row if isinstance(row, bytes) else row.encode()) + b"c9,Never,45,9.1,10\n"
        found = load(program, table)
        assert found == (1, "", f"row 2 {word}\n"), (number, row[:60], found)
    assert [row[0] for row in stations(program)] == ["c1"]
    is_sound(program)


def test_an_open_quote_takes_the_rest(program):
    assert load(program, HEADER + 'c1,Canal,45.0,9.1,"10') == (0, "rows 1\n", "")


def test_words_of_import(program):
    for words in (
        [], ["no name"], ["spring", "--at"], ["spring", "--at", "-1"], ["spring", "--at", "01"],
        ["spring", "--at", "253402300800"], ["spring", "more"], [""], ["x" * 37],
    ):
        status, out, said = program.run("import", "city.db", *words, given=HEADER.encode())
        assert (status, out) == (2, b"") and said, (words, status, out, said)
    assert not (Path(program.folder) / "city.db").exists()


# A record may be this long, and a longer one isn't judged.
LONG, TOO_LONG = 60_000, 100_000


def test_records_of_60000_bytes_and_100000(program):
    """Up to some 64 KiB a record is judged by what it holds; a longer one is an input that can't be read, and the rows
    before it stand."""
    good = HEADER + "c1,Canal,45,9.1,10\n"
    records = {
        "a name": ("c2,{},45,9.1,10\n", "x", "bad_field"),
        "one field": ("{}\n", "x", "unreadable"),
        "commas": ("{}\n", ",", "unreadable"),
        "a quoted name": ('c2,"{}",45,9.1,10\n', "x", "bad_field"),
        "a name of quotes": ('c2,"{}",45,9.1,10\n', '""', "bad_field"),
        "a name of lines": ('c2,"{}",45,9.1,10\n', "\n", "bad_field"),
        "no end": ("c2,{}", "x", "unreadable"),
        "no end of a quote": ('c2,"{}', "x", "unreadable"),
    }
    for name, (form, piece, word) in records.items():
        length = len(form) - 2
        found = load(program, good + form.format(piece * ((LONG - length) // len(piece))))
        assert found == (1, "", f"row 2 {word}\n"), (name, found)
        found = load(program, good + form.format(piece * (TOO_LONG // len(piece))) + "c3,Castle,45,9.3,8\n")
        assert found == (6, "", "read failed\n"), (name, found)
    assert [row[0] for row in stations(program)] == ["c1"]
    is_sound(program)


def test_headers_of_60000_bytes_and_100000(program):
    """The header is a record."""
    assert load(program, HEADER.strip() + "x" * (LONG - 40) + "\nc1,Canal,45,9.1,10\n") == (1, "", "bad header\n")
    assert load(program, HEADER.strip() + "x" * TOO_LONG + "\nc1,Canal,45,9.1,10\n") == (6, "", "read failed\n")
    assert stations(program) == []


def high_water(pid):
    """The most bytes of memory that a process has had since it was started, or 0 where it has ended. What the kernel
    tells at its end counts the memory of the process that started it, too."""
    with contextlib.suppress(OSError):
        for line in Path(f"/proc/{pid}/status").read_text().splitlines():
            if line.startswith("VmHWM:"):
                return int(line.split()[1]) * 1024
    return 0


def poured(program, front, piece, count):
    """Pours a table into the program as long as it takes it, and returns its status, what it says, and the most bytes
    of memory that it had."""
    memory = 0
    with program.started("import", "city.db", "spring", "--at", AT, stdin=subprocess.PIPE) as child:
        with contextlib.suppress(BrokenPipeError):
            child.stdin.write(front)
            for _ in range(count):
                memory = max(memory, high_water(child.pid))
                child.stdin.write(piece)
        with contextlib.suppress(BrokenPipeError):
            child.stdin.close()
        said = child.stderr.read()
        return child.wait(), said, memory


def test_records_without_end_take_little_memory(program):
    """100 MB of commas, and 300 MB between two quotes."""
    good = (HEADER + "c1,Canal,45,9.1,10\n").encode()
    tables = (good, b",", 100), (good + b'c2,"', b"x", 300), (b'"', b"\n", 300)
    for front, piece, count in ((front, piece * 1_000_000, count) for front, piece, count in tables):
        status, said, memory = poured(program, front, piece, count)
        assert (status, said) == (6, b"read failed\n"), (piece[:1], status, said)
        assert 0 < memory < 64_000_000, f"{memory} bytes of memory for records of {piece[:1]}"
    assert [row[0] for row in stations(program)] == ["c1"]
    is_sound(program)


def test_empty_lines_between_records(program):
    """They are passed over, before each record anew."""
    empty = "\n" * LONG
    table = empty + HEADER + empty + "c1,Canal,45,9.1,10\n" + "\r\n" * (LONG // 2) + "c2,Corso,45,9.1,10\n" + empty
    assert load(program, table) == (0, "rows 2\n", "")


def test_many_stations(program):
    """The table is longer than a record may be."""
    name = "n" * 100
    rows = [f"s{number},{name} {number},45.{number:06},9.{number:06},{number % 500 + 1}\n" for number in range(1, 1001)]
    assert sum(map(len, rows)) > TOO_LONG
    assert load(program, HEADER + "".join(rows)) == (0, "rows 1000\n", "")
    assert len(stations(program)) == 1000
    is_sound(program)
    assert load(program, HEADER + "".join(rows) + "s1001,More,45,9,1\n") == (0, "rows 1001\n", "")


def kept(program, name):
    """The keys and commands that are kept of an import, in the order of its rows."""
    return rows_of(
        f"SELECT req_key, command FROM history WHERE caller = 'import:{name}' ORDER BY number",
        program.folder,
        "city.db",
    )


def test_row_numbers_count_records(program):
    """Not lines: a name may hold a line feed, and an empty line is no row."""
    table = (
        HEADER
        + 'c1,"two\nlines",45,9.1,10\n'
        + "\n\r\n"
        + 'c2,"a,""b""",45,9.2,12\r\n'
        + "c3,Castle,91,9.3,8\n"
        + "c4,Never,45,9.4,8\n"
    )
    assert load(program, table) == (1, "", "row 3 bad_field\n")
    assert kept(program, "spring") == [
        ("row-1", "add-station\tc1\ttwo\\nlines\t45.000000\t9.100000\t10"),
        ("row-2", 'add-station\tc2\ta,"b"\t45.000000\t9.200000\t12'),
    ], kept(program, "spring")


def test_which_fault_of_a_row_comes_first(program):
    """A row that is none, or has a bad field, is told as such though its key is kept; an equal row in another spelling
    is the kept one."""
    assert load(program, HEADER + "c1,Canal,45,9.1,10\n") == (0, "rows 1\n", "")
    for row, ended in (
        ("c1,Canal,45.000000,009.10,10\n", (0, "rows 1\n", "")), ("c1,Canal,91,9.1,10\n", (1, "", "row 1 bad_field\n")),
        ("c1,Canal,45,9.1\n", (1, "", "row 1 unreadable\n")), ("c1,Canal,45,9.1,11\n", (1, "", "row 1 key_reused\n")),
        ("c2,Canal,45,9.1,10\n", (1, "", "row 1 key_reused\n")),
    ):
        assert load(program, HEADER + row) == ended, row
    assert load(program, HEADER + "c2,Corso,45,9.1,10\nc1,Canal,45,9.1,10\n", "summer") == (
        1, "", "row 2 already_there\n"
    )
    assert [it[0] for it in stations(program)] == ["c1", "c2"]


def test_the_same_table_again_changes_nothing(program):
    """Not even the city's time, whatever moment is given."""
    assert load(program, HEADER + ROWS) == (0, "rows 3\n", "")
    before = held(program.folder, "city.db")
    assert load(program, HEADER + ROWS, "spring", "--at", "1800000000") == (0, "rows 3\n", "")
    assert load(program, HEADER + ROWS, "summer", "--at", "1800000000") == (1, "", "row 1 already_there\n")
    assert held(program.folder, "city.db") == before


def test_the_moment_of_an_import_is_the_later_one(program):
    """Recorded times never go back: an import for a moment before the city's has the city's."""
    shared.ask(program, CITY)
    assert load(program, HEADER + "c1,Canal,45,9.1,10\n", "spring", "--at", "1600000000") == (0, "rows 1\n", "")
    out = program.run("feed", "city.db", "station_status", "--at", "0")[1]
    assert [it["last_reported"] for it in json.loads(out)["data"]["stations"]] == ["2023-11-14T22:00:00Z"] * 2, out


def test_5001_stations(program):
    """There are 5,000 at most."""
    rows = "".join(f"s{number},Station,45,9,1\n" for number in range(1, 5002))
    status, out, said = program.run("import", ":memory:", "spring", "--at", AT, given=(HEADER + rows).encode())
    assert (status, out, said) == (1, b"", b"row 5001 limit_reached\n"), (status, out, said)


def limited():
    """Leaves the program an address space of 48 MB."""
    resource.setrlimit(resource.RLIMIT_AS, (48_000_000, 48_000_000))


def test_a_longer_table_takes_no_more_memory(program):
    """64 MB of empty lines, which are no rows and count to the record behind them, are too much for one: in the address
    space in which a short table is read."""
    ends = (b"\n" * 1000, (0, b"rows 2\n", b"")), (b"\r\n" * 32_000_000, READ_FAILED)
    for between, wanted in ends:
        given = HEADER.encode() + b"c1,Canal,45,9.1,10\n" + between + b"c2,Corso,45,9.1,10\n"
        removed(program.folder, "city.db")
        ended = program.run(*IMPORT, given=given, timeout=SECONDS, preexec_fn=limited)
        assert ended == wanted, (len(between), ended)
        assert len(stations(program)) == (2 if wanted[0] == 0 else 1), len(between)


# ---- Made tables


def cell(pick, value):
    """A field in CSV, with quotes where it needs them and sometimes where it doesn't."""
    quoted = b'"' + value.replace(b'"', b'""') + b'"'
    return quoted if pick.random() < 0.2 or any(it in value for it in b',"\r\n') else value


def record(pick, fields):
    """A record of a table."""
    return b",".join(cell(pick, it) for it in fields) + pick.choice([b"\n", b"\n", b"\r\n", b"\n\n"])


NAMES = ["Canal", "Corso, north", 'Say "ciao"', "two\nlines", "cr\rlf\r\n", "tab\there", "back\\slash\\n", "é" * 60]
ODD_NAMES = ["é" * 61, "", " ", "\0", "x" * 121, "🚲", "-"]
DEGREES = ["45", "45.0", "-0", "0", "90", "9.123456", "-45.5", "007"]
NO_DEGREES = ["90.000001", "-91", "1.", ".5", "+4", " 45", "45.1234567", "", "x", "45,0", "1e1", "nan"]


def row_of(pick):
    """The fields of a row, mostly good."""
    def one(good, bad):
        return pick.choice(good if pick.random() < 0.97 else bad)

    station = one([f"s{pick.randrange(40)}"], ["A1", "", "a" * 37, "a b", "é", "a\nb"])
    docks = one(["1", "10", "500"], ["0", "501", "010", "+1", "1.0", "", " 1", "9" * 30])
    fields = [station, one(NAMES, ODD_NAMES), one(DEGREES, NO_DEGREES), one(DEGREES, NO_DEGREES), docks]
    return [it.encode() for it in fields]


HEADS = [
    b"", b"\n\n", b"station_id,name,lat,lon\n", b"station_id,name,lon,lat,docks\n", b"Station_id,name,lat,lon,docks\n",
    b"s1,Canal,45,9,1\n",
    b"station_id,name,lat,lon,docks,\n", b"station_id, name,lat,lon,docks\n", b"station_id;name;lat;lon;docks\n",
    b"\xff,name,lat,lon,docks\n",
]


def answered(operator, number, name, fields):
    """What the operator of model.py says of a row: its fault, or none."""
    if len(fields) != 5 or not all(formats.is_utf8(it) for it in fields):
        return "unreadable"
    escaped = fields[1].replace(b"\\", b"\\\\").replace(b"\t", b"\\t").replace(b"\n", b"\\n").replace(b"\r", b"\\r")
    if any(b"\t" in it for it in (fields[0], *fields[2:])):
        return "bad_field"
    line = b"\t".join([
        AT.encode(), b"import:" + name.encode(), b"row-%d" % number, b"add-station", fields[0], escaped, *fields[2:]
    ])
    word, *told = operator.answer(line).decode().split("\t")
    return told[1] if word == "refused" else None


def made_table(pick, operator, name):
    """A table, and what an import of it under that name has to end with."""
    if pick.random() < 0.1:
        head = pick.choice(HEADS)
        return head + (record(pick, row_of(pick)) if head.strip() else b""), (1, "", "bad header\n")
    first = HEADER.encode()
    head = pick.choice([
        first, first, first.replace(b"\n", b"\r\n"), b"\n\n" + first, b'station_id,"name",lat,lon,"docks"\n'
    ])
    rows = [row_of(pick) for _ in range(pick.choice([0, 1, 2, 5, 12]))]
    if rows and pick.random() < 0.3:
        at = pick.randrange(len(rows))
        station, named, *rest = rows[at]
        others = [[station, named, *rest[:2]], [*rows[at], b""], [b"s1"], [b"x" * 70_000]]
        rows[at] = pick.choice([*others, [station, named, *rest[:2], b"\xff"], [station, b"C\xc3", *rest]])
    table = head + b"".join(record(pick, it) for it in rows)
    if rows and pick.random() < 0.2:
        table = table.rstrip(b"\r\n")
    for number, fields in enumerate(rows, 1):
        fault = answered(operator, number, name, fields)
        if fault:
            return table, (1, "", f"row {number} {fault}\n")
    return table, (0, f"rows {len(rows)}\n", "")


@quickly
def test_made_tables(program):
    """Tables with quotes, line ends and faults of every kind, under names that come again: each ends as the operator
    says."""
    pick = random.Random(f"{SEED} tables")
    operator = model.Operator()
    for number in range(MADE):
        name = pick.choice(["spring", "summer", f"n{number}"])
        table, wanted = made_table(pick, operator, name)
        found = load(program, table, name)
        assert found == wanted, f"seed {SEED}, table {number}: {name}: {table[:600]!r}: {found}, not {wanted}"
    assert {it[0] for it in stations(program)} == set(operator.stations), f"seed {SEED}"
    is_sound(program, where=f"seed {SEED}")


@quickly
def test_spoiled_tables(program):
    """Whatever the bytes, an import ends by a named end, and what stands are the rows before that."""
    pick = random.Random(f"{SEED} spoiled tables")
    for number in range(MADE):
        rows = [[f"{chr(97 + at)}{number}".encode(), *row_of(pick)[1:]] for at in range(pick.choice([1, 3, 8]))]
        table = hostile.mutated(pick, HEADER.encode() + b"".join(record(pick, it) for it in rows), True)
        name, where = f"m{number}", f"seed {SEED}, table {number}: {table[:600]!r}"
        status, out, said = load(program, table, name)
        whole, row = (
            re.fullmatch("rows ([0-9]+)\n", out), re.fullmatch("row ([1-9][0-9]*) (unreadable|[a-z_]+)\n", said)
        )
        is_named = (status == 0 and whole and not said) or (status == 1 and not out and (row or said == "bad header\n"))
        assert is_named, f"{where}: {status, out, said}"
        count = int(whole[1]) if whole else int(row[1]) - 1 if row else 0
        assert [it[0] for it in kept(program, name)] == [f"row-{it}" for it in range(1, count + 1)], (
            f"{where}: {status, out, said}"
        )
    is_sound(program, where=f"seed {SEED}")
