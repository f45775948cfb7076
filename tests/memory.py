"""Each request for memory is refused in turn, alone or with all after it, while the program answers lines over a file,
serves an HTTP request, writes a feed or the table of a day, imports stations or checks a file.

Each answer is the one that it has where memory is there, or want of memory or storage is named; afterwards the file
holds the city before the request or after it, and the same request, sent again, has its answer. tests/stops/faults.c
refuses; cc builds it.

A sample of the requests for memory stands in the gate. By hand more of them, from the environment:

    BIKESHARE_MEMORY=2500 BIKESHARE_SEED=7 tests/run memory.
    BIKESHARE_MEMORY=all BIKESHARE_JOBS=4 TMPDIR=/dev/shm tests/run memory.

BIKESHARE_MEMORY is how many of them each test draws, and `all` are each one, alone and with all after it, where those
of opening the file, which is alike for all words, are tried with `check` alone; BIKESHARE_SEED is what they are drawn
from; BIKESHARE_JOBS is how many are tried at a time; BIKESHARE_MEMORY_TOLD names a file to which each test adds how
many it tried.
"""

import os
import random
import tempfile
from pathlib import Path

import days
import imports
import streams
from adoption import asked, told
from shared import (
    HEADER, JOBS, READY, UNAVAILABLE, WANTS, Program, ask, at_once, counted, disturbed, environment, exchanged, faulty,
    get, get_feed, held, is_sound, office, post, put, quickly, removed, rows_of, taken, timeless,
)

TRIED = os.environ.get("BIKESHARE_MEMORY", "8")
SEED = int(os.environ.get("BIKESHARE_SEED", "1"))
TOLD = os.environ.get("BIKESHARE_MEMORY_TOLD")
SPARED = 300

LINES = asked().splitlines(keepends=True)
ANSWERS = told().splitlines(keepends=True)


def opened(program, word="lines", wanted=(0, b"", b"")):
    """How many requests for memory the opening of the file makes, or somewhat fewer. The word has to end so."""
    ran = disturbed(program, [word, "city.db"])
    assert ran[:3] == wanted, ran
    return max(0, ran.memory - SPARED)


def turns(total, begin):
    """Which requests for memory are refused, each alone and with all after it."""
    begin = begin if TRIED == "all" else 0
    turns = [{how: at} for at in range(begin + 1, total + 1) for how in ("REFUSE_AT", "REFUSE_FROM")]
    return turns if TRIED == "all" else random.Random(SEED).sample(turns, min(len(turns), int(TRIED)))


def try_each(program, total, tried, begin=0):
    """Tries the refusals of a run with so many requests for memory, JOBS at a time, each of these in a folder of its
    own. Where all are tried, those up to `begin` are left to another test."""
    refusals = turns(total, begin)

    def work(job):
        with tempfile.TemporaryDirectory(dir=program.folder) as folder:
            for refusal in refusals[job::JOBS]:
                tried(Program(program.file, folder), refusal)

    at_once(work, range(JOBS))
    if TOLD:
        with open(TOLD, "a", encoding="utf-8") as tells:
            tells.write(f"{len(refusals)}\n")


def fresh(program, count):
    """The file after the first so many requests."""
    removed(program.folder, "city.db")
    ended = program.run("lines", "city.db", given=b"".join(LINES[:count]))
    assert ended == (0, b"".join(ANSWERS[:count]), b""), ended
    return held(program.folder, "city.db")


def goes_on(program, states, where):
    """The file is sound and holds one of these states."""
    is_sound(program, where=where)
    assert held(program.folder, "city.db") in states, f"{where}: the file holds neither the city before nor after"


def test_lines(program):
    begun, given = len(LINES) - 4, b"".join(LINES)
    whole = (0, b"".join(ANSWERS), b"")
    fronts = [fresh(program, count) for count in range(begun, len(LINES) + 1)]
    fresh(program, begun)
    parts, opens = taken(program.folder, "city.db"), opened(program)
    right = disturbed(program, ["lines", "city.db"], given)
    assert right[:3] == whole, right

    def tried(mine, refusal):
        put(parts, mine.folder, "city.db")
        ran = disturbed(mine, ["lines", "city.db"], given, **refusal)
        found = ran.out.splitlines(keepends=True)
        where = f"{refusal}: {ran.status, ran.said}, {len(found)} answers"
        assert found == ANSWERS[: len(found)], where
        assert ran[:3] == whole or (len(found) < len(LINES) and ran.said == WANTS.get(ran.status)), where
        least = max(0, len(found) - begun)
        goes_on(mine, fronts[least : least + 2], where)
        assert mine.run("lines", "city.db", given=given) == whole, where

    try_each(program, right.memory, tried, opens)


def test_a_new_file(program):
    right = disturbed(program, ["init", "first.db"], file="first.db")
    assert right[:3] == READY, right

    def tried(mine, refusal):
        ran = disturbed(mine, ["init", "new.db"], file="new.db", **refusal)
        where = f"{refusal}: {ran}"
        assert ran[:3] == READY or (ran.out == b"" and ran.said == WANTS.get(ran.status)), where
        assert mine.run("lines", "new.db", given=b"".join(LINES[:3])) == (0, b"".join(ANSWERS[:3]), b""), where
        removed(mine.folder, "new.db")

    try_each(program, right.memory, tried)


def test_checks_and_feeds(program):
    state = fresh(program, len(LINES))
    parts, opens = taken(program.folder, "city.db"), opened(program)
    feeds = ("station_status", "1700000000"), ("system_pricing_plans", "0"), ("system_regions", "0"), (
        "system_information", "0"
    )
    for words in ["check", "city.db"], *(["feed", "city.db", name, "--at", at] for name, at in feeds):
        right = disturbed(program, words)
        assert right.status == 0 and right.out and not right.said, right

        def tried(mine, refusal, words=words, right=right):
            if not Path(mine.folder, "city.db").exists():
                put(parts, mine.folder, "city.db")
            ran = disturbed(mine, words, **refusal)
            where = f"{words}: {refusal}: {ran}"
            front = ran.out == b"" or (words[0] == "feed" and right.out.startswith(ran.out))
            assert ran[:3] == right[:3] or (front and ran.said == WANTS.get(ran.status)), where
            assert held(mine.folder, "city.db") == state, where

        try_each(program, right.memory, tried, 0 if words[0] == "check" else opens)
    goes_on(program, [state], "after all")


def served(program, request, **refusal):
    """How a server of one connection ends, its answer and what it says, and how many requests for memory it makes."""
    env = environment(program.folder, "city.db", **refusal)
    return counted(exchanged(program, request, env=env), program.folder, "city.db")


def test_http(program):
    named = (
        get_feed("station_information"), office("o2", "add-name\tstation\ta1\tit\tPorto"),
        office("o6", "set-name\tstation\ta1\ten\tHaven"), office("o7", "set-name\tstation\tb2\tfr\tPasserelle"),
        office("o8", "remove-name\tstation\tb2\tde"),
    )
    change = "change-system\tMetro\tMo-Su\toffice@example.org\tEurope/Rome\thttps://bikes.example\t60"
    corrected = (
        office("o3", change), office("o4", "move-station\ta1\t-45.5\t9.1"), office("o5", "add-docks\ta1\t3")
    )
    start = post("/riders/18/start", '{"key":"s1","station":"b2","dock":1}')
    others = start, get("/riders/17"), get_feed("station_status"), office("o1", "add-rider\t21")
    for request in *others, *named, *corrected:
        before = fresh(program, len(LINES))
        parts, opens = taken(program.folder, "city.db"), opened(program)
        right = served(program, request)
        assert right.out.startswith(b"HTTP/1.1 200 OK\r\n") and (right.status, right.said) == (0, b""), right

        def tried(mine, refusal, request=request, before=before, parts=parts, right=timeless(right.out)):
            put(parts, mine.folder, "city.db")
            ran = served(mine, request, **refusal)
            where = f"{request[:40]}: {refusal}: {ran}"
            found = timeless(ran.out)
            cut = request.startswith(b"GET /gbfs") and found and right.startswith(found)
            assert found == right or cut or ran.out in (b"", UNAVAILABLE), where
            assert (ran.status, ran.said) == (0, b"") or ran.said == WANTS.get(ran.status), where
            is_sound(mine, where=where)
            if not request.startswith(b"POST"):
                assert held(mine.folder, "city.db") == before, where
            again = served(mine, request)
            assert timeless(again.out) == right and (again.status, again.said) == (0, b""), f"{where}: again {again}"

        try_each(program, right.memory, tried, opens)


# ---- Behind the opening: days, feeds, imports and lines, and fields of every kind


def requests_for_memory(program, words, given=b""):
    """How many requests for memory a run makes that nobody disturbs, and what it writes."""
    ran = disturbed(program, words, given)
    assert (ran.status, ran.said) == (0, b""), (words, ran)
    return ran.memory, ran.out


def kept_of(program):
    """How many requests are kept of a run over the city."""
    ((count,),) = rows_of(
        "SELECT count(*) FROM history WHERE caller IN ('import:spring', 'crew:9')", program.folder, "city.db"
    )
    return count


@quickly
def test_memory_that_is_refused_behind_the_opening(program):
    """Alone and with all after it: what is written is a front, whole lines of `lines` alone, and the want is named;
    what stands are the requests that were answered or one more, of an import some rows; without the fault all is as
    ever."""
    ask(program, days.CITY)
    ask(program, ["start\t17\ta1\t1"], 1711918800, first=70)
    ask(program, ["end\t7\ta1\t1"], 1711922399, first=71)
    parts = taken(program.folder, "city.db")
    opening, _ = requests_for_memory(program, ["check", "city.db"])
    lines = streams.LINES.replace(b"office", b"crew:9").replace(b"\t17", b"\t18")
    for words, given, stride in (
        (["day", "city.db", "rentals", "2024-03-31", days.ROME], b"", 29),
        (["feed", "city.db", "station_status", "--at", imports.AT], b"", 29),
        (imports.IMPORT, (HEADER + imports.ROWS).encode(), 173), (["lines", "city.db"], lines, 173),
    ):
        put(parts, program.folder, "city.db")
        total, whole = requests_for_memory(program, words, given)
        for turn in range(opening - 20, total + 1, 1 if TRIED == "all" else stride):
            for how in {"REFUSE_AT": turn}, {"REFUSE_FROM": turn}:
                put(parts, program.folder, "city.db")
                status, out, said = faulty(program, words, given, **how)
                front = whole.startswith(out) and said == WANTS.get(status)
                assert front or (status, out, said) == (0, whole, b""), (words, how, status, out, said)
                answers, count = out.count(b"\n"), kept_of(program)
                wanted = (
                    0, 1, 2, 3
                ) if words is imports.IMPORT else (min(answers, 2), min(answers + 1, 2)) if given else (0,)
                is_sound(program, where=f"{words}, {how}")
                assert count in wanted, (words, how, out, count)
                assert program.run(*words, given=given) == (0, whole, b""), (words, how)


# A city whose records have every kind of field, asked for by every kind of caller that has a name.
SET_UP = [
    "office:ann|k1|set-system|city|pt-BR|City|24/7|a@example.org|Europe/Rome|EUR|https://example.org|60",
    "crew:7|k1|add-plan|day|Day|1000000|true|d|" + ";".join(["0:25:10:-"] * 8),
    "dock:a1|k1|add-type|city|City|cargo_bicycle|human|0|day",
    "import:csv|k1|add-station|a1|Main St|0|0|1",
    "rider:7|k1|add-region|north|North",
    "dock:a1|k2|set-region|a1|north",
    "import:csv|k2|add-name|description|day|zh-Hant-TW|d",
    "crew:7|k2|change-system|Town|Mo-Su|b@example.org|Etc/UTC|https://example.com|0",
    "rider:7|k2|move-station|a1|-45.5|180",
    "dock:a1|k3|add-docks|a1|499",
    "import:csv|k3|set-name|region|north|pt-BR|Norte",
    "crew:7|k3|set-name|description|day|zh-Hant-TW|dd",
    "rider:7|k3|remove-name|description|day|zh-Hant-TW",
]


@quickly
def test_memory_that_is_refused_for_fields(program):
    """A request for memory that is refused ends the program, whatever field it was for, and all is accepted when it is
    sent again."""
    lines = "".join(f"1700000000|{line}\n" for line in SET_UP).replace("|", "\t").encode()
    program.run("init", "city.db")
    parts, seen = taken(program.folder, "city.db"), set()
    opening, _ = requests_for_memory(program, ["check", "city.db"])
    total, whole = requests_for_memory(program, ["lines", "city.db"], lines)
    assert whole == b"ok\n" * len(SET_UP), whole
    for turn in range(opening - 20, total + 1, 1 if TRIED == "all" else 59):
        put(parts, program.folder, "city.db")
        status, out, said = faulty(program, ["lines", "city.db"], lines, REFUSE_AT=turn)
        assert (whole.startswith(out) and said == WANTS.get(status)) or (status, out, said) == (0, whole, b""), (
            turn, status, out, said
        )
        assert program.run("lines", "city.db", given=lines) == (0, whole, b""), turn
        is_sound(program)
        seen.add((status, len(out)))
    assert len(seen) > 2, seen
