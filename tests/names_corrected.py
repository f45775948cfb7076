"""Names that are corrected: those in the system's language and in further ones by set-name, and further ones that go by
remove-name. What feeds tell before and after, the rows that each leaves, and lists that are drawn, as lines and over
HTTP, answered as the operator of model.py answers them.
"""

import json
import random
import subprocess

import feeds
import model
from feeds import CITY, DATA
from shared import (
    DONE, FEEDS, HEAD, NO_SYSTEM, Server, accepted, ask, copied, data_of, feed, is_sound, line_of, office, quickly,
    refused, removed, requests_of,
)

REGION = "add-region\tnorth\tNorth"
# Each kind with the identifier of a thing, its own name, and the feed, the table and the column in which this stands.
THINGS = {
    "system": ("metro", "Metro Bikes", "system_information", "system", "name"),
    "station": ("a1", "Harbour", "station_information", "stations_4", "name"),
    "type": ("city", "City", "vehicle_types", "types", "name"),
    "plan": ("basic", "Basic", "system_pricing_plans", "plans", "name"),
    "description": ("basic", "One euro and then a quarter", "system_pricing_plans", "plans", "description"),
    "region": ("north", "North", "system_regions", "regions", "name"),
}
WITH_REGION = {
    **DATA, "system_regions": '{"regions":[{"region_id":"north","name":[{"text":"North","language":"en"}]}]}'
}


def texts_of(further, own=None):
    """All feeds of the city, whole, where kinds have these further names, by language, and other own ones."""
    texts = dict(WITH_REGION)
    for kind, (_, before, name, *_) in THINGS.items():
        old = f'[{{"text":"{before}","language":"en"}}]'
        assert texts[name].count(old) == 1, (kind, texts[name])
        names = [("en", (own or {}).get(kind, before)), *sorted(further.get(kind, {}).items())]
        new = ",".join(
            f'{{"text":{json.dumps(text, ensure_ascii=False)},"language":"{language}"}}' for language, text in names
        )
        texts[name] = texts[name].replace(old, f"[{new}]")
    languages = ["en", *sorted({language for names in further.values() for language in names})]
    texts["system_information"] = texts["system_information"].replace(
        '"languages":["en"]', f'"languages":{json.dumps(languages, separators=(",", ":"))}'
    )
    return {name: f"{HEAD}{text}}}" for name, text in texts.items()}


UNKNOWN = "refused\t39\tunknown_name"
# Of each kind: a command, whose identifier and what stands before it are left out, its answer, and the own and further
# names from then on; nothing where these stay.
STEPS = [
    ("set-name\tde\tX", UNKNOWN, None),
    ("remove-name\tde", UNKNOWN, None),
    ("remove-name\ten", UNKNOWN, None),
    ("set-name\ten\tOther \\\\ \\t\"🚲\"", "ok", {"en": 'Other \\ \t"🚲"'}),
    ("set-name\ten\tOther \\\\ \\t\"🚲\"", "ok", None),
    ("add-name\tde\tFlasch", "ok", {"en": 'Other \\ \t"🚲"', "de": "Flasch"}),
    ("set-name\tDE\tX", UNKNOWN, None),
    ("set-name\tde\tFalsch\\n", "ok", {"en": 'Other \\ \t"🚲"', "de": "Falsch\n"}),
    ("set-name\tde\tFalsch\\n", "ok", None),
    ("add-name\tfr\tFaux", "ok", {"en": 'Other \\ \t"🚲"', "de": "Falsch\n", "fr": "Faux"}),
    ("set-name\ten\tOwn", "ok", {"en": "Own", "de": "Falsch\n", "fr": "Faux"}),
    ("remove-name\tDE", UNKNOWN, None),
    ("remove-name\ten", UNKNOWN, None),
    ("remove-name\tde", "ok", {"en": "Own", "fr": "Faux"}),
    ("remove-name\tde", UNKNOWN, None),
    ("set-name\tde\tRichtig", UNKNOWN, None),
    ("add-name\tde\tRichtig", "ok", {"en": "Own", "de": "Richtig", "fr": "Faux"}),
    ("remove-name\tfr", "ok", {"en": "Own", "de": "Richtig"}),
    ("set-name\tfr\tVrai", UNKNOWN, None),
]


def spelled(kind, step):
    """The command of a step for a kind."""
    word, rest = step.split("\t", 1)
    return f"{word}\t{kind}\t{THINGS[kind][0]}\t{rest}"


@quickly
def test_feeds_of_names_of_each_kind(program):
    """Each answer, and the feeds after it, while the names of one kind after the other change and go."""
    ask(program, [*CITY, REGION])
    further, own, number = {}, {}, 100
    for kind, (_, _, shows, *_) in THINGS.items():
        for step, answer, names in STEPS:
            command, number = spelled(kind, step), number + 1
            assert ask(program, [command], at=1699999300, first=number) == [answer], (command, answer)
            if names:
                own[kind] = names["en"]
                further[kind] = {language: text for language, text in names.items() if language != "en"}
            texts = texts_of(further, own)
            for name in {shows, "system_information"}:
                assert feed(program, name) == texts[name], (command, name, feed(program, name))
        for name, text in texts.items():
            assert feed(program, name) == text, (kind, name, feed(program, name))
        is_sound(program)
    assert all(it == {"de": "Richtig"} for it in further.values()) and set(own.values()) == {"Own"}, (further, own)


@quickly
def test_a_language_goes_with_its_last_name(program):
    """It is told as long as anything has a name in it, and afterwards all feeds are what they were."""
    ask(program, [*CITY, REGION])
    before = {name: feed(program, name) for name in FEEDS}
    names = [(kind, language) for kind in THINGS for language in ("de", "fr")]
    names += [("plan", "DE"), ("region", "zh-Hant")]
    accepted(program, [f"add-name\t{kind}\t{THINGS[kind][0]}\t{language}\tN" for kind, language in names], first=100)
    random.Random(1).shuffle(names)
    for at in range(len(names) + 1):
        told = data_of(program, "system_information")["languages"]
        assert told == ["en", *sorted({language for _, language in names[at:]})], (names[at:], told)
        if at < len(names):
            kind, language = names[at]
            command = f"remove-name\t{kind}\t{THINGS[kind][0]}\t{language}"
            assert ask(program, [command], first=200 + at) == ["ok"], command
    assert {name: feed(program, name) for name in FEEDS} == before
    is_sound(program)


def test_names_without_a_system(program):
    """Nothing of a name changes or goes before there is a system. What was refused keeps no key."""
    missing = "refused\t38\tsystem_missing"
    commands = [f"{word}\t{kind}\t{THINGS[kind][0]}\ten" for word in ("set-name", "remove-name") for kind in THINGS]
    commands = [f"{it}\tX" if it.startswith("set-name") else it for it in commands]
    assert ask(program, [CITY[1], CITY[3], REGION]) == ["ok"] * 3
    assert ask(program, commands, first=100) == [missing] * len(commands)
    for name in FEEDS:
        assert program.run("feed", "city.db", name, "--at", "0") == NO_SYSTEM, name
    assert ask(program, [CITY[0], CITY[2]], first=50) == ["ok"] * 2
    assert ask(program, commands, first=100) == ["ok"] * 6 + [UNKNOWN] * 6
    assert feeds.told_names(program) == {(kind, it[0]): [("en", "X")] for kind, it in THINGS.items()}
    is_sound(program)


# ---- Rows


def tables_of(program):
    """The rows of each table but of those that every request changes: the columns' values by their names."""
    told = {}
    with copied(program.folder, "city.db") as base:
        for (name,) in base.execute("SELECT name FROM sqlite_schema WHERE type = 'table'").fetchall():
            rows = base.execute(f"SELECT * FROM {name}")
            columns = [it[0] for it in rows.description]
            told[name] = sorted((dict(zip(columns, row)) for row in rows), key=repr)
        count = len(told.pop("history"))
    return told, count


@quickly
def test_rows_of_names(program):
    """One column of one row changes, or one row comes or goes: of the table that holds the name, and no other."""
    ask(program, [*CITY, REGION])
    number = 100
    for kind, (ident, _, _, table, column) in THINGS.items():
        for step, answer, names in STEPS:
            (before, count), number = tables_of(program), number + 1
            assert ask(program, [spelled(kind, step)], at=1699999300, first=number) == [answer], (kind, step)
            if names:
                (row,) = before[table]
                row[column] = names["en"]
                others = [it for it in before["more_names"] if it["kind"] != kind]
                before["more_names"] = sorted([
                    *others,
                    *(
                        {"kind": kind, "id": ident, "language": language, "name": text}
                        for language, text in names.items()
                        if language != "en"
                    ),
                ], key=repr)
            assert tables_of(program) == (before, count + (answer == "ok")), (kind, step)
    is_sound(program)


@quickly
def test_killed_behind_each_answer(program):
    """What was answered stands, the file is sound, and the same key has the same answer and no effect."""
    ask(program, [*CITY, REGION])
    number, wanted = 100, {(kind, it[0]): [("en", it[1])] for kind, it in THINGS.items()}
    for kind, (ident, *_) in THINGS.items():
        for step, names in [(step, names) for step, answer, names in STEPS if answer == "ok"]:
            number += 1
            line = requests_of([spelled(kind, step)], at=1699999300, first=number)
            with program.started("lines", "city.db", stdin=subprocess.PIPE) as running:
                running.stdin.write(line)
                running.stdin.flush()
                assert line_of(running) == b"ok\n", (kind, step)
                running.kill()
            is_sound(program, where=f"{kind}, {step}")
            if names:
                first, *others = names.items()
                wanted[kind, ident] = [first, *sorted(others)]
            assert feeds.told_names(program) == wanted, (kind, step)
            before = tables_of(program)
            assert program.run("lines", "city.db", given=line) == (0, b"ok\n", b""), (kind, step)
            assert tables_of(program) == before, (kind, step)


# ---- Names at their longest

LONG, OWN = "z" * 36, "e" * 35
LONGEST = [
    f"set-system\t{LONG}\t{OWN}\tN\t24/7\tc\tUTC\tEUR\thttps://x.example\t0", f"add-plan\t{LONG}\tN\t0\ttrue\tN\t-",
    f"add-type\t{LONG}\tN\tbicycle\thuman\t0\t{LONG}", f"add-station\t{LONG}\tN\t0\t0\t1", f"add-region\t{LONG}\tN",
]


def test_the_longest_names(program):
    """Of the longest identifiers, in the longest languages, each in four."""
    accepted(program, LONGEST)
    before = {name: feed(program, name) for name in FEEDS}
    texts = {"é" * 60: "é" * 60, "\\\\" * 120: "\\" * 120, "\\n" * 120: "\n" * 120, "🚲" * 30: "🚲" * 30}
    languages = ["a" * 35, "b" * 35, "c" * 35]
    added = [f"add-name\t{kind}\t{LONG}\t{it}\t{'n' * 120}" for kind in THINGS for it in languages]
    accepted(program, added, first=100)
    number = 200
    for spells, text in texts.items():
        changed = [f"set-name\t{kind}\t{LONG}\t{it}\t{spells}" for kind in THINGS for it in [OWN, *languages]]
        accepted(program, changed, first=number)
        number += len(changed)
        assert feeds.told_names(program) == {
            (kind, LONG): [(it, text) for it in [OWN, *languages]] for kind in THINGS
        }, text
        is_sound(program, where=spells)
    accepted(program, [f"remove-name\t{kind}\t{LONG}\t{it}" for kind in THINGS for it in languages], first=500)
    accepted(program, [f"set-name\t{kind}\t{LONG}\t{OWN}\tN" for kind in THINGS], first=600)
    assert {name: feed(program, name) for name in FEEDS} == before
    is_sound(program)


# ---- Lists that are drawn

# Two things of each kind where there may be two, and one that isn't there.
IDENTS = {
    "system": ["metro", "other"], "station": ["a1", "b2", "zz"], "type": ["city", "basic", "zz"],
    "plan": ["basic", "day", "zz"], "description": ["basic", "day", "zz"], "region": ["north", "a1", "zz"],
}
MORE = [
    REGION, "add-region\ta1\tEast", "add-station\tb2\tBridge\t0\t0\t3", "add-plan\tday\tDay\t0\ttrue\tBy day\t-",
    "add-type\tbasic\tPlain\tbicycle\thuman\t0\tday",
]


def naming(pick):
    """A command of a name, mostly one of what is there."""
    word = pick.choice(["add-name", "set-name", "remove-name"])
    kind = pick.choice(list(IDENTS))
    ident = pick.choice(IDENTS[kind][:-1] if pick.random() < 0.7 else IDENTS[kind])
    language = pick.choice(["en", "de", "DE", "fr", "it"]) if pick.random() < 0.9 else pick.choice(["EN", "d", ""])
    fields = [word, kind, ident, language]
    return "\t".join(fields if word == "remove-name" else [*fields, f"Name {pick.randint(1, 99)}"])


def tells_the_same(program, operator, where):
    """Feeds and tables tell the names that the operator has, and the file is sound."""
    is_sound(program, where=where)
    told = feeds.told_names(program)
    with copied(program.folder, "city.db") as base:
        stored, languages = feeds.stored_names(base)
    assert told == operator.told_names() == stored, (where, told, operator.told_names(), stored)
    found = data_of(program, "system_information")["languages"]
    assert found == operator.languages() == languages, (where, found, operator.languages(), languages)


def test_lists_of_names(program):
    met = set()
    for seed in range(3):
        removed(program.folder, "city.db")
        pick, operator = random.Random(f"{seed} names"), model.Operator()
        begin = [*CITY, *MORE]
        wanted = [operator.answer(it).decode() for it in requests_of(begin).splitlines()]
        assert ask(program, begin) == wanted and not any(it.startswith("refused") for it in wanted), wanted
        for part in range(4):
            # A key in eight comes again, mostly with another command.
            lines = [
                requests_of([naming(pick)], at=1699999300 + number, first=100 + number - pick.choice([0] * 7 + [9]))
                for number in range(100 * part, 100 * part + 100)
            ]
            answers = [operator.answer(it.rstrip(b"\n")) for it in lines]
            ended = program.run("lines", "city.db", given=b"".join(lines))
            assert ended == (0, b"".join(it + b"\n" for it in answers), b""), (seed, part, ended)
            tells_the_same(program, operator, f"seed {seed}, part {part}")
            met |= {(it.split(b"\t")[3], answer.split(b"\t")[:2][-1]) for it, answer in zip(lines, answers)}
    for word in (b"add-name", b"set-name", b"remove-name"):
        wanted = {b"ok", b"1", b"6", b"7", b"11", b"33", b"37"} | {b"10" if word == b"add-name" else b"39"}
        assert wanted <= {number for it, number in met if it == word}, (word, met)


def test_lists_of_names_over_http(program):
    pick, operator = random.Random("names over HTTP"), model.Operator()
    begin = [*CITY, *MORE]
    for it in requests_of(begin).splitlines():
        operator.answer(it)
    accepted(program, begin)
    with Server(program) as server:
        for number in range(150):
            key, command = f"n{number - pick.choice([0] * 7 + [9])}", naming(pick)
            word, *rest = operator.answer(f"1699999300\toffice\t{key}\t{command}".encode()).decode().split("\t")
            wanted = refused(int(rest[0]), rest[1]) if word == "refused" else DONE
            found = server.ask(office(key, command))
            assert found == wanted, (key, command, found, wanted)
    tells_the_same(program, operator, "over HTTP")
