"""The traffic of a made city (bench/city.py, from a seed), answered as the operator of the document answers it."""

import itertools
import random

import model
from shared import TOP, by_type, copied, is_sound, loaded

city = loaded(TOP / "bench/city.py")
SIZES = {"stations": 9, "docks": 8, "types": 3, "bicycles": 40, "riders": 60, "trucks": 3, "daily": 600}


# Few things, some that aren't there, and few languages, of which the first is the system's: so names are there that
# change and go.
NAMED = [("system", "metro"), ("station", "s0001"), ("type", "model-02"), ("plan", "basic"), ("description", "basic")]
MISSING = [("system", "other"), ("station", "s0099"), ("plan", "none"), ("description", "none"), ("region", "north")]
LANGUAGES = ["en", "de", "DE", "fr", "it"]


def made(seed, requests, refused=0.1, repeated=0.05, languages=LANGUAGES):
    """The requests that build a small city, and those of its traffic, a share of them refused or sent twice, with their
    answers."""
    it = city.City(seed=seed, **SIZES)
    lines = [*it.setup(), *itertools.islice(corrected(it.traffic(refused, repeated), seed, languages), requests)]
    operator = model.Operator()
    answers = [operator.answer(line.rstrip("\n").encode()) for line in lines]
    return lines, answers


def corrected(lines, seed, languages=LANGUAGES):
    """The lines, and behind one of twenty a correction of what was entered, some of them refused or sent twice; behind
    another of twenty one of a name in these languages."""
    pick = random.Random(f"{seed} corrections")
    for number, line in enumerate(lines):
        yield line
        drawn = pick.random()
        if drawn < 0.1:
            moment, _ = line.split("\t", 1)
            command = correction(pick) if drawn < 0.05 else naming(pick, languages)
            yield from [f"{moment}\toffice\tc{number}\t{command}\n"] * pick.choice([1, 1, 2])


def naming(pick, languages):
    """A command that adds, changes or removes a name of what may not be there, in a language in which it may have
    none."""
    word = pick.choice(["add-name", "set-name", "remove-name"])
    kind, ident = pick.choice(NAMED if pick.random() < 0.8 else MISSING)
    fields = [word, kind, ident, pick.choice(languages)]
    return "\t".join(fields if word == "remove-name" else [*fields, f"Name {pick.randint(0, 99)}"])


def correction(pick):
    """A command that changes the system, or moves a station that may not be there, or gives it docks."""
    if pick.random() < 0.4:
        ttl = pick.randint(0, 86_400)
        return f"change-system\tMetro {ttl}\t24/7\t{ttl}@example.org\tEtc/UTC\thttps://{ttl}.example\t{ttl}"
    station = pick.randint(1, SIZES["stations"] + 2)
    if pick.random() < 0.5:
        return f"add-docks\ts{station:04}\t{pick.choice([1, 2, 3, 500])}"
    return f"move-station\ts{station:04}\t{pick.uniform(-90, 90):.6f}\t{pick.uniform(-180, 180):.6f}"


def joined(parts):
    return b"".join(part + b"\n" for part in parts)


def told_apart(lines, answers):
    """Which commands were accepted, so that a list which asks nothing of a kind shows."""
    return {line.split("\t")[3] for line, answer in zip(lines, answers) if not answer.startswith(b"refused")}


def test_three_cities_in_memory(program):
    """Answers in memory are the operator's, for three seeds."""
    for seed in (1, 2, 3):
        lines, answers = made(seed, 1200)
        wanted = {"start", "end", "top-up", "mark-dock", "mark-bike", "open-order", "load", "unload", "close-order"}
        wanted |= {"change-system", "move-station", "add-docks", "add-name", "set-name", "remove-name"}
        assert wanted <= told_apart(lines, answers), (
            f"seed {seed} has no accepted {wanted - told_apart(lines, answers)}"
        )
        program.answers("".join(lines).encode(), joined(answers))


def test_the_same_in_a_file_in_parts(program):
    """So they are over a file that is opened anew for each part, which stays sound; stored numbers are counts at the
    end."""
    lines, answers = made(4, 1200)
    for at in range(0, len(lines), 300):
        status, told, said = program.run("lines", "city.db", given="".join(lines[at : at + 300]).encode())
        assert (status, told, said) == (0, joined(answers[at : at + 300]), b""), f"lines {at} to {at + 300}: {said!r}"
    is_sound(program)
    texts = []
    with copied(program.folder, "city.db") as base:
        found = base.execute("SELECT station_id, docks, free, broken, by_type FROM stations_4").fetchall()
        for station, docks, free, broken, text in found:
            marked = {
                dock
                for (dock,) in base.execute("SELECT dock FROM docks WHERE station_id = ? AND broken = 1", (station,))
            }
            bikes = base.execute("SELECT dock, type_id, state FROM bikes WHERE station_id = ?", (station,)).fetchall()
            held, types = {dock for dock, _, _ in bikes}, {}
            for dock, kind, state in bikes:
                types.setdefault(kind, [0, 0])[dock in marked or state != 0] += 1
            assert (free, broken) == (docks - len(marked | held), len(marked)), station
            assert text == by_type((kind, *counts) for kind, counts in types.items()), (station, text)
            texts.append(text)
    assert len(found) == SIZES["stations"] and max(it.count(";") for it in texts) > 0, texts


def test_a_seed_makes_the_same_lists(_):
    assert made(5, 200) == made(5, 200)
    assert made(5, 200)[0] != made(6, 200)[0]
