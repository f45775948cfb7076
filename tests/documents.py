"""The documents: the examples that they show, request lines with their answers beside them, quoted code, what they name
and link to, counts and lengths, and words that are gone."""

import contextlib
import csv
import math
import os
import re
import sqlite3
import subprocess
import sys

import days
import feeds
import formats
from shared import CITY, FEEDS, HEAD, HEADER, TOP, loaded

ROW = re.compile(r"^(\d+⇥\S+) {2,}(\S+)(?: {2,}.*)?$", re.M)


BLOCK = re.compile(r"^ *```[a-z]*\n(.*?)^ *```$", re.M | re.S)
SOURCE = re.compile(r" *(?://|--) ((?:crates|review)/\S+)")
QUOTED = re.compile(r"(?<!`)`([^`]+)`(?!`)")


def documents():
    """Each document with its text."""
    found = [
        *(TOP / it for it in ("README.md", "CHANGELOG.md", "CONTRIBUTING.md")), *sorted((TOP / "docs").glob("*.md"))
    ]
    assert len(found) > 12, found
    return {str(it.relative_to(TOP)): it.read_text(encoding="utf-8") for it in found}


def quoted(text):
    """The texts in backticks of a document's prose, each on one line."""
    return [" ".join(it.split()) for it in QUOTED.findall(BLOCK.sub("", text))]


def rows_of(document):
    """Returns the request lines of a document, and their answers."""
    rows = ROW.findall((TOP / document).read_text(encoding="utf-8"))
    assert rows, f"{document} shows no request line"
    return ["".join(f"{row[part]}\n".replace("⇥", "\t") for row in rows).encode() for part in (0, 1)]


def test_readme(program):
    given, wanted = rows_of("README.md")
    assert given == (TOP / "docs/tour.txt").read_bytes(), "README.md shows other lines than docs/tour.txt has"
    program.answers(given, wanted)


def test_formats(program):
    program.answers(*rows_of("docs/FORMATS.md"))


def test_axes_of_pictures(program):
    """Beside each line of a curve's picture stands its own number: evenly from 0 on, or by powers of ten."""
    pictures = sorted((TOP / "docs/pictures").glob("growth-*.svg"))
    assert len(pictures) == 4, pictures
    for picture in pictures:
        text = picture.read_text(encoding="utf-8")
        for marks in (
            r'y="([\d.]+)" text-anchor="end" [^>]*>([\d.,]+)<',
            r'<text x="([\d.]+)" y="330.0" text-anchor="middle" [^>]*>([\d.,]+)<',
        ):
            rows = [(float(at), float(value.replace(",", ""))) for at, value in re.findall(marks, text)]
            assert len(rows) > 2, (picture, rows)
            scale = float if min(value for _, value in rows) == 0 else math.log10
            each = [(scale(two) - scale(one)) / (to - at) for (at, one), (to, two) in zip(rows, rows[1:])]
            assert max(each) - min(each) < 0.01 * abs(each[0]), (picture, rows)


def test_tables_of_figures(program):
    """bench/run --document prints the tables of docs/PERFORMANCE.md as they stand there, from the figures that stand in
    them; other figures where a run has some; and whether a goal is reached by the figures that are shown."""
    tables, text = loaded(TOP / "bench/tables.py"), documents()["docs/PERFORMANCE.md"]
    figures, kept = tables.read(text), []
    assert len(figures) > 150, len(figures)
    for title, rows in tables.written(figures, text, lambda *it: kept.append(it)).items():
        for row in rows.splitlines():
            assert row in text.splitlines(), f"bench/run --document prints, for {title}: {row}"
        assert f"\n\n{rows}\n" in text.split(f"\n## {title}\n", 1)[1].split("\n## ", 1)[0], title
    assert [why for _, why in kept] == ["that a part measures"], kept
    pattern = re.sub(r"\\\{\w+\\\}", "(.+)", re.escape(tables.MEASURED))
    assert re.search(pattern, " ".join(text.split())), pattern
    title = "traffic on a file, disk (blocks of 500 requests)"
    taken = {"c": [200, 300, 500], "python": [300, 600, 500], "bikeshare": [100, 309, 450]}
    kept, found = [], tables.Found({title: {"wall us a request": taken}})
    goals = tables.written(found, text, lambda label, _: kept.append(label))["Goals"].splitlines()
    wanted = "| 2. the same on a disk: wall, microseconds | at most C's | 300 | 1.5 times | 309, 0.90 times | yes |"
    assert [it for it in goals if it not in text.splitlines()] == [wanted], goals
    assert len(kept) == sum(len(rows) for _, rows in tables.TABLES.values()) - 1, kept
    assert tables.shown([0.094, 0.996, 9.96, 99.6, 1036.4], 2) == "0.09; 1.0; 10; 100; 1,036"
    assert tables.shown([0.996, 9.996, 99.96, 5], 3) == "1.00; 10.0; 100; 5.00"
    assert tables.shown([2.76, 2.84], 2) == "2.8"


def test_instructions_are_counted(program):
    """bench/run --instructions says in a line which tool is missing. The sums of all that callgrind wrote are read
    once; that nothing was counted is a fault; and glibc fills and copies without what is counted a byte at a time."""
    asked = [sys.executable, TOP / "bench/run", "--instructions", "none=/bin/true"]
    ran = subprocess.run(asked, env={"PATH": program.folder}, capture_output=True, text=True, check=False)
    assert ran.returncode == 2 and not ran.stdout, ran
    assert re.fullmatch(r"instructions are counted by valgrind, .*: there is no valgrind\n", ran.stderr), ran.stderr
    programs = loaded(TOP / "bench/programs.py")
    counted = programs.Counted(programs.Program("none=/bin/true --plain"), program.folder)
    assert counted.words[-2:] == ["/bin/true", "--plain"] and counted.name == "none", counted.words
    for it in "stosb", "movsb":
        assert f"glibc.cpu.x86_rep_{it}_threshold=1000000000" in counted.words[2], counted.words
    for name, count in ("7", 40), ("7.1", 2):
        (counted.folder / name).write_text(f"events: Ir\nsummary: {count}\n\ntotals: {count}\n", encoding="utf-8")
    assert counted.instructions() == 42
    try:
        counted.instructions()
    except programs.Failed as fault:
        assert str(fault) == "none: callgrind counted nothing", fault
    else:
        raise AssertionError("nothing was counted, and a sum was told")
    assert "bench/run --instructions " in (TOP / "bench/README.md").read_text(encoding="utf-8")


def test_wrong_bodies(program):
    """docs/GATE.md lists the must-fail edits that the gate tries, and says how many there are of them and in
    review/."""
    text = (TOP / "docs/GATE.md").read_text(encoding="utf-8")
    tried = {f"{it.parts[-3]}/{it.stem}" for it in TOP.glob("crates/*/must-fail/*.edit")}
    listed = re.findall(r"^\| .* \| `(bike_\w+/\w+)` \|$", text, re.M)
    assert sorted(tried) == sorted(listed), sorted(tried.symmetric_difference(listed))
    assert len(tried) <= 30, len(tried)
    kept = len(list(TOP.glob("review/*/*.edit")))
    for wanted in f"{len(tried)} in all", f"{kept} in all":
        assert wanted in " ".join(text.split()), wanted


def test_costs(program):
    """docs/costs.csv has the crates in the order of crates.txt, each with its edits and, to a thirtieth, its lines; of
    what is measured the day."""
    crates = [
        it.split(":")[0]
        for it in (TOP / "crates.txt").read_text(encoding="utf-8").splitlines()
        if it and not it.startswith("#")
    ]
    with open(TOP / "docs/costs.csv", encoding="utf-8", newline="") as file:
        rows = list(csv.DictReader(file))
    old = "tools/costs table writes docs/costs.csv anew"
    assert (
        sorted(crates) == sorted(it.name for it in TOP.glob("crates/*")) and [it["crate"] for it in rows] == crates
    ), old
    for row in rows:
        for name, place in ("must_fail", f"crates/{row['crate']}/must-fail"), ("review", f"review/{row['crate']}"):
            assert int(row[name]) == len(list(TOP.glob(f"{place}/*.edit"))), (row["crate"], name, old)
        for name in "src", "specs", "proofs":
            files = [it for it in TOP.glob(f"crates/{row['crate']}/{name}/**/*") if it.suffix in (".rt", ".antt")]
            found = sum(it.read_text(encoding="utf-8").count("\n") for it in files)
            assert abs(found - int(row[name])) <= max(20, found / 30), (row["crate"], name, found, old)
        for name in "noted", "tried":
            assert re.fullmatch(r"(?:\d{4}-\d\d-\d\d)?", row[name]), (row["crate"], row[name])
        assert row["noted"] or not any(row[it] for it in ("check_s", "edits_s", "memory_mb")), row


def test_groups_of_crates(program):
    """docs/ARCHITECTURE.md has the crates in the groups of crates.txt, and within each in their order."""
    text = documents()["docs/ARCHITECTURE.md"].split("## The crates", 1)[1].split("\n## ", 1)[0]
    found, wanted = [], []
    for line in text.splitlines():
        cells = line.split("|")
        if len(cells) == 5:
            found += re.findall(r"\*\*(.+)\*\*", cells[1]) + re.findall(r"`(bike\w*)`", cells[2])
    for line in (TOP / "crates.txt").read_text(encoding="utf-8").splitlines()[1:]:
        wanted.append(line[2:] if line.startswith("# ") else line.split(":")[0])
    assert found == wanted, [(one, other) for one, other in zip(found, wanted) if one != other]


def test_libraries_of_crates(program):
    """A crate of this repository that crates.txt names as a library of another is named in the other's files."""
    on, unused = libraries(), []
    for crate, names in on.items():
        parts = (TOP / "crates" / crate / it for it in ("src", "specs", "proofs"))
        files = [it for part in parts for it in part.rglob("*") if it.suffix in (".rt", ".antt")]
        text = "\n".join(it.read_text(encoding="utf-8") for it in files)
        unused += [(crate, it) for it in names if it in on and not re.search(rf"\b{it}\b", text)]
    assert not unused, unused


# Words and phrases that no document has any more, each with the plain one that stands in its place.
GONE = {
    "dear": "expensive",
    "dearer": "more expensive",
    "dearest": "most expensive",
    "dearly": "expensively",
    "let go": "dropped, freed",
    "lets go": "drops, frees",
    "letting go": "dropping, freeing",
    "in whom": "in which",
    "whom": "which",
    "he": "it, of the operator",
    "him": "it, of the operator",
    "his": "its, of the operator",
    "himself": "itself",
    "a front": "a prefix",
    "a raise": "an upgrade",
    "the raise": "the upgrade",
    "operator who": "operator that",
    "tells beside": "holds besides",
    "tell beside": "hold besides",
    "fronts": "prefixes",
    "reckon": "compute, count",
    "reckoned": "computed, counted",
    "reckoning": "computing, counting",
    "told as": "reported as",
    "words of the program": "subcommands, or the command line",
    "lists of words": "command lines",
}


def gone_in(text):
    """The words of the list above that stand in a document's prose: code blocks and texts in backticks are left out,
    and a phrase may go over the end of a line."""
    prose = " ".join(re.sub(r"(`+)[^`]+\1", "`", BLOCK.sub("", text)).split())
    return [it for it in GONE if re.search(rf"\b{it}\b", prose, re.I)]


def test_words_that_are_gone(program):
    """No document has one of them again."""
    assert gone_in("Such a proof is Dear: it\nlets\n  go of the lock.") == ["dear", "lets go"]
    assert gone_in("# `dear`\n\n```\nin whom\n```\n\nNearly `lets go`, dears.\n\n  ```\n  himself\n  ```\n") == []
    for name, text in documents().items():
        found = gone_in(text)
        assert not found, f"{name} has {', '.join(f'{it} (say: {GONE[it]})' for it in found)}"


# At most so many lines has a document, and all of them together.
LONGEST_DOCUMENTS = {"README.md": 120, "docs/GATE.md": 120, "docs/PERFORMANCE.md": 250, "docs/OPERATING.md": 600}
MOST_LINES = 4000


def long_lines(text):
    """The lines of a document's prose that aren't wrapped at about 100 characters."""
    return [it for it in BLOCK.sub("", text).splitlines() if len(it) > 102 and not it.lstrip().startswith("|")]


def test_lengths(program):
    """No document is longer than it may be, nor are all together; and their prose is wrapped."""
    assert long_lines(f"```\n{'x' * 200}\n```\n| {'x' * 200} |\n{'x' * 102}\n") == []
    assert long_lines("x" * 103) == ["x" * 103]
    lengths = {name: text.count("\n") for name, text in documents().items()}
    for name, text in documents().items():
        assert lengths[name] <= LONGEST_DOCUMENTS.get(name, MOST_LINES), (name, lengths[name])
        assert not long_lines(text), (name, long_lines(text))
    assert sum(lengths.values()) <= MOST_LINES, sum(lengths.values())


# At most so many characters has a line of code, comments and contracts.
WIDEST_LINE = 120


def wide_lines(text):
    """The numbers of the lines that are too wide, but for attributes, which `rt fmt` joins."""
    lines = enumerate(text.splitlines(), 1)
    return [n for n, it in lines if len(it) > WIDEST_LINE and not it.lstrip().startswith("#[")]


def test_widths_of_code(program):
    """No line of a crate's code is too wide, be it a comment or a clause."""
    assert wide_lines("→" * 120 + "\n" + "x" * 121 + "\n") == [2]
    files = sorted((TOP / "crates").glob("*/src/**/*.rt"))
    wide = [f"{it.relative_to(TOP)}:{n}" for it in files for n in wide_lines(it.read_text(encoding="utf-8"))]
    assert files and not wide, wide


FUNCTION = re.compile(r"\s*(?:pub(?:\(\w+\))? )?(?:const |unsafe )*fn (\w+)")
CLAUSE = re.compile(r"\s*(requires|ensures) ")
# A contract of so many clauses is laid out in groups, and none of these has more than so many.
LONG_CONTRACT = 6
LONGEST_GROUP = 9


def groups_of_clauses(text):
    """The functions of a file, each with its clauses: those before the first comment of its contract, and those after
    each. A clause may go over lines."""
    name, groups, within = None, [], 0
    for line in text.splitlines():
        function, clause = FUNCTION.match(line), CLAUSE.match(line)
        if function:
            name, groups, within = function[1], [[]], 0
        if name and (within or clause):
            groups[-1] += [] if within else [clause[1]]
            within += line.count("{") - line.count("}")
        elif name and line.lstrip().startswith("// "):
            groups.append([])
        elif name and line.rstrip().endswith(("{", "{}", ";")):
            yield name, groups
            name = None


def is_laid_out(groups):
    """Each clause of a long contract has a comment before its group, but for what callers owe."""
    if sum(map(len, groups)) < LONG_CONTRACT:
        return True
    return "ensures" not in groups[0] and all(0 < len(it) <= LONGEST_GROUP for it in groups[1:])


def test_long_contracts_are_laid_out(program):
    """Before each group of clauses a comment says what the group promises."""
    clauses = "    requires { a }\n    ensures b { let c = 1 in\n        c ≡ record { d = c;\n        } }\n"
    assert list(groups_of_clauses(f"pub fn f()\n{clauses}    // D.\n{clauses}{{\n    // E.\n}}\nfn g() {{\n}}\n")) == [
        ("f", [["requires", "ensures"], ["requires", "ensures"]]), ("g", [[]])
    ]
    owed, promised = ["requires"] * 4, ["ensures"] * 2
    assert is_laid_out([promised * 2]) and is_laid_out([owed, promised, promised])
    assert not any(map(is_laid_out, ([owed + promised], [owed, promised, []], [[], promised * 5])))
    files = sorted((TOP / "crates").glob("*/src/**/*.rt"))
    contracts = [(it, *each) for it in files for each in groups_of_clauses(it.read_text(encoding="utf-8"))]
    bare = [(str(it.relative_to(TOP)), name) for it, name, groups in contracts if not is_laid_out(groups)]
    assert len(contracts) > 1000 and not bare, bare


PUBLIC = re.compile(r"\s*pub (?:const |unsafe )?(?:fn|struct|enum|trait|const|type|static) (\w+)")


def undocumented(text):
    """The public items of a file with no sentence before them; attributes may stand between."""
    found, told, attribute = [], False, False
    for line in text.splitlines():
        if attribute or line.lstrip().startswith("#["):
            attribute = not line.rstrip().endswith("]")
            continue
        item = PUBLIC.match(line)
        if item and not told:
            found.append(item[1])
        told = line.lstrip().startswith("///")
    return found


def test_public_items_have_a_sentence(program):
    """Each says what it is, be it for one crate more."""
    assert undocumented("pub fn f() {}\n/// G.\n#[inline]\npub fn g() {}\n") == ["f"]
    assert undocumented("/// F.\n#[tactic(\n    auto\n)]\npub fn f() {}\npub struct S;\n") == ["S"]
    files = sorted((TOP / "crates").glob("*/src/**/*.rt"))
    bare = [(str(it.relative_to(TOP)), name) for it in files for name in undocumented(it.read_text(encoding="utf-8"))]
    assert files and not bare, bare


PASSED = re.compile(r"^pub use (?:bike_\w+)::(?:\{([^}]*)\}|(\w+));", re.M)


def test_names_passed_on(program):
    """Three crates pass names of others on, as a part of their surface, and none passes on a module of definitions or
    of proofs."""
    names = {}
    for file in (TOP / "crates").glob("*/src/**/*.rt"):
        for several, one in PASSED.findall(file.read_text(encoding="utf-8")):
            crate = file.relative_to(TOP / "crates").parts[0]
            names.setdefault(crate, []).extend(it.strip() for it in (several or one).split(",") if it.strip())
    assert set(names) == {"bike_core", "bike_app", "bike_http"} and sum(map(len, names.values())) <= 30, names
    for file in (TOP / "crates").glob("*/*/**/*.antt"):
        own = file.relative_to(TOP / "crates").parts[0]
        passed = re.findall(r"^pub use Rattle\.(bike_\w+)", file.read_text(encoding="utf-8"), re.M)
        assert set(passed) <= {own}, (file, passed)


def test_days_of_figures(program):
    """Outside of CHANGELOG.md at most ten days stand on which something was measured or tried, and no time of day. Days
    of examples, which are of another year, don't count."""
    texts = {name: text for name, text in documents().items() if name != "CHANGELOG.md"}
    year = re.search(r"^## (\d{4})-", documents()["CHANGELOG.md"], re.M)[1]
    found = [(name, it) for name, text in texts.items() for it in re.findall(rf"\b{year}-\d\d-\d\d\b", text)]
    assert len(found) <= 10, found
    clock = rf"{year}-\d\d-\d\d, \d\d:\d\d"
    times = [(name, it) for name, text in texts.items() for it in re.findall(clock, text)]
    assert not times, times


NUMBERS = (
    "none one two three four five six seven eight nine ten eleven twelve thirteen fourteen fifteen sixteen seventeen "
    "eighteen nineteen twenty"
).split()


def libraries():
    """The libraries that each crate of this repository names in crates.txt, those of the kit among them."""
    lines = [it for it in (TOP / "crates.txt").read_text(encoding="utf-8").splitlines() if it and it[0] != "#"]
    return {name: names.split() for name, names in (it.split(":", 1) for it in lines)}


def crates_below(crate):
    """The crates of this repository on which one stands, by crates.txt."""
    on = libraries()
    found, left = set(), [crate]
    while left:
        new = [it for it in on[left.pop()] if it in on and it not in found]
        found.update(new)
        left += new
    return found


def test_counts(program):
    """What a document counts in prose is so many."""
    texts = {name: " ".join(text.split()) for name, text in documents().items()}
    rules, formats_, reading = (documents()[f"docs/{it}.md"] for it in ("OPERATOR", "FORMATS", "READING"))
    crates = len(list(TOP.glob("crates/*")))
    tables = len(re.findall(r"^\| [a-z_0-9]+ \| \S+\* \(", formats_.split("## 10. Database", 1)[1], re.M))
    commands = len(re.findall(r"^\| \*\*[a-z-]+\*\* \|", rules, re.M))
    replies = formats_.split("## 3. Answer lines", 1)[1].split("\n## ", 1)[0].count("\n| ") - 1
    contracts = len(re.findall(r"^## \d+\. [^`\n]+: `[\w:]+`$", reading, re.M))
    made = (TOP / "crates/bike_schema/src/indexes.rt").read_text(encoding="utf-8").count('"CREATE INDEX ')
    own = texts["docs/ARCHITECTURE.md"].split("of their own in all documents:", 1)[1].split("## ", 1)[0]
    own = own.count("**") // 2
    queries = re.search(r"Each of ten queries .*?\*By\* (.*?)\(`query`", texts["docs/PROVED.md"])[1].count("`") // 2
    for name, said, wanted in (
        ("README.md", r"the (\w+) feeds that it lists", len(FEEDS) - 1),
        ("README.md", r"reads (\w+) contracts more", contracts),
        ("CONTRIBUTING.md", r"reads (\w+) contracts with you", contracts),
        ("CONTRIBUTING.md", r"of `bike_core` (\w+), some", len(crates_below("bike_core"))),
        ("docs/READING.md", r"see on (\w+) contracts", contracts),
        ("docs/ARCHITECTURE.md", r"a stack of (\w+) small crates", crates),
        ("docs/ARCHITECTURE.md", r"an operator as (\w+) tables", tables),
        ("docs/ARCHITECTURE.md", r"(\w+) words have a meaning", own),
        ("docs/PROVED.md", r"There are (\w+) kinds of command", commands),
        ("docs/PROVED.md", r"kinds of command and (\w+) replies", replies),
        ("docs/PROVED.md", r"For each of the (\w+) commands", commands),
        ("docs/PROVED.md", r"For each of the (\w+) tables", tables),
        ("docs/PROVED.md", r"Each of (\w+) queries", queries),
        ("docs/DECISIONS.md", r"of (\w+) statements that make indexes", made),
    ):
        (found,) = re.findall(said, texts[name])
        number = int(found) if found.isdigit() else NUMBERS.index(found.lower())
        assert number == wanted, (name, said, found, wanted)
    assert own <= 5, own


def misquoted(text, lines_of):
    """The lines that a text quotes, below a line that names their file, and that don't stand so in it, and how many it
    quotes. Two dots stand for what is left out."""
    wrong, count = [], 0
    for block in BLOCK.findall(text):
        lines = None
        for line in block.splitlines():
            source = SOURCE.fullmatch(line)
            if source:
                lines = {it.strip() for it in lines_of(source[1])}
            elif lines is not None and line.strip() not in ("", ".."):
                count += 1
                pattern = re.escape(line.strip()).replace(r"\.\.", ".+")
                if line.strip() not in lines and not any(re.fullmatch(pattern, it) for it in lines):
                    wrong.append(line.strip())
    return wrong, count


def test_quoted_code_stands_in_its_file(program):
    """Each line of code below the name of a file is a line of that file."""
    shown = "```rust\n// crates/a.rt\nfn f()\n    one { x }\n    ..\n-- crates/b.antt\ng (a ..) = b\n```\n"
    source = {"crates/a.rt": ["fn f()", "  one { x }"], "crates/b.antt": ["g (a b c) = b"]}
    assert misquoted(shown, source.get) == ([], 3)
    source["crates/a.rt"][1] = source["crates/b.antt"][0] = "two { x }"
    assert misquoted(shown, source.get) == (["one { x }", "g (a ..) = b"], 3)
    counts = {}
    for name, text in documents().items():
        wrong, counts[name] = misquoted(text, lambda it: (TOP / it).read_text(encoding="utf-8").splitlines())
        assert not wrong, f"{name} quotes what isn't there: {wrong}"
    assert counts["docs/READING.md"] > 80 and counts["README.md"] > 5 and counts["CONTRIBUTING.md"] > 1, counts


def test_quoted_sentence_stands_in_proved(program):
    """The sentence of docs/PROVED.md that docs/READING.md follows to its contract stands there."""
    reading, proved = (" ".join(documents()[f"docs/{it}.md"].split()) for it in ("READING", "PROVED"))
    sentence = re.search(r'"([^"]+)"', reading.split("## 8. ", 1)[1])[1]
    parts = sentence.split(" .. ")
    assert len(parts) == 2 and all(it in proved for it in parts), parts


# What files of the toolchain, of a made program or of a configured machine are named by, and names that stand for many.
ELSEWHERE = re.compile(
    r"sqlite\w*/specs/.*|std/specs/.*|crates/bikeshare/out/.*|(?:FIRST|SHORTER)_PROOFS\.md|/etc/.*|.*@.*|"
    r".*(?:CRATE|NAME)\b.*"
)
IS_FILE = re.compile(
    r"(?:crates|tests|tools|docs|deploy|bench|examples|review)/.*|.*\w\.(?:py|rt|antt|md|sh|yaml|txt|edit|"
    r"conf|svg|html)"
)


def missing_in(text):
    """The files that a text names in backticks and that aren't there. They are named from the top, from docs, from
    crates or from a crate."""
    named = {
        name.strip("/")
        for one in quoted(text)
        for name in re.findall(r"[\w./@*-]+", one)
        if IS_FILE.fullmatch(name) and not ELSEWHERE.fullmatch(name)
    }
    folders = (
        "", "docs/", "deploy/", "tests/", "crates/", "crates/*/", "crates/*/specs/", "crates/*/src/", "crates/*/proofs/"
    )
    return sorted(it for it in named if not any(any(TOP.glob(f"{folder}{it}")) for folder in folders))


def test_files_that_are_named_are_there(program):
    """Whatever a document names in backticks like a file of the repository is one."""
    assert missing_in("`tests/documents.py`, `docs/*.md`, `bike_core/src/lib.rt` and `sqlite/specs/State.antt`") == []
    assert missing_in("`tests/document.py` and `bike_core/src/none.rt`") == [
        "bike_core/src/none.rt", "tests/document.py"
    ]
    for name, text in documents().items():
        assert not missing_in(text), f"{name} names {missing_in(text)}"


def anchors_of(text):
    """The anchors of a document's headings."""
    heads = re.findall(r"^#+ (.*)$", BLOCK.sub("", text), re.M)
    return {re.sub(r"[^\w -]", "", it.lower()).replace(" ", "-") for it in heads}


def bad_links(texts):
    """The links of these documents that lead nowhere, and the sections and the titles of a document that it doesn't
    have."""
    found = []
    for name, text in texts.items():
        for link in re.findall(r"\]\(([^)\s]+)\)", BLOCK.sub("", text)):
            place, _, anchor = link.partition("#")
            place = os.path.normpath(os.path.join(os.path.dirname(name), place)) if place else name
            page = f"{place}/README.md" if (TOP / place).is_dir() else place
            if not re.match("https?:", link) and not (
                (TOP / place).exists() and (not anchor or anchor in anchors_of(texts[page]))
            ):
                found.append(f"{name}: {link}")
        plain = " ".join(re.sub(r"\]\([^)]*\)|\[", "", text).split())
        for cited, one, other in re.findall(r"\b([A-Z]{3,})\.md, sections? (\d+)(?:(?: and | to )(\d+))?", plain):
            heads = re.findall(r"^## (\d+)\. ", texts[f"docs/{cited}.md"], re.M)
            found += [f"{name}: {cited}.md, section {it}" for it in (one, other) if it and it not in heads]
        for cited, title in re.findall(r"\b([A-Z]{3,})\.md, \"([^\"]+)\"", plain):
            where = texts.get(f"docs/{cited}.md", texts.get(f"{cited}.md"))
            if not re.search(rf"^#+ (?:\d+\. )?{re.escape(title)}$|\*\*{re.escape(title)}\.?\*\*", where, re.M):
                found.append(f"{name}: {cited}.md, {title}")
    return found


def test_links_and_sections(program):
    """Each link leads to a file and a heading that are there, and each section that is cited, by its number or its
    title, too."""
    text = "[a](docs/API.md#routes) [a](docs/none.md) API.md, \"Nothing\", FORMATS.md, section 99, [a](#none)\n# One\n"
    assert bad_links(documents() | {"README.md": text}) == [
        "README.md: docs/none.md", "README.md: #none", "README.md: FORMATS.md, section 99", "README.md: API.md, Nothing"
    ]
    others = [
        TOP / "docs/openapi.yaml",
        *(file for where in ("bench", "examples/*", "tests/files") for file in TOP.glob(f"{where}/README.md")),
    ]
    assert len(others) == 5, others
    found = bad_links(documents() | {str(it.relative_to(TOP)): it.read_text(encoding="utf-8") for it in others})
    assert not found, found


def test_examples_of_the_formats(program):
    """The city, the feeds, the day table and the header that docs/FORMATS.md shows are those of the tests, which send
    them to the program."""
    lines = "\n".join(BLOCK.findall(documents()["docs/FORMATS.md"])).replace("⇥", "\t").splitlines()
    begin = lines.index(CITY[0])
    assert lines[begin : begin + len(feeds.CITY)] == feeds.CITY, lines[begin:][: len(feeds.CITY)]
    shown = [it for it in lines if it.startswith("{")]
    assert shown == [f"{HEAD}{feeds.DATA['station_status']}}}", feeds.DATA["station_information"]], shown
    table = lines.index(days.RENTALS.strip()) + 1
    assert f'"{lines[table]}\\n"' in (TOP / "tests/days.py").read_text(encoding="utf-8"), lines[table]
    assert f"`{HEADER.strip()}`" in documents()["docs/FORMATS.md"]


def is_code(file):
    """Whether a file is Python or C, by its name or by its first line."""
    if not file.is_file():
        return False
    return file.suffix in (".py", ".c") or (not file.suffix and file.read_bytes().startswith(b"#!/usr/bin/env python3"))


def test_lines_of_code_are_short(program):
    """No line of Python or C has more than 120 characters."""
    kinds = "tests/**/*", "bench/**/*", "tools/**/*", "examples/**/*"
    files = [file for kind in kinds for file in TOP.glob(kind) if is_code(file)]
    assert len(files) > 60, len(files)
    lines = [(file, at, line) for file in files for at, line in enumerate(file.read_text("utf-8").split("\n"), 1)]
    long = [f"{file.relative_to(TOP)}, line {at}: {len(line)}" for file, at, line in lines if len(line) > 120]
    assert not long, "\n".join(sorted(long))


def test_subcommands(program):
    """Wherever a document shows the program's command line, its first word is one of docs/FORMATS.md, section 9."""
    texts = documents()
    known = set(re.findall(r"^\| `([a-z]+) FILE", texts["docs/FORMATS.md"], re.M))
    assert len(known) == 9, known
    for name, text in texts.items():
        shown = [*"\n".join(BLOCK.findall(text)).splitlines(), *quoted(text)]
        found = {it[1] for line in shown if (it := re.match(r"(?:\S*/)?bikeshare ([a-z]+)\b", line))}
        assert found <= known, (name, found - known)


def test_names_of_contracts(program):
    """Each name in backticks of docs/READING.md and of docs/PROVED.md stands in the code, its definitions or the
    tests."""
    wanted = re.compile(r"[A-Za-z]\w*[_A-Z]\w*")
    kinds = (
        "crates/*/src/**/*.rt", "crates/*/specs/**/*.antt", "crates/*/proofs/*.antt", "crates.txt", "HANDLES",
        "tests/*", "tools/*",
    )
    files = [it for kind in kinds for it in TOP.glob(kind) if it.is_file()]
    there = {it for file in files for it in wanted.findall(f"{file.stem} {file.read_text(encoding='utf-8')}")}
    there |= {it.parent.name for it in TOP.glob("crates/*/src")} | {it.stem for it in TOP.glob("crates/*/must-fail/*")}
    assert len(files) > 500 and "run_adopt_and_read" in there, len(files)
    # What stands for other names, and a file of the top.
    other = {"IsX", "AreX", "HasX", "is_x", "CRATE", "HANDLES"}
    for name in ("docs/READING.md", "docs/PROVED.md"):
        found = {it for one in quoted(documents()[name]) for it in wanted.findall(one)} - other - there
        assert not found, f"{name} names {sorted(found)}"


def test_refusals_of_commands(program):
    """docs/OPERATOR.md has the refusals and each command's row as the definitions have them, in their order."""
    text = documents()["docs/OPERATOR.md"]
    files = "bike_operator/specs/Steps.antt", "bike_commands/specs/Refusals.antt"
    steps, names = ((TOP / "crates" / it).read_text(encoding="utf-8") for it in files)
    number_of = {name: int(number) for name, number in re.findall(r"^number_of r\.(\w+) = (\d+)$", names, re.M)}
    named = {number_of[name]: word for name, word in re.findall(r'^name_of r\.(\w+) = codes "(\w+)"$', names, re.M)}
    assert {
        int(number): word for number, word in re.findall(r"^\| (\d+) \| ([a-z_]+) \| ", text, re.M)
    } == named == formats.REFUSALS
    wanted = {}
    for command, tried in re.findall(r"^tests v \(command\.(\w+).*?\) = *(.*?)∷ \[\]$", steps, re.M | re.S):
        word = re.sub(r"(?<!^)([A-Z])", r"-\1", command).lower()
        wanted[word] = [
            number_of.get(it, "the kind's") for it in re.findall(r"(?:refusal\.|, )(\w+)(?: kind)?\)", tried)
        ]
    rows = {}
    for word, refusals in re.findall(r"^\| \*\*([a-z-]+)\*\* \| [^|]+ \| ([^|]+) \| ", text, re.M):
        rows[word] = [
            int(it) if it.isdigit() else "the kind's" for it in re.sub(r" \((?:from|to)\)", "", refusals).split(", ")
        ]
    assert len(rows) == 30 and rows == wanted, [
        (it, rows.get(it), wanted.get(it)) for it in wanted if rows.get(it) != wanted[it]
    ]
    kinds = dict(re.findall(r"^unknown_of named\.(\w+) = refusal\.(\w+)$", steps, re.M))
    told = re.findall(r"^  \| `(\w+)` \| .* \| (\d+) (\w+) \|$", text, re.M)
    assert told == [(it.lower(), str(number_of[why]), named[number_of[why]]) for it, why in kinds.items()], told


def test_limits_of_the_rules(program):
    """The limits of docs/OPERATOR.md, section 11, are the constants, in their order."""
    rows = documents()["docs/OPERATOR.md"].split("## 11. Limits", 1)[1].split("\n## ", 1)[0]
    limits = re.findall(
        r"^pub const \w+: u32 = ([\d_]+);$",
        (TOP / "crates/bike_operator/src/limits.rt").read_text(encoding="utf-8"),
        re.M,
    )
    found = [it.replace(",", "") for it in re.findall(r"^\| [^|]+ \| ([\d,]+) \| ", rows, re.M)]
    assert len(found) == 10 and found == [it.replace("_", "") for it in limits], (found, limits)


def test_tables_of_the_formats(program):
    """docs/FORMATS.md, section 10, has the tables of deploy/bikeshare-doctor, which tests/doctor.py holds to those that
    the program makes: their columns in order, which of them may be NULL and which are the key, and which are texts."""
    rows = documents()["docs/FORMATS.md"].split("## 10. Database", 1)[1].split("\n## ", 1)[0]
    found = {}
    for table, columns in re.findall(r"^\| ([a-z_0-9]+) \| ([^|;]+)[^|]*\| ", rows, re.M):
        found[table] = re.sub(r" \([^)]*\)", "", columns).strip().split(", ")
    texts = set(
        (
            "app name description form propulsion by_type caller req_key command reply from_station to_station "
            "from_end to_end"
        ).split()
    )
    doctor, wanted = loaded(TOP / "deploy/bikeshare-doctor"), {}
    with contextlib.closing(sqlite3.connect(":memory:")) as db:
        db.executescript(doctor.SCHEMA)
        for (table,) in db.execute("SELECT name FROM sqlite_master WHERE type = 'table' ORDER BY rootpage").fetchall():
            wanted[table] = []
            for _, name, kind, is_wanted, _, key in db.execute(f"PRAGMA table_info({table})").fetchall():
                wanted[table].append(f"{name}{'*' if key else '' if is_wanted else '?'}")
                is_text = name in texts or name.endswith("_id") or table == "more_names" or (
                    table == "system" and name not in ("one", "ttl")
                )
                assert kind == ("TEXT" if is_text else "INTEGER"), (table, name, kind)
    assert len(found) == 17 and found == wanted, [
        (it, found.get(it), wanted[it]) for it in wanted if found.get(it) != wanted[it]
    ]


def test_rules_have_their_names(program):
    """Each rule that a comment of the code names stands in bold in docs/OPERATOR.md."""
    bold = {
        " ".join(it.lower().split())
        for it in re.findall(r"\*\*(the [^*]+\srule)\b", documents()["docs/OPERATOR.md"], re.I)
    }
    files = [it for kind in ("src/**/*.rt", "specs/**/*.antt") for it in TOP.glob(f"crates/*/{kind}")]
    named = {
        rule.lower()
        for file in files
        for rule in re.findall(r"\bthe [a-z]+(?:-[a-z]+)* rule\b", file.read_text(encoding="utf-8"), re.I)
    }
    assert len(named) > 15 and named <= bold, named - bold


def test_glossary(program):
    """Each entry of docs/READING.md's glossary stands there once, and its words are defined in the files that it
    names."""
    section = documents()["docs/READING.md"].split("## 2. Glossary", 1)[1].split("\n## ", 1)[0]
    rows = re.findall(r"^\| ([^|]+) \| [^|]+ \| ([^|]*`) \|$", section, re.M)
    words = [word for row, _ in rows for word in row.split(", ")]
    assert len(rows) > 20 and len(words) == len(set(words)), words
    tried = 0
    for word, cell in rows:
        for part in cell.split("; "):
            names, place = part.rsplit(": ", 1)
            if not place.startswith("toolchain"):
                text = (TOP / "crates" / place.strip("`")).read_text(encoding="utf-8")
                for name in QUOTED.findall(names):
                    tried += 1
                    assert re.search(rf"\bpub (?:\w+ )*{name}\b", text), (word, name, place)
    assert tried > 25, tried


def unknown_in(text):
    """The crates, the variables and the tests that a text names and that there aren't."""
    crates = {it.name for it in TOP.glob("crates/*")} | set(formats.REFUSALS.values())
    kinds = "tests/*", "tools/*", "deploy/*", "bench/*", "gate"
    files = [file for kind in kinds for file in TOP.glob(kind) if file.is_file()]
    scripts = [it for it in files if it.name != "documents.py"]
    variables = set(re.findall(r"BIKESHARE_[A-Z_]+", "".join(it.read_text(encoding="utf-8") for it in scripts)))
    tests = [f"{it.stem}." for it in TOP.glob("tests/*.py")] + [
        f"lines/{it.name}" for it in TOP.glob("tests/lines/*.in")
    ]
    named = [it for it in re.findall(r"\bbike_[a-z_]+\b", text) if it not in crates]
    named += [it for it in re.findall(r"\bBIKESHARE_[A-Z_]+\b", text) if it not in variables]
    words = [word for it in re.findall(r"\btests/run ([a-z_.]+(?: [a-z_.]+)*)", text) for word in it.split()]
    return named + [it for it in words if not any(it in name for name in tests)]


def test_what_the_repository_has(program):
    """Crates, variables and tests that a document names are there; and README.md tells the crates and, to a thirtieth,
    the lines."""
    assert unknown_in("bike_core, BIKESHARE_SEED=7 tests/run kill. regions") == []
    assert unknown_in("bike_kore, BIKESHARE_SEEDS=7 tests/run kills. regions") == [
        "bike_kore", "BIKESHARE_SEEDS", "kills."
    ]
    texts = documents()
    for name, text in texts.items():
        assert not unknown_in(text), (name, unknown_in(text))
    size = r"(\d+) crates, with some ([\d,]+) lines of `src`, ([\d,]+) of `specs` and ([\d,]+) of `proofs`"
    crates, *told = (int(it.replace(",", "")) for it in re.search(size, " ".join(texts["README.md"].split())).groups())
    assert crates == len(list(TOP.glob("crates/*"))), crates
    for wanted, folder in zip(told, ("src", "specs", "proofs")):
        files = [it for it in TOP.glob(f"crates/*/{folder}/**/*") if it.suffix in (".rt", ".antt")]
        found = sum(it.read_text(encoding="utf-8").count("\n") for it in files)
        assert abs(found - wanted) * 30 < wanted, (folder, found, wanted)
