"""The tables of docs/PERFORMANCE.md that a run of bench/run prints: each row as it stands there, with places for the
figures.

A place is {PROGRAM.MEASURE} or {PROGRAM.MEASURE.KIND}, and behind a colon how many digits are shown, 2 if none are
named. A place with several names, between spaces, has their figures with "; " between them, or one of them if all are
shown alike. The rows also read the figures of a document. What a run didn't measure is printed as it stands there.
"""

import itertools
import re
import statistics
import string

NUMBERS = r"([\d,.]*\d(?:; [\d,.]*\d)*)"
SIZES = 1_000, 10_000, 100_000, 500_000, 1_000_000  # closed rentals
THAT_GROW = {"c", "bikeshare"}  # the programs of the table of growth
MEASURED = (
    "Measured on {day}: {model}, {cores} cores, {memory} GB, {system}; {compiler}, SQLite {sqlite}, Python {python}."
)
RAM, HTTP = "traffic on a file, RAM disk", "HTTP, RAM disk"
COMMAND, START = "one command, RAM disk", "a start, RAM disk"
NAMES = "further names, 5,000 stations,"
LARGE, GET = "station_status, 5,000 stations, 32 types,", "GET: server's processor us"

# How a run's own tables begin and the row in it; and by what its figures are divided.
MEASURES = {
    "ram": (RAM, "processor us a request"),
    "bad": (RAM, "processor us a bad line"),
    "share": (RAM, "bad line, in hundredths of a request"),
    "disk": ("traffic on a file, disk", "wall us a request"),
    "small": ("small city in memory", "processor us a request"),
    "post": (HTTP, "POST: median, wall us"),
    "post-processor": (HTTP, "POST: server's processor us"),
    "row": (HTTP, "GET of a row: median, wall us"),
    "row-processor": (HTTP, "GET of a row: server's processor us"),
    "status": (HTTP, "GET of station_status: server's processor us"),
    "server": (HTTP, "peak memory with the opening, MB"),
    "eight": ("station_status, 500 stations, 8 types,", GET, 1000),
    "large": (LARGE, GET, 1000),
    "large-wall": (LARGE, "GET: median, wall us", 1000),
    "large-memory": (LARGE, "`feed`: peak memory, MB"),
    "large-opening": (LARGE, "`lines` of no line: peak memory, MB"),
    "plain": (NAMES, "station_information, no further names: server's processor us"),
    "named": (NAMES, "station_information, three for each station: server's processor us"),
    "check": ("opening, RAM disk", "`check`: processor s"),
    "none": (START, "rentals before: none"),
    "many": (START, "rentals before: 4,000"),
    "sent-again": (COMMAND, "start, sent again"),
    "refused": (COMMAND, "start, refused"),
}
for name in (
    "start end top-up refund load unload open-order close-order mark-bike mark-dock add-rider set-rider".split()
):
    MEASURES[name] = COMMAND, name
for name, title in {
    "request": "a start, end or top-up, processor us",
    "file": "file with its log, MB",
    "check": "`check`, processor s",
    "peak": "`check`, peak memory in MB",
    "opened": "opening alone, processor s",
    "opened-memory": "opening alone, peak memory in MB",
    "checked": "`check` beside it, processor s",
    "checked-memory": "`check` beside it, peak memory in MB",
    "served": "`serve`, peak memory in MB",
    "day": "`day` behind its first byte, wall s",
}.items():
    MEASURES |= {f"{name}-{it}": (f"growth: {title}", f"{it:,} closed rentals") for it in SIZES}

# Figures beside others of the same program and turn, and what is taken off.
BESIDE = {"past": ("many", "none", 0), "names": ("named", "plain", 0)}
BESIDE |= {f"audit-{it}": (f"checked-{it}", f"opened-{it}", 1) for it in SIZES}
KINDS = {
    "median": statistics.median,
    "least": min,
    "most": max,
    "rise": lambda values: (max(values) / min(values) - 1) * 100,  # in percent
}


def shown(values, digits):
    """Figures with so many digits, at most two of them behind the point."""
    texts = []
    for value in values:
        places = next(it for it in (2, 1, 0) if not it or round(value, it) < 10 ** (digits - it))
        texts.append(f"{value:,.{places}f}")
    return texts[0] if len(set(texts)) == 1 else "; ".join(texts)


class Row:
    """A row of a table."""

    def __init__(self, *cells, reached=None):
        """Takes the cells with their places; `reached` tells of the row's figures whether a goal is reached, for one
        cell more."""
        text = re.sub(r"\|  (?=\|)", "| ", f"| {' | '.join(cells)} |")
        self.label, self.reached = cells[0], reached
        self.parts = [
            (plain, names.split() if names else [], int(digits or 2))
            for plain, names, digits, _ in string.Formatter().parse(text)
        ]

    def read(self, line):
        """The figures of a line, by their names."""
        pattern = "".join(re.escape(plain) + (NUMBERS if names else "") for plain, names, _ in self.parts)
        found = re.match(pattern, line)
        if not found:
            raise ValueError(f"it isn't a row of the form {pattern}: {line}")
        figures = {}
        for (_, names, _), text in zip((it for it in self.parts if it[1]), found.groups()):
            values = [float(it.replace(",", "")) for it in text.split("; ")]
            figures |= zip(names, values if len(values) > 1 else values * len(names))
        return figures

    def written(self, figures):
        """The line with figures, by their names; whether a goal is reached is told of them as they are shown."""
        if not any(names for _, names, _ in self.parts):
            raise KeyError("that a part measures")
        line = "".join(
            plain + (shown([figures[it] for it in names], digits) if names else "")
            for plain, names, digits in self.parts
        )
        return f"{line} {self.reached(self.read(line))} |" if self.reached else line


def three(measure, times=3, digits=2, spread=False):
    """The cells of the three programs for one measure or more: C's figure, Python's multiple of it, and ours with its
    multiple."""

    def names(program, kind):
        """The names of a place."""
        return " ".join(f"{program}.{it}{kind}" for it in measure.split())

    def plain(program):
        """A figure, with the least and the greatest if they are asked for."""
        least, most = (f"{{{names(program, it)}:{digits}}}" for it in (".least", ".most"))
        return f"{{{names(program, '')}:{digits}}}" + (f" ({least} to {most})" if spread else "")

    return (
        plain("c"),
        f"{{{names('python', '.times')}}} times",
        f"{plain('bikeshare')}, {{{names('bikeshare', '.times')}:{times}}} times",
    )


def yes(is_reached):
    """The word for it."""
    return "yes" if is_reached else "no"


def at_most(name, *limits):
    """Tells whether a figure is at most a limit; of several that aren't all alike, each."""

    def told(figures):
        """The words."""
        met = [figures[name] <= it for it in limits]
        if len(set(met)) == 1:
            return yes(met[0])
        return ", ".join(f"{it} {'yes' if one else 'not'}" for it, one in zip(limits, met))

    return told


def growth_reached(figures):
    """Whether a request costs the same at each size, and, where it doesn't, whether C's does."""
    if figures["bikeshare.request.rise"] <= 10:
        return "yes"
    return "no, nor C's" if figures["c.request.most"] > 1.1 * figures["c.request.least"] else "no"


GOALS = [
    Row(
        "1. mixed traffic, RAM disk: processor, microseconds a request", "at most 2 times, below Python; later 1.8",
        *three("ram"),
        reached=lambda it: (
            at_most("bikeshare.ram.times", 2, 1.8)(it)
            if it["bikeshare.ram.times"] < it["python.ram.times"] else "not below Python"
        ),
    ),
    Row(
        "2. the same on a disk: wall, microseconds", "at most C's", *three("disk"),
        reached=at_most("bikeshare.disk.times", 1),
    ),
    Row(
        "3. a small city in memory: processor, microseconds", "at most 3 times", *three("small", 2),
        reached=at_most("bikeshare.small.times", 3),
    ),
    Row(
        "4. a line that spells no request", "below 1 % of an accepted one", "{c.bad}", "{python.bad.times} times",
        "{bikeshare.bad}, {bikeshare.share} %",
        reached=lambda it: yes(it["bikeshare.share"] < 1),
    ),
    Row(
        "5. POST over HTTP: wall, median, microseconds", "at most 2 times", *three("post"),
        reached=at_most("bikeshare.post.times", 2),
    ),
    Row(
        "6. `station_status`, 500 stations, 8 types: processor, ms a GET", "at most 1.5 times; later 3 times",
        *three("eight", 3, 3, True),
        reached=at_most("bikeshare.eight.times", 1.5, 3),
    ),
    Row(
        "7. the same, 5,000 stations, 32 types: ms a GET, wall; processor", "1 s, and no more memory than for 500",
        "{c.large-wall}; {c.large:3}", "{python.large.times} times",
        "{bikeshare.large-wall}; {bikeshare.large:3}, {bikeshare.large.times} times; {bikeshare.large-memory} MB, "
        "without the feed {bikeshare.large-opening}",
        reached=lambda it: yes(
            it["bikeshare.large-wall"] <= 1000 and it["bikeshare.large-memory"] <= it["bikeshare.large-opening"] + 1
        ),
    ),
    Row(
        "- `station_information` of 5,000, with three further names each, compared with none", "twice of it", "", "",
        "{bikeshare.names:3} times",
        reached=at_most("bikeshare.names", 2),
    ),
    Row(
        "8. opening with its audit (`check`): the city", "2 s", "{c.check}", "", "{bikeshare.check} s",
        reached=at_most("bikeshare.check", 2),
    ),
    *(
        Row(
            f"- with {size:,}{' rentals' if size < 1_000_000 else ''}", f"{most} s", f"{{c.check-{size}}}", "",
            f"{{bikeshare.check-{size}}} s",
            reached=at_most(f"bikeshare.check-{size}", most),
        )
        for size, most in ((100_000, 5), (1_000_000, 80))
    ),
    Row(
        "- the audit compared with opening: 100,000 rentals; 1,000,000", "0.4 of it", "", "",
        "{bikeshare.audit-100000}; {bikeshare.audit-1000000}",
        reached=lambda it: "; ".join(yes(it[f"bikeshare.audit-{size}"] <= 0.4) for size in (100_000, 1_000_000)),
    ),
    Row(
        "9. memory of the audit, 100,000 and 1,000,000 rentals", "that of the engine's opening", "", "",
        "{bikeshare.checked-memory-100000:3} and {bikeshare.checked-memory-1000000:3} MB; "
        "opening {bikeshare.opened-memory-100000:3} and {bikeshare.opened-memory-1000000:3}",
        reached=lambda it: yes(
            all(
                it[f"bikeshare.checked-memory-{size}"] <= it[f"bikeshare.opened-memory-{size}"] + 1
                for size in (100_000, 1_000_000)
            )
        ),
    ),
    Row(
        "10. peak memory of a server of the city", "40 MB", "{c.server} MB", "", "{bikeshare.server} MB",
        reached=at_most("bikeshare.server", 40),
    ),
    Row(
        "- with 1,000,000 rentals", "40 MB", "", "", "{bikeshare.served-1000000} MB",
        reached=at_most("bikeshare.served-1000000", 40),
    ),
    Row(
        "11. the table of a day among 1,000,000 rentals", "2 s", "", "", "{bikeshare.day-1000000} s after the opening",
        reached=at_most("bikeshare.day-1000000", 2),
    ),
    Row(
        "12. a request from 1,000 to 1,000,000 rentals: microseconds", "the same within 10 %",
        "{c.request.least} to {c.request.most}", "",
        "{bikeshare.request.least} to {bikeshare.request.most}: within {bikeshare.request.rise} %",
        reached=growth_reached,
    ),
    Row(
        "13. a start of a rider with 4,000 rentals, compared with one of a rider with none, once each rental was read",
        "1.5 times of it", "", "", "{bikeshare.many} and {bikeshare.none} microseconds, {bikeshare.past:3} times",
        reached=at_most("bikeshare.past", 1.5),
    ),
    Row(
        "14. a city without regions and further names, compared with before schema 3: instructions of a request; "
        "a feed; opening"
    ),
]
REQUESTS = [
    Row(label, *three(measure, 2))
    for label, measure in {
        "start": "start",
        "- sent again": "sent-again",
        "- refused": "refused",
        "end": "end",
        "top-up": "top-up",
        "refund": "refund",
        "load, from a dock": "load",
        "unload": "unload",
        "open-order; close-order": "open-order close-order",
        "mark-bike, in a dock; mark-dock": "mark-bike mark-dock",
        "add-rider; set-rider": "add-rider set-rider",
    }.items()
]
OVER_HTTP = [
    Row(label, *three(measure, spread=True))
    for label, measure in {
        "POST: wall": "post",
        "POST: processor": "post-processor",
        "row: wall": "row",
        "row: processor": "row-processor",
        "`station_status`, 2 types: processor": "status",
    }.items()
]
GROWTH = [
    Row(
        f"{size:,}",
        f"{{c.request-{size}}}; {{bikeshare.request-{size}}}, {{bikeshare.request-{size}.times}} times",
        *(f"{{c.{it}-{size}}}; {{bikeshare.{it}-{size}}}" for it in ("file", "check", "peak")),
    )
    for size in SIZES
]
TABLES = {
    "Goals": ("| What | Goal | C | Python | bikeshare | Reached |", GOALS),
    "Requests": ("| Command | C | Python | bikeshare |", REQUESTS),
    "Feeds and HTTP": ("| | C | Python | bikeshare |", OVER_HTTP),
    "Growth": (
        "| Closed rentals | a request, microseconds | file with its log, MB | `check`, s | its peak, MB |", GROWTH
    ),
}


class Found:
    """The figures of a run, by their names in the rows. One that wasn't measured is a KeyError."""

    def __init__(self, tables):
        """Takes the run's tables: for each title, row and program what was measured."""
        self.tables = tables

    def values(self, program, measure):
        """What was measured."""
        if measure == "request":  # the medians at all sizes
            title = MEASURES["request-1000"][0]
            rows = next((rows for it, rows in self.tables.items() if it.startswith(title)), {})
            if not all(f"{it:,} closed rentals" in rows for it in SIZES):
                raise KeyError(measure)
            return [statistics.median(it[program]) for it in rows.values()]
        title, row, *unit = MEASURES[measure]
        rows = next((rows for it, rows in self.tables.items() if it.startswith(title)), {})
        return [it / (unit or [1])[0] for it in rows[row][program]]

    def __getitem__(self, name):
        """A figure."""
        program, measure, kind, *_ = *name.split("."), "median"
        try:
            if measure in BESIDE:
                one, other, less = BESIDE[measure]
                beside = zip(self.values(program, one), self.values(program, other))
                return statistics.median(it / base - less for it, base in beside)
            values = self.values(program, measure)
            if kind == "times":
                return statistics.median(it / base for it, base in zip(values, self.values("c", measure)))
            return KINDS[kind](values)
        except KeyError:
            raise KeyError(name) from None


def lines_of(document):
    """The lines of a document's tables, by their first cells."""
    lines = [it for it in document.splitlines() if it.startswith("| ")]
    found = {it[2:].split(" |")[0]: it for it in reversed(lines)}
    for row in itertools.chain(*(rows for _, rows in TABLES.values())):
        if row.label not in found:
            raise ValueError(f"the document has no row {row.label}")
    return found


def read(document):
    """The figures that stand in a document, by their names."""
    lines, figures = lines_of(document), {}
    for row in itertools.chain(*(rows for _, rows in TABLES.values())):
        figures |= row.read(lines[row.label])
    return figures


def written(figures, document, stays):
    """The tables with figures, by their titles. A row of which a figure is missing is the document's, and `stays` is
    called with its first cell and the missing name."""
    lines, tables = lines_of(document), {}
    for title, (head, rows) in TABLES.items():
        tables[title] = [head, "|---" * (head.count("|") - 1) + "|"]
        for row in rows:
            try:
                tables[title].append(row.written(figures))
            except KeyError as missing:
                tables[title].append(lines[row.label])
                stays(row.label, missing.args[0])
    return {title: "\n".join(rows) for title, rows in tables.items()}
