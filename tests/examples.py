"""What stands in examples/: the tour of the city runs to its end and tells a wrong answer, and the map holds what the
feeds say.

Of the live page what it is made of is tested; what it shows, where there is chromium; that of the tour's city, where
there is nginx too. Where there is none a line says what wasn't tried.
"""

import contextlib
import csv
import datetime
import html.parser
import http.server
import json
import re
import shutil
import subprocess
import sys
import threading
import urllib.parse
import urllib.request
import xml.etree.ElementTree as xml
from pathlib import Path

from shared import TOP, Program, has, loaded, needs

TOUR, MAP, PICTURE = TOP / "examples/city/run", TOP / "examples/map/map.py", TOP / "docs/pictures/city.svg"
LIVE, SHOW = TOP / "examples/map/live.html", TOP / "examples/map/show"
STEPS = [
    "init", "setup", "stations", "regions", "names", "fleet", "docks", "morning", "day", "feeds", "serve", "tables",
    "check",
]
SECONDS = 60

# A system with what GBFS v3.0 requires and no more, but for a feed and members that nobody knows.
HEAD = {"last_updated": "2024-10-27T12:00:00+01:00", "ttl": 0, "version": "3.0", "unknown": {}}
NAMES = ("system_information", "station_information", "station_status", "weather")
PLAIN = {
    "gbfs": {"feeds": [{"name": it, "url": f"https://example.org/{it}"} for it in NAMES]},
    "system_information": {
        "languages": ["ar", "fr"], "name": [{"text": "Vélos", "language": "fr"}], "opening_hours": "24/7", "colour": 7
    },
    "station_information": {
        "stations": [
            {
                "station_id": "A <1>",
                "name": [{"text": "Öst & West", "language": "sv"}],
                "lat": 10,
                "lon": -179.5,
                "address": 1,
            },
            {
                "station_id": "b",
                "name": [{"text": "Bee", "language": "en"}, {"text": "Abei\u0007lle", "language": "fr"}],
                "lat": 9,
                "lon": -179,
            },
            {"station_id": "c", "name": [{"text": "No status", "language": "en"}], "lat": 10, "lon": -179},
        ],
    },
    "station_status": {
        "stations": [
            {
                "station_id": it, "num_vehicles_available": count, "is_installed": True, "is_renting": it != "b",
                "is_returning": True, "last_reported": "2024-10-27T11:59:59Z",
            }
            for it, count in (("A <1>", 3), ("b", 0), ("d", 9))
        ],
    },
}


def tour(program, folder, trips, file=None):
    """Runs the tour, and returns its status, its lines and what it says of a fault."""
    words = [TOUR, file or program.file, "--folder", folder, "--trips", str(trips)]
    status, out, said = Program(sys.executable, program.folder).run(*words, timeout=SECONDS)
    return status, out.decode().splitlines(), said.decode()


def draw(program, source, *words):
    """Draws a map, and returns the status, the output and what is said of a fault."""
    status, out, said = Program(sys.executable, program.folder).run(MAP, source, *words, timeout=SECONDS)
    return status, out.decode(), said.decode()


def stations_of(text):
    """The stations of a picture, and what each shows of itself: a list, so that none that stands twice is lost."""
    groups = xml.fromstring(text).iter("{http://www.w3.org/2000/svg}g")
    return [(it.get("data-station"), it[0].text.split("\n")) for it in groups if it.get("class") == "station"]


def city():
    """The stations of the tour: identifier, name and docks."""
    with (TOP / "examples/city/stations.csv").open(encoding="utf-8", newline="") as table:
        return [(row["station_id"], row["name"], row["docks"]) for row in csv.DictReader(table)]


def holds_the_city(text):
    """Whether a picture has each station of the tour once, with its name and its docks."""
    found = [(name, told[0], told[4].removeprefix("capacity ")) for name, told in stations_of(text)]
    assert len(city()) == 60 and sorted(found) == sorted(city()), found


def holds_the_regions(text):
    """Whether a picture has the name of each region of the tour once, and each station that stands in one tells it
    last."""
    feed = json.loads((TOP / "examples/city/feeds/system_regions.json").read_text(encoding="utf-8"))
    names = {it["region_id"]: it["name"][0]["text"] for it in feed["regions"]}
    texts = [
        it.text for it in xml.fromstring(text).iter("{http://www.w3.org/2000/svg}text") if it.get("font-size") == "18"
    ]
    assert sorted(texts) == sorted(names.values()) and len(texts) == 5, texts
    # What the request lines of the tour's step say last of each station.
    wanted = {}
    answers = (TOP / "examples/city/regions.out").read_text(encoding="utf-8").splitlines()
    for line, answer in zip((TOP / "examples/city/regions.in").read_text(encoding="utf-8").splitlines(), answers):
        word, *fields = line.split("\t")[3:]
        if (word, answer) == ("set-region", "ok"):
            wanted[fields[0]] = names.get(fields[1], "capacity")
    found = {station: told[-1] for station, told in stations_of(text)}
    assert len(wanted) == 60 and all(found[it].startswith(name) for it, name in wanted.items()), {
        it: (found[it], wanted[it]) for it in wanted
    }


def welsh():
    """What the request lines of the tour's step name in Welsh: the names of stations, and those of regions."""
    answers = (TOP / "examples/city/names.out").read_text(encoding="utf-8").splitlines()
    rows = [it.split("\t")[3:] for it in (TOP / "examples/city/names.in").read_text(encoding="utf-8").splitlines()]
    named = {(row[1], row[2]): row[4] for row, answer in zip(rows, answers) if answer == "ok" and row[3] == "cy"}
    return [{key: name for (kind, key), name in named.items() if kind == wanted} for wanted in ("station", "region")]


def saved(program, feeds, heads=None):
    """Writes feeds into a folder of the test."""
    folder = Path(program.folder) / "feeds"
    folder.mkdir(exist_ok=True)
    for name, data in feeds.items():
        (folder / f"{name}.json").write_text(
            json.dumps({**HEAD, "data": data, **(heads or {}).get(name, {})}), encoding="utf-8"
        )


def test_the_tour_and_its_map(program):
    status, lines, said = tour(program, "results", 100)
    assert (status, said) == (0, ""), (status, said, lines)
    assert [line.split()[1] for line in lines[1:-1]] == STEPS, lines
    assert lines[0].startswith("results in ") and lines[-1].startswith("all answers are as wanted"), lines
    results = Path(program.folder) / "results"
    holds_the_city((results / "map.svg").read_text(encoding="utf-8"))
    holds_the_regions((results / "map.svg").read_text(encoding="utf-8"))
    page = (results / "map.html").read_text(encoding="utf-8")
    picture = page[page.index("<svg ") : page.index("</svg>") + 6]
    holds_the_city(picture)
    assert page.count("<script") == 0 and page.count("http") == picture.count("http://www.w3.org/2000/svg") == 1
    status, out, said = draw(program, "results/feeds", "--svg", "again.svg")
    assert (status, said) == (0, "") and out.startswith("60 stations, "), (status, out, said)
    rows = [
        stations_of(it.read_text(encoding="utf-8")) for it in (results / "map.svg", Path(program.folder) / "again.svg")
    ]
    assert rows[0] == rows[1]
    # A language that the system hasn't changes nothing; in one that it has, what has no name in it keeps its own.
    for language in "cy", "xx":
        status, out, said = draw(
            program, "results/feeds", "--svg", f"{language}.svg", "--html", f"{language}.html", "--language", language
        )
        assert (status, said) == (0, "") and out.startswith("60 stations, "), (status, out, said)
    assert Path(program.folder, "xx.svg").read_bytes() == Path(program.folder, "again.svg").read_bytes()
    stations, regions = welsh()
    text = Path(program.folder, "cy.svg").read_text(encoding="utf-8")
    found = {station: told[0] for station, told in stations_of(text)}
    assert len(stations) == 22 and found == {it: stations.get(it, name) for it, name, _ in city()}, found
    assert (
        len(regions) == 5
        and all(text.count(f">{name}</text>") == 1 for name in regions.values())
        and ">Beiciau Abermarl<" in text
    )
    page = Path(program.folder, "cy.html").read_text(encoding="utf-8")
    assert '<html lang="en">' in page and '<title lang="cy">Beiciau Abermarl</title>' in page, page[:400]
    cells = re.findall(r'<td lang="(\w+)">([^<]*)</td>', page)
    wanted = {("cy" if it in stations else "en", html.escape(stations.get(it, name))) for it, name, _ in city()}
    assert len(wanted) == 60 and wanted <= set(cells), cells


def test_the_steps_of_the_document(program):
    shown = re.findall(r"^ ?(\d+)  (\w+) +\.\.  ", (TOP / "examples/city/README.md").read_text(encoding="utf-8"), re.M)
    assert shown == [(str(number), name) for number, name in enumerate(STEPS, 1)], shown


def test_the_tour_wants_an_empty_folder_and_a_program(program):
    Path(program.folder, "mine").write_text("mine")
    status, lines, said = tour(program, ".", 1)
    assert status == 1 and not lines and said.endswith(" is not empty\n"), (status, lines, said)
    status, lines, said = tour(program, "results", 1, file="nothing")
    assert status == 1 and not lines and said.startswith("run: there is no program "), (status, lines, said)
    assert Path(program.folder, "mine").read_text() == "mine"


def test_where_the_program_is(program):
    """Where none is named it is the built one, that of a release's folder, or the package's; where none of these is
    there all three are told. One that is named is taken."""
    folder = Path(program.folder, "release")
    shutil.copytree(TOP / "examples", folder / "examples", ignore=shutil.ignore_patterns("__pycache__"))
    places = [folder / "crates/bikeshare/out/bikeshare", folder / "bikeshare", Path("/usr/bin/bikeshare")]

    def said_by(script, *words):
        status, out, said = Program(sys.executable, program.folder).run(folder / "examples" / script, *words)
        return status, (out + said).decode()

    if not places[-1].exists():
        for status, said in (said_by("city/run", "--folder", "none"), said_by("map/show", "none")):
            assert status == 1 and all(str(it) in said for it in places), (status, said)
    for place in reversed(places[:-1]):
        place.parent.mkdir(parents=True, exist_ok=True)
        place.write_text(f"#!/bin/sh\necho {place} >&2\nexit 3\n")
        place.chmod(0o755)
        status, said = said_by("city/run")
        assert status == 1 and said.endswith(f"run: init city.db: status 3, it said {place}\n"), (status, said)
        found = next(filter(Path.is_file, loaded(folder / "examples/map/show").PROGRAMS))
        assert found == place, found
    status, said = said_by("city/run", program.file, "--folder", "results", "--trips", "1")
    assert status == 0, said


def test_the_tour_tells_a_wrong_answer(program):
    asked = "1729929600⇥office⇥set10⇥add-type⇥tandem⇥Tandem⇥bicycle⇥human⇥0⇥tandem"
    cases = [
        ("init", "s/ready/Ready/", "init, line 1: Ready and not ready"),
        (
            "lines",
            r"s/^refused\t7\t/refused\t6\t/",
            f"setup, line 10, {asked}: refused⇥6⇥unknown_plan and not refused⇥7⇥unknown_plan",
        ),
        ("import", "s/60/61/", "import, line 1: rows 61 and not rows 60"),
    ]
    for word, change, wanted in cases:
        wrong = Path(program.folder) / f"wrong-{word}"
        real = f"'{program.file}' \"$@\""
        wrong.write_text(f"#!/bin/sh\nif [ $1 = {word} ]; then {real} | sed '{change}'; else exec {real}; fi\n")
        wrong.chmod(0o755)
        status, lines, said = tour(program, f"results-{word}", 10, file=str(wrong))
        assert (status, said) == (1, f"run: {wanted}\n"), (status, lines[-1:], said)
    wrong = Path(program.folder) / "wrong-status"
    wrong.write_text("#!/bin/sh\necho 'store failed' >&2\nexit 3\n")
    wrong.chmod(0o755)
    assert tour(program, "results-status", 10, file=str(wrong))[::2] == (
        1, "run: init city.db: status 3, it said store failed\n"
    )


def test_the_tour_tells_a_wrong_feed(program):
    run = loaded(TOUR)
    text = json.dumps({
        "last_updated": "2024-10-27T12:00:00Z", "ttl": 60, "version": "3.0", "data": PLAIN["station_status"]
    })
    at = 1730030400
    run.compare_feed("it", text, PLAIN["station_status"], at, at)
    for old, new, wanted in (
        ('"num_vehicles_available": 3', '"num_vehicles_available": 2', "it, stations, line 1: "),
        ('"station_id": "d"', '"station_id": "c"', "it, stations, line 3: "),
        ('"stations"', '"places"', "it, places, line 1: "),
        ('"ttl": 60', '"ttl": 61', "it: the members beside data are "),
        ("12:00:00Z", "12:00:01Z", "it: last_updated is 2024-10-27T12:00:01Z, not from 2024-10-27T12:00:00Z to "),
    ):
        assert text.count(old) == 1, old
        try:
            run.compare_feed("it", text.replace(old, new), PLAIN["station_status"], at, at)
        except run.Wrong as wrong:
            assert str(wrong).startswith(wanted), wrong
        else:
            raise AssertionError(f"{new} was not told")


def test_the_map_of_a_plain_system(program):
    saved(program, PLAIN)
    status, out, said = draw(program, "feeds", "--svg", "plain.svg", "--html", "plain.html")
    assert (status, out, said) == (0, "2 stations, 3 bicycles available, 0 free docks\n", ""), (status, out, said)
    text = Path(program.folder, "plain.svg").read_text(encoding="utf-8")
    assert sorted(stations_of(text)) == [
        (
            "A <1>",
            ["Öst & West", "3 bicycles available", "0 free docks", "0 disabled bicycles, 0 broken docks", "capacity 3"],
        ),
        (
            "b",
            [
                "Abei\ufffdlle", "0 bicycles available", "0 free docks", "0 disabled bicycles, 0 broken docks",
                "capacity 0", "not renting",
            ],
        ),
    ]
    assert ">Vélos<" in text and ">2024-10-27 11:00:00 UTC<" in text and "Prices" not in text
    page = Path(program.folder, "plain.html").read_text(encoding="utf-8")
    assert '<html lang="en">' in page and '<title lang="fr">Vélos</title>' in page, page
    assert '<td lang="sv">Öst &amp; West</td>' in page, page


def test_the_map_of_regions(program):
    """A region's name stands near the middle of its stations; one that has no name is told by its identifier, and one
    without stations isn't."""
    names = [*NAMES, "system_regions"]
    places = [
        dict(it, region_id=region) for it, region in zip(PLAIN["station_information"]["stations"], ("east <1>", "x-9"))
    ]
    saved(program, {
        **PLAIN, "gbfs": {"feeds": [{"name": it, "url": f"https://example.org/{it}"} for it in names]},
        "station_information": {"stations": places},
        "system_regions": {
            "regions": [
                {
                    "region_id": "east <1>",
                    "name": [{"text": "East & South", "language": "en"}, {"text": "L’est", "language": "fr"}],
                },
                {"region_id": "none", "name": [{"text": "No stations", "language": "en"}]},
            ],
        },
    })
    status, out, said = draw(program, "feeds", "--svg", "regions.svg", "--html", "regions.html")
    assert (status, out, said) == (0, "2 stations, 3 bicycles available, 0 free docks\n", ""), (status, out, said)
    text = Path(program.folder, "regions.svg").read_text(encoding="utf-8")
    regions = {station: told[-1] for station, told in stations_of(text)}
    assert regions == {"A <1>": "L’est", "b": "x-9"}, stations_of(text)
    assert (
        text.count(">L’est</text>") == text.count(">x-9</text>") == 1
        and "No stations" not in text
        and "East" not in text
    )
    page = Path(program.folder, "regions.html").read_text(encoding="utf-8")
    assert "<th>Station</th><th>Region</th>" in page, page[-3000:]
    assert '<td lang="sv">Öst &amp; West</td><td lang="fr">L’est</td>' in page, page[-3000:]


def test_the_map_of_no_stations(program):
    saved(program, {**PLAIN, "station_information": {"stations": []}})
    assert draw(program, "feeds", "--svg", "none.svg", "--html", "none.html") == (
        0, "0 stations, 0 bicycles available, 0 free docks\n", ""
    )
    assert stations_of(Path(program.folder, "none.svg").read_text(encoding="utf-8")) == []


def changed(name, key, value, at=0):
    """The plain feeds, with a member of a station changed, or taken away where the value is None."""
    rows = [dict(row) for row in PLAIN[name]["stations"]]
    rows[at][key] = value
    return {name: {"stations": [{key: it for key, it in row.items() if it is not None} for row in rows]}}


def test_the_map_refuses_what_is_no_gbfs(program):
    count, moment = "a whole number from 0 to 1000000000", "a moment such as 2024-10-27T12:00:00Z"
    docks, no_list = "num_docks_available", "is not a list of objects"
    cases = [
        ({}, {"station_status": {"version": "2.3"}}, "feeds/station_status.json: version is '2.3', not '3.0'"),
        ({}, {"gbfs": {"ttl": -1}}, f"feeds/gbfs.json: ttl is not {count}"),
        ({}, {"gbfs": {"ttl": True}}, f"feeds/gbfs.json: ttl is not {count}"),
        ({}, {"gbfs": {"last_updated": 1730030400}}, f"feeds/gbfs.json: last_updated is not {moment}"),
        ({}, {"gbfs": {"last_updated": "2024-02-30T12:00:00Z"}}, f"feeds/gbfs.json: last_updated is not {moment}"),
        ({}, {"gbfs": {"data": []}}, "feeds/gbfs.json: data is not an object"),
        ({"gbfs": {"feeds": PLAIN["gbfs"]["feeds"][:2]}}, {}, "gbfs names no station_status"),
        ({"gbfs": {"feeds": PLAIN["gbfs"]["feeds"][:1] * 2}}, {}, "gbfs: name system_information stands twice"),
        ({"gbfs": {"en": {"feeds": []}}}, {}, "gbfs has no feeds"),
        ({"system_information": {"languages": ["fr"], "name": "Vélos"}}, {}, f"system_information: name {no_list}"),
        (changed("station_status", "num_vehicles_available", None), {}, "station A <1> has no num_vehicles_available"),
        (changed("station_status", "is_renting", 1), {}, "station A <1>: is_renting is not true or false"),
        (changed("station_status", docks, 1.5), {}, f"station A <1>: {docks} is not {count}"),
        (changed("station_information", "lat", 91), {}, "station A <1>: lat is not from -90 to 90"),
        (changed("station_information", "lon", "x"), {}, "station A <1>: lon is not a number"),
        (changed("station_information", "station_id", "b"), {}, "station_information: station_id b stands twice"),
        (changed("station_information", "region_id", 7), {}, "station A <1>: region_id is not a text"),
    ]
    for feeds, heads, wanted in cases:
        saved(program, {**PLAIN, **feeds}, heads)
        found = draw(program, "feeds", "--svg", "wrong.svg")
        assert found == (1, "", f"map.py: {wanted}\n"), (wanted, found)
    bad = b"{", b"\xff", b'{"version":NaN}', b"[" * 200000
    for text, wanted in [*((it, "no JSON") for it in bad), (b"[]", "not an object")]:
        Path(program.folder, "feeds/gbfs.json").write_bytes(text)
        status, out, said = draw(program, "feeds", "--svg", "wrong.svg")
        assert (status, out, said.count("\n")) == (1, "", 1), said
        assert said.startswith(f"map.py: feeds/gbfs.json: {wanted}"), said
    for source in ("nowhere", "http://127.0.0.1:1/gbfs.json", "file:///etc/passwd"):
        status, out, said = draw(program, source, "--svg", "wrong.svg")
        assert (status, out, said.count("\n")) == (1, "", 1) and said.startswith("map.py: "), said
    assert not Path(program.folder, "wrong.svg").exists()


def test_the_picture_of_the_readme(program):
    text = PICTURE.read_text(encoding="utf-8")
    holds_the_city(text)
    holds_the_regions(text)
    assert xml.fromstring(text).get("width") == "900" and len(text.encode()) < 60000 and "<script" not in text


# ---- the live page

# Elements of HTML that have no end.
ENDLESS = {"br", "input", "meta"}


class Page(html.parser.HTMLParser):
    """A page of HTML: its title, its elements, the text of each that has an identifier, and the rows of its tables,
    each with its attributes."""

    def __init__(self, text):
        super().__init__()
        self.open, self.elements, self.ids, self.texts, self.rows, self.title = [], [], [], {}, [], ""
        self.feed(text)
        assert not self.open, f"without an end: {self.open}"

    def handle_starttag(self, tag, attrs):
        """Keeps an element."""
        found = dict(attrs)
        self.elements.append((tag, found))
        self.ids += [found["id"]] if "id" in found else []
        if tag == "tr":
            self.rows.append((found, []))
        if tag == "td":
            self.rows[-1][1].append("")
        if tag not in ENDLESS:
            self.open.append((tag, found.get("id")))

    def handle_endtag(self, tag):
        """Holds that the element which ends is the one that began last."""
        assert self.open and self.open[-1][0] == tag, (tag, self.open)
        self.open.pop()

    def handle_data(self, data):
        """Keeps a text under the identifiers of all elements that it stands in, and in its cell."""
        for _, name in self.open:
            self.texts[name] = self.texts.get(name, "") + data
        if self.open and self.open[-1][0] == "title" and ("head", None) in self.open:
            self.title += data
        if any(tag == "td" for tag, _ in self.open):
            self.rows[-1][1][-1] += data


def test_the_live_page_is_one_file(program):
    """The page asks no site but that of the feeds for anything, makes no elements of texts, and has each element that
    its program names."""
    text = LIVE.read_text(encoding="utf-8")
    page = Page(text)
    assert len(page.ids) == len(set(page.ids)) and set(re.findall(r'by\("(\w+)"\)', text)) <= set(page.ids), page.ids
    assert set(re.findall(r"https?://[a-z0-9.]+", text)) == {"https://metro.example", "http://www.w3.org"}
    assert not [
        it
        for it in page.elements
        if it[0] in ("link", "img", "iframe", "object") or {"src", "href", "action", "onclick"} & set(it[1])
    ]
    assert not re.search(
        r"innerHTML|outerHTML|insertAdjacent|document\.write|\beval\b|new Function|@import|url\(", text
    )
    policies = [it[1]["content"] for it in page.elements if it[1].get("http-equiv") == "Content-Security-Policy"]
    assert (
        len(policies) == 1
        and policies[0].startswith("default-src 'none'; ")
        and "connect-src http: https:;" in policies[0]
    )
    wanted = re.search(r"const WANTED = \[(.*?)\]", text)[1].replace('"', "").split(", ")
    gbfs = json.loads((TOP / "examples/city/feeds/gbfs.json").read_text(encoding="utf-8"))
    assert sorted(wanted) == sorted(it["name"] for it in gbfs["feeds"])


@contextlib.contextmanager
def shown(program, folder):
    """Shows the city of a folder by examples/map/show, and gives the page's address and that of its feed gbfs."""
    words = [sys.executable, str(SHOW), str(Path(program.folder) / folder), program.file]
    child = subprocess.Popen(words, cwd=program.folder, stdout=subprocess.PIPE, stderr=subprocess.PIPE)
    try:
        address = child.stdout.readline().decode().strip()
        assert address, f"show: it said {child.communicate(timeout=SECONDS)[1].decode()}"
        yield address, urllib.parse.parse_qs(urllib.parse.urlsplit(address).query)["feeds"][0]
    finally:
        child.terminate()
        said = child.communicate(timeout=SECONDS)[1]
        assert (child.returncode, said) == (0, b""), (child.returncode, said)


def dumped(program, address, language="en", seconds=8):
    """What chromium shows of a page after so many seconds."""
    words = [
        "chromium", "--headless", "--no-sandbox", "--disable-gpu", "--no-first-run",
        f"--user-data-dir={program.folder}/chromium",
    ]
    words += [f"--accept-lang={language}", f"--virtual-time-budget={seconds * 1000}", "--dump-dom", address]
    ran = subprocess.run(words, cwd=program.folder, capture_output=True, timeout=SECONDS)
    assert ran.returncode == 0 and b"</html>" in ran.stdout, (ran.returncode, ran.stderr[-2000:])
    return ran.stdout.decode()


def table_of(page):
    """The rows of the page's table of stations: what stands in the cells, by the station."""
    return {about["data-station"]: cells for about, cells in page.rows if "data-station" in about}


@needs("nginx")
def test_the_live_page_of_the_tour(program):
    """The page, from a site of its own, draws the tour's city from the feeds that the gateway gives to every page."""
    assert tour(program, "results", 100)[::2] == (0, "")
    with shown(program, "results") as (address, gbfs):
        with urllib.request.urlopen(address, timeout=SECONDS) as answer:
            assert answer.read() == LIVE.read_bytes()
        assert urllib.parse.urlsplit(address).netloc != urllib.parse.urlsplit(gbfs).netloc
        feeds = {}
        with urllib.request.urlopen(gbfs, timeout=SECONDS) as answer:
            urls = {it["name"]: it["url"] for it in json.load(answer)["data"]["feeds"]}
        for name, url in urls.items():
            with urllib.request.urlopen(
                urllib.request.Request(url, headers={"Origin": "http://127.0.0.1:1"}), timeout=SECONDS
            ) as answer:
                assert (answer.headers["Access-Control-Allow-Origin"], answer.headers["Cache-Control"]) == (
                    "*", "public, max-age=60"
                ), name
                feeds[name] = json.load(answer)["data"]
        if not has("chromium", "examples.test_the_live_page_of_the_tour, what it shows"):
            return
        page = Page(dumped(program, address + "&station=h01"))
    states = {it["station_id"]: it for it in feeds["station_status"]["stations"]}
    counts = {station: (it["num_vehicles_available"], it["num_docks_available"]) for station, it in states.items()}
    wanted = {station: [name, *map(str, counts[station]), docks] for station, name, docks in city()}
    found = {station: [*cells[:3], cells[4]] for station, cells in table_of(page).items()}
    assert found == wanted, {it: (found.get(it), wanted[it]) for it in wanted if found.get(it) != wanted[it]}
    drawn = sorted(about["data-station"] for tag, about in page.elements if tag == "g" and "data-station" in about)
    assert drawn == sorted(wanted) and page.texts["name"] == "Marlmouth Bikes" and "notices" not in page.texts, (
        page.texts.get("notices")
    )
    assert (
        "Basic£1.00from minute 30: £0.25 each 5 minutes" in page.texts["prices"]
        and page.texts["card"].startswith("Ferry TerminalHarbour")
    )
    assert re.match(r"As of .* 20\d\d, \d\d:\d\d:\d\d ", page.texts["moment"]), page.texts["moment"]
    assert page.texts["sums"].startswith(f"Bicycles available{sum(it[0] for it in counts.values())}Free docks"), (
        page.texts["sums"]
    )


class Feeds(http.server.BaseHTTPRequestHandler):
    """Answers with feeds that pages of every site may read; a feed that isn't there is 503."""

    def do_GET(self):
        """Answers with a feed as it stands."""
        feed = self.server.feeds.get(Path(self.path).stem)
        self.send_response(200 if feed else 503)
        self.send_header("Access-Control-Allow-Origin", "*")
        self.end_headers()
        self.wfile.write(feed.encode() if isinstance(feed, str) else json.dumps(feed).encode())

    def log_message(self, *about):
        """Nothing."""


@contextlib.contextmanager
def served(feeds):
    """Serves feeds, by name a text or an object, and gives the page's address for them."""
    with http.server.ThreadingHTTPServer(("127.0.0.1", 0), Feeds) as server:
        server.feeds = feeds
        threading.Thread(target=server.serve_forever, daemon=True).start()
        url = f"http://127.0.0.1:{server.server_address[1]}"
        feeds["gbfs"]["data"] = {
            "feeds": [{"name": it["name"], "url": f"{url}/{it['name']}.json"} for it in PLAIN["gbfs"]["feeds"]]
        }
        try:
            yield f"{LIVE.as_uri()}?feeds={url}/gbfs.json"
        finally:
            server.shutdown()


EVIL = "<img src=x onerror=\"document.title='broken in'\"></title><script>document.title='broken in'</script>&amp;"


def hard_feeds():
    """Feeds with texts that look like a page's program, names in other languages or none, and counts that are none."""
    names = {
        "A <1>": [{"text": EVIL, "language": "sv"}],
        "b": [{"text": "Bee", "language": "en"}, {"text": "Abeille", "language": "fr"}],
        "c": [{"text": text, "language": tag} for text, tag in (("Drei", "de"), ("Three", "en-GB"), ("Tri", "cy"))],
        "d": [{"text": "  ", "language": "fr"}],
        "e": "no list",
    }
    places = [
        {"station_id": station, "name": name, "lat": 10 + at / 100, "lon": 1.5}
        for at, (station, name) in enumerate(names.items())
    ]
    places += [{"station_id": "nowhere", "name": names["b"], "lat": None, "lon": 2}, None]
    now = datetime.datetime.now(datetime.timezone.utc)
    head = {"last_updated": now.isoformat(timespec="seconds"), "ttl": 60, "version": "3.0"}
    states = [
        {**PLAIN["station_status"]["stations"][0], "num_vehicles_available": -1},
        *PLAIN["station_status"]["stations"][1:],
    ]
    return {
        "gbfs": dict(head),
        "system_information": {**head, "data": {"name": [{"text": EVIL, "language": "en"}], "timezone": "No/Where"}},
        "station_information": {**head, "data": {"stations": places}},
        "station_status": {**head, "last_updated": "2024-10-27T12:00:00Z", "data": {"stations": states}},
    }


@needs("chromium")
def test_the_live_page_of_hard_feeds(program):
    """The page shows texts as they stand and in the browser's language, goes on without a feed that is missing, and
    says which is late."""
    feeds, no_v3 = hard_feeds(), {"version": "2.3", "data": {}}
    with served(feeds) as address:
        page = Page(dumped(program, address, "fr-CA,de"))
        found = {station: cells[:2] for station, cells in table_of(page).items()}
        assert found == {
            "A <1>": [EVIL, "0"], "b": ["Abeille", "0"], "c": ["Drei", "?"], "d": ["d", "9"], "e": ["e", "?"]
        }, found
        assert (page.texts["name"], page.title) == (EVIL, EVIL), page.title
        assert not [it for it in page.elements if it[0] == "img"], page.title
        assert page.texts["notices"].startswith("Late: station_status, of 27 Oct 2024, 12:00:00 UTC, "), (
            page.texts["notices"]
        )
        for name, text, wanted in (
            ("station_status", None, "its site answers with 503; stations are shown without bicycles. Tried again "),
            ("station_status", '{"version":', "it is no JSON; stations are shown without bicycles. Tried again "),
            ("system_information", no_v3, "it is no feed of GBFS v3; the system has no name here. Tried again "),
        ):
            kept, feeds[name] = feeds[name], text
            page = Page(dumped(program, address))
            assert len(table_of(page)) == 5 and f"{name} can’t be read: {wanted}" in page.texts["notices"], (
                page.texts["notices"]
            )
            feeds[name] = kept
        feeds["station_information"] = None
        page = Page(dumped(program, address))
        assert page.texts["notices"].startswith(
            "station_information can’t be read: its site answers with 503; there is no map yet."
        ), page.texts
