"""What was entered and is corrected: the system by change-system, the place of a station by move-station, and its docks
by add-docks. All feeds before and after, and the rows of the tables that a correction leaves.
"""

from feeds import CITY, DATA
from shared import FEEDS, HEAD, NO_SYSTEM, ask, data_of, feed, held, is_sound

GBFS = "/gbfs/3.0/system_information.json"


def told_system(program):
    """What the feeds tell of the system beside its names: opening hours, contact, time zone, base URL and ttl."""
    about = data_of(program, "system_information")
    (url,) = (it["url"] for it in data_of(program, "gbfs")["feeds"] if it["name"] == "system_information")
    assert url.endswith(GBFS), url
    texts = [about[it] for it in ("opening_hours", "feed_contact_email", "timezone")]
    return [*texts, url.removesuffix(GBFS), told_ttl(program)]


def told_ttl(program):
    """The one ttl of all feeds."""
    (ttl,) = {feed(program, name).split('"ttl":', 1)[1].split(",", 1)[0] for name in FEEDS}
    return int(ttl)


def told_places(program):
    """What the feed tells of each station's place, as it is printed."""
    stations = data_of(program, "station_information")["stations"]
    return {it["station_id"]: tuple(f"{it[part]:.6f}" for part in ("lat", "lon")) for it in stations}


# What is told of the city before a correction: the texts as JSON has them.
BEFORE = {
    "name": "Metro Bikes", "opening_hours": "24/7", "feed_contact_email": "feeds@example.org", "timezone": "Etc/UTC",
    "url": "http://127.0.0.1:8080", "ttl": "30", "lat": "41.890169", "lon": "12.492269",
}


def changed(*texts):
    """The six that change-system sets, each as JSON has it."""
    return dict(zip(("name", "opening_hours", "feed_contact_email", "timezone", "url", "ttl"), texts, strict=True))


# A command after the city, its answer, and what is told from then on. All at a later moment than the city's.
LONG, FULL = "é" * 60, "~" * 200
STEPS = [
    ("move-station\tzz\t0\t0", "refused\t1\tunknown_station", {}),
    (
        "change-system\tMetro\tMo-Su 05:00-24:00\toffice@example.org\tEurope/Rome\thttps://bikes.example\t60", "ok",
        changed("Metro", "Mo-Su 05:00-24:00", "office@example.org", "Europe/Rome", "https://bikes.example", "60"),
    ),
    ("change-system\tMetro\tMo-Su 05:00-24:00\toffice@example.org\tEurope/Rome\thttps://bikes.example\t60", "ok", {}),
    ("change-system\tMetro\t24/7\toffice@example.org\tEurope/Rome\thttps://bikes.example\t86401",
     "refused\t11\tbad_field", {}),
    ("set-system\tmetro\ten\tOther\t24/7\ta@example.org\tEtc/UTC\tEUR\thttps://other.example\t1",
     "refused\t10\talready_there", {}),
    ("move-station\ta1\t45.5\t-9.1", "ok", {"lat": "45.500000", "lon": "-9.100000"}),
    ("move-station\ta1\t45.500000\t-09.1", "ok", {}),
    ("move-station\ta1\t90.000001\t0", "refused\t11\tbad_field", {}),
    (
        'change-system\tQ "1"\\t \\\\ 🚲\t"\\\\"\t\\\\\\\\\t/\t"\t0', "ok",
        changed('Q \\"1\\"\\t \\\\ 🚲', '\\"\\\\\\"', "\\\\\\\\", "/", '\\"', "0"),
    ),
    ("move-station\ta1\t-0.000001\t180", "ok", {"lat": "-0.000001", "lon": "180.000000"}),
    (
        f"change-system\t{LONG}\t{FULL}\t{FULL}\t{FULL}\t{FULL}\t86400", "ok",
        changed(LONG, FULL, FULL, FULL, FULL, "86400"),
    ),
    ("move-station\ta1\t-90\t-0", "ok", {"lat": "-90.000000", "lon": "0.000000"}),
    # All as it was.
    (
        "change-system\tMetro Bikes\t24/7\tfeeds@example.org\tEtc/UTC\thttp://127.0.0.1:8080\t30", "ok",
        changed(*list(BEFORE.values())[:6]),
    ),
    ("move-station\ta1\t41.890169\t12.492269", "ok", {"lat": "41.890169", "lon": "12.492269"}),
]


def texts_of(told):
    """All feeds of the city, whole, where this is told of it."""
    texts = dict(DATA)
    for name, form in (
        ("system_information", '"text":"{name}"'), ("system_information", '"opening_hours":"{opening_hours}"'),
        ("system_information", '"feed_contact_email":"{feed_contact_email}"'),
        ("system_information", '"timezone":"{timezone}"'), ("gbfs", '"url":"{url}/'),
        ("station_information", '"lat":{lat},"lon":{lon},'),
    ):
        before = form.format(**BEFORE)
        assert texts[name].count(before) == (6 if name == "gbfs" else 1), (name, before, texts[name])
        texts[name] = texts[name].replace(before, form.format(**told))
    head = HEAD.replace('"ttl":30,', f'"ttl":{told["ttl"]},')
    return {name: f"{head}{text}}}" for name, text in texts.items()}


def test_feeds_of_what_is_corrected(program):
    """Each answer, and all feeds after it. Neither command reports, so `station_status` has the last report that it
    had."""
    ask(program, CITY)
    told = dict(BEFORE)
    for at, (command, answer, changes) in enumerate(STEPS):
        assert ask(program, [command], at=1699999300 + at, first=100 + at) == [answer], (command, answer)
        told.update(changes)
        for name, text in texts_of(told).items():
            assert feed(program, name) == text, (command, name, feed(program, name))
    assert told == BEFORE, told
    is_sound(program)


# Commands after the city, whose station has two docks, of which the second is broken; answers; and what is told from
# then on: capacity, bicycles, free docks and broken ones.
DOCKS = [
    ("add-docks\tzz\t1", "refused\t1\tunknown_station", (2, 1, 0, 1)),
    ("add-docks\ta1\t499", "refused\t32\tlimit_reached", (2, 1, 0, 1)),
    ("add-docks\ta1\t501", "refused\t11\tbad_field", (2, 1, 0, 1)),
    ("add-docks\ta1\t1", "ok", (3, 1, 1, 1)),
    ("add-docks\ta1\t1", "ok", (4, 1, 2, 1)),
    ("add-docks\ta1\t496", "ok", (500, 1, 498, 1)),
    ("add-docks\ta1\t1", "refused\t32\tlimit_reached", (500, 1, 498, 1)),
]


def test_feeds_of_docks_that_are_added(program):
    """They are told at once, and the station's last report stays as it was until one of its docks is marked."""
    ask(program, CITY)
    for at, (command, answer, told) in enumerate(DOCKS):
        assert ask(program, [command], at=1699999300 + at, first=100 + at) == [answer], (command, answer)
        capacity, here, free, broken = told
        texts = dict(DATA)
        for name, old, new in (
            ("station_information", '"capacity":2', f'"capacity":{capacity}'),
            ("station_status", '"num_docks_available":0', f'"num_docks_available":{free}'),
        ):
            assert texts[name].count(old) == 1, texts[name]
            texts[name] = texts[name].replace(old, new)
        for name, text in texts.items():
            assert feed(program, name) == f"{HEAD}{text}}}", (command, name, feed(program, name))
        assert f'"num_vehicles_available":{here},' in texts["station_status"], texts
        assert f'"num_docks_disabled":{broken},' in texts["station_status"], texts
    assert ask(program, ["mark-dock\ta1\t500\tbroken"], at=1699999400, first=200) == ["ok"]
    (station,) = data_of(program, "station_status")["stations"]
    found = [station[it] for it in ("num_docks_available", "num_docks_disabled", "last_reported")]
    assert found == [497, 2, "2023-11-14T22:03:20Z"], station
    is_sound(program)


def test_a_system_that_is_not_set_is_not_changed(program):
    """There is no feed afterwards either. What was refused keeps no key."""
    change = STEPS[1][0]
    assert ask(program, [change]) == ["refused\t38\tsystem_missing"]
    for name in FEEDS:
        assert program.run("feed", "city.db", name, "--at", "0") == NO_SYSTEM, name
    assert ask(program, [CITY[0]]) == ["ok"]
    assert ask(program, [change], first=2) == ["ok"]
    assert told_system(program) == [
        "Mo-Su 05:00-24:00", "office@example.org", "Europe/Rome", "https://bikes.example", 60
    ]


# A station that stands in a region, isn't installed and has a broken dock, and names in a further language.
MORE = [
    "add-region\tnorth\tNorth", "set-region\ta1\tnorth", "set-station\ta1\tfalse\ttrue\tfalse",
    "add-name\tsystem\tmetro\tde\tStadtrad", "add-name\tstation\ta1\tde\tHafen",
]
# A command, and the row of its table before and after: that of `history` is every request's.
ROWS = [
    (
        "change-system\tMetro\tMo-Su\toffice@example.org\tEurope/Rome\thttps://bikes.example\t60",
        """INSERT INTO "system" VALUES(1,'metro','en','Metro Bikes','24/7','feeds@example.org','Etc/UTC','EUR',"""
        "'http://127.0.0.1:8080',30);",
        """INSERT INTO "system" VALUES(1,'metro','en','Metro','Mo-Su','office@example.org','Europe/Rome','EUR',"""
        "'https://bikes.example',60);",
    ),
    (
        "move-station\ta1\t-45.5\t9.1",
        """INSERT INTO "stations_4" VALUES('a1','Harbour',41890169,12492269,2,0,1,0,1699999200,0,1,"""
        "'north','city:1:0');",
        """INSERT INTO "stations_4" VALUES('a1','Harbour',-45500000,9100000,2,0,1,0,1699999200,0,1,"""
        "'north','city:1:0');",
    ),
    (
        "add-docks\ta1\t3",
        """INSERT INTO "stations_4" VALUES('a1','Harbour',-45500000,9100000,2,0,1,0,1699999200,0,1,"""
        "'north','city:1:0');",
        """INSERT INTO "stations_4" VALUES('a1','Harbour',-45500000,9100000,5,0,1,0,1699999200,3,1,"""
        "'north','city:1:0');",
    ),
]


def test_rows_of_what_is_corrected(program):
    """One row changes: its columns that the command names, and no others."""
    assert ask(program, [*CITY, *MORE])[-5:] == ["ok"] * 5
    before = held(program.folder, "city.db")
    for at, (command, old, new) in enumerate(ROWS):
        assert ask(program, [command], at=1699999300 + at, first=100 + at) == ["ok"], command
        after = held(program.folder, "city.db")
        gone, come = ([it for it in one if it not in other] for one, other in ((before, after), (after, before)))
        own = [[it for it in lines if not it.startswith('INSERT INTO "history"')] for lines in (gone, come)]
        assert own == [[old], [new]], (command, own)
        assert (len(gone), len(come)) == (1, 2), (command, gone, come)
        before = after
    about = data_of(program, "system_information")
    assert about["languages"] == ["en", "de"] and [it["text"] for it in about["name"]] == ["Metro", "Stadtrad"], about
    (station,) = data_of(program, "station_information")["stations"]
    assert (station["region_id"], station["capacity"], len(station["name"])) == ("north", 5, 2), station
    is_sound(program)
