"""The feeds, as `feed` writes them: the worked texts, names that need escapes, regions, names in further languages, and
a made city whose numbers and names are taken from its tables by plain SQL."""

import itertools
import json
import random
import re
from pathlib import Path

import shared
from shared import FEEDS, HEAD, READY, WRITE_FAILED, accepted, ask, copied, data_of, feed, is_sound, removed

NOW = "1700000000"
CITY = shared.CITY[:11]
SYSTEM = CITY[0]

# What each feed of that city holds.
DATA = {
    "gbfs": '{"feeds":['
    + ",".join(f'{{"name":"{name}","url":"http://127.0.0.1:8080/gbfs/3.0/{name}.json"}}' for name in FEEDS[1:])
    + "]}",
    "system_information": '{"system_id":"metro","languages":["en"],"name":[{"text":"Metro Bikes","language":"en"}],'
    '"opening_hours":"24/7","feed_contact_email":"feeds@example.org","timezone":"Etc/UTC"}',
    "vehicle_types": '{"vehicle_types":[{"vehicle_type_id":"city","form_factor":"bicycle","propulsion_type":"human",'
    '"name":[{"text":"City","language":"en"}],"default_pricing_plan_id":"basic"}]}',
    "station_information": (
        '{"stations":[{"station_id":"a1","name":[{"text":"Harbour","language":"en"}],"lat":41.890169,'
        '"lon":12.492269,"capacity":2}]}'
    ),
    "station_status": '{"stations":[{"station_id":"a1","num_vehicles_available":1,"vehicle_types_available":'
    '[{"vehicle_type_id":"city","count":1}],"num_vehicles_disabled":0,"num_docks_available":0,"num_docks_disabled":1,'
    '"is_installed":true,"is_renting":true,"is_returning":true,"last_reported":"2023-11-14T22:00:00Z"}]}',
    "system_pricing_plans": '{"plans":[{"plan_id":"basic","name":[{"text":"Basic","language":"en"}],"currency":"EUR",'
    '"price":1.00,"is_taxable":false,"description":[{"text":"One euro and then a quarter","language":"en"}],'
    '"per_min_pricing":[{"start":30,"rate":0.25,"interval":5}]}]}',
    "system_regions": '{"regions":[]}',
}


def test_worked_texts(program):
    answers = ask(program, CITY)
    assert answers == ["ok"] * 6 + ["order\t1"] + ["ok"] * 4, answers
    for name in FEEDS:
        assert feed(program, name) == HEAD + DATA[name] + "}", (name, feed(program, name))


def test_a_bicycle_in_a_broken_dock_is_not_available(program):
    ask(program, CITY)
    assert ask(program, ["mark-dock\ta1\t1\tbroken"], first=90) == ["ok"]
    wanted = DATA["station_status"]
    for old, new in (
        ('"num_vehicles_available":1', '"num_vehicles_available":0'),
        ('"count":1', '"count":0'),
        ('"num_vehicles_disabled":0', '"num_vehicles_disabled":1'),
        ('"num_docks_disabled":1', '"num_docks_disabled":2'),
    ):
        assert wanted.count(old) == 1
        wanted = wanted.replace(old, new)
    assert feed(program, "station_status") == HEAD + wanted + "}"


def test_a_system_alone(program):
    ask(program, [SYSTEM])
    assert feed(program, "station_status") == HEAD + '{"stations":[]}}'
    assert feed(program, "station_information") == HEAD + '{"stations":[]}}'
    assert feed(program, "vehicle_types") == HEAD + '{"vehicle_types":[]}}'
    assert feed(program, "system_pricing_plans") == HEAD + '{"plans":[]}}'
    assert feed(program, "system_regions") == HEAD + '{"regions":[]}}'


# Commands after a system alone, and the whole data of a feed then.
TEXTS = [
    # Names with escapes, and coordinates at zero and at their bounds.
    (
        ['add-station\ta1\tQ "1"\\t\t-0.000001\t0\t1', "add-station\tb2\t\x01\\\\🚲\t90\t-180\t500"],
        "station_information",
        (
            '{"stations":[{"station_id":"a1","name":[{"text":"Q \\"1\\"\\t","language":"en"}],"lat":-0.000001,'
            '"lon":0.000000,"capacity":1},{"station_id":"b2","name":[{"text":"\\u0001\\\\🚲","language":"en"}],'
            '"lat":90.000000,"lon":-180.000000,"capacity":500}]}'
        ),
    ),
    # No segments, and segments with and without an end.
    (
        ["add-plan\ttwo\tTwo\t350\tfalse\tLess\t0:-25:1:20;20:100000:0:-", "add-plan\tday\tDay\t0\ttrue\tAll day\t-"],
        "system_pricing_plans",
        (
            '{"plans":[{"plan_id":"day","name":[{"text":"Day","language":"en"}],"currency":"EUR","price":0.00,'
            '"is_taxable":true,"description":[{"text":"All day","language":"en"}]},'
            '{"plan_id":"two","name":[{"text":"Two","language":"en"}],"currency":"EUR","price":3.50,"is_taxable":false,'
            '"description":[{"text":"Less","language":"en"}],"per_min_pricing":[{"start":0,"rate":-0.25,"interval":1,'
            '"end":20},{"start":20,"rate":1000.00,"interval":0}]}]}'
        ),
    ),
    (
        ["add-plan\tp\tPlan\t0\tfalse\tPlan\t5:-25:10:60;7:0:0:-"],
        "system_pricing_plans",
        (
            '{"plans":[{"plan_id":"p","name":[{"text":"Plan","language":"en"}],"currency":"EUR","price":0.00,'
            '"is_taxable":false,"description":[{"text":"Plan","language":"en"}],"per_min_pricing":[{"start":5,'
            '"rate":-0.25,"interval":10,"end":60},{"start":7,"rate":0.00,"interval":0}]}]}'
        ),
    ),
    (
        [
            CITY[1],
            "add-type\tcity\tCity\tbicycle\thuman\t0\tbasic",
            "add-type\tcargo\tCity\tcargo_bicycle\telectric_assist\t1000000\tbasic",
        ],
        "vehicle_types",
        (
            '{"vehicle_types":[{"vehicle_type_id":"cargo","form_factor":"cargo_bicycle",'
            '"propulsion_type":"electric_assist","max_range_meters":1000000,"name":[{"text":"City","language":"en"}],'
            '"default_pricing_plan_id":"basic"},{"vehicle_type_id":"city","form_factor":"bicycle",'
            '"propulsion_type":"human","name":[{"text":"City","language":"en"}],"default_pricing_plan_id":"basic"}]}'
        ),
    ),
    # Regions in byte order, whatever order they came in and whether a station stands in them; names with escapes.
    (
        [
            "add-region\ta_b\tÀ \\\\ \\t🚲", 'add-region\tab\tQ "1"', "add-region\t-\t\x7f",
            "add-station\tb2\tBridge\t0\t0\t1", "set-region\tb2\tab", "add-region\t0\t/",
        ],
        "system_regions",
        (
            '{"regions":[{"region_id":"-","name":[{"text":"\x7f","language":"en"}]},'
            '{"region_id":"0","name":[{"text":"/","language":"en"}]},'
            '{"region_id":"a_b","name":[{"text":"À \\\\ \\t🚲","language":"en"}]},'
            '{"region_id":"ab","name":[{"text":"Q \\"1\\"","language":"en"}]}]}'
        ),
    ),
    # A member where there is a region, and none where there isn't.
    (
        [
            "add-region\tr-1\tOne", "add-region\ta1\tTwo",
            *(f"add-station\t{it}\tStation\t-1\t1\t1" for it in ("a1", "b2", "c3", "d4")),
            "set-region\tb2\tr-1", "set-region\tc3\tr-1", "set-region\tc3\ta1", "set-region\td4\ta1",
            "set-region\td4\t*",
        ],
        "station_information",
        (
            '{"stations":[{"station_id":"a1","name":[{"text":"Station","language":"en"}],"lat":-1.000000,'
            '"lon":1.000000,"capacity":1},{"station_id":"b2","name":[{"text":"Station","language":"en"}],'
            '"lat":-1.000000,"lon":1.000000,"region_id":"r-1","capacity":1},'
            '{"station_id":"c3","name":[{"text":"Station","language":"en"}],"lat":-1.000000,"lon":1.000000,'
            '"region_id":"a1","capacity":1},{"station_id":"d4","name":[{"text":"Station","language":"en"}],'
            '"lat":-1.000000,"lon":1.000000,"capacity":1}]}'
        ),
    ),
    # The system's language first, and then the others by their bytes, whatever order they came in.
    (
        [
            "add-region\tr\tEast",
            "add-name\tregion\tr\tzz\tZ",
            "add-name\tregion\tr\tDE\tOst \\t🚲",
            'add-name\tregion\tr\tde\tQ "1"\\\\',
        ],
        "system_regions",
        '{"regions":[{"region_id":"r","name":[{"text":"East","language":"en"},{"text":"Ost \\t🚲","language":"DE"},'
        '{"text":"Q \\"1\\"\\\\","language":"de"},{"text":"Z","language":"zz"}]}]}',
    ),
    # Each language once, of whatever has a name in it.
    (
        [
            CITY[1], CITY[2], CITY[3], "add-region\tr\tEast", "add-name\tstation\ta1\tfr\tPort",
            "add-name\ttype\tcity\tEN\tCity", "add-name\tplan\tbasic\tzh-Hant\tB",
            "add-name\tdescription\tbasic\tde\tE", "add-name\tregion\tr\tde\tOst", "add-name\tregion\tr\t-0\tOst",
            "add-name\tsystem\tmetro\tfr\tMétro",
        ],
        "system_information",
        (
            '{"system_id":"metro","languages":["en","-0","EN","de","fr","zh-Hant"],"name":[{"text":"Metro Bikes",'
            '"language":"en"},{"text":"Métro","language":"fr"}],"opening_hours":"24/7",'
            '"feed_contact_email":"feeds@example.org","timezone":"Etc/UTC"}'
        ),
    ),
    # A plan and its description have names of their own, and neither is that of a station of the same identifier.
    (
        [
            CITY[1], "add-station\tbasic\tBasic\t0\t0\t1", "add-name\tplan\tbasic\tfr\tSimple",
            "add-name\tdescription\tbasic\tde\tEin Euro",
            "add-name\tdescription\tbasic\tit\tUn euro", "add-name\tstation\tbasic\tes\tSencillo",
        ],
        "system_pricing_plans",
        (
            '{"plans":[{"plan_id":"basic","name":[{"text":"Basic","language":"en"},'
            '{"text":"Simple","language":"fr"}],"currency":"EUR","price":1.00,"is_taxable":false,'
            '"description":[{"text":"One euro and then a quarter","language":"en"},{"text":"Ein Euro","language":"de"},'
            '{"text":"Un euro","language":"it"}],"per_min_pricing":[{"start":30,"rate":0.25,"interval":5}]}]}'
        ),
    ),
    # Of two stations one has further names, and of two types the second.
    (
        ["add-station\ta1\tA\t-1\t1\t1", "add-station\ta\tB\t-1\t1\t1", "add-name\tstation\ta\tde\tC"],
        "station_information",
        (
            '{"stations":[{"station_id":"a","name":[{"text":"B","language":"en"},'
            '{"text":"C","language":"de"}],"lat":-1.000000,"lon":1.000000,"capacity":1},'
            '{"station_id":"a1","name":[{"text":"A","language":"en"}],"lat":-1.000000,"lon":1.000000,"capacity":1}]}'
        ),
    ),
    (
        [
            CITY[1], "add-type\tcargo\tCargo\tcargo_bicycle\telectric_assist\t60000\tbasic",
            "add-type\tcity\tCity\tbicycle\thuman\t0\tbasic",
            "add-name\ttype\tcity\tde\tStadtrad",
        ],
        "vehicle_types",
        (
            '{"vehicle_types":[{"vehicle_type_id":"cargo","form_factor":"cargo_bicycle",'
            '"propulsion_type":"electric_assist","max_range_meters":60000,"name":[{"text":"Cargo","language":"en"}],'
            '"default_pricing_plan_id":"basic"},{"vehicle_type_id":"city","form_factor":"bicycle",'
            '"propulsion_type":"human","name":[{"text":"City","language":"en"},'
            '{"text":"Stadtrad","language":"de"}],"default_pricing_plan_id":"basic"}]}'
        ),
    ),
]


def test_texts_of_the_catalogue(program):
    for commands, name, data in TEXTS:
        removed(program.folder, "city.db")
        assert ask(program, [SYSTEM, *commands]) == ["ok"] * (1 + len(commands)), commands
        assert feed(program, name) == HEAD + data + "}", (name, feed(program, name))


# A command after the city, its answer, and what it makes of the city's data where it is accepted. All at a later moment
# than the city's.
LON, NORTH = '"lon":12.492269,', '{"region_id":"north","name":[{"text":"North","language":"en"}]}'
REGIONS = [
    ("set-region\ta1\tnorth", "refused\t37\tunknown_region", {}),
    ("add-region\tnorth\tNorth", "ok", {"system_regions": ("[]", f"[{NORTH}]")}),
    ("set-region\ta1\tnorth", "ok", {"station_information": (LON, f'{LON}"region_id":"north",')}),
    ("set-region\ta1\tsouth", "refused\t37\tunknown_region", {}),
    ("set-region\tzz\tsouth", "refused\t1\tunknown_station", {}),
    ("set-region\tzz\t*", "refused\t1\tunknown_station", {}),
    (
        "add-region\tsouth\tSouth",
        "ok",
        {"system_regions": (NORTH, NORTH + "," + NORTH.replace("north", "south").replace("North", "South"))},
    ),
    ("add-region\tnorth\tOther", "refused\t10\talready_there", {}),
    ("set-region\ta1\tsouth", "ok", {"station_information": ('"region_id":"north"', '"region_id":"south"')}),
    ("set-region\ta1\tsouth", "ok", {}),
    ("set-region\ta1\t*", "ok", {"station_information": ('"region_id":"south",', "")}),
    ("set-region\ta1\t*", "ok", {}),
]


def test_regions(program):
    """Each answer, and all feeds after it. Neither command reports, so `station_status` stays as it was, its last
    report too."""
    ask(program, CITY)
    data = dict(DATA)
    for at, (command, answer, changes) in enumerate(REGIONS):
        assert ask(program, [command], at=1699999300 + at, first=100 + at) == [answer], (command, answer)
        for name, (old, new) in changes.items():
            assert data[name].count(old) == 1, (command, data[name])
            data[name] = data[name].replace(old, new)
        for name in FEEDS:
            assert feed(program, name) == HEAD + data[name] + "}", (command, name, feed(program, name))
    assert data == {**DATA, "system_regions": data["system_regions"]}, data
    is_sound(program)


# The same of names in further languages. A name's own language is looked for by its bytes.
OWN, DE = '"text":"Harbour","language":"en"}', '{"text":"Hafen","language":"de"}'
PLAN_OWN, TEXT_OWN = '"name":[{"text":"Basic","language":"en"}', '"text":"One euro and then a quarter","language":"en"}'
MORE_NAMES = [
    ("add-name\tstation\tzz\tde\tX", "refused\t1\tunknown_station", {}),
    (
        "add-name\tstation\ta1\tde\tHafen",
        "ok",
        {"station_information": (OWN, f"{OWN},{DE}"), "system_information": ('["en"]', '["en","de"]')},
    ),
    ("add-name\tstation\ta1\tde\tHafen", "refused\t10\talready_there", {}),
    ("add-name\tstation\ta1\ten\tHarbour", "refused\t10\talready_there", {}),
    (
        "add-name\tstation\ta1\tit\tPorto",
        "ok",
        {
            "station_information": (DE, DE + ',{"text":"Porto","language":"it"}'),
            "system_information": ('"en","de"]', '"en","de","it"]'),
        },
    ),
    (
        "add-name\tstation\ta1\tfr\tPort",
        "ok",
        {
            "station_information": (DE, DE + ',{"text":"Port","language":"fr"}'),
            "system_information": ('"de","it"]', '"de","fr","it"]'),
        },
    ),
    ("add-name\tstation\ta1\tes\tPuerto", "refused\t32\tlimit_reached", {}),
    ("add-name\tstation\ta1\tit\tPuerto", "refused\t10\talready_there", {}),
    ("add-name\tsystem\tother\tde\tX", "refused\t11\tbad_field", {}),
    (
        "add-name\tsystem\tmetro\tDE\tMetro",
        "ok",
        {
            "system_information": (
                '"en","de","fr","it"],"name":[{"text":"Metro Bikes","language":"en"}]',
                '"en","DE","de","fr","it"],"name":[{"text":"Metro Bikes","language":"en"},'
                '{"text":"Metro","language":"DE"}]',
            ),
        },
    ),
    (
        "add-name\tdescription\tbasic\tde\tEin Euro",
        "ok",
        {"system_pricing_plans": (TEXT_OWN, TEXT_OWN + ',{"text":"Ein Euro","language":"de"}')},
    ),
    (
        "add-name\tplan\tbasic\tde\tEinfach",
        "ok",
        {"system_pricing_plans": (PLAN_OWN, PLAN_OWN + ',{"text":"Einfach","language":"de"}')},
    ),
    ("add-name\tplan\tgold\tde\tGold", "refused\t7\tunknown_plan", {}),
    (
        "add-name\ttype\tcity\tfr\tVille",
        "ok",
        {
            "vehicle_types": (
                '"text":"City","language":"en"}', '"text":"City","language":"en"},{"text":"Ville","language":"fr"}'
            ),
        },
    ),
    ("add-name\ttype\tbasic\tfr\tVille", "refused\t6\tunknown_type", {}),
    ("add-name\tregion\tnorth\tde\tNorden", "refused\t37\tunknown_region", {}),
]


def test_names_in_further_languages(program):
    """Each answer, and all feeds after it. The command reports nothing."""
    assert ask(program, ["add-name\tstation\ta1\tde\tHafen"], first=300) == ["refused\t38\tsystem_missing"]
    ask(program, CITY)
    data = dict(DATA)
    for at, (command, answer, changes) in enumerate(MORE_NAMES):
        assert ask(program, [command], at=1699999300 + at, first=100 + at) == [answer], (command, answer)
        for name, (old, new) in changes.items():
            assert data[name].count(old) == 1, (command, data[name])
            data[name] = data[name].replace(old, new)
        for name in FEEDS:
            assert feed(program, name) == HEAD + data[name] + "}", (command, name, feed(program, name))
    is_sound(program)


def test_names_beyond_the_first_plane(program):
    """Four-byte characters alone, at the greatest length and between others, in a language of the greatest length."""
    long, tag = "🚲" * 30, "x" * 35
    names = {"aa": long, "bb": "\U0010ffff\U00010000", tag: "a𝔘é\U0001f6b2\\t\\\\"}
    assert (
        ask(program, [*CITY, *(f"add-name\tstation\ta1\t{language}\t{text}" for language, text in names.items())])[-3:]
        == ["ok"] * 3
    )
    text = feed(program, "station_information")
    wanted = "".join(f',{{"text":"{text}","language":"{language}"}}' for language, text in names.items())
    assert f'"name":[{{"text":"Harbour","language":"en"}}{wanted}],' in text, text
    (station,) = json.loads(text)["data"]["stations"]
    assert [it["text"] for it in station["name"]] == ["Harbour", long, "\U0010ffff\U00010000", "a𝔘é🚲\t\\"], station
    assert data_of(program, "system_information")["languages"] == ["en", "aa", "bb", tag]


def test_many_languages(program):
    """Almost a hundred of them stand in the feed of the system, each once, in byte order; of 200 stations most have
    their own."""
    pick = random.Random(7)
    tags = [f"{chr(pick.choice([65, 97]) + it % 26)}{it:02}" for it in range(100)]
    stations = [f"s{it:03}" for it in range(200)]
    commands = [SYSTEM, *(f"add-station\t{it}\tStation {it}\t0\t0\t1" for it in stations)]
    named = {station: pick.sample(tags, at % 4) for at, station in enumerate(stations)}
    commands += [
        f"add-name\tstation\t{station}\t{tag}\t{station} in {tag}" for station, given in named.items() for tag in given
    ]
    answers = ask(program, commands)
    assert answers == ["ok"] * len(commands), [it for it in zip(commands, answers) if it[1] != "ok"][:3]
    data = data_of(program, "system_information")
    assert (
        data["languages"] == ["en", *sorted({tag for given in named.values() for tag in given})]
        and len(data["languages"]) > 80
    ), data
    for it in data_of(program, "station_information")["stations"]:
        station = it["station_id"]
        wanted = [("en", f"Station {station}"), *((tag, f"{station} in {tag}") for tag in sorted(named[station]))]
        assert [(part["language"], part["text"]) for part in it["name"]] == wanted, it


def test_256_regions(program):
    """As many as there may be, in byte order, and a station in the last of them."""
    regions = [f"r{it}" for it in range(256)]
    random.Random(7).shuffle(regions)
    commands = [
        SYSTEM,
        *(f"add-region\t{it}\tRegion {it}" for it in regions),
        "add-station\ta1\tHarbour\t0\t0\t1",
        "set-region\ta1\tr99",
    ]
    assert ask(program, commands) == ["ok"] * 259
    found = data_of(program, "system_regions")["regions"]
    assert found == [
        {"region_id": it, "name": [{"text": f"Region {it}", "language": "en"}]} for it in sorted(regions)
    ], found
    (station,) = data_of(program, "station_information")["stations"]
    assert station["region_id"] == "r99" == found[-1]["region_id"], (station, found[-1])


# A station that isn't installed, before there are types and after; and one that takes no bicycle back, with three
# bicycles in its twelve docks, of which five are broken.
BARE = [SYSTEM, "add-station\ta1\tHarbour\t0\t0\t2", "set-station\ta1\tfalse\ttrue\ttrue"]
NOT_INSTALLED = (
    '{"station_id":"a1","num_vehicles_available":0,"vehicle_types_available":[%s],"num_vehicles_disabled":0,'
    '"num_docks_available":2,"num_docks_disabled":0,"is_installed":false,"is_renting":false,"is_returning":false,'
    '"last_reported":"1970-01-01T00:00:00Z"}'
)
BRIDGE = [
    CITY[1],
    "add-type\tcity\tCity\tbicycle\thuman\t0\tbasic",
    "add-type\tcargo\tCargo\tcargo_bicycle\telectric_assist\t60000\tbasic",
    "add-station\tb2\tBridge\t0\t0\t12",
    "add-truck\t3\t20",
    *(f"add-bike\t{bike}\tcity" for bike in (1, 2, 3)),
    "open-order\t3\t*\tb2\tcity\t3",
    *(f"load\t3\t1\t{bike}" for bike in (1, 2, 3)),
    *(f"unload\t3\t1\t{bike}\tto\t{bike}" for bike in (1, 2, 3)),
    *(f"mark-dock\tb2\t{dock}\tbroken" for dock in (4, 6, 8, 10, 12)),
    "set-station\tb2\ttrue\ttrue\tfalse",
]
NO_VEHICLES = '{"vehicle_type_id":"cargo","count":0},{"vehicle_type_id":"city","count":0}'
NOT_RETURNING = (
    '{"station_id":"b2","num_vehicles_available":3,"vehicle_types_available":[{"vehicle_type_id":"cargo","count":0},'
    '{"vehicle_type_id":"city","count":3}],"num_vehicles_disabled":0,"num_docks_available":4,"num_docks_disabled":5,'
    '"is_installed":true,"is_renting":true,"is_returning":false,"last_reported":"9999-12-31T23:59:59Z"}'
)


def test_texts_of_two_stations(program):
    assert ask(program, BARE, at=0) == ["ok"] * 3
    wanted = HEAD + '{"stations":[' + NOT_INSTALLED % "" + "]}}"
    assert feed(program, "station_status") == wanted, feed(program, "station_status")
    accepted(program, BRIDGE, at=253402300799, first=10)
    wanted = HEAD + '{"stations":[' + NOT_INSTALLED % NO_VEHICLES + "," + NOT_RETURNING + "]}}"
    assert feed(program, "station_status") == wanted, feed(program, "station_status")


# Numbers as a command spells them, and as feeds print them.
PRICES = {
    "0": "0.00", "7": "0.07", "25": "0.25", "100": "1.00", "350": "3.50", "99999": "999.99", "1000000": "10000.00"
}
RATES = {
    "0": "0.00", "-1": "-0.01", "-25": "-0.25", "-100": "-1.00", "5": "0.05", "-99999": "-999.99", "100000": "1000.00",
    "-100000": "-1000.00",
}
DEGREES = {
    "-0.000001": "-0.000001", "-0": "0.000000", "-000.000000": "0.000000", "0.1": "0.100000", "007": "7.000000",
    "45.5": "45.500000", "12.034567": "12.034567", "-9.999999": "-9.999999", "180": "180.000000",
    "-180.000000": "-180.000000",
}
MOMENTS = {
    "0": "1970-01-01T00:00:00Z",
    "86399": "1970-01-01T23:59:59Z",
    "951782400": "2000-02-29T00:00:00Z",
    "1709251199": "2024-02-29T23:59:59Z",
    "4107542399": "2100-02-28T23:59:59Z",
    "4107542400": "2100-03-01T00:00:00Z",
    "253402300799": "9999-12-31T23:59:59Z",
}


def printed(text, member):
    """The texts of a member, in their order."""
    return re.findall(f'"{member}":"?([^,"}}]*)', text)


def test_numbers_as_they_are_printed(program):
    """One plan has each price, and all rates; one station each coordinate, and one was added at each moment."""
    segments = ";".join(f"0:{rate}:0:-" for rate in RATES)
    commands = [("0", f"add-plan\tp{at}\tPlan\t{price}\tfalse\tPlan\t{segments}") for at, price in enumerate(PRICES)]
    commands += [("0", f"add-station\ts{at}\tStation\t0\t{spelled}\t1") for at, spelled in enumerate(DEGREES)]
    commands += [(moment, f"add-station\tt{at}\tStation\t0\t0\t1") for at, moment in enumerate(MOMENTS)]
    given = "".join(
        f"{moment}\toffice\tk{at}\t{command}\n" for at, (moment, command) in enumerate([("0", SYSTEM), *commands])
    )
    assert program.run("lines", "city.db", given=given.encode()) == (0, b"ok\n" * (1 + len(commands)), b"")
    text = feed(program, "system_pricing_plans")
    assert printed(text, "price") == list(PRICES.values()), text
    assert printed(text, "rate") == list(RATES.values()) * len(PRICES), text
    text = feed(program, "station_information")
    assert printed(text, "lon") == [*DEGREES.values(), *(["0.000000"] * len(MOMENTS))], text
    text = feed(program, "station_status")
    assert printed(text, "last_reported") == [MOMENTS["0"]] * len(DEGREES) + list(MOMENTS.values()), text


# Characters of names, as a command spells them, and as JSON has them.
CONTROLS = {chr(code): f"\\u{code:04x}" for code in range(1, 0x20) if chr(code) not in "\t\n\r"} | {
    "\b": "\\b", "\f": "\\f"
}
ESCAPED = {"\\t": "\\t", "\\n": "\\n", "\\r": "\\r", "\\\\": "\\\\", '"': '\\"'}
PLAIN = {it: it for it in ("/", " ", "~", "\x7f", "\x80", "é", "€", "\u2028", "\ufeff", "\ufffd", "🚲", "\U0010ffff")}


def test_characters_as_json_has_them(program):
    """The last name has them all. Another reader of JSON has the names as they were given."""
    names = CONTROLS | ESCAPED | PLAIN
    names["".join(names)] = "".join(names.values())
    stations = [f"add-station\ts{at:02}\t{spelled}\t0\t0\t1" for at, spelled in enumerate(names)]
    assert ask(program, [SYSTEM, *stations]) == ["ok"] * (1 + len(stations))
    text = feed(program, "station_information")
    for at, written in enumerate(names.values()):
        assert f'{{"station_id":"s{at:02}","name":[{{"text":"{written}","language":"en"}}],' in text, (written, text)
    found = [it["name"][0]["text"] for it in json.loads(text)["data"]["stations"]]
    plain = [{"\\t": "\t", "\\n": "\n", "\\r": "\r", "\\\\": "\\"}.get(spelled, spelled) for spelled in names][:-1]
    assert found == [*plain, "".join(plain)], found


def test_no_system(program):
    assert program.run("init", "city.db") == READY
    for name in FEEDS:
        assert program.run("feed", "city.db", name, "--at", NOW) == (1, b"", b"system missing\n"), name
    assert program.run("feed", ":memory:", "gbfs") == (1, b"", b"system missing\n")


def test_the_moment_is_the_one_that_is_asked_for(program):
    ask(program, CITY)
    for at, text in (
        ("0", "1970-01-01T00:00:00Z"), ("1709251199", "2024-02-29T23:59:59Z"), ("253402300799", "9999-12-31T23:59:59Z")
    ):
        for name in FEEDS:
            wanted = HEAD.replace("2023-11-14T22:13:20Z", text) + DATA[name] + "}"
            assert feed(program, name, at) == wanted, (name, at)


def test_the_clock_where_no_moment_is_given(program):
    ask(program, CITY)
    status, out, said = program.run("feed", "city.db", "gbfs")
    assert (status, said) == (0, b"")
    assert json.loads(out)["last_updated"] > "2026-01-01", out[:60]


def test_names_that_need_escapes(program):
    ask(program, CITY)
    names = {
        'Q "1"\\t': ('"Q \\"1\\"\\t"', 'Q "1"\t'),
        "back\\\\slash": ('"back\\\\slash"', "back\\slash"),
        "two\\nlines": ('"two\\nlines"', "two\nlines"),
        "bell \x07 and \x1f": ('"bell \\u0007 and \\u001f"', "bell \x07 and \x1f"),
        "solidus / stays": ('"solidus / stays"', "solidus / stays"),
        "Łódź 🚲 \x7f": ('"Łódź 🚲 \x7f"', "Łódź 🚲 \x7f"),
    }
    for number, (field, (_, name)) in enumerate(names.items()):
        assert ask(program, [f"add-station\tn{number}\t{field}\t0\t0\t1"], first=100 + number) == ["ok"], field
    text = feed(program, "station_information")
    stations = json.loads(text)["data"]["stations"]
    assert [it["name"][0]["text"] for it in stations[1:]] == [name for _, name in names.values()], stations
    for written, _ in names.values():
        assert '"name":[{"text":' + written + ',"language":"en"}]' in text, written


def test_types_with_a_motor_and_plans_without_segments(program):
    ask(program, CITY)
    more = [
        "add-plan\tday\tDay\t0\ttrue\tA day\t-",
        "add-plan\tall\tAll\t250\tfalse\tEnds\t0:-60:0:30;20:50:10:-",
        "add-type\tcargo\tCargo\tcargo_bicycle\telectric_assist\t60000\tday",
    ]
    assert ask(program, more, first=50) == ["ok"] * 3
    plans = {it["plan_id"]: it for it in data_of(program, "system_pricing_plans")["plans"]}
    assert list(plans) == sorted(plans)
    assert "per_min_pricing" not in plans["day"] and plans["day"]["is_taxable"] is True, plans["day"]
    assert plans["all"]["per_min_pricing"] == [
        {"start": 0, "rate": -0.6, "interval": 0, "end": 30},
        {"start": 20, "rate": 0.5, "interval": 10},
    ], plans["all"]
    types = data_of(program, "vehicle_types")["vehicle_types"]
    assert [it["vehicle_type_id"] for it in types] == ["cargo", "city"]
    assert list(types[0]) == [
        "vehicle_type_id", "form_factor", "propulsion_type", "max_range_meters", "name", "default_pricing_plan_id"
    ]
    assert types[0]["max_range_meters"] == 60000 and "max_range_meters" not in types[1]


def test_flags_count_only_while_the_station_is_installed(program):
    ask(program, CITY)
    cases = itertools.product((True, False), repeat=3)
    for number, (installed, renting, returning) in enumerate(cases):
        words = "\t".join("true" if it else "false" for it in (installed, renting, returning))
        assert ask(program, [f"set-station\ta1\t{words}"], first=70 + number) == ["ok"]
        (station,) = data_of(program, "station_status")["stations"]
        flags = [station[it] for it in ("is_installed", "is_renting", "is_returning")]
        assert flags == [installed, installed and renting, installed and returning], (words, station)
        assert station["num_vehicles_available"] == 1, station


def test_300_stations_of_five_types(program):
    types = [f"add-type\tt{it}\tType\tbicycle\thuman\t0\tbasic" for it in range(5)]
    order = list(range(300))
    random.Random(7).shuffle(order)
    stations = [f"add-station\ts-{it}\tStation\t0\t0\t1" for it in order]
    answers = ask(program, [*CITY[:2], *types, *stations])
    assert answers == ["ok"] * 307
    text = feed(program, "station_status")
    found = json.loads(text)["data"]["stations"]
    assert [it["station_id"] for it in found] == sorted(f"s-{it}" for it in order)
    for station in found:
        assert station["vehicle_types_available"] == [{"vehicle_type_id": f"t{it}", "count": 0} for it in range(5)]
        assert [
            station[f"num_{it}"]
            for it in ("vehicles_available", "vehicles_disabled", "docks_available", "docks_disabled")
        ] == [0, 0, 1, 0]


def made_city(seed):
    """Commands of a city of several stations, types and bicycles, some of them docked, some broken, some disabled."""
    pick = random.Random(seed)
    commands = [*CITY[:2], "add-truck\t1\t60"]
    types = [f"t{it}" for it in range(4)]
    commands += [f"add-type\t{it}\tType {it}\tbicycle\thuman\t0\tbasic" for it in types]
    docks = {f"s{it}": pick.randint(1, 12) for it in range(20)}
    commands += [
        f"add-station\t{it}\tStation {it}\t{pick.randint(-90, 90)}\t{pick.randint(-180, 180)}\t{n}"
        for it, n in docks.items()
    ]
    commands += [f"add-region\tr{it}\tRegion {it}" for it in range(5)]
    commands += [
        f"set-region\t{it}\t{pick.choice(['*', 'r0', 'r1', 'r2', 'r3'])}" for it in pick.choices(list(docks), k=30)
    ]
    things = [
        ("system", "metro"), *(("type", it) for it in types), ("plan", "basic"), ("description", "basic"),
        *(("region", f"r{it}") for it in range(5)),
    ]
    for kind, ident in [*things, *(("station", it) for it in docks)]:
        languages = pick.sample(["de", "DE", "fr", "it", "zh-Hant", "-0", "En"], pick.randint(0, 3))
        for language in languages:
            commands.append(f"add-name\t{kind}\t{ident}\t{language}\t{kind} {ident} in {language}")
        if pick.random() < 0.3:
            language = pick.choice(["en", *languages])
            commands.append(f"set-name\t{kind}\t{ident}\t{language}\tAnother {kind} {ident} in {language}")
        if languages and pick.random() < 0.2:
            commands.append(f"remove-name\t{kind}\t{ident}\t{pick.choice(languages)}")
    return commands + docked(pick, docks, types)


def docked(pick, docks, types):
    """Commands that bring bicycles into some of the stations' docks; some bicycles and some docks are out of order."""
    commands = []
    bike = order = 0
    for station, n in docks.items():
        for dock in pick.sample(range(1, n + 1), pick.randint(0, n)):
            bike, order = bike + 1, order + 1
            kind = pick.choice(types)
            commands += [
                f"add-bike\t{bike}\t{kind}",
                f"open-order\t1\t*\t{station}\t{kind}\t1",
                f"load\t1\t{order}\t{bike}",
                f"unload\t1\t{order}\t{bike}\tto\t{dock}",
                f"close-order\t{order}",
            ]
            if pick.random() < 0.2:
                commands.append(f"mark-bike\t{bike}\tdisabled")
        for dock in range(1, n + 1):
            if pick.random() < 0.15:
                commands.append(f"mark-dock\t{station}\t{dock}\tbroken")
    return commands


# What has a name, with its own name and the list in which it stands in a feed.
NAMED = {
    "system": ("system_information", None, "SELECT system_id, name FROM system"),
    "type": ("vehicle_types", "vehicle_types", "SELECT type_id, name FROM types"),
    "station": ("station_information", "stations", "SELECT station_id, name FROM stations_4"),
    "plan": ("system_pricing_plans", "plans", "SELECT plan_id, name FROM plans"),
    "description": ("system_pricing_plans", "plans", "SELECT plan_id, description FROM plans"),
    "region": ("system_regions", "regions", "SELECT region_id, name FROM regions"),
}


def told_names(program):
    """What feeds tell of each kind and identifier: languages and texts in their order."""
    told = {}
    for kind, (name, listed, _) in NAMED.items():
        data = data_of(program, name)
        for it in data[listed] if listed else [data]:
            parts = it["description" if kind == "description" else "name"]
            told[kind, it[f"{ {'type': 'vehicle_type', 'description': 'plan'}.get(kind, kind)}_id"]] = [
                (part["language"], part["text"]) for part in parts
            ]
    return told


def stored_names(db):
    """The same of the tables by plain SQL, and the languages of the system."""
    told = {(kind, ident): [("en", own)] for kind, (_, _, query) in NAMED.items() for ident, own in db.execute(query)}
    for kind, ident, language, text in db.execute(
        "SELECT kind, id, language, name FROM more_names ORDER BY kind, id, language"
    ):
        told[kind, ident].append((language, text))
    return told, ["en", *(it for (it,) in db.execute("SELECT DISTINCT language FROM more_names ORDER BY language"))]


# A bicycle is available where it is fit (0) and its dock isn't broken; a dock without a row works.
COUNTED = """
SELECT stations.station_id, types.type_id,
  (SELECT count(*) FROM bikes LEFT JOIN docks ON docks.station_id = bikes.station_id AND docks.dock = bikes.dock
     WHERE bikes.station_id = stations.station_id AND bikes.type_id = types.type_id AND bikes.state = 0
      AND coalesce(docks.broken, 0) = 0)
FROM stations_4 AS stations, types ORDER BY 1, 2
"""


def counts_are_stored(program, db, seed):
    """What the feed tells of each station is what SQL counts in the tables."""
    found = {it["station_id"]: it for it in data_of(program, "station_status")["stations"]}
    available = {}
    for station, kind, count in db.execute(COUNTED):
        available.setdefault(station, []).append({"vehicle_type_id": kind, "count": count})
    in_docks = dict(
        db.execute("SELECT station_id, count(*) FROM bikes WHERE station_id IS NOT NULL GROUP BY station_id")
    )
    broken = dict(db.execute("SELECT station_id, sum(broken) FROM docks GROUP BY station_id"))
    both = dict(db.execute(
        "SELECT bikes.station_id, count(*) FROM bikes JOIN docks USING (station_id, dock) "
        "WHERE docks.broken = 1 GROUP BY 1"
    ))
    capacity = dict(db.execute("SELECT station_id, docks FROM stations_4"))
    assert list(found) == sorted(capacity), list(found)
    for station, shown in found.items():
        total = sum(it["count"] for it in available[station])
        assert shown["vehicle_types_available"] == available[station], (seed, station, shown)
        assert shown["num_vehicles_available"] == total, (seed, station, shown)
        assert shown["num_vehicles_disabled"] == in_docks.get(station, 0) - total, (seed, station, shown)
        assert shown["num_docks_disabled"] == broken.get(station, 0), (seed, station, shown)
        empty = capacity[station] - in_docks.get(station, 0) - broken.get(station, 0) + both.get(station, 0)
        assert shown["num_docks_available"] == empty, (seed, station, shown)


def test_a_made_city_is_counted_by_sql(program):
    for seed in range(3):
        removed(program.folder, "city.db")
        accepted(program, made_city(seed))
        with copied(program.folder, "city.db") as db:
            counts_are_stored(program, db, seed)
            region = dict(db.execute("SELECT station_id, region_id FROM stations_4 JOIN regions USING (region_id)"))
            names = db.execute("SELECT region_id, regions.name FROM regions ORDER BY region_id").fetchall()
            stored, languages = stored_names(db)
        assert told_names(program) == stored and sum(len(it) for it in stored.values()) > len(stored) + 10, (
            seed, stored
        )
        assert data_of(program, "system_information")["languages"] == languages, (seed, languages)
        places = data_of(program, "station_information")["stations"]
        assert (
            {it["station_id"]: it["region_id"] for it in places if "region_id" in it} == region
            and 3 < len(region) < len(places)
        ), (seed, places)
        regions = data_of(program, "system_regions")["regions"]
        assert [(it["region_id"], it["name"][0]["text"]) for it in regions] == names and len(names) == 5, (
            seed, regions
        )


def test_wrong_names_and_moments(program):
    ask(program, CITY)
    for words in (
        ["status"], ["vehicle_status"], ["regions"], ["system_region"], ["Station_Status"], ["Gbfs"], [""],
        ["gbfs", "gbfs"], [], ["gbfs", "--at"], ["gbfs", "--at", "-1"], ["gbfs", "--at", "+1"],
        ["gbfs", "--at", "253402300800"], ["gbfs", "--at", "1.5"], ["gbfs", "--at", ""], ["gbfs", "--on", "1"],
        ["gbfs", "--at", "1", "--at", "2"],
    ):
        status, out, said = program.run("feed", "city.db", *words)
        assert (status, out) == (2, b"") and shared.tells_mistake(said), (words, status, out, said)


def test_a_feed_changes_nothing(program):
    ask(program, CITY)
    before = Path(program.folder, "city.db").read_bytes()
    for name in FEEDS:
        feed(program, name)
    assert Path(program.folder, "city.db").read_bytes() == before
    is_sound(program)


def test_an_output_that_fails(program):
    ask(program, CITY)
    with open("/dev/full", "wb") as full:
        ended = program.run("feed", "city.db", "gbfs", "--at", NOW, stdout=full)
    assert ended == (WRITE_FAILED[0], None, WRITE_FAILED[2]), ended
