"""Known values from outside: fields at their bounds and past them, replies as they are kept, told in answer lines and
over HTTP, and what is told of a small city over HTTP.

Each wanted answer is worked out by hand from docs/OPERATOR.md and docs/FORMATS.md. A TAB is written | here.
"""

import contextlib
import sqlite3
from pathlib import Path

import shared
import stored
from shared import Server, answer, city, error, get, holds, is_sound, office

# ---- Fields

# Over this city each command below is refused by a rule of its own where it is read: what it adds is there, or what it
# names first isn't. Commands that change the system are asked for before it is set.
CITY = [
    "set-system|metro|en|Metro|24/7|feeds@example.org|Etc/UTC|EUR|http://127.0.0.1:8080|30",
    "add-plan|day|Day|0|true|Day|-",
    "add-type|city|City|bicycle|human|0|day",
    "add-station|a1|Harbour|0|0|1",
    "add-region|north|North",
]
THERE = "refused|10|already_there"
BAD_FIELD = "refused|11|bad_field"
NOT_SET = "refused|38|system_missing"
UNKNOWN_STATION = "refused|1|unknown_station"
UNKNOWN_NAME = "refused|39|unknown_name"

NO_DEGREES = [
    "180.000001", "-180.000001", "1000", "0001", ".5", "1.", "+1", "1.0000000", "", "-", "--1", "1 ", " 1", "1.5.5",
    "1e1", "-.5", "1,5", "0x1", "-180.0000000",
]
NO_NUMBERS = [
    "01", "007", "+1", "-1", "-0", "", " 1", "1 ", "1x", "1.0", "1e1", "0x1", "30000000000000000000000000000",
    "18446744073709551617",
]
NO_IDENTS = [
    "EUR", "de-AT", "", "a" * 37, "AZ", "@@@", "[[[", "``", "{{", "//", "::", " ~", "\x7f", "\x01", "été", "aa\0", "*"
]
NO_REGIONS = [it for it in NO_IDENTS if it != "*"]
LATITUDES = ["0", "-0", "48.1", "048.100000", "-0.000001", "90", "-90", "90.000000"]
NO_LATITUDES = ["90.000001", "-90.000001", "-180", *NO_DEGREES]
LONGITUDES = ["-0", "007", "45.5", "90.000001", "-90.000001", "180", "-180", "-180.000000", "12.034567"]
IDENTS = ["az_09-", "-", "a0z9", "a" * 36]
NAMES = ["Rue é", "a\\\\b", "\\t\\n\\r", "Mo-Su 06:00", "a;b", "\\\\" * 120]
NO_NAMES = ["a\rb", "a\\", "a\\x", "a\\0", "a\\T", "a\0", "", "\\\\" * 121]
ASCIIS = ["a\\\\b", "Mo-Su 06:00", "a;b", "\\\\" * 121, "\\\\" * 200]
NO_ASCIIS = ["Rue é", "\\t\\n\\r", "\\t", "a\rb", "a\\", "a\\x", "a\\0", "aa\0", "", "\\\\" * 201]
SYSTEM = "set-system|{}|{}|{}|{}|{}|{}|{}|{}|{}"
GOOD = ["metro", "en", "Metro", "24/7", "feeds@example.org", "Etc/UTC", "EUR", "http://127.0.0.1:8080", "30"]


def system(at):
    """The command that sets a system, with {} in the place of one field."""
    return SYSTEM.format(*GOOD[:at], "{}", *GOOD[at + 1 :])


def change(at):
    """The command that changes a system, with {} in the place of one field."""
    texts = [*GOOD[2:6], *GOOD[7:]]
    return "|".join(["change-system", *texts[:at], "{}", *texts[at + 1 :]])


# The commands of names, with what stands behind the language. The answers where there is no such thing of a kind; texts
# that are no kind, and ones that are languages and that aren't.
NAMING = [("add-name", "|N"), ("set-name", "|N"), ("remove-name", "")]
NO_SUCH = {
    "station": UNKNOWN_STATION, "type": "refused|6|unknown_type", "plan": "refused|7|unknown_plan",
    "description": "refused|7|unknown_plan", "region": "refused|37|unknown_region", "system": BAD_FIELD,
}
NO_KINDS = ["Station", "stations", "bike", "rider", "truck", "order", "system_regions", "*", ""]
LANGUAGES = ["EUR", "de-AT", "--", "00", "a" * 35]
NO_LANGUAGES = ["az_09-", "", "e", "a" * 36, "aa\0", "e n"]

# Of each field: a command with {} in its place, the answer where it is read, texts that are read, and texts that
# aren't.
FIELDS = [
    ("mark-dock|zz|{}|broken", "refused|1|unknown_station", ["1", "17", "201", "500"], ["0", "501", *NO_NUMBERS]),
    ("add-station|a1|N|0|0|{}", THERE, ["1", "201", "500"], ["0", "501", *NO_NUMBERS]),
    ("add-docks|zz|{}", UNKNOWN_STATION, ["1", "201", "500"], ["0", "501", *NO_NUMBERS]),
    ("add-docks|a1|{}", "refused|32|limit_reached", ["500"], ["0", "501", *NO_NUMBERS]),
    ("add-docks|{}|1", UNKNOWN_STATION, ["az_09-", "a", "a0z9", "a" * 36], NO_IDENTS),
    ("unload|9|1|7|to|{}", "refused|8|unknown_truck", ["0", "1", "500"], ["501", "00", *NO_NUMBERS]),
    ("recover|{}", "refused|5|unknown_rental", ["1", "100000000"], ["0", "100000001", *NO_NUMBERS]),
    ("close-order|{}", "refused|9|unknown_order", ["1", "100000000"], ["0", "100000001", *NO_NUMBERS]),
    ("top-up|{}|1", "refused|4|unknown_rider", ["1", "999999"], ["0", "1000000", *NO_NUMBERS]),
    ("top-up|1|{}", "refused|4|unknown_rider", ["1", "1000000"], ["0", "1000001", *NO_NUMBERS]),
    ("refund|1|{}", "refused|5|unknown_rental", ["1", "1000000"], ["0", "1000001", *NO_NUMBERS]),
    ("retire-bike|{}", "refused|3|unknown_bike", ["1", "999999"], ["0", "1000000", *NO_NUMBERS]),
    ("open-order|9|*|a1|city|{}", "refused|8|unknown_truck", ["1", "60"], ["0", "61", *NO_NUMBERS]),
    ("add-plan|day|Day|{}|true|Day|-", THERE, ["0", "1000000"], ["1000001", "00", *NO_NUMBERS]),
    (system(8), THERE, ["0", "86400"], ["86401", "00", *NO_NUMBERS]),
    ("add-station|a1|N|{}|0|1", THERE, LATITUDES, NO_LATITUDES),
    ("add-station|a1|N|0|{}|1", THERE, LONGITUDES, NO_DEGREES),
    ("move-station|zz|{}|0", UNKNOWN_STATION, LATITUDES, NO_LATITUDES),
    ("move-station|zz|0|{}", UNKNOWN_STATION, LONGITUDES, NO_DEGREES),
    ("move-station|{}|0|0", UNKNOWN_STATION, ["az_09-", "a", "a0z9", "a" * 36], NO_IDENTS),
    ("add-type|city|N|bicycle|human|{}|day", THERE, ["0"], ["1", "1000000", "1000001", "00", *NO_NUMBERS]),
    ("add-type|city|N|bicycle|electric_assist|{}|day", THERE, ["1", "1000000"], ["0", "1000001", "00", *NO_NUMBERS]),
    (
        "add-type|city|N|bicycle|{}|0|day",
        THERE,
        ["human"],
        ["electric_assist", "bicycle", "cargo_bicycle", "cargo", "Human", ""],
    ),
    ("add-type|city|N|bicycle|{}|1|day", THERE, ["electric_assist"], ["human", "bicycle", "electric", ""]),
    (
        "add-type|city|N|{}|human|0|day",
        THERE,
        ["bicycle", "cargo_bicycle"],
        ["human", "electric_assist", "cargo", "tricycle", "Bicycle", ""],
    ),
    ("add-type|city|N|bicycle|human|0|{}", THERE, ["day", "gold"], NO_IDENTS),
    ("set-rider|1|{}", "refused|4|unknown_rider", ["open", "blocked"], ["ok", "Open", "from", "to", ""]),
    ("unload|9|1|7|{}|1", "refused|8|unknown_truck", ["from", "to"], ["ok", "blocked", "open", "Open", "From", ""]),
    ("mark-dock|zz|1|{}", "refused|1|unknown_station", ["broken", "working"], ["Broken", "fit", "open", ""]),
    ("mark-bike|7|{}", "refused|3|unknown_bike", ["disabled", "fit"], ["Fit", "broken", "retired", ""]),
    ("set-station|zz|{}|true|true", "refused|1|unknown_station", ["true", "false"], ["True", "1", "0", "yes", ""]),
    ("open-order|9|{}|b2|city|1", "refused|8|unknown_truck", ["*", "a1", "a" * 36], ["A1", "**", "", "*a", "a" * 37]),
    ("set-plan|{}|day", "refused|6|unknown_type", ["az_09-", "a", "a0z9", "a" * 36], NO_IDENTS),
    ("set-region|{}|north", "refused|1|unknown_station", ["az_09-", "a", "a0z9", "a" * 36], NO_IDENTS),
    (
        "set-region|zz|{}",
        "refused|1|unknown_station",
        ["*", "north", "south", "a" * 36],
        ["**", "*a", "a*", " *", *NO_REGIONS],
    ),
    (
        "set-region|a1|{}",
        "refused|37|unknown_region",
        ["az_09-", "-", "a0z9", "a" * 36, "a1"],
        ["**", "*a", "a*", " *", *NO_REGIONS],
    ),
    (
        "add-region|north|{}",
        THERE,
        ["Rue é", "a\\\\b", "\\t\\n\\r", "*", "-", "\\\\" * 120],
        ["a\rb", "a\\", "a\\x", "a\0", "", "\\\\" * 121],
    ),
    (
        system(1),
        THERE,
        ["en", "EUR", "de-AT", "pt-BR", "a0z9", "a" * 35],
        ["az_09-", "", "e", "a" * 36, "a" * 37, "aa\0"],
    ),
    *((f"{word}|{{}}|zz|de{name}", UNKNOWN_STATION, ["station"], NO_KINDS) for word, name in NAMING),
    *(
        (line, answer, ["plan", "description"], ["Plan", "plans", "names", "descriptions", " plan", ""])
        for line, answer in (
            ("add-name|{}|day|en|N", THERE), ("set-name|{}|day|de|N", UNKNOWN_NAME),
            ("remove-name|{}|day|en", UNKNOWN_NAME),
        )
    ),
    *(
        (f"{word}|{kind}|{{}}|de{name}", answer, IDENTS, NO_IDENTS)
        for word, name in NAMING
        for kind, answer in NO_SUCH.items()
    ),
    *((f"{word}|station|zz|{{}}{name}", UNKNOWN_STATION, ["en", *LANGUAGES], NO_LANGUAGES) for word, name in NAMING),
    ("set-name|station|a1|{}|N", UNKNOWN_NAME, LANGUAGES, NO_LANGUAGES),
    ("remove-name|station|a1|{}", UNKNOWN_NAME, ["en", *LANGUAGES], ["en|N", "en|", *NO_LANGUAGES]),
    ("add-name|station|a1|en|{}", THERE, ["*", "-", *NAMES], ["N|N", "N|", *NO_NAMES]),
    ("set-name|station|a1|de|{}", UNKNOWN_NAME, ["*", "-", *NAMES], ["N|N", "N|", *NO_NAMES]),
    (system(6), THERE, ["EUR", "AMZ"], ["EU", "EURO", "eur", "az_09-", "de-AT", "", "a" * 36, "E R", "aa\0", "E0R"]),
    (system(2), THERE, NAMES, NO_NAMES),
    (system(3), THERE, ASCIIS, NO_ASCIIS),
]

# The same of the fields of change-system, where no system is set.
CHANGES = [
    (change(0), NOT_SET, NAMES, NO_NAMES),
    *((change(at), NOT_SET, ASCIIS, NO_ASCIIS) for at in (1, 2, 3, 4)),
    (change(5), NOT_SET, ["0", "86400"], ["86401", "00", *NO_NUMBERS]),
]

# Segments: the sign of a rate, their bounds, and an end behind the start in numbers and not in characters.
ONE = "0:25:10:-"
FIELDS.append((
    "add-plan|day|Day|0|true|Day|{}", THERE,
    [
        "-", ONE, "0:0:0:-", "0:0:0:1", "0:0:0:1;100000:-100000:100000:-", "100000:100000:100000:-",
        "99999:-100000:1:100000", "99999:100000:1:100000", "9:-25:9:10",
        "0:-1:0:-", ";".join(["1:1:1:-"] * 8), "5:-25:10:60;7:0:0:-",
    ],
    [
        "", ";".join(["1:1:1:-"] * 9), f"{ONE};", f";{ONE}", f"{ONE};;{ONE}", f"{ONE},{ONE}", "-;-", f"-;{ONE}",
        f"{ONE};-", "0:25:10", "0:25:10:-:1", "0:25:10:", ":::", "0:25::-",
        "9:-25:9:9", "10:-25:10:9", "99999:25:1:100001", "5:0:0:5", "0:0:0:0", "0:0:100001:0", "100001:25:10:-",
        "100001:100001:0:-", "0:100001:100001:-", "0:-100001:0:-",
        "0:25:100001:-", "0:25:10:100001", "-1:25:10:-", "0:25:-1:-", "0:25:10:-1", "00:25:10:-", "0:25:010:-",
        "0:25:10:010", " 0:25:10:-", "0:25:10:*",
        *(
            f"0:{rate}:10:-"
            for rate in (
                "-0", "+1", "-01", "01", "007", "", "-", "--1", "100001", "1.0", "9223372036854775808",
                "-9223372036854775809",
            )
        ),
    ],
))

# Whole commands of which several fields may be bad at once.
EIGHT, NINE = (";".join([ONE] * count) for count in (8, 9))
FIELDS.append((
    "{}", THERE,
    [
        "add-plan|day|Day|0|true|d|-", f"add-plan|day|Day|1000000|true|d|{EIGHT}", "add-station|a1|Main St|90|180|1",
        "add-station|a1|Main St|-90|-180|500",
        "set-system|city|pt-BR|City|24/7|a@example.org|Europe/Rome|EUR|https://example.org|86400",
    ],
    [
        f"add-plan|Day|Day|1000001|true||{NINE}", f"add-plan|day|Day|1000001|true||{NINE}",
        f"add-plan|day|Day|0|true||{NINE}", f"add-plan|day|Day|0|true|d|{NINE}",
        "add-type|city|City|cargo_bicycle|human|1|", "add-type|city|City|cargo_bicycle|electric_assist|0|",
        "add-type|city|City|cargo_bicycle|electric_assist|1000001|",
        "add-station|a1|Main St|90.000001|180.000001|0", "add-station|a1|Main St|0|180.000001|0",
        "set-system|city|e|City||a@example.org|Europe/Rome|eur|u|86401",
        "set-system|city|en|City||a@example.org|Europe/Rome|eur|u|86401",
        "set-system|city|en|City|x|a@example.org|Europe/Rome|EU|u|86401",
    ],
))

# Texts of many characters, and whether each is an identifier, a key, a language, a currency, a printable ASCII field
# and a name.
KINDS = [
    ("az_09-", "yes yes no no yes yes"),
    ("AZ", "no yes yes no yes yes"),
    ("AMZ", "no yes yes yes yes yes"),
    ("a0z9", "yes yes yes no yes yes"),
    ("de-AT", "no yes yes no yes yes"),
    *((text, "no no no no yes yes") for text in ("@@@", "[[[", "``", "{{", "//", "::", ".,", " ~", "   ", "%%%")),
    *((text, "no no no no no yes") for text in ("\x7f", "\x1f", "\x01", "été", "ÀÀÀ", "\u0660\u0661\u0662", "🚲🚲")),
    *((text, "no no no no no no") for text in ("a\0", "aa\0", "", "a\r")),
]


def kinds():
    """Each text of many characters as each of the six fields: the command and its key, the answer where it is read, and
    whether it is."""
    for text, told in KINDS:
        for at, is_read in enumerate(told.split()):
            command, key = "recover|1", "k"
            if at == 0:
                command = f"set-plan|{text}|day"
            elif at == 1:
                key = text
            else:
                command = system([1, 6, 7, 2][at - 2]).replace("{}", text)
            answer = ["refused|6|unknown_type", "refused|5|unknown_rental"][at] if at < 2 else THERE
            yield command, key, answer, is_read == "yes"


def sent(rows):
    """Request lines of a command and a key each, and their answers."""
    lines = (f"0|office|{key}|{command}\n" for command, key, _ in rows)
    return ("".join(part).replace("|", "\t").encode() for part in (lines, (f"{answer}\n" for _, _, answer in rows)))


def test_fields(program):
    city = [(command, f"c{at}", "ok") for at, command in enumerate(CITY)]
    unset, rows = (
        [
            (line.replace("{}", text), "k", answer if text in read else BAD_FIELD)
            for line, answer, read, bad in fields
            for text in [*read, *bad]
        ]
        for fields in (CHANGES, FIELDS)
    )
    assert len(unset) > 80 and len(rows) > 400, (len(unset), len(rows))
    program.answers(*sent([*unset, *city, *rows, *city]))


def test_characters(program):
    city = [(command, f"c{at}", "ok") for at, command in enumerate(CITY)]
    program.answers(
        *sent([*city, *((command, key, answer if is_read else BAD_FIELD) for command, key, answer, is_read in kinds())])
    )


def test_line_ends_within_fields(program):
    """A line feed ends a request line. In a text over HTTP, as in a line, neither it nor a carriage return stands for
    itself."""
    city(program)
    good, texts = "add-plan\tp\t{}\t0\ttrue\tD\t-", ("a\nb", "a\rb", "\n", "a\r\n", "a\0b")
    holds(program, [
        *((office("k", good.format(text)), shared.BAD_FIELD) for text in texts),
        *((office("k", f"{good.format('N')}{end}"), shared.BAD_FIELD) for end in ("\n", "\r", "\t", ";", " ")),
        (office("k", good.format("a\\nb\\r")), shared.DONE),
    ])


# ---- Replies

# Texts of replies, and the body by which each is told over HTTP.
REPLIES = [
    ("ok", '{"result":"ok"}'),
    ("balance|2500", '{"result":"ok","balance_cents":2500}'),
    ("balance|0", '{"result":"ok","balance_cents":0}'),
    ("balance|-1", '{"result":"ok","balance_cents":-1}'),
    ("balance|-100", '{"result":"ok","balance_cents":-100}'),
    ("balance|34561800001", '{"result":"ok","balance_cents":34561800001}'),
    ("balance|9223372036854775807", '{"result":"ok","balance_cents":9223372036854775807}'),
    ("balance|-9223372036854775808", '{"result":"ok","balance_cents":-9223372036854775808}'),
    ("rental|1|7", '{"result":"ok","rental":1,"bike":7}'),
    ("rental|100000000|999999", '{"result":"ok","rental":100000000,"bike":999999}'),
    ("fare|0|-350", '{"result":"ok","fare_cents":0,"balance_cents":-350}'),
    (
        "fare|34561800000|-9223372036854775808",
        '{"result":"ok","fare_cents":34561800000,"balance_cents":-9223372036854775808}',
    ),
    ("order|1", '{"result":"ok","order":1}'),
    ("order|100000000", '{"result":"ok","order":100000000}'),
]
BAD_NUMBERS = ["-0", "-01", "007", "+1", "", "9223372036854775808", "-9223372036854775809"]
NO_REPLIES = [
    "", "OK", "ok|", "blocked", "open", "Open", "from", "to", "balance", "balance|1|2",
    *(f"balance|{it}" for it in BAD_NUMBERS), "rental|1", "rental|0|7",
    "rental|100000001|7", "rental|1|1000000",
    *(f"fare|{it}|0" for it in [*BAD_NUMBERS, "-1", "34561800001", "9223372036854775807", "-9223372036854775808"]),
    "fare|0", "fare|0|-0", "order|0", "order|100000001", "refused|11", "refused|10|bad_field", "refused|0|bad_field",
    "refused|11|bad_field", "refused|37|unknown_region",
    "refused|38|system_missing", "refused|39|system_missing", "refused|39|unknown_name", "refused|40|unknown_name",
]


def replied(file, replies):
    """Changes the replies that are kept of the office's requests r0, r1 and so on, from outside."""
    with contextlib.closing(sqlite3.connect(file, isolation_level=None)) as base:
        base.execute("PRAGMA synchronous = OFF")
        base.execute("BEGIN")
        for at, reply in enumerate(replies):
            done = base.execute(
                "UPDATE history SET reply = ? WHERE caller = 'office' AND req_key = ?",
                (reply.replace("|", "\t"), f"r{at}"),
            )
            assert done.rowcount == 1, at
        base.execute("COMMIT")
        base.execute("PRAGMA wal_checkpoint(TRUNCATE)").fetchall()


def asked(program, count):
    """The file after so many requests r0, r1 and so on, each of which adds a rider, and their lines."""
    lines = b"".join(b"0\toffice\tr%d\tadd-rider\t%d\n" % (at, at + 1) for at in range(count))
    assert program.run("lines", "city.db", given=lines) == (0, b"ok\n" * count, b"")
    return Path(program.folder, "city.db"), lines


def test_replies_are_read_back(program):
    """What is kept as a reply is the answer where its request comes again, as a line and over HTTP."""
    texts, bodies = zip(*REPLIES)
    file, lines = asked(program, len(texts))
    replied(file, texts)
    is_sound(program)
    wanted = "".join(f"{text}\n" for text in texts).replace("|", "\t").encode()
    assert program.run("lines", "city.db", given=lines) == (0, wanted, b"")
    holds(program, [(office(f"r{at}", f"add-rider\t{at + 1}"), answer(200, body)) for at, body in enumerate(bodies)])


def test_other_texts_are_no_replies(program):
    file, _ = asked(program, 1)
    found = {}
    for text in NO_REPLIES:
        replied(file, [text])
        found[text] = program.run("check", "city.db")
    wrong = {text: ended for text, ended in found.items() if ended != (5, b"", b"unsound history 1\n")}
    assert not wrong, wrong


# ---- What is told of a city

# A rental that is recovered and refunded.
RECOVER = [("1700001800|office|r1|recover|1", "fare|125|2375"), ("1700001900|office|r2|refund|1|125", "balance|2500")]

# A disabled bicycle goes from a broken dock onto a truck for the depot.
CARRY = [
    *stored.BREAK,
    ("1699999200|office|h2|mark-bike|7|disabled", "ok"),
    ("1699999200|office|h3|open-order|3|a1|*|city|1", "order|2"),
    ("1699999200|crew:3|h4|load|3|2|7", "ok"),
]

DOCKED = '"fit","place":"dock","station":"a1","dock":1}'
RENTED = '{"rental":1,"rider":17,"bike":7,"plan":"basic","from":"a1","start":"2023-11-14T22:13:20Z","is_open":'
CARRIED_OUT = '{"order":1,"truck":3,"from":"*","to":"a1","type":"city","count":1,"delivered":1,"is_open":false}'
CARRIED = '{"order":2,"truck":3,"from":"a1","to":"*","type":"city","count":1,"delivered":0,"is_open":true}'

# What is served after the city stands, and what is told then: of bicycle 7 its state and place; the station's bicycles
# available and disabled, its docks available and disabled; rider 17's balance and open rental, or 0; rental 1; order 2.
TOLD = [
    ([], DOCKED, (1, 0, 0, 1), (2500, 0), None, None),
    (stored.START, '"fit","place":"rental","rental":1}', (0, 0, 1, 1), (2500, 1), RENTED + "true}", None),
    (
        stored.START + stored.END, DOCKED, (1, 0, 0, 1), (2400, 0),
        RENTED + 'false,"to":"a1","end":"2023-11-14T22:13:20Z","fare_cents":100,"refunded_cents":0}', None,
    ),
    (
        stored.START + RECOVER, '"disabled","place":"depot"}', (0, 0, 1, 1), (2500, 0),
        RENTED + 'false,"to":"*","end":"2023-11-14T22:43:20Z","fare_cents":125,"refunded_cents":125}', None,
    ),
    (stored.BREAK, DOCKED, (0, 1, 0, 2), (2500, 0), None, None),
    (CARRY, '"disabled","place":"truck","truck":3,"order":2}', (0, 0, 0, 2), (2500, 0), None, CARRIED),
]
NUMBERS = ["num_vehicles_available", "num_vehicles_disabled", "num_docks_available", "num_docks_disabled"]


def shown(body):
    """The answer that shows a row, or says that there is none."""
    return answer(200, body) if body else error(404)


def test_what_is_told_of_a_city(program):
    """The same is told where the file is opened again, and nothing of what isn't there."""
    for at, (served, bike, counts, (balance, rental), rented, carried) in enumerate(TOLD):
        name = f"city{at}.db"
        lines, answers = (stored.text(part) for part in zip(*stored.CITY, *served))
        assert program.run("lines", name, given=lines) == (0, answers, b""), served
        rows = {
            "/bikes/7": '{"bike":7,"type":"city","state":' + bike,
            "/riders/17": f'{{"rider":17,"state":"open","balance_cents":{balance},"rental":{rental}}}',
            "/rentals/1": rented, "/orders/1": CARRIED_OUT, "/orders/2": carried, "/bikes/8": None, "/riders/18": None,
            "/rentals/2": None, "/orders/3": None,
        }
        with Server(program, len(rows) + 2, name) as server:
            for target, body in rows.items():
                found = server.ask(get(target))
                assert found == shown(body), (served, target, found)
            (station,) = server.told("/gbfs/3.0/station_status.json")["data"]["stations"]
            assert station["vehicle_types_available"] == [{"vehicle_type_id": "city", "count": counts[0]}], (
                served, station
            )
            assert tuple(station[number] for number in NUMBERS) == counts, (served, station)
            plans = server.told("/gbfs/3.0/system_pricing_plans.json")["data"]["plans"]
            assert [plan["currency"] for plan in plans] == ["EUR"], served
