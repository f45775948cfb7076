"""deploy/bikeshare-doctor on request lines and on tables of stations: what it calls bad the program refuses, and what
it lets through the program takes. Its fields are those of the documents.
"""

import contextlib
import functools
import itertools
import math
import os
import random
import re
import time
import unittest.mock
from pathlib import Path

import formats
from doctor import BAD_FIELD, FOR_GOOD, FOR_NOW, NOW, SYSTEM, doctor, number_in, place_of, system_line
from shared import CITY, HEADER, TOP, requests_of


def doubted(data):
    """What is found in lines but for those that name what isn't there yet."""
    return [it for it in doctor.findings_of_lines(data, NOW) if not it.word.startswith("unknown_")]


# ---- the fields


@functools.cache
def samples():
    """Texts at the bounds of all kinds of fields, and beside them."""
    fields = [field for command in CITY for field in command.split("\t")]
    numbers = [0, 1, 8, 9, 10, 59, 60, 61, 200, 201, 499, 500, 501, 86_400, 86_401, 100_000, 100_001, 999_999]
    numbers += [1_000_000, 1_000_001, 100_000_000, 100_000_001, formats.LAST_MOMENT, formats.LAST_MOMENT + 1, 2**63]
    numbers += [10**20, 10**40]
    texts = ["", " ", "-", "*", "-0", "-1", "+1", "01", "00", "1.0", "1,5", "１", "1 ", " 1", "0x1", "1e3", "True"]
    texts += "a A a1 true false broken working disabled fit open blocked from to bicycle cargo_bicycle human".split()
    texts += "electric_assist system station type plan description region EUR eur EURO en de-CH ~".split()
    texts += ["x" * length for length in (35, 36, 37, 64, 65, 120, 121, 200, 201)] + ["é" * 60, "é" * 61]
    texts += ["\0", "a\0b", "\x1f", "\x7f", "\r", "a\n", "\\", "\\\\", "\\t", "\\n", "\\r", "\\x"]
    texts += ["\\\\" * 120, "\\\\" * 121]
    texts += "90 -90 90.000001 180 -180 180.000001 007 0.000001 1.0000000 .5 1. 1000 -0.000001 --1 45.1234567".split()
    texts += "30:25:5:- 0:-60:0:30;20:50:10:60 1:1:1:1 1:1:1:0 2:1:1:1 ; 1:1:1 0:-0:0:- 0:-100000:0:-".split()
    texts += "0:100001:0:- 100001:0:0:- 0:0:100000:100000".split()
    texts += ["0:0:0:-;" * 7 + "0:0:0:-", "0:0:0:-;" * 8 + "0:0:0:-"]
    return [*dict.fromkeys([*map(str, numbers), *texts, *fields])]


def test_fields_have_the_bounds_of_the_documents(program):
    """Of each field, and of moments, callers and keys, the same texts are good as in tests/formats.py."""
    assert {it.encode() for it in doctor.COMMANDS} == formats.COMMANDS.keys()
    for word, predicates in formats.COMMANDS.items():
        fields = doctor.fields_of(word.decode())
        assert len(fields) == len(predicates), word
        for (name, kind), is_good in zip(fields, predicates):
            for text in samples():
                assert (kind.fault(text) is None) == bool(is_good(text.encode())), (word, name, text, kind.fault(text))
    callers = "office office: office:a1 office:A office:a:b rider:1 rider:0 rider:1000000 crew:999999 crew:".split()
    callers += "dock:a1 dock:A import:x rider x:1".split()
    is_moment = formats.within(0, formats.LAST_MOMENT)
    for text in [*samples(), *callers, *(f"{kind}:{it}" for kind in ("dock", "office") for it in samples())]:
        assert (doctor.caller_fault(text) is None) == bool(formats.is_caller(text.encode())), text
        assert (doctor.KINDS["key"].fault(text) is None) == bool(formats.is_key(text.encode())), text
        assert (doctor.KINDS["moment"].fault(text) is None) == bool(is_moment(text.encode())), text


def test_fields_have_the_names_of_the_documents(program):
    """docs/OPERATOR.md names the fields of each command in this order; it writes words in place of a state."""
    rows = dict(re.findall(r"^\| \*\*([a-z-]+)\*\* \| (.*?) \| ", (TOP / "docs/OPERATOR.md").read_text(), re.M))
    assert rows.keys() == doctor.COMMANDS.keys(), rows.keys() ^ doctor.COMMANDS.keys()
    for word, row in rows.items():
        wanted = ["side" if "/" in it and word == "unload" else "state" if "/" in it else it for it in row.split()]
        assert [name for name, _ in doctor.fields_of(word)] == wanted, (word, wanted)


def test_hints_on_money(program):
    """Only where money is wanted it is told that this is in hundredths."""
    line = f"{NOW}\toffice\tk\t"
    for command, is_money in (
        ("add-plan\tday\tDay\t2.50\tfalse\tBy day\t-", True), ("top-up\t17\t2,50", True), ("refund\t1\t2.0", True),
        ("add-plan\tday\tDay\t2\tfalse\tBy day\t30:-2.5:5:-", True), ("add-docks\ta1\t2.0", False),
        ("add-station\ta1\tHarbour\t41.8\t12.4\t2.0", False), ("mark-dock\ta1\t1.5\tbroken", False),
        ("add-plan\tday\tDay\t2\tfalse\tBy day\t0.5:25:5:-", False), ("add-truck\t3\t2,5", False),
    ):
        (found,) = doctor.findings_of_lines((line + command).encode(), NOW)
        assert ("hundredths" in found.text) == is_money and found.word == BAD_FIELD, (command, found)
    (found,) = doctor.findings_of_table((HEADER + "c2,Corso,45,9.1,2.0\n").encode())
    assert "hundredths" not in found.text, found


# ---- request lines

ASKED = b"1700000000\toffice\tk\t"
# A line that is answered bad_field, and where that is found.
BAD_LINES = (
    (b"", ""),
    (b"   ", ""),
    (b"# a comment", ""),
    (b"1700000000 office k add-rider 17", ""),
    (b"1700000000\toffice\tk", ""),
    (ASKED + b"add-rider\t17\r", ""),
    (b"\xef\xbb\xbf1700000000\toffice\tk\tadd-rider\t17", ", moment"),
    (ASKED + b"add-region\tnorth\tNor\xff", ""),
    (ASKED + b"add-region\tnorth\t" + b"\\n" * 2100, ""),
    (b"17000000000000\toffice\tk\tadd-rider\t17", ", moment"),
    (b"01\toffice\tk\tadd-rider\t17", ", moment"),
    (b"1700000000\tstaff\tk\tadd-rider\t17", ", caller"),
    (b"1700000000\trider:0\tk\tadd-rider\t17", ", caller"),
    (b"1700000000\toffice\ta b\tadd-rider\t17", ", key"),
    (ASKED + b"add-staton\ta1\tHarbour\t41.8\t12.4\t2", ", command"),
    (ASKED + b"add-station\ta1\tHarbour\t41.8\t12.4", ", command"),
    (ASKED + b"add-station\tA1\tHarbour\t41.8\t12.4\t2", ", station"),
    (ASKED + b"add-station\ta1\t\t41.8\t12.4\t2", ", name"),
    (ASKED + b"add-station\ta1\tHar\\bour\t41.8\t12.4\t2", ", name"),
    (ASKED + b"add-station\ta1\tHarbour\t91\t12.4\t2", ", lat"),
    (ASKED + b"add-station\ta1\tHarbour\t41,8\t12.4\t2", ", lat"),
    (ASKED + b"add-station\ta1\tHarbour\t41.8901691\t12.4\t2", ", lat"),
    (ASKED + b"add-station\ta1\tHarbour\t41.8\t181\t2", ", lon"),
    (ASKED + b"add-station\ta1\tHarbour\t41.8\t12.4\t501", ", docks"),
    (ASKED + b"add-type\tcity\tCity\tbicycle\thuman\t5\tbasic", ", range"),
    (ASKED + b"add-type\tcity\tCity\tbicycle\telectric_assist\t0\tbasic", ", range"),
    (ASKED + b"add-type\tcity\tCity\ttandem\thuman\t0\tbasic", ", form"),
    (ASKED + b"add-plan\tday\tDay\t2.50\tfalse\tBy day\t-", ", price"),
    (ASKED + b"add-plan\tday\tDay\t250\tno\tBy day\t-", ", taxable"),
    (ASKED + b"add-plan\tday\tDay\t250\tfalse\tBy day\t30:25:5:30", ", segments"),
    (ASKED + b"set-system\tmetro\ten\tMetro\t24/7\tx@example.org\tEtc/UTC\tEuro\thttps://x.example\t30", ", currency"),
    (ASKED + b"set-system\tmetro\ten\tMetro\t24/7\tx@example.org\tEtc/UTC\tEUR\thttps://x.example\t86401", ", ttl"),
    (ASKED + b"set-system\tm\ten\tM\tt\xc3\xa4glich\tx@x.example\tEtc/UTC\tEUR\thttps://x.de\t1", ", opening_hours"),
    (ASKED + b"add-name\tcolour\ta1\tde\tHafen", ", kind"),
    (ASKED + b"add-name\tsystem\tother\tde\tRad", ", id"),
    (ASKED + b"set-name\tcolour\ta1\tde\tHafen", ", kind"), (ASKED + b"set-name\tsystem\tother\ten\tRad", ", id"),
    (ASKED + b"set-name\tstation\ta1\tde", ", command"), (ASKED + b"set-name\tstation\ta1\td\tHafen", ", language"),
    (ASKED + b"set-name\tplan\tbasic\ten\t", ", name"), (ASKED + b"set-name\tregion\tNorth\ten\tNorth", ", id"),
    (ASKED + b"remove-name\tname\ta1\tde", ", kind"), (ASKED + b"remove-name\tsystem\tother\tde", ", id"),
    (ASKED + b"remove-name\tstation\ta1\tde\tHafen", ", command"),
    (ASKED + b"remove-name\ttype\tcity\td_e", ", language"),
    (ASKED + b"rename-station\ta1\tHaven", ", command"),
    (ASKED + b"change-system\tMetro\t24/7\tx@example.org\tEtc/UTC\tEUR\thttps://x.example\t30", ", command"),
    (ASKED + b"change-system\tMetro\t24/7\tx@example.org\tEtc/UTC\thttps://x.example\t86401", ", ttl"),
    (ASKED + b"change-system\t\t24/7\tx@example.org\tEtc/UTC\thttps://x.example\t30", ", name"),
    (ASKED + b"move-station\ta1\t91\t12.4", ", lat"),
    (ASKED + b"move-station\ta1\tHarbour\t41.8\t12.4", ", command"),
    (ASKED + b"add-docks\ta1\t501", ", count"), (ASKED + b"add-docks\ta1\t0", ", count"),
    (ASKED + b"unload\t3\t1\t7\tto\t501", ", n"),
    (ASKED + b"open-order\t3\t*\ta1\tcity\t61", ", count"),
)


def bad_lines(data):
    """The numbers of the lines that are found to be bad_field."""
    return {number_in(it.where) for it in doctor.findings_of_lines(data, NOW) if it.word == BAD_FIELD}


def test_lines_that_are_answered_bad_field(program):
    """Each is found, with its field, and the program answers it so."""
    data = b"".join(line + b"\n" for line in [SYSTEM, *(line for line, _ in BAD_LINES)])
    found = {place_of(it) for it in doctor.findings_of_lines(data, NOW)}
    for number, (line, field) in enumerate(BAD_LINES, 2):
        assert (f"line {number}{field}", BAD_FIELD) in found, (line, field, found)
    status, answers, _ = program.run(given=data)
    assert (status, set(answers.splitlines()[1:])) == (0, {b"refused\t11\tbad_field"}), answers
    with_mark = b"\xef\xbb\xbf" + SYSTEM
    assert [place_of(it) for it in doctor.findings_of_lines(with_mark, NOW)][0] == ("line 1", BAD_FIELD)
    assert program.run(given=with_mark)[1] == b"refused\t11\tbad_field\n"


def test_lines_in_utf16(program):
    """They are told by one finding, as such a table is."""
    given, table = SYSTEM + requests_of(CITY[1:]), (TOP / "examples/city/stations.csv").read_text()
    for coded in "utf-16", "utf-16-le", "utf-16-be":
        lines, rows = given.decode().encode(coded), table.encode(coded)
        assert [(*place_of(it), it.text) for it in doctor.findings_of_lines(lines, NOW)] == [
            ("input", BAD_FIELD, "it is saved as UTF-16. Save it as UTF-8.")
        ], coded
        (found,) = doctor.findings_of_table(rows)
        assert place_of(found) == ("header", "bad header") and "saved as UTF-16" in found.text, found
        assert set(program.run(given=lines)[1].splitlines()) == {b"refused\t11\tbad_field"}, coded
        assert program.run("import", ":memory:", "x", given=rows)[2] == b"bad header\n", coded
    for data in b"", b"a", b"a\0b\0", b"\0" * 40, b"17\0\0" * 20, given:
        assert not any("UTF-16" in it.text for it in doctor.findings_of_lines(data, NOW)), data


def test_lines_and_their_answers(program):
    """Of all lines beside these tests, and of the example city, those are found whose wanted answer is bad_field. No
    others are, but ones that are refused for their key."""
    tried = 0
    for file in sorted((TOP / "tests/lines").glob("*.in")):
        tried += finds_the_refused(file.read_bytes(), file.with_suffix(".out").read_bytes(), file.name)
    city = [TOP / "examples/city" / it for it in ("setup", "regions", "names", "morning")]
    given, wanted = (b"".join(file.with_suffix(suffix).read_bytes() for file in city) for suffix in (".in", ".out"))
    tried += finds_the_refused(given, wanted, "the example city")
    assert tried > 200, tried


def finds_the_refused(given, answers, name):
    """Holds what is found in lines to their answers, and returns how many of those are bad_field."""
    answers = answers.splitlines()
    wanted = {number for number, it in enumerate(answers, 1) if it == b"refused\t11\tbad_field"}
    found = bad_lines(given)
    assert wanted <= found, (name, sorted(wanted - found))
    others = {answers[number - 1] for number in found - wanted}
    assert others <= {b"refused\t33\tkey_reused"}, (name, sorted(found - wanted))
    return len(wanted)


def test_lines_that_are_changed_anywhere(program):
    """Lines with a byte taken away, put in or changed: those are found that the program answers bad_field."""
    rnd = random.Random(1)
    more = ["add-region\tnorth\tNor\\\\d", "add-name\tstation\ta1\tde\tHafen", "move-station\ta1\t41.9\t12.5"]
    more += ["add-docks\ta1\t10", "set-name\tstation\ta1\ten\tHa\\\\ven", "remove-name\tstation\ta1\tde"]
    more.append("change-system\tMetro\t24/7\tx@example.org\tEtc/UTC\thttps://x.example\t60")
    good = requests_of([*CITY, *more]).splitlines()
    put_in = [it.encode() for it in ("", "\t", "0", "-", " ", "A", "\\", "9", ".", "\r", ":", ";")] + [b"\xc3"]
    lines = [SYSTEM]
    while len(lines) < 600:
        line = bytearray(rnd.choice(good))
        for _ in range(rnd.choice((1, 1, 2))):
            at = rnd.randrange(len(line))
            line[at : at + rnd.choice((0, 1))] = rnd.choice(put_in)
        lines.append(bytes(line))
    data = b"".join(it + b"\n" for it in lines)
    status, answers, _ = program.run(given=data)
    refused = {number for number, it in enumerate(answers.splitlines(), 1) if it == b"refused\t11\tbad_field"}
    found = bad_lines(data)
    assert status == 0 and 200 < len(refused) < 600, len(refused)
    assert found == refused, [(number, lines[number - 1]) for number in sorted(found ^ refused)[:5]]


def station_lines(*places):
    """Stations at these places, as lines."""
    commands = [f"add-station\ts{at}\tStation\t{lat}\t{lon}\t5" for at, (lat, lon) in enumerate(places, 1)]
    return "\n" + requests_of(commands, at=NOW, key="s").decode()


# A field of set-system with a value that shouldn't stand, and a word of what is said. Those alone that neither
# change-system nor set-name has can't be taken back.
LASTING = ("language", "currency")
DOUBTFUL = (
    ("base_url", "foo", "http"), ("base_url", "BASE_URL", "http"), ("base_url", "ftp://x.example", "http"),
    ("base_url", "https://x.example/", "ends in /"),
    ("base_url", "https://x.example/gbfs/", "put behind"), ("base_url", "https://x.example/gbfs/3.0//", "put behind"),
    ("base_url", "https://x.example/gbfs/3.0", "put behind"), ("base_url", "https://x.example?a=1", "put behind"),
    ("base_url", "http://", "names no host"), ("base_url", "https:///gbfs/3.0", "names no host"),
    ("base_url", "HTTPS://x.example", "Write https in small letters"),
    ("base_url", "Http://x.example/", "Write http in small letters"),
    ("base_url", "http://127.0.0.1:8080", "this machine"), ("base_url", "http://localhost", "this machine"),
    ("base_url", "http://[::1]:8080", "this machine"),
    ("base_url", "http://localhost.", "this machine"), ("base_url", "http://0.0.0.0:8080", "this machine"),
    ("base_url", "https://10.0.0.3", "private network"), ("base_url", "https://192.168.1.5:8443", "private network"),
    ("base_url", "https://172.31.0.1/bikes", "private network"), ("base_url", "http://169.254.1.1", "private network"),
    ("base_url", "https://[fd00::1]:8443", "private network"), ("base_url", "https://[fe80::1]", "private network"),
    ("base_url", "https://[::ffff:10.0.0.3]", "private network"), ("base_url", "https://lyon", "without a point"),
    ("base_url", "https://lyon.:8443/bikes", "without a point"), ("base_url", "https://u:pw@lyon.example", "password"),
    ("base_url", "https://u@lyon.example/", "password"), ("base_url", "http://lyon.example", "https://lyon.example,"),
    ("base_url", "http://192.0.2.1:8080", "not every planner follows"),
    ("base_url", "http://lyon.example/", "ends in /"),
    ("base_url", "https://:8080", "names no host"),
    ("base_url", "https://metro.example:99999", "has the port '99999'"),
    ("base_url", "https://metro.example:", "has the port ''"),
    ("base_url", "https://metro.example:0/x", "has the port '0'"),
    ("base_url", "https://[2001:db8::1]8443", "between the ] and its end"),
    ("base_url", "https://metro..example", "nothing between"), ("base_url", "https://.x.example/", "nothing between"),
    ("base_url", "https://x.example..:8080", "nothing between"), ("base_url", "https://-metro.example", "has a - at"),
    ("base_url", "https://metro-.example/bikes", "has a - at"), ("base_url", "https://bikes.-", "has a - at"),
    ("base_url", f"https://{'a' * 64}.example", "more than 63"), ("base_url", "https://metro_bikes.example", "letters"),
    ("base_url", "https://metro%20.example", "letters, digits, - and points"),
    ("language", "e-", "BCP 47"), ("language", "xx", "BCP 47"),
    ("language", "english", "BCP 47"),
    ("language", "eng", "Write en."), ("language", "ENG", "Write en."), ("language", "ger-AT", "Write de-AT."),
    ("language", "deu-ch", "Write de-CH."), ("language", "eng-UK", "Write en-GB."), ("language", "spa", "Write es."),
    ("language", "en-UK", "the region UK, which is none of ISO 3166, so readers may not know it. Write en-GB."),
    ("language", "en-uk", "Write en-GB."), ("language", "de-EU", "the region EU, "), ("language", "de-XX", "Write de."),
    ("language", "cs-CS", "the region CS, "), ("language", "fr-ZZ", "the region ZZ, "),
    ("language", "EN", "only in its case"), ("language", "de-ch", "only in its case"),
    ("language", "zh-hant", "validators"), ("language", "zh-Hant", "validators"), ("language", "es-419", "validators"),
    ("language", "de-CH-1996", "validators"), ("language", "x-bikes", "validators"), ("name", " ", "spaces"),
    ("name", "\\t", "spaces"), ("name", " Metro", "begins or ends"), ("name", "\u200b", "can be seen"),
    ("name", "HÃ´tel", "Is it 'Hôtel'?"), ("name", "Gare de lâ€™Est", "Is it 'Gare de l’Est'?"),
    ("name", "HÃƒÂ´tel", "Is it 'Hôtel'?"), ("name", "Ã‰cole", "Is it 'École'?"),
    ("name", "KÃ¶ln â€“ Dom", "'Köln – Dom'"),
    ("name", "ÐœÐ¾Ñ\x81ÐºÐ²Ð°", "Is it 'Москва'?"), ("name", "æ\x9d±äº¬", "Is it '東京'?"),
    ("name", "H&ocirc;tel", "Is it 'Hôtel'?"), ("name", "L&#39;Opéra", """Is it "L'Opéra"?"""),
    ("name", "A &amp; B", "Is it 'A & B'?"), ("name", "H&amp;ocirc;tel", "Is it 'Hôtel'?"),
    ("name", "H&#xF4;tel", "Is it 'Hôtel'?"),
    ("name", "H\ufffdtel", "lost a character"), ("name", "Hï¿½tel", "lost a character"),
    ("name", '"Hôtel"', "Is it 'Hôtel'?"), ("name", '"The ""Ritz"""', "Is it 'The \"Ritz\"'?"),
    ("name", '"HÃ´tel"', "Is it 'Hôtel'?"), ("name", "Hô\u200btel", "without width"),
    ("name", "\ufeffHôtel", "Is it 'Hôtel'?"), ("name", "Hôtel\u200d", "Is it 'Hôtel'?"),
    ("name", "Hô\u200ctel", "width"), ("name", "&nbsp;", "Write the name"),
    ("name", "\u2060\u3164", "can be seen"), ("name", "Met\\nro", "U+000A"), ("name", "Metro\x1b[1m", "U+001B"),
    ("opening_hours", "whenever", "opening_hours"), ("opening_hours", "Mo-Fr 25:00-99:00", "99:00"),
    ("opening_hours", "Mo-Fr 06:00-22:60", "22:60"), ("opening_hours", "27:00-28:00", "27:00"),
    ("opening_hours", "8:00-100:00", "100:00"),
    ("opening_hours", "-", "opening_hours"),
    ("feed_contact_email", "not-an-email", "address"), ("feed_contact_email", "a@b", "address"),
    ("timezone", "Mars/Base", "time zone"),
    ("timezone", "europe/rome", "Europe/Rome"), ("timezone", "CET-1CEST,M3.5.0,M10.5.0/3", "time zone"),
    ("currency", "ZZZ", "ISO 4217"), ("currency", "BGN", "EUR is in its place. Write EUR."),
    ("currency", "ANG", "XCG is in its place. Write XCG."), ("currency", "HRK", "Write EUR."),
    ("currency", "ZWL", "Write ZWG."), ("base_url", "https://lyon.example//bikes", "holds //"),
)
# And ones of which nothing is found.
FREE_OF_DOUBT = (
    ("base_url", "https://bikes.example:8080"), ("base_url", "https://example.org/bikes"), ("language", "de-CH"),
    ("base_url", "https://172.32.0.1"), ("base_url", "https://11.0.0.3"), ("base_url", "https://x.example/@home"),
    ("base_url", "https://metro.example."), ("base_url", "https://xn--mnchen-3ya.example"), ("language", "en-GB"),
    ("base_url", f"https://{'a' * 63}.example"), ("base_url", "https://192.0.2.1:8080"), ("language", "sq-XK"),
    ("base_url", "https://[2001:db8::1]:8080/bikes"), ("base_url", "https://a-b.3com.example"), ("language", "uk"),
    ("name", "Hôtel de Ville"), ("name", "Málaga"), ("name", "«CAFÉ»"), ("name", "CAFÉ’S"), ("name", "MALMÖ’S"),
    ("name", "São João – Ñuñoa"), ("name", "東京"), ("name", "R&D; Park"), ("name", "A & B"), ("name", "Caf&eacute"),
    ("name", '"A" and "B"'), ("name", 'The "Ritz"'), ("name", "“Ritz”"), ("name", "می\u200cدان"), ("name", "Ã"),
    ("name", "👩\u200d🚀"), ("name", "क\u094d\u200dष"), ("language", "haw"), ("name", "24"),
    ("name", "\u2067Metro\u2069"),
    ("opening_hours", "Fr 20:00-26:00"),
    ("opening_hours", "Mo-Fr 06:00-22:00; Sa,Su,PH 08:00-20:00"),
    ("opening_hours", "sunrise-sunset"), ("opening_hours", 'Apr-Oct 06:00-24:00 "in summer"'),
    ("feed_contact_email", "o'neil+gbfs@mail.example.org"),
    ("timezone", "Etc/UTC"), ("timezone", "America/Argentina/Buenos_Aires"), ("currency", "CHF"), ("currency", "XCG"),
)


def test_names_of_hosts(program):
    """A host has at most 253 characters, of which a base_url isn't long enough for more than some 190."""
    longest = ".".join(["a" * 63] * 3 + ["b" * 61])
    assert len(longest) == 253 and doctor.host_fault(longest) is None and doctor.host_fault(longest + ".") is None
    assert "253" in doctor.host_fault(f"{longest}b") and "253" in doctor.base_url_doubt(f"https://{longest}b/x")
    assert doctor.host_fault("a." * 127) is None and "253" in doctor.host_fault("a." * 127 + "b")


def test_hints_on_time_zones(program):
    """For a name that no time zone has, the one of that city is asked for, or one that is spelled nearly so; and else
    it is told where the zones of a country stand."""
    for name, wanted in (
        ("europe/rome", "Write Europe/Rome"), ("Europe/Lyon", "Is it Europe/Paris?"), ("Lyon", "Is it Europe/Paris?"),
        ("Europe/Milan", "Is it Europe/Rome?"), ("Asia/Mumbai", "Is it Asia/Kolkata?"), ("Rome", "Is it Europe/Rome?"),
        ("America/San Francisco", "Is it America/Los_Angeles?"), ("Europe/Londn", "Is it Europe/London?"),
        ("Europe/Berln", "Is it Europe/Berlin?"), ("Europe/Barcelone", "Is it Europe/Madrid?"),
        ("Africa/Paris", "Is it Europe/Paris?"), ("Europe/New_York", "Is it America/New_York?"),
        ("Canada/Montreal", "Is it America/Toronto?"),
    ):
        doubt = doctor.zone_doubt(name)
        assert doubt.startswith("is a time zone that this machine doesn't know. ") and wanted in doubt, (name, doubt)
    posix = "CET-1CEST,M3.5.0,M10.5.0/3"
    for name in "Mars/Base", "GMT+1", "CEST", posix, "Europe/Lorient", "Europe/Xyz", "/", "Europe/":
        doubt = doctor.zone_doubt(name)
        assert "Is it" not in doubt and "Write one of its names, such as Europe/Rome" in doubt, (name, doubt)
        assert ("grep FR " in doubt) == os.path.exists(doctor.ZONES_OF_COUNTRIES), doubt
    with unittest.mock.patch.object(doctor, "ZONES_OF_COUNTRIES", "/nowhere"):
        assert doctor.zone_doubt("Mars/Base").endswith(" such as Europe/Rome")
    assert set(doctor.ZONE_OF.values()) <= doctor.known_zones(), set(doctor.ZONE_OF.values()) - doctor.known_zones()
    assert len(doctor.ZONE_OF) > 90, len(doctor.ZONE_OF)


def test_codes_of_languages(program):
    """Each language that has a code of two letters is told where it stands by a longer one, and so with a region. The
    regions are those of the time zones of this machine, where it has a list."""
    assert len(doctor.CODES) == 2 * 184 and len(doctor.SHORTER) == 204
    for longer, code in doctor.SHORTER.items():
        assert len(longer) == 3 and len(code) == 2 and doctor.language_doubt(code) is None, code
        for tag, wanted in (longer, code), (f"{longer}-CH", f"{code}-CH"), (longer.upper(), code):
            assert doctor.language_doubt(tag).endswith(f"Write {wanted}"), tag
    assert len(doctor.REGIONS) == 250
    for it in doctor.REGIONS:
        assert doctor.language_doubt(f"en-{it}") is None and "case" in doctor.language_doubt(f"en-{it.lower()}"), it
    with contextlib.suppress(FileNotFoundError):
        found = set(re.findall("^([A-Z]{2})\t", Path("/usr/share/zoneinfo/iso3166.tab").read_text(), re.M))
        assert doctor.REGIONS - {"XK"} == found, doctor.REGIONS ^ found


def test_currencies_that_ended(program):
    """Each has another in its place, which is in use."""
    assert len(doctor.SUCCESSORS) == 55 and not doctor.SUCCESSORS.keys() & doctor.CURRENCIES
    assert set(doctor.SUCCESSORS.values()) <= doctor.CURRENCIES
    assert all(re.fullmatch("[A-Z]{3}", it) for it in [*doctor.SUCCESSORS, *doctor.CURRENCIES])


def test_lines_of_the_example(program):
    """Nothing is found in the lines that the package gives as an example of a city's first ones."""
    assert not doctor.findings_of_lines((TOP / "deploy/begin.txt").read_bytes(), int(time.time()))


def test_lines_that_cannot_be_taken_back(program):
    """Each is found with its field; so is no other; and the program accepts all of them."""
    for field, value, word in DOUBTFUL:
        found = doctor.findings_of_lines(system_line(**{field: value}).encode(), NOW)
        wanted = FOR_GOOD if field in LASTING else FOR_NOW
        assert [place_of(it) for it in found] == [(f"line 1, {field}", wanted)], (field, value, found)
        assert word in found[0].text, (field, value, found)
        assert ("set-name" in found[0].text) == (field == "name"), (field, value, found)
    for field, value in FREE_OF_DOUBT:
        found = doctor.findings_of_lines(system_line(**{field: value}).encode(), NOW)
        assert not found, (field, value, found)
    worst = {field: value for field, value, _ in reversed(DOUBTFUL)}
    lines = system_line(**worst) + f"\n{NOW}\toffice\tk2\tadd-name\tsystem\tmetro\tDE\t  "
    found = {place_of(it) for it in doctor.findings_of_lines(lines.encode(), NOW)}
    wanted = {(f"line 1, {it}", FOR_GOOD if it in LASTING else FOR_NOW) for it in worst}
    assert found == wanted | {("line 2, language", FOR_NOW), ("line 2, name", FOR_NOW)}, found
    assert program.run(given=lines.encode()) == (0, b"ok\nok\n", b"")


def test_further_names_of_lines(program):
    """Where change-system gives another name, it is told that those in further languages stay; and a tag is told that
    validators refuse."""
    commands = ["add-name\tsystem\tmetro\tde\tRad"]
    commands += ["change-system\tRoma\t24/7\tx@example.org\tEtc/UTC\thttps://x.example\t60"]
    commands += ["add-name\tsystem\tmetro\tde\tRoma", "add-name\tsystem\tmetro\ten\tRoma"]
    commands += ["add-plan\tday\tDay\t250\tfalse\tBy day\t-", "add-name\tplan\tday\tfr\tJour"]
    commands += ["add-name\tplan\tday\tzh-Hant\t日"]
    lines = f"{system_line()}\n".encode() + requests_of(commands, at=NOW, key="n")
    found = doctor.findings_of_lines(lines, NOW)
    assert [place_of(it) for it in found] == [("line 3, name", FOR_NOW), ("line 8, language", FOR_NOW)], found
    assert "further languages (de) stay" in found[0].text and "set-name changes them" in found[0].text, found
    assert "en, de-CH" in found[1].text and "remove-name" in found[1].text, found
    alike = requests_of(["change-system\tMetro\t24/7\tx@example.org\tEtc/UTC\thttps://x.example\t60"], at=NOW, key="m")
    first = f"{system_line()}\n".encode() + requests_of(commands[:1], at=NOW, key="n")
    assert doctor.findings_of_lines(first + alike, NOW) == []
    answers = program.run(given=lines)[1].splitlines()
    assert answers == [*[b"ok"] * 3, *[b"refused\t10\talready_there"] * 2, *[b"ok"] * 3], answers


def test_tags_of_the_own_language(program):
    """Of feeds, remove-name is told of further languages alone: the program refuses it of the system's own."""
    for own, further, wanted in (
        ("EN", [], [(True, False)]), ("zh-Hans", ["de"], [(True, False)]), ("en", ["DE"], [(False, True)]),
        ("EN", ["en"], [(True, False), (True, True)]), ("EN", ["zh-Hans"], [(True, False), (False, True)]),
        ("en", ["de"], []), ("zz", ["de-UK", "eng"], [(False, True), (False, True), (True, False)]),
    ):
        feeds = doctor.Feeds("https://x.example", NOW)
        feeds.data = {"system_information": {"languages": [own, *further]}}
        feeds.see_languages()
        found = [("stays for good" in it.text, "goes by remove-name" in it.text) for it in feeds.found]
        assert found == wanted, (own, further, feeds.found)
    lines = f"{system_line(language='EN')}\n{NOW}\toffice\tk2\tremove-name\tsystem\tmetro\tEN"
    assert program.run(given=lines.encode())[1].startswith(b"ok\nrefused\t39\t")


def test_names_that_lines_correct(program):
    """A name in a further language that changes or goes later isn't told any more where the system's own changed. Of
    fields of names a language is doubted where one comes, and what is said tells how a name is corrected."""
    change = "change-system\tRoma\t24/7\tx@example.org\tEtc/UTC\thttps://x.example\t60"
    begin = ["add-name\tsystem\tmetro\tde\tRad", "add-name\tsystem\tmetro\tfr\tVelo", change]
    for more, wanted in (
        ([], "(de, fr)"), (["set-name\tsystem\tmetro\tde\tRom"], "(fr)"), (["remove-name\tsystem\tmetro\tfr"], "(de)"),
        (["set-name\tsystem\tmetro\tde\tRom", "remove-name\tsystem\tmetro\tfr"], None),
        (["set-name\tsystem\tmetro\ten\tMetro"], "(de, fr)"), (["set-name\tstation\tmetro\tde\tRom"], "(de, fr)"),
        (["remove-name\tsystem\tmetro\ten"], "(de, fr)"), (["set-name\tsystem\tmetro\tDE\tRom"], "(de, fr)"),
    ):
        lines = f"{system_line()}\n".encode() + requests_of([*begin, *more], at=NOW, key="n")
        found = doubted(lines)
        assert [place_of(it) for it in found] == [("line 4, name", FOR_NOW)] * bool(wanted), (more, found)
        assert not wanted or f"further languages {wanted} stay" in found[0].text, (more, found)
    # The further one went before: the own one may change.
    gone = ["remove-name\tsystem\tmetro\tde", "remove-name\tsystem\tmetro\tfr"]
    lines = f"{system_line()}\n".encode() + requests_of([*begin[:2], *gone, change], at=NOW, key="n")
    assert doctor.findings_of_lines(lines, NOW) == []
    assert program.run(given=lines) == (0, b"ok\n" * 6, b"")
    # An own name that set-name gave is the one that change-system may give again.
    same = ["set-name\tsystem\tmetro\ten\tRoma", *begin]
    lines = f"{system_line()}\n".encode() + requests_of(same, at=NOW, key="n")
    assert doctor.findings_of_lines(lines, NOW) == []
    amiss = ["add-name\tsystem\tmetro\tDE\tRad", "set-name\tsystem\tmetro\tDE\tVÃ©lo"]
    amiss.append("remove-name\tsystem\tmetro\tDE")
    lines = f"{system_line()}\n".encode() + requests_of(amiss, at=NOW, key="n")
    found = doctor.findings_of_lines(lines[: lines.rindex(b"\n", 0, -1) + 1], NOW)
    assert [place_of(it) for it in found] == [("line 2, language", FOR_NOW), ("line 3, name", FOR_NOW)], found
    assert found[0].text.endswith(doctor.FURTHER_AMISS) and "Is it 'Vélo'?" in found[1].text, found
    assert found[1].text.endswith(doctor.NAME_AMISS), found
    assert doctor.findings_of_lines(lines, NOW) == [] and program.run(given=lines) == (0, b"ok\n" * 4, b"")


GOOD = "Metro\t24/7\tfeeds@example.org\tEurope/Rome\thttps://bikes.example\t60"
WRONG = {
    "name": "HÃ´tel", "opening_hours": "whenever", "feed_contact_email": "x", "timezone": "Mars/Base",
    "base_url": "http://10.0.0.3",
}
STATION, PLAN = "add-station\ta1\tHÃ´tel\t41.9\t12.5\t5", "add-plan\tday\tHÃ´tel\t250\tfalse\tHÃ´tel\t-"
TYPE, REGION = "add-type\tcity\tHÃ´tel\tbicycle\thuman\t0\tday", "add-region\ta1\tHÃ´tel"
# Fields of set-system that are amiss, lines behind it, and where something is still doubted. The last line is refused
# where None stands behind that.
MENDED = (
    (WRONG, [], [f"1, {it}" for it in WRONG]), (WRONG, [f"change-system\t{GOOD}"], []),
    ({**WRONG, "language": "EN", "currency": "ANG"}, [f"change-system\t{GOOD}"], ["1, language", "1, currency"]),
    (WRONG, [f"change-system\t{GOOD}".replace("https", "http")], ["2, base_url"]),
    (WRONG, [f"change-system\t{GOOD}".replace("Metro", "MÃ´")], ["2, name"]),
    (WRONG, ["set-name\tsystem\tmetro\ten\tMetro"], [f"1, {it}" for it in list(WRONG)[1:]]),
    (WRONG, ["set-name\tsystem\tmetro\tde\tMetro"], [f"1, {it}" for it in WRONG], None),
    (WRONG, ["remove-name\tsystem\tmetro\ten"], [f"1, {it}" for it in WRONG], None),
    (WRONG, ["set-name\tsystem\tother\ten\tMetro"], [*(f"1, {it}" for it in WRONG), "2, id"], None),
    (WRONG, [f"change-system\t{GOOD}000000"], [*(f"1, {it}" for it in WRONG), "2, ttl"], None),
    ({}, [STATION], ["2, name"]), ({}, [STATION, "set-name\tstation\ta1\ten\tHôtel"], []),
    ({}, [STATION, "set-name\tstation\ta1\ten\tHÃ´tel 2"], ["3, name"]),
    ({}, [STATION, "set-name\tstation\ta1\tde\tHotel"], ["2, name"], None),
    ({}, [STATION, "set-name\tstation\ta2\ten\tHotel"], ["2, name"], None),
    ({}, [STATION, "set-name\tregion\ta1\ten\tHotel"], ["2, name"], None),
    ({}, [STATION, "remove-name\tstation\ta1\ten"], ["2, name"], None),
    ({}, [STATION, REGION, "set-name\tregion\ta1\ten\tHotel"], ["2, name"]),
    ({}, [PLAN, "set-name\tplan\tday\ten\tHotel"], ["2, description"]),
    ({}, [PLAN, "set-name\tdescription\tday\ten\tHotel"], ["2, name"]),
    ({}, [PLAN, TYPE, "set-name\ttype\tcity\ten\tHotel"], ["2, name", "2, description"]),
    ({}, [STATION, "add-name\tstation\ta1\tDE\tHÃ´tel"], ["2, name", "3, language", "3, name"]),
    ({}, [STATION, "add-name\tstation\ta1\tDE\tHÃ´tel", "set-name\tstation\ta1\tDE\tHotel"],
     ["2, name", "3, language"]),
    ({}, [STATION, "add-name\tstation\ta1\tDE\tHÃ´tel", "remove-name\tstation\ta1\tDE"], ["2, name"]),
    ({}, [STATION, "add-name\tstation\ta1\tDE\tHÃ´tel", "remove-name\tstation\ta1\tde"],
     ["2, name", "3, language", "3, name"], None),
    ({}, ["set-name\tstation\ta1\ten\tHotel", STATION], ["3, name"]),
    ({}, [STATION.replace("41.9", "0").replace("12.5", "0"), "set-name\tstation\ta1\ten\tHotel"], ["2, lat and lon"]),
    ({}, [STATION.replace("41.9\t12.5", "0\t0").replace("HÃ´", "Ho"), "move-station\ta1\t41.9\t12.5"], []),
)


def test_doubts_that_later_lines_mend(program):
    """What a later line sets right isn't told any more, and what it sets amiss is told of that line. One that is
    refused mends nothing."""
    for fields, commands, wanted, *refused in MENDED:
        lines = f"{system_line(**fields)}\n".encode() + requests_of(commands, at=NOW, key="n")
        found = doubted(lines)
        assert sorted(it.where for it in found) == sorted(f"line {it}" for it in wanted), (commands, found)
        answers = program.run(given=lines)[1].splitlines()
        assert answers[-1].startswith(b"refused") == bool(refused), (commands, answers)
    # A key that another command has, and a line that comes again behind one that was answered.
    change = f"{NOW}\toffice\tk1\tchange-system\t{GOOD}"
    wrong = change.replace("k1", "k2").replace("https", "http")
    for rows, wanted in (
        ([system_line(**WRONG), change], [*(f"line 1, {it}" for it in WRONG), "line 2, key"]),
        ([system_line(), change.replace("k1", "k3"), wrong, change.replace("k1", "k3")], ["line 3, base_url"]),
    ):
        found = doctor.findings_of_lines("\n".join(rows).encode(), NOW)
        assert sorted(it.where for it in found) == sorted(wanted), (rows, found)


def test_moments_of_lines(program):
    """A moment more than a minute ahead of the clock, before the line above, or before 2015, is told. The program
    accepts all of them."""

    def found_at(*moments):
        data = "".join(f"{it}\toffice\tk{at}\tadd-rider\t{at}\n" for at, it in enumerate(moments, 1)).encode()
        return data, [it.where for it in doctor.findings_of_lines(data, NOW) if it.word == FOR_GOOD]

    assert found_at(NOW, NOW, NOW + 60)[1] == []
    assert found_at(NOW, NOW + 61)[1] == ["line 2, moment"]
    assert found_at(NOW, NOW - 1, NOW)[1] == ["line 2, moment"]
    assert "by 1 second. " in doctor.findings_of_lines(found_at(NOW, NOW - 1)[0], NOW)[0].text
    data, places = found_at(1_700_000_000, 17_000_000_300, 1_700_000_600, 1_700_000_700)
    assert places == ["line 2, moment", "line 3, moment"], places
    assert "2508-09-16T06:18:20Z" in doctor.findings_of_lines(data, NOW)[0].text
    for ahead, words, zone in (
        (90, "90 seconds", None), (1800, "30 minutes", "UTC+0:30"), (2400, "40 minutes", None),
        (3600, "60 minutes", "UTC+1"), (7200 - 540, "111 minutes", "UTC+2"), (7200 - 660, "109 minutes", None),
        (7230, "2 hours", "UTC+2"), (19_700, "5 hours", "UTC+5:30"), (50_400, "14 hours", "UTC+14"),
        (52_200, "14 hours", None), (86_400, "24 hours", None), (200_000, "2 days", None), (10**8, "3 years", None),
    ):
        (it,) = doctor.findings_of_lines(found_at(NOW + ahead)[0], NOW)
        assert f", {words} ahead of this machine's clock." in it.text, (ahead, it)
        hint = f"Correct the digits. It may be local time ({zone}) taken for UTC." if zone else "Correct the digits."
        assert it.text.endswith(hint), (ahead, it)
    assert program.run(given=data) == (0, b"ok\n" * 4, b"")
    for moments, wanted in (
        ((0,), [1]), ((20_260_101,), [1]), ((doctor.EARLY - 1,), [1]), ((doctor.EARLY,), []),
        ((1, 1, 1, 2, NOW), [1, 4]), ((NOW, 20_260_101, 20_260_101, 20_260_102), [2, 4]),
    ):
        data, places = found_at(*moments)
        assert places == [f"line {it}, moment" for it in wanted], (moments, places)
    data = found_at(20_260_101, 20_260_102)[0]
    first, second = (it.text for it in doctor.findings_of_lines(data, NOW))
    assert "is 1970-08-23T11:48:21Z, long ago" in first and "and no date: date +%s" in first and second != first, first
    assert "no date" not in doctor.findings_of_lines(found_at(20_261_301)[0], NOW)[0].text
    assert program.run(given=data) == (0, b"ok\n" * 2, b"")


def test_places_of_lines(program):
    """Coordinates at 0, 0, exchanged ones, and ones that are far away, where they are the last of their station."""
    rome = [(41.9, 12.5), (41.91, 12.49), (41.88, 12.52)]
    for places, wanted, word in (
        (rome, [], ""),
        ([*rome, (0, 0)], ["line 5, lat and lon"], "0, 0"),
        ([*rome, (12.5, 41.9)], ["line 5, lat and lon"], "exchanged"),
        ([*rome, (14.9, 12.5)], ["line 5, lat and lon"], "km from"),
        ([(lon, lat) for lat, lon in rome], ["line 2, lat and lon"], "exchanged"),
        ([(lon, lat) for lat, lon in rome[:1]], ["line 2, lat and lon"], "exchanged"),
        (rome[:1], [], ""),
    ):
        found = doctor.findings_of_lines((system_line() + station_lines(*places)).encode(), NOW)
        assert [place_of(it) for it in found] == [(it, FOR_NOW) for it in wanted], (places, found)
        assert all(word in it.text for it in found), (places, found)
    moved = (system_line() + station_lines(*rome, (0, 0))).encode() + requests_of(
        ["move-station\ts4\t41.9\t12.51", "move-station\ts1\t12.5\t41.9", "move-station\ts9\t0\t0"], at=NOW, key="m"
    )
    assert [place_of(it) for it in doubted(moved)] == [("line 7, lat and lon", FOR_NOW)]
    # Of two stations the one is told that is further from the city's zone.
    for places, line in (((41.9, 12.5), (12.49, 41.91)), 3), (((12.49, 41.91), (41.9, 12.5)), 2):
        found = doctor.findings_of_lines((system_line() + station_lines(*places)).encode(), NOW)
        assert [place_of(it) for it in found] == [(f"line {line}, lat and lon", FOR_NOW)], (places, found)
        assert f"near that of line {5 - line}." in found[0].text, found
    found = doctor.findings_of_table((HEADER + "a,A,41.9,12.5,5\nb,B,12.49,41.91,5\n").encode())
    assert [it.where for it in found] == ["row 2 (line 3), lat and lon"] and "row 1 (line 2)." in found[0].text, found
    exchanged = (system_line() + station_lines((41.9, 120.5), (120.5, 41.9))).encode()
    found = doctor.findings_of_lines(exchanged, NOW)
    assert [place_of(it) for it in found] == [("line 3, lat", BAD_FIELD)] and "exchanged" in found[0].text, found
    assert program.run(given=exchanged)[1] == b"ok\nok\nrefused\t11\tbad_field\n"


def test_all_stations_far_from_their_zone(program):
    """All stations with their coordinates exchanged, or with a sign lost, are told by the place of the time zone."""
    for zone, lat, lon in (
        ("Europe/Athens", 37.98, 23.73), ("Europe/Bucharest", 44.43, 26.1), ("Europe/Istanbul", 41.01, 28.98),
        ("Europe/Sofia", 42.7, 23.32), ("Europe/Rome", 38.12, 13.36), ("America/Sao_Paulo", -22.9, -43.2),
        ("America/New_York", 25.77, -80.19),
    ):
        for places, word in (
            ((lat, lon), ""), ((lon, lat), "the two exchanged"), ((-lat, lon), "sign of the latitude"),
            ((lat, -lon), "sign of the longitude"),
        ):
            found = doctor.findings_of_lines((system_line(timezone=zone) + station_lines(places)).encode(), NOW)
            assert [place_of(it) for it in found] == [("line 2, lat and lon", FOR_NOW)] * bool(word), (zone, found)
            assert all(word in it.text and zone in it.text for it in found), (zone, word, found)


# Cities that lie far from the chief place of their time zone, or near the border of another country, or where a place
# with latitude and longitude exchanged isn't far.
CITIES = """
Europe/Berlin 48.14,11.58 47.56,10.7; Europe/Moscow 68.97,33.08 42.98,47.5 43.6,39.73 67.5,64.05 59.94,30.31 64.54,40.54
Europe/Istanbul 36.9,30.7 38.5,43.38 37,35.32 41,39.72 36.2,36.16; Asia/Jerusalem 31.77,35.21 29.56,34.95 32.79,34.99
Africa/Cairo 31.2,29.92 31.35,27.24 24.09,32.9 27.91,34.33 31.56,25.15 29.2,25.52; Asia/Amman 29.53,35.01 32.55,35.85
Asia/Makassar 4.14,117.66 1.49,124.84 -10.16,123.6 3.3,117.63; Asia/Jakarta 5.55,95.32 3.59,98.67 -8.21,114.37
Asia/Nicosia 34.68,33.04 34.77,32.42; Asia/Famagusta 35.34,33.32; Asia/Beirut 34.43,35.85; Asia/Gaza 31.35,34.3
Asia/Damascus 36.2,37.16 35.52,35.79 37.05,41.23; Asia/Tbilisi 41.65,41.63 43,41.02; Asia/Yerevan 39.2,46.41
Africa/Lagos 4.45,7.17 4.31,6.24 4.82,7.05 4.95,8.32 11.85,13.16; Africa/Ndjamena 9.15,18.39; Africa/Malabo 1.86,9.77
Asia/Yekaterinburg 60.39,57.08 60.4,56.47 58,56.25 66.08,76.68; Asia/Almaty 51.17,71.43 43.65,51.15 51.2,51.37
Asia/Kolkata 34.08,74.8 8.52,76.94 23.24,69.67 11.62,92.73; Asia/Shanghai 39.47,75.99 29.65,91.12 18.25,109.5
America/New_York 25.77,-80.19; America/Chicago 25.9,-97.5; America/Sao_Paulo -30.03,-51.23; America/Lima -18.01,-70.25
America/Belem 0.03,-51.07 3.84,-51.83; America/Bogota -4.21,-69.94 12.58,-81.7; Africa/Kinshasa 4.28,21
Africa/Lubumbashi 0.52,25.2 1.56,30.25; Africa/Nairobi 3.94,41.87 -4.04,39.67; Africa/Algiers 27.67,-8.13 22.79,5.52
Europe/Madrid 41.39,2.17; Europe/Paris 48.39,-4.49 41.92,8.74; Europe/London 60.15,-1.15; Europe/Rome 45.65,13.77
Europe/Athens 36.43,28.22; Europe/Oslo 69.73,30.05; Europe/Kyiv 48.62,22.3 48.57,39.3; Africa/Johannesburg -33.92,18.42
Pacific/Auckland -45.87,170.5; America/Adak 52.9,173; Australia/Brisbane -16.92,145.77; Australia/Perth -17.96,122.24
Asia/Kuching 5.98,116.07 4.25,117.9; Asia/Tehran 25.3,60.64 37.55,45.08; Asia/Riyadh 16.89,42.55 28.38,36.57
Asia/Dubai -20.88,55.45; Asia/Bangkok -10.42,105.68; Africa/Accra 9.4,-0.84; America/Argentina/Buenos_Aires -54.8,-68.3
"""


def test_places_that_are_right(program):
    """Of no chief place of a time zone, and of nothing within 250 km of one, anything is said, nor of cities that lie
    far from it. The table where several countries share a zone has no others."""
    for it in doctor.zone_places():
        (lat, lon), step = it.place, 250 / 111.3
        for north, east in itertools.product((-0.7, 0, 0.7), repeat=2):
            place = lat + step * north, lon + step * east / math.cos(math.radians(lat))
            assert doctor.zone_doubt_of(place, it.zone) is None, (it, place)
    assert len(doctor.zone_places()) > 600
    tried = 0
    for zone, *places in (it.split() for it in CITIES.replace(";", "\n").splitlines() if it):
        for place in places:
            tried += 1
            place = tuple(map(float, place.split(",")))
            assert doctor.zone_doubt_of(place, zone) is None, (zone, place, doctor.zone_doubt_of(place, zone))
    assert tried > 100, tried


def test_places_near_their_exchanged_ones(program):
    """Exchanged coordinates are told from 400 km on where the place lies nearer to another country's chief place."""
    for zone, lat, lon in (
        ("Asia/Jerusalem", 31.77, 35.21), ("Asia/Jerusalem", 32.08, 34.78), ("Asia/Jerusalem", 31.25, 34.79),
        ("Asia/Amman", 31.95, 35.93), ("Europe/Moscow", 68.97, 33.08), ("Asia/Kolkata", 8.52, 76.94),
    ):
        assert doctor.zone_doubt_of((lat, lon), zone) is None, (zone, lat, lon)
        assert doctor.zone_doubt_of((lon, lat), zone).startswith("the two exchanged."), (zone, lat, lon)
        found = doctor.findings_of_lines((system_line(timezone=zone) + station_lines((lon, lat))).encode(), NOW)
        assert [place_of(it) for it in found] == [("line 2, lat and lon", FOR_NOW)], (zone, found)
    assert doctor.zone_doubt_of((29.92, 31.2), "Africa/Cairo") is None
    cities = ("Europe/Dublin", 53.35, -6.26), ("Europe/Lisbon", 38.72, -9.14), ("America/Lima", -12.05, -77.04)
    for zone, lat, lon in cities:
        assert doctor.zone_doubt_of((lat, lon), zone) is None, zone
        assert doctor.zone_doubt_of((lat, -lon), zone).startswith("the other sign of the longitude."), zone
    # The Balearic Islands lie as far from Madrid, and their mirrored places near it.
    for lat, lon in (39.57, 2.65), (39.89, 4.26):
        assert doctor.zone_doubt_of((lat, lon), "Europe/Madrid") is None, (lat, lon)
    with unittest.mock.patch.object(doctor, "zone_places", lambda: []):
        assert doctor.zone_doubt_of((35.21, 31.77), "Asia/Jerusalem") is None


# Stations by their names and places, and the number of the one that seems to be the first.
TWINS = (
    ((("Harbour", 41.9, 12.5), ("Harbour", 41.9, 12.5)), 2), ((("Harbour", 41.9, 12.5), ("Canal", 41.9, 12.5)), 2),
    ((("Harbour", 41.9, 12.5), ("Canal", 41.91, 12.5), (" harbour ", 41.90004, 12.5001)), 3),
    ((("Harbour", 41.900499, 12.500499), ("Harbour", 41.900501, 12.500501)), 2),
    ((("Harbour", 41.9, 12.5), ("HARBOUR", 41.9, 12.5012)), 2),
    ((("Harbour", 41.9, 12.5), ("Harbour", 41.9, 12.5013)), None),
    ((("Harbour", 41.9, 12.5), ("harbour", 41.900899, 12.5)), 2),
    ((("Harbour", 41.9, 12.5), ("Harbour", 41.901, 12.5)), None),
    ((("Harbour", 41.9, 12.5), ("Canal", 41.9, 12.500024)), 2),
    ((("Harbour", 41.9, 12.5), ("Canal", 41.9, 12.500025)), None),
    ((("Harbour", 41.9, 12.5), ("Canal", 41.900017, 12.5)), 2),
    ((("Harbour", 41.9, 12.5), ("Canal", 41.900019, 12.5)), None),
    ((("Harbour", 78.2, 15.6), ("Harbour", 78.2, 15.6043)), 2),
    ((("Harbour", 78.2, 15.6), ("Harbour", 78.2, 15.6045)), None),
    ((("Harbour", 78.2004, 15.6), ("Harbour", 78.2006, 15.604)), 2),
)


def test_stations_that_are_there_twice(program):
    """A station that seems to be an earlier one is told, of lines and of a table. The program accepts it."""
    for stations, wanted in TWINS:
        rows = [(f"s{at}", name.strip(), lat, lon, 5) for at, (name, lat, lon) in enumerate(stations, 1)]
        commands = ["\t".join(map(str, ("add-station", *row))) for row in rows]
        lines = requests_of(commands, at=NOW, key="s")
        found = [it for it in doctor.findings_of_lines(lines, NOW) if "stays twice" in it.text]
        assert [place_of(it) for it in found] == [(f"line {wanted}", FOR_GOOD)] * bool(wanted), (stations, found)
        assert not wanted or f"s{wanted} " in found[0].text and " s1 of line 1. " in found[0].text, found
        table = (HEADER + "".join(",".join(map(str, row)) + "\n" for row in rows)).encode()
        found = [it for it in doctor.findings_of_table(table) if "stays twice" in it.text]
        place = f"row {wanted} (line {(wanted or 0) + 1})"
        assert [place_of(it) for it in found] == [(place, FOR_GOOD)] * bool(wanted), (stations, found)
        assert program.run("import", ":memory:", "x", "--at", "0", given=table)[0] == 0, table
    moved = requests_of(
        ["add-station\ta1\tHarbour\t41.9\t12.5\t5", "add-station\ta2\tCanal\t41.91\t12.5\t5",
         "move-station\ta1\t41.91\t12.5"], at=NOW, key="s"
    )
    assert [place_of(it) for it in doctor.findings_of_lines(moved, NOW)] == [("line 3", FOR_GOOD)]
    again = requests_of(["move-station\ta1\t41.92\t12.5"], at=NOW, key="m")
    assert doctor.findings_of_lines(moved + again, NOW) == []
    near = ["add-station\ta1\tHarbour\t41.9\t12.5\t5", "add-station\ta2\tHarbour\t41.90004\t12.5001\t5"]
    for named, wanted in (
        ([], [("line 3", FOR_GOOD)]), (["set-name\tstation\ta2\ten\tCanal"], []),
        (["set-name\tstation\ta1\ten\tCanal"], []),
        (["set-name\tstation\ta2\tde\tCanal"], [("line 3", FOR_GOOD)]),
        (["set-name\ttype\ta2\ten\tCanal"], [("line 3", FOR_GOOD)]),
        ([f"set-name\tstation\ta{it}\ten\tCanal" for it in (1, 2, 3)], [("line 3", FOR_GOOD)]),
    ):
        lines = f"{system_line()}\n".encode() + requests_of([*near, *named], at=NOW, key="n")
        assert [place_of(it) for it in doubted(lines)] == wanted, named
    feeds = doctor.Feeds("https://x.example", NOW)
    rows = [("a1", "Canal", 41.9), ("a2", "Harbour", 41.900017), ("a3", "harbour", 41.9008), ("a4", "Canal", 41.901)]
    rows = [{"station_id": it, "name": [{"text": name}], "lat": lat, "lon": 12.5} for it, name, lat in rows]
    feeds.data = {"station_information": {"stations": rows}}
    feeds.see_places()
    assert [it.text.split(":")[0] for it in feeds.found] == ["a1 and a2, a2 and a3"], feeds.found
    sea = requests_of([f"add-station\ta{it}\tHarbour\t0\t0\t5" for it in (1, 2)], at=NOW, key="s")
    assert all("0, 0" in it.text for it in doctor.findings_of_lines(sea, NOW))
    again = HEADER + 'c1,"HÃ´tel",45,9.1,10\n' * 2
    found = [place_of(it) for it in doctor.findings_of_table(again.encode())]
    assert ("row 2 (line 3), station_id", "already_there") in found and len(found) == 3, found


THINGS = {
    "plan": "add-plan\t{}\tBasic\t1\tfalse\tText\t-",
    "type": "add-type\t{}\tCity\tbicycle\thuman\t0\t{}",
    "station": "add-station\t{}\tName\t{lat}\t12.5\t5",
    "region": "add-region\t{}\tName",
    "bike": "add-bike\t{}\t{}",
    "rider": "add-rider\t{}",
    "truck": "add-truck\t{}\t20",
}
NAMING = (
    "set-plan\t{type}\t{plan}", "move-station\t{station}\t{lat}\t12.5", "set-station\t{station}\ttrue\ttrue\ttrue",
    "set-region\t{station}\t{region}", "set-region\t{station}\t*", "mark-dock\t{station}\t1\tworking",
    "mark-bike\t{bike}\tfit", "set-rider\t{rider}\topen", "top-up\t{rider}\t5",
    "open-order\t{truck}\t*\t{station}\t{type}\t1", "set-name\tregion\t{region}\ten\tOther",
    "set-name\tdescription\t{plan}\ten\tOther", "set-name\ttype\t{type}\ten\tOther",
)


def test_what_isnt_there_yet(program):
    """Lines in any order that add things and name them: just those are told that the program refuses for what isn't
    there, or is there already; of those that name one thing the first, with how many there are."""
    rnd = random.Random(7)
    tried = set()
    for _ in range(60):
        texts = "plan", "type", "station", "region"
        names = {it: [f"{it[0]}{at}" if it in texts else str(at) for at in (1, 2)] for it in THINGS}
        commands = []
        for at in range(rnd.randrange(4, 25)):
            named = {it: rnd.choice(names[it]) for it in THINGS} | {"lat": f"{41 + at * 0.01:.2f}"}
            if rnd.random() < 0.5:
                kind = rnd.choice([*THINGS])
                other = named["plan" if kind == "type" else "type"]
                commands.append(THINGS[kind].format(named[kind], other, **named))
            else:
                commands.append(rnd.choice(NAMING).format(**named))
        lines = f"{system_line()}\n".encode() + requests_of(commands, at=NOW, key="t")
        answers = program.run(given=lines)[1].decode().splitlines()
        refused = {at: it.split("\t")[2] for at, it in enumerate(answers, 1) if it.startswith("refused")}
        assert len(answers) == len(commands) + 1 and set(refused.values()) <= {
            "already_there", *(f"unknown_{it}" for it in THINGS)
        }, (refused, commands)
        found = [it for it in doctor.findings_of_lines(lines, NOW) if it.word in refused.values()]
        for it in found:
            assert refused.get(number_in(it.where)) == it.word, (it, refused, commands)
        more = [int(it[1]) for it in (re.search(r"\(and (\d+) more lines name it\)", one.text) for one in found) if it]
        assert len(found) + sum(more) == len(refused), (found, refused, commands)
        tried.update(refused.values())
    assert len(tried) == 8, tried
    # What is told of it: where it comes later, where that is refused, and stations that a table adds.
    first = requests_of(["add-bike\t1\tcity", "add-plan\tp\tP\t1\tfalse\tText\t-",
                         "add-type\tcity\tCity\tbicycle\thuman\t0\tp", "set-station\ta1\ttrue\ttrue\ttrue",
                         "add-type\tlong\tLong\tbicycle\thuman\t0\tnone", "add-bike\t2\tlong"], at=NOW, key="t")
    found = doctor.findings_of_lines(f"{system_line()}\n".encode() + first, NOW)
    wanted = {2: "type", 5: "station", 6: "plan", 7: "type"}
    assert [place_of(it) for it in found] == [(f"line {at}", f"unknown_{it}") for at, it in wanted.items()], found
    for it, word in zip(found, ("line 4 adds it", "a table of stations", "no line adds it", "line 6 would add it")):
        assert word in it.text, (it, word)
    # Without a system these aren't the first lines of a city: what they name may be there.
    assert doctor.findings_of_lines(first, NOW) == []
    again = f"{system_line()}\n".encode() + requests_of(["add-rider\t1"], at=NOW, key="t") * 2
    assert doctor.findings_of_lines(again, NOW) == []


def test_keys_of_lines(program):
    """A caller's key that comes again with another command is told, as the program refuses it. An equal one isn't."""
    rows = (("office", 1), ("office", 1), ("rider:1", 2), ("office", 3))
    data = "".join(f"{NOW}\t{caller}\tk\tadd-rider\t{rider}\n" for caller, rider in rows).encode()
    assert [place_of(it) for it in doctor.findings_of_lines(data, NOW)] == [("line 4, key", "key_reused")]
    assert program.run(given=data)[1] == b"ok\nok\nok\nrefused\t33\tkey_reused\n"


# ---- tables of stations

ROW = "c1,Canal,45.0,9.1,10\n"
# A table, the row of its first fault that ends an import, and the program's word for it.
TABLES = (
    (HEADER, None), (HEADER + ROW, None), ("\ufeff" + HEADER + ROW, None), (HEADER.replace("\n", "\r\n") + ROW, None),
    ("\n\n" + HEADER + "\n" + ROW, None),
    (HEADER + 'q1,"He said ""ciao""",45,9.1,10\nq2,"two\nlines",-0.000001,-180,1\n', None),
    (HEADER + '"q3",a"b,90,180,500\n"q4",Last,-90,"9.1","7"', None),
    (HEADER + 'c1,Canal,45.0,9.1,"10', None), (HEADER + '"c1"x,Canal,45,9,1\n', None),
    (HEADER + "c1,Canal,45.0,9.1,10\rc2,Corso,45,9.1,10", None),
    ("", "bad header"), ("\n", "bad header"), (ROW, "bad header"),
    (HEADER.replace(",", ";") + ROW.replace(",", ";"), "bad header"),
    (HEADER.replace(",", "\t"), "bad header"), ("station_id, name,lat,lon,docks\n", "bad header"),
    ("Station_id,name,lat,lon,docks\n", "bad header"),
    ("station_id,name,lat,lon\n", "bad header"), ("station_id,name,lat,lon,docks,\n", "bad header"),
    ("\ufeff\ufeff" + HEADER, "bad header"),
    (HEADER.encode("utf-16"), "bad header"), (b"\xff,name,lat,lon,docks\n", "bad header"),
    (HEADER + ROW + "c2,Corso,45,9.1\n", "row 2 unreadable"),
    (HEADER + ROW + "c2,Corso, north,45,9.1,10\n", "row 2 unreadable"),
    (HEADER + ROW + "c2;Corso;45;9,1;10\n", "row 2 unreadable"),
    (HEADER.encode() + b"c2,Cors\xf6,45,9.1,10\n", "row 1 unreadable"),
    (HEADER + ROW + 'c2,"Corso,45,9.1,10\n' + "c3,Castle,45,9.3,8\n" * 5, "row 2 unreadable"),
    (HEADER + '""\n', "row 1 unreadable"),
    (HEADER + ROW + "c2,Corso,45.1234567,9.1,10\n", "row 2 bad_field"),
    (HEADER + ROW + "c2,Corso,45,9.1,501\n", "row 2 bad_field"),
    (HEADER + ROW + 'c2,Corso,"45,5",9.1,10\n', "row 2 bad_field"),
    (HEADER + ROW + "c2,Corso,91,9.1,10\n", "row 2 bad_field"),
    (HEADER + ROW + "c2,Corso,45,9.1,x\n", "row 2 bad_field"),
    (HEADER + ROW + "c2,Corso,45,9.1,0\n", "row 2 bad_field"),
    (HEADER + ROW + "C2,Corso,45,9.1,10\n", "row 2 bad_field"), (HEADER + ROW + "c2,,45,9.1,10\n", "row 2 bad_field"),
    (HEADER + ROW + f"c2,{'é' * 61},45,9.1,10\n", "row 2 bad_field"),
    (HEADER + ROW + "c2,a\0b,45,9.1,10\n", "row 2 bad_field"),
    (HEADER + ROW + ROW.replace("Canal", "Other"), "row 2 already_there"),
    (HEADER + ROW + "\n" + ROW, "row 2 already_there"),
)


def first_refusal(data):
    """What an import of the table says, by what is found in it: of what is only doubted it says nothing."""
    for it in doctor.findings_of_table(data):
        if it.word not in (FOR_GOOD, FOR_NOW):
            return it.word if it.where == "header" else f"row {number_in(it.where)} {it.word}"
    return None


def test_tables_as_import_takes_them(program):
    """The first row that ends an import is found, with the program's word for it. What is let through is imported."""
    for table, wanted in TABLES:
        data = table if isinstance(table, bytes) else table.encode()
        assert first_refusal(data) == wanted, (table[:90], wanted, doctor.findings_of_table(data))
        status, out, said = program.run("import", ":memory:", "x", "--at", "0", given=data)
        ended = (1, f"{wanted}\n") if wanted else (0, "")
        assert (status, said.decode()) == ended, (table[:90], status, out, said)


def test_tables_that_are_changed_anywhere(program):
    """Quotes, commas, line ends and other bytes put in or taken away: what is found first is what the import says. So
    many tables are tried as BIKESHARE_TABLES says, or 25."""
    rnd = random.Random(1)
    put_in = [b'"', b'"', b",", b"\n", b"\r", b"\r\n", b'""', b" ", b";", b"\xc3", b"", b"", b"0", b"-"]
    for _ in range(int(os.environ.get("BIKESHARE_TABLES", "25"))):
        rows = b'c1,Canal,45,9,10\nc2,"Corso, north",45.5,9,1\r\n"c3","a ""b""",45,9.2,7\n'
        table = bytearray(HEADER.encode() + rows)
        begin = 0 if rnd.random() < 0.2 else len(HEADER)
        for _ in range(rnd.choice((1, 1, 2, 3))):
            at = rnd.randrange(begin, len(table))
            table[at : at + rnd.choice((0, 1))] = rnd.choice(put_in)
        status, _, said = program.run("import", ":memory:", "x", "--at", "0", given=bytes(table))
        wanted = first_refusal(bytes(table))
        assert (status, said.decode()) == ((1, f"{wanted}\n") if wanted else (0, "")), (bytes(table), wanted, said)


def test_what_is_said_of_tables(program):
    """The hints: where, and a word of what to do."""
    for table, where, word in (
        (HEADER.replace(",", ";"), "header", "semicolons"), (HEADER.encode("utf-16"), "header", "UTF-16"),
        ("\ufeff\ufeff" + HEADER, "header", "byte order mark"),
        (ROW, "header", "the first row is a station"),
        (HEADER + "\n" + ROW + "c2,Corso,45.1234567,9.1,10\n", "row 2 (line 4), lat", "write 45.123456"),
        (HEADER + "c2,Corso,95.5,9.1,10\n", "row 1 (line 2), lat", "exchanged"),
        (HEADER + "c2,Corso,45,9.1,600\n", "row 1 (line 2), docks", "1 to 500"),
        (HEADER + "c2,Corso, 45,9.1,10\n", "row 1 (line 2), lat", "isn't written so"),
        (HEADER + ROW + ROW, "row 2 (line 3), station_id", "row 1 (line 2)"),
        (HEADER + ROW + '\nc2,"   ",45,9.2,10\n', "row 2 (line 4), name", "spaces"),
        (HEADER + 'q1,"a\nb",45,9.1,10\n', "row 1 (line 2), name", "U+000A"),
        (HEADER + "c2,\u200b,45,9.1,10\n", "row 1 (line 2), name", "can be seen"),
        (HEADER + "c2,HÃ´tel,45,9.1,10\n", "row 1 (line 2), name", "'HÃ´tel' is UTF-8 that was read as Latin-1."),
        (HEADER + 'c2,"""Hôtel""",45,9.1,10\n', "row 1 (line 2), name", "Is it 'Hôtel'?"),
        (HEADER + "c1,Canal,0,0,10\n", "row 1 (line 2), lat and lon", "0, 0"),
        (HEADER + ROW + "c2,a,45,9.2,1\nc3,b,45.1,9,1\nc4,c,9.1,45,1\n", "row 4 (line 5), lat and lon", "exchanged"),
    ):
        found = doctor.findings_of_table(table if isinstance(table, bytes) else table.encode())
        assert [it.where for it in found] == [where] and word in found[0].text, (table, found)
    found = doctor.findings_of_table((HEADER + 'q1,"a\nb",45,9.1,10\nc2,"   ",45,9.2,10\n').encode())
    assert [it.where for it in found] == ["row 1 (line 2), name", "row 2 (line 4), name"], found
    many = HEADER + "".join(f"s{number},Station {number},45.{number:04},9,1\n" for number in range(1, 5002))
    found = doctor.findings_of_table(many.encode())
    assert [place_of(it) for it in found] == [("row 5001 (line 5002)", "limit_reached")], found
    assert not doctor.findings_of_table((TOP / "examples/city/stations.csv").read_bytes())


def test_what_an_import_said_of_a_row(program):
    """A station that stands already isn't imported under another identifier; for want of room no row is corrected."""
    table = (HEADER + ROW).encode()
    twice = [program.run("import", "rows.db", it, "--at", "0", given=table) for it in ("x", "y", "x")]
    assert [it[2] for it in twice] == [b"", b"row 1 already_there\n", b""], twice
    two, three = (ROW.replace("c1", it) for it in ("c2", "c3"))
    for name, rows, said in (
        ("y", (two, ROW, three), b"row 2 already_there\n"), ("y", (two, three), b""),
        ("x", (ROW, two), b"row 2 already_there\n"), ("x", (ROW, ROW.replace("c1", "c4")), b""),
    ):
        done = program.run("import", "rows.db", name, "--at", "0", given=(HEADER + "".join(rows)).encode())
        assert done[2] == said, (name, rows, done)
    (found,) = doctor.findings_of_said("none.db", "row 1 already_there")
    for word in "take the row out", "under the earlier NAME", "twice for good", "Only if it is another station":
        assert word in found.text, (word, found)
    (found,) = doctor.findings_of_said("none.db", "row 9 limit_reached")
    assert "no command takes one away" in found.text and "Correct it" not in found.text, found
