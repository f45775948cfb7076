"""The server over plain sockets: its answers byte for byte, every route, row and feed, retries, clients that go away or
come at once, its clock, and where it can't serve. http_requests.py has what it refuses of a request's bytes.

Each wanted answer is written by hand from docs/FORMATS.md, sections 5 and 6.
"""

import contextlib
import json
import os
import random
import re
import resource
import select
import socket
import sqlite3
import time
from datetime import datetime, timezone

from newest import processor
from shared import (
    BAD_FIELD, CITY, DONE, FEEDS, FOREIGN, MOMENT, READY, READ_FAILED, SECONDS, START, STARTED, STORE_FAILED, Server,
    answer, ask, city, error, feed, free_port, get, get_feed, holds, is_sound, line_of, office, post, refused, reset,
    rest, tells_mistake, timeless,
)
from slow_clients import with_sockets

NOT_RIDING = answer(200, '{"rider":17,"state":"open","balance_cents":2500,"rental":0}')


def ended(program, *words):
    """Runs words with which nothing is served."""
    return program.run("serve", *words, timeout=SECONDS)


def seconds(moment):
    return int(datetime.strptime(moment, "%Y-%m-%dT%H:%M:%SZ").replace(tzinfo=timezone.utc).timestamp())


WORKED_START = b'POST /riders/17/start HTTP/1.1\r\nContent-Length: 36\r\n\r\n{"key":"s1","station":"a1","dock":1}'
WORKED_STARTED = (
    b"HTTP/1.1 200 OK\r\nContent-Type: application/json\r\nContent-Length: 35\r\nConnection: close\r\n\r\n"
    b'{"result":"ok","rental":1,"bike":7}'
)
# These answers, heads too, are written out whole.
WORKED = [
    (
        b"GET /riders/17 HTTP/1.1\r\n\r\n",
        b"HTTP/1.1 200 OK\r\nContent-Type: application/json\r\nContent-Length: 59\r\nConnection: close\r\n\r\n"
        b'{"rider":17,"state":"open","balance_cents":2500,"rental":0}',
    ),
    (WORKED_START, WORKED_STARTED),
    (WORKED_START, WORKED_STARTED),
    (
        b'POST /riders/17/start HTTP/1.1\r\nContent-Length: 36\r\n\r\n{"key":"s2","station":"a1","dock":1}',
        (
            b"HTTP/1.1 409 Conflict\r\nContent-Type: application/json\r\nContent-Length: 57\r\n"
            b"Connection: close\r\n\r\n"
            b'{"result":"refused","number":20,"name":"rider_is_riding"}'
        ),
    ),
    (
        b"GET /bikes/7 HTTP/1.1\r\n\r\n",
        b"HTTP/1.1 200 OK\r\nContent-Type: application/json\r\nContent-Length: 66\r\nConnection: close\r\n\r\n"
        b'{"bike":7,"type":"city","state":"fit","place":"rental","rental":1}',
    ),
    (
        b"GET /orders/1 HTTP/1.1\r\n\r\n",
        b"HTTP/1.1 200 OK\r\nContent-Type: application/json\r\nContent-Length: 96\r\nConnection: close\r\n\r\n"
        b'{"order":1,"truck":3,"from":"*","to":"a1","type":"city","count":1,"delivered":1,"is_open":false}',
    ),
    (
        b'POST /office HTTP/1.1\r\nContent-Length: 41\r\n\r\n{"key":"o1","command":"top-up\\t17\\t100"}',
        (
            b"HTTP/1.1 400 Bad Request\r\nContent-Type: application/json\r\nContent-Length: 39\r\n"
            b"Connection: close\r\n\r\n"
            b'{"result":"error","name":"bad_request"}'
        ),
    ),
    (
        b'POST /office HTTP/1.1\r\nContent-Length: 40\r\n\r\n{"key":"o1","command":"top-up\\t17\\t100"}',
        b"HTTP/1.1 200 OK\r\nContent-Type: application/json\r\nContent-Length: 36\r\nConnection: close\r\n\r\n"
        b'{"result":"ok","balance_cents":2600}',
    ),
    (
        b'POST /riders/17/start HTTP/1.1\r\nContent-Length: 38\r\n\r\n{"key":"s1","station":"a1","dock":"1"}',
        (
            b"HTTP/1.1 400 Bad Request\r\nContent-Type: application/json\r\nContent-Length: 51\r\n"
            b"Connection: close\r\n\r\n"
            b'{"result":"refused","number":11,"name":"bad_field"}'
        ),
    ),
    (
        b"POST /riders/17/start HTTP/1.1\r\nContent-Length: 2\r\n\r\n[]",
        (
            b"HTTP/1.1 400 Bad Request\r\nContent-Type: application/json\r\nContent-Length: 39\r\n"
            b"Connection: close\r\n\r\n"
            b'{"result":"error","name":"bad_request"}'
        ),
    ),
    (
        b"GET /nowhere HTTP/1.1\r\n\r\n",
        (
            b"HTTP/1.1 404 Not Found\r\nContent-Type: application/json\r\nContent-Length: 37\r\n"
            b"Connection: close\r\n\r\n"
            b'{"result":"error","name":"not_found"}'
        ),
    ),
    (
        b"GET /riders/17/start HTTP/1.1\r\n\r\n",
        (
            b"HTTP/1.1 405 Method Not Allowed\r\nContent-Type: application/json\r\nContent-Length: 46\r\n"
            b"Connection: close\r\n"
            b'Allow: POST\r\n\r\n{"result":"error","name":"method_not_allowed"}'
        ),
    ),
    (
        b"POST /riders/17 HTTP/1.1\r\n\r\n",
        (
            b"HTTP/1.1 405 Method Not Allowed\r\nContent-Type: application/json\r\nContent-Length: 46\r\n"
            b"Connection: close\r\n"
            b'Allow: GET\r\n\r\n{"result":"error","name":"method_not_allowed"}'
        ),
    ),
    (
        b"POST /office HTTP/1.1\r\nContent-Length: 20000\r\n\r\n",
        (
            b"HTTP/1.1 413 Payload Too Large\r\nContent-Type: application/json\r\nContent-Length: 37\r\n"
            b"Connection: close\r\n\r\n"
            b'{"result":"error","name":"too_large"}'
        ),
    ),
]


def test_worked_answers(program):
    city(program)
    # A length that is one too great waits for a byte that never comes, so each client ends its input.
    holds(program, WORKED, ends=True)


def test_every_post(program):
    city(program)
    holds(program, [
        (post("/riders/17/start", START), STARTED),
        (
            post("/docks/a1/end", '{"key":"e1","bike":7,"dock":1}'),
            answer(200, '{"result":"ok","fare_cents":100,"balance_cents":2400}'),
        ),
        (post("/docks/a1/mark-dock", '{"key":"d1","dock":2,"state":"working"}'), DONE),
        (post("/docks/a1/mark-dock", '{"key":"d2","dock":1,"state":"broken"}'), DONE),
        (post("/docks/a1/mark-bike", '{"key":"b1","bike":7,"state":"disabled"}'), DONE),
        (office("o1", "open-order\t3\ta1\t*\tcity\t1"), answer(200, '{"result":"ok","order":2}')),
        (post("/crews/3/load", '{"key":"l1","order":2,"bike":7}'), DONE),
        (post("/crews/3/mark-bike", '{"key":"b1","bike":7,"state":"fit"}'), DONE),
        (post("/crews/3/unload", '{"key":"u1","order":2,"bike":7,"side":"from","dock":2}'), DONE),
        (post("/crews/3/load", '{"key":"l2","order":2,"bike":7}'), DONE),
        (post("/crews/3/unload", '{"key":"u2","order":2,"bike":7,"side":"to","dock":0}'), DONE),
        (get("/orders/2"), answer(
            200, '{"order":2,"truck":3,"from":"a1","to":"*","type":"city","count":1,"delivered":1,"is_open":true}'
        )),
        (office("o2", "refund\t1\t100"), answer(200, '{"result":"ok","balance_cents":2500}')),
        (office("o3", "close-order\t2"), DONE),
        (get("/bikes/7"), answer(200, '{"bike":7,"type":"city","state":"fit","place":"depot"}')),
    ])
    is_sound(program)


def test_every_row_that_is_shown(program):
    city(program, "add-rider\t18", "set-rider\t18\tblocked")
    opened = f'{{"rental":1,"rider":17,"bike":7,"plan":"basic","from":"a1","start":"{MOMENT}","is_open":'
    closed = opened + f'false,"to":"a1","end":"{MOMENT}","fare_cents":100,"refunded_cents":'
    holds(program, [
        (get("/riders/18"), answer(200, '{"rider":18,"state":"blocked","balance_cents":0,"rental":0}')),
        (get("/riders/17"), NOT_RIDING),
        (get("/bikes/7"), answer(200, '{"bike":7,"type":"city","state":"fit","place":"dock","station":"a1","dock":1}')),
        (get("/orders/1"), answer(
            200, '{"order":1,"truck":3,"from":"*","to":"a1","type":"city","count":1,"delivered":1,"is_open":false}'
        )),
        (get("/rentals/1"), error(404)),
        (post("/riders/17/start", START), STARTED),
        (get("/riders/17"), answer(200, '{"rider":17,"state":"open","balance_cents":2500,"rental":1}')),
        (get("/bikes/7"), answer(200, '{"bike":7,"type":"city","state":"fit","place":"rental","rental":1}')),
        (get("/rentals/1"), answer(200, opened + "true}")),
        (
            post("/docks/a1/end", '{"key":"e1","bike":7,"dock":1}'),
            answer(200, '{"result":"ok","fare_cents":100,"balance_cents":2400}'),
        ),
        (get("/rentals/1"), answer(200, closed + "0}")),
        (office("o1", "refund\t1\t40"), answer(200, '{"result":"ok","balance_cents":2440}')),
        (get("/rentals/1"), answer(200, closed + "40}")),
        (office("o2", "mark-bike\t7\tdisabled"), DONE),
        (office("o3", "open-order\t3\ta1\t*\tcity\t1"), answer(200, '{"result":"ok","order":2}')),
        (office("o4", "load\t3\t2\t7"), DONE),
        (
            get("/bikes/7"),
            answer(200, '{"bike":7,"type":"city","state":"disabled","place":"truck","truck":3,"order":2}'),
        ),
        (get("/orders/2"), answer(
            200, '{"order":2,"truck":3,"from":"a1","to":"*","type":"city","count":1,"delivered":0,"is_open":true}'
        )),
        (office("o5", "unload\t3\t2\t7\tto\t0"), DONE),
        (office("o6", "retire-bike\t7"), DONE),
        (get("/bikes/7"), answer(200, '{"bike":7,"type":"city","state":"retired","place":"depot"}')),
    ])


def test_a_recovered_rental_and_a_debt(program):
    city(program, "add-rider\t18")
    shown = (
        f'{{"rental":1,"rider":18,"bike":7,"plan":"basic","from":"a1","start":"{MOMENT}","is_open":false,"to":"*",'
        f'"end":"{MOMENT}",'
    )
    holds(program, [
        (post("/riders/18/start", START), STARTED),
        (office("o1", "recover\t1"), answer(200, '{"result":"ok","fare_cents":100,"balance_cents":-100}')),
        (get("/rentals/1"), answer(200, shown + '"fare_cents":100,"refunded_cents":0}')),
        (get("/riders/18"), answer(200, '{"rider":18,"state":"open","balance_cents":-100,"rental":0}')),
        (get("/bikes/7"), answer(200, '{"bike":7,"type":"city","state":"disabled","place":"depot"}')),
        (office("o2", "top-up\t18\t50"), answer(200, '{"result":"ok","balance_cents":-50}')),
    ])


def test_every_feed_is_the_text_of_feed(program):
    """A feed is for the clock's moment, so each body tells for which moment `feed` is asked."""
    city(
        program, "add-station\tb2\tQ \"1\"\\t\\\\ Łódź 🚲\t-0.000001\t90\t3", "add-region\tnorth\tNørd \"1\"\\t🚲",
        "add-region\teast\tEast",
        "set-region\tb2\tnorth", "add-name\tstation\tb2\tpl\tŁódź \\\\ 🚲", "add-name\tregion\tnorth\tDE\tNorden",
        "add-name\tsystem\tmetro\tde\tMetro",
        "add-name\ttype\tcity\tzh-Hant\t城市", "add-name\tplan\tbasic\tde\tEinfach",
        "add-name\tdescription\tbasic\tfr\tUn euro", "move-station\ta1\t-90\t-0.5",
        'change-system\tStadt "1"\\t🚲\t"\\\\"\toffice@example.org\tEurope/Rome\thttps://bikes.example\t86400',
    )
    with Server(program, len(FEEDS)) as server:
        found = {name: server.ask(get_feed(name)) for name in FEEDS}
    for name in FEEDS:
        head, body = found[name].split(b"\r\n\r\n", 1)
        wanted = (
            f"HTTP/1.1 200 OK\r\nContent-Type: application/json\r\nContent-Length: {len(body)}\r\nConnection: close"
        ).encode()
        assert head == wanted, (name, head)
        at = seconds(json.loads(body)["last_updated"])
        assert program.run("feed", "city.db", name, "--at", str(at)) == (0, body, b""), (name, body)


LONG = 524_288


def city_of(program, file, longer):
    """A city with five types and stations whose identifiers are as many characters longer than one letter and four
    digits."""
    types = [f"add-type\tt{it}\tType\tbicycle\thuman\t0\tbasic" for it in range(5)]
    stations = [f"add-station\ts{it:04}{'x' * more}\tStation\t0\t0\t1" for it, more in enumerate(longer)]
    commands = [*CITY[:2], *types, *stations]
    assert ask(program, commands, file=file) == ["ok"] * len(commands)
    return feed(program, "station_status", file=file).encode()


def test_long_feeds(program):
    """A long feed, whose memory grows as it is made, is the text of `feed` too."""
    ten, eleven = (len(city_of(program, f"{it}.db", [0] * it)) for it in (10, 11))
    each = eleven - ten
    count, more = divmod(LONG - ten, each)
    for length in (LONG - 1, LONG, LONG + 1, LONG + 200):
        left = more + length - LONG
        longer = [min(20, max(0, left - 20 * it)) for it in range(10 + count)]
        text = city_of(program, f"{length}.db", longer)
        assert len(text) == length, (len(text), length)
        with Server(program, 2, f"{length}.db") as server:
            for target in ("/gbfs/3.0/station_status.json", "/gbfs/3.0/gbfs.json"):
                head, body = server.ask(get(target)).split(b"\r\n\r\n", 1)
                assert f"Content-Length: {len(body)}\r\n".encode() in head, (head, len(body))
                if "status" in target:
                    assert timeless(body) == timeless(text), (length, len(body))


def test_the_worked_status_feed(program):
    city(program)
    holds(program, [(get_feed("station_status"), answer(
        200,
        (
            f'{{"last_updated":"{MOMENT}","ttl":30,"version":"3.0","data":{{"stations":[{{"station_id":"a1",'
            '"num_vehicles_available":1,'
            '"vehicle_types_available":[{"vehicle_type_id":"city","count":1}],"num_vehicles_disabled":0,'
            '"num_docks_available":0,'
            '"num_docks_disabled":1,"is_installed":true,"is_renting":true,"is_returning":true,'
            f'"last_reported":"{MOMENT}"}}]}}}}'
        ),
    ))])


def test_the_worked_regions(program):
    """The feed of regions and the one of stations, whole, while regions come and a station goes into one and out of
    it."""
    city(program)
    head = f'{{"last_updated":"{MOMENT}","ttl":30,"version":"3.0","data":'
    place = head + (
        '{"stations":[{"station_id":"a1","name":[{"text":"Harbour","language":"en"}],"lat":41.890169,"lon":12.492269,'
        '%s"capacity":2}]}}'
    )
    north = head + '{"regions":[{"region_id":"north","name":[{"text":"North","language":"en"}]}]}}'
    regions, places = get_feed("system_regions"), get_feed("station_information")
    unknown = refused(37, "unknown_region")
    holds(program, [
        (regions, answer(200, head + '{"regions":[]}}')),
        (office("r1", "set-region\ta1\tnorth"), unknown),
        (office("r1", "add-region\tnorth\tNorth"), DONE),
        (regions, answer(200, north)),
        (places, answer(200, place % "")),
        (office("r2", "set-region\ta1\tnorth"), DONE),
        (places, answer(200, place % '"region_id":"north",')),
        (office("r3", "set-region\ta1\tsouth"), unknown),
        (office("r3", "set-region\tzz\tsouth"), refused(1, "unknown_station")),
        (office("r3", "add-region\tnorth\tOther"), refused(10, "already_there")),
        (office("r3", "set-region\ta1\tNorth"), BAD_FIELD),
        (office("r3", "set-region\ta1\t*"), DONE),
        (places, answer(200, place % "")),
        (office("r2", "set-region\ta1\tnorth"), DONE),
        (office("r2", "set-region\ta1\t*"), refused(33, "key_reused")),
        (places, answer(200, place % "")),
        (get_feed("gbfs"), answer(200, head + '{"feeds":[' + ",".join(
            f'{{"name":"{it}","url":"http://127.0.0.1:8080/gbfs/3.0/{it}.json"}}' for it in FEEDS[1:]
        ) + "]}}")),
        (post("/gbfs/3.0/system_regions.json", "{}"), error(405, "GET")),
        (get("/gbfs/3.0/system_regions"), error(404)),
        (get("/regions/north"), error(404)),
    ])
    assert FEEDS[-1] == "system_regions"
    is_sound(program)


# The feeds of the stations and of the system, for what stands behind the names in the system's own language.
NAMED_PLACE = (
    '{"stations":[{"station_id":"a1","name":[{"text":"Harbour","language":"en"}%s],"lat":41.890169,"lon":12.492269,'
    '"capacity":2}]}}'
)
NAMED_SYSTEM = (
    '{"system_id":"metro","languages":["en"%s],"name":[{"text":"Metro Bikes","language":"en"}%s],'
    '"opening_hours":"24/7","feed_contact_email":"feeds@example.org","timezone":"Etc/UTC"}}'
)


def test_the_worked_names(program):
    """The feed of stations and the one of the system, whole, while names in further languages come."""
    city(program)
    head = f'{{"last_updated":"{MOMENT}","ttl":30,"version":"3.0","data":'
    place, system = head + NAMED_PLACE, head + NAMED_SYSTEM
    names = ("Hafen", "de"), ("Port", "fr"), ("Porto", "it")
    harbour, port, porto = (f',{{"text":"{text}","language":"{language}"}}' for text, language in names)
    places, about = get_feed("station_information"), get_feed("system_information")
    there = refused(10, "already_there")
    holds(program, [
        (places, answer(200, place % "")),
        (office("n1", "add-name\tstation\ta1\tde\tHafen"), DONE),
        (places, answer(200, place % harbour)),
        (about, answer(200, system % (',"de"', ""))),
        (office("n1", "add-name\tstation\ta1\tde\tHafen"), DONE),
        (office("n2", "add-name\tstation\ta1\tde\tHafen"), there),
        (office("n2", "add-name\tstation\ta1\ten\tHaven"), there),
        (office("n2", "add-name\tstation\ta1\tit\tPorto"), DONE),
        (office("n3", "add-name\tstation\ta1\tfr\tPort"), DONE),
        (office("n4", "add-name\tstation\ta1\tes\tPuerto"), refused(32, "limit_reached")),
        (places, answer(200, place % (harbour + port + porto))),
        (about, answer(200, system % (',"de","fr","it"', ""))),
        (office("n4", "add-name\tstation\tzz\tde\tX"), refused(1, "unknown_station")),
        (office("n4", "add-name\ttype\tzz\tde\tX"), refused(6, "unknown_type")),
        (office("n4", "add-name\tplan\tzz\tde\tX"), refused(7, "unknown_plan")),
        (office("n4", "add-name\tdescription\tzz\tde\tX"), refused(7, "unknown_plan")),
        (office("n4", "add-name\tregion\tzz\tde\tX"), refused(37, "unknown_region")),
        # The operator's answer, and the reader's, which has no such kind.
        (office("n4", "add-name\tsystem\tother\tde\tX"), BAD_FIELD),
        (office("n4", "add-name\tbike\t7\tde\tX"), BAD_FIELD),
        (office("n4", "add-name\tsystem\tmetro\tDE\tMetro"), DONE),
        (about, answer(200, system % (',"DE","de","fr","it"', ',{"text":"Metro","language":"DE"}'))),
        # A kept key answers before the operator does.
        (office("n4", "add-name\tsystem\tother\tde\tX"), refused(33, "key_reused")),
        (office("n4", "add-name\tbike\t7\tde\tX"), BAD_FIELD),
        (places, answer(200, place % (harbour + port + porto))),
    ])
    is_sound(program)


def test_the_worked_names_that_change_and_go(program):
    """The same feeds, whole, while names in the system's language and in further ones are corrected."""
    city(program, "add-name\tstation\ta1\tde\tHaven", "add-name\tstation\ta1\tfr\tPort")
    head = f'{{"last_updated":"{MOMENT}","ttl":30,"version":"3.0","data":'
    place, system = head + NAMED_PLACE, head + NAMED_SYSTEM
    haven, hafen, port = (f',{{"text":"{text}","language":"{language}"}}' for text, language in (
        ("Haven", "de"), ("Hafen", "de"), ("Port", "fr")
    ))
    places, about = get_feed("station_information"), get_feed("system_information")
    unknown = refused(39, "unknown_name")
    holds(program, [
        (places, answer(200, place % (haven + port))),
        (office("n1", "set-name\tstation\ta1\tit\tPorto"), unknown),
        (office("n1", "set-name\tstation\ta1\tDE\tHafen"), unknown),
        (office("n1", "set-name\tstation\tzz\ten\tX"), refused(1, "unknown_station")),
        (office("n1", "set-name\ttype\tzz\ten\tX"), refused(6, "unknown_type")),
        (office("n1", "set-name\tplan\tzz\ten\tX"), refused(7, "unknown_plan")),
        (office("n1", "set-name\tdescription\tzz\tde\tX"), refused(7, "unknown_plan")),
        (office("n1", "set-name\tregion\tzz\tde\tX"), refused(37, "unknown_region")),
        # The operator's answer, and the reader's, which has no such kind.
        (office("n1", "set-name\tsystem\tother\ten\tX"), BAD_FIELD),
        (office("n1", "set-name\tbike\t7\ten\tX"), BAD_FIELD),
        (office("n1", "set-name\tstation\ta1\tde\tHafen"), DONE),
        (places, answer(200, place % (hafen + port))),
        (office("n1", "set-name\tstation\ta1\tde\tHafen"), DONE),
        (office("n1", "set-name\tstation\ta1\tde\tHaven"), refused(33, "key_reused")),
        (office("n1", "remove-name\tstation\ta1\tde"), refused(33, "key_reused")),
        (office("n1", "set-name\tsystem\tother\ten\tX"), refused(33, "key_reused")),
        (office("n2", "set-name\tsystem\tmetro\ten\tMetro"), DONE),
        (office("n3", "set-name\tstation\ta1\ten\tOld harbour"), DONE),
        (places, answer(200, (place % (hafen + port)).replace("Harbour", "Old harbour"))),
        (about, answer(200, (system % (',"de","fr"', "")).replace("Metro Bikes", "Metro"))),
        (office("n4", "remove-name\tstation\ta1\ten"), unknown),
        (office("n4", "remove-name\tstation\ta1\tit"), unknown),
        (office("n4", "remove-name\tsystem\tmetro\tde"), unknown),
        (office("n4", "remove-name\tsystem\tother\tde"), BAD_FIELD),
        (office("n4", "remove-name\tstation\ta1\tde\tHafen"), BAD_FIELD),
        (office("n4", "remove-name\tstation\tzz\tde"), refused(1, "unknown_station")),
        (office("n4", "remove-name\tstation\ta1\tde"), DONE),
        (office("n4", "remove-name\tstation\ta1\tde"), DONE),
        (office("n5", "remove-name\tstation\ta1\tde"), unknown),
        (office("n5", "set-name\tstation\ta1\tde\tHafen"), unknown),
        (places, answer(200, (place % port).replace("Harbour", "Old harbour"))),
        (about, answer(200, (system % (',"fr"', "")).replace("Metro Bikes", "Metro"))),
        # What was answered once is answered again, and changes nothing.
        (office("n1", "set-name\tstation\ta1\tde\tHafen"), DONE),
        (places, answer(200, (place % port).replace("Harbour", "Old harbour"))),
        (office("n5", "add-name\tstation\ta1\tde\tHaven"), DONE),
        (office("n6", "set-name\tstation\ta1\ten\tHarbour"), DONE),
        (office("n4", "remove-name\tstation\ta1\tde"), DONE),
        (places, answer(200, place % (haven + port))),
        (office("n7", "remove-name\tstation\ta1\tde"), DONE),
        (office("n8", "remove-name\tstation\ta1\tfr"), DONE),
        (office("n9", "set-name\tsystem\tmetro\ten\tMetro Bikes"), DONE),
        (places, answer(200, place % "")),
        (about, answer(200, system % ("", ""))),
    ])
    is_sound(program)


def test_the_worked_corrections(program):
    """The feeds, whole, before and after the system and a station's place are corrected."""
    city(program)
    feeds = "gbfs", "system_information", "station_information", "station_status"
    before = {it: get_feed(it) for it in feeds}
    with Server(program, len(feeds)) as server:
        told = {it: timeless(server.ask(asked)).decode() for it, asked in before.items()}
    head = '"ttl":30,"version":"3.0"'

    def after(name, *changes, ttl=60):
        """The whole answer where these texts of the body have changed."""
        body = told[name].split("\r\n\r\n", 1)[1]
        for old, new in ((head, head.replace("30", str(ttl))), *changes):
            assert old in body, (name, old, body)
            body = body.replace(old, new)
        return before[name], answer(200, body)

    change = "change-system\tMetro\tMo-Su\toffice@example.org\tEurope/Rome\thttps://bikes.example\t"
    system = (
        ("Metro Bikes", "Metro"), ("24/7", "Mo-Su"), ("feeds@example.org", "office@example.org"),
        ("Etc/UTC", "Europe/Rome"),
    )
    place, url = ("41.890169", "-0.000001"), ("http://127.0.0.1:8080/", "https://bikes.example/")
    holds(program, [
        (office("c1", f"{change}86401"), BAD_FIELD),
        (office("c1", "move-station\tzz\t0\t0"), refused(1, "unknown_station")),
        (office("c1", "move-station\ta1\t90.000001\t0"), BAD_FIELD),
        *(after(it, ttl=30) for it in feeds),
        (office("c1", f"{change}60"), DONE),
        *(after(it) for it in ("station_information", "station_status")),
        after("system_information", *system),
        after("gbfs", url),
        (office("c1", f"{change}60"), DONE),
        (office("c1", f"{change}61"), refused(33, "key_reused")),
        (office("c2", "move-station\ta1\t-0.000001\t12.492269"), DONE),
        after("station_information", place),
        (office("c2", "move-station\ta1\t-000.000001\t12.4922690"), BAD_FIELD),
        (office("c2", "move-station\ta1\t-000.000001\t12.492269"), DONE),
        (office("c2", "move-station\ta1\t0.000001\t12.492269"), refused(33, "key_reused")),
        (office("c3", f"{change}0"), DONE),
        after("station_information", place, ttl=0),
        # What was answered once is answered again, and changes nothing.
        (office("c1", f"{change}60"), DONE),
        after("station_status", ttl=0),
        (office("c4", CITY[0]), refused(10, "already_there")),
        (office("c4", "add-docks\ta1\t0"), BAD_FIELD),
        (office("c4", "add-docks\tzz\t1"), refused(1, "unknown_station")),
        (office("c4", "add-docks\ta1\t499"), refused(32, "limit_reached")),
        (office("c4", "add-docks\ta1\t3"), DONE),
        after("station_information", place, ('"capacity":2', '"capacity":5'), ttl=0),
        after("station_status", ('"num_docks_available":0', '"num_docks_available":3'), ttl=0),
        (office("c4", "add-docks\ta1\t3"), DONE),
        (office("c4", "add-docks\ta1\t4"), refused(33, "key_reused")),
        after("station_information", place, ('"capacity":2', '"capacity":5'), ttl=0),
    ])
    is_sound(program)


def test_a_station_of_500_docks(program):
    city(program, "add-station\tb2\tBridge\t0\t0\t500")
    docked = '{"bike":7,"type":"city","state":"fit","place":"dock","station":"b2","dock":500}'
    holds(program, [
        (office("o1", "add-station\tc3\tCanal\t0\t0\t501"), BAD_FIELD),
        (post("/docks/b2/mark-dock", '{"key":"d1","dock":499,"state":"broken"}'), DONE),
        (post("/docks/b2/mark-dock", '{"key":"d2","dock":501,"state":"broken"}'), BAD_FIELD),
        (post("/docks/a1/mark-dock", '{"key":"d2","dock":500,"state":"broken"}'), refused(2, "unknown_dock")),
        (post("/riders/17/start", START), STARTED),
        (post("/docks/b2/end", '{"key":"e1","bike":7,"dock":501}'), BAD_FIELD),
        (post("/docks/a1/end", '{"key":"e1","bike":7,"dock":500}'), refused(2, "unknown_dock")),
        (post("/docks/b2/end", '{"key":"e1","bike":7,"dock":499}'), refused(14, "dock_broken")),
        (
            post("/docks/b2/end", '{"key":"e1","bike":7,"dock":500}'),
            answer(200, '{"result":"ok","fare_cents":100,"balance_cents":2400}'),
        ),
        (get("/bikes/7"), answer(200, docked)),
        (post("/riders/17/start", '{"key":"s2","station":"b2","dock":501}'), BAD_FIELD),
        (post("/riders/17/start", '{"key":"s2","station":"b2","dock":498}'), refused(12, "dock_empty")),
        (office("o2", "open-order\t3\tb2\t*\tcity\t1"), answer(200, '{"result":"ok","order":2}')),
        (post("/crews/3/load", '{"key":"l1","order":2,"bike":7}'), DONE),
        (post("/crews/3/unload", '{"key":"u1","order":2,"bike":7,"side":"from","dock":501}'), BAD_FIELD),
        (post("/crews/3/unload", '{"key":"u1","order":2,"bike":7,"side":"from","dock":500}'), DONE),
        (get("/bikes/7"), answer(200, docked)),
    ])
    is_sound(program)


def test_no_system(program):
    assert program.run("init", "city.db") == READY
    holds(program, [
        (office("o1", "add-name\tstation\ta1\tde\tHafen"), refused(38, "system_missing")),
        (office("o1", "add-name\tsystem\tmetro\tde\tMetro"), refused(38, "system_missing")),
        (office("o1", "change-system\tM\t24/7\tc\tEtc/UTC\thttps://x.example\t60"), refused(38, "system_missing")),
        (office("o1", "set-name\tsystem\tmetro\ten\tMetro"), refused(38, "system_missing")),
        (office("o1", "remove-name\tstation\ta1\tde"), refused(38, "system_missing")),
        (office("o1", "move-station\ta1\t0\t0"), refused(1, "unknown_station")),
        (office("o1", "add-docks\ta1\t1"), refused(1, "unknown_station")),
        *((get_feed(name), error(404)) for name in FEEDS),
        *((get(target), error(404)) for target in ("/riders/17", "/bikes/7", "/rentals/1", "/orders/1")),
        (post("/riders/17/start", START), refused(4, "unknown_rider")),
        (office("o1", CITY[0]), DONE),
        (get_feed("station_status"), answer(
            200, f'{{"last_updated":"{MOMENT}","ttl":30,"version":"3.0","data":{{"stations":[]}}}}'
        )),
    ])


def test_a_retry_gives_the_same_bytes(program):
    """A retry may be written in another way, and may come after the city went on, after the server was started anew, or
    as a line."""
    city(program)
    end = post("/docks/a1/end", '{"key":"e1","bike":7,"dock":1}')
    ended = answer(200, '{"result":"ok","fare_cents":100,"balance_cents":2400}')
    retries = [
        (post("/riders/17/start", START), STARTED),
        (
            post("/riders/17/start", ' {"dock" : 1, "again": [null], "key": "s1", "station": "\\u0061\\u0031"}\r\n'),
            STARTED,
        ),
        (end, ended),
    ]
    holds(program, [*retries, (post("/riders/17/start", START), STARTED), (office("o1", "top-up\t17\t100"), answer(
        200, '{"result":"ok","balance_cents":2500}'
    )), *retries])
    holds(program, [*retries, (office("o1", "top-up\t17\t100"), answer(200, '{"result":"ok","balance_cents":2500}'))])
    line = b"1700000000\trider:17\ts1\tstart\t17\ta1\t1\n1700000000\tdock:a1\te1\tend\t7\ta1\t1\n"
    assert program.run("lines", "city.db", given=line) == (0, b"rental\t1\t7\nfare\t100\t2400\n", b"")
    holds(program, [(get("/riders/17"), NOT_RIDING), (get("/rentals/2"), error(404))])


def test_keys(program):
    """A key belongs to its caller, an accepted one to its command, and a refused one to nobody."""
    city(program)
    assert program.run("lines", "city.db", given=b"1700000000\tcrew:3\tk\tmark-bike\t7\tfit\n") == (0, b"ok\n", b"")
    holds(program, [
        (post("/riders/17/start", '{"key":"k","station":"a1","dock":2}'), refused(14, "dock_broken")),
        (post("/riders/17/start", '{"key":"k","station":"a1","dock":1}'), STARTED),
        (post("/riders/17/start", '{"key":"k","station":"a1","dock":2}'), refused(33, "key_reused")),
        (post("/riders/17/start", '{"key":"k","station":"a1","dock":0}'), BAD_FIELD),
        (post("/crews/3/mark-bike", '{"key":"k","bike":7,"state":"fit"}'), DONE),
        (post("/crews/3/mark-bike", '{"key":"k","bike":7,"state":"disabled"}'), refused(33, "key_reused")),
        (post("/docks/a1/mark-bike", '{"key":"k","bike":7,"state":"disabled"}'), DONE),
        (post("/docks/a1/mark-dock", '{"key":"k","dock":2,"state":"broken"}'), refused(33, "key_reused")),
        (office("k", "mark-bike\t7\tfit"), DONE),
        (office("k", "mark-bike\t7\tfit "), BAD_FIELD),
        (post("/crews/4/mark-bike", '{"key":"k","bike":7,"state":"disabled"}'), DONE),
    ])


def test_names_that_are_well_formed_are_left_to_the_command(program):
    city(program)
    holds(program, [
        (post("/riders/18/start", START), refused(4, "unknown_rider")),
        (post("/riders/17/start", '{"key":"k","station":"zz","dock":1}'), refused(1, "unknown_station")),
        (post("/riders/17/start", '{"key":"k","station":"a1","dock":3}'), refused(2, "unknown_dock")),
        (post("/docks/zz/end", '{"key":"k","bike":8,"dock":1}'), refused(3, "unknown_bike")),
        (post("/docks/zz/end", '{"key":"k","bike":7,"dock":1}'), refused(21, "not_rented")),
        (post("/docks/zz/mark-dock", '{"key":"k","dock":1,"state":"broken"}'), refused(1, "unknown_station")),
        (post("/docks/a1/mark-dock", '{"key":"k","dock":500,"state":"broken"}'), refused(2, "unknown_dock")),
        (post("/docks/zz/mark-bike", '{"key":"k","bike":8,"state":"fit"}'), refused(3, "unknown_bike")),
        (post("/crews/9/load", '{"key":"k","order":1,"bike":7}'), refused(8, "unknown_truck")),
        (post("/crews/3/load", '{"key":"k","order":2,"bike":7}'), refused(9, "unknown_order")),
        (post("/crews/3/load", '{"key":"k","order":1,"bike":7}'), refused(27, "order_closed")),
        (
            post("/crews/3/unload", '{"key":"k","order":100000000,"bike":7,"side":"to","dock":0}'),
            refused(9, "unknown_order"),
        ),
        (post("/crews/3/mark-bike", '{"key":"k","bike":999999,"state":"fit"}'), refused(3, "unknown_bike")),
        (office("k", "add-rider\t17"), refused(10, "already_there")),
        # The bicycle stands at a1; another station's equipment may mark it too.
        (post("/docks/zz/mark-bike", '{"key":"k","bike":7,"state":"fit"}'), DONE),
        (post("/riders/17/start", START), STARTED),
        (post("/docks/zz/end", '{"key":"k2","bike":7,"dock":1}'), refused(1, "unknown_station")),
    ])


def test_clients_that_go_away(program):
    """The next client is served. A whole request counts even where nobody waits for its answer; a part of one never
    does."""
    city(program)
    asked = post("/riders/17/start", START)
    fronts = [b"", b"P", asked[:20], asked[:-1]]
    with Server(program, 2 * len(fronts) + 24) as server:
        for front in fronts:
            for leave in reset, socket.socket.close:
                client = server.connect()
                client.sendall(front)
                leave(client)
        assert server.ask(get("/riders/17")) == NOT_RIDING
        for _ in range(20):
            client = server.connect()
            client.sendall(get_feed("station_information"))
            client.close()
        assert server.ask(get("/riders/17")) == NOT_RIDING
        client = server.connect()
        client.sendall(asked)
        client.close()
        # Who comes at the same time may be answered before.
        time.sleep(0.1)
        found = server.ask(get("/riders/17"))
        assert found == answer(200, '{"rider":17,"state":"open","balance_cents":2500,"rental":1}'), found


def test_an_exchange_beside_another(program):
    """A request is answered when it is whole, whoever came first."""
    city(program)
    with Server(program, 3) as server:
        with server.connect() as first, server.connect() as second, server.connect() as third:
            first.sendall(b"GET /riders/17 HTTP/1.1\r\n")
            third.sendall(post("/riders/17/start", START)[:-1])
            second.sendall(get("/nowhere"))
            assert rest(second) == error(404)
            ready, _, _ = select.select([first, third], [], [], 0.3)
            assert not ready, "an answer came before its request was whole"
            third.sendall(b"}")
            assert rest(third) == STARTED
            first.sendall(b"\r\n")
            assert rest(first) == answer(200, '{"rider":17,"state":"open","balance_cents":2500,"rental":1}')


def test_a_client_needs_not_end_its_input(program):
    """The connection is closed behind the answer although the client says nothing more."""
    city(program)
    with Server(program, 1) as server:
        with server.connect() as client:
            client.sendall(get("/riders/17"))
            assert rest(client) == NOT_RIDING


def test_moments_are_the_clocks(program):
    city(program)
    before = int(time.time())
    with Server(program, 4) as server:
        assert server.ask(post("/riders/17/start", START)) == STARTED
        start = seconds(server.told("/rentals/1")["start"])
        feed = server.told("/gbfs/3.0/station_status.json")
        time.sleep(1.1)
        later = server.told("/gbfs/3.0/station_status.json")
    after = int(time.time())
    moments = [start, seconds(feed["last_updated"]), seconds(later["last_updated"])]
    assert before <= moments[0] <= moments[1] < moments[2] <= after, (before, moments, after)
    assert seconds(feed["data"]["stations"][0]["last_reported"]) == start, (feed, start)


def test_a_clock_behind_the_city(program):
    """The city's time never goes back, and a feed is no older than what it tells."""
    city(program)
    assert program.run("lines", "city.db", given=b"4102444800\toffice\tlater\ttop-up\t17\t1\n") == (
        0, b"balance\t2501\n", b""
    )
    with Server(program, 4) as server:
        assert server.ask(post("/riders/17/start", START)) == STARTED
        found = server.ask(get("/rentals/1"))
        assert b'"start":"2100-01-01T00:00:00Z"' in found, found
        feed = server.told("/gbfs/3.0/station_status.json")
        found = server.ask(post("/docks/a1/end", '{"key":"e1","bike":7,"dock":1}'))
        assert found == answer(200, '{"result":"ok","fare_cents":100,"balance_cents":2401}'), found
    assert feed["last_updated"] == feed["data"]["stations"][0]["last_reported"] == "2100-01-01T00:00:00Z", feed


def test_what_is_refused_changes_nothing(program):
    city(program)
    holds(program, [
        (get("/riders/17"), NOT_RIDING),
        (get("/gbfs/3.0/nothing.json"), error(404)),
        (post("/riders/17/start", '{"key":"s1","station":"a1","dock":2}'), refused(14, "dock_broken")),
        (post("/riders/17/start", '{"key":"s1","station":"a1","dock":1.0}'), BAD_FIELD),
        (post("/office", "[]"), error(400)),
    ])
    # The city's time is still that of its last command: a line of the past is accepted at that moment.
    given = b"1600000000\toffice\tlast\tset-station\ta1\ttrue\ttrue\ttrue\n"
    assert program.run("lines", "city.db", given=given) == (0, b"ok\n", b"")
    assert '"last_reported":"2023-11-14T22:00:00Z"' in feed(program, "station_status")


def low_ports():
    """A free port below 1,024; none where this process may listen at none, as any but root mostly."""
    for port in random.sample(range(1, 1024), 20):
        with contextlib.suppress(OSError), socket.create_server(("127.0.0.1", port)):
            return [port]
    return []


def test_a_port_of_choice(program):
    city(program)
    for port in free_port(), *low_ports():
        with program.started("serve", "city.db", "--port", str(port), "--count", "1") as child:
            line = line_of(child)
            assert line == f"listening 127.0.0.1:{port}\n".encode(), (port, line)
            with socket.create_connection(("127.0.0.1", port), timeout=SECONDS) as client:
                client.sendall(get("/riders/17"))
                assert rest(client) == NOT_RIDING, port
            out, said = child.communicate(timeout=SECONDS)
            assert (child.returncode, out, said) == (0, b"", b""), (port, child.returncode, out, said)


def test_a_server_that_is_killed(program):
    """Without a count it serves on and on. What it answered stands in the file, whenever it is stopped."""
    city(program)
    asked = post("/riders/17/start", START)
    with Server(program) as server:
        for _ in range(5):
            assert server.ask(asked) == STARTED
        assert server.child.poll() is None
    is_sound(program)
    holds(program, [(asked, STARTED), (get("/bikes/7"), answer(
        200, '{"bike":7,"type":"city","state":"fit","place":"rental","rental":1}'
    ))])


def test_a_city_in_memory(program):
    with Server(program, 3, file=":memory:") as server:
        assert server.ask(office("o1", "add-rider\t17")) == DONE
        assert server.ask(get("/riders/17")) == answer(200, '{"rider":17,"state":"open","balance_cents":0,"rental":0}')
        assert server.ask(get_feed("gbfs")) == error(404)
    assert not os.listdir(program.folder), os.listdir(program.folder)


def test_files_that_are_not_served(program):
    words = ["--port", "0", "--count", "1"]
    with contextlib.closing(sqlite3.connect(os.path.join(program.folder, "other.db"))) as db:
        db.execute("CREATE TABLE meta (one INTEGER PRIMARY KEY, app TEXT)")
    assert ended(program, "other.db", *words) == FOREIGN
    with open(os.path.join(program.folder, "text.db"), "wb") as file:
        file.write(b"no database\n" * 100)
    assert ended(program, "text.db", *words) == STORE_FAILED
    assert ended(program, "nowhere/city.db", *words) == STORE_FAILED


def test_a_port_that_is_taken(program):
    city(program)
    with socket.create_server(("127.0.0.1", 0)) as taken:
        port = str(taken.getsockname()[1])
        assert ended(program, "city.db", "--port", port, "--count", "1") == READ_FAILED


def limited(count):
    """How to begin with so many descriptors."""
    return lambda: resource.setrlimit(resource.RLIMIT_NOFILE, (count, count))


def test_few_descriptors(program):
    """Where so many connections as may be open would not find theirs it doesn't listen; where it listens it serves."""
    city(program)
    ends = []
    for count in *range(4, 13), 64, 1000, 1015, 1016, 1017:
        # With fewer than four the system could not load the program.
        with program.started("serve", "city.db", "--port", "0", "--count", "2", preexec_fn=limited(count)) as child:
            line = line_of(child)
            listens = re.fullmatch(rb"listening 127\.0\.0\.1:([0-9]+)\n", line)
            for _ in range(2 if listens else 0):
                found = b""
                with contextlib.suppress(ConnectionError):
                    with socket.create_connection(("127.0.0.1", int(listens[1])), timeout=SECONDS) as client:
                        client.sendall(get("/riders/17"))
                        found = rest(client)
                assert found == NOT_RIDING, (count, found)
            out, said = child.communicate(timeout=SECONDS)
            ended = (child.returncode, out if listens else line + out, said)
            ended = "serves" if listens and ended == (0, b"", b"") else ended
            assert ended in ("serves", STORE_FAILED, READ_FAILED) and (ended == "serves") == (count >= 1016), (
                count, ended
            )
            ends.append(ended)
    assert READ_FAILED in ends and ends == sorted(ends, key=[STORE_FAILED, READ_FAILED, "serves"].index), ends
    is_sound(program)


def test_a_low_limit_of_descriptors_below_a_high_one(program):
    """What counts is how many it may have, and not how many it could ask for."""
    city(program)
    limit = lambda: resource.setrlimit(resource.RLIMIT_NOFILE, (256, 4096))
    with program.started("serve", "city.db", "--port", "0", "--count", "1", preexec_fn=limit) as child:
        line = line_of(child)
        assert line == b"", line
        out, said = child.communicate(timeout=SECONDS)
        assert (child.returncode, out, said) == READ_FAILED, (child.returncode, out, said)
    is_sound(program)


def test_descriptors_that_it_was_given(program):
    """Others than its own are open already: it has room for 1,000 clients, or doesn't listen."""
    city(program)
    for count in 8, 16, 40:
        with contextlib.ExitStack() as closing:
            given = tuple(closing.enter_context(open(os.devnull, "rb")).fileno() for _ in range(count))
            words = ["serve", "city.db", "--port", "0"]
            child = closing.enter_context(program.started(*words, pass_fds=given, preexec_fn=limited(1024)))
            listens = re.fullmatch(rb"listening 127\.0\.0\.1:([0-9]+)\n", line_of(child))
            # Of these only eight leave room for 1,000 clients and for what is its own.
            assert bool(listens) == (count == 8), f"given {count} it {'listens' if listens else 'ends'}"
            if not listens:
                out, said = child.communicate(timeout=SECONDS)
                assert (child.returncode, out, said) == READ_FAILED, (count, child.returncode, out, said)
                continue
            room = closing.enter_context(with_sockets(1200))
            assert room, "this process may not have 1,200 descriptors"
            clients = [
                closing.enter_context(socket.create_connection(("127.0.0.1", int(listens[1])), timeout=SECONDS))
                for _ in range(1000)
            ]
            for client in clients:
                client.sendall(get("/riders/17"))
            found = {rest(client) for client in clients}
            assert found == {NOT_RIDING} and child.poll() is None, (count, found, child.poll())


def test_a_server_that_has_nothing_to_do(program):
    """With nobody there, and with 900 clients that say nothing, it takes no processor to speak of."""
    city(program)
    with Server(program) as server, with_sockets(1200) as may, contextlib.ExitStack() as closing:
        for count in (0, 1, 900) if may else (0, 1):
            for _ in range(count):
                closing.enter_context(server.connect())
            time.sleep(0.5)
            before = processor(server.child)
            time.sleep(1)
            took = processor(server.child) - before
            assert took < 20_000_000, f"{count} silent clients: {took} ns of a processor in a second"


def test_wrong_words(program):
    city(program)
    for words in (
        [], ["--port"], ["--port", "65536"], ["--port", "080"], ["--port", "+80"], ["--port", "-1"], ["--port", ""],
        ["--port", "x"], ["0"],
        ["--port", "0", "--count"], ["--port", "0", "--count", "0"], ["--port", "0", "--count", "1000000001"],
        ["--port", "0", "--count", "01"],
        ["--port", "0", "--port", "0"], ["--port", "0", "--count", "1", "more"], ["--count", "1"],
        ["--port", "0", "--host", "127.0.0.1"],
    ):
        status, out, said = ended(program, "city.db", *words)
        assert (status, out) == (2, b"") and tells_mistake(said), (words, status, out, said)
