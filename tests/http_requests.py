"""Requests by their bytes, over plain sockets: heads, lengths and bodies at their bounds and beyond, members, paths and
methods, what is refused first, and requests that are cut or come in pieces.

Each wanted answer is written by hand from docs/FORMATS.md, sections 5 and 6.
"""

import contextlib
import json
import socket
import time

from serving import NOT_RIDING
from shared import (
    BAD_FIELD, FEEDS, MOMENT, START, STARTED, Server, answer, ask, city, error, get, holds, post, refused, request,
    rest, rows_of,
)
from system_faults import System


def fields(count):
    return [f"X-{number}: {number}" for number in range(count)]


def test_32_fields_and_33(program):
    city(program)
    body = START.encode()
    holds(program, [
        (request("GET", "/riders/17", *fields(32)), NOT_RIDING),
        (request("GET", "/riders/17", *fields(33)), error(400)),
        (request("GET", "/nowhere", *fields(33)), error(400)),
        (request("GET", "/riders/17"), NOT_RIDING),
        (request("POST", "/riders/17/start", *fields(32), "Content-Length: 36", body=body), error(400)),
        (request("POST", "/riders/17/start", *fields(31), "Content-Length: 36", body=body), STARTED),
    ])


def padded(size, front=b""):
    """A request for rider 17 whose head has so many bytes, the ones in front and the last line end too."""
    head = front + b"GET /riders/17 HTTP/1.1\r\nX: \r\n\r\n"
    return head.replace(b"X: ", b"X: " + b"x" * (size - len(head)))


def test_heads_of_8192_bytes_and_8193(program):
    city(program)
    assert (len(padded(8192)), len(padded(8193, b"\r\n\n"))) == (8192, 8193)
    holds(program, [
        (padded(8192), NOT_RIDING),
        (padded(8193), error(400)),
        (padded(8192, b"\r\n"), NOT_RIDING),
        (padded(8193, b"\r\n"), error(400)),
        (padded(12000), error(400)),
    ])


def test_lengths(program):
    city(program)
    body = START.encode()
    good = [
        "Content-Length: 36", "content-LENGTH: 36", "Content-Length:36", "Content-Length: 00036",
        "Content-Length: " + "0" * 40 + "36",
    ]
    bad = [
        ["Content-Length: +36"], ["Content-Length: -36"], ["Content-Length: 0x24"], ["Content-Length: 36.0"],
        ["Content-Length: 3 6"],
        ["Content-Length: 36, 36"], ["Content-Length: 3_6"], ["Content-Length:"], ["Content-Length: a"],
        ["Content-Length: 36", "Content-Length: 36"], ["Content-Length: 36", "CONTENT-length: 0"],
        ["Content-Length: 0", "Content-Length: 36"],
        ["Content-Length: 20000", "Content-Length: 20000"], ["Content-Length: 36", "Content-Length: x"],
        ["Transfer-Encoding: chunked"], ["transfer-encoding: identity"], ["Transfer-Encoding:"],
        ["Transfer-Encoding: chunked", "Content-Length: 36"], ["Content-Length: 20000", "Transfer-Encoding: chunked"],
    ]
    holds(program, [
        *((request("POST", "/riders/17/start", *it, body=body), error(400)) for it in bad),
        (request("POST", "/riders/17/start", "Content-Length: +5", body=b"12345"), error(400)),
        (
            request("POST", "/riders/17/start", "Transfer-Encoding: chunked", body=b"24\r\n" + body + b"\r\n0\r\n\r\n"),
            error(400),
        ),
        (request("GET", "/riders/17", "Transfer-Encoding: chunked", body=b"0\r\n\r\n"), error(400)),
        (request("GET", "/riders/17", "Content-Length: +0"), error(400)),
        (get("/riders/17"), NOT_RIDING),
        *((request("POST", "/riders/17/start", it, body=body), STARTED) for it in good),
    ])


def test_lengths_that_are_too_great(program):
    """The body isn't waited for."""
    city(program)
    lengths = [
        "16385", "20000", "9" * 30, "9" * 300, "0" * 30 + "16385", "4294967296", "18446744073709551616",
        "18446744073709551652",
    ]
    holds(program, [(request("POST", "/riders/17/start", f"Content-Length: {it}"), error(413)) for it in lengths])
    holds(program, [
        (request("POST", "/nowhere", "Content-Length: 20000"), error(413)),
        (request("GET", "/riders/17", "Content-Length: 16385"), error(413)),
        (request("GET", "/riders/17/start", "Content-Length: 16385"), error(413)),
        (request("POST", "/riders/17/start", "Content-Length: 16385", body=b" " * 16385), error(413)),
        (get("/riders/17"), NOT_RIDING),
    ])


def test_bodies_of_16384_bytes(program):
    city(program)
    note = '{"key":"s1","station":"a1","dock":1,"note":"' + "n" * 16338 + '"}'
    assert len(note) == 16384
    holds(program, [
        (post("/riders/17/start", START + " " * (16384 - 36)), STARTED),
        (post("/riders/17/start", note), STARTED),
        (request("GET", "/orders/1", "Content-Length: 16384", body=b"\xff" * 16384), answer(
            200, '{"order":1,"truck":3,"from":"*","to":"a1","type":"city","count":1,"delivered":1,"is_open":false}'
        )),
    ])


def test_the_greatest_request(program):
    """A head and a body that are both as long as they may be; and the same without its last byte."""
    city(program)
    lines = ["POST /riders/17/start HTTP/1.1", "Content-Length: 16384", "X: ", "", ""]
    head = "\r\n".join(lines).encode()
    whole = head.replace(b"X: ", b"X: " + b"x" * (8192 - len(head))) + START.encode() + b" " * (16384 - 36)
    assert len(whole) == 8192 + 16384
    holds(program, [(whole[:-1], error(400)), (get("/riders/17"), NOT_RIDING), (whole, STARTED)], ends=True)


def nested(depth):
    return "[" * depth + "]" * depth


def test_bodies_that_are_no_object(program):
    city(program)
    members = START[:-1]
    values = ["", "01", "+1", ".5", "1.", "1e400", "nan", "'y'", '"\t"', '"\\x"', '"\\ud800"', '"\\udc00\\ud800"']
    bad = [
        "", " ", "[]", "null", "1", '"key"', "true", "{", "}", "{]", "[" + START + "]", START + START, START + "x",
        START + "\0", members,
        members + ",}", members + ',"x"}', *(f'{members},"x":{it}}}' for it in values), START.replace('"', "'"),
        "\ufeff" + START,
        "/**/" + START,
        nested(127), nested(128), nested(8000), members + ',"x":' + nested(127) + "}", '{"x":' * 128 + "1" + "}" * 128,
    ]
    bytes_too = [
        START.encode().replace(b"}", b',"x":"\xff"}'),
        START.encode("utf-16"),
        members.encode() + b',"\xed\xa0\x80":1}',
        b"\xff",
    ]
    holds(program, [
        *((post("/riders/17/start", it), error(400)) for it in (*bad, *bytes_too)),
        (request("POST", "/riders/17/start"), error(400)),
        (post("/office", '{"key":"o1","command":"top-up\t17\t100"}'), error(400)),
        (post("/crews/3/load", "[]"), error(400)),
        (get("/riders/17"), NOT_RIDING),
        (post("/riders/17/start", members + ',"x":' + nested(126) + "}"), STARTED),
    ])


def test_long_bodies_that_are_no_object(program):
    """They are the client's fault too, and no want of memory."""
    city(program)
    bad = ["{" + " " * 12_000, "x" * 16_000, "[" * 16_000, '{"key":' * 2000, '"' + "y" * 15_000, f"[{'1,' * 8000}]"]
    bad += [START[:-1] + ',"x":' + '[{"y":' * 2000, START + " " * 12_000 + "x", "\0" * 16_384, "{" * 10_001]
    for target in "/riders/17/start", "/office", "/docks/a1/end", "/crews/3/load":
        holds(program, [(post(target, it), error(400)) for it in bad])
    holds(program, [(get("/riders/17"), NOT_RIDING), (post("/riders/17/start", START + " " * 12_000), STARTED)])


def test_bodies_that_are_objects(program):
    """Each of these is one request in another spelling, so that all but the first are answered by the kept reply."""
    city(program)
    holds(program, [(post("/riders/17/start", it), STARTED) for it in (
        START,
        '\t\r\n { "key" : "s1" , "station" : "a1" , "dock" : 1 } \t\r\n',
        '{"dock":1,"station":"a1","key":"s1"}',
        '{"\\u006bey":"\\u00731","st\\u0061tion":"a1","dock":1}',
        '{"key":"s1","station":"a1","dock":1,"Dock":2,"rider":18,"bike":9,"command":"x","":null}',
        (
            '{"key":"s1","station":"a1","dock":1,"x":{"dock":2,"key":[]},"y":[1e300,-0,0.5,true,false,null,'
            '"\\ud83d\\udeb2","Łódź"]}'
        ),
        '{"dock":2,"key":"s1","station":"a1","dock":1}',
        '{"dock":"x","station":null,"key":[],"key":"s1","station":"a1","dock":1}',
        '{"key":"s1","station":"a1","d\\u006fck":2,"dock":1}',
    )])


def test_members_of_a_start(program):
    city(program)
    kinds = ["null", "true", "[]", "{}", "[1]", '["a1"]']
    numbers = ['"1"', "1.0", "1e0", "10e-1", "-0", "-1", "0", "501", "1.5", "4294967297"]
    numbers += ["18446744073709551615", "18446744073709551616", "18446744073709551617"]
    stations = ["1", '""', '"A1"', '"a 1"', '"a1\\u0000"', '"a1 "', '"a1\\t1"', '"é"', '"*"', '"' + "a" * 37 + '"']
    keys = ["1", '""', '"s 1"', '"s.1"', '"s:1"', '"é"', '"s1\\n"', '"' + "k" * 65 + '"']
    rows = [f'{{"key":"s1","station":"a1","dock":{it}}}' for it in (*kinds, *numbers)]
    rows += [f'{{"key":"s1","station":{it},"dock":1}}' for it in (*kinds, *stations)]
    rows += [f'{{"key":{it},"station":"a1","dock":1}}' for it in (*kinds, *keys)]
    rows += [
        "{}", '{"key":"s1","station":"a1"}', '{"key":"s1","dock":1}', '{"station":"a1","dock":1}',
        '{"key":1,"station":"a1"}',
    ]
    rows += [
        '{"Key":"s1","station":"a1","dock":1}',
        '{"dock":1,"key":"s1","station":"a1","dock":"1"}',
        '{"x":' * 127 + "1" + "}" * 127,
    ]
    holds(program, [
        *((post("/riders/17/start", it), BAD_FIELD) for it in rows),
        (get("/riders/17"), NOT_RIDING),
        (post("/riders/17/start", '{"key":"%s","station":"a1","dock":1}' % ("aZ09_-" * 10 + "kkkk")), STARTED),
    ])


def test_members_of_the_other_routes(program):
    city(program)
    good = {
        "/docks/a1/end": {"key": "k", "bike": 7, "dock": 1},
        "/docks/a1/mark-dock": {"key": "k", "dock": 1, "state": "broken"},
        "/docks/a1/mark-bike": {"key": "k", "bike": 7, "state": "disabled"},
        "/crews/3/load": {"key": "k", "order": 1, "bike": 7},
        "/crews/3/unload": {"key": "k", "order": 1, "bike": 7, "side": "to", "dock": 1},
        "/crews/3/mark-bike": {"key": "k", "bike": 7, "state": "disabled"},
        "/office": {"key": "k", "command": "mark-bike\t7\tdisabled"},
        "/office/ann": {"key": "k", "command": "mark-bike\t7\tdisabled"},
    }
    wrong = {
        "key": [1, "", "k" * 65],
        "bike": ["7", 0, 1000000, 7.0, -7, None],
        "dock": ["1", 501, 1.0, -1, None],
        "order": ["1", 0, 100000001, 1.0, [1]],
        "side": ["up", "From", "", 1, None],
        "state": ["gone", "Broken", "", True, None],
        "command": [
            1, None, [], "", "nothing", "mark-bike", "mark-bike\t7", "mark-bike\t7\tdisabled\t", "mark-bike 7 disabled",
            "x" * 5000, "mark-bike\t07\tdisabled", "mark-bike\\t7\\tdisabled", "mark-bike\t7\tdisabled\n",
            " mark-bike\t7\tdisabled",
        ],
    }
    rows = []
    for target, members in good.items():
        for name in members:
            rows.append((target, {it: members[it] for it in members if it != name}))
            rows += [(target, {**members, name: it}) for it in wrong[name]]
    for target, name, value in (
        ("/docks/a1/end", "dock", 0), ("/docks/a1/mark-dock", "dock", 0), ("/docks/a1/mark-dock", "state", "fit"),
        ("/docks/a1/mark-bike", "state", "broken"), ("/docks/a1/mark-bike", "state", "retired"),
        ("/crews/3/unload", "side", "*"),
    ):
        rows.append((target, {**good[target], name: value}))
    holds(program, [
        *((post(target, json.dumps(members)), BAD_FIELD) for target, members in rows),
        (get("/bikes/7"), answer(200, '{"bike":7,"type":"city","state":"fit","place":"dock","station":"a1","dock":1}')),
    ])


def test_the_order_of_tests(program):
    """What two tests would refuse is refused by the first."""
    city(program)
    cut = ["Content-Length: 36"]
    holds(program, [
        # The head before the lengths, the lengths before the body, and both before the path.
        (request("POST", "/nowhere", *fields(32), "Content-Length: 20000"), error(400)),
        (request("POST", "/nowhere", "Content-Length: 20000", "Content-Length: 1"), error(400)),
        (request("POST", "/nowhere", "Transfer-Encoding: chunked", "Content-Length: 20000"), error(400)),
        (request("POST", "/nowhere", "Content-Length: 20000"), error(413)),
        (request("GET", "/riders/17/start", "Content-Length: 20000"), error(413)),
        (request("POST", "/nowhere", *cut, body=b"[]"), error(400)),
        (request("GET", "/nowhere", *cut), error(400)),
        (request("GET", "/riders/17", *cut, body=b"[]"), error(400)),
        (request("GET", "/riders/17/start", *cut, body=b"[]"), error(400)),
        # The path before the method, and the method before what the body says.
        (request("PUT", "/nowhere"), error(404)),
        (post("/riders/0", START), error(404)),
        (get("/riders/0/start"), error(404)),
        (get("/docks/A1/end"), error(404)),
        (post("/riders/0/start", "[]"), error(404)),
        (post("/nowhere", "[]"), error(404)),
        (request("PUT", "/office", "Content-Length: 2", body=b"[]"), error(405, "POST")),
        (post("/riders/17", "[]"), error(405, "GET")),
        (post("/riders/18", START), error(405, "GET")),
        (post("/gbfs/3.0/gbfs.json", "{}"), error(405, "GET")),
        (get("/docks/zz/end"), error(405, "POST")),
        # An object before its members, the members before the command.
        (post("/riders/18/start", "[]"), error(400)),
        (post("/riders/18/start", '{"key":"s1","station":"zz","dock":0}'), BAD_FIELD),
        (post("/riders/18/start", '{"key":"s1","station":"zz","dock":9}'), refused(4, "unknown_rider")),
    ], ends=True)


def test_paths(program):
    city(program)
    none = [
        "/", "/nowhere", "*", "?", "/?", "//", "office", "//office", "/office/", "/office//", "/Office", "/office/A",
        "/office/ann/", "/office//ann", "/office/ann/x", "/office/a.b", "/office/a%31", "/office/*",
        "/office/" + "a" * 37,
        "/offic", "/office;x", "/office#x", "/%6fffice", "%2foffice", "http://127.0.0.1/office", "/./office",
        "/x/../office", "\\office", "/riders", "/riders/", "/riders//", "//riders/17", "/riders//17", "/riders/17/",
        "/riders/%31%37", "/riders/17%20", "/Riders/17", "/rider/17", "/riders/0", "/riders/017", "/riders/1000000",
        "/riders/" + "9" * 40, "/riders/-17", "/riders/+17", "/riders/17.0", "/riders/0x11", "/riders/17a", "/riders/*",
        "/riders/{rider}", "/riders/17,18", "/riders/\u0661\u0667", "/bikes/+7", "/bikes/07", "/bikes/0",
        "/bikes/1000000", "/rentals/0", "/rentals/01", "/rentals/100000001", "/orders/0", "/orders/01",
        "/orders/100000001", "/orders/" + "1" * 40, "/history", "/history/", "/history/00", "/history/01", "/history/x",
        "/history/-1", "/history/1/", "/history/9223372036854775808", "/history/" + "1" * 40,
        "/riders/17/stop", "/riders/start", "/riders//start",
        "/riders/17/start/", "/riders/17//start", "/riders/17/Start", "/riders/017/start", "/docks/A1/end",
        "/docks//end", "/docks/a%31/end", "/docks/a1/end/", "/docks/*/end", "/docks/" + "a" * 37 + "/end", "/docks/a1",
        "/docks/a.1/end", "/docks/A1/mark-dock", "/docks/A1/mark-bike", "/docks/a1/start", "/docks/a1/mark_dock",
        "/crews/0/load", "/crews/1000000/load", "/crews/03/load", "/crews/x/unload", "/crews/03/mark-bike", "/crews/3",
        "/crews/3/end", "/crews/3/mark-dock", "/gbfs", "/gbfs/3.0", "/gbfs/3.0/", "/gbfs/3.0/.json", "/gbfs/3.0/gbfs",
        "/gbfs/3.0/gbfs.JSON", "/gbfs/3.0/gbfs.json/", "/gbfs/3.0/x.json", "/gbfs/3.0/Gbfs.json",
        "/gbfs/3.0//gbfs.json", "/gbfs/3.1/gbfs.json", "/gbfs/2.3/gbfs.json", "/gbfs/3.0/gbfs.json.json", "/gbfs.json",
    ]
    holds(program, [(get(it), error(404)) for it in none])
    holds(program, [(post(it, START), error(404)) for it in none])


def test_a_person_of_the_office(program):
    """What /office/NAME is asked is answered as by /office. It stands under that name in the history, and its keys are
    others than those of /office and of other names; request lines share them."""
    city(program)

    def top_up(target, cents):
        return post(target, f'{{"key":"p1","command":"top-up\\t17\\t{cents}"}}')

    def balance(cents):
        return answer(200, f'{{"result":"ok","balance_cents":{cents}}}')

    names = ["", "/ann", "/bob", "/" + "a0_-" * 9]
    holds(program, [
        *((top_up(f"/office{it}", 100 + at), balance(2600 + at * (201 + at) // 2)) for at, it in enumerate(names)),
        *((top_up(f"/office{it}", 100 + at), balance(2600 + at * (201 + at) // 2)) for at, it in enumerate(names)),
        *((top_up(f"/office{it}", 500), refused(33, "key_reused")) for it in names),
        (post("/office/ann", '{"key":"p2","command":"top-up\\t18\\t1"}'), refused(4, "unknown_rider")),
        (post("/office/ann", '{"key":"p2","command":"top-up\\t17"}'), BAD_FIELD),
        (post("/office/ann?bob", '{"key":"p2","command":"add-rider\\t18"}'), answer(200, '{"result":"ok"}')),
    ])
    query = "SELECT caller, req_key FROM history WHERE req_key GLOB 'p*' ORDER BY number"
    found = rows_of(query, program.folder, "city.db")
    assert found == [*((f"office{it}".replace("/", ":"), "p1") for it in names), ("office:ann", "p2")], found
    assert ask(program, ["top-up\t17\t101"], caller="office:ann", key="p") == ["balance\t2701"]


def test_names_at_their_bounds(program):
    city(program)
    long = "a0_-" * 9
    holds(program, [
        (get("/riders/999999"), error(404)),
        (post("/riders/999999", ""), error(405, "GET")),
        (post("/riders/999999/start", START), refused(4, "unknown_rider")),
        (post("/crews/999999/load", '{"key":"k","order":1,"bike":7}'), refused(8, "unknown_truck")),
        (post(f"/docks/{long}/mark-dock", '{"key":"k","dock":500,"state":"broken"}'), refused(1, "unknown_station")),
        (post("/docks/-/mark-dock", '{"key":"k","dock":1,"state":"broken"}'), refused(1, "unknown_station")),
        (post("/rentals/100000000", ""), error(405, "GET")),
        (get("/orders/100000000"), error(404)),
        (get("/bikes/999999"), error(404)),
    ])


def test_queries_are_left_out(program):
    city(program)
    feed = answer(
        200,
        f'{{"last_updated":"{MOMENT}","ttl":30,"version":"3.0","data":{{"system_id":"metro","languages":["en"],'
        '"name":[{"text":"Metro Bikes","language":"en"}],"opening_hours":"24/7",'
        '"feed_contact_email":"feeds@example.org","timezone":"Etc/UTC"}}',
    )
    holds(program, [
        (get("/riders/17?"), NOT_RIDING),
        (get("/riders/17?a/b"), NOT_RIDING),
        (get("/riders/17?x=/../?%zz#y"), NOT_RIDING),
        (get("/riders/17??"), NOT_RIDING),
        (get("/riders/17%3f"), error(404)),
        (get("/gbfs/3.0/system_information.json?at=0"), feed),
        (post("/riders/17/start?dock=2", START), STARTED),
        (post("/riders/17/start?/end", START), STARTED),
    ])


def test_other_methods(program):
    """Each is answered alike, HEAD with a body too."""
    city(program)
    others = ["HEAD", "OPTIONS", "PUT", "DELETE", "PATCH", "TRACE", "CONNECT", "get", "Get", "post", "GETS", "X-Y", "!"]
    posts = ["/office", "/office/ann", "/riders/17/start", "/docks/a1/end", "/docks/a1/mark-dock"]
    posts += ["/docks/a1/mark-bike", "/crews/3/load", "/crews/3/unload", "/crews/3/mark-bike"]
    gets = ["/riders/17", "/bikes/7", "/rentals/1", "/orders/1", "/history/0"]
    gets += [f"/gbfs/3.0/{name}.json" for name in FEEDS]
    holds(program, [
        *((get(it), error(405, "POST")) for it in posts),
        *((post(it, START), error(405, "GET")) for it in gets),
        *((get("/office", method), error(405, "POST")) for method in others),
        *((get("/riders/17", method), error(405, "GET")) for method in others),
        *((get("/gbfs/3.0/gbfs.json", method), error(405, "GET")) for method in others[:3]),
        (get("/nowhere", "HEAD"), error(404)),
        (get("*", "OPTIONS"), error(404)),
    ])


def test_heads(program):
    city(program)
    good = [
        b"GET /riders/17 HTTP/1.0\r\n\r\n",
        b"GET /riders/17 HTTP/1.1\n\n",
        b"GET /riders/17 HTTP/1.1\nHost: a\r\nX:\n\r\n",
        b"\r\n\n\r\nGET /riders/17 HTTP/1.1\r\n\r\n",
        (
            b"GET /riders/17 HTTP/1.1\r\nHost: a\r\nHost: b\r\nConnection: keep-alive\r\nAccept-Encoding: gzip\r\n"
            b"Expect: 100-continue\r\n\r\n"
        ),
        b"GET /riders/17 HTTP/1.1\r\nX: \xff\xfe\r\n\r\n",
    ]
    bad = [
        b"\r\n", b"\n", b"\r\n\r\n", b" ", b"GET", b"GET /riders/17\r\n\r\n", b"GET  /riders/17 HTTP/1.1\r\n\r\n",
        b"GET /riders/17  HTTP/1.1\r\n\r\n",
        b" GET /riders/17 HTTP/1.1\r\n\r\n", b"GET /riders/17 HTTP/2.0\r\n\r\n", b"GET /riders/17 HTTP/1.2\r\n\r\n",
        b"GET /riders/17 http/1.1\r\n\r\n",
        b"GET /riders/17 HTTP/1.1 \r\n\r\n", b"GET\t/riders/17 HTTP/1.1\r\n\r\n", b"G(T /riders/17 HTTP/1.1\r\n\r\n",
        b"GET /riders/17 HTTP/1.1\r\nHost : a\r\n\r\n", b"GET /riders/17 HTTP/1.1\r\nX: a\r\n b\r\n\r\n",
        b"GET /riders/17 HTTP/1.1\r\nX\r\n\r\n",
        b"GET /riders/17 HTTP/1.1\r\n: a\r\n\r\n", b"GET /riders/17 HTTP/1.1\r\nX: a\0b\r\n\r\n",
        b"GET /riders/17 HTTP/1.1\rX: a\r\n\r\n",
        b"\x16\x03\x01\x02\x00\x01\x00\x01\xfc\x03\x03", b"1699999200\toffice\tk\tadd-rider\t18\n",
    ]
    holds(program, [*((it, NOT_RIDING) for it in good), *((it, error(400)) for it in bad)], ends=True)
    expect = request("POST", "/riders/17/start", "Expect: 100-continue", "Content-Length: 36", body=START.encode())
    holds(program, [(expect, STARTED), (expect.replace(b"HTTP/1.1", b"HTTP/1.0"), STARTED)])


def test_inputs_that_are_cut(program):
    """No front of a request is one: none changes anything, and each but the empty one is answered."""
    city(program)
    start = post("/riders/17/start", START)
    fronts = [start[:size] for size in range(len(start))]
    shown = get("/riders/17")
    holds(program, [(b"", b""), *((it, error(400)) for it in fronts[1:])], ends=True)
    holds(program, [(shown[:size], error(400) if size else b"") for size in range(len(shown))], ends=True)
    holds(program, [(shown, NOT_RIDING), (start, STARTED)], ends=True)


def test_one_byte_a_write(program):
    city(program)
    with Server(program, 3) as server:
        for asked, wanted in (
            (post("/riders/17/start", START), STARTED), (get("/nowhere"), error(404)), (b"GET /\r\n", error(400))
        ):
            with server.connect() as client:
                for byte in asked:
                    client.sendall(bytes([byte]))
                    # So that most bytes are read alone.
                    time.sleep(0.0005)
                # An unreadable head is answered at the byte that tells, and what comes behind may meet a closed
                # connection.
                with contextlib.suppress(OSError):
                    client.shutdown(socket.SHUT_WR)
                found = rest(client)
            assert found == wanted, (asked, found)


def test_requests_of_many_reads(program):
    """Whatever the system gives at a time, a request is answered as one that came whole."""
    city(program)
    padding = " " * (16_384 - len(START))
    riding = answer(200, '{"rider":17,"state":"open","balance_cents":2500,"rental":1}')
    for most, asked, wanted in (
        (1, post("/riders/17/start", START), STARTED), (1, post("/riders/17/start", START + padding[:2000]), STARTED),
        (1, get("/nowhere"), error(404)), (1, post("/office", "{" + padding[:200]), error(400)),
        (10, post("/riders/17/start", START + padding), STARTED), (100, padded(8192), riding),
    ):
        system = System(program, RECEIVES=str(most))
        with Server(program, 1, env=system.env) as server:
            found = server.ask(asked)
            assert found == wanted, (most, asked[:80], found)


def test_cuts_between_head_and_body(program):
    city(program)
    asked = post("/riders/17/start", START)
    at = asked.index(b"\r\n\r\n")
    cuts = [1, at, at + 1, at + 2, at + 3, at + 4, at + 5, len(asked) - 1]
    with Server(program, len(cuts)) as server:
        for cut in cuts:
            with server.connect() as client:
                client.sendall(asked[:cut])
                time.sleep(0.02)
                client.sendall(asked[cut:])
                assert rest(client) == STARTED, cut


def test_what_follows_the_body_is_left(program):
    city(program)
    end = post("/docks/a1/end", '{"key":"e1","bike":7,"dock":1}')
    holds(program, [
        (get("/orders/2") + get("/riders/17"), error(404)),
        (post("/riders/17/start", START) + b"x", STARTED),
        (post("/riders/17/start", START) + end, STARTED),
        (request("GET", "/riders/17", "Content-Length: 0", body=b"\xff\0"), answer(
            200, '{"rider":17,"state":"open","balance_cents":2500,"rental":1}'
        )),
        (request("POST", "/riders/17/start", "Content-Length: 35", body=START.encode()), error(400)),
        (request("POST", "/riders/17/start", body=START.encode()), error(400)),
    ])
