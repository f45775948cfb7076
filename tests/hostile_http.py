"""Hostile HTTP requests from a seeded generator. What they are made of, and by which variables more are made, is told
in hostile.py.

Whatever comes, the server neither crashes nor hangs. Each connection gets one well-formed response, the one that
docs/FORMATS.md, section 6, and the operator in model.py demand where this file can tell it, or is closed. Afterwards
`check` says `sound`.
"""

import contextlib
import json
import random
import re
import socket
import time

import formats
from hostile import INPUTS, SECONDS, SEED, caller, command, make_city, mutated
from shared import FEEDS, Server, get, is_sound, reset, rest, told

GETS = ["/riders/1", "/bikes/1", "/rentals/1", "/orders/1", "/riders/999999", *(f"/gbfs/3.0/{it}.json" for it in FEEDS)]
ODD_TARGETS = [
    "/", "*", "/office/", "//office", "/%6fffice", "/office%00", "/riders/%31", "/riders/01", "/riders/0", "/riders/+1",
    "/riders/1000000", "/riders/" + "9" * 400, "/docks/A1/end", "/docks/a1", "/docks//end", "/gbfs/3.0/",
    "/gbfs/3.0/x.json", "/../etc/passwd", "/riders/1/start/", "http://127.0.0.1/office", "/office#x", "/riders/1?x=%zz",
    "/?", "?", "/" + "a" * 7000, "/" + "a" * 9000, "/riders/" + "%41" * 2000, "/crews/1/load?" + "q" * 3000,
    "/office/Ann", "/office/ann/", "/office/" + "a" * 37, "/office/a%6e", "/office/ann?x",
]
ODD_VALUES = [
    b"1e400", b"-1e400", b"1e-400", b"01", b"nan", b'"\\ud800"', b'"\\u0000"', b"tru", b"-", b"1.", b'"\xff"', b'"\t"',
    b"9" * 3000,
]
ODD_LENGTHS = ["0", "+5", "-1", "0x10", "", "1 2", "9" * 30, "16385", "16384", "18446744073709551616"]
ODD_FIELDS = [
    "X: " + "x" * 8100, "Expect: 100-continue", "Connection: keep-alive", "X: \x00", " X: folded", "X : 1", ": 1", "X",
    "X: \xff", "X:\x0b1", "X: \r 1",
]


def posted(pick):
    """A target of a POST, and members that are mostly right."""
    def one(good, bad):
        return pick.choice(good if pick.random() < 0.93 else bad)

    dock, station = (
        one([1, 2, 3, 4, 5, 1, 2, 3, 4, 5, 201, 500], [0, 501, "1", 1.0, None, -1, 2**64, [1]]),
        one(["a1", "b2", "zz"], ["A1", 5, ""]),
    )
    bike, state = (
        one([1, 2, 3, 4, 9], [0, 1_000_000, "1", True]), one(["disabled", "fit", "broken", "working"], ["Fit", True])
    )
    order, side = one([1, 2, 3], [0, 100_000_001]), one(["to", "from"], ["up", 1])
    named = {
        "key": f"h{pick.randrange(10**6)}" if pick.random() < 0.96 else pick.choice(["", "k" * 65, 1, "é", "k 1", None])
    }
    rider, dock_at, truck = pick.randint(1, 9), pick.choice(["a1", "b2", "zz", "c-3"]), pick.choice([1, 3, 5])
    person = pick.choice(["ann", "bob-2", "17", "_"])
    return pick.choice([
        (f"/riders/{rider}/start", {**named, "station": station, "dock": dock}),
        (f"/docks/{dock_at}/end", {**named, "bike": bike, "dock": dock}),
        (f"/docks/{dock_at}/mark-dock", {**named, "dock": dock, "state": state}),
        (f"/docks/{dock_at}/mark-bike", {**named, "bike": bike, "state": state}),
        (f"/crews/{truck}/load", {**named, "order": order, "bike": bike}),
        (f"/crews/{truck}/unload", {**named, "order": order, "bike": bike, "side": side, "dock": dock}),
        (f"/crews/{truck}/mark-bike", {**named, "bike": bike, "state": state}),
        ("/office", {**named, "command": "\t".join(command(pick))}),
        (f"/office/{person}", {**named, "command": "\t".join(command(pick))}),
        (
            "/office",
            {**named, "command": mutated(pick, "\t".join(command(pick)).encode(), True).decode(errors="replace")},
        ),
    ])


def json_text(pick, members):
    """A JSON text of the members, often spoiled or spelled oddly."""
    kind = pick.random()
    text = json.dumps(members, ensure_ascii=pick.random() < 0.5).encode("utf-8", "surrogatepass")
    if kind < 0.7:
        return text
    if kind < 0.85:
        return mutated(pick, text, True)
    inside = text[:-1]
    return pick.choice([
        inside + b',"x":' + b"[" * (n := pick.choice([1, 126, 127, 128, 4000])) + b"]" * n + b"}",
        inside + b',"x":' + b'{"a":' * (n := pick.choice([1, 125, 126, 127])) + b"1" + b"}" * n + b"}",
        inside + b',"x":' + pick.choice(ODD_VALUES) + b"}",
        inside + b"," + text[1:], b"[" + text + b"]", text + text, b"\xef\xbb\xbf" + text, text + b"\0",
        text.decode("utf-8", "replace").encode("utf-16"), b" \r\n\t" + text + b" \n", b"", b"null", b"[]", b"{}",
        b'"x"', b"[" * 8000,
        b"{" * 8000, text.ljust(16_384), text.ljust(16_385), inside,
    ])


def http_input(pick):
    """A request, mostly one whose head is good."""
    kind = pick.random()
    if kind < 0.35:
        method, target, body = "GET", pick.choice(GETS), b""
    else:
        target, members = posted(pick)
        method, body = "POST", json_text(pick, members)
    if pick.random() < 0.1:
        target = pick.choice(ODD_TARGETS)
    if pick.random() < 0.06:
        method = pick.choice(["HEAD", "OPTIONS", "PUT", "get", "POST", "GET", "X-Y", "DELETE"])
    if pick.random() < 0.1:
        target += pick.choice(["?", "?a=b", "?/../", "/", "%20"])
    fields = fields_of(pick, method, body)
    version = "HTTP/1.1"
    if pick.random() >= 0.95:
        version = pick.choice(["HTTP/1.0", "HTTP/2.0", "HTTP/1.2", "http/1.1", "HTTP/1.1 ", ""])
    ending = "\r\n" if pick.random() < 0.93 else pick.choice(["\n", "\r", "\r\r\n"])
    data = ending.join([f"{method} {target} {version}", *fields, "", ""]).encode("utf-8", "surrogatepass") + body
    return spoiled(pick, data)


def fields_of(pick, method, body):
    """The fields of a request's head, mostly good ones."""
    fields = ["Host: 127.0.0.1"] if pick.random() < 0.8 else []
    length = str(len(body))
    if pick.random() < 0.12:
        length = pick.choice([
            str(len(body) + 1), str(max(0, len(body) - 1)), "00" + length, length + " ", *ODD_LENGTHS
        ])
    if method == "POST" or pick.random() < 0.2:
        fields.append(pick.choice(["Content-Length", "content-length", "CONTENT-LENGTH"]) + ": " + length)
    if pick.random() < 0.04:
        coding = "Transfer-Encoding: chunked", "Transfer-Encoding: identity"
        fields.append(pick.choice([*coding, "Content-Length: " + length, "transfer-encoding:"]))
    if pick.random() < 0.1:
        count = pick.choice([1, 5, 29, 30, 31, 32, 33, 200])
        fields += [f"X-{number}: {'v' * pick.choice([0, 1, 200])}" for number in range(count)]
    if pick.random() < 0.05:
        fields.append(pick.choice(ODD_FIELDS))
    return fields


def spoiled(pick, data):
    """A request as it is, mostly; else with something behind or before it, cut, changed, or other bytes."""
    last = pick.random()
    if last < 0.12:
        return mutated(pick, data, True)
    if last < 0.2:
        return data + pick.choice([
            data, b"x", b"GET /riders/1 HTTP/1.1\r\n\r\n", b"\r\n" * 50, b"\0" * 1000, b"y" * 100_000
        ])
    if last < 0.25:
        return data[: pick.randrange(len(data) + 1)]
    if last < 0.27:
        return bytes(pick.randrange(256) for _ in range(pick.choice([1, 10, 500, 9000])))
    if last < 0.28:
        return b"\r\n" * pick.choice([1, 10, 4096, 5000]) + data
    return data


PLAIN_LINE = re.compile(rb"([A-Za-z-]+) ([!-~]+) HTTP/1\.[01]")
PLAIN_FIELD = re.compile(rb"([A-Za-z0-9-]+):([ -~]*)")


def plain_head(data):
    """The method, target, fields and length of a head that is spelled plainly, or none."""
    head, end, _ = data.partition(b"\r\n\r\n")
    first, *fields = head.split(b"\r\n")
    line, found = PLAIN_LINE.fullmatch(first), [PLAIN_FIELD.fullmatch(it) for it in fields]
    if not end or line is None or not all(found):
        return None
    return line[1], line[2], [(it[1].lower(), it[2].strip(b" ")) for it in found], len(head) + 4


ROUTES = [
    (rb"/riders/(?P<rider>[^/]*)/start", "POST", {"station": "ident", "dock": (1, formats.MOST_DOCKS)}),
    (rb"/docks/(?P<station>[^/]*)/end", "POST", {"bike": (1, 999_999), "dock": (1, formats.MOST_DOCKS)}),
    (
        rb"/docks/(?P<station>[^/]*)/mark-dock",
        "POST",
        {"dock": (1, formats.MOST_DOCKS), "state": ("broken", "working")},
    ),
    (rb"/docks/(?P<station>[^/]*)/mark-bike", "POST", {"bike": (1, 999_999), "state": ("disabled", "fit")}),
    (rb"/crews/(?P<truck>[^/]*)/load", "POST", {"order": (1, 100_000_000), "bike": (1, 999_999)}),
    (
        rb"/crews/(?P<truck>[^/]*)/unload",
        "POST",
        {"order": (1, 100_000_000), "bike": (1, 999_999), "side": ("from", "to"), "dock": (0, formats.MOST_DOCKS)},
    ),
    (rb"/crews/(?P<truck>[^/]*)/mark-bike", "POST", {"bike": (1, 999_999), "state": ("disabled", "fit")}),
    (rb"/office", "POST", {"command": "command"}), (rb"/office/(?P<person>[^/]*)", "POST", {"command": "command"}),
    (rb"/riders/(?P<rider>[^/]*)", "GET", "row"), (rb"/bikes/(?P<rider>[^/]*)", "GET", "row"),
    (rb"/rentals/(?P<serial>[^/]*)", "GET", "row"), (rb"/orders/(?P<serial>[^/]*)", "GET", "row"),
    (rb"/history/(?P<number>[^/]*)", "GET", "feed"),
    *((rb"/gbfs/3\.0/%s\.json" % it.encode(), "GET", "feed") for it in FEEDS),
]


class NoJson(Exception):
    pass


def no_json(*_):
    raise NoJson


def json_object(body):
    """The members of a body, or none where it is no JSON object of the document."""
    depth = most = 0
    inside = escaped = False
    for byte in body:
        if inside:
            inside, escaped = (escaped or byte != 0x22), (not escaped and byte == 0x5C)
        elif byte == 0x22:
            inside = True
        elif byte in b"[{":
            depth += 1
            most = max(most, depth)
        elif byte in b"]}":
            depth -= 1
    if most > 127:
        return None

    try:
        if body.startswith(b"\xef\xbb\xbf"):
            return None
        members = json.loads(
            body.decode("utf-8"),
            parse_constant=no_json,
            parse_int=whole,
            parse_float=floating,
            object_pairs_hook=paired,
        )
    except (NoJson, ValueError, RecursionError):
        return None
    return members if isinstance(members, dict) else None


def floating(text):
    return float(text) if abs(float(text)) != float("inf") else no_json()


def whole(text):
    """A whole number; `-0` is none, and neither is one that only a float can hold."""
    value = floating(text)
    return value if text == "-0" or len(text) > 20 else int(text)


def encodes(text):
    try:
        text.encode("utf-8")
    except UnicodeEncodeError:
        return False
    return True


def paired(pairs):
    """Of equal members the last counts, but all have to be texts and values."""
    for pair in pairs:
        if not encodes(json.dumps(pair, ensure_ascii=False)):
            no_json()
    return dict(pairs)


def is_good_member(kind, value):
    if kind == "ident":
        return isinstance(value, str) and formats.is_ident(value.encode())
    if kind == "command":
        return isinstance(value, str) and formats.command_text(value.encode()) is not None
    if isinstance(kind[0], str):
        return value in kind if isinstance(value, str) else False
    return isinstance(value, int) and not isinstance(value, bool) and kind[0] <= value <= kind[1]


def wanted(data, operator):
    """What section 6 demands of a response: its status, the name in its body and the method in Allow, or the whole
    body; or none where this can't tell it."""
    if not data:
        return "nothing"
    found = plain_head(data)
    if found is None:
        return None
    method_given, target, fields, size = found
    if size > 8192 or len(fields) > 32:
        return 400, "bad_request"
    return measured(method_given, target, fields, data[size:], operator)


def measured(method, target, fields, rest, operator):
    """What is demanded of a request with a good head."""
    lengths = [value for name, value in fields if name == b"content-length"]
    if (
        any(name == b"transfer-encoding" for name, _ in fields)
        or len(lengths) > 1
        or not all(re.fullmatch(rb"[0-9]+", it) for it in lengths)
    ):
        return 400, "bad_request"
    digits = lengths[0].lstrip(b"0") if lengths else b""
    length = int(digits or b"0") if len(digits) < 10 else 10**9
    if length > 16_384:
        return 413, "too_large"
    if len(rest) < length:
        return 400, "bad_request"
    return routed(method, target.split(b"?", 1)[0], rest[:length], operator)


def routed(method_given, path, body, operator):
    for pattern, method, rest in ROUTES:
        parts = re.fullmatch(pattern, path)
        if parts is None:
            continue
        good = {
            "rider": formats.COUNTED, "truck": formats.COUNTED, "station": formats.is_ident, "person": formats.is_ident,
            "serial": formats.SERIALS, "number": formats.within(0, 2**63 - 1),
        }
        if not all(good[name](value) for name, value in parts.groupdict().items()):
            return 404, "not_found"
        if method_given != method.encode():
            return 405, "method_not_allowed", method
        return (200, 404) if rest == "row" else 200 if rest == "feed" else of_body(path.decode(), body, rest, operator)
    return 404, "not_found"


def of_body(path, body, members, operator):
    given = json_object(body)
    if given is None:
        return 400, "bad_request"
    if not isinstance(given.get("key"), str) or not formats.is_key(given["key"].encode()):
        return 400, "bad_field"
    if not all(it in given and is_good_member(kind, given[it]) for it, kind in members.items()):
        return 400, "bad_field"
    line = [str(int(time.time())), *as_line(path, given)]
    return body_of("\t".join(line).encode(), operator)


def as_line(path, given):
    """The caller, key and command of a request over HTTP."""
    _, kind, *rest = path.split("/")
    if kind == "office":
        return [":".join([kind, *rest]), given["key"], given["command"]]
    name, word = rest
    caller = f"{kind.removesuffix('s')}:{name}"
    fields = {
        "start": [name, "station", "dock"], "end": ["bike", name, "dock"], "mark-dock": [name, "dock", "state"],
        "mark-bike": ["bike", "state"],
        "load": [name, "order", "bike"], "unload": [name, "order", "bike", "side", "dock"],
    }[word]
    return [
        caller,
        given["key"],
        "\t".join([word, *(str(given[it]) if it in given and it != name else it for it in fields)]),
    ]


def body_of(line, operator):
    """The status and the body that tell the operator's reply."""
    word, *fields = operator.answer(line).decode().split("\t")
    if word == "refused":
        return (
            400 if fields[0] == "11" else 409,
            f'{{"result":"refused","number":{fields[0]},"name":"{fields[1]}"}}'.encode(),
        )
    names = {
        "ok": [], "balance": ["balance_cents"], "rental": ["rental", "bike"], "fare": ["fare_cents", "balance_cents"],
        "order": ["order"],
    }[word]
    return 200, ('{"result":"ok"' + "".join(f',"{name}":{value}' for name, value in zip(names, fields)) + "}").encode()


def loosely(data, operator):
    """Tells the operator of a request whose head is spelled in a way that plain_head does not read, but that the
    program took."""
    head, rest = re.match(rb"(?s)[\r\n]*(.*?)\r?\n\r?\n(.*)", data).groups()
    first, *fields = re.split(rb"\r?\n", head)
    method, target, _ = first.split(b" ")
    named = [it.partition(b":") for it in fields]
    return measured(method, target, [(name.lower(), value.strip(b" \t")) for name, _, value in named], rest, operator)


HEAD = re.compile(
    rb"HTTP/1\.1 (200 OK|400 Bad Request|404 Not Found|405 Method Not Allowed|409 Conflict|413 Payload Too Large)\r\n"
    rb"Content-Type: application/json\r\n"
    rb"Content-Length: (0|[1-9][0-9]*)\r\nConnection: close\r\n(?:Allow: (GET|POST)\r\n)?\r\n"
)


def judged(data, found, operator):
    """What is wrong with the response, or nothing."""
    want = wanted(data, operator)
    if want == "nothing":
        return found and "an answer to nothing"
    head = HEAD.match(found)
    if head is None or len(found) - len(head[0]) != int(head[2]):
        return "not a well-formed response"
    status, body = int(head[1][:3]), found[len(head[0]) :]
    members = json.loads(body)
    if want is None and body != b'{"result":"error","name":"bad_request"}':
        want = loosely(data, operator)
    if (status == 405) != (head[3] is not None):
        return "Allow without 405 or 405 without Allow"
    if want is None:
        return status != 400 and "a status of no table"
    if want == 200:
        return (status != 200 or members.get("version") != "3.0") and "wanted is a feed"
    if want == (200, 404):
        return (
            (status not in want or (status == 404) != (members == {"result": "error", "name": "not_found"}))
            and "wanted is a row or none"
        )
    if isinstance(want[1], bytes):
        return (status, body) != want and f"wanted is {want}"
    if len(want) > 2 and head[3].decode() != want[2]:
        return f"wanted is {want}"
    kind = "refused" if want[1] == "bad_field" else "error"
    return (status, members.get("name"), members.get("result")) != (*want[:2], kind) and f"wanted is {want}"


def exchanged(server, data, pick):
    """Sends the input in some manner, and returns all bytes that come back; none where nobody waits for them."""
    manner = pick.random() if pick else 0
    with server.connect() as client:
        try:
            if manner < 0.7:
                client.sendall(data)
            elif manner < 0.9:
                cuts = sorted(pick.randrange(len(data) + 1) for _ in range(pick.choice([1, 2, 5])))
                for begin, end in zip([0, *cuts], [*cuts, len(data)]):
                    client.sendall(data[begin:end])
                    time.sleep(0.001)
            elif manner < 0.95:
                client.sendall(data[: pick.randrange(len(data) + 1)])
                return None if pick.random() < 0.5 else reset(client)
            else:
                client.sendall(data)
                return None
        except (BrokenPipeError, ConnectionResetError):
            pass
        with contextlib.suppress(OSError):
            client.shutdown(socket.SHUT_WR)
        return rest(client)


def tries_one(server, operator, pick, where):
    """Sends an input, and holds its answer to what is wanted."""
    data = http_input(pick)
    try:
        found = exchanged(server, data, pick)
        if found is None:
            # Nobody knows whether that counted, so it is sent again whole: where it did, the answer is the kept one.
            found = exchanged(server, data, None)
        wrong = judged(data, found, operator)
    except (OSError, ValueError, AttributeError, KeyError, IndexError) as fault:
        found, wrong = None, f"{type(fault).__name__}: {fault}, and the server's status is {server.child.poll()}"
    assert not wrong, f"{where}: {wrong}: {told(data, 600)} is answered by {found and told(found, 600)}"


def test_http(program):
    pick = random.Random(f"{SEED} http")
    operator = make_city(program, "city.db")
    make_city(program, "idle.db")
    left = INPUTS * 3 // 10
    with Server(program, file="city.db") as server, Server(program, file="idle.db") as second:
        # A client that says no more holds nobody, and is given up.
        idle = second.connect()
        idle.sendall(b"GET /riders/1 HT")
        begun = time.monotonic()
        while left:
            left -= 1
            tries_one(server, operator, pick, f"seed {SEED}, {left} inputs before the end")
            if left % 100 == 0:
                for it in server, second:
                    found = it.ask(get("/bikes/1"))
                    assert found.startswith(b"HTTP/1.1 200 OK\r\n"), found
        assert server.child.poll() is None, server.child.poll()
        idle.settimeout(SECONDS)
        assert rest(idle) == b"", "an idle client got an answer"
        assert time.monotonic() - begun > 9, time.monotonic() - begun
        idle.close()
    for file in "city.db", "idle.db":
        is_sound(program, file, f"seed {SEED}, {file}")
