"""The examples of docs/openapi.yaml, each sent to the program over a small city: the answer has to be the one that is
shown.

No YAML reader comes with Python, so the file keeps to a part of YAML that `tree_of` reads: blocks by two spaces, lists
of blocks or words with "- ", whole-line comments, and values that stand on one line. A value is JSON where it begins
with a quote, a bracket or a brace, else a plain word or number. Values stay as they are written until they are loaded,
so that an answer can be held to them byte for byte.
"""

import json
import re
import time

import formats
from shared import (
    CITY, FEEDS, TOP, Server, accepted, answer, city, get, holds, post, put, request, requests_of, taken, timeless,
)

KEY = re.compile(r'("[^"\\]*"|[A-Za-z0-9_$./{}-]+):(?: (.+))?')
PLAIN = re.compile(r"[A-Za-z0-9_][A-Za-z0-9_./-]*")
LINES = (TOP / "docs/openapi.yaml").read_text(encoding="utf-8").splitlines()


def tree_of(lines):
    """Returns the file as dicts and lists whose leaves are texts, as they are written."""
    rows = [
        (len(it) - len(it.lstrip(" ")), it.strip()) for it in lines if it.strip() and not it.lstrip().startswith("#")
    ]
    tree, rest = block(rows, 0)
    assert not rest, f"not read: {rest[0]}"
    return tree


def block(rows, indent):
    """Returns the block that begins the rows, and the rows below it."""
    assert rows and rows[0][0] == indent, (indent, rows[:1])
    if not rows[0][1].startswith("- "):
        return mapping(rows, indent)
    items = []
    while rows and rows[0][0] == indent and rows[0][1].startswith("- "):
        text = rows[0][1][2:]
        if KEY.fullmatch(text):
            item, rows = mapping([(indent + 2, text), *rows[1:]], indent + 2)
        else:
            item, rows = value(text), rows[1:]
        items.append(item)
    return items, rows


def mapping(rows, indent):
    found = {}
    while rows and rows[0][0] == indent and not rows[0][1].startswith("- "):
        parts = KEY.fullmatch(rows[0][1])
        assert parts, rows[0]
        name = parts[1].strip('"')
        assert name not in found, f"{name} stands twice"
        if parts[2]:
            found[name], rows = value(parts[2]), rows[1:]
        else:
            found[name], rows = block(rows[1:], indent + 2)
    return found, rows


def value(text):
    if text[0] in '"[{':
        json.loads(text)
    else:
        assert PLAIN.fullmatch(text), text
    return text


def loaded(tree):
    """Returns the tree with its values read."""
    if isinstance(tree, dict):
        return {name: loaded(it) for name, it in tree.items()}
    if isinstance(tree, list):
        return [loaded(it) for it in tree]
    try:
        return json.loads(tree)
    except ValueError:
        return tree


TREE = tree_of(LINES)
API = loaded(TREE)


def at(reference):
    """What a reference names."""
    found = API
    for part in reference.removeprefix("#/").split("/"):
        found = found[part]
    return found


def misfit(it, schema):
    """Why the value doesn't fit the schema, or nothing. It knows the words that docs/openapi.yaml uses, and no
    others."""
    if "$ref" in schema:
        return misfit(it, at(schema["$ref"]))
    kinds = {"object": dict, "array": list, "string": str, "integer": int, "number": (int, float), "boolean": bool}
    wrong = {
        "type": lambda kind: not isinstance(it, kinds[kind]) or (isinstance(it, bool) and kind != "boolean"),
        "const": lambda want: it != want,
        "enum": lambda wants: it not in wants,
        "minimum": lambda least: it < least,
        "maximum": lambda most: it > most,
        "pattern": lambda pattern: not re.search(pattern, it),
        "required": lambda names: [name for name in names if name not in it],
        "properties": lambda members: [
            why for name in members if name in it for why in [misfit(it[name], members[name])] if why
        ],
        "items": lambda item: [why for each in it for why in [misfit(each, item)] if why],
        "oneOf": lambda those: sum(misfit(it, one) is None for one in those) != 1,
        "anyOf": lambda those: all(misfit(it, one) for one in those),
        "description": lambda _: False,
        "format": lambda _: False,
    }
    for word, want in schema.items():
        if wrong[word](want):
            return f"{it!r} isn't of {word} {want!r}"
    return None


def operations():
    """Each operation with its path and its method."""
    return [(path, method, it) for path, methods in TREE["paths"].items() for method, it in methods.items()]


def examples_of(holder):
    return holder.get("content", {}).get("application/json", {}).get("examples", {})


def target_of(path, operation, example):
    """Where the example's request goes."""
    if "x-target" in example:
        return json.loads(example["x-target"])
    for parameter in operation.get("parameters", []):
        named = at(json.loads(parameter["$ref"]))
        path = path.replace("{" + named["name"] + "}", str(named["example"]))
    return path


def exchanges():
    """Each example of an answer: its name, the office's commands before it, its request and the whole answer."""
    for path, method, operation in operations():
        asked = examples_of(operation.get("requestBody", {}))
        answered = set()
        for status, holder in operation["responses"].items():
            for name, example in examples_of(holder).items():
                assert name not in answered, (path, name)
                answered.add(name)
                target = target_of(path, operation, example)
                sent = post(target, asked[name]["value"]) if method == "post" else get(target)
                before = json.loads(example.get("x-before", "[]"))
                yield f"{method} {path} {name}", before, sent, answer(int(status), example["value"])
        assert set(asked) <= answered, (path, set(asked) - answered)


def test_every_route_is_there(program):
    wanted = {
        "post": (
            "/riders/{rider}/start /docks/{station}/end /docks/{station}/mark-dock /docks/{station}/mark-bike "
            "/crews/{truck}/load /crews/{truck}/unload /crews/{truck}/mark-bike /office /office/{name}"
        ),
        "get": "/riders/{rider} /bikes/{bike} /rentals/{rental} /orders/{order} /history/{after} "
        + " ".join(f"/gbfs/3.0/{name}.json" for name in FEEDS),
    }
    for method, paths in wanted.items():
        assert sorted(path for path, found, _ in operations() if found == method) == sorted(paths.split()), method
    names = [it["operationId"] for _, _, it in operations()]
    assert len(names) == len(set(names)) == 21, names


def test_every_reference_names_something(program):
    found = [json.loads(it) for line in LINES for it in re.findall(r'\$ref"?: ("[^"]*")', line)]
    assert len(found) > 100
    for reference in found:
        assert at(reference), reference
    for kind, those in API["components"].items():
        for name in those:
            named = f"#/components/{kind}/{name}" in found or name == "MethodNotAllowed"
            assert named or (kind == "securitySchemes" and any(name in it for it in API["security"])), (kind, name)


def test_bounds_are_those_of_the_formats(program):
    """The numbers of refusals, and of docks."""
    schemas = API["components"]["schemas"]
    numbers = schemas["Refused"]["properties"]["number"]
    assert (numbers["minimum"], numbers["maximum"]) == (1, len(formats.REFUSALS)), numbers
    docks = [
        schemas["Dock"], *(it["properties"]["dock"] for it in schemas.values() if "dock" in it.get("properties", {}))
    ]
    assert {it["maximum"] for it in docks if "maximum" in it} == {formats.MOST_DOCKS}, docks


def test_examples_fit_their_schemas(program):
    """A request's example fits too, unless it is there to show a refusal of its members."""
    for path, _, operation in operations():
        operation = loaded(operation)
        unread = examples_of(operation["responses"]["400"])
        holders = [
            *operation["responses"].values(), *([operation["requestBody"]] if "requestBody" in operation else [])
        ]
        for holder in holders:
            for name, example in examples_of(holder).items():
                why = misfit(example["value"], holder["content"]["application/json"]["schema"])
                asked = holder is operation.get("requestBody")
                if asked and name in unread:
                    assert why or path.startswith("/office"), (path, name)
                else:
                    assert why is None, (path, name, why)
    for parameter in API["components"]["parameters"].values():
        assert misfit(parameter["example"], parameter["schema"]) is None, parameter
    for response in API["components"]["responses"].values():
        content = response["content"]["application/json"]
        assert misfit(content["example"], content["schema"]) is None, response


def test_the_city_of_the_examples(program):
    """docs/api-city.txt makes the city over which the examples are sent, with its keys."""
    text = (TOP / "docs/api-city.txt").read_bytes()
    assert text == requests_of(CITY, key="f")
    status, out, said = program.run("lines", "api.db", given=text)
    wanted = [*["ok"] * 6, "order\t1", *["ok"] * 5, "balance\t2500", ""]
    assert (status, said, out.decode().split("\n")) == (0, b"", wanted), out


def test_each_example_is_what_the_program_answers(program):
    city(program)
    made, count = taken(program.folder, "city.db"), 0
    for name, before, sent, wanted in exchanges():
        put(made, program.folder, "city.db")
        if before:
            accepted(program, before, at=int(time.time()), first=0, key="b")
        with Server(program, 1) as server:
            found = server.ask(sent)
        assert timeless(found) == timeless(wanted), f"{name}: {found!r}, not {wanted!r}"
        count += 1
    assert count > 50, count


def test_shared_answers(program):
    city(program)
    rows = {
        "BadRequest": (400, post("/office", "[]"), None),
        "NotFound": (404, get("/nowhere"), None),
        "MethodNotAllowed": (405, get("/office"), "POST"),
        "TooLarge": (413, request("POST", "/office", "Content-Length: 16385"), None),
    }
    shown = {name: it["content"]["application/json"]["example"] for name, it in TREE["components"]["responses"].items()}
    assert sorted(shown) == sorted([*rows, "Unavailable", *GATEWAY]), sorted(shown)
    holds(program, [(asked, answer(status, shown[name], allow)) for name, (status, asked, allow) in rows.items()])


GATEWAY = {"Unauthorized": 401, "Forbidden": 403, "Misdirected": 421, "TooMany": 429}


def test_the_gateways_answers(program):
    """What the gateway alone answers is what deploy/nginx.conf says, at each operation that it may stand before."""
    text = (TOP / "deploy/nginx.conf").read_text(encoding="utf-8")
    told = re.findall(r"return (\d{3}) '(\{.*?\})';", text)
    bodies = dict(told)
    assert {it for status, it in told if bodies[status] != it} == set() and len(bodies) == 9, told
    responses = TREE["components"]["responses"]
    both = {"BadRequest": 400, "NotFound": 404, "MethodNotAllowed": 405, "TooLarge": 413, "Unavailable": 503}
    for name, status in {**GATEWAY, **both}.items():
        assert responses[name]["content"]["application/json"]["example"] == bodies[str(status)], name
    heads = {name: loaded(it["headers"]) for name, it in responses.items() if "headers" in it}
    assert "429 1;" in text and heads["TooMany"]["Retry-After"]["schema"]["enum"] == [1]
    assert "503 5;" in text and heads["Unavailable"]["Retry-After"]["schema"]["enum"] == [5]
    allowed = re.findall(r'"~\^405 \." "(.+)";', text)
    assert heads["MethodNotAllowed"]["Allow"]["schema"]["enum"] == ["GET", "POST", *allowed] and allowed, allowed
    assert "401 Bearer;" in text and heads["Unauthorized"]["WWW-Authenticate"]["schema"]["enum"] == ["Bearer"]
    assert API["security"] == [{}, {"gateway": []}]
    assert API["components"]["securitySchemes"]["gateway"]["scheme"] == "bearer"
    for path, method, operation in operations():
        is_feed = path.startswith("/gbfs/")
        assert json.loads(operation.get("security", "null")) == ([] if is_feed else None), path
        for name, status in GATEWAY.items():
            there = json.loads(operation["responses"].get(str(status), {}).get("$ref", "null"))
            wanted = not is_feed or name in ("Misdirected", "TooMany")
            assert there == (f"#/components/responses/{name}" if wanted else None), (path, method, name)
