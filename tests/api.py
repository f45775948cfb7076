"""The requests that docs/API.md shows, in their order: each body has to be the one below its line."""

import re
import shlex

import formats
from shared import FEEDS, TOP, Server, body_of, get, post, timeless

SHOWN = re.compile(r"^curl (-s .*)\n(\{.*\})$", re.M)


def request_of(words):
    """The request of curl's words: a POST where there is a body."""
    target = words[1].removeprefix("http://127.0.0.1:8080")
    assert words[0] == "-s" and words[1] != target and (len(words) == 2 or words[2] == "-d"), words
    return post(target, words[3]) if len(words) == 4 else get(target)


def test_the_requests_of_the_document(program):
    """Over the city of the file that the document names first."""
    text = (TOP / "docs/API.md").read_text(encoding="utf-8")
    words = re.search(r"^bikeshare lines (\S+) < (docs/\S+)$", text, re.M)
    status, out, said = program.run("lines", "city.db", given=(TOP / words[2]).read_bytes())
    assert (status, said) == (0, b"") and b"refused" not in out, (status, out, said)
    shown = [(request_of(shlex.split(words)), body) for words, body in SHOWN.findall(text)]
    assert len(shown) == text.count("\ncurl ") > 20, len(shown)
    with Server(program, len(shown)) as server:
        for asked, body in shown:
            found = timeless(body_of(server.ask(asked)))
            assert found == timeless(body.encode()), f"{asked!r}: {found!r}, not {body!r}"


def test_every_path_is_told(program):
    """The paths are those of docs/openapi.yaml, but for the feeds, which stand by one line."""
    text = (TOP / "docs/API.md").read_text(encoding="utf-8")
    paths = re.findall(r"^  (/\S+):$", (TOP / "docs/openapi.yaml").read_text(encoding="utf-8"), re.M)
    assert len(paths) == 21, paths
    titles = " ".join(re.findall(r"^### .*$", text, re.M))
    for path in paths:
        assert path in titles or path.startswith("/gbfs/"), path
    for name in FEEDS:
        assert f"`{name}`" in text, name


def test_refusals_are_those_of_the_rules(program):
    """The names of refusals are those of docs/OPERATOR.md, section 6, and each route has those of its command's row in
    section 7, in order."""
    rules, text = ((TOP / it).read_text(encoding="utf-8") for it in ("docs/OPERATOR.md", "docs/API.md"))
    assert {
        int(number): name for number, name in re.findall(r"^\| (\d+) \| ([a-z_]+) \| ", rules, re.M)
    } == formats.REFUSALS
    rows = {
        word: numbers for word, numbers in re.findall(r"^\| \*\*([a-z-]+)\*\* \| [^|]+ \| ([^|]+) \| ", rules, re.M)
    }
    told = re.findall(r"^\| `([a-z-]+)` \| `key`[^|]* \| [^|]+ \| ([^|]+) \|$", text, re.M)
    told.append(("start", text.split("### POST /riders/{rider}/start", 1)[1].split("409:", 1)[1].split("```", 1)[0]))
    assert sorted(word for word, _ in told) == sorted(["start", "end", "mark-dock", "mark-bike", "load", "unload"]), (
        told
    )
    for word, refusals in told:
        found = re.findall(r"(\d+)\s+`([a-z_]+)`", refusals)
        assert [number for number, _ in found] == rows[word].split(", "), (word, found, rows[word])
        assert all(formats.REFUSALS[int(number)] == name for number, name in found), (word, found)
    for number, name in [
        *re.findall(r"\b(\d{1,2}) `([a-z_]+)`", text), *re.findall(r'"number":(\d+),"name":"([a-z_]+)"', text)
    ]:
        assert formats.REFUSALS[int(number)] == name, (number, name)
