"""The numbers of the bounds. Each is one constant of the source, which code, contracts and definitions cite, so a wrong
number would be wrong in all of them and no proof would tell. Those here are from docs/OPERATOR.md, sections 2 and 11,
and docs/FORMATS.md; the greatest fare is a price and eight segments' rates in each of 43,201 minutes. Those of the
server are from docs/API.md and docs/DECISIONS.md."""

import re

from shared import TOP

CRATES = TOP / "crates"
CONSTANT = re.compile(r"^(?:pub(?:\(crate\))? )?const ([A-Z_]+): [iu](?:32|64|size) = ([0-9_]+);", re.M)

BOUNDS = {
    "LAST_MOMENT": 253402300799,
    "GREATEST_COORDINATE": 180 * 10**6,
    "GREATEST_LATITUDE": 90 * 10**6,
    "GREATEST_NUMBER": 999999,
    "GREATEST_SERIAL": 10**8,
    "GREATEST_PAYMENT": 10**6,
    "GREATEST_PRICE": 10**6,
    "GREATEST_RATE": 10**5,
    "GREATEST_RANGE": 10**6,
    "LAST_MINUTE": 10**5,
    "LONGEST_TIME_TO_LIVE": 24 * 60 * 60,
    "MOST_SEGMENTS": 8,
    "MOST_DOCKS": 500,
    "MOST_CARRIED": 60,
    "LONGEST_IDENT": 36,
    "LONGEST_KEY": 64,
    "SHORTEST_LANGUAGE": 2,
    "LONGEST_LANGUAGE": 35,
    "CURRENCY_LENGTH": 3,
    "LONGEST_NAME": 120,
    "LONGEST_ASCII": 200,
    "LINE_LENGTH": 4096,
    "LONGEST": 30 * 24 * 60 * 60,
    "MINUTES": 30 * 24 * 60 + 1,
    "GREATEST_FARE": 10**6 + 8 * 10**5 * (30 * 24 * 60 + 1),
    "GREATEST_BALANCE": (10**6 + 8 * 10**5 * (30 * 24 * 60 + 1)) * (10**8 - 1),
    "MOST_PLANS": 256,
    "MOST_TYPES": 32,
    "MOST_REGIONS": 256,
    "MOST_FURTHER_NAMES": 3,
    "MOST_STATIONS": 5000,
    "MOST_BIKES": 10**5,
    "MOST_TRUCKS": 1000,
    "MOST_RIDERS": 5 * 10**5,
    "MOST_ORDERS": 10**7,
    "MOST_ENTRIES": 10**8,
    "MOST_CONNECTIONS": 10**9,
    "MOST_ROWS": 10**6,
    "MOST_FIELDS": 32,
    "HEAD_LENGTH": 8192,
    "BODY_LENGTH": 16384,
    "GREATEST_AFTER": 2**63 - 1,
    "GREATEST_REQUEST": 2**63 - 1,
    "REQUESTS_A_PAGE": 64,
}

# How long the server waits, how many connections, calls and descriptors it counts, and how much it holds of each. A
# name that stands in several crates has its crate before it.
SERVER = {
    # Seconds: for an exchange, and for the answers under way at the end.
    "PATIENCE": 10,
    "PATIENCE_DONE": 10,
    "PATIENCE_STOPPED": 1,
    # Milliseconds: behind an answer, for a request that comes alone, and until accepting is tried again.
    "LINGER": 200,
    "PATIENCE_ALONE": 1,
    "ACCEPTS_AGAIN": 100,
    # How many: connections, what a turn has, reads and writes of one, pieces behind an answer, and reads in all.
    "MOST_OPEN": 1000,
    "bike_http_connections/TURN": 64,
    "MOST_CALLS": 16,
    "MOST_PIECES": 64,
    "bike_http_request/MOST_READS": 20_000,
    # Bytes: of a request, a read and a block; and blocks, of all answers and that are free for a feed.
    "MOST_BYTES": 8192 + 16384,
    "bike_http_connection/PIECE": 4096,
    "BLOCK": 65_536,
    "MOST_BLOCKS": 512,
    "FEED_BLOCKS": 256,
    # Descriptors: open at least, and still to be opened beside those of connections.
    "LEAST_OPEN": 8,
    "FURTHER": 8,
}


def constants():
    """Each number that is a constant of the source, by its name and by its crate's name and its own."""
    for file in CRATES.glob("*/src/**/*.rt"):
        crate = file.relative_to(CRATES).parts[0]
        for name, digits in CONSTANT.findall(file.read_text(encoding="utf-8")):
            number = int(digits.replace("_", ""))
            yield name, number
            yield f"{crate}/{name}", number


def test_numbers(program):
    assert CONSTANT.findall("const A: u64 = 1_000;\npub(crate) const B: usize = 2;\n    pub const C: u32 = 3;\n") == [
        ("A", "1_000"), ("B", "2")
    ]
    found = list(constants())
    for name, number in [*BOUNDS.items(), *SERVER.items()]:
        assert [it for at, it in found if at == name] == [number], f"{name} is not {number}"
