"""How many statement texts a program that serves may send: the engine keeps the plans of 64 (docs/DECISIONS.md)."""

import re

from shared import TOP

# The crates whose statements are sent while requests and feeds are served, and what only the tables of a day ask.
SERVING = (
    "bike_office_reads", "bike_desk", "bike_feeds", "bike_fleet_reads", "bike_http", "bike_batch", "bike_queries",
    "bike_views", "bike_writes",
)
TEXT = re.compile(r'"((?:SELECT|INSERT|UPDATE|DELETE|REPLACE|WITH)\b(?:[^"\\]|\\.)*)"', re.S)
# An INSERT that `table!` of bike_book makes of the table's columns.
MADE = re.compile(r"\btable!\((insert \w+)\)")
OF_A_DAY = {
    "SELECT * FROM entries WHERE entry > ?1 AND at >= ?2 AND at < ?3 ORDER BY entry LIMIT 1",
    "SELECT * FROM rentals WHERE rental > ?1 AND finish >= ?2 AND finish < ?3 ORDER BY rental LIMIT 1",
    "SELECT * FROM history WHERE number > ?1 AND moment >= ?2 AND moment < ?3 ORDER BY number LIMIT 1",
}
# What the office corrects now and then: each pushes out one text, which is compiled once more when it is asked for.
OF_A_CORRECTION = {
    "UPDATE system SET name = ?2, hours = ?3, contact = ?4, zone = ?5, base_url = ?6, ttl = ?7 WHERE one = ?1",
    "UPDATE stations_4 SET lat = ?2, lon = ?3 WHERE station_id = ?1",
    "UPDATE stations_4 SET docks = ?2, free = ?3 WHERE station_id = ?1",
    "UPDATE system SET name = ?2 WHERE one = ?1",
    "UPDATE stations_4 SET name = ?2 WHERE station_id = ?1",
    "UPDATE types SET name = ?2 WHERE type_id = ?1",
    "UPDATE plans SET name = ?2 WHERE plan_id = ?1",
    "UPDATE plans SET description = ?2 WHERE plan_id = ?1",
    "UPDATE regions SET name = ?2 WHERE region_id = ?1",
    "UPDATE more_names SET name = ?4 WHERE kind = ?1 AND id = ?2 AND language = ?3",
    "DELETE FROM more_names WHERE kind = ?1 AND id = ?2 AND language = ?3",
}


def test_the_engine_keeps_all(program):
    sources = [
        file.read_text(encoding="utf-8")
        for crate in SERVING
        for file in sorted((TOP / "crates" / crate / "src").rglob("*.rt"))
    ]
    made = {text for source in sources for text in MADE.findall(source)}
    assert "insert entries" in made, "the statements that add rows aren't those"
    texts = made.union(*map(TEXT.findall, sources))
    assert OF_A_DAY < texts, "the statements of a day's tables aren't those"
    assert OF_A_CORRECTION < texts, "the statements of corrections aren't those"
    usual = texts - OF_A_DAY - OF_A_CORRECTION
    assert len(usual) <= 64, f"{len(usual)} statement texts"
