"""What deploy/bikeshare-doctor says of a line that the program said: the POSIX text of a time zone, for `day`, and
nothing beside a finding that says all.
"""

from pathlib import Path

from doctor import city_file, doctor, told
from shared import changed, ran


def test_zones_for_day(program):
    """Of each time zone that this machine knows the doctor gives a text that day takes; of the city's own without being
    told its name. It is the last line of the zone's file."""
    city = city_file(program)
    texts = {}
    for name in sorted(doctor.known_zones()):
        text = doctor.posix_zone(name)
        assert text, name
        texts.setdefault(text, name)
        place = Path("/usr/share/zoneinfo", name)
        assert not place.exists() or ran("tail", "-n", "1", place) == (0, f"{text}\n"), (name, text)
    assert len(texts) > 50, texts
    for text, name in texts.items():
        assert program.run("day", "city.db", "entries", "2023-11-14", text)[0] == 0, (name, text)
    assert texts["CET-1CEST,M3.5.0,M10.5.0/3"] and doctor.posix_zone("Europe/Rome") == "CET-1CEST,M3.5.0,M10.5.0/3"
    for name in "Europe/Nowhere", "../../../etc/passwd", "", "europe/rome":
        assert doctor.posix_zone(name) is None, name
    assert program.run("day", "city.db", "entries", "2023-11-14", "Europe/Rome")[2] == b"bad zone\n"
    assert "of Europe/Rome it is 'CET-1CEST,M3.5.0,M10.5.0/3'." in told(city, "bad", "zone", "Europe/Rome")[1][0]
    changed(city, "UPDATE system SET zone = 'Asia/Tokyo'")
    assert told(city, "bad", "zone")[1][0].endswith("of Asia/Tokyo it is 'JST-9'."), told(city, "bad", "zone")
    for words in ("none.db", "bad", "zone"), (city, "bad", "zone", "Nowhere"):
        assert "the last line of /usr/share/zoneinfo/Europe/Rome is one." in told(*words)[1][-1], words


def test_one_line_a_fault(program):
    """Where a finding says what the program said, nothing is said beside it; where nothing is found, something is."""
    city = city_file(program)
    for said in ("store", "failed"), ("foreign",):
        lines = told(city, *said)[1]
        assert len(lines) == 1 and doctor.GENERAL in lines[0], lines
    (Path(program.folder) / "junk.db").write_bytes(b"no database" * 100)
    assert program.run("check", "junk.db") == (3, b"", b"store failed\n")
    alone = told("junk.db", cwd=program.folder)
    assert alone[0] == 1 and told("junk.db", "store", "failed", cwd=program.folder) == alone, alone
    changed(city, "CREATE TRIGGER mine AFTER INSERT ON bikes BEGIN SELECT 1; END")
    assert program.run("check", "city.db")[2] == b"foreign\n"
    alone = told(city)
    assert alone[0] == 1 and told(city, "foreign") == alone and len(alone[1]) == 1, alone
    # Another line than what is found is explained.
    assert len(told(city, "out", "of", "memory")[1]) == 2
