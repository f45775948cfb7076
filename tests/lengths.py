"""Texts of fields at their lengths and one past them. A length counts the bytes of the value, and not of its
spelling."""

HEAD = b"0\toffice\t"
OK = b"ok\n"
BAD_FIELD = b"refused\t11\tbad_field\n"
SYSTEM = [
    b"set-system", b"metro", b"en", b"Metro", b"24/7", b"a@example.org", b"Etc/UTC", b"EUR", b"http://127.0.0.1", b"30"
]
CHANGE = [b"change-system", *SYSTEM[3:7], *SYSTEM[8:]]
REGION = [b"add-region", b"north", b"North"]
NAME = [b"add-name", b"system", b"metro", b"de", b"Metro"]
OWN = [b"set-name", b"system", b"metro", b"en", b"Metro"]


def is_read(program, fields, at, text):
    """Whether the command is accepted with this text in the place of one field. A name in a further language, another
    name and a change of the system want a system."""
    command = b"\t".join([*fields[:at], text, *fields[at + 1 :]])
    before = [HEAD + b"k0\t" + b"\t".join(SYSTEM) + b"\n"] if fields in (NAME, OWN, CHANGE) else []
    status, found, said = program.run(given=b"".join([*before, HEAD + b"k1\t" + command + b"\n"]))
    assert found.startswith(OK * len(before)), found
    found = found.removeprefix(OK * len(before))
    assert (status, said) == (0, b"") and found in (OK, BAD_FIELD), f"status {status}, answers {found}, messages {said}"
    return found == OK


def has_lengths(program, fields, at, unit, least, most):
    for count in (least - 1, least, most, most + 1):
        found = is_read(program, fields, at, unit * count)
        assert found == (least <= count <= most), (
            f"{count} times {unit} at field {at}: {'read' if found else 'refused'}"
        )


def test_identifiers(program):
    has_lengths(program, SYSTEM, 1, b"a", 1, 36)


def test_languages(program):
    has_lengths(program, SYSTEM, 2, b"a", 2, 35)


def test_names(program):
    for unit, most in ((b"N", 120), (b"\\\\", 120), (b"\\n", 120), ("é".encode(), 60), ("🚲".encode(), 30)):
        has_lengths(program, SYSTEM, 3, unit, 1, most)
        has_lengths(program, CHANGE, 1, unit, 1, most)


def test_regions(program):
    has_lengths(program, REGION, 1, b"a", 1, 36)
    for unit, most in ((b"N", 120), (b"\\t", 120), ("🚲".encode(), 30)):
        has_lengths(program, REGION, 2, unit, 1, most)


def test_names_in_further_languages(program):
    has_lengths(program, NAME, 3, b"a", 2, 35)
    for unit, most in ((b"N", 120), (b"\\\\", 120), ("é".encode(), 60), ("🚲".encode(), 30)):
        has_lengths(program, NAME, 4, unit, 1, most)
        has_lengths(program, OWN, 4, unit, 1, most)


def test_printable_fields(program):
    for fields, at in (*((SYSTEM, at) for at in (4, 5, 6, 8)), *((CHANGE, at) for at in (2, 3, 4, 5))):
        for unit in (b"~", b" ", b"\\\\"):
            has_lengths(program, fields, at, unit, 1, 200)
        for text in (b"\x1f", b"\x7f", b"\\t", b"\\n", b"\\r", "é".encode()):
            assert not is_read(program, fields, at, text), f"{text} was read at field {at} of {fields[0]}"


def test_currencies(program):
    has_lengths(program, SYSTEM, 7, b"E", 3, 3)


def test_the_longest_system(program):
    """And its longest change, and its longest name in a further language, which changes, goes and comes again."""
    fields = [b"set-system", b"m" * 36, b"e" * 35, b"\\\\" * 120, *[b"\\\\" * 200] * 3, b"EUR", b"\\\\" * 200, b"86400"]
    head = b"253402300799\timport:" + b"i" * 36 + b"\t"
    line = head + b"k" * 64 + b"\t" + b"\t".join(fields) + b"\n"
    named = [b"system", b"m" * 36, b"f" * 35, b"\\\\" * 120]
    name, other, own, gone, again = (
        head + key * 64 + b"\t" + b"\t".join(texts) + b"\n"
        for key, texts in (
            (b"n", [b"add-name", *named]), (b"s", [b"set-name", *named[:3], b"\\t" * 120]),
            (b"o", [b"set-name", *named[:2], b"e" * 35, b"\\r" * 120]), (b"r", [b"remove-name", *named[:3]]),
            (b"a", [b"add-name", *named]),
        )
    )
    texts = [b"change-system", b"\\n" * 120, *[b"\\\\" * 200] * 4, b"86400"]
    change = head + b"c" * 64 + b"\t" + b"\t".join(texts) + b"\n"
    program.answers(line * 2 + change * 2 + name * 2 + other * 2 + own * 2 + gone * 2 + again * 2, OK * 14)
