"""The texts of docs/FORMATS.md, sections 1 to 3, read by Python alone, with the bounds of docs/OPERATOR.md, section 2.
It holds no test."""

import re

LAST_MOMENT = 253_402_300_799
GREATEST_FARE = 34_561_800_000
MOST_ENTRIES = 100_000_000
NUMBERED, SERIAL = (1, 999_999), (1, 100_000_000)
MOST_DOCKS = 500
NAMED = ("system", "station", "type", "plan", "description", "region")

REFUSALS = dict(enumerate((
    "unknown_station unknown_dock unknown_bike unknown_rider unknown_rental unknown_type unknown_plan unknown_truck "
    "unknown_order already_there bad_field dock_empty dock_full dock_broken bike_disabled not_renting not_returning "
    "rider_blocked balance_negative rider_is_riding not_rented not_in_depot bike_retired truck_too_small wrong_place "
    "wrong_type order_closed order_filled bikes_on_truck refund_too_large rental_open limit_reached key_reused "
    "truck_full rental_closed wrong_truck_or_ends unknown_region system_missing unknown_name"
).split(), 1))


def is_ident(text):
    return re.fullmatch(rb"[a-z0-9_-]{1,36}", text) is not None


def is_key(text):
    return re.fullmatch(rb"[A-Za-z0-9_-]{1,64}", text) is not None


def is_end(text):
    """Whether the text is an identifier, or `*` in place of one: an end of an order, or the region of a station."""
    return text == b"*" or is_ident(text)


def number(text, least, most):
    """The number that the text spells within its bounds, or none."""
    if re.fullmatch(rb"0|[1-9][0-9]{0,19}", text) is None or not least <= int(text) <= most:
        return None
    return int(text)


def is_utf8(text):
    try:
        text.decode("utf-8")
    except UnicodeDecodeError:
        return False
    return True


def unescaped(text):
    """The text that is spelled with escapes, or none."""
    if re.fullmatch(rb"(?:[^\\\t\n\r\0]|\\[\\tnr])*", text, re.S) is None:
        return None
    return re.sub(rb"\\(.)", lambda it: {b"\\": b"\\", b"t": b"\t", b"n": b"\n", b"r": b"\r"}[it[1]], text, flags=re.S)


def is_name_value(value):
    return 1 <= len(value) <= 120 and b"\0" not in value and is_utf8(value)


def is_ascii_value(value):
    return 1 <= len(value) <= 200 and all(0x20 <= it <= 0x7E for it in value)


def is_language(text):
    return re.fullmatch(rb"[A-Za-z0-9-]{2,35}", text) is not None


def is_currency(text):
    return re.fullmatch(rb"[A-Z]{3}", text) is not None


def is_name(text):
    value = unescaped(text)
    return value is not None and is_name_value(value)


def is_ascii(text):
    value = unescaped(text)
    return value is not None and is_ascii_value(value)


def coordinate(text, most):
    """Microdegrees, or none."""
    found = re.fullmatch(rb"(-?)([0-9]{1,3})(?:\.([0-9]{1,6}))?", text)
    if found is None:
        return None
    value = int(found[2]) * 1_000_000 + int((found[3] or b"").ljust(6, b"0"))
    return (-value if found[1] else value) if value <= most else None


def coordinate_text(value):
    whole, part = divmod(abs(value), 1_000_000)
    return f"{'-' if value < 0 else ''}{whole}.{part:06}".encode()


def is_rate(text):
    sign, digits = (True, text[1:]) if text.startswith(b"-") else (False, text)
    return number(digits, 1 if sign else 0, 100_000) is not None


def is_segment(text):
    fields = text.split(b":")
    if len(fields) != 4:
        return False
    start, end = number(fields[0], 0, 100_000), number(fields[3], 0, 100_000)
    good_end = fields[3] == b"-" or (end is not None and start is not None and end > start)
    return start is not None and is_rate(fields[1]) and number(fields[2], 0, 100_000) is not None and good_end


def is_segments(text):
    parts = text.split(b";")
    return text == b"-" or (len(parts) <= 8 and all(is_segment(it) for it in parts))


def within(least, most):
    return lambda text: number(text, least, most) is not None


def one_of(*words):
    return lambda text: text in [it.encode() for it in words]


FLAG = one_of("true", "false")
PLACE = [lambda it: coordinate(it, 90_000_000) is not None, lambda it: coordinate(it, 180_000_000) is not None]
COUNTED, SERIALS, DOCK, AMOUNT = within(*NUMBERED), within(*SERIAL), within(1, MOST_DOCKS), within(1, 1_000_000)
COMMANDS = {
    b"set-system": [
        is_ident, is_language, is_name, is_ascii, is_ascii, is_ascii, is_currency, is_ascii, within(0, 86_400)
    ],
    b"change-system": [is_name, is_ascii, is_ascii, is_ascii, is_ascii, within(0, 86_400)],
    b"add-plan": [is_ident, is_name, within(0, 1_000_000), FLAG, is_name, is_segments],
    b"add-type": [
        is_ident, is_name, one_of("bicycle", "cargo_bicycle"), one_of("human", "electric_assist"), within(0, 1_000_000),
        is_ident,
    ],
    b"set-plan": [is_ident, is_ident],
    b"add-region": [is_ident, is_name],
    b"add-station": [is_ident, is_name, *PLACE, DOCK],
    b"move-station": [is_ident, *PLACE],
    b"add-docks": [is_ident, DOCK],
    b"set-region": [is_ident, is_end],
    b"set-station": [is_ident, FLAG, FLAG, FLAG],
    b"mark-dock": [is_ident, DOCK, one_of("broken", "working")],
    b"add-bike": [COUNTED, is_ident],
    b"mark-bike": [COUNTED, one_of("disabled", "fit")],
    b"retire-bike": [COUNTED],
    b"add-rider": [COUNTED],
    b"set-rider": [COUNTED, one_of("open", "blocked")],
    b"top-up": [COUNTED, AMOUNT],
    b"refund": [SERIALS, AMOUNT],
    b"start": [COUNTED, is_ident, DOCK],
    b"end": [COUNTED, is_ident, DOCK],
    b"recover": [SERIALS],
    b"add-truck": [COUNTED, within(1, 60)],
    b"open-order": [COUNTED, is_end, is_end, is_ident, within(1, 60)],
    b"load": [COUNTED, SERIALS, COUNTED],
    b"unload": [COUNTED, SERIALS, COUNTED, one_of("from", "to"), within(0, MOST_DOCKS)],
    b"close-order": [SERIALS],
    b"add-name": [one_of(*NAMED), is_ident, is_language, is_name],
    b"set-name": [one_of(*NAMED), is_ident, is_language, is_name],
    b"remove-name": [one_of(*NAMED), is_ident, is_language],
}


def command_text(text):
    """The one text of the command that is spelled, or none where none is."""
    word, *fields = text.split(b"\t")
    wanted = COMMANDS.get(word)
    if (
        wanted is None
        or len(wanted) != len(fields)
        or not is_utf8(text)
        or not all(good(it) for good, it in zip(wanted, fields))
    ):
        return None
    if word == b"add-type" and (fields[3] == b"human") != (fields[4] == b"0"):
        return None
    if word in (b"add-station", b"move-station"):
        at = 2 if word == b"add-station" else 1
        fields[at : at + 2] = [coordinate_text(coordinate(it, 180_000_000)) for it in fields[at : at + 2]]
    return b"\t".join([word, *fields])


def is_caller(text):
    kind, colon, name = text.partition(b":")
    if not colon:
        return kind == b"office"
    return COUNTED(name) if kind in (b"rider", b"crew") else kind in (b"office", b"dock", b"import") and is_ident(name)


def spells_request(line):
    """Whether a line, without its line feed, is a request."""
    parts = line.split(b"\t", 3)
    if len(line) > 4096 or len(parts) < 4 or not is_utf8(line):
        return False
    moment, caller, key, command = parts
    return (
        number(moment, 0, LAST_MOMENT) is not None
        and is_caller(caller)
        and is_key(key)
        and command_text(command) is not None
    )


def is_reply(text):
    """Whether the text is one of section 3."""
    word, *fields = text.split(b"\t")
    if word == b"refused":
        return (
            len(fields) == 2 and within(1, len(REFUSALS))(fields[0]) and REFUSALS[int(fields[0])].encode() == fields[1]
        )
    wanted = {
        b"ok": [], b"balance": [is_balance], b"rental": [SERIALS, COUNTED],
        b"fare": [within(0, GREATEST_FARE), is_balance], b"order": [SERIALS],
    }.get(word)
    return wanted is not None and len(wanted) == len(fields) and all(good(it) for good, it in zip(wanted, fields))


def is_balance(text):
    sign, digits = (True, text[1:]) if text.startswith(b"-") else (False, text)
    return number(digits, 1 if sign else 0, 2**63 if sign else 2**63 - 1) is not None
