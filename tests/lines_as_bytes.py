"""Request lines whose bytes an editor would spoil, or that are too long to be stored."""

ADD = b"1700000000\toffice\tk0\tadd-rider\t17\n"
TOP_UP = b"1700000001\toffice\tk1\ttop-up\t17\t5"
BAD_FIELD = b"refused\t11\tbad_field\n"


def test_no_input(program):
    program.answers(b"", b"")


def test_last_line_without_line_feed(program):
    program.answers(ADD + TOP_UP, b"ok\nbalance\t5\n")
    program.answers(ADD + b"x", b"ok\n" + BAD_FIELD)


def test_line_feeds_alone(program):
    program.answers(b"\n", BAD_FIELD)
    program.answers(b"\n\n" + ADD + b"\n", 2 * BAD_FIELD + b"ok\n" + BAD_FIELD)


def test_carriage_return_before_the_line_feed(program):
    program.answers(ADD + TOP_UP + b"\r\n" + TOP_UP + b"\n", b"ok\n" + BAD_FIELD + b"balance\t5\n")


def test_byte_order_mark(program):
    program.answers(b"\xef\xbb\xbf" + ADD + ADD, BAD_FIELD + b"ok\n")


def test_bytes_that_are_not_utf8(program):
    for spoiled in (b"\xff", b"\xc3", b"\xc0\xaf", b"\xed\xa0\x80", b"\xf4\x90\x80\x80"):
        line = b"1700000000\toffice\tk1\tadd-plan\tp\t" + spoiled + b"\t0\tfalse\tD\t-\n"
        program.answers(ADD + line + TOP_UP + spoiled + b"\n" + TOP_UP, b"ok\n" + 2 * BAD_FIELD + b"balance\t5\n")


def test_zero_character(program):
    line = b"1700000000\toffice\tk1\tadd-plan\tp\tN\0\t0\tfalse\tD\t-\n"
    program.answers(ADD + line + TOP_UP + b"\0\n" + TOP_UP, b"ok\n" + 2 * BAD_FIELD + b"balance\t5\n")


def test_long_lines(program):
    for length in (4095, 4096, 4097, 4098, 8192, 8193, 100_000, 1_000_000):
        begun = TOP_UP.ljust(length, b"5")
        program.answers(ADD + begun + b"\n" + TOP_UP, b"ok\n" + BAD_FIELD + b"balance\t5\n")


def test_many_lines(program):
    lines = b"".join(b"%d\toffice\tt%d\ttop-up\t17\t1\n" % (1700000000 + i, i) for i in range(1, 3001))
    program.answers(ADD + lines + lines, b"ok\n" + 2 * b"".join(b"balance\t%d\n" % i for i in range(1, 3001)))
