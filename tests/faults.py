"""Inputs and outputs that fail: the exit status, and the one line on standard error that tells the fault."""

import os

from shared import READ_FAILED, WRITE_FAILED

ADD = b"1700000000\toffice\tk0\tadd-rider\t17\n"


def test_output_that_takes_nothing(program):
    reader, writer = os.pipe()
    os.write(writer, ADD)
    os.close(writer)
    with open("/dev/full", "wb") as full, os.fdopen(reader, "rb") as given:
        ended = program.run(stdin=given, stdout=full)
    assert ended == (WRITE_FAILED[0], None, WRITE_FAILED[2]), ended


def test_input_that_can_not_be_read(program):
    folder = os.open(program.folder, os.O_RDONLY)
    try:
        ended = program.run(stdin=folder)
    finally:
        os.close(folder)
    assert ended == READ_FAILED, ended


def test_a_served_input_tells_nothing(program):
    assert program.run(given=ADD) == (0, b"ok\n", b"")
