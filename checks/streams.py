"""How `backup STORE plan` reads and writes streams of every kind, and ends if one of them fails."""

import os
import socket
import tempfile
from time import sleep

import reference
from harness import (
    STORE,
    closing,
    each_row,
    expect,
    expect_refusal,
    expect_same,
    file_of,
    position_of,
    run,
    test,
)
from pipes import expect_part, in_background, pipe, set_non_blocking, trickle, with_memory
from reference import DEFAULTS, KNOWN_CUTS, LONGEST_INPUT, SPARSE_ZERO, keys_of

PLAN = [STORE, "plan"]
ABC = reference.plan(DEFAULTS, b"abc")
READING, WRITING = "reading failed", "writing failed"

# Zeros in chunks of 64 bytes, each of which has a line.
MANY_LINES = [*PLAN, *keys_of(SPARSE_ZERO)]


def lines_of_zeros(length):
    """The text of a plan with many lines, one for every 64 bytes."""
    whole, rest = divmod(length, 64)
    return reference.lines_of(bytes(length), [64] * whole + [rest] * (rest > 0))


@test
def input_that_comes_byte_by_byte_is_cut():
    known = KNOWN_CUTS["minimum_counts_from_the_last_cut"]
    with trickle(known.text) as source:
        came = run(PLAN, source)
    expect(came, output=reference.lines_of(known.text, known.lengths))


@test
def input_that_comes_after_pauses_is_cut():
    def write(sink):
        with sink:
            for byte in b"abc":
                sink.write(bytes([byte]))
                sleep(0.05)

    with pipe() as (source, sink):
        writing = in_background(lambda: write(sink))
        came = run(PLAN, source)
        writing.join()
    expect(came, output=ABC)


@test
def input_from_a_socket_is_cut():
    reader, writer = socket.socketpair()
    with reader:
        with writer:
            writer.sendall(b"abc")
        expect(run(PLAN, reader), output=ABC)


@test
def file_is_read_from_where_it_stands():
    with file_of(b"0123456789abc") as source:
        source.seek(10)
        expect(run(PLAN, source), output=ABC)
        expect_same("position of the file", 13, position_of(source))


@test
def file_that_was_read_to_its_end_has_no_chunk():
    with file_of(b"abc") as source:
        source.seek(0, os.SEEK_END)
        expect(run(PLAN, source))


@test
def empty_device_has_no_chunk():
    with open("/dev/null", "rb") as empty:
        expect(run(PLAN, empty))


@test
def closed_input_is_refused():
    expect_refusal(run(PLAN, starter=closing("<&")), READING)


@test
def input_for_writing_only_is_refused():
    with open("/dev/null", "wb") as sink:
        expect_refusal(run(PLAN, sink), READING)


@test
def folder_as_input_is_refused():
    folder = os.open(".", os.O_RDONLY)
    try:
        expect_refusal(run(PLAN, folder), READING)
    finally:
        os.close(folder)


@test
def input_that_would_block_is_refused():
    def expect_row(length):
        with pipe() as (source, sink):
            set_non_blocking(source)
            sink.write(bytes(length))
            expect_refusal(run(MANY_LINES, source), READING)

    each_row([(0,), (3,), (4_000,)], expect_row)


@test
def too_long_input_is_read_to_the_first_byte_too_many():
    def expect_row(length):
        with tempfile.TemporaryFile() as zeros:
            zeros.truncate(length)
            expect_refusal(run(PLAN, zeros), "input too long")
            expect_same("position of the file", LONGEST_INPUT + 1, position_of(zeros))

    # The second length is 3 modulo 2^32.
    each_row([(LONGEST_INPUT + 1,), (2**32 + 3,)], expect_row)


@test
def closed_output_is_refused():
    expect_refusal(run(PLAN, b"abc", starter=closing(">&")), WRITING)


@test
def output_for_reading_only_is_refused():
    with open("/dev/null", "rb") as source:
        expect_refusal(run(PLAN, b"abc", source), WRITING)


@test
def full_output_is_refused():
    with open("/dev/full", "wb") as full:
        expect_refusal(run(PLAN, b"abc", full), WRITING)


@test
def output_without_a_reader_is_refused():
    with pipe() as (source, sink):
        source.close()
        expect_refusal(run(PLAN, b"abc", sink), WRITING)


@test
def output_that_fills_up_has_a_part_of_the_text():
    def expect_row(blocks, length):
        # A write beyond so many blocks fails, since the signal for it is ignored.
        limiting = ("sh", "-c", f"trap '' XFSZ; ulimit -f {blocks}; exec \"$@\"", "sh")
        with tempfile.TemporaryFile() as file:
            expect_refusal(run(MANY_LINES, bytes(length), file, limiting), WRITING)
            file.seek(0)
            expect_part(lines_of_zeros(length), file.read())

    # A block has 512 or 1024 bytes, and the longest text has 7.6 MB.
    each_row([(1, 6_400), (100, 200_000), (4_000, 6_400_000)], expect_row)


@test
def output_that_would_block_has_a_part_of_the_text():
    length = 200_000
    with pipe() as (source, sink):
        set_non_blocking(sink)
        expect_refusal(run(MANY_LINES, bytes(length), sink), WRITING)
        sink.close()
        expect_part(lines_of_zeros(length), source.read())


@test
def slow_reader_gets_the_whole_text():
    length, pieces = 640_000, []

    def take(source):
        while piece := source.read(30_000):
            pieces.append(piece)
            sleep(0.001)

    with pipe() as (source, sink):
        taking = in_background(lambda: take(source))
        came = run(MANY_LINES, bytes(length), sink)
        sink.close()
        taking.join()
    expect(came)
    expect(came._replace(output=b"".join(pieces)), output=lines_of_zeros(length))


@test
def text_is_written_after_what_the_file_has():
    with tempfile.TemporaryFile() as file:
        file.write(b"kept\n")
        file.flush()
        expect(run(PLAN, b"abc", file))
        file.seek(0)
        expect_same("the file", b"kept\n" + ABC, file.read())


@test
def empty_plan_needs_no_output():
    with open("/dev/full", "wb") as full:
        expect(run(PLAN, b"", full))
    expect(run(PLAN, b"", starter=closing(">&")))


@test
def status_stays_if_the_note_cannot_be_written():
    rows = [
        (PLAN, b"abc", 0, ABC),
        (PLAN, b"", 0, b""),
        ([STORE], b"", 2, b""),
        ([STORE, "plan", "bits=17"], b"abc", 14, b""),
    ]

    def expect_row(words, source, status, output):
        for starter in (closing("2>&"), ("sh", "-c", 'exec "$@" 2>/dev/full', "sh")):
            expect(run(words, source, starter=starter), status, output)

    each_row(rows, expect_row)


@test
def status_stays_if_several_streams_are_closed():
    rows = [("<&- 2>&-", b"", 10), (">&- 2>&-", b"abc", 11), ("<&- >&- 2>&-", b"", 10)]

    def expect_row(closed, source, status):
        expect(run(PLAN, source, starter=("sh", "-c", f'exec "$@" {closed}', "sh")), status)

    each_row(rows, expect_row)


@test
def input_that_memory_does_not_hold_is_refused():
    with tempfile.TemporaryFile() as zeros:
        zeros.truncate(LONGEST_INPUT)
        expect_refusal(run(PLAN, zeros, starter=with_memory(100_000)), "out of memory")


@test
def text_that_memory_does_not_hold_is_not_begun():
    words, length = [*PLAN, "min=48", "max=48", "workers=1"], 4_000_000
    lines = reference.lines_of(bytes(length), [48] * (length // 48) + [length % 48])
    statuses = set()
    for kibibytes in range(8_000, 36_000, 4_000):
        with tempfile.TemporaryFile() as zeros:
            zeros.truncate(length)
            came = run(words, zeros, starter=with_memory(kibibytes))
        statuses.add(came.status)
        if came.status == 0:
            expect(came, output=lines)
        else:
            expect_refusal(came, "out of memory")
    expect_same("statuses from too little memory to enough", {0, 13}, statuses)
