"""How the commands of a store read and write the standard streams, and end if one of them fails."""

import os
import tempfile
from dataclasses import replace
from itertools import combinations
from random import Random

from folders import (
    COMMANDS,
    FOLDER,
    INIT,
    OUTPUTS,
    TEXT,
    expect_committed,
    expect_files,
    files_after,
    refused,
    with_ingest,
)
from harness import (
    Run,
    closing,
    each_row,
    expect,
    expect_refusal,
    expect_same,
    run,
    status_of,
    test,
)
from pipes import expect_part, limiting_files, pipe, set_non_blocking
from reference import DEFAULTS
from reference_store import files_in, init, twice, write_files

READING, WRITING = "reading failed", "writing failed"


def expect_state_after(words, files, before=None):
    """Runs a command whose output fails, and expects these files."""
    starters = [closing(">&"), ("sh", "-c", 'exec "$@" >/dev/full', "sh")]
    for starter in starters:
        write_files(FOLDER, twice() if before is None else before)
        expect_refusal(run([FOLDER, *words], TEXT, starter=starter, changes=FOLDER), WRITING)
        expect_files(files, files_in(FOLDER))


@test
def output_that_fails_leaves_the_state_after():
    expect_state_after(INIT, files_after("init"), before={})
    for words in COMMANDS:
        expect_state_after(words, files_after(words[0]))


@test
def empty_output_is_not_noticed():
    files = {}
    init(files, DEFAULTS)
    write_files(FOLDER, files)
    for words in (["list"], ["refs"]):
        expect(run([FOLDER, *words], starter=closing(">&")))
    write_files(FOLDER, with_ingest(files, b"e", b""))
    expect(run([FOLDER, "restore", "e"], starter=closing(">&")))


def wanted_of_closed(command, closed):
    """How a command ends if these standard streams are closed, and the files that it leaves."""
    if command == "ingest" and 0 in closed:
        wanted, files = refused(READING), twice()
    else:
        wanted, files = Run(0, OUTPUTS[command], b""), files_after(command)
        if 1 in closed:
            wanted = refused(WRITING)
    return (wanted._replace(notes=b"") if 2 in closed else wanted), files


@test
def closed_streams_do_not_become_files_of_the_store():
    def expect_row(words, closed):
        write_files(FOLDER, {} if words == INIT else twice())
        ends = " ".join(f"{it}{'<' if it == 0 else '>'}&-" for it in closed)
        starter = ("sh", "-c", f'exec "$@" {ends}', "sh")
        came = run([FOLDER, *words], TEXT, starter=starter, changes=FOLDER)
        wanted, files = wanted_of_closed(words[0], closed)
        expect_files(files, files_in(FOLDER))
        expect(came, *wanted)

    subsets = [it for count in (1, 2, 3) for it in combinations(range(3), count)]
    each_row(((words, closed) for words in [INIT, *COMMANDS] for closed in subsets), expect_row)


@test
def input_that_fails_leaves_the_store_as_it_was():
    write_files(FOLDER, twice())
    folder = os.open(".", os.O_RDONLY)
    try:
        expect_refusal(run([FOLDER, "ingest", "n"], folder), READING)
    finally:
        os.close(folder)
    with open("/dev/null", "wb") as sink:
        expect_refusal(run([FOLDER, "ingest", "n"], sink), READING)
    expect_refusal(run([FOLDER, "ingest", "n"], starter=closing("<&")), READING)
    expect_committed()


@test
def input_that_fails_after_some_bytes_leaves_the_store_as_it_was():
    write_files(FOLDER, twice())
    with pipe() as (source, sink):
        set_non_blocking(source)
        sink.write(bytes(1000))
        expect_refusal(run([FOLDER, "ingest", "n"], source), READING)
    expect_committed()


@test
def status_stays_if_the_note_of_a_refusal_cannot_be_written():
    flawed = twice() | {"container.0.0": bytes(80)}
    rows = [({}, ["list"], "no store"), (flawed, ["audit"], "damaged mark 0")]

    def expect_row(files, words, note):
        write_files(FOLDER, files)
        for starter in (closing("2>&"), ("sh", "-c", 'exec "$@" 2>/dev/full', "sh")):
            expect(run([FOLDER, *words], starter=starter), status_of(note))

    each_row(rows, expect_row)


@test
def output_that_fills_up_has_a_part_of_a_line():
    for words in (["audit"], ["refs"], ["list"]):
        write_files(FOLDER, twice())
        with tempfile.TemporaryFile() as file:
            came = run([FOLDER, *words], b"", file, before_start=limiting_files(5))
            expect_refusal(came, WRITING)
            file.seek(0)
            expect_same("what was written", OUTPUTS[words[0]][:5], file.read())


@test
def output_that_fills_up_has_a_part_of_the_session():
    text, files = Random(33).randbytes(200_000), {}
    init(files, replace(DEFAULTS, min=3000, max=3000))
    write_files(FOLDER, with_ingest(files, b"n", text))
    for length in (1, 2000, 70_000, 199_999):
        with tempfile.TemporaryFile() as file:
            came = run([FOLDER, "restore", "n"], b"", file, before_start=limiting_files(length))
            expect_refusal(came, WRITING)
            file.seek(0)
            expect_part(text, file.read())
