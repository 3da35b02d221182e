"""What an ingest leaves that a signal ends, and runs whose input is slow or whose reader goes."""

import os
import signal
import subprocess
from contextlib import contextmanager
from dataclasses import replace
from random import Random
from time import perf_counter, sleep

from folders import (
    COMMANDS,
    FOLDER,
    INGESTED,
    INIT,
    TEXT,
    expect_committed,
    expect_files,
    files_after,
    refused,
    with_ingest,
)
from harness import (
    PROGRAM,
    Mismatch,
    Run,
    each_row,
    expect,
    expect_refusal,
    expect_same,
    file_of,
    run,
    test,
)
from pipes import expect_part, in_background, pipe, trickle
from reference import DEFAULTS
from reference_store import files_in, ingest, init, list_sessions, twice, write_files

WRITING = "writing failed"
ENDING = [signal.SIGHUP, signal.SIGINT, signal.SIGTERM]


def start_ingest(name, source, **given):
    words = [PROGRAM, FOLDER, "ingest", name]
    return subprocess.Popen(words, stdin=source, stdout=subprocess.DEVNULL, **given)


def seconds_of_an_ingest(name, text):
    """How long an ingest takes that is left alone."""
    with file_of(text) as source:
        start = perf_counter()
        expect_same("the status of an ingest", 0, start_ingest(name, source).wait())
        return perf_counter() - start


def is_ended_after(seconds, by, name, text):
    """Starts an ingest and ends it by a signal after so many seconds. Returns if it still ran."""
    with file_of(text) as source:
        process = start_ingest(name, source)
        sleep(seconds)
        process.send_signal(by)
        return process.wait() == -by


def expect_sessions_after_a_signal(texts, listed, ended):
    """Expects these sessions, and perhaps the one of the run that was ended, all whole."""
    name, text, line = ended
    came = run([FOLDER, "list"])
    sessions = texts if came.output == listed else {**texts, name: text}
    expect(came, output=listed if sessions is texts else listed + line)
    for name, text in sessions.items():
        expect(run([FOLDER, "restore", name]), output=text)
    others = {*os.listdir(FOLDER)} - {"head", "seal.0", "book.0", "container.0.0", "container.0.1"}
    expect_same("files that are not of the store", set(), others)


def expect_whole_sessions(signals, seed):
    """Ends ingests at drawn moments by these signals, one after another."""
    draw, files, ends = Random(seed), {}, 0
    texts = {name: draw.randbytes(20_000) for name in "ab"}
    text = draw.randbytes(3_000_000)
    text += texts["a"] + text[:1_500_000]
    init(files, DEFAULTS)
    for name, content in texts.items():
        ingest(files, name.encode(), content)
    write_files(FOLDER, files)
    seconds, listed = seconds_of_an_ingest("n", text), list_sessions(files)
    line = run([FOLDER, "list"]).output.removeprefix(listed)
    for by in signals:
        write_files(FOLDER, files)
        ends += is_ended_after(draw.uniform(0, 1.1 * seconds), by, "n", text)
        expect_sessions_after_a_signal(texts, listed, ("n", text, line))
        seconds_of_an_ingest("next", text)
        expect(run([FOLDER, "restore", "next"]), output=text)
    if ends < len(signals) / 3:
        raise Mismatch(f"wanted most of {len(signals)} runs ended early, came {ends}")


@test
def killed_ingest_leaves_what_was_committed():
    expect_whole_sessions([signal.SIGKILL] * 30, 9)


@test
def ingest_that_is_asked_to_end_leaves_what_was_committed():
    expect_whole_sessions(ENDING * 3, 10)


@contextmanager
def waiting_ingest():
    """An ingest that has some of its input and waits for more."""
    with pipe() as (source, sink):
        process = start_ingest("n", source)
        source.close()
        sink.write(TEXT[:100])
        sleep(0.1)
        try:
            yield process, sink
        finally:
            process.kill()
            process.wait()


@test
def ingest_that_ends_while_it_waits_for_input_leaves_the_store_as_it_was():
    def expect_row(by):
        write_files(FOLDER, twice())
        with waiting_ingest() as (process, _):
            process.send_signal(by)
            expect_same("the end", -by, process.wait())
        expect_files(twice(), files_in(FOLDER))
        expect_committed()

    each_row([(by,) for by in [*ENDING, signal.SIGKILL]], expect_row)


@test
def ingest_that_was_stopped_goes_on():
    write_files(FOLDER, twice())
    with waiting_ingest() as (process, sink):
        for at in range(100, len(TEXT), 50):
            process.send_signal(signal.SIGSTOP)
            sink.write(TEXT[at : at + 50])
            process.send_signal(signal.SIGCONT)
            sleep(0.02)
        # A signal that is ignored by default changes nothing.
        process.send_signal(signal.SIGWINCH)
        sink.close()
        expect_same("the status", 0, process.wait())
    expect_files(with_ingest(twice()), files_in(FOLDER))


@test
def input_that_comes_byte_by_byte_is_taken_in():
    write_files(FOLDER, twice())
    with trickle(TEXT) as source:
        expect(run([FOLDER, "ingest", "n"], source, changes=FOLDER), output=INGESTED)
    expect_files(with_ingest(twice()), files_in(FOLDER))


@test
def input_that_pauses_inside_a_chunk_is_taken_in():
    def write(sink):
        with sink:
            for part in (TEXT[:1], TEXT[1:63], TEXT[63:100], TEXT[100:]):
                sink.write(part)
                sleep(0.05)

    write_files(FOLDER, twice())
    with pipe() as (source, sink):
        writing = in_background(lambda: write(sink))
        came = run([FOLDER, "ingest", "n"], source, changes=FOLDER)
        writing.join()
    expect(came, output=INGESTED)
    expect_files(with_ingest(twice()), files_in(FOLDER))


@test
def input_whose_writer_fails_is_what_came_until_then():
    write_files(FOLDER, twice())
    starter = ("sh", "-c", '{ printf abc; exit 1; } | "$@"', "sh")
    line = b"ingested n 3 bytes 1 places 1 new\n"
    expect(run([FOLDER, "ingest", "n"], starter=starter, changes=FOLDER), output=line)
    expect(run([FOLDER, "restore", "n"]), output=b"abc")


@test
def output_without_a_reader_leaves_the_state_after():
    for words in [INIT, *COMMANDS]:
        write_files(FOLDER, {} if words == INIT else twice())
        with pipe() as (source, sink):
            source.close()
            expect_refusal(run([FOLDER, *words], TEXT, sink, changes=FOLDER), WRITING)
        expect_files(files_after(words[0]), files_in(FOLDER))


@test
def reader_that_closes_early_has_a_part_of_the_session():
    files, text = {}, Random(34).randbytes(400_000)
    init(files, replace(DEFAULTS, min=3000, max=3000))
    write_files(FOLDER, with_ingest(files, b"n", text))
    before = files_in(FOLDER)
    for length in (1, 5000, 100_000):
        with pipe() as (source, sink):
            command = [PROGRAM, FOLDER, "restore", "n"]
            process = subprocess.Popen(command, stdout=sink, stderr=subprocess.PIPE)
            sink.close()
            taken = b""
            while len(taken) < length:
                taken += source.read(length - len(taken))
            source.close()
            notes = process.communicate()[1]
        expect(Run(process.returncode, b"", notes), *refused(WRITING))
        expect_part(text, taken)
    expect_files(before, files_in(FOLDER))
