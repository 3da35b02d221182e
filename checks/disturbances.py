"""What a store is worth if a call of a run fails, is interrupted, or is the last one.

The calls are disturbed by strace. If it cannot be used, the tests are not tried.
"""

from itertools import count

from folders import (
    COMMANDS,
    FOLDER,
    READING,
    TEXT,
    expect_committed,
    expect_files,
    files_after,
    with_drop,
    with_ingest,
    with_tails,
)
from harness import Mismatch, each_row, expect, expect_same, run
from reference_audit import audit
from reference_store import files_in, list_sessions, opened, restore, twice, write_files
from tracing import disturbed, each_disturbance, traced_test

WRITING = ["openat", "write", "ftruncate", "fdatasync", "fsync"]
READS = ["openat", "read", "pread64"]
AGAIN = ["openat", "read", "pread64", "write"]

INGEST = ["ingest", "n"]
DROP = ["drop", "a"]
# Nothing but the head: an ingest makes all other files.
EMPTY = {"head": twice()["head"]}
# A cut of the book and one of the container come before the first append.
WITH_TAILS = with_tails(twice(), {"book.0": b"I", "container.0.0": bytes(300)})
# Each command with a store before it, and the least number of its calls that may change files.
ROWS = [
    (INGEST, twice(), 8),
    (INGEST, EMPTY, 12),
    (INGEST, WITH_TAILS, 10),
    (DROP, twice(), 7),
    (DROP, WITH_TAILS, 8),
]

DONE = (0, [])
DAMAGED = 7
STORE_FAILED = (12, [b"backup: store failed"])


def expect_before_or_after(before, after):
    """Expects the sessions of one of these states, and takes in another."""
    came = run([FOLDER, "list"])
    committed = before if came.output == list_sessions(before) else after
    expect(came, output=list_sessions(committed))
    for name in opened(committed).book.live:
        expect(run([FOLDER, "restore", name]), output=restore(committed, name))
    expect(run([FOLDER, "audit"]), output=audit(committed))
    came = run([FOLDER, "ingest", "m"], TEXT, changes=FOLDER)
    expect_same("the status of the next ingest", 0, came.status)
    expect_files(with_ingest(committed, b"m"), files_in(FOLDER))


def each_end(words, how, files, least):
    """Disturbs each call of a command that may change files, and returns how it ended.

    Expects at least so many calls, and the state before or after each.
    """
    after = (with_ingest if words == INGEST else with_drop)(files)
    ends = 0
    for call, came in each_disturbance(words, WRITING, how, files):
        yield call, came
        expect_before_or_after(files, after)
        ends += 1
    if ends < least:
        raise Mismatch(f"wanted at least {least} calls on the files, came {ends}")


@traced_test
def each_call_that_writes_and_fails_leaves_the_state_before_or_after():
    def expect_row(words, files, least):
        for call, came in each_end(words, "error=EIO", files, least):
            expect_same(f"the end if {call} fails", STORE_FAILED, came)

    each_row(ROWS, expect_row)


@traced_test
def each_cut_that_fails_leaves_the_state_before():
    """A book or a container with a tail whose cut fails must not be appended to."""

    def expect_row(words, cuts):
        failures = 0
        for call, came in each_disturbance(words, ["ftruncate"], "error=EIO", WITH_TAILS):
            expect_same(f"the end if {call} fails", STORE_FAILED, came)
            expect_same("the seal", b"SS", files_in(FOLDER)["seal.0"])
            expect_committed()
            failures += 1
        expect_same("the cuts", cuts, failures)

    each_row([(INGEST, 2), (DROP, 1)], expect_row)


@traced_test
def append_of_the_seal_that_fails_leaves_the_state_before():
    for words in (INGEST, DROP):
        write_files(FOLDER, twice())
        came = disturbed(words, "write", "error=ENOSPC", ["seal.0"])
        expect_same("the end", STORE_FAILED, came)
        expect_committed()


@traced_test
def each_call_that_reads_and_fails_is_said():
    for words in READING:
        for call, came in each_disturbance(words, READS, "error=EIO", twice()):
            expect_same(f"the end of {words} if {call} fails", STORE_FAILED, came)
            expect_files(twice(), files_in(FOLDER))


@traced_test
def read_that_returns_too_little_is_no_end_of_an_audit():
    """A container that is cut while it is read: what is not there is not taken for right."""
    ends = 0
    for call in ("read", "pread64"):
        for number in count(1):
            write_files(FOLDER, with_ingest(twice()))
            how = f"retval=0:when={number}"
            came = disturbed(["audit"], call, how, ["container.0.0"])
            if came is None:
                break
            if came[0] not in (DAMAGED, STORE_FAILED[0]):
                raise Mismatch(f"with {call} {number} ended early: came {came}")
            ends += 1
    if ends < 2:
        raise Mismatch(f"wanted at least 2 reads of the container, came {ends}")


@traced_test
def call_that_is_interrupted_once_is_made_again():
    for words in COMMANDS:
        for call, came in each_disturbance(words, AGAIN, "error=EINTR", twice()):
            expect_same(f"the end of {words} if {call} is interrupted", DONE, came)
            expect_files(files_after(words[0]), files_in(FOLDER))


@traced_test
def run_that_is_killed_at_any_call_leaves_the_state_before_or_after():
    def expect_row(words, files, least):
        for call, came in each_end(words, "signal=SIGKILL", files, least):
            expect_same(f"the status of the run killed at {call}", -9, came[0])

    each_row(ROWS, expect_row)
