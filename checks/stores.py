"""Which STORE is taken, and that a run leaves no trace that it should not, there or elsewhere."""

import os
import stat

import reference
from harness import (
    STORE,
    Mismatch,
    each_row,
    expect,
    expect_mismatch,
    expect_refusal,
    expect_same,
    fresh_room,
    run,
    test,
)
from reference import DEFAULTS
from rooms import entries_of

ABC = reference.plan(DEFAULTS, b"abc")

STORES = [
    "store",
    "./store/",
    "untouched",
    "nest/untouched",
    "no/such/folder/store",
    "store/book",
    "store/book/store",
    "/",
    "/dev/null",
    ".",
    "..",
    "",
    " ",
    "\n",
    "--",
    "-",
    "--help",
    "plan",
    "bits=9",
    "störe",
    "s" * 256,
    "s/" * 3000,
    "s" * 131_000,
]


@test
def any_store_is_taken_and_none_is_touched():
    def expect_row(store):
        expect(run([store, "plan"], b"abc"), output=ABC)

    each_row(((store,) for store in STORES), expect_row)


@test
def store_that_is_a_link_is_not_followed():
    os.symlink("nowhere", "link")
    expect(run(["link", "plan"], b"abc"), output=ABC)


# Commands of a shell that do what a wrong program might do in its working folder.
TRACES = [
    "echo >made",
    "echo >../made",
    "echo >nest/made",
    "mkdir untouched",
    "echo >$HOME/made",
    "echo >$TMPDIR/made",
    "echo >made; rm made",
    "echo >store/made; rm store/made",
    "ln -s store made",
    "rm -r nest",
    "echo >>store/book",
    "echo >store/containers/00000001",
    ": >store/containers/00000000",
    "rm store/containers/00000000",
    "mv store/book store/made",
    "chmod 711 store",
    "chmod 640 store/book",
    "touch store",
    "touch store/book",
]


def run_after(doing, changes=None):
    starter = ("sh", "-c", f'{doing}; exec "$@"', "sh")
    return run([STORE, "plan"], b"abc", starter=starter, changes=changes)


@test
def every_trace_of_a_run_is_noticed():
    def expect_row(doing):
        with fresh_room():
            expect_mismatch(lambda: run_after(doing))

    each_row(((doing,) for doing in TRACES), expect_row)


@test
def changes_in_a_named_folder_are_allowed():
    expect(run_after("echo >>store/book; echo >store/made", changes=STORE), output=ABC)


def folder_after(words, source=b""):
    """What the folder STORE has after a run, as entries by their names."""
    came = run([STORE, *words], source, changes=STORE)
    expect_same("status and notes", (0, b""), (came.status, came.notes))
    return entries_of(STORE)


def changed_by(before, after):
    return {name for name in {*before, *after} if before.get(name) != after.get(name)}


@test
def commands_leave_a_folder_as_they_should():
    """The folder has other files already. Each command makes or changes its own files alone."""
    rows = [
        (["init"], b"", {".", "head"}),
        (["list"], b"", set()),
        (["ingest", "e"], b"", {".", "book.0", "seal.0"}),
        (["ingest", "a"], b"abc", {".", "book.0", "seal.0", "container.0.0"}),
        (["ingest", "b"], b"abc", {"book.0", "seal.0"}),
        (["restore", "a"], b"", set()),
        (["list"], b"", set()),
        (["refs"], b"", set()),
        (["audit"], b"", set()),
        (["plan"], b"abc", set()),
        (["drop", "a"], b"", {"book.0", "seal.0"}),
        (["bulk", "7", "1"], b"", {"book.0", "seal.0", "container.0.0"}),
    ]
    before = entries_of(STORE)
    for words, source, changes in rows:
        after = folder_after(words, source)
        expect_same(f"what {words} changes", changes, changed_by(before, after))
        before = after


@test
def refused_commands_leave_a_folder_as_it_was():
    reading = [["list"], ["restore", "a"], ["refs"], ["audit"]]
    for words in [*reading, ["ingest", "a"], ["drop", "a"]]:
        expect_refusal(run([STORE, *words], b"abc"), "no store")
    folder_after(["init"])
    folder_after(["ingest", "a"], b"abc")
    rows = [
        (["init"], "store already there"),
        (["ingest", "a"], "name taken"),
        (["drop", "b"], "no such session"),
    ]
    for words, note in rows:
        expect_refusal(run([STORE, *words], b"abc"), note)


@test
def files_of_a_store_are_plain_files():
    folder_after(["init"])
    entries = folder_after(["ingest", "a"], b"abc")
    os.umask(mask := os.umask(0))
    wanted = stat.S_IFREG | 0o666 & ~mask
    for name in ("head", "seal.0", "book.0", "container.0.0"):
        if entries[name].mode != wanted:
            raise Mismatch(f"wanted mode {wanted:o} of {name}, came {entries[name].mode:o}")
