#!/usr/bin/env python3
"""Measures `backup` beside restic and borg, where these are installed, as a Markdown table.

Each program takes in a stream, then the same stream with ten edits, and restores the second one to
a file, which is compared. They run in turn on the same files in one temporary folder. A row has the
best seconds of each, and the bytes of the store beside those of the first stream. No program
compresses. restic encrypts. Both cut chunks of 1 to 2 MB by default, so the second row of `backup`
has chunks about as long as it can make them.
"""

import argparse
import os
import shutil
import sys
import tempfile
from pathlib import Path
from random import Random
from subprocess import run
from time import perf_counter

from plan import PROGRAM
from store import print_row, write_versions

EDITS = 10
SETTINGS = {
    "RESTIC_PASSWORD": "bench",
    "BORG_UNKNOWN_UNENCRYPTED_REPO_ACCESS_IS_OK": "yes",
}


def backup(*keys):
    """The commands of this program: to make a store, to take in a session, to restore it."""
    return (
        lambda store: [PROGRAM, store, "init", *keys],
        lambda store, name: [PROGRAM, store, "ingest", name],
        lambda store, name: [PROGRAM, store, "restore", name],
    )


RESTIC = (
    lambda store: ["restic", "-q", "-r", store, "init"],
    lambda store, name: [*RESTIC_IN, "-r", store, "backup", "--stdin", "--stdin-filename", name],
    lambda store, name: ["restic", "-q", "-r", store, "dump", "latest", name, "--path", f"/{name}"],
)
RESTIC_IN = ["restic", "-q", "--compression", "off"]
BORG = (
    lambda store: ["borg", "init", "-e", "none", store],
    lambda store, name: ["borg", "create", "-C", "none", f"{store}::{name}", "-"],
    lambda store, name: ["borg", "extract", "--stdout", f"{store}::{name}"],
)


def peers():
    found = {
        "`backup`": backup(),
        "`backup`, long chunks": backup("bits=16", "min=524288", "max=1048576"),
    }
    for name, commands in (("restic", RESTIC), ("borg", BORG)):
        if shutil.which(name):
            found[name] = commands
        else:
            print(f"{name} is not installed: it is not compared", file=sys.stderr)
    return found


def seconds_of(words, source, output):
    home = str(output.parent)
    setting = {**os.environ, **SETTINGS, "HOME": home, "BORG_BASE_DIR": home}
    with open(source, "rb") as given, open(output, "wb") as kept:
        start = perf_counter()
        run(words, stdin=given, stdout=kept, env=setting, check=True)
        return perf_counter() - start


def write_edited(path, other):
    """Copies a file with some of its bytes changed, here and there."""
    draw, content = Random(3), bytearray(path.read_bytes())
    for _ in range(EDITS):
        start = draw.randrange(len(content) - 8)
        content[start : start + 8] = b"changed\n"
    other.write_bytes(content)


def measure(commands, first, second):
    """The seconds of each work of a program, and the bytes of its store after both streams."""
    make, take_in, restore = commands
    store, output = first.parent / "store", first.parent / "output"
    shutil.rmtree(store, ignore_errors=True)
    store.mkdir()
    seconds_of(make(store), os.devnull, output)
    works = [
        (take_in(store, "a"), first),
        (take_in(store, "b"), second),
        (restore(store, "b"), os.devnull),
    ]
    seconds = [seconds_of(*it, output) for it in works]
    if output.read_bytes() != second.read_bytes():
        sys.exit(f"{restore(store, 'b')[0]} restored other bytes than those that went in")
    return seconds, sum(it.stat().st_size for it in store.rglob("*") if it.is_file())


def main():
    parser = argparse.ArgumentParser(description=__doc__.splitlines()[0])
    parser.add_argument("--size", type=int, default=256_000_000, help="bytes of the stream")
    parser.add_argument("--rounds", type=int, default=3, help="runs of each program")
    given = parser.parse_args()
    if not os.access(PROGRAM, os.X_OK):
        sys.exit(f"{PROGRAM} is not there or cannot be run: rt ci builds it")
    best, stored = {}, {}
    with tempfile.TemporaryDirectory() as folder:
        first, second = Path(folder, "first"), Path(folder, "second")
        write_versions(first, given.size)
        write_edited(first, second)
        programs = peers()
        for _ in range(given.rounds):
            for name, commands in programs.items():
                seconds, stored[name] = measure(commands, first, second)
                best[name] = [*map(min, seconds, best.get(name, seconds))]
    print_row("Program", "First, seconds", "Edited, seconds", "Restore, seconds", "Stored")
    print("|---|---:|---:|---:|---:|")
    for name, seconds in best.items():
        parts = [f"{it:.2f}" for it in seconds]
        print_row(name, *parts, f"{stored[name] / given.size:.3f}")


if __name__ == "__main__":
    main()
