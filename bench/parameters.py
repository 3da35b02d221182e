#!/usr/bin/env python3
"""Measures what `bits`, `min` and `max` do to chunks, to repeats and to time, as a Markdown table.

Each input is taken in once into a new store for each set of parameters. Chunks and bytes are
counted, and are the same in each run. Time is the processor time of the ingest, of the system too,
beside that of an ingest with the defaults right before it: the least of each.
"""

import argparse
import os
import sys
import tempfile
from pathlib import Path
from resource import RUSAGE_CHILDREN, getrusage
from subprocess import PIPE, run
from typing import NamedTuple

from plan import PROGRAM, write_random
from store import make_store, print_row, write_versions

CONTAINER_HEADER = 8


class Params(NamedTuple):
    bits: int
    min: int
    max: int


DEFAULTS = Params(13, 2048, 65536)
# Means from short to long, then other minima and maxima by the bits of the defaults, then chunks of
# one length.
ROWS = [
    Params(8, 256, 2048),
    Params(10, 512, 8192),
    Params(11, 1024, 16384),
    Params(12, 1024, 32768),
    DEFAULTS,
    Params(14, 4096, 131072),
    Params(15, 8192, 262144),
    Params(16, 16384, 524288),
    Params(16, 65536, 1048576),
    Params(13, 48, 65536),
    Params(13, 8192, 65536),
    Params(13, 2048, 8192),
    Params(13, 2048, 1048576),
    Params(13, 10240, 10240),
]


class Counts(NamedTuple):
    length: int
    places: int
    chunks: int
    stored: int
    book: int


def keys_of(params):
    return [f"{key}={number}" for key, number in params._asdict().items()]


def take_in(room, path, params):
    """Takes an input into a new store. Returns what is counted and the processor seconds."""
    store = room / "s"
    make_store(room, *keys_of(params))
    before = getrusage(RUSAGE_CHILDREN)
    with open(path, "rb") as source:
        came = run([PROGRAM, store, "ingest", "a"], stdin=source, stdout=PIPE, check=True)
    after = getrusage(RUSAGE_CHILDREN)
    _, _, length, _, places, _, chunks, _ = came.stdout.split()
    containers = [it.stat().st_size - CONTAINER_HEADER for it in store.glob("container.*")]
    numbers = map(int, (length, places, chunks))
    counts = Counts(*numbers, sum(containers), (store / "book.0").stat().st_size)
    return counts, sum(after[:2]) - sum(before[:2])


def measure_all(room, path, rounds):
    """What is counted for each set of parameters, and its time beside that of the defaults."""
    counts = {}
    least = {params: (float("inf"), float("inf")) for params in ROWS}
    for _ in range(rounds):
        for params in ROWS:
            _, beside = take_in(room, path, DEFAULTS)
            came, took = take_in(room, path, params)
            if counts.setdefault(params, came) != came:
                sys.exit(f"{params} were counted twice, and differ")
            least[params] = [*map(min, least[params], (took, beside))]
    return counts, {params: took / beside for params, (took, beside) in least.items()}


def print_input(what, path, room, rounds):
    counts, times = measure_all(room, path, rounds)
    for params in ROWS:
        it = counts[params]
        parts = [f"{number / it.length:.3f}" for number in (it.stored, it.book)]
        numbers = [f"{it.length / it.places:,.0f}", f"{it.places:,}", f"{it.chunks:,}", *parts]
        default = " (default)" if params == DEFAULTS else ""
        print_row(what + default, *map(str, params), *numbers, f"{times[params]:.2f}")


def main():
    parser = argparse.ArgumentParser(description=__doc__.splitlines()[0])
    parser.add_argument("--size", type=int, default=256_000_000, help="bytes of each input")
    parser.add_argument("--rounds", type=int, default=3, help="runs of each set of parameters")
    parser.add_argument("--folder", help="where to make the stores, if not for temporary files")
    given = parser.parse_args()
    if not os.access(PROGRAM, os.X_OK):
        sys.exit(f"{PROGRAM} is not there or cannot be run: rt ci builds it")
    head = ["Input", "bits", "min", "max", "Mean", "Places", "Chunks", "Stored", "Book", "Time"]
    print_row(*head)
    print("|---" + "|---:" * (len(head) - 1) + "|")
    with tempfile.TemporaryDirectory(dir=given.folder) as folder:
        room, path = Path(folder), Path(folder, "input")
        for what, write in (("versions", write_versions), ("random", write_random)):
            write(path, given.size)
            print_input(what, path, room, given.rounds)


if __name__ == "__main__":
    main()
