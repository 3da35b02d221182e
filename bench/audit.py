#!/usr/bin/env python3
"""Measures `audit` beside sha256sum, over many versions beside one, and its memory, as Markdown.

The programs run in turn on stores in one temporary folder. A ratio is of the best times of both
sides. The last column has the most that a ratio or a peak of memory may be. MB is 10^6 bytes.
"""

import argparse
import os
import sys
import tempfile
from pathlib import Path
from random import Random
from subprocess import DEVNULL, check_output, run
from typing import NamedTuple

from plan import PROGRAM, write_random
from store import Bench, print_row

VERSIONS = 30
EDITS = 10
CONTAINER_HEADER = 8
# The most that an audit may take, as many bytes for each chunk and for each place.
MEMORY, BYTES_OF_A_CHUNK, BYTES_OF_A_PLACE = 64_000_000, 150, 8


class Store(NamedTuple):
    """A store, and what an audit of it prints."""

    path: Path
    line: str
    chunks: int
    places: int


def backup(store, *words, **streams):
    run([PROGRAM, store, *words], stdout=DEVNULL, check=True, **streams)


def new_store(path):
    path.mkdir()
    backup(path, "init")
    return path


def ingest(store, name, path):
    with open(path, "rb") as source:
        backup(store, "ingest", name, stdin=source)


def edited(draw, content):
    """The content with ten places of it changed."""
    later = bytearray(content)
    for _ in range(EDITS):
        start = draw.randrange(len(later) - 8)
        later[start : start + 8] = draw.randbytes(8)
    return bytes(later)


def one_version(room, name, size):
    """A store that has one session of random bytes."""
    store, path = new_store(room / name), room / "input"
    write_random(path, size)
    ingest(store, "a", path)
    return store


def many_versions(room, size):
    """A store of versions that share nearly all chunks."""
    draw, store, path = Random(4), new_store(room / "many"), room / "input"
    write_random(path, size)
    content = path.read_bytes()
    for number in range(VERSIONS):
        path.write_bytes(content)
        ingest(store, f"v{number}", path)
        content = edited(draw, content)
    return store


def containers_of(store):
    return sorted(store.glob("container.*"))


def stored_bytes(store):
    return sum(it.stat().st_size - CONTAINER_HEADER for it in containers_of(store))


def looked_at(path):
    """What a store has, by `refs` and `list`."""
    sessions = check_output([PROGRAM, path, "list"], text=True).splitlines()
    chunks = len(check_output([PROGRAM, path, "refs"]).splitlines())
    counts = f"{len(sessions)} live {len(sessions)} ingested {chunks} chunks"
    line = f"ok {counts} {len(containers_of(path))} containers\n"
    return Store(path, line, chunks, sum(int(it.split()[3]) for it in sessions))


def measure_audit(bench, name, store):
    printed = bench.room / "line"
    bench.measure(name, [PROGRAM, store.path, "audit"], output=printed)
    if printed.read_text() != store.line:
        sys.exit(f"wanted {store.line}, came {printed.read_text()}")


def measure_round(bench, stores):
    """Each work, after the program that it is compared with."""
    bench.measure("sum", ["sha256sum", *containers_of(stores["large"].path)])
    for name, store in stores.items():
        measure_audit(bench, name, store)


def print_times(bench, stores):
    rows = [
        ("large", "`sha256sum` of the containers", "sum", 0.8),
        ("many", "`audit` of one version", "one", 1.3),
    ]
    whats = {"large": "random bytes", "many": f"{VERSIONS} versions"}
    for name, beside, yardstick, most in rows:
        took, other = bench.seconds[name], bench.seconds[yardstick]
        what = f"{whats[name]}, {stores[name].chunks:,} chunks"
        ratio = f"{took / other:.2f}"
        print_row(what, "`audit`", f"{took:.3f}", beside, f"{other:.3f}", ratio, f"{most}")


def print_peaks(bench, stores):
    for name, store in stores.items():
        most = MEMORY + BYTES_OF_A_CHUNK * store.chunks + BYTES_OF_A_PLACE * store.places
        peak, most = (f"{it / 1e6:.0f} MB" for it in (bench.peaks[name], most))
        what = f"{stored_bytes(store.path) / 1e6:.0f} MB stored, {store.places:,} places"
        print_row(what, "memory of `audit`", peak, f"{store.chunks:,} chunks", "", "", most)


def main():
    parser = argparse.ArgumentParser(description=__doc__.splitlines()[0])
    parser.add_argument("--size", type=int, default=256_000_000, help="bytes of the large store")
    parser.add_argument("--rounds", type=int, default=3, help="runs of each program")
    parser.add_argument("--folder", help="where to make the stores, if not for temporary files")
    given = parser.parse_args()
    if not os.access(PROGRAM, os.X_OK):
        sys.exit(f"{PROGRAM} is not there or cannot be run: rt ci builds it")
    with tempfile.TemporaryDirectory(dir=given.folder) as folder:
        room = Path(folder)
        many = many_versions(room, given.size // 2)
        paths = {
            "large": one_version(room, "large", given.size),
            "one": one_version(room, "one", stored_bytes(many)),
            "many": many,
        }
        stores = {name: looked_at(path) for name, path in paths.items()}
        bench = Bench(room)
        for _ in range(given.rounds):
            measure_round(bench, stores)
        print_row("Store", "Work", "Seconds", "Beside", "Seconds", "Ratio", "At most")
        print("|---|---|---:|---|---:|---:|---:|")
        print_times(bench, stores)
        print_peaks(bench, stores)


if __name__ == "__main__":
    main()
