#!/usr/bin/env python3
"""Measures `ingest`, `bulk`, `restore`, `list` and `refs` beside other programs, as Markdown.

The programs run in turn, in one temporary folder. A ratio is of the best times of both sides. The
last column has the most that a ratio or a peak of memory may be. MB is 10^6 bytes.
"""

import argparse
import io
import os
import shutil
import struct
import sys
import tarfile
import tempfile
from hashlib import sha256
from pathlib import Path
from random import Random
from subprocess import DEVNULL, run

from plan import PROGRAM, measure, write_random, write_zeros

ROOT = Path(__file__).resolve().parent.parent
MAX_CONTAINER = 2**22
PLACES_OF_A_SESSION = 50_000
LENGTH_OF_A_CHUNK = 8
SEED = "7"


# Inputs.


def files_of_the_tree():
    """The sources of this project, by their paths."""
    kinds = (".rt", ".antt", ".py", ".md")
    paths = [it for it in ROOT.glob("*/**/*") if it.suffix in kinds and "out" not in it.parts]
    return {str(it.relative_to(ROOT)): it.read_bytes() for it in sorted(paths)}


def edit(draw, files):
    """Changes a line in one of a hundred files."""
    for path in draw.sample(sorted(files), max(1, len(files) // 100)):
        lines = files[path].splitlines(keepends=True) or [b""]
        lines[draw.randrange(len(lines))] = b"changed %d\n" % draw.randrange(10**9)
        files[path] = b"".join(lines)


def write_versions(path, size):
    """A tar of many versions of a tree, each with some lines changed, cut to a size."""
    draw, files, version = Random(2), files_of_the_tree(), 0
    with open(path, "wb") as file:
        with tarfile.open(fileobj=file, mode="w") as tar:
            while file.tell() < size:
                for name, content in files.items():
                    entry = tarfile.TarInfo(f"{version}/{name}")
                    entry.size = len(content)
                    tar.addfile(entry, io.BytesIO(content))
                edit(draw, files)
                version += 1
        file.truncate(size)


# Works on one input. Each is measured once a round.


class Bench:
    """The best time and the highest memory of each work."""

    def __init__(self, room):
        self.room = Path(room)
        self.seconds, self.peaks = {}, {}

    def measure(self, name, words, source=os.devnull, output=os.devnull):
        with open(source, "rb") as given, open(output, "wb") as kept:
            took, peak = measure(words, given, self.room / "peak", kept)
        self.seconds[name] = min(took, self.seconds.get(name, took))
        self.peaks[name] = max(peak, self.peaks.get(name, peak))

    def backup(self, name, *words, **streams):
        self.measure(name, [PROGRAM, self.room / "s", *words], **streams)


def make_store(room, *keys):
    store = room / "s"
    shutil.rmtree(store, ignore_errors=True)
    store.mkdir()
    run([PROGRAM, store, "init", *keys], stdout=DEVNULL, check=True)


def measure_round(bench, path):
    """The works on one input, each after the program that it is compared with."""
    room, copy = bench.room, bench.room / "copy"
    make_store(room)
    bench.backup("plan", "plan", source=path)
    copying = ["dd", "bs=4M", "conv=fsync", "status=none", f"of={room / 's' / 'copy'}"]
    bench.measure("copy", copying, source=path)
    (room / "s" / "copy").unlink()
    bench.backup("first", "ingest", "a", source=path, output=room / "line")
    bench.backup("second", "ingest", "b", source=path)
    bench.measure("sum", ["sha256sum"], source=path)
    bench.backup("restore", "restore", "a")
    bench.backup("restore to a file", "restore", "a", output=copy)
    if copy.read_bytes() != path.read_bytes():
        sys.exit("the restored file has other bytes than the input")
    copy.unlink()


def print_row(*cells):
    print("|", " | ".join(cells), "|", flush=True)


def print_times(what, bench, works):
    times = bench.seconds
    for work, name, beside, yardsticks, most in works:
        yardstick = sum(times[it] for it in yardsticks)
        ratio = f"{times[name] / yardstick:.2f}"
        print_row(what, work, f"{times[name]:.3f}", beside, f"{yardstick:.3f}", ratio, f"{most}")


def print_peaks(what, bench, size):
    """The peaks of memory beside their limits, from the numbers that the first ingest printed."""
    _, _, _, _, places, _, chunks, _ = (bench.room / "line").read_text().split()
    book = 150 * int(chunks)
    limits = {
        "first": size + 100_000_000 + book,
        "second": size + 100_000_000 + book,
        "restore": 20_000_000 + book + 8 * int(places),
    }
    for name, most in limits.items():
        peak, most = (f"{it / 1e6:.0f} MB" for it in (bench.peaks[name], most))
        print_row(what, f"memory, {name}", peak, f"{chunks} chunks", "", "", most)


def print_input(what, write, given, room):
    bench, path = Bench(room), Path(room, "input")
    write(path, given.size)
    for _ in range(given.rounds):
        measure_round(bench, path)
    works = [
        ("first `ingest`", "first", "`plan` + `dd conv=fsync`", ["plan", "copy"], 1.35),
        ("`ingest` once more", "second", "`plan`", ["plan"], 1.35),
        ("`restore` to /dev/null", "restore", "`sha256sum`", ["sum"], 1.1),
        ("`restore` to a file", "restore to a file", "`sha256sum`", ["sum"], 1.1),
    ]
    print_times(what, bench, works)
    print_peaks(what, bench, given.size)


def print_zeros(given, room):
    """An input of one chunk again and again: an ingest has little to do but to cut and to name."""
    bench, path = Bench(room), Path(room, "input")
    write_zeros(path, given.size)
    for _ in range(given.rounds):
        make_store(bench.room)
        bench.backup("plan", "plan", source=path)
        bench.backup("first", "ingest", "a", source=path)
    print_times("zeros", bench, [("first `ingest`", "first", "`plan`", ["plan"], 1.1)])


# An input that the program makes, and the same bytes in a file.


def take_in_anew(bench, name, *words, **streams):
    """Measures taking a session into a new store, and returns the line and the book of it."""
    line = bench.room / "line"
    make_store(bench.room)
    bench.backup(name, *words, output=line, **streams)
    return line.read_bytes(), (bench.room / "s" / "book.0").read_bytes()


def print_bulk(given, room):
    """The same session in both ways: `ingest` of what `restore` gives back of `bulk`."""
    bench, path, numbers = Bench(room), Path(room, "input"), [SEED, f"{given.blocks}"]
    session = ".".join(["bulk", *numbers])
    take_in_anew(bench, "first", "bulk", *numbers)
    bench.backup("restore", "restore", session, output=path)
    for _ in range(given.rounds):
        wanted = take_in_anew(bench, "ingest", "ingest", session, source=path)
        if wanted != take_in_anew(bench, "bulk", "bulk", *numbers):
            sys.exit("`bulk` and `ingest` of its bytes made different lines or books")
    works = [("`bulk`", "bulk", "`ingest` of a file of the same bytes", ["ingest"], 1.15)]
    print_times(f"{given.blocks:,} blocks", bench, works)


# Stores of many chunks, written without the program.


def record(kind, body):
    start = kind + struct.pack(">I", len(body)) + body
    return start + sha256(start).digest()


def session(first, count):
    """A record that names so many new chunks, each of which has 8 bytes: its number."""
    name = b"s%d" % first
    lengths = struct.pack(">I", LENGTH_OF_A_CHUNK)
    numbers = range(first, first + count)
    chunks = b"".join(lengths + sha256(struct.pack(">Q", it)).digest() for it in numbers)
    recipe = struct.pack(f">{count}I", *numbers)
    counts = struct.pack(">I", count)
    length = struct.pack(">I", LENGTH_OF_A_CHUNK * count)
    body = [bytes([len(name)]), name, length, counts, chunks, counts, recipe]
    return record(b"I", b"".join(body))


def write_containers(store, chunks):
    in_one = (MAX_CONTAINER - 8) // LENGTH_OF_A_CHUNK
    for number, start in enumerate(range(0, chunks, in_one)):
        numbers = range(start, min(start + in_one, chunks))
        content = struct.pack(f">{len(numbers)}Q", *numbers)
        path = store / f"container.0.{number}"
        path.write_bytes(b"SSCP" + struct.pack(">I", number) + content)


def write_store(room, chunks):
    """Makes a store of so many chunks, in sessions of 50,000 places."""
    make_store(room)
    starts = range(0, chunks, PLACES_OF_A_SESSION)
    with open(room / "s" / "book.0", "wb") as book:
        for start in starts:
            book.write(session(start, min(PLACES_OF_A_SESSION, chunks - start)))
    (room / "s" / "seal.0").write_bytes(b"S" * len(starts))
    write_containers(room / "s", chunks)


def lines_of(path):
    with open(path, "rb") as file:
        return sum(1 for _ in file)


def measure_book(bench):
    """The works that read the book alone, each after the program that it is compared with."""
    room = bench.room
    bench.measure("sum", ["sha256sum"], source=room / "s" / "book.0")
    bench.backup("list", "list", output=room / "line")
    bench.backup("refs", "refs", output=room / "refs")
    copying = ["dd", "bs=64K", "status=none"]
    bench.measure("copy", copying, source=room / "refs", output=room / "copy")


def print_book(chunks, given, room):
    bench = Bench(room)
    write_store(bench.room, chunks)
    for _ in range(given.rounds):
        measure_book(bench)
    sessions = len(range(0, chunks, PLACES_OF_A_SESSION))
    for name, wanted in (("line", sessions), ("refs", chunks)):
        if wanted != (came := lines_of(bench.room / name)):
            sys.exit(f"wanted {wanted} lines, came {came}")
    times = bench.seconds
    rows = [
        ("`list`", "list", "`sha256sum` of the book", times["sum"], 3),
        ("`refs` to a file", "refs", "1.5 `list` + `dd`", 1.5 * times["list"] + times["copy"], 1),
    ]
    for work, name, beside, yardstick, most in rows:
        ratio = f"{times[name] / yardstick:.2f}"
        cells = [f"{chunks:,} chunks", work, f"{times[name]:.3f}", beside]
        print_row(*cells, f"{yardstick:.3f}", ratio, f"{most}")


def main():
    parser = argparse.ArgumentParser(description=__doc__.splitlines()[0])
    parser.add_argument("--size", type=int, default=256_000_000, help="bytes of each input")
    parser.add_argument("--blocks", type=int, default=4096, help="blocks that bulk takes in")
    parser.add_argument("--chunks", type=int, default=1_000_000, help="chunks of the larger store")
    parser.add_argument("--rounds", type=int, default=3, help="runs of each program")
    parser.add_argument("--folder", help="where to make the stores, if not for temporary files")
    given = parser.parse_args()
    if not os.access(PROGRAM, os.X_OK):
        sys.exit(f"{PROGRAM} is not there or cannot be run: rt ci builds it")
    print_row("Input", "Work", "Seconds", "Beside", "Seconds", "Ratio", "At most")
    print("|---|---|---:|---|---:|---:|---:|")
    with tempfile.TemporaryDirectory(dir=given.folder) as room:
        print_input("random bytes", write_random, given, room)
        print_input("versions of a tree", write_versions, given, room)
        print_zeros(given, room)
        print_bulk(given, room)
    with tempfile.TemporaryDirectory(dir=given.folder) as room:
        for chunks in (given.chunks // 10, given.chunks):
            print_book(chunks, given, room)


if __name__ == "__main__":
    main()
