#!/usr/bin/env python3
"""Measures `backup STORE plan` beside sha256sum and wc on the same bytes, as Markdown tables.

The programs run in turn on the same file as standard input. A table has the best time and the
highest memory of each. wc takes the file through a pipe: given the file itself, it would look up
the size and read nothing. MB is 10^6 bytes.

The second table has `plan` by numbers of workers. What reading takes is measured by an input that
is too long: the program reads 2^28 + 1 bytes of it, and refuses it before it scans.
"""

import argparse
import os
import shutil
import sys
import tempfile
from pathlib import Path
from random import Random
from subprocess import DEVNULL, PIPE, Popen
from time import perf_counter

BUILT = Path(__file__).resolve().parent.parent / "crates/backup/out/backup"
PROGRAM = Path(os.environ.get("BACKUP", BUILT)).resolve()
PROGRAMS = {
    "`backup s plan`": [PROGRAM, "s", "plan"],
    "`sha256sum`": ["sha256sum"],
    "`wc -c`": ["wc", "-c"],
}
YARDSTICK = "`sha256sum`"
PIPED = "`wc -c`"
TIME = shutil.which("time")
PIECE = 1_000_000
WORKERS = [1, 2, 4, 8, 64]
LONGEST_INPUT = 2**28
# The status of an input that is too long.
TOO_LONG = 8


def write_random(path, size):
    random = Random(1)
    with open(path, "wb") as file:
        for start in range(0, size, PIECE):
            file.write(random.randbytes(min(PIECE, size - start)))


def write_zeros(path, size):
    with open(path, "wb") as file:
        file.truncate(size)


def write_tar(path, size):
    words = ["tar", "--sort=name", "-cf", "-", "-C", "/usr", "share"]
    with Popen(words, stdout=PIPE, stderr=DEVNULL) as tar, open(path, "wb") as file:
        for start in range(0, size, PIECE):
            file.write(tar.stdout.read(min(PIECE, size - start)))


def measure(words, source, report, output=DEVNULL, wanted=0):
    """Runs a program once on an open file and returns its seconds and its peak memory in bytes."""
    timed = [TIME, "-q", "-f", "%M", "-o", report] if TIME else []
    notes = DEVNULL if wanted else None
    start = perf_counter()
    process = Popen([*timed, *words], stdin=source, stdout=output, stderr=notes)
    _, status, usage = os.wait4(process.pid, 0)
    seconds = perf_counter() - start
    process.returncode = os.waitstatus_to_exitcode(status)
    if process.returncode != wanted:
        sys.exit(f"{words[0]} ended with status {process.returncode}")
    # Without time, the peak counts what this process held when it started the program.
    kibibytes = int(Path(report).read_text()) if TIME else usage.ru_maxrss
    return seconds, kibibytes * 1024


def measure_on(path, name, report):
    if name == PIPED:
        with Popen(["cat", path], stdout=PIPE) as cat:
            return measure(PROGRAMS[name], cat.stdout, report)
    with open(path, "rb") as file:
        return measure(PROGRAMS[name], file, report)


def measure_in_turn(path, rounds, report):
    seconds, peaks = {}, {}
    for _ in range(rounds):
        for name in PROGRAMS:
            took, peak = measure_on(path, name, report)
            seconds[name] = min(took, seconds.get(name, took))
            peaks[name] = max(peak, peaks.get(name, peak))
    return seconds, peaks


def print_rows(what, path, rounds, report):
    size = os.path.getsize(path)
    seconds, peaks = measure_in_turn(path, rounds, report)
    for name in PROGRAMS:
        speed, ratio = size / seconds[name] / 1e6, seconds[name] / seconds[YARDSTICK]
        cells = [what, f"{size / 1e6:.0f}", name, f"{speed:.0f}", f"{ratio:.2f}"]
        print("|", " | ".join([*cells, f"{peaks[name] / 1e6:.0f}"]), "|", flush=True)


def measure_workers(path, rounds, report):
    """The best seconds and the highest peak of each number of workers, and the seconds of reading."""
    seconds, peaks = {}, {}
    reading = float("inf")
    for _ in range(rounds):
        reading = min(reading, seconds_of_reading(os.path.getsize(path), report))
        for workers in WORKERS:
            with open(path, "rb") as file:
                words = [PROGRAM, "s", "plan", f"workers={workers}"]
                took, peak = measure(words, file, report)
            seconds[workers] = min(took, seconds.get(workers, took))
            peaks[workers] = max(peak, peaks.get(workers, peak))
    return seconds, peaks, reading


def seconds_of_reading(size, report):
    """The seconds that the program takes to read so many bytes."""
    with tempfile.TemporaryFile() as file:
        file.truncate(LONGEST_INPUT + 1)
        took, _ = measure([PROGRAM, "s", "plan"], file, report, wanted=TOO_LONG)
    return took * size / LONGEST_INPUT


def print_workers(path, rounds, report):
    seconds, peaks, reading = measure_workers(path, rounds, report)
    print("\n| Workers | Seconds | As fast as one | As fast after reading | Peak memory, MB |")
    print("|---:|---:|---:|---:|---:|")
    for workers, took in seconds.items():
        whole, rest = seconds[1] / took, (seconds[1] - reading) / (took - reading)
        cells = [f"{workers}", f"{took:.3f}", f"{whole:.2f}", f"{rest:.2f}"]
        print("|", " | ".join([*cells, f"{peaks[workers] / 1e6:.0f}"]), "|", flush=True)
    print(f"\nReading takes {reading:.3f} seconds of these.")


def main():
    parser = argparse.ArgumentParser(description=__doc__.splitlines()[0])
    parser.add_argument("--size", type=int, default=256_000_000, help="bytes of each input")
    parser.add_argument("--rounds", type=int, default=3, help="runs of each program")
    given = parser.parse_args()
    if not os.access(PROGRAM, os.X_OK):
        sys.exit(f"{PROGRAM} is not there or cannot be run: rt ci builds it")
    inputs = {"random bytes": write_random, "zeros": write_zeros}
    if shutil.which("tar"):
        inputs["tar of /usr/share"] = write_tar
    print("| Input | MB | Program | MB/s | Time beside sha256sum | Peak memory, MB |")
    print("|---|---:|---|---:|---:|---:|")
    with tempfile.TemporaryDirectory() as room:
        path, report = f"{room}/input", f"{room}/peak"
        for what, write in inputs.items():
            write(path, given.size)
            print_rows(what, path, given.rounds, report)
        write_random(path, given.size)
        print_workers(path, given.rounds, report)


if __name__ == "__main__":
    main()
