"""Runs the built program from outside. Each test has a folder of its own, which no run changes."""

import os
import subprocess
import tempfile
from concurrent.futures import ProcessPoolExecutor
from contextlib import contextmanager
from itertools import zip_longest
from multiprocessing import get_context
from pathlib import Path
from typing import NamedTuple

from rooms import STORE, entries_of, furnish, room, traces

BUILT = Path(__file__).resolve().parent.parent / "crates/backup/out/backup"
PROGRAM = Path(os.environ.get("BACKUP", BUILT)).resolve()
SECONDS = 60

# The status of a run by how its note begins.
STATUSES = {
    "bad words at ": 2,
    "bad parameter: ": 14,
    "no store": 3,
    "store already there": 4,
    "name taken": 5,
    "no such session": 6,
    "damaged ": 7,
    "input too long": 8,
    "too many ": 9,
    "reading failed": 10,
    "writing failed": 11,
    "store failed": 12,
    "out of memory": 13,
}

TESTS = {}


class Mismatch(Exception):
    pass


class NotTried(Exception):
    """A test that this machine cannot try, and why."""


def add_test(name, function):
    if name in TESTS:
        raise ValueError(f"two tests are named {name}, and only one would run")
    TESTS[name] = function


def test(function):
    add_test(function.__name__, function)
    return function


class Run(NamedTuple):
    status: int
    output: bytes
    notes: bytes


def run(words, source=b"", output=subprocess.PIPE, starter=(), changes=None, before_start=None):
    """Runs the program on bytes or on an open file, by itself or through a starter.

    It may change what is in the folder `changes` of the working folder, and nothing else.
    The function `before_start` is called in the new process.
    """
    given = {"input" if isinstance(source, bytes) else "stdin": source}
    given.update(preexec_fn=before_start)
    before = entries_of(room())
    came = ended([*starter, PROGRAM, *words], stdout=output, stderr=subprocess.PIPE, **given)
    if found := next(traces(before, entries_of(room()), changes), None):
        raise Mismatch(f"wanted no trace of the run, and it {found}")
    return came


def ended(command, **given):
    """Runs a command to its end. Its home and its folder for temporary files are in the room."""
    folders = {"HOME": f"{room()}/home", "TMPDIR": f"{room()}/tmp"}
    given.update(env={**os.environ, **folders}, timeout=SECONDS)
    try:
        process = subprocess.run(command, **given)
    except subprocess.TimeoutExpired:
        raise Mismatch(f"wanted an end within {SECONDS} seconds, came none") from None
    return Run(process.returncode, process.stdout or b"", process.stderr or b"")


def closing(descriptor):
    """A starter that closes a stream, as `2>&` for standard error."""
    return ("sh", "-c", f'exec "$@" {descriptor}-', "sh")


def difference(wanted, came):
    """Says how two runs differ, each stream by its first line that does."""
    if wanted.status != came.status:
        yield f"status: wanted {wanted.status}, came {came.status}"
    for stream in ("output", "notes"):
        one, other = getattr(wanted, stream), getattr(came, stream)
        if one != other:
            yield f"{stream}, {line_difference(one, other)}"


def line_difference(wanted, came):
    pairs = zip_longest(wanted.splitlines(True), came.splitlines(True), fillvalue=b"")
    for number, (one, other) in enumerate(pairs, 1):
        if one != other:
            return f"line {number}: wanted {one[:200]}, came {other[:200]}"
    return "no line differs"


def expect(came, status=0, output=b"", notes=b""):
    if differences := "; ".join(difference(Run(status, output, notes), came)):
        raise Mismatch(differences)


def status_of(note):
    return next(status for start, status in STATUSES.items() if note.startswith(start))


def expect_refusal(came, note, output=b""):
    expect(came, status_of(note), output, f"backup: {note}\n".encode())


def expect_early_refusal(words, note):
    """Expects that the words are refused before anything is read or written."""
    with file_of(b"abc") as source:
        expect_refusal(run(words, source), note)
        expect_same("bytes taken", 0, position_of(source))


def expect_same(what, wanted, came):
    if wanted != came:
        raise Mismatch(f"{what}: wanted {wanted!r}, came {came!r}")


def expect_mismatch(function):
    """Expects of a test of the tests that it fails."""
    try:
        function()
    except Mismatch:
        return
    raise Mismatch("wanted a mismatch, came none")


def position_of(file):
    """How far an open file was read."""
    return os.lseek(file.fileno(), 0, os.SEEK_CUR)


def file_of(content):
    """Opens a file outside the room that holds these bytes and has no name."""
    file = tempfile.TemporaryFile()
    file.write(content)
    file.seek(0)
    return file


def each_row(rows, expect_row):
    """Tries each row of a table, and names the row that fails."""
    for row in rows:
        try:
            expect_row(*row)
        except Mismatch as mismatch:
            raise Mismatch(f"row {short(row)}: {mismatch}") from None


def short(row):
    text = repr(row)
    return text if len(text) <= 200 else f"{text[:120]} .. {text[-60:]}"


@contextmanager
def fresh_room():
    """Makes a room, and goes to its working folder for as long as it is used."""
    before = os.getcwd()
    with tempfile.TemporaryDirectory() as folder:
        os.chdir(furnish(Path(folder)))
        try:
            yield
        finally:
            os.chdir(before)


class Tally(NamedTuple):
    passed: int = 0
    failed: int = 0
    not_tried: int = 0


def end_of(name):
    """Runs a test in a fresh room. Returns how it counts, and in one line why it did not pass."""
    try:
        with fresh_room():
            TESTS[name]()
    except NotTried as reason:
        return Tally(not_tried=1), f"not tried, since {reason}"
    except Mismatch as mismatch:
        return Tally(failed=1), str(mismatch)
    except Exception as error:
        return Tally(failed=1), f"{type(error).__name__}: {' '.join(str(error).split())}"
    return Tally(passed=1), None


def run_tests():
    """Runs the tests side by side, and returns how many passed, failed and were not tried."""
    tally = Tally()
    with ProcessPoolExecutor(mp_context=get_context("fork")) as pool:
        for name, (end, reason) in zip(TESTS, pool.map(end_of, TESTS)):
            tally = Tally(*map(sum, zip(tally, end)))
            if reason is not None:
                print(f"{name}: {reason}", flush=True)
    return tally
