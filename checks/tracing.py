"""Runs the program under strace, which sees its calls of the system and can disturb one of them."""

import os
import re
import subprocess
from itertools import count
from typing import NamedTuple

from folders import FOLDER, TEXT
from harness import PROGRAM, NotTried, test
from reference_store import write_files

KINDS = {
    "write": "write",
    "writev": "write",
    "pwrite64": "write",
    "pwritev": "write",
    "ftruncate": "cut",
    "truncate": "cut",
    "fsync": "sync",
    "fdatasync": "sync",
    "read": "read",
    "readv": "read",
    "pread64": "read",
    "preadv": "read",
    "open": "open",
    "openat": "open",
    "rename": "rename",
    "renameat": "rename",
    "renameat2": "rename",
    "unlink": "remove",
    "unlinkat": "remove",
}
LINE = re.compile(r"(?:\d+ +)?(\w+)\((.*)\) += (\d+)(?:<(.*)>)?")
CHANGES = {"make", "write", "cut", "sync", "rename", "remove"}


class Call(NamedTuple):
    kind: str
    # The name of the file in the folder of the store, or "." for the folder.
    file: str


def calls_in(trace, folder, files):
    """The calls on the folder of a store that has these files at first."""
    calls, there = [], set(files)
    for line in trace.splitlines():
        if not (found := LINE.match(line)):
            continue
        name, words, _, opened_path = found.groups()
        path = opened_path or words.partition("<")[2].partition(">")[0]
        if os.path.dirname(path) != folder and path != folder:
            continue
        file = "." if path == folder else os.path.basename(path)
        if "O_CREAT" in words and file not in there:
            there.add(file)
            calls.append(Call("make", file))
        calls.append(Call(KINDS[name], file))
    return calls


def traced(words, text, trace):
    """Runs the program under strace, and returns its status. The trace has paths of handles."""
    calls = ",".join(KINDS)
    strace = ["strace", "-f", "-y", "-s", "0", "-o", trace, "-e", f"trace={calls}"]
    command = [*strace, PROGRAM, *words]
    return subprocess.run(command, input=text, capture_output=True).returncode


def can_trace():
    try:
        return traced([FOLDER, "plan"], b"", "trace") == 0
    except FileNotFoundError:
        return False


def calls_of(words, text, files):
    """The calls of a run over these files on the folder of the store, and its status."""
    write_files(FOLDER, files)
    status = traced([FOLDER, *words], text, "trace")
    with open("trace") as trace:
        return calls_in(trace.read(), os.path.realpath(FOLDER), files), status


def traced_test(function):
    """A test that is tried if strace can be used."""

    def tried():
        if not can_trace():
            raise NotTried("strace cannot be used here")
        function()

    tried.__name__ = function.__name__
    return test(tried)


# The names in the folder of a store whose calls are disturbed, and "." for the folder.
NAMES = ["head", "seal.0", "book.0", "container.0.0", "."]


def disturbed(words, call, how, names):
    """Runs the program so that something happens at one of its calls on these files.

    Returns its status and what it noted last, or None if there was no such call.
    """
    relative = [os.path.normpath(f"{FOLDER}/{name}") for name in names]
    both = [*relative, *map(os.path.realpath, relative)]
    paths = [word for it in both for word in ("-P", it)]
    disturbing = ["-e", f"trace={call}", "-e", f"inject={call}:{how}"]
    command = ["strace", "-f", "-y", "-o", "trace", *paths, *disturbing, PROGRAM, FOLDER, *words]
    came = subprocess.run(command, input=TEXT, capture_output=True)
    with open("trace") as trace:
        happened = "INJECTED" in trace.read() or came.returncode < 0
    notes = [it for it in came.stderr.splitlines() if not it.startswith(b"strace: ")]
    return (came.returncode, notes[-1:]) if happened else None


def each_disturbance(words, calls, how, files):
    """Disturbs runs over a store of these files, each at another call of these kinds."""
    for call in calls:
        for number in count(1):
            write_files(FOLDER, files)
            came = disturbed(words, call, f"{how}:when={number}", NAMES)
            if came is None:
                break
            yield f"{call} {number}", came
