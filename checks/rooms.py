"""The room of a test: a folder of its own, in which a run leaves no trace that it should not."""

import os
import stat
from pathlib import Path
from typing import NamedTuple

# The store that each test finds in its working folder.
STORE = "store"
WORK = "work"


def furnish(folder):
    """Makes the room of a test, and returns its working folder."""
    for name in ("home", "tmp", f"{WORK}/{STORE}/containers", f"{WORK}/nest"):
        (folder / name).mkdir(parents=True)
    for name in ("book", "containers/00000000"):
        (folder / WORK / STORE / name).write_bytes(b"what was here before\n")
    # Times so old that every change is seen, however coarse the clock is.
    for path in (folder, *folder.rglob("*")):
        os.utime(path, ns=(0, 0))
    return folder / WORK


def room():
    """The room of the test that runs, which has its working folder and what may be beside it."""
    return Path.cwd().parent


class Entry(NamedTuple):
    mode: int
    changed: int
    content: bytes


def entry_of(path):
    status = path.lstat()
    content = b""
    if stat.S_ISREG(status.st_mode) and os.access(path, os.R_OK):
        content = path.read_bytes()
    elif stat.S_ISLNK(status.st_mode):
        content = os.fsencode(os.readlink(path))
    return Entry(status.st_mode, status.st_mtime_ns, content)


def entries_of(folder):
    """The folder and all in it. A file that is made and removed changes the time of its folder."""
    folder = Path(folder)
    paths = [folder, *folder.rglob("*")]
    return {str(path.relative_to(folder)): entry_of(path) for path in paths}


def traces(before, after, changes=None):
    """Says what differs between the entries of a room before a run and after it.

    Entries in the folder `changes` of the working folder may differ.
    """
    for name in sorted({*before, *after}):
        if changes is not None and f"{name}/".startswith(f"{WORK}/{changes}/"):
            continue
        if name not in before:
            yield f"made {name}"
        elif name not in after:
            yield f"removed {name}"
        elif before[name] != after[name]:
            yield f"changed {name}"
