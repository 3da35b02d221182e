"""Runs the program on a store in a folder, beside the second implementation on files in memory."""

from dataclasses import replace
from functools import lru_cache

import reference_store
from harness import Mismatch, Run, expect, run, status_of
from reference import DEFAULTS, SPARSE_ZERO, keys_of
from reference_audit import audit
from reference_bulk import bulk_input
from reference_store import (
    MAX_CHUNK,
    Refusal,
    drop_session,
    files_in,
    ingest,
    references_of_twice,
    twice,
    write_files,
)

# The folder of the store that a test makes for itself.
FOLDER = "s"

# Every chunk but the last of an input is as long as a chunk may be.
LONG = replace(DEFAULTS, min=MAX_CHUNK, max=MAX_CHUNK)

# What the commands print over the store `twice`, if `ingest` has this input. It has a chunk of the
# store and a new one. `bulk` makes its own.
INIT = ["init", *keys_of(SPARSE_ZERO)]
READING = [["list"], ["restore", "a"], ["refs"], ["audit"]]
COMMANDS = [*READING, ["ingest", "n"], ["drop", "a"], ["bulk", "7", "1"]]
TEXT = bytes(64) + b"abc" * 50
LISTED = b"0 a 200 4\n1 b 200 4\n"
INGESTED = b"ingested n 214 bytes 2 places 1 new\n"
OUTPUTS = {
    "init": b"ready\n",
    "list": LISTED,
    "restore": bytes(200),
    "refs": references_of_twice(6, 2),
    "audit": b"ok 2 live 2 ingested 2 chunks 1 containers\n",
    "ingest": INGESTED,
    "drop": b"dropped a 4 places\n",
    "bulk": b"ingested bulk.7.1 65536 bytes 259 places 259 new\n",
}


def wanted_run(command, files, *given):
    """The run that a command of the second implementation is. It may change the files."""
    try:
        return Run(0, command(files, *given), b"")
    except Refusal as refusal:
        return refused(refusal.note, refusal.written)


def refused(note, written=b""):
    return Run(status_of(note), written, f"backup: {note}\n".encode())


def expect_files(wanted, came):
    """Expects exactly these files. An empty file is as good as none."""
    for name in sorted({*wanted, *came}):
        one, other = wanted.get(name, b""), came.get(name, b"")
        if one != other:
            raise Mismatch(f"{name}: {file_difference(one, other)}")


def file_difference(wanted, came):
    pairs = enumerate(zip(wanted, came))
    offset = next((at for at, (one, other) in pairs if one != other), min(len(wanted), len(came)))
    part = slice(offset, offset + 20)
    return (
        f"wanted {len(wanted)} bytes, came {len(came)}; at {offset}: "
        f"wanted {wanted[part].hex()}, came {came[part].hex()}"
    )


def with_ingest(files, name=b"n", text=TEXT):
    """The files after one more ingest."""
    later = dict(files)
    ingest(later, name, text)
    return later


def with_drop(files, name=b"a"):
    """The files after one more drop."""
    later = dict(files)
    drop_session(later, name)
    return later


@lru_cache(maxsize=1)
def files_of_bulk():
    """The files of `twice` after one more block, as pairs. Its windows take long to divide."""
    return tuple(with_ingest(twice(), b"bulk.7.1", bulk_input(7, 1)).items())


def with_bulk(files):
    """The files of `twice` after one more block."""
    return files | dict(files_of_bulk())


def files_after(command):
    """The files after a command over `twice`, or over none if it is `init`."""
    if command == "init":
        return {"head": twice()["head"]}
    changing = {"ingest": with_ingest, "drop": with_drop, "bulk": with_bulk}
    return changing.get(command, dict)(twice())


def with_tails(files, tails):
    """The files with bytes after what was committed, as a killed run leaves them."""
    return files | {name: files.get(name, b"") + tail for name, tail in tails.items()}


def expect_committed():
    """Expects that the store has its two sessions and no other, and that the next is taken in."""
    expect(run([FOLDER, "list"]), output=LISTED)
    expect(run([FOLDER, "restore", "b"]), output=bytes(200))
    expect(run([FOLDER, "ingest", "n"], TEXT, changes=FOLDER), output=INGESTED)
    expect_files(with_ingest(twice()), files_in(FOLDER))


class Twin:
    """A store in a folder, and the files that it should have."""

    def __init__(self, files=None):
        self.files = dict(files or {})
        write_files(FOLDER, self.files)

    def expect(self, words, wanted, source=b""):
        """Expects this run, and these files after it. A run that reads or is refused leaves all."""
        writes = wanted.status == 0 and words[0] in ("init", "ingest", "bulk", "drop")
        came = run([FOLDER, *words], source, changes=FOLDER if writes else None)
        expect(came, *wanted)
        expect_files(self.files, files_in(FOLDER))

    def init(self, params):
        wanted = wanted_run(reference_store.init, self.files, params)
        self.expect(["init", *keys_of(params)], wanted)

    def ingest(self, name, text):
        wanted = wanted_run(ingest, self.files, name.encode(), text)
        self.expect(["ingest", name], wanted, text)
        return wanted

    def bulk(self, seed, blocks):
        name = f"bulk.{seed}.{blocks}"
        wanted = wanted_run(ingest, self.files, name.encode(), bulk_input(seed, blocks))
        self.expect(["bulk", f"{seed}", f"{blocks}"], wanted, b"abc")
        return wanted

    def drop(self, name):
        wanted = wanted_run(drop_session, self.files, name.encode())
        self.expect(["drop", name], wanted)
        return wanted

    def refs(self):
        wanted = wanted_run(reference_store.references, self.files)
        self.expect(["refs"], wanted)
        return wanted

    def audit(self):
        wanted = wanted_run(audit, self.files)
        self.expect(["audit"], wanted)
        return wanted

    def list(self):
        self.expect(["list"], wanted_run(reference_store.list_sessions, self.files))

    def restore(self, name):
        wanted = wanted_run(reference_store.restore, self.files, name.encode())
        self.expect(["restore", name], wanted)
        return wanted


def new_twin(params):
    twin = Twin()
    twin.init(params)
    return twin
