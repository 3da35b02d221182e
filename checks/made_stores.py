"""Stores that no run of the program wrote: their seals, records and names of chunks are right.

Each has what an audit is to say of it, worked out by hand from the definition.
"""

from dataclasses import replace
from hashlib import sha256
from typing import NamedTuple

from reference import SPARSE, SPARSE_ZERO, marked_zeros
from reference_store import (
    MAX_CHUNK,
    ZEROS_8,
    Drop,
    Ingest,
    NewChunk,
    append_record,
    drop_session,
    ingest,
    init,
    pack,
    twice,
)


class Taken(NamedTuple):
    """A session with its new chunks and the numbers of the chunks at its places."""

    fresh: list
    recipe: list


def store_of(events, params=SPARSE_ZERO):
    """The files of a store of these sessions and drops. The sessions are named s0, s1, .."""
    files, chunks, used = {}, [], 0
    init(files, params)
    for number, event in enumerate(events):
        record = event
        if isinstance(event, Taken):
            pack(files, 0, [len(it) for it in chunks], event.fresh)
            chunks += event.fresh
            fresh = [NewChunk(len(it), sha256(it).digest()) for it in event.fresh]
            length = sum(len(chunks[it]) for it in event.recipe if it < len(chunks))
            record = Ingest(b"s%d" % number, length, fresh, event.recipe)
        append_record(files, 0, used, record)
        used = len(files["book.0"])
    return files


def one(fresh, recipe, params=SPARSE_ZERO):
    """The files of a store of one session."""
    return store_of([Taken(fresh, recipe)], params)


def changed(files, name, offset, byte):
    content = files[name]
    return files | {name: content[:offset] + bytes([byte]) + content[offset + 1 :]}


def with_empty_session():
    files = {}
    init(files, SPARSE_ZERO)
    ingest(files, b"e", b"")
    return files


def after_a_drop():
    files = twice()
    drop_session(files, b"a")
    return files


def misnamed(number, kept, found):
    return f"damaged chunk {number} kept {kept.hex()} found {sha256(found).hexdigest()}"


def counts(live, ingested, chunks, containers):
    return f"ok {live} live {ingested} ingested {chunks} chunks {containers} containers\n"


# Zeros are cut at 64 bytes if the target is 0, and at 256 if it is 1. There a byte of 1 among
# zeros makes one candidate, the position after it.
A, E = bytes(64), bytes(8)
LONGER = bytes(128)
X, Y = b"x" * 9, b"y" * 9
# Each is as long as a chunk may be, so that three fill a container.
LONGEST = replace(SPARSE_ZERO, min=MAX_CHUNK, max=MAX_CHUNK)
LARGE = [bytes([number]) * MAX_CHUNK for number in range(5)]
LARGE_STORE = one(LARGE, [0, 1, 2, 3, 4], LONGEST)
HEADER = b"SSCP" + bytes(4)


def marked(index, length):
    return marked_zeros(1, [index], length)


# What an audit prints of stores without a flaw.
SOUND = {
    "no session": ({"head": twice()["head"]}, counts(0, 0, 0, 0)),
    "an empty session": (with_empty_session(), counts(1, 1, 0, 0)),
    "two sessions of the same chunks": (twice(), counts(2, 2, 2, 1)),
    "one of them dropped": (after_a_drop(), counts(1, 2, 2, 1)),
    "both dropped": (store_of([Taken([A, E], [0, 1]), Drop(0)]), counts(0, 1, 2, 1)),
    "one byte": (one([b"x"], [0]), counts(1, 1, 1, 1)),
    "a chunk shorter than the minimum": (one([A[1:]], [0]), counts(1, 1, 1, 1)),
    "a chunk of the minimum": (one([A], [0]), counts(1, 1, 1, 1)),
    "a chunk of the maximum": (one([bytes(256)], [0], SPARSE), counts(1, 1, 1, 1)),
    "chunks of the maximum and a rest": (
        one([bytes(256), bytes(188)], [0, 0, 1], SPARSE),
        counts(1, 1, 2, 1),
    ),
    "a chunk that ends at a candidate": (
        one([marked(99, 100), bytes(200)], [0, 1], SPARSE),
        counts(1, 1, 2, 1),
    ),
    "a candidate before the minimum": (one([marked(62, 200)], [0], SPARSE), counts(1, 1, 1, 1)),
    "a new chunk after an earlier one": (
        store_of([Taken([A], [0, 0]), Taken([X], [0, 1])]),
        counts(2, 2, 2, 1),
    ),
    "two containers": (LARGE_STORE, counts(1, 1, 5, 2)),
    "as many bytes as a container has, in two": (
        one(LARGE[:4], [0, 1, 2, 3], LONGEST),
        counts(1, 1, 4, 2),
    ),
}

# The first flaw of stores that have one.
FLAWED = {
    "a mark with another letter": (changed(twice(), "container.0.0", 0, 0x54), "damaged mark 0"),
    "a mark with another number": (changed(twice(), "container.0.0", 7, 1), "damaged mark 0"),
    "the mark of a later container": (
        changed(LARGE_STORE, "container.0.1", 7, 0),
        "damaged mark 1",
    ),
    "a chunk of other bytes": (
        changed(twice(), "container.0.0", 72, 1),
        misnamed(1, ZEROS_8, b"\x01" + bytes(7)),
    ),
    "the last byte of the last chunk": (
        changed(LARGE_STORE, "container.0.1", 8 + 2 * MAX_CHUNK - 1, 0),
        misnamed(4, sha256(LARGE[4]).digest(), LARGE[4][:-1] + b"\x00"),
    ),
    "two equal chunks": (one([A, A], [0, 1]), "damaged twin 0 1"),
    "equal chunks of two sessions": (
        store_of([Taken([X], [0]), Taken([Y, X], [1, 2])]),
        "damaged twin 0 2",
    ),
    "equal chunks of a dropped session and of a live one": (
        store_of([Taken([X], [0]), Drop(0), Taken([X], [1])]),
        "damaged twin 0 1",
    ),
    "equal chunks of the maximum": (one([bytes(256)] * 2, [0, 1], SPARSE), "damaged twin 0 1"),
    "a chunk that comes too early": (one([A, E], [1, 0]), "damaged order 0 0"),
    "a chunk that no place has": (one([A, E], [0]), "damaged order 0 1"),
    "a chunk of a session without places": (one([A], []), "damaged order 0 0"),
    "a chunk too early in a later session": (
        store_of([Taken([A], [0]), Taken([X, Y], [0, 2, 1])]),
        "damaged order 1 1",
    ),
    "a chunk with a candidate in it": (one([LONGER], [0]), "damaged cut 0 0"),
    "a last chunk with a candidate in it": (one([A, LONGER], [0, 1]), "damaged cut 0 1"),
    "a candidate one byte before the end of a chunk": (
        one([marked(99, 101)], [0], SPARSE),
        "damaged cut 0 0",
    ),
    "a candidate late in a chunk of the maximum": (
        one([marked(1_030_000, MAX_CHUNK)], [0], replace(LONGEST, target=1, min=1_000_000)),
        "damaged cut 0 0",
    ),
    "a chunk shorter than the minimum before another": (
        one([A[1:], X], [0, 1]),
        "damaged cut 0 0",
    ),
    "a chunk that ends at no candidate": (
        one([bytes(100), bytes(50)], [0, 1], SPARSE),
        "damaged cut 0 0",
    ),
    "a last chunk that is not the last": (
        store_of([Taken([A, E], [0, 1]), Taken([], [0, 1, 0])]),
        "damaged cut 1 1",
    ),
}
