"""Stores with more than one flaw, and which of them an audit is to name, worked out by hand.

Opening comes first. Then the order is marks, names, equal chunks, order of chunks, and cuts, and of
one kind the least number, or the least session and then the least place.
"""

from hashlib import sha256

from made_stores import (
    A,
    E,
    LARGE,
    LARGE_STORE,
    LONGER,
    MAX_CHUNK,
    X,
    Y,
    Taken,
    changed,
    misnamed,
    one,
    store_of,
)
from reference_store import ZEROS_8, ZEROS_64, Drop, twice

CONTAINER = "container.0.0"
# Chunks of one byte. The last of a session may be so short, and no other.
P, Q, R = b"p", b"q", b"r"


def all_changed(files, *changes):
    for name, offset, byte in changes:
        files = changed(files, name, offset, byte)
    return files


def without_mark(files):
    return changed(files, CONTAINER, 3, 0)


def with_another_byte(files):
    """Changes the first byte of chunk 0, which is a zero."""
    return changed(files, CONTAINER, 8, 1)


FIRST_BYTE_OF_A = misnamed(0, ZEROS_64, b"\x01" + A[1:])

# Equal chunks, out of order, and not as they are cut.
THREE_FLAWS = one([A[1:], X, A[1:]], [2, 1, 0])
# Out of order and not as it is cut.
TWO_FLAWS = one([LONGER, E], [1, 0])

KINDS = {
    "a container too short and a mark": (
        twice() | {CONTAINER: b"XSCP" + bytes(75)},
        "damaged container 0 needs 80 has 79",
    ),
    "a recipe and a mark": (without_mark(one([A, E], [0, 2])), "damaged recipe 0 1"),
    "a record and a mark": (without_mark(twice()) | {"seal.0": b"SSS"}, "damaged record 2"),
    "a mark and a chunk": (without_mark(with_another_byte(twice())), "damaged mark 0"),
    "a later mark and a first chunk": (
        all_changed(LARGE_STORE, (CONTAINER, 8, 1), ("container.0.1", 4, 1)),
        "damaged mark 1",
    ),
    "a mark and equal chunks": (without_mark(THREE_FLAWS), "damaged mark 0"),
    "a mark and the order": (without_mark(TWO_FLAWS), "damaged mark 0"),
    "a mark and a cut": (without_mark(one([LONGER], [0])), "damaged mark 0"),
    "a last chunk and equal chunks before it": (
        changed(one([X, X, E], [0, 1, 2]), CONTAINER, 26, 1),
        misnamed(2, ZEROS_8, b"\x01" + E[1:]),
    ),
    "a chunk and the order": (with_another_byte(one([A, E], [1, 0])), FIRST_BYTE_OF_A),
    "a chunk and a cut": (
        with_another_byte(one([LONGER], [0])),
        misnamed(0, sha256(LONGER).digest(), b"\x01" + LONGER[1:]),
    ),
    "a chunk that no place has": (with_another_byte(one([A, E], [1])), FIRST_BYTE_OF_A),
    "equal chunks, the order and a cut": (THREE_FLAWS, "damaged twin 0 2"),
    "equal chunks, of which no place has the second": (one([X, X], [0]), "damaged twin 0 1"),
    "equal chunks of a later session and the order of the first": (
        store_of([Taken([X, Y], [1, 0]), Taken([X], [2])]),
        "damaged twin 0 2",
    ),
    "the order and a cut": (TWO_FLAWS, "damaged order 0 0"),
    "the order of a later session and a cut of the first": (
        store_of([Taken([LONGER], [0]), Taken([X, Y], [2, 1])]),
        "damaged order 1 0",
    ),
    "the end of a later session and a cut of the first": (
        store_of([Taken([LONGER], [0]), Taken([X], [])]),
        "damaged order 1 0",
    ),
}

NUMBERS = {
    "two marks": (
        all_changed(LARGE_STORE, (CONTAINER, 0, 0), ("container.0.1", 0, 0)),
        "damaged mark 0",
    ),
    "the marks of two containers, exchanged": (
        LARGE_STORE
        | {
            CONTAINER: LARGE_STORE["container.0.1"] + LARGE[2],
            "container.0.1": LARGE_STORE[CONTAINER],
        },
        "damaged mark 0",
    ),
    "two chunks": (
        all_changed(twice(), (CONTAINER, 8, 1), (CONTAINER, 79, 1)),
        FIRST_BYTE_OF_A,
    ),
    "chunks of two containers": (
        all_changed(LARGE_STORE, (CONTAINER, 8 + MAX_CHUNK, 9), ("container.0.1", 8, 9)),
        misnamed(1, sha256(LARGE[1]).digest(), b"\x09" + LARGE[1][1:]),
    ),
    "two pairs of equal chunks": (one([P, Q, Q, P], [0, 1, 2, 3]), "damaged twin 1 2"),
    "pairs within one another": (one([P, Q, R, Q, P], [0, 1, 2, 3, 4]), "damaged twin 1 3"),
    "three equal chunks": (one([P, Q, P, P], [0, 1, 2, 3]), "damaged twin 0 2"),
    "the order at two places": (one([P, Q, R], [1, 2, 0]), "damaged order 0 0"),
    "the order at a place and at the end": (one([P, Q, R], [0, 2]), "damaged order 0 1"),
    "the order late in a session": (
        one([A, X, Y], [0] * 70_000 + [2, 1]),
        "damaged order 0 70000",
    ),
    "the order of two sessions": (
        store_of([Taken([P], [0]), Taken([Q, R], [1]), Taken([X, Y], [4, 3])]),
        "damaged order 1 1",
    ),
    "the order of a dropped session and of a live one": (
        store_of([Taken([P, Q], [1, 0]), Drop(0), Taken([X, Y], [3, 2])]),
        "damaged order 0 0",
    ),
    "the order of a dropped session alone": (
        store_of([Taken([P], [0]), Taken([Q, R], [0, 2, 1]), Drop(1)]),
        "damaged order 1 1",
    ),
    "the order of a session after a dropped one": (
        store_of([Taken([P], [0]), Drop(0), Taken([X, Y], [2, 1])]),
        "damaged order 1 0",
    ),
    # The chunk that no place of its own session has counts as having occurred.
    "the end of a session, and a later session of its chunk": (
        store_of([Taken([P, Q], [0]), Taken([R], [1, 2])]),
        "damaged order 0 1",
    ),
    "cuts at two places": (one([A, LONGER, X, Y], [0, 1, 2, 3]), "damaged cut 0 1"),
    "a cut late in a session": (one([A, E], [0] * 70_000 + [1, 0]), "damaged cut 0 70000"),
    "cuts of two sessions": (
        store_of([Taken([A, E], [0, 1]), Taken([LONGER], [0, 2]), Taken([], [2])]),
        "damaged cut 1 1",
    ),
    "a late cut of one session and an early one of the next": (
        store_of([Taken([A, LONGER], [0, 0, 0, 1]), Taken([], [1])]),
        "damaged cut 0 3",
    ),
    "a cut of a dropped session alone": (
        store_of([Taken([A, LONGER], [0, 1]), Drop(0), Taken([], [0, 0])]),
        "damaged cut 0 1",
    ),
    "a cut of a session after a dropped one": (
        store_of([Taken([A], [0]), Drop(0), Taken([LONGER], [0, 1])]),
        "damaged cut 1 1",
    ),
    "a cut of a session between two that are right": (
        store_of([Taken([A, E], [0, 1]), Taken([], [1, 0]), Taken([], [0, 0, 1])]),
        "damaged cut 1 0",
    ),
}
