"""A second implementation of `audit`: the first flaw of a store, straight from its definition.

Run as a program it compares itself with values that were worked out by hand.
"""

from hashlib import sha256

import reference
from made_stores import FLAWED, SOUND
from reference import compare
from reference_store import (
    CONTAINER_HEADER,
    Refusal,
    container_header,
    opened,
    sizes_of,
    spots_of,
)


def container_of(files, store, number):
    return files.get(f"container.{store.generation}.{number}", b"")


def chunks_in(files, store):
    """The bytes of all chunks, in the order of their numbers."""
    lengths = store.book.lengths()
    return [
        container_of(files, store, container)[offset : offset + length]
        for (container, offset), length in zip(spots_of(lengths), lengths)
    ]


# The looks, in the order in which they are taken. Each raises a refusal at its first flaw.


def look_at_marks(files, store):
    for number in range(len(sizes_of(store.book.lengths()))):
        found = container_of(files, store, number)[:CONTAINER_HEADER]
        if found != container_header(number):
            raise Refusal(f"damaged mark {number}")


def look_at_names(store, chunks):
    for number, (kept, chunk) in enumerate(zip(store.book.chunks, chunks)):
        found = sha256(chunk).digest()
        if found != kept.name:
            names = f"kept {kept.name.hex()} found {found.hex()}"
            raise Refusal(f"damaged chunk {number} {names}")


def look_at_twins(chunks):
    least = {}
    for number, chunk in enumerate(chunks):
        first = least.setdefault(chunk, number)
        if first != number:
            raise Refusal(f"damaged twin {first} {number}")


def first_out_of_order(earlier, known, recipe):
    """The first place of a recipe that names a chunk too early, or its end if it lacks one.

    The numbers from `earlier` up to `known` are those of the chunks that are new in its record.
    """
    occurred = set()
    for place, number in enumerate(recipe):
        if number > earlier + len(occurred):
            return place
        if number >= earlier:
            occurred.add(number)
    return None if len(occurred) == known - earlier else len(recipe)


def look_at_order(store):
    earlier = 0
    for session, (record, known) in enumerate(zip(store.book.sessions, store.book.known)):
        place = first_out_of_order(earlier, known, record.recipe)
        if place is not None:
            raise Refusal(f"damaged order {session} {place}")
        earlier = known


def look_at_cuts(store, chunks):
    for session, record in enumerate(store.book.sessions):
        parts = [chunks[number] for number in record.recipe]
        lengths = reference.lengths_of(store.params, b"".join(parts))
        for place, (part, length) in enumerate(zip(parts, lengths)):
            if len(part) != length:
                raise Refusal(f"damaged cut {session} {place}")


def counts_of(store):
    """What `audit` prints of a store without a flaw."""
    lengths = store.book.lengths()
    sessions = f"{len(store.book.live)} live {len(store.book.sessions)} ingested"
    return f"ok {sessions} {len(lengths)} chunks {len(sizes_of(lengths))} containers\n".encode()


def audit(files):
    """What `audit` prints. Raises a refusal if there is no store, or at the first flaw."""
    store = opened(files)
    look_at_marks(files, store)
    chunks = chunks_in(files, store)
    look_at_names(store, chunks)
    look_at_twins(chunks)
    look_at_order(store)
    look_at_cuts(store, chunks)
    return counts_of(store)


# Known values.


def flaw_of(files):
    """The note of a store with a flaw, or what an audit of one without prints."""
    try:
        return audit(files).decode()
    except Refusal as refusal:
        return refusal.note


def self_test():
    """Raises a ValueError at the first value that does not come out as it is known."""
    for name, (files, wanted) in {**FLAWED, **SOUND}.items():
        compare(name, wanted, flaw_of(files))
    compare("places in order", None, first_out_of_order(2, 4, [0, 2, 1, 3, 2]))
    compare("a place too early", 1, first_out_of_order(2, 5, [2, 4, 3]))
    compare("the end of a recipe", 2, first_out_of_order(2, 4, [2, 0]))


if __name__ == "__main__":
    self_test()
    print("the reference has the known values")
