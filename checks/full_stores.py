"""Stores with as many sessions, places or chunks as are wanted, written without the program."""

from folders import FOLDER
from reference import DEFAULTS
from reference_store import (
    MAX_CONTAINER,
    Ingest,
    body_of_ingest,
    container_header,
    sealed,
    settings_of,
    spelling_of,
    u32,
    write_files,
)

ZERO = bytes.fromhex("6e340b9cffb37a989ca544e6bb780a2c78901d3fb33738768511a30617afa01d")
HEAD = settings_of(DEFAULTS) + b"S"


def write_book(records, containers):
    """Makes a store whose book has these records."""
    files = {"head": HEAD, "seal.0": b"S" * len(records), "book.0": b"".join(records)}
    write_files(FOLDER, files | containers)


def empty_sessions(count):
    return [spelling_of(Ingest(b"s%d" % number, 0, [], [])) for number in range(count)]


def zero_chunks(count):
    """The new chunks of a record: the zero byte, so many times."""
    return (u32(1) + ZERO) * count


def record_of_zeros(name, chunks, places, recipe):
    """The record of a session of so many places, each the zero byte."""
    body = body_of_ingest(name, places, chunks, zero_chunks(chunks), places, recipe)
    return sealed(b"I", body)


def containers_of_zeros(count):
    """The containers of so many chunks, each the zero byte."""
    in_one, containers = MAX_CONTAINER - 8, {}
    for number, start in enumerate(range(0, count, in_one)):
        content = container_header(number) + bytes(min(in_one, count - start))
        containers[f"container.0.{number}"] = content
    return containers
