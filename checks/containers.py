"""Stores of several containers: their sizes and headers, restores across them, and damage."""

import tempfile
from dataclasses import replace
from hashlib import sha256
from pathlib import Path
from random import Random

from folders import COMMANDS, LONG, Twin, new_twin, refused
from harness import each_row, expect, expect_same, run, test
from reference import DEFAULTS
from reference_store import (
    COMMIT,
    CONTAINER_HEADER,
    MAX_CHUNK,
    MAX_CONTAINER,
    Ingest,
    NewChunk,
    container_header,
    settings_of,
    sizes_of,
    spelling_of,
)

# Chunks of which 13 fit into a container.
LENGTH = 300_000
FIXED = replace(DEFAULTS, min=LENGTH, max=LENGTH)
TEXT = Random(51).randbytes(33 * LENGTH + 100_000)
# Its chunks are 13 in container 0, 13 in container 1, and 8 in container 2.
SIZES = [13 * LENGTH + 8, 13 * LENGTH + 8, 7 * LENGTH + 100_000 + 8]


def whole_chunks():
    return [TEXT[start : start + LENGTH] for start in range(0, 33 * LENGTH, LENGTH)]


def three_containers():
    twin = new_twin(FIXED)
    twin.ingest("a", TEXT)
    return twin


def expect_sizes(sizes, files):
    """Expects containers of these sizes and no other, each with its header."""
    containers = {name: it for name, it in files.items() if name.startswith("container.")}
    wanted = {f"container.0.{number}": size for number, size in enumerate(sizes)}
    expect_same("the sizes", wanted, {name: len(it) for name, it in containers.items()})
    for number in range(len(sizes)):
        header = b"SSCP" + number.to_bytes(4, "big")
        came = containers[f"container.0.{number}"][:CONTAINER_HEADER]
        expect_same(f"the header of container {number}", header, came)


@test
def containers_have_the_headers_and_sizes_of_their_chunks():
    expect_sizes(SIZES, three_containers().files)
    lengths = [LENGTH] * 33 + [100_000]
    expect_same("the sizes of the second implementation", SIZES, sizes_of(lengths))


@test
def chunks_of_all_containers_are_restored_in_any_order():
    twin, chunks = three_containers(), whole_chunks()
    expect_same("the session", TEXT, twin.restore("a").output)
    backwards = b"".join(reversed(chunks))
    by_turns = b"".join(chunks[number % 3 * 13 + number // 3] for number in range(18))
    for name, text in (("back", backwards), ("turns", by_turns)):
        twin.ingest(name, text)
        expect_same("the session", text, twin.restore(name).output)
    expect_sizes(SIZES, twin.files)


@test
def repeats_of_chunks_of_earlier_containers_are_stored_once():
    twin, chunks = new_twin(FIXED), whole_chunks()
    # Chunk 20 is in container 1 and chunk 27 in container 2. Repeats come between and at the end.
    order = [*range(20), 0, 12, 13, 19, 5, *range(20, 27), 25, 0, 26, 13, *range(27, 30), 12, 29, 0]
    text = b"".join(chunks[number] for number in order)
    twin.ingest("a", text)
    expect_same("the session", text, twin.restore("a").output)
    expect_sizes(sizes_of([LENGTH] * 30), twin.files)


@test
def later_container_is_filled_exactly_and_the_next_opened():
    draw = Random(52)
    full = MAX_CONTAINER - CONTAINER_HEADER
    twin = new_twin(LONG)
    texts = {f"f{number}": draw.randbytes(full) for number in range(2)}
    for name, text in texts.items():
        twin.ingest(name, text)
    expect_sizes([MAX_CONTAINER, MAX_CONTAINER], twin.files)
    twin.ingest("y", b"y")
    expect_sizes([MAX_CONTAINER, MAX_CONTAINER, CONTAINER_HEADER + 1], twin.files)
    for name, text in texts.items():
        expect_same("the session", text, twin.restore(name).output)
    twin.restore("y")


@test
def chunk_one_byte_too_long_opens_the_next_container():
    draw = Random(53)
    rest = MAX_CONTAINER - CONTAINER_HEADER - 3 * MAX_CHUNK
    twin = new_twin(LONG)
    twin.ingest("a", draw.randbytes(3 * MAX_CHUNK))
    twin.ingest("b", draw.randbytes(rest + 1))
    expect_sizes([3 * MAX_CHUNK + 8, rest + 9], twin.files)
    # What would have fitted into container 0 comes after the last chunk too.
    twin.ingest("c", b"c")
    expect_sizes([3 * MAX_CHUNK + 8, rest + 10], twin.files)
    for name in "abc":
        twin.restore(name)


@test
def chunks_of_drawn_lengths_are_packed_as_by_the_second_implementation():
    draw, twin, texts = Random(54), new_twin(LONG), {}
    for number in range(16):
        texts[f"s{number}"] = draw.randbytes(draw.choice([1, 700_000, 900_000, MAX_CHUNK]))
        twin.ingest(f"s{number}", texts[f"s{number}"])
    for name, text in texts.items():
        expect_same("the session", text, twin.restore(name).output)
    expect_sizes(sizes_of([len(it) for it in texts.values()]), twin.files)


def without(files, *names):
    return {name: it for name, it in files.items() if name not in names}


@test
def first_container_that_is_too_short_is_named():
    files = three_containers().files
    one, two = files["container.0.1"], files["container.0.2"]
    rows = [
        (files | {"container.0.1": one[:-1]}, f"1 needs {SIZES[1]} has {SIZES[1] - 1}"),
        (files | {"container.0.2": two[:8]}, f"2 needs {SIZES[2]} has 8"),
        (without(files, "container.0.2"), f"2 needs {SIZES[2]} has 0"),
        (without(files, "container.0.1", "container.0.2"), f"1 needs {SIZES[1]} has 0"),
        (without(files, "container.0.1") | {"container.1.1": one}, f"1 needs {SIZES[1]} has 0"),
    ]

    def expect_row(files, note):
        twin = Twin(files)
        for words in COMMANDS:
            twin.expect(words, refused(f"damaged container {note}"))

    each_row(rows, expect_row)


@test
def changed_chunk_of_a_later_container_is_named_after_the_chunks_before_it():
    twin = three_containers()
    first = b"".join(whole_chunks()[:13])
    twin.ingest("first", first)
    # Chunk 15 is the third of container 1.
    changed = bytearray(twin.files["container.0.1"])
    changed[8 + 2 * LENGTH + 5] ^= 1
    twin = Twin(twin.files | {"container.0.1": bytes(changed)})
    kept = sha256(TEXT[15 * LENGTH : 16 * LENGTH]).hexdigest()
    found = sha256(changed[8 + 2 * LENGTH : 8 + 3 * LENGTH]).hexdigest()
    note = f"damaged chunk 15 kept {kept} found {found}"
    twin.list()
    twin.expect(["restore", "a"], refused(note, TEXT[: 15 * LENGTH]))
    twin.expect(["ingest", "n"], refused(note), TEXT)
    expect_same("the session without it", first, twin.restore("first").output)


@test
def containers_that_changed_places_are_damage_of_their_first_chunks():
    files = three_containers().files
    one, other = files["container.0.0"], files["container.0.1"]
    twin = Twin(files | {"container.0.0": other, "container.0.1": one})
    twin.list()
    names = [sha256(it).hexdigest() for it in (TEXT[:LENGTH], TEXT[13 * LENGTH : 14 * LENGTH])]
    twin.expect(["restore", "a"], refused(f"damaged chunk 0 kept {names[0]} found {names[1]}"))


def write_many_containers(folder, chunks):
    """Makes a store of 65 containers of zeros, except these chunks by their numbers.

    A container has three chunks. The session of the store has the chunks that are given, twice.
    """
    zero = NewChunk(MAX_CHUNK, sha256(bytes(MAX_CHUNK)).digest())
    fresh = [zero] * 195
    for number, text in chunks.items():
        fresh[number] = NewChunk(MAX_CHUNK, sha256(text).digest())
    recipe = [*chunks, *chunks]
    record = spelling_of(Ingest(b"a", MAX_CHUNK * len(recipe), fresh, recipe))
    files = {"head": settings_of(LONG) + COMMIT, "seal.0": COMMIT, "book.0": record}
    for name, content in files.items():
        Path(folder, name).write_bytes(content)
    for number in range(65):
        with Path(folder, f"container.0.{number}").open("wb") as file:
            file.write(container_header(number))
            for index, text in chunks.items():
                if index // 3 == number:
                    file.seek(CONTAINER_HEADER + index % 3 * MAX_CHUNK)
                    file.write(text)
            file.truncate(CONTAINER_HEADER + 3 * MAX_CHUNK)


@test
def more_containers_than_are_kept_open_are_read_by_turns():
    draw = Random(55)
    chunks = {number: draw.randbytes(MAX_CHUNK) for number in (0, 192, 2, 194)}
    text = b"".join(chunks.values())
    # The files have 200 MB without their holes, so they are not in the room that is looked at.
    with tempfile.TemporaryDirectory() as folder:
        write_many_containers(folder, chunks)
        expect(run([folder, "restore", "a"]), output=text + text)
        expect(
            run([folder, "ingest", "n"], text + b"abc"),
            output=b"ingested n 4194307 bytes 5 places 1 new\n",
        )
        expect(run([folder, "restore", "n"]), output=text + b"abc")
        with Path(folder, "container.0.64").open("rb") as last:
            last.seek(CONTAINER_HEADER + 3 * MAX_CHUNK)
            expect_same("what was appended", b"abc", last.read())
