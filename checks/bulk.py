"""What `bulk` takes into a store: blocks of bytes that follow from a seed."""

import os

import reference_bulk
from folders import FOLDER, Twin, expect_files, new_twin, refused
from harness import (
    Mismatch,
    closing,
    each_row,
    expect,
    expect_early_refusal,
    expect_refusal,
    expect_same,
    file_of,
    position_of,
    run,
    test,
)
from reference import DEFAULTS, LONGEST_INPUT, SPARSE_ZERO
from reference_bulk import BLOCK, STATES, block_of, bulk_input, origin_of
from reference_store import files_in, twice, write_files

MOST_BLOCKS = 4096
GREATEST_SEED = 2**64 - 1


@test
def second_implementation_of_the_generator_has_the_known_values():
    reference_bulk.self_test()


@test
def generated_blocks_are_taken_in_as_the_definition_says():
    twin = new_twin(DEFAULTS)
    for seed, blocks in [(7, 4), (7, 1), (0, 1), (GREATEST_SEED, 2)]:
        twin.bulk(seed, blocks)
        twin.restore(f"bulk.{seed}.{blocks}")
    twin.bulk(7, 4)
    twin.list()


@test
def short_chunks_of_generated_blocks_follow_stored_ones():
    twin = Twin(twice())
    twin.bulk(2**63, 1)
    twin.drop(f"bulk.{2**63}.1")
    twin.bulk(2**63, 1)


def folder_of_bulk(folder, *keys):
    """Takes 640 blocks into a new store, and returns the line and the files."""
    os.mkdir(folder)
    expect(run([folder, "init"], changes=folder), output=b"ready\n")
    came = run([folder, "bulk", "7", "640", *keys], changes=folder)
    expect_same("status and notes", (0, b""), (came.status, came.notes))
    return came.output, files_in(folder)


@test
def generated_input_is_that_of_a_file_for_all_workers():
    text = bulk_input(7, 640)
    os.mkdir(FOLDER)
    expect(run([FOLDER, "init"], changes=FOLDER), output=b"ready\n")
    line = run([FOLDER, "ingest", "bulk.7.640"], text, changes=FOLDER).output
    if not line.startswith(b"ingested bulk.7.640 41943040 bytes "):
        raise Mismatch(f"wanted the line of an ingest, came {line}")
    files = files_in(FOLDER)

    def expect_row(*keys):
        folder = "-".join(keys)
        came, made = folder_of_bulk(folder, *keys)
        expect_same("the line", line, came)
        expect_files(files, made)
        expect(run([folder, "restore", "bulk.7.640"]), output=text)

    each_row([("workers=8",), ("workers=1",), ("segment=1000000", "workers=3")], expect_row)


def stored_block(number):
    """A block whose chunks have 16 blocks each, as it is stored. Three of them fill a container."""
    chunk, at = divmod(number, 16)
    with open(f"{FOLDER}/container.0.{chunk // 3}", "rb") as container:
        container.seek(8 + (16 * (chunk % 3) + at) * BLOCK)
        return container.read(BLOCK)


@test
def most_blocks_are_as_long_as_the_longest_input():
    os.mkdir(FOLDER)
    # Each chunk is as long as a chunk may be, so this is quick.
    expect(run([FOLDER, "init", "min=1048576", "max=1048576"], changes=FOLDER), output=b"ready\n")
    line = f"ingested bulk.1.{MOST_BLOCKS} {LONGEST_INPUT} bytes 256 places 256 new\n"
    came = run([FOLDER, "bulk", "1", f"{MOST_BLOCKS}"], changes=FOLDER)
    expect(came, output=line.encode())

    def expect_row(number, states):
        wanted = block_of(1, origin_of(number), states)
        expect_same("its bytes", wanted, stored_block(number)[: len(wanted)])

    # All begin as they should, and the last ones are right to their ends.
    starts = [(number, 16) for number in range(MOST_BLOCKS)]
    each_row([*starts, *((MOST_BLOCKS - it, STATES) for it in range(1, 5))], expect_row)


@test
def input_is_not_read():
    def expect_row(files, note):
        write_files(FOLDER, files)
        with file_of(b"abc") as source:
            came = run([FOLDER, "bulk", "7", "1"], source, changes=FOLDER)
            expect_same("bytes taken", 0, position_of(source))
        if note is None:
            expect_same("status and notes", (0, b""), (came.status, came.notes))
        else:
            expect_refusal(came, note)
            expect_files(files, files_in(FOLDER))

    taken = Twin(twice())
    taken.bulk(7, 1)
    rows = [
        (twice(), None),
        (dict(taken.files), "name taken"),
        ({}, "no store"),
        (twice() | {"seal.0": b"SSS"}, "damaged record 2"),
    ]
    each_row(rows, expect_row)


@test
def closed_input_is_not_noticed():
    twin = new_twin(SPARSE_ZERO)
    before = dict(twin.files)
    wanted = twin.bulk(9, 1)
    write_files(FOLDER, before)
    starter = closing("<&")
    expect(run([FOLDER, "bulk", "9", "1"], starter=starter, changes=FOLDER), *wanted)
    expect_files(twin.files, files_in(FOLDER))


WRONG_NUMBERS = ["", " ", "-1", "+1", "07", "00", "1.0", "0x7", "7 ", "７", "1_0", "9" * 21]


@test
def numbers_that_are_none_are_refused_by_their_place():
    def expect_row(word):
        expect_early_refusal(["s", "bulk", word, "1"], "bad words at 1: number")
        expect_early_refusal(["s", "bulk", "7", word], "bad words at 2: number")

    each_row(((word,) for word in WRONG_NUMBERS), expect_row)


@test
def damaged_stored_chunk_of_a_generated_one_is_named():
    twin = new_twin(DEFAULTS)
    twin.bulk(5, 1)
    container = bytearray(twin.files["container.0.0"])
    container[BLOCK // 2] ^= 1
    twin = Twin(twin.files | {"container.0.0": bytes(container)})
    wanted = twin.bulk(5, 2)
    if not wanted.notes.startswith(b"backup: damaged chunk "):
        raise Mismatch(f"wanted a damaged chunk, came {wanted.notes}")
    twin.expect(["bulk", "5", "1"], refused("name taken"))
