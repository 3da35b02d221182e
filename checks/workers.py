"""What workers, segments and shards leave the same: the lines of `plan`, the files of a store."""

from dataclasses import replace
from itertools import product
from random import Random

import reference
from folders import FOLDER, expect_files, new_twin, wanted_run
from harness import STORE, each_row, expect, run, test
from reference import DEFAULTS, SPARSE, SPARSE_ZERO, keys_of, marked_zeros
from reference_store import files_in, ingest, write_files

WORKERS = [1, 2, 3, 4, 64]
SEGMENTS = [1, 47, 48, 49, 65, 4096, 2**28]

# A byte of 1 among zeros makes one candidate, the position after it.
MARK = 1
MARKED = replace(SPARSE, max=5000)


def keys_of_workers(workers, segment):
    return [f"workers={workers}", f"segment={segment}"]


def expect_plans(params, text):
    """Expects the plan of the definition from all numbers of workers and of bytes of a segment."""
    wanted = reference.plan(params, text)

    def expect_row(workers, segment):
        keys = [*keys_of(params), *keys_of_workers(workers, segment)]
        expect(run([STORE, "plan", *keys], text), output=wanted)

    each_row(product(WORKERS, SEGMENTS), expect_row)


def candidates_near_edges(segment, distance):
    """Zeros with one candidate at each such distance from an edge that leaves room for a chunk."""
    step = segment * -(-2 * MARKED.min // segment)
    edges = range(step, 9000, step)
    return marked_zeros(MARK, [edge + distance - 1 for edge in edges], 9100)


@test
def candidates_at_every_edge_of_a_segment_are_found():
    def expect_row(segment, distance):
        text = candidates_near_edges(segment, distance)
        wanted = reference.plan(MARKED, text)
        for workers in (1, 2, 4):
            keys = [*keys_of(MARKED), *keys_of_workers(workers, segment)]
            expect(run([STORE, "plan", *keys], text), output=wanted)

    each_row(product([1, 47, 48, 49, 65, 4096], [-1, 0, 1, 47]), expect_row)


@test
def plan_is_the_same_for_all_workers_and_segments():
    expect_plans(MARKED, marked_zeros(MARK, [62, 99, 363, 4095, 4160, 8191, 8300], 9000))
    dense = replace(DEFAULTS, bits=4, target=3, min=48, max=300)
    expect_plans(dense, Random(64).randbytes(9000))
    for text in (b"", b"abc", bytes(47), bytes(48), bytes(49), bytes(4096), bytes(4097)):
        expect_plans(SPARSE_ZERO, text)


@test
def store_is_the_same_for_all_workers_and_segments():
    draw = Random(65)
    first, second = draw.randbytes(20_000), draw.randbytes(3_000)
    before = new_twin(replace(DEFAULTS, bits=5, target=1, min=48, max=400))
    before.ingest("a", first)
    text = first[:9_000] + second + first[9_000:] + second
    after = dict(before.files)
    wanted = wanted_run(ingest, after, b"b", text)

    def expect_row(workers, segment):
        write_files(FOLDER, before.files)
        words = [FOLDER, "ingest", "b", *keys_of_workers(workers, segment)]
        expect(run(words, text, changes=FOLDER), *wanted)
        expect_files(after, files_in(FOLDER))

    each_row(product(WORKERS, SEGMENTS), expect_row)


@test
def keys_of_workers_come_in_any_order_beside_others():
    text = bytes(200)
    wanted = reference.plan(SPARSE_ZERO, text)
    keys = [*keys_of(SPARSE_ZERO), *keys_of_workers(3, 50)]
    for seed in range(20):
        expect(run([STORE, "plan", *Random(seed).sample(keys, len(keys))], text), output=wanted)


@test
def drawn_workers_segments_and_shards_change_nothing():
    draw = Random(66)
    params, text = replace(DEFAULTS, bits=8, target=3, min=256, max=4096), draw.randbytes(200_000)
    wanted = reference.plan(params, text)
    expect(run([STORE, "plan", *keys_of(params)], text), output=wanted)
    before = new_twin(params)
    after = dict(before.files)
    line = wanted_run(ingest, after, b"a", text)

    def expect_row(workers, segment, shards):
        keys = keys_of_workers(workers, segment)
        expect(run([STORE, "plan", *keys_of(params), *keys], text), output=wanted)
        write_files(FOLDER, before.files)
        words = [FOLDER, "ingest", "a", *keys, f"shards={shards}"]
        expect(run(words, text, changes=FOLDER), *line)
        expect_files(after, files_in(FOLDER))

    workers = draw.sample(range(1, 65), 30)
    segments = [draw.choice([draw.randint(40, 300), draw.randint(300, 99_999)]) for _ in workers]
    shards = [1, 256, *draw.sample(range(2, 256), 28)]
    each_row(zip(workers, segments, shards), expect_row)
