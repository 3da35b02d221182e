"""Which calls of the system a run makes on the files of a store, and in which order.

The calls are seen by strace. If it cannot be used, the tests are not tried.
"""

import os
import re
import subprocess
from dataclasses import replace
from random import Random

from folders import (
    COMMANDS,
    FOLDER,
    LONG,
    READING,
    TEXT,
    expect_files,
    with_ingest,
    with_tails,
)
from harness import PROGRAM, Mismatch, expect_same
from reference import DEFAULTS, SPARSE_ZERO, keys_of
from reference_store import (
    MAX_CHUNK,
    files_in,
    ingest,
    init,
    opened,
    references,
    sizes_of,
    twice,
    write_files,
)
from tracing import CHANGES, calls_of, traced, traced_test

# Every chunk but the last of an input is as short as a chunk may be.
SHORTEST = replace(DEFAULTS, min=48, max=48)


def expect_synced_before(calls, commits):
    """Expects that what was changed is synced before each commit, and at the end.

    `commits` has the indexes of the calls that commit.
    """
    changed = set()
    for index, (kind, file) in enumerate(calls):
        if index in commits and changed:
            raise Mismatch(f"wanted all synced before call {index} of {calls}, not {changed}")
        if kind in ("write", "cut"):
            changed.add(file)
        elif kind == "make":
            changed.add(".")
        elif kind == "sync":
            changed.discard(file)
    expect_same("what is not synced at the end", set(), changed)


def of(calls, file):
    return [it for it in calls if it.file == file]


def indexes_of(calls, file, kinds):
    return [index for index, it in enumerate(calls) if it.file == file and it.kind in kinds]


@traced_test
def ingest_is_synced_before_its_seal_is_written():
    rows = [
        (twice(), TEXT),
        (twice(), bytes(200)),
        ({"head": twice()["head"]}, TEXT),
        ({"head": twice()["head"]}, b""),
    ]
    for files, text in rows:
        calls, status = calls_of(["ingest", "n"], text, files)
        expect_same("the status", 0, status)
        seals = indexes_of(calls, "seal.0", ("make", "write"))
        expect_same("the writes of the seal", 1, len(indexes_of(calls, "seal.0", ("write",))))
        expect_synced_before(calls, seals[:1])


@traced_test
def drop_is_synced_before_its_seal_is_written():
    for files in (twice(), with_tails(twice(), {"book.0": b"D", "container.0.0": b"x"})):
        calls, status = calls_of(["drop", "a"], b"", files)
        expect_same("the status", 0, status)
        expect_same("the writes of the book", 1, len(indexes_of(calls, "book.0", ("write",))))
        seals = indexes_of(calls, "seal.0", ("write",))
        expect_same("the writes of the seal", 1, len(seals))
        expect_synced_before(calls, seals)


@traced_test
def every_container_is_synced_before_the_seal_is_written():
    files, draw = {}, Random(41)
    init(files, LONG)
    ingest(files, b"a", draw.randbytes(2 * MAX_CHUNK))
    # One chunk more in container 0, three in container 1, and one in container 2.
    calls, status = calls_of(["ingest", "n"], draw.randbytes(5 * MAX_CHUNK), files)
    expect_same("the status", 0, status)
    for number in range(3):
        syncs = indexes_of(calls, f"container.0.{number}", ("sync",))
        expect_same(f"the syncs of container {number}", 1, len(syncs))
    expect_synced_before(calls, indexes_of(calls, "seal.0", ("make", "write"))[:1])


@traced_test
def init_is_synced_before_its_last_byte_is_written():
    for files in ({}, {"seal.0": b"SSS"}, {"head": b"SSCH", "seal.0": b"S"}):
        calls, status = calls_of(["init", *keys_of(SPARSE_ZERO)], b"", files)
        expect_same("the status", 0, status)
        heads = indexes_of(calls, "head", ("write",))
        expect_same("the writes of the head", 2, len(heads))
        expect_synced_before(calls, heads[1:])


@traced_test
def reading_and_refused_commands_change_no_file():
    def expect_no_change(words, text, files, wanted):
        calls, status = calls_of(words, text, files)
        expect_same(f"the status of {words}", wanted, status)
        expect_same("the changes", [], [it for it in calls if it.kind in CHANGES])

    for words in [*READING, ["plan"]]:
        expect_no_change(words, TEXT, twice(), 0)
    expect_no_change(["init"], b"", twice(), 4)
    expect_no_change(["ingest", "a"], TEXT, twice(), 5)
    expect_no_change(["restore", "n"], TEXT, twice(), 6)
    expect_no_change(["drop", "n"], TEXT, twice(), 6)
    for words in COMMANDS:
        expect_no_change(words, TEXT, {}, 3)
        expect_no_change(words, TEXT, twice() | {"book.0": b""}, 7)


@traced_test
def commands_that_need_no_chunk_open_no_container():
    files = with_ingest(twice(), b"e", b"")
    rows = [
        (["list"], b"", 0),
        (["restore", "e"], b"", 0),
        (["restore", "x"], b"", 6),
        (["refs"], b"", 0),
        (["ingest", "n"], b"", 0),
        (["ingest", "a"], TEXT, 5),
        (["drop", "a"], b"", 0),
        (["drop", "x"], b"", 6),
        (["init"], b"", 4),
    ]
    for words, text, wanted in rows:
        calls, status = calls_of(words, text, files)
        expect_same(f"the status of {words}", wanted, status)
        expect_same(f"the calls on the container by {words}", [], of(calls, "container.0.0"))
    calls, status = calls_of(["plan"], TEXT, files)
    expect_same("the calls of a plan, and its status", ([], 0), (calls, status))


@traced_test
def what_did_not_change_is_not_synced():
    calls, _ = calls_of(["ingest", "n"], bytes(200), twice())
    for name in ("head", "container.0.0"):
        expect_same(f"the syncs of {name}", [], indexes_of(calls, name, ("sync",)))
    for name in ("book.0", "seal.0", "."):
        expect_same(f"the syncs of {name}", 1, len(indexes_of(calls, name, ("sync",))))


@traced_test
def file_is_cut_once_if_it_has_a_tail_and_never_otherwise():
    tail = bytes(300)
    rows = [
        ({}, TEXT, {}),
        ({"book.0": tail}, TEXT, {"book.0": 1}),
        ({"container.0.0": tail}, TEXT, {"container.0.0": 1}),
        ({"container.0.0": tail}, bytes(200), {}),
        ({"book.0": tail, "container.0.0": tail}, TEXT, {"book.0": 1, "container.0.0": 1}),
    ]
    for tails, text, cuts in rows:
        calls, status = calls_of(["ingest", "n"], text, with_tails(twice(), tails))
        expect_same("the status", 0, status)
        for name in twice():
            came = len(indexes_of(calls, name, ("cut",)))
            expect_same(f"the cuts of {name} with {[*tails]}", cuts.get(name, 0), came)


@traced_test
def references_are_written_in_large_pieces():
    draw, files = Random(42), {}
    init(files, SHORTEST)
    ingest(files, b"a", draw.randbytes(48 * 4000))
    text = references(files)
    write_files(FOLDER, files)
    expect_same("the status", 0, traced([FOLDER, "refs"], b"", "trace"))
    with open("trace") as trace:
        writes = [it for it in trace if re.search(r"\bwritev?\(1\b", it)]
    expect_at_most("writes of the text", len(text) // 65_536 + 1, writes)


@traced_test
def chunks_cost_one_call_each():
    text = Random(4).randbytes(20_000)
    files = {"head": twice()["head"]}
    fresh = len(opened(with_ingest(files, b"n", text)).book.chunks)
    calls, _ = calls_of(["ingest", "n"], text, files)
    writes = len(indexes_of(calls, "container.0.0", ("write",)))
    expect_same("the writes of the container, of which one may be its header", fresh + 1, writes)
    once = with_ingest(files, b"m", text)
    calls, _ = calls_of(["ingest", "n"], text, once)
    expect_same("changes of the container", [], indexes_of(calls, "container.0.0", CHANGES))
    expect_at_most("reads of a repeat", fresh, indexes_of(calls, "container.0.0", ("read",)))
    calls, _ = calls_of(["restore", "m"], b"", once)
    expect_at_most("reads of a restore", fresh, indexes_of(calls, "container.0.0", ("read",)))
    expect_at_most("times that it is opened", 2, indexes_of(calls, "container.0.0", ("open",)))


@traced_test
def repeats_inside_an_input_cost_no_call():
    text = bytes(20_000)
    files = {"head": twice()["head"]}
    distinct = len(opened(with_ingest(files, b"n", text)).book.chunks)
    calls, _ = calls_of(["ingest", "n"], text, files)
    expect_same("reads of what was written", [], indexes_of(calls, "container.0.0", ("read",)))
    once = with_ingest(files, b"m", text)
    calls, _ = calls_of(["ingest", "n"], text, once)
    expect_at_most("reads of repeats", distinct, indexes_of(calls, "container.0.0", ("read",)))


@traced_test
def repeats_of_any_chunk_at_any_distance_cost_no_call():
    """The input has more than 65,536 chunks, and what repeats is seldom its first chunk."""
    draw, files = Random(46), {}
    init(files, SHORTEST)
    chunks = [draw.randbytes(48) for _ in range(5000)]
    text = b"".join(chunks + draw.choices(chunks, k=61_000))
    once = with_ingest(files, b"m", text)
    for before, most in ((files, 0), (once, len(chunks))):
        calls, status = calls_of(["ingest", "n"], text, before)
        expect_same("the status", 0, status)
        expect_at_most("reads of chunks", most, indexes_of(calls, "container.0.0", ("read",)))
        expect_files(with_ingest(before, b"n", text), files_in(FOLDER))


def expect_at_most(what, most, came):
    if len(came) > most:
        raise Mismatch(f"{what}: wanted at most {most}, came {len(came)}")


def threads_of(words, text):
    """How many threads a run starts."""
    command = ["strace", "-f", "-o", "trace", "-e", "trace=clone,clone3", PROGRAM, *words]
    subprocess.run(command, input=text, stdout=subprocess.DEVNULL, check=True)
    with open("trace") as trace:
        return sum("CLONE_THREAD" in line for line in trace)


@traced_test
def workers_are_threads():
    """One worker starts none. Three start at least two a stage, and of one segment name alone."""
    text = Random(43).randbytes(9000)
    files = {}
    init(files, replace(DEFAULTS, bits=4, target=3, min=48, max=300))
    plan = ["plan", "bits=4", "target=3", "min=48", "max=300"]
    for words in (plan, ["ingest", "n"]):
        for keys, least, most in (
            (["workers=1", "segment=1000"], 0, 0),
            (["workers=3", "segment=1000"], 4, 6),
            (["workers=3", "segment=9000"], 2, 3),
            (["segment=1000"], 6, 8),
        ):
            write_files(FOLDER, files)
            came = threads_of([FOLDER, *words, *keys], text)
            if not least <= came <= most:
                raise Mismatch(f"{words} {keys}: wanted {least} to {most} threads, came {came}")


@traced_test
def workers_of_a_bulk_are_threads():
    for keys, least, most in ((["workers=1"], 0, 0), (["workers=3", "segment=1000"], 4, 6)):
        write_files(FOLDER, twice())
        came = threads_of([FOLDER, "bulk", "7", "1", *keys], b"")
        if not least <= came <= most:
            raise Mismatch(f"{keys}: wanted {least} to {most} threads, came {came}")


# Audits.


def audited_store():
    """The files of a store, how many chunks it has, and the sizes of its containers."""
    files, draw = {}, Random(47)
    init(files, replace(DEFAULTS, min=5000, max=5000))
    ingest(files, b"a", draw.randbytes(9_000_000))
    ingest(files, b"b", bytes(12_000))
    book = opened(files).book
    return files, len(book.chunks), sizes_of(book.lengths())


def bytes_read(trace, name):
    """How many bytes of a file of the store a run read."""
    pattern = rf"\bp?readv?(?:64)?\(\d+<[^>]*/{FOLDER}/{re.escape(name)}>.* = (\d+)$"
    return sum(map(int, re.findall(pattern, trace, re.MULTILINE)))


@traced_test
def audit_reads_each_byte_of_a_container_once():
    """What comes after the chunks is not read, and a chunk costs at most one call."""
    files, chunks, sizes = audited_store()
    tails = {f"container.0.{number}": bytes(300) for number in range(len(sizes))}
    for before in (files, with_tails(files, tails)):
        calls, status = calls_of(["audit"], b"", before)
        expect_same("the status", 0, status)
        with open("trace") as file:
            trace = file.read()
        names = [f"container.0.{number}" for number in range(len(sizes))]
        expect_same("the bytes read", sizes, [bytes_read(trace, it) for it in names])
        reads = [it for it in calls if it.file in names and it.kind == "read"]
        expect_at_most("reads of containers", chunks + len(sizes), reads)
        for name in names:
            expect_at_most(f"times that {name} is opened", 2, indexes_of(calls, name, ("open",)))


@traced_test
def reading_commands_open_no_file_for_writing():
    """A file that cannot be written, or a disk that must not be, is read all the same."""
    for words in READING:
        write_files(FOLDER, twice())
        expect_same(f"the status of {words}", 0, traced([FOLDER, *words], b"", "trace"))
        with open("trace") as trace:
            opens = [it for it in trace if re.search(rf"\bopenat?\(.*{FOLDER}/", it)]
        expect_same(f"whether {words} opens files", True, bool(opens))
        writable = [it for it in opens if re.search("O_WRONLY|O_RDWR|O_CREAT|O_TRUNC", it)]
        expect_same(f"what {words} opens for writing", [], writable)


@traced_test
def chunks_of_an_audit_are_shared_by_threads():
    """The names and then the cuts of a batch: each time a thread for each processor, or more."""
    files, _, _ = audited_store()
    write_files(FOLDER, files)
    least = 2 * (len(os.sched_getaffinity(0)) - 1)
    came = threads_of([FOLDER, "audit"], b"")
    if came < least:
        raise Mismatch(f"wanted at least {least} threads, came {came}")
