"""Which inputs and sessions are too many or too long for a store, the most that it takes, and the
memory of an audit."""

import struct
import sys
import tempfile
from dataclasses import replace
from hashlib import sha256
from pathlib import Path
from subprocess import DEVNULL

from folders import FOLDER, Twin, expect_committed, expect_files
from full_stores import containers_of_zeros, empty_sessions, record_of_zeros, write_book
from harness import (
    PROGRAM,
    Mismatch,
    ended,
    expect,
    expect_refusal,
    expect_same,
    file_of,
    position_of,
    run,
    test,
)
from reference import DEFAULTS, LONGEST_INPUT
from reference_audit import counts_of
from reference_store import (
    COMMIT,
    CONTAINER_HEADER,
    MAX_CHUNK,
    MAX_CHUNKS,
    MAX_CONTAINER,
    MAX_PLACES,
    MAX_SESSIONS,
    Drop,
    Ingest,
    body_of_ingest,
    container_header,
    files_in,
    opened,
    sealed,
    settings_of,
    spelling_of,
    twice,
    u32,
    write_files,
)


def ingest_line(name, length, places, fresh):
    return f"ingested {name} {length} bytes {places} places {fresh} new\n".encode()


def expect_untouched_by(words, source, note):
    """Expects a refusal that reads no byte and leaves the files as they are."""
    before = files_in(FOLDER)
    with file_of(source) as file:
        expect_refusal(run([FOLDER, *words], file), note)
        expect_same("bytes taken", 0, position_of(file))
    expect_files(before, files_in(FOLDER))


def zeros_through_a_pipe(length):
    """A starter that gives the program so many zero bytes through a pipe."""
    return ("sh", "-c", f'head -c {length} /dev/zero | "$@"', "sh")


@test
def longest_input_is_taken_in_and_a_longer_one_is_not():
    Twin().init(DEFAULTS)
    before = files_in(FOLDER)
    with tempfile.TemporaryFile() as zeros:
        zeros.truncate(LONGEST_INPUT + 1)
        expect_refusal(run([FOLDER, "ingest", "z"], zeros, changes=FOLDER), "input too long")
        expect_same("bytes taken", LONGEST_INPUT + 1, position_of(zeros))
    expect_files(before, files_in(FOLDER))
    expect(run([FOLDER, "list"]))
    starter = zeros_through_a_pipe(LONGEST_INPUT)
    came = run([FOLDER, "ingest", "z"], starter=starter, changes=FOLDER)
    expect(came, output=ingest_line("z", LONGEST_INPUT, 4096, 1))
    expect_same("bytes of the container", 65_544, Path(FOLDER, "container.0.0").stat().st_size)
    with tempfile.TemporaryFile() as file:
        expect(run([FOLDER, "restore", "z"], b"", file))
        file.seek(0)
        zeros = bytes(2**20)
        while piece := file.read(2**20):
            expect_same("a piece of the session", zeros, piece)
        expect_same("bytes of the session", LONGEST_INPUT, file.tell())


@test
def input_that_never_ends_leaves_the_store_as_it_was():
    twin = Twin(twice())
    with open("/dev/zero", "rb") as endless:
        expect_refusal(run([FOLDER, "ingest", "z"], endless, changes=FOLDER), "input too long")
    expect_files(twin.files, files_in(FOLDER))
    expect_committed()


@test
def sessions_up_to_their_number_are_taken_in():
    write_book(empty_sessions(MAX_SESSIONS - 1), {})
    came = run([FOLDER, "ingest", "x"], b"abc", changes=FOLDER)
    expect(came, output=ingest_line("x", 3, 1, 1))
    expect_untouched_by(["ingest", "x"], b"abc", "name taken")
    expect_untouched_by(["ingest", "y"], b"abc", "too many sessions")
    expect_untouched_by(["bulk", "7", "1"], b"abc", "too many sessions")
    lines = [f"{number} s{number} 0 0\n" for number in range(MAX_SESSIONS - 1)]
    expect(run([FOLDER, "list"]), output="".join([*lines, "4095 x 3 1\n"]).encode())


@test
def dropped_sessions_count_as_sessions():
    drops = [spelling_of(Drop(number)) for number in range(MAX_SESSIONS)]
    write_book([*empty_sessions(MAX_SESSIONS), *drops], {})
    expect(run([FOLDER, "list"]))
    expect_untouched_by(["ingest", "s1"], b"abc", "too many sessions")
    expect_untouched_by(["restore", "s1"], b"abc", "no such session")


def expect_refused_after_reading(source, note):
    with file_of(source) as file:
        expect_refusal(run([FOLDER, "ingest", "x"], file, changes=FOLDER), note)
        expect_same("bytes taken", len(source), position_of(file))


@test
def places_up_to_their_number_are_taken_in():
    recipe = bytes(4 * (MAX_PLACES - 1))
    write_book([record_of_zeros(b"p", 1, MAX_PLACES - 1, recipe)], containers_of_zeros(1))
    # Two places of one chunk are one too many.
    expect_refused_after_reading(bytes(131_072), "too many places")
    came = run([FOLDER, "ingest", "q"], b"\x00", changes=FOLDER)
    expect(came, output=ingest_line("q", 1, 1, 0))
    expect_refused_after_reading(b"abc", "too many places")
    expect(run([FOLDER, "ingest", "x"], changes=FOLDER), output=ingest_line("x", 0, 0, 0))
    lines = f"0 p {MAX_PLACES - 1} {MAX_PLACES - 1}\n1 q 1 1\n2 x 0 0\n"
    expect(run([FOLDER, "list"]), output=lines.encode())


@test
def book_with_too_many_places_is_damaged():
    records = [record_of_zeros(b"p", 1, MAX_PLACES, bytes(4 * MAX_PLACES))]
    write_book([*records, spelling_of(Ingest(b"q", 0, [], []))], containers_of_zeros(1))
    expect(run([FOLDER, "list"]), output=f"0 p {MAX_PLACES} {MAX_PLACES}\n1 q 0 0\n".encode())
    write_book([*records, record_of_zeros(b"q", 0, 1, u32(0))], containers_of_zeros(1))
    expect_refusal(run([FOLDER, "list"]), "damaged record 1")


@test
def chunks_up_to_their_number_are_taken_in():
    recipe = struct.pack(f">{MAX_CHUNKS - 1}I", *range(MAX_CHUNKS - 1))
    record = record_of_zeros(b"c", MAX_CHUNKS - 1, MAX_CHUNKS - 1, recipe)
    write_book([record], containers_of_zeros(MAX_CHUNKS - 1))
    # Two equal chunks need one number.
    text = bytes(131_072)
    came = run([FOLDER, "ingest", "d"], text, changes=FOLDER)
    expect(came, output=ingest_line("d", 131_072, 2, 1))
    expect_same("the last container", 65_551, Path(FOLDER, "container.0.1").stat().st_size)
    expect_refused_after_reading(b"abcd", "too many chunks")
    # A chunk that is stored needs no number.
    came = run([FOLDER, "ingest", "x"], text, changes=FOLDER)
    expect(came, output=ingest_line("x", 131_072, 2, 0))


# What an audit takes, at the largest numbers.

MEGABYTE = 10**6
# A process that starts another is counted in its peak. So a small one starts the program.
MEASURING = """
import resource, subprocess, sys
status = subprocess.run(sys.argv[2:]).returncode
with open(sys.argv[1], "w") as file:
    file.write(str(resource.getrusage(resource.RUSAGE_CHILDREN).ru_maxrss))
sys.exit(status)
"""


def peak_of_an_audit(note=None, line=b""):
    """Runs an audit, expects how it ends, and returns its peak memory in bytes."""
    with tempfile.NamedTemporaryFile("r") as peak:
        starter = [sys.executable, "-c", MEASURING, peak.name]
        came = ended([*starter, PROGRAM, FOLDER, "audit"], stdin=DEVNULL, capture_output=True)
        kibibytes = int(peak.read())
    if note is None:
        expect(came, output=line)
    else:
        expect_refusal(came, note)
    return kibibytes * 1024


def expect_peak(chunks, places, came):
    most = 64 * MEGABYTE + 150 * chunks + 8 * places
    if came > most:
        raise Mismatch(f"{chunks} chunks and {places} places: {came} bytes, and at most {most}")


@test
def audit_of_a_large_store_takes_little_memory():
    """Containers of 200 MB, whatever their size, take no more than a batch."""
    Twin().init(DEFAULTS)
    came = run([FOLDER, "bulk", "1", "4096"], changes=FOLDER)
    expect_same("the status of bulk", 0, came.status)
    store = opened(files_in(FOLDER))
    peak = peak_of_an_audit(line=counts_of(store))
    expect_peak(len(store.book.chunks), store.book.places, peak)


@test
def most_chunks_are_audited():
    """Each chunk has 48 bytes: its number, and zeros before it."""
    chunks = [bytes(40) + struct.pack(">Q", number) for number in range(MAX_CHUNKS)]
    fresh = b"".join(u32(48) + sha256(it).digest() for it in chunks)
    recipe = struct.pack(f">{MAX_CHUNKS}I", *range(MAX_CHUNKS))
    length = 48 * MAX_CHUNKS
    body = body_of_ingest(b"c", length, MAX_CHUNKS, fresh, MAX_CHUNKS, recipe)
    in_one = (MAX_CONTAINER - CONTAINER_HEADER) // 48
    starts = range(0, MAX_CHUNKS, in_one)
    containers = {
        f"container.0.{number}": container_header(number) + b"".join(chunks[start : start + in_one])
        for number, start in enumerate(starts)
    }
    head = settings_of(replace(DEFAULTS, min=48, max=48)) + COMMIT
    files = {"head": head, "seal.0": COMMIT, "book.0": sealed(b"I", body)}
    write_files(FOLDER, files | containers)
    # 87,381 chunks of 48 bytes fit into a container.
    line = b"ok 1 live 1 ingested 4194304 chunks 49 containers\n"
    expect_peak(MAX_CHUNKS, MAX_CHUNKS, peak_of_an_audit(line=line))


@test
def containers_have_numbers_of_more_than_a_byte():
    """Each has three chunks of zeros under another name, and little of it is on the disk."""
    count, longest, text = 258, replace(DEFAULTS, max=MAX_CHUNK), bytes(MAX_CHUNK)
    fresh = (u32(MAX_CHUNK) + bytes(32)) * (3 * count)
    record = sealed(b"I", body_of_ingest(b"c", 0, 3 * count, fresh, 0, b""))
    head = settings_of(longest) + COMMIT
    write_files(FOLDER, {"head": head, "seal.0": COMMIT, "book.0": record})
    for number in range(count):
        with open(f"{FOLDER}/container.0.{number}", "wb") as file:
            file.write(container_header(number))
            file.truncate(CONTAINER_HEADER + 3 * MAX_CHUNK)
    audit = [PROGRAM, FOLDER, "audit"]
    note = f"damaged chunk 0 kept {bytes(32).hex()} found {sha256(text).hexdigest()}"
    expect_refusal(ended(audit, capture_output=True), note)
    came = ended([PROGRAM, FOLDER, "ingest", "n"], input=text, capture_output=True)
    expect(came, output=ingest_line("n", MAX_CHUNK, 1, 1))
    added = Path(FOLDER, f"container.0.{count}").read_bytes()
    expect_same("the next header", container_header(count), added[:CONTAINER_HEADER])
    expect_same("whether its chunk is right", True, added[CONTAINER_HEADER:] == text)
    with open(f"{FOLDER}/container.0.257", "r+b") as file:
        file.write(container_header(1))
    expect_refusal(ended(audit, capture_output=True), "damaged mark 257")


@test
def as_many_equal_chunks_as_a_store_takes_are_noticed():
    recipe = struct.pack(f">{MAX_CHUNKS}I", *range(MAX_CHUNKS))
    write_book(
        [record_of_zeros(b"c", MAX_CHUNKS, MAX_CHUNKS, recipe)],
        containers_of_zeros(MAX_CHUNKS),
    )
    peak = peak_of_an_audit("damaged twin 0 1")
    expect_peak(MAX_CHUNKS, MAX_CHUNKS, peak)


@test
def as_many_places_as_a_store_takes_are_audited():
    """Zeros are cut at 65,536 bytes, and the first chunk has one."""
    recipe = bytes(4 * MAX_PLACES)
    write_book([record_of_zeros(b"p", 1, MAX_PLACES, recipe)], containers_of_zeros(1))
    expect_peak(1, MAX_PLACES, peak_of_an_audit("damaged cut 0 0"))


@test
def as_many_sessions_as_a_store_takes_are_audited():
    drops = [spelling_of(Drop(number)) for number in range(0, MAX_SESSIONS, 2)]
    write_book([*empty_sessions(MAX_SESSIONS), *drops], {})
    line = b"ok 2048 live 4096 ingested 0 chunks 0 containers\n"
    expect_peak(0, 0, peak_of_an_audit(line=line))
