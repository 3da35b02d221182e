"""What `init`, `ingest`, `list` and `restore` do with the files of a store, and what they print."""

import os
from dataclasses import replace
from pathlib import Path
from random import Random

import reference_store
from folders import (
    FOLDER,
    LONG,
    OUTPUTS,
    READING,
    Twin,
    expect_files,
    new_twin,
    refused,
    with_tails,
)
from harness import (
    Mismatch,
    Run,
    each_row,
    expect,
    expect_refusal,
    expect_same,
    file_of,
    fresh_room,
    position_of,
    run,
    test,
)
from reference import DEFAULTS, SPARSE, SPARSE_ZERO, Params, keys_of, marked_zeros
from reference_store import (
    MAX_CHUNK,
    MAX_CONTAINER,
    Drop,
    append_record,
    files_in,
    opened,
    twice,
    write_files,
)
from rooms import WORK

# Chunks so short that a small input has many.
SHORT = Params(polynomial=0x1A5C3F9D7, bits=6, target=9, min=48, max=300)


@test
def second_implementation_has_the_known_values():
    reference_store.self_test()


def expect_prints(words, output, source=b""):
    expect(run([FOLDER, *words], source, changes=FOLDER), output=output)


@test
def two_sessions_of_the_same_bytes_are_stored_once():
    zeros = bytes(200)
    os.mkdir(FOLDER)
    expect_prints(["init", *keys_of(SPARSE_ZERO)], b"ready\n")
    expect_prints(["ingest", "a"], b"ingested a 200 bytes 4 places 2 new\n", zeros)
    expect_same("bytes of the container", 80, len(files_in(FOLDER)["container.0.0"]))
    expect_prints(["ingest", "b"], b"ingested b 200 bytes 4 places 0 new\n", zeros)
    expect_prints(["list"], b"0 a 200 4\n1 b 200 4\n")
    expect_prints(["restore", "a"], zeros)
    expect_prints(["restore", "b"], zeros)
    expect_files(twice(), files_in(FOLDER))


@test
def empty_input_has_no_chunk_and_no_container():
    os.mkdir(FOLDER)
    expect_prints(["init"], b"ready\n")
    expect_prints(["ingest", "e"], b"ingested e 0 bytes 0 places 0 new\n")
    expect_prints(["restore", "e"], b"")
    expect_prints(["list"], b"0 e 0 0\n")
    expect_same("the files", {"head", "seal.0", "book.0"}, {*os.listdir(FOLDER)})


@test
def chunks_of_a_long_session_are_stored_once():
    os.mkdir(FOLDER)
    expect_prints(["init", *keys_of(SPARSE)], b"ready\n")
    text = marked_zeros(1, [65_469, 65_540], 66_000)
    expect_prints(["ingest", "a"], b"ingested a 66000 bytes 259 places 4 new\n", text)
    expect_prints(["restore", "a"], text)


@test
def many_different_chunks_are_taken_in_in_time():
    """A search for repeats that compares each chunk with all others would not end in time."""
    text, least = Random(24).randbytes(48 * 400_000), replace(DEFAULTS, min=48, max=48)
    os.mkdir(FOLDER)
    expect_prints(["init", *keys_of(least)], b"ready\n")
    line = b"ingested a 19200000 bytes 400000 places 400000 new\n"
    expect_prints(["ingest", "a"], line, text)
    expect_prints(["restore", "a"], text)


@test
def new_store_has_its_settings():
    for params in (DEFAULTS, SPARSE, SHORT, LONG, replace(SPARSE, polynomial=0x10001, bits=16)):
        new_twin(params).list()


@test
def store_that_is_there_is_not_made_again():
    def expect_row(files):
        twin = Twin(files)
        twin.expect(["init"], refused("store already there"))
        twin.expect(["init", "bits=17"], refused("bad parameter: bits"))
        twin.expect(["init", "bits"], refused("bad words at 1: key"))

    # A head that is damaged is as good as one that is not.
    each_row([(twice(),), ({"head": bytes(33)},), ({"head": bytes(70_000)},)], expect_row)


@test
def head_of_32_bytes_is_no_store():
    twin = Twin(twice() | {"head": twice()["head"][:32]})
    twin.list()
    twin.restore("a")
    twin.ingest("c", b"abc")
    twin.expect(["list"], refused("no store"))
    twin.init(SPARSE_ZERO)
    twin.list()
    twin.ingest("a", bytes(200))
    twin.restore("a")


@test
def commands_before_init_find_no_store():
    twin = Twin()
    for words in (["list"], ["restore", "a"], ["ingest", "a"]):
        twin.expect(words, refused("no store"))


SESSION_NAMES = ["a", "A", "0", "monday", "2026-12-01", "x.y_z-", "a" * 64, "Z9" * 32, "a..", "9-"]


@test
def sessions_are_listed_in_order_of_their_numbers():
    twin = new_twin(SHORT)
    for number, name in enumerate(SESSION_NAMES):
        twin.ingest(name, Random(number % 3).randbytes(100 * (9 - number)))
        twin.list()
    for name in SESSION_NAMES:
        twin.restore(name)
        twin.ingest(name, b"")
    twin.restore("b")


def drawn_edit(draw, text):
    """The text with a part that is changed, taken out, repeated, moved or put in."""
    start, length = draw.randrange(len(text) + 1), draw.randrange(200)
    before, part, after = text[:start], text[start : start + length], text[start + length :]
    new = draw.choice([b"", draw.randbytes(length), part + part, bytes(length)])
    return draw.choice([before + new + after, before + new + after, before + after + new])


def drawn_text(draw, texts):
    """A short text, a new one, zeros before an earlier one, one repeated, one edited, or two."""
    kind = draw.randrange(8)
    if kind == 0:
        return draw.randbytes(draw.choice([0, 1, 47, 48, 49, 300, 301]))
    if kind == 1 or not texts:
        return draw.randbytes(draw.randrange(2000, 8000))
    if kind == 2:
        return bytes(draw.randrange(2000)) + draw.choice(texts)[:4000]
    if kind == 3:
        return draw.choice(texts)[:3000] * 2
    if kind == 4:
        return (draw.choice(texts) + draw.choice(texts))[:8000]
    if kind == 5:
        return draw.choice(texts)
    return drawn_edit(draw, max(draw.choices(texts, k=3), key=len))


def expect_drawn_sessions(draw, params, texts):
    """Ingests texts under names of their own, and restores each at once and again at the end."""
    twin, names = new_twin(params), []
    for number, text in enumerate(texts):
        names.append(f"{draw.choice('abXY09')}{number}")
        twin.ingest(names[-1], text)
        expect_same("what was taken in", text, twin.restore(names[-1]).output)
    for name in names:
        twin.restore(name)
    twin.list()
    return twin


@test
def drawn_ingests_are_restored():
    draw, texts = Random(50), [b"", b"x"]
    while len(texts) < 42:
        texts.append(drawn_text(draw, texts))
    book = opened(expect_drawn_sessions(draw, SHORT, texts).files).book
    if not 150 < len(book.chunks) < book.places / 2:
        raise Mismatch("the drawn texts have too few chunks for this test, or repeat too few")


@test
def drawn_ingests_of_the_longest_chunks_are_restored():
    draw = Random(20)
    full = draw.randbytes(MAX_CONTAINER - 8)
    texts = [
        b"x",
        full[: MAX_CHUNK - 1],
        full[:MAX_CHUNK],
        full[: MAX_CHUNK + 1],
        full[2 * MAX_CHUNK :] + full[:MAX_CHUNK],
        full[: 2 * MAX_CHUNK] * 2,
        full,
        full + full[:1],
        b"",
    ]
    expect_drawn_sessions(draw, LONG, texts)


@test
def container_is_filled_to_its_last_byte():
    draw = Random(21)
    full = draw.randbytes(MAX_CONTAINER - 8)
    twin = new_twin(LONG)
    twin.ingest("full", full)
    expect_same("bytes of container 0", MAX_CONTAINER, len(twin.files["container.0.0"]))
    twin.ingest("again", full)
    twin.ingest("more", b"y")
    expect_same("bytes of container 1", 9, len(twin.files["container.0.1"]))
    for name in ("full", "again", "more"):
        twin.restore(name)


@test
def chunk_that_does_not_fit_opens_the_next_container():
    draw = Random(22)
    twin = new_twin(LONG)
    twin.ingest("a", draw.randbytes(MAX_CONTAINER - 7))
    expect_same("bytes of container 0", 3 * MAX_CHUNK + 8, len(twin.files["container.0.0"]))
    twin.ingest("b", draw.randbytes(1))
    twin.restore("a")
    twin.restore("b")


TAILS = [
    {"book.0": b"I"},
    {"book.0": twice()["book.0"][139:]},
    {"container.0.0": b"\x00"},
    {"container.0.0": bytes(5000)},
    {"container.0.1": b"what a killed run left"},
    {"book.0": bytes(300), "container.0.0": bytes(300), "container.0.1": bytes(300)},
]


@test
def tails_are_passed_over_and_cut_before_an_append():
    def expect_row(tails):
        twin = Twin(with_tails(twice(), tails))
        twin.list()
        twin.restore("b")
        # Without a new chunk only the book is written, and with one a container too.
        twin.ingest("c", bytes(200))
        twin.list()
        twin.ingest("d", b"abc" * 100)
        for name in "abcd":
            twin.restore(name)

    each_row(((tails,) for tails in TAILS), expect_row)


@test
def tails_beside_a_container_that_opens_are_cut():
    draw = Random(23)
    twin = new_twin(LONG)
    twin.ingest("a", draw.randbytes(MAX_CONTAINER - 8))
    files = with_tails(twin.files, {"container.0.1": bytes(99), "container.0.2": bytes(99)})
    twin = Twin(files)
    twin.ingest("b", draw.randbytes(10))
    twin.restore("a")
    twin.restore("b")


@test
def old_files_are_no_part_of_a_new_store():
    old = twice()
    del old["head"]
    twin = Twin(old | {"seal.1": b"S", "book.1": b"x", "container.0.1": b"y"})
    twin.init(SPARSE_ZERO)
    twin.list()
    twin.ingest("c", bytes(64) + b"abc")
    twin.list()
    twin.restore("c")
    twin.restore("a")


@test
def bytes_of_seal_and_head_count_by_their_number():
    files = twice()
    files |= {"seal.0": b"\x00\xff", "head": files["head"][:32] + b"\x00"}
    twin = Twin(files)
    twin.list()
    twin.ingest("c", b"abc")
    expect_same("the seal", b"\x00\xff\x53", twin.files["seal.0"])
    twin.restore("c")


def moved(files, generation):
    """The files of the same store in a later generation."""
    later = {"head": files["head"] + b"S" * generation}
    for name, content in files.items():
        if name != "head":
            later[name.replace(".0", f".{generation}", 1)] = content
    return later


@test
def later_generation_has_files_of_its_own():
    def expect_row(generation):
        twin = Twin(moved(twice(), generation) | {"seal.0": b"SSS", "book.0": b"x"})
        twin.list()
        twin.ingest("c", b"abc" * 50)
        twin.restore("a")
        twin.restore("c")

    each_row([(1,), (2,), (300,), (65_535,)], expect_row)


@test
def head_of_a_generation_without_files_is_an_empty_store():
    twin = Twin(twice() | {"head": twice()["head"] + b"S"})
    twin.list()
    twin.ingest("a", bytes(200))
    twin.restore("a")
    expect_same("the seal of before", b"SS", twin.files["seal.0"])


@test
def dropped_session_is_not_shown_and_its_name_is_free():
    files = twice()
    append_record(files, 0, len(files["book.0"]), Drop(0))
    twin = Twin(files)
    twin.expect(["list"], Run(0, b"1 b 200 4\n", b""))
    twin.restore("a")
    twin.restore("b")
    twin.ingest("b", b"")
    twin.ingest("a", bytes(200))
    twin.expect(["list"], Run(0, b"1 b 200 4\n2 a 200 4\n", b""))
    twin.restore("a")


# Names of the folder of a store, from the working folder.
FOLDERS = ["./s/", "s//", f"../{WORK}/s", "störe", "a folder", "--", "-", "init", "bits=9", "\n"]


@test
def folder_of_any_name_is_a_store():
    def expect_row(folder):
        with fresh_room():
            os.makedirs(folder)
            changes = Path(folder).resolve().name
            expect(run([folder, "init"], changes=changes), output=b"ready\n")
            line = b"ingested a 3 bytes 1 places 1 new\n"
            expect(run([folder, "ingest", "a"], b"abc", changes=changes), output=line)
            expect(run([folder, "list"]), output=b"0 a 3 1\n")
            expect(run([folder, "restore", "a"]), output=b"abc")
            expect(run([folder, "audit"]), output=b"ok 1 live 1 ingested 1 chunks 1 containers\n")
            came = run([folder, "bulk", "7", "1"], changes=changes)
            expect_same("how bulk ends", (0, b""), (came.status, came.notes))
            came = run([folder, "drop", "a"], changes=changes)
            expect(came, output=b"dropped a 1 places\n")

    each_row(((folder,) for folder in FOLDERS), expect_row)


@test
def working_folder_and_links_are_stores():
    files = twice()
    write_files(FOLDER, files)
    os.symlink(FOLDER, "link")
    for folder in ("link", "link/", Path(FOLDER).absolute()):
        for words in READING:
            expect(run([folder, *words]), output=OUTPUTS[words[0]])
    starter = ("sh", "-c", f'cd {FOLDER} && exec "$@"', "sh")
    for words in READING:
        expect(run([".", *words], starter=starter), output=OUTPUTS[words[0]])


@test
def commands_that_read_nothing_leave_the_input():
    write_files(FOLDER, twice())
    for words in [*READING, ["restore", "x"], ["drop", "x"], ["init"]]:
        with file_of(b"abc") as source:
            run([FOLDER, *words], source)
            expect_same(f"bytes that {words} took", 0, position_of(source))


@test
def refusals_of_an_ingest_come_before_reading():
    def expect_row(files, words, note):
        twin = Twin(files)
        with file_of(b"abc") as source:
            expect_refusal(run([FOLDER, *words], source), note)
            expect_same("bytes taken", 0, position_of(source))
        expect_files(twin.files, files_in(FOLDER))

    rows = [
        (twice(), ["ingest", "b"], "name taken"),
        (twice(), ["ingest", ".b"], "bad words at 1: name"),
        (twice(), ["ingest", "c", "bits=9"], "bad words at 2: key"),
        ({}, ["ingest", "c"], "no store"),
        (twice() | {"seal.0": b"SSS"}, ["ingest", "b"], "damaged record 2"),
    ]
    each_row(rows, expect_row)
