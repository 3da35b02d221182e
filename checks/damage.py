"""What the commands answer if something is wrong with the files of a store."""

from hashlib import sha256
from random import Random

import reference_store
from folders import COMMANDS, FOLDER, Twin, expect_files, refused, wanted_run
from harness import Mismatch, each_row, expect, run, test
from reference import SPARSE_ZERO
from reference_store import (
    MAX_CHUNK,
    Drop,
    Ingest,
    NewChunk,
    append_record,
    body_of,
    body_of_ingest,
    files_in,
    init,
    sealed,
    settings_of,
    spelling_of,
    twice,
    u32,
    write_files,
)

ZERO = NewChunk(1, sha256(b"\x00").digest())


def dropped():
    """The files of a small store of generation 1 with three ingests and a drop."""
    files = {}
    init(files, SPARSE_ZERO)
    files["head"] += b"S"
    reference_store.ingest(files, b"x", bytes(70) + b"\x01")
    reference_store.ingest(files, b"y", bytes(64) + bytes(9))
    append_record(files, 1, len(files["book.1"]), Drop(0))
    reference_store.ingest(files, b"x", bytes(7) * 10)
    return files


def change_each_byte(files):
    """The files with one byte changed, for each byte of each."""
    draw = Random(1)
    for name, content in files.items():
        for offset, byte in enumerate(content):
            other = bytes([byte ^ draw.randrange(1, 256)])
            yield files | {name: content[:offset] + other + content[offset + 1 :]}


def cut_at_each_length(files):
    """The files with one cut, for each length of each."""
    for name, content in files.items():
        for length in range(len(content)):
            yield files | {name: content[:length]}


def expect_by_the_definition(files, names, texts):
    """Expects what the second implementation returns, and never wrong bytes as a session.

    `texts` has the inputs that were taken in, by their names.
    """
    write_files(FOLDER, files)
    expect(run([FOLDER, "list"]), *wanted_run(reference_store.list_sessions, files))
    for name in names:
        came = run([FOLDER, "restore", name])
        expect(came, *wanted_run(reference_store.restore, files, name.encode()))
        if came.status == 0 and came.output not in texts[name]:
            raise Mismatch(f"wanted what was taken in as {name}, came {came.output[:100]}")
    expect_files(files, files_in(FOLDER))


SMALL_STORES = [
    (twice(), "ab", {"a": [bytes(200)], "b": [bytes(200)]}),
    (dropped(), "xy", {"x": [bytes(70) + b"\x01", bytes(70)], "y": [bytes(73)]}),
]


def expect_each_by_the_definition(damaged):
    for number, (files, names, texts) in enumerate(SMALL_STORES):
        rows = ((number, it) for it in damaged(files))
        each_row(rows, lambda _, files: expect_by_the_definition(files, names, texts))


@test
def each_byte_that_is_changed_is_answered_by_the_definition():
    expect_each_by_the_definition(change_each_byte)


@test
def each_length_that_a_file_is_cut_to_is_answered_by_the_definition():
    expect_each_by_the_definition(cut_at_each_length)


@test
def ingest_over_a_changed_byte_is_answered_by_the_definition():
    text = bytes(64) + b"abc"

    def expect_row(files):
        twin = Twin(files)
        if twin.ingest("n", text).status == 0:
            twin.restore("n")

    each_row(((files,) for files in change_each_byte(twice())), expect_row)


def cut(files, name, length):
    return files | {name: files[name][:length]}


def expect_damage(files, note):
    twin = Twin(files)
    for words in COMMANDS:
        twin.expect(words, refused(note))
        expect(wanted_run(reference_store.list_sessions, files), *refused(note))


def changed(files, name, offset, byte):
    content = files[name]
    return files | {name: content[:offset] + bytes([byte]) + content[offset + 1 :]}


@test
def worked_damage_is_named():
    files = twice()
    rows = [
        (files | {"head": files["head"] + bytes(65_536)}, "damaged head"),
        (changed(files, "head", 31, 1), "damaged head"),
        (changed(files, "head", 4, 2), "damaged head"),
        (changed(files, "book.0", 4, 0x67), "damaged record 0"),
        (files | {"seal.0": b"SSS"}, "damaged record 2"),
        (cut(files, "book.0", 205), "damaged record 1"),
        (cut(files, "book.0", 0), "damaged record 0"),
        (cut(files, "container.0.0", 79), "damaged container 0 needs 80 has 79"),
        (cut(files, "container.0.0", 0), "damaged container 0 needs 80 has 0"),
        # The first damage in the order of opening is named.
        (files | {"book.0": b"", "container.0.0": b""}, "damaged record 0"),
        (files | {"head": bytes(33), "book.0": b"", "container.0.0": b""}, "damaged head"),
    ]
    each_row(rows, expect_damage)


@test
def changed_chunk_is_named_after_the_chunks_before_it():
    kept, found = sha256(bytes(8)).hexdigest(), sha256(b"\x01" + bytes(7)).hexdigest()
    note = f"damaged chunk 1 kept {kept} found {found}"
    twin = Twin(changed(twice(), "container.0.0", 72, 1))
    twin.list()
    twin.expect(["audit"], refused(note))
    twin.expect(["restore", "b"], refused(note, bytes(192)))
    # An input that has the chunk is refused, and one that has it not is taken in.
    twin.expect(["ingest", "c"], refused(note), bytes(200))
    twin.ingest("c", bytes(128))
    twin.restore("c")


@test
def wrong_header_of_a_container_matters_to_an_audit_alone():
    twin = Twin(changed(twice(), "container.0.0", 0, 0))
    twin.expect(["audit"], refused("damaged mark 0"))
    twin.list()
    twin.restore("a")


def store_of(*spellings):
    """The files of a store whose book has records that are spelled so."""
    files = {}
    init(files, SPARSE_ZERO)
    book = b"".join(it if isinstance(it, bytes) else spelling_of(it) for it in spellings)
    files |= {"seal.0": b"S" * len(spellings), "book.0": book}
    files["container.0.0"] = b"SSCP" + bytes(4) + bytes(2000)
    return files


def ingest_of(name=b"a", length=0, fresh=(), recipe=()):
    return Ingest(name, length, list(fresh), list(recipe))


def body(chunks=0, fresh=b"", places=0, recipe=b""):
    """An ingest under the name `a` of 0 bytes whose lists have these counts and bytes."""
    return sealed(b"I", body_of_ingest(b"a", 0, chunks, fresh, places, recipe))


def with_name(name):
    return spelling_of(ingest_of(name))


A, B = ingest_of(b"a"), ingest_of(b"b")
ONE = ingest_of(b"o", 1, [ZERO], [0])

BAD_RECORDS = [
    ([b""], 0),
    ([b"I"], 0),
    ([b"\x49\x00\x00\x00"], 0),
    ([b"\x49\xff\xff\xff\xff"], 0),
    ([sealed(b"J", body_of(A))], 0),
    ([sealed(b"i", body_of(A))], 0),
    ([sealed(b"I", b"")], 0),
    ([sealed(b"D", b"")], 0),
    ([A, sealed(b"D", u32(0)[:3])], 1),
    ([A, sealed(b"D", u32(0) + b"\x00")], 1),
    ([sealed(b"I", body_of(A) + b"\x00")], 0),
    ([sealed(b"I", body_of(A)[:-1])], 0),
    ([spelling_of(A)[:-1] + b"\x00"], 0),
    ([with_name(b"")], 0),
    ([with_name(b"a" * 65)], 0),
    ([with_name(b".a")], 0),
    ([with_name(b"-")], 0),
    ([with_name(b"a b")], 0),
    ([with_name(b"a\n")], 0),
    ([with_name(b"\xc3\xb6")], 0),
    ([with_name(b"a/b")], 0),
    ([body(chunks=1)], 0),
    ([body(chunks=2**32 - 1)], 0),
    ([body(chunks=2**22 + 1)], 0),
    ([body(places=1)], 0),
    ([body(places=2**32 - 1)], 0),
    ([body(places=2**24 + 1)], 0),
    ([body(places=0, recipe=u32(0))], 0),
    ([body(places=2**30, recipe=u32(0))], 0),
    ([ingest_of(b"a", 0, [NewChunk(0, ZERO.name)], [0])], 0),
    ([ingest_of(b"a", 257, [NewChunk(257, ZERO.name)], [0])], 0),
    ([ingest_of(b"a", 0, [NewChunk(MAX_CHUNK + 1, ZERO.name)], [])], 0),
    ([ingest_of(b"a", 0, [NewChunk(2**32 - 1, ZERO.name)], [])], 0),
    ([A, A], 1),
    ([A, B, A], 2),
    ([A, Drop(0), A, A], 3),
    ([Drop(0)], 0),
    ([A, Drop(1)], 1),
    ([A, Drop(0), Drop(0)], 2),
    ([A, Drop(2**32 - 1)], 1),
    ([A, B, Drop(0), Drop(2)], 3),
    # A record is looked at before any recipe.
    ([ingest_of(b"a", 9, [], [7]), b"I"], 1),
]


@test
def records_that_are_bad_are_named():
    def expect_row(spellings, number):
        expect_damage(store_of(*spellings), f"damaged record {number}")

    each_row(BAD_RECORDS, expect_row)


BAD_RECIPES = [
    ([ingest_of(b"a", 1, [], [])], "0 0"),
    ([ingest_of(b"a", 0, [], [0])], "0 0"),
    ([ingest_of(b"a", 1, [ZERO], [1])], "0 0"),
    ([ingest_of(b"a", 2, [ZERO], [0, 1])], "0 1"),
    ([ingest_of(b"a", 2, [ZERO], [0, 2**32 - 1, 5])], "0 1"),
    ([ingest_of(b"a", 2, [ZERO], [0])], "0 1"),
    ([ingest_of(b"a", 0, [ZERO], [0])], "0 1"),
    ([ingest_of(b"a", 2**32 - 1, [ZERO], [0])], "0 1"),
    ([ingest_of(b"a", 3, [ZERO], [0, 0])], "0 2"),
    # A chunk of a later record is not there yet.
    ([ingest_of(b"a", 1, [], [0]), ONE], "0 0"),
    ([ONE, ingest_of(b"a", 1, [ZERO], [2])], "1 0"),
    ([ONE, ingest_of(b"a", 3, [], [0, 0])], "1 2"),
    # Dropped sessions are looked at too, and the least session comes first.
    ([ingest_of(b"a", 1, [], []), Drop(0), B], "0 0"),
    ([A, Drop(0), ingest_of(b"a", 5, [], []), ingest_of(b"c", 0, [], [0])], "1 0"),
    # A recipe is looked at before any container.
    ([ingest_of(b"a", 2, [NewChunk(200, ZERO.name)] * 40, [0, 39, 40])], "0 2"),
]


@test
def recipes_that_fail_are_named():
    def expect_row(spellings, end):
        expect_damage(store_of(*spellings), f"damaged recipe {end}")

    each_row(BAD_RECIPES, expect_row)


def lengths_that_wrap():
    """A recipe whose lengths sum to 2^32 more than it states."""
    chunks = [NewChunk(MAX_CHUNK, ZERO.name)]
    return ingest_of(b"a", 5, [NewChunk(5, ZERO.name), *chunks], [0] + [1] * 2**12)


@test
def lengths_of_a_recipe_are_summed_without_wrapping():
    files = store_of(lengths_that_wrap())
    params = reference_store.params_of(files["head"][:32])
    longest = type(params)(params.polynomial, params.bits, params.target, params.min, MAX_CHUNK)
    files["head"] = settings_of(longest) + b"S"
    expect_damage(files, "damaged recipe 0 4097")


BAD_HEADS = [
    (0, 0x54),
    (5, 1),
    (6, 0),
    (6, 17),
    (7, 1),
    (8, 0),
    (15, 0),
    (16, 1),
    (18, 0x20),
    (23, 47),
    (24, 1),
    (25, 0x20),
    (26, 0),
    (28, 1),
    (31, 255),
]


@test
def settings_that_are_not_valid_are_named():
    def expect_row(offset, byte):
        expect_damage(changed(twice(), "head", offset, byte), "damaged head")

    each_row(BAD_HEADS, expect_row)


@test
def chunk_that_no_recipe_names_is_no_damage_of_opening():
    twin = Twin(store_of(ingest_of(b"a", 0, [NewChunk(9, ZERO.name)], [])))
    twin.list()
    twin.restore("a")


@test
def each_byte_of_a_name_is_compared():
    """The book keeps the name of a chunk with one other byte."""

    def expect_row(at):
        kept = bytearray(ZERO.name)
        kept[at] ^= 1
        twin = Twin(store_of(ingest_of(b"a", 1, [NewChunk(1, bytes(kept))], [0])))
        note = f"damaged chunk 0 kept {kept.hex()} found {ZERO.name.hex()}"
        for words in (["audit"], ["restore", "a"]):
            twin.expect(words, refused(note))

    each_row([(at,) for at in range(32)], expect_row)


@test
def stored_chunk_that_has_not_its_name_ends_an_ingest_of_the_name():
    """A chunk under the name of other bytes is met by a restore and by an ingest of the name."""
    files = store_of(ingest_of(b"a", 2, [NewChunk(2, ZERO.name)], [0]))
    twin = Twin(files)
    twin.list()
    twin.restore("a")
    twin.ingest("b", b"\x00\x00")
    twin.ingest("c", b"\x00")
    twin.restore("b")
