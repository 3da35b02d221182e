"""What `drop` and `refs` do with the files of a store, and what they print."""

from hashlib import sha256
from random import Random

from folders import (
    FOLDER,
    LONG,
    TEXT,
    Twin,
    expect_files,
    new_twin,
    refused,
    with_drop,
    with_tails,
)
from harness import (
    Mismatch,
    each_row,
    expect,
    expect_refusal,
    expect_same,
    file_of,
    position_of,
    run,
    test,
)
from reference import SPARSE_ZERO, Params, keys_of
from reference_store import (
    KNOWN_DROP,
    MAX_CHUNK,
    MAX_SESSIONS,
    Ingest,
    NewChunk,
    chunks_of,
    files_in,
    init,
    pack,
    spelling_of,
    twice,
    write_files,
)

# The names of the two chunks of 200 zeros, if zeros are cut at 64 bytes.
Z64 = "f5a5fd42d16a20302798ef6ed309979b43003d2320d9f0e8ea9831a92759fb4b"
Z8 = "af5570f5a1810b7af78caf4bc70a660f0df51e42baf91d4de5b2328de0e83dfc"
ZEROS = bytes(200)


def refs_of_zeros(whole, rest):
    return f"0 {whole} 64 {Z64}\n1 {rest} 8 {Z8}\n".encode()


def expect_prints(words, output, source=b""):
    expect(run([FOLDER, *words], source, changes=FOLDER), output=output)


def make_twice():
    """Makes the store `twice` by the program."""
    write_files(FOLDER, {})
    expect_prints(["init", *keys_of(SPARSE_ZERO)], b"ready\n")
    expect_prints(["ingest", "a"], b"ingested a 200 bytes 4 places 2 new\n", ZEROS)
    expect_prints(["ingest", "b"], b"ingested b 200 bytes 4 places 0 new\n", ZEROS)


@test
def each_place_of_a_live_session_counts():
    make_twice()
    expect_prints(["refs"], refs_of_zeros(6, 2))
    expect_prints(["list"], b"0 a 200 4\n1 b 200 4\n")
    expect_prints(["restore", "b"], ZEROS)


@test
def dropped_session_is_not_counted_and_its_name_is_free():
    make_twice()
    with file_of(ZEROS) as source:
        expect_refusal(run([FOLDER, "ingest", "b"], source), "name taken")
        expect_same("bytes taken", 0, position_of(source))
    expect_prints(["drop", "a"], b"dropped a 4 places\n")
    expect_prints(["refs"], refs_of_zeros(3, 1))
    expect_prints(["list"], b"1 b 200 4\n")
    expect_refusal(run([FOLDER, "restore", "a"]), "no such session")
    expect_prints(["restore", "b"], ZEROS)
    expect_prints(["ingest", "a"], b"ingested a 200 bytes 4 places 0 new\n", ZEROS)
    expect_prints(["list"], b"1 b 200 4\n2 a 200 4\n")
    expect_prints(["refs"], refs_of_zeros(6, 2))
    # The later session of the name is dropped, and not the first once more.
    expect_prints(["drop", "a"], b"dropped a 4 places\n")
    expect_prints(["list"], b"1 b 200 4\n")
    expect_prints(["refs"], refs_of_zeros(3, 1))


@test
def chunks_that_no_session_has_stay_and_count_nothing():
    make_twice()
    container = files_in(FOLDER)["container.0.0"]
    expect_prints(["drop", "a"], b"dropped a 4 places\n")
    expect_prints(["drop", "b"], b"dropped b 4 places\n")
    expect_prints(["refs"], refs_of_zeros(0, 0))
    expect_prints(["list"], b"")
    expect_same("bytes of the container", 80, len(container))
    expect_same("the container", container, files_in(FOLDER)["container.0.0"])
    expect_refusal(run([FOLDER, "drop", "a"]), "no such session")
    expect_prints(["ingest", "c"], b"ingested c 200 bytes 4 places 0 new\n", ZEROS)
    expect_prints(["refs"], refs_of_zeros(3, 1))


@test
def drop_appends_a_record_and_a_byte_of_the_seal():
    make_twice()
    before = files_in(FOLDER)
    expect_prints(["drop", "a"], b"dropped a 4 places\n")
    after = {"book.0": before["book.0"] + KNOWN_DROP, "seal.0": b"SSS"}
    expect_same("the bytes of the record", 41, len(KNOWN_DROP))
    expect_files(before | after, files_in(FOLDER))


# Chunks so short that a small input has many, which repeat.
SHORT = Params(polynomial=0x1A5C3F9D7, bits=5, target=9, min=48, max=160)
NAMES = ["a", "b", "B", "0"]


class History:
    """The inputs that a store took in, and those of its sessions that are live, by their names."""

    def __init__(self):
        self.chunks = {}
        self.live = {}

    def ingest(self, name, text):
        self.live[name] = chunks_of(SHORT, text)
        for chunk in self.live[name]:
            self.chunks.setdefault(chunk, len(self.chunks))

    def references(self):
        """The text of `refs`, from the bytes of the chunks alone."""
        places = [chunk for chunks in self.live.values() for chunk in chunks]
        lines = (
            f"{number} {places.count(chunk)} {len(chunk)} {sha256(chunk).hexdigest()}\n"
            for chunk, number in self.chunks.items()
        )
        return "".join(lines).encode()


def drawn_text(draw, parts):
    """A few parts one after another, of which some are repeated, or none."""
    return b"".join(draw.choices(parts, k=draw.randrange(6)))


def step(draw, twin, history, parts):
    """Ingests or drops a session of a drawn name. Returns whether it was refused."""
    name = draw.choice(NAMES)
    if draw.randrange(2):
        wanted, text = name not in history.live, drawn_text(draw, parts)
        came = twin.ingest(name, text)
        if wanted:
            history.ingest(name, text)
    else:
        wanted = name in history.live
        came = twin.drop(name)
        history.live.pop(name, None)
    expect_same("whether it is done", wanted, came.status == 0)
    return not wanted


@test
def drawn_ingests_and_drops_agree_with_the_second_implementation():
    draw, twin, history = Random(60), new_twin(SHORT), History()
    parts = [bytes(100), *(draw.randbytes(draw.randrange(1, 500)) for _ in range(12))]
    refusals = 0
    for _ in range(200):
        refusals += step(draw, twin, history, parts)
        expect_same("the references", history.references(), twin.refs().output)
        twin.list()
        for name in NAMES:
            came = twin.restore(name)
            expect_same(f"the session {name}", b"".join(history.live.get(name, [])), came.output)
    if not 40 < refusals < 160 or len(history.chunks) < 40:
        raise Mismatch(f"the drawn steps show too little: {refusals} refusals")


@test
def refused_drops_leave_the_files_as_they_are():
    no_session = "no such session"
    rows = [
        (twice(), "x", no_session),
        (twice(), "A", no_session),
        (with_drop(twice()), "a", no_session),
        (with_tails(twice(), {"book.0": b"I", "container.0.0": bytes(9)}), "x", no_session),
        ({"head": twice()["head"]}, "a", no_session),
        ({}, "a", "no store"),
        (twice() | {"head": bytes(33)}, "a", "damaged head"),
        (twice() | {"seal.0": b"SSS"}, "a", "damaged record 2"),
        (twice() | {"container.0.0": bytes(79)}, "x", "damaged container 0 needs 80 has 79"),
    ]

    def expect_row(files, name, note):
        expect_same("the note", refused(note), Twin(files).drop(name))

    each_row(rows, expect_row)


@test
def tail_of_the_book_is_cut_before_a_drop():
    """A drop needs no container, so that it leaves what is after the chunks."""

    def expect_row(tails):
        twin = Twin(with_tails(twice(), tails))
        twin.refs()
        twin.drop("a")
        twin.refs()
        twin.drop("b")
        twin.refs()
        twin.ingest("n", TEXT)
        twin.refs()

    rows = [{"book.0": b"D"}, {"book.0": bytes(300)}, {"book.0": KNOWN_DROP}]
    rows += [{"container.0.0": bytes(99)}, {"book.0": b"x", "container.0.1": b"y"}]
    each_row(((tails,) for tails in rows), expect_row)


@test
def output_that_fails_leaves_the_drop_done():
    starters = [("sh", "-c", f'exec "$@" {to}', "sh") for to in (">&-", ">/dev/full")]
    for starter in starters:
        write_files(FOLDER, twice())
        came = run([FOLDER, "drop", "a"], starter=starter, changes=FOLDER)
        expect_refusal(came, "writing failed")
        expect_files(with_drop(twice()), files_in(FOLDER))
        expect(run([FOLDER, "list"]), output=b"1 b 200 4\n")
        expect_refusal(run([FOLDER, "refs"], starter=starter), "writing failed")
        expect(run([FOLDER, "refs"]), output=refs_of_zeros(3, 1))


@test
def session_is_dropped_also_if_no_more_can_be_taken_in():
    records = [spelling_of(Ingest(b"s%d" % it, 0, [], [])) for it in range(MAX_SESSIONS)]
    files = {}
    init(files, SPARSE_ZERO)
    twin = Twin(files | {"seal.0": b"S" * MAX_SESSIONS, "book.0": b"".join(records)})
    twin.refs()
    twin.drop("s1")
    twin.expect(["ingest", "s1"], refused("too many sessions"), b"abc")
    twin.drop("s4095")
    twin.list()


@test
def commands_without_input_read_none():
    write_files(FOLDER, twice())
    for words in (["refs"], ["audit"], ["drop", "x"], ["drop", "a"]):
        with file_of(b"abc") as source:
            run([FOLDER, *words], source, changes=FOLDER)
            expect_same(f"bytes that {words} took", 0, position_of(source))


def store_of(chunks, recipes):
    """The files of a store whose sessions s0, s1, .. have these recipes, the first all chunks."""
    files = {}
    init(files, LONG)
    pack(files, 0, [], chunks)
    fresh, records = [NewChunk(len(it), sha256(it).digest()) for it in chunks], []
    for number, recipe in enumerate(recipes):
        length = sum(len(chunks[it]) for it in recipe)
        records.append(spelling_of(Ingest(b"s%d" % number, length, fresh, recipe)))
        fresh = []
    return files | {"seal.0": b"S" * len(records), "book.0": b"".join(records)}


@test
def many_places_sessions_and_chunks_are_counted():
    """Counts of more than 16 bits, more sessions than a byte counts, and a text of many pieces."""
    few = [b"a" * 60, b"b" * 60]
    many = [b"%048d" % number for number in range(20_000)]
    large = [bytes([number]) * MAX_CHUNK for number in range(5)]
    rows = [
        (few, [[0, 1], [1] * 70_000, [0] * 300], ["s1", "s2"]),
        (few, [[0, 1]] + [[1]] * 300, ["s300", "s0"]),
        (many, [list(range(20_000)), [19_999, 0]], ["s0"]),
        (large, [[0, 1, 2, 3, 4], [4, 4]], ["s1", "s0"]),
    ]

    def expect_row(chunks, recipes, names):
        twin = Twin(store_of(chunks, recipes))
        twin.refs()
        for name in names:
            twin.drop(name)
            twin.refs()
            twin.list()

    each_row(rows, expect_row)


@test
def damaged_chunks_are_counted_and_dropped():
    """Neither command reads a chunk, so what the containers hold does not matter to them."""
    files = twice()
    container = files["container.0.0"]
    for offset in (0, 8, 71, 72, 79):
        other = bytes([container[offset] ^ 1])
        changed = container[:offset] + other + container[offset + 1 :]
        twin = Twin(files | {"container.0.0": changed})
        twin.refs()
        twin.drop("a")
        twin.refs()
        twin.list()
