"""What `audit` says of stores: sound ones, ones with a flaw in them, and ones with several."""

from collections import Counter
from dataclasses import replace
from hashlib import sha256
from random import Random

import made_stores
import reference_audit
from containers import LENGTH, SIZES, three_containers
from crafted_stores import KINDS, NUMBERS
from damage import SMALL_STORES, change_each_byte, cut_at_each_length
from folders import FOLDER, LONG, Twin, new_twin, refused, wanted_run, with_tails
from harness import Mismatch, Run, each_row, expect, expect_same, run, test
from made_stores import FLAWED, SOUND, Taken, changed, counts, misnamed
from reference import (
    DEFAULTS,
    SPARSE,
    SPARSE_ZERO,
    WINDOW,
    Params,
    fingerprint,
    marked_zeros,
)
from reference_audit import audit, counts_of
from reference_store import (
    MAX_CHUNK,
    MAX_CONTAINER,
    SETTINGS,
    Drop,
    Ingest,
    append_record,
    chunks_of,
    files_in,
    ingest,
    opened,
    spelling_of,
    twice,
    write_files,
)
from sessions import TAILS, moved

CONTAINER = "container.0.0"
ZEROS = bytes(200)


@test
def second_implementation_of_the_audit_has_the_known_values():
    reference_audit.self_test()


# Worked stores. What is expected is worked out by hand.


@test
def audit_counts_sessions_chunks_and_containers():
    twin = new_twin(SPARSE_ZERO)
    twin.expect(["audit"], Run(0, b"ok 0 live 0 ingested 0 chunks 0 containers\n", b""))
    twin.ingest("a", ZEROS)
    twin.ingest("b", ZEROS)
    twin.drop("a")
    twin.expect(["audit"], Run(0, b"ok 1 live 2 ingested 2 chunks 1 containers\n", b""))
    twin.ingest("a", ZEROS)
    twin.expect(["audit"], Run(0, b"ok 2 live 3 ingested 2 chunks 1 containers\n", b""))


@test
def audit_of_an_empty_session_counts_no_chunk():
    twin = new_twin(DEFAULTS)
    twin.ingest("e", b"")
    twin.expect(["audit"], Run(0, b"ok 1 live 1 ingested 0 chunks 0 containers\n", b""))


@test
def audit_of_a_generated_session_counts_its_chunks():
    twin = new_twin(DEFAULTS)
    line = run([FOLDER, "bulk", "7", "640", "workers=8"], changes=FOLDER)
    expect_same("the status of bulk", 0, line.status)
    twin.files = files_in(FOLDER)
    # The windows of so many bytes take too long to divide, so only the counts are compared.
    twin.expect(["audit"], Run(0, counts_of(opened(twin.files)), b""))


def expect_sound(files, line):
    Twin(files).expect(["audit"], Run(0, line.encode(), b""))


@test
def stores_without_a_flaw_are_counted():
    each_row(((name, *it) for name, it in SOUND.items()), lambda _, *it: expect_sound(*it))


def expect_flaw(_, files, note):
    Twin(files).expect(["audit"], refused(note))


@test
def flaw_of_a_store_is_named():
    each_row(((name, *it) for name, it in FLAWED.items()), expect_flaw)


@test
def first_of_several_kinds_of_flaws_is_named():
    each_row(((name, *it) for name, it in KINDS.items()), expect_flaw)


@test
def first_of_several_flaws_of_a_kind_is_named():
    each_row(((name, *it) for name, it in NUMBERS.items()), expect_flaw)


@test
def equal_chunks_are_restored():
    files, note = FLAWED["two equal chunks"]
    twin = Twin(files)
    twin.expect(["restore", "s0"], Run(0, bytes(128), b""))
    twin.expect(["audit"], refused(note))


@test
def store_that_is_none_is_not_audited():
    rows = [({},), ({"head": twice()["head"][:SETTINGS]},), ({CONTAINER: b"X"},)]
    each_row(rows, lambda files: Twin(files).expect(["audit"], refused("no store")))


# Each byte and each length of small stores.


def statuses_of(name, offset):
    """The statuses that an audit may have if this byte is another one."""
    if name == "head" and offset < SETTINGS:
        # By other parameters the sessions may be cut in the same way.
        return {0, 7}
    # A byte that commits a store or a record counts by being there alone.
    return {0} if name == "head" or name.startswith("seal.") else {7}


def expect_audit(files):
    write_files(FOLDER, files)
    came = run([FOLDER, "audit"])
    expect(came, *wanted_run(audit, files))
    return came


def position_of_change(files, damaged):
    """The file and the offset of the one byte that differs."""
    name = next(it for it in files if files[it] != damaged[it])
    pairs = enumerate(zip(files[name], damaged[name]))
    return name, next(at for at, (one, other) in pairs if one != other)


# Its last session ends with a whole chunk, and its second one is dropped.
MARKED = made_stores.store_of(
    [
        Taken([marked_zeros(1, [99], 100), bytes(90)], [0, 0, 1]),
        Taken([marked_zeros(1, [70], 71)], [2, 0]),
        Drop(1),
        Taken([b"z"], [0, 2, 3]),
        Taken([], [2]),
    ],
    SPARSE,
)
STORES = [*(files for files, *_ in SMALL_STORES), MARKED]


@test
def each_byte_that_is_changed_is_named():
    """No byte of a record, of a mark or of a chunk can change unnoticed."""

    def expect_row(number, damaged):
        came = expect_audit(damaged)
        at = position_of_change(STORES[number], damaged)
        if came.status not in statuses_of(*at):
            raise Mismatch(f"with {at} changed: came status {came.status}")

    for number, files in enumerate(STORES):
        expect_same("the status of the store", 0, expect_audit(files).status)
        each_row(((number, it) for it in change_each_byte(files)), expect_row)


@test
def each_length_that_a_file_is_cut_to_is_named():
    for files in STORES:
        each_row(((it,) for it in cut_at_each_length(files)), expect_audit)


# What a run that ended early leaves.


@test
def what_is_not_committed_is_not_looked_at():
    rows = [with_tails(twice(), it) for it in TAILS]
    rows += [
        twice() | {"container.0.1": b"XXXXXXXXX"},
        twice() | {"container.1.0": b"XXXXXXXXX", "book.1": b"x", "seal.1": b"SSS"},
        twice() | {"seal.0": b"\x00\xff", "head": twice()["head"][:SETTINGS] + b"\x00"},
    ]
    rows = [(it, counts(2, 2, 2, 1)) for it in rows]
    for name in ("no session", "an empty session"):
        files, line = SOUND[name]
        rows.append((files | {CONTAINER: b"XXXXXXXXX"}, line))
    each_row(rows, expect_sound)


@test
def each_part_of_a_commit_leaves_the_state_before_without_a_flaw():
    """The containers, then the book, and last the seal, each up to every length."""
    before, after = twice(), dict(twice())
    ingest(after, b"n", bytes(64) + b"abc" * 50)
    line = audit(before)

    def expect_row(name, length):
        files = dict(before)
        for it in (CONTAINER, "book.0"):
            files[it] = after[it] if it < name else before[it]
            if it == name:
                files[it] = after[it][:length]
                break
        Twin(files).expect(["audit"], Run(0, line, b""))

    rows = [
        (name, length)
        for name in ("book.0", CONTAINER)
        for length in range(len(before[name]), len(after[name]) + 1)
    ]
    each_row(rows, expect_row)


# Stores of other shapes.


@test
def later_generations_are_audited():
    def expect_row(generation):
        files = moved(twice(), generation)
        line = b"ok 2 live 2 ingested 2 chunks 1 containers\n"
        Twin(files | {CONTAINER: b"x"}).expect(["audit"], Run(0, line, b""))
        flawed = changed(files, f"container.{generation}.0", 0, 0)
        Twin(flawed).expect(["audit"], refused("damaged mark 0"))

    each_row([(1,), (300,), (65_535,)], expect_row)


@test
def changes_anywhere_in_several_containers_are_named():
    files = three_containers().files
    line = b"ok 1 live 1 ingested 34 chunks 3 containers\n"
    Twin(files).expect(["audit"], Run(0, line, b""))
    draw, rows = Random(70), []
    for number, size in enumerate(SIZES):
        edges = [0, 4, 7, 8, 8 + LENGTH - 1, 8 + LENGTH, size - 1]
        rows += [(number, it) for it in [*edges, *draw.choices(range(8, size), k=4)]]

    def expect_row(number, offset):
        name = f"container.0.{number}"
        damaged = changed(files, name, offset, files[name][offset] ^ 1)
        if offset < 8:
            expect(expect_audit(damaged), *refused(f"damaged mark {number}"))
        else:
            note = expect_audit(damaged).notes
            chunk = 13 * number + (offset - 8) // LENGTH
            if not note.startswith(b"backup: damaged chunk %d kept " % chunk):
                raise Mismatch(f"wanted damage of chunk {chunk}, came {note}")

    each_row(rows, expect_row)


@test
def container_that_is_full_is_audited_to_its_last_byte():
    twin = new_twin(LONG)
    twin.ingest("full", Random(71).randbytes(MAX_CONTAINER - 8))
    twin.expect(["audit"], Run(0, b"ok 1 live 1 ingested 4 chunks 1 containers\n", b""))
    last = twin.files[CONTAINER][-1]
    damaged = Twin(changed(twin.files, CONTAINER, MAX_CONTAINER - 1, last ^ 1))
    kept = twin.files[CONTAINER][8 + 3 * MAX_CHUNK :]
    found = kept[:-1] + bytes([last ^ 1])
    damaged.expect(["audit"], refused(misnamed(3, sha256(kept).digest(), found)))


@test
def no_chunk_of_many_is_left_out():
    """Chunks of one to five bytes, of which those near powers of two are changed, each alone."""
    fresh = [it.to_bytes(1 + it // 256, "big") for it in range(1030)]
    files = made_stores.one(fresh, [*range(len(fresh))])

    def expect_row(number):
        chunk, offset = fresh[number], 8 + sum(map(len, fresh[:number]))
        found = bytes([chunk[0] ^ 0xFF]) + chunk[1:]
        note = misnamed(number, sha256(chunk).digest(), found)
        expect_flaw(number, changed(files, CONTAINER, offset, found[0]), note)

    each_row([(2**power + it,) for power in range(1, 11) for it in (-1, 0, 1)], expect_row)


def small_chunk(text, number):
    return text[48 * number : 48 * number + 48]


def with_small_chunk(files, number, chunk):
    """The files with another chunk. 87,381 chunks of 48 bytes fit into a container."""
    container, at = divmod(number, 87_381)
    name, offset = f"container.0.{container}", 8 + 48 * at
    return files | {name: files[name][:offset] + chunk + files[name][offset + 48 :]}


@test
def many_small_chunks_are_audited():
    """More chunks than 16 bits count, of the least length, and more bytes than a batch has."""
    count, draw = 200_000, Random(72)
    text = draw.randbytes(48 * count + 5)
    twin = new_twin(replace(DEFAULTS, min=48, max=48))
    expect_same("the status", 0, run([FOLDER, "ingest", "a"], text, changes=FOLDER).status)
    twin.files = files_in(FOLDER)
    line = f"ok 1 live 1 ingested {count + 1} chunks 3 containers\n".encode()
    twin.expect(["audit"], Run(0, line, b""))
    # The first of each row is the one to be named. 174,762 chunks have at most 8 MiB.
    rows = [
        [4_095, 20_000, 40_000, 65_536, 87_380],
        [65_536, 87_380],
        [87_380, 87_381],
        [87_381, 150_000],
        [174_761, 174_762],
        [174_762, 199_999],
        [199_999],
    ]
    for numbers in rows:
        damaged = twin.files
        for number in numbers:
            damaged = with_small_chunk(damaged, number, bytes(48))
        kept = sha256(small_chunk(text, numbers[0])).digest()
        Twin(damaged).expect(["audit"], refused(misnamed(numbers[0], kept, bytes(48))))
    record = opened(twin.files).book.sessions[0]
    same = with_small_chunk(twin.files, count - 1, small_chunk(text, 3))
    fresh = [*record.fresh[:-2], record.fresh[3], record.fresh[-1]]
    same["book.0"] = spelling_of(record._replace(fresh=fresh))
    Twin(same).expect(["audit"], refused(f"damaged twin 3 {count - 1}"))
    # The last chunk is too short to come before another one.
    late = dict(twin.files)
    append_record(late, 0, len(late["book.0"]), Ingest(b"b", 53, [], [count, 0]))
    Twin(late).expect(["audit"], refused("damaged cut 1 0"))


@test
def flaws_of_late_sessions_among_many_are_named():
    """Most sessions have the same chunks, and one has them in another order."""
    fresh = [bytes(64), bytes(8)]
    sessions = [Taken(fresh, [0, 1]), *[Taken([], [0, 0, 1])] * 300]
    line = b"ok 301 live 301 ingested 2 chunks 1 containers\n"
    Twin(made_stores.store_of(sessions)).expect(["audit"], Run(0, line, b""))
    sessions[280] = Taken([], [0, 1, 0])
    Twin(made_stores.store_of(sessions)).expect(["audit"], refused("damaged cut 280 1"))
    sessions[290] = Taken([b"x", b"y"], [3, 2])
    Twin(made_stores.store_of(sessions)).expect(["audit"], refused("damaged order 290 0"))


# Drawn stores.


def drawn_params(draw, degree, bits):
    """Parameters of this degree and so many bits that cut a drawn text, and the text."""
    polynomial, text = 1 << degree | draw.getrandbits(degree) | 1, draw.randbytes(1200)
    cut = draw.randrange(300, 900)
    target = fingerprint(polynomial, text[cut - WINDOW : cut]) % 2**bits
    least = WINDOW if bits < 5 else draw.randrange(WINDOW, 300)
    return Params(polynomial, bits, target, least, 1200), text


@test
def chunks_are_cut_by_the_parameters_of_the_store():
    """Chunks that a candidate ends, and then the first two of them in one."""
    draw = Random(74)

    def expect_row(degree):
        params, text = drawn_params(draw, degree, degree % 16 + 1)
        parts = chunks_of(params, text)
        numbers = [*range(len(parts))]
        expect_sound(made_stores.one(parts, numbers, params), counts(1, 1, len(parts), 1))
        joined = [parts[0] + parts[1], *parts[2:]]
        expect_flaw(None, made_stores.one(joined, numbers[:-1], params), "damaged cut 0 0")

    each_row([(degree,) for degree in range(16, 64)], expect_row)


PARTS = [
    bytes(64),
    bytes(8),
    bytes(128),
    marked_zeros(1, [63], 64),
    marked_zeros(1, [99], 100),
    marked_zeros(1, [30], 70),
    bytes(255),
    bytes(256),
    b"x" * 256,
    b"y",
]


def drawn_recipe(draw, earlier, fresh):
    """The new chunks in order, among repeats. Seldom two places are exchanged, or one is left."""
    recipe = []
    for number in range(earlier, earlier + fresh):
        recipe += draw.choices(range(number), k=draw.randrange(3)) if number else []
        recipe.append(number)
    if len(recipe) > 1 and draw.randrange(6) == 0:
        one, other = draw.sample(range(len(recipe)), 2)
        recipe[one], recipe[other] = recipe[other], recipe[one]
    if recipe and draw.randrange(12) == 0:
        recipe.pop(draw.randrange(len(recipe)))
    return recipe


def drawn_store(draw):
    """Sessions of a few chunks. The chunks are different ones, except in one of eight stores."""
    params = draw.choice([SPARSE, SPARSE_ZERO])
    parts, events, earlier, live = draw.sample(PARTS, len(PARTS)), [], 0, []
    if draw.randrange(8) == 0:
        parts[-1] = parts[0]
    parts = parts[: draw.randrange(5)] if draw.randrange(3) else parts
    while parts or draw.randrange(3):
        fresh, parts = parts[:2], parts[2:]
        events.append(Taken(fresh, drawn_recipe(draw, earlier, len(fresh))))
        live.append(sum(isinstance(it, Taken) for it in events) - 1)
        earlier += len(fresh)
        if draw.randrange(4) == 0:
            events.append(Drop(live.pop(draw.randrange(len(live)))))
    return made_stores.store_of(events, params)


@test
def drawn_stores_are_answered_by_the_second_implementation():
    draw, kinds = Random(73), Counter()
    for number in range(500):
        files = drawn_store(draw)
        if CONTAINER in files and draw.randrange(10) == 0:
            offset = draw.randrange(draw.choice([8, len(files[CONTAINER])]))
            files = changed(files, CONTAINER, offset, files[CONTAINER][offset] ^ 0xFF)
        each_row([(number, files)], lambda _, files: expect_audit(files))
        note = reference_audit.flaw_of(files)
        kinds[note.split()[1] if note.startswith("damaged") else "none"] += 1
    wanted = {"none", "mark", "chunk", "twin", "order", "cut"}
    if {it for it, count in kinds.items() if count >= 5} != wanted:
        raise Mismatch(f"the drawn stores show too little: {dict(kinds)}")
