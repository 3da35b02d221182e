"""What `backup STORE plan` prints: the chunks of inputs and by parameters of every kind."""

import hashlib
import tempfile
from dataclasses import replace
from functools import lru_cache, partial
from random import Random

import reference
from harness import STORE, Mismatch, add_test, each_row, expect, file_of, run, test
from reference import (
    DEFAULTS,
    KNOWN_CUTS,
    LONGEST_CHUNK,
    LONGEST_INPUT,
    WINDOW,
    Params,
    keys_of,
    marked_zeros,
)

# Degrees 16 and 17 are the least, 63 is the greatest.
EDGE_POLYNOMIALS = [
    0x10001,
    0x1002D,
    0x1FFFF,
    0x20001,
    0x20009,
    0x3FFFF,
    0x4000000000000001,
    0x8000000000000001,
    0x800000000000001B,
    0xFFFFFFFFFFFFFFFF,
]


def expect_lengths(params, text, lengths):
    """Expects that the text, which comes through a pipe, is cut into chunks of these lengths."""
    came = run([STORE, "plan", *keys_of(params)], text)
    expect(came, output=reference.lines_of(text, lengths))


def expect_plan(params, text):
    expect_lengths(params, text, reference.lengths_of(params, text))


def expect_equal_chunks(length_of_chunk, text):
    """Expects chunks of one length, since the minimum and the maximum are that length."""
    whole, rest = divmod(len(text), length_of_chunk)
    lengths = [length_of_chunk] * whole + [rest] * (rest > 0)
    expect_lengths(replace(DEFAULTS, min=length_of_chunk, max=length_of_chunk), text, lengths)


@test
def reference_has_the_known_values():
    reference.self_test()


for name, known in KNOWN_CUTS.items():
    add_test(name, partial(expect_lengths, *known))


@test
def published_names_come_out():
    published = {
        b"abc": b"ba7816bf8f01cfea414140de5dae2223b00361a396177a9cb410ff61f20015ad",
        b"abcdbcdecdefdefgefghfghighijhijkijkljklmklmnlmnomnopnopq": (
            b"248d6a61d20638b8e5c026930c3e6039a33ce45964ff2167f6ecedd419db06c1"
        ),
    }
    for text, name in published.items():
        expect(run([STORE, "plan"], text), output=b"0 %d %s\n" % (len(text), name))


def mixed_text(seed, length):
    """Random bytes, runs of zeros and repetitions of earlier blocks."""
    random = Random(seed)
    text = bytearray(random.randbytes(1))
    while len(text) < length:
        size, start = random.randrange(1, 3000), random.randrange(len(text))
        text += random.choice([random.randbytes(size), bytes(size), text[start : start + size]])
    return bytes(text[:length])


def mixed_texts():
    around_limits = [0, 1, 47, 48, 49, 2047, 2048, 2049]
    lengths = around_limits + [Random(seed).randrange(5_000, 20_001) for seed in range(20)]
    return [mixed_text(seed, length) for seed, length in enumerate(lengths)]


@test
def mixed_texts_are_cut_by_the_definition():
    for text in mixed_texts():
        expect_plan(DEFAULTS, text)


@test
def random_text_with_a_gap_of_zeros_is_cut_by_the_definition():
    random = Random(200_000)
    expect_plan(DEFAULTS, random.randbytes(30_000) + bytes(140_000) + random.randbytes(30_000))


def drawn_params(draw):
    """Valid parameters with chunks so short that a small text has many."""
    degree = draw.randint(16, 63)
    bits = draw.randint(1, 16)
    least = draw.randint(48, 200)
    return Params(
        polynomial=1 << degree | draw.getrandbits(degree) | 1,
        bits=bits,
        target=draw.randrange(2**bits),
        min=least,
        max=draw.randint(least, 4 * least),
    )


@test
def drawn_texts_are_cut_by_drawn_parameters():
    draw = Random(20261201)
    for text in mixed_texts():
        expect_plan(drawn_params(draw), text[:4000])


@test
def mixed_texts_are_cut_by_given_parameters():
    short_chunks = Params(polynomial=0x1A5C3F9D7, bits=6, target=9, min=48, max=300)
    for text in mixed_texts():
        expect_plan(short_chunks, text)


@test
def long_random_text_is_cut_by_the_definition():
    params = Params(polynomial=DEFAULTS.polynomial, bits=7, target=5, min=16_000, max=65536)
    expect_plan(params, Random(2_000_000).randbytes(2_000_000))


@test
def long_chunks_are_cut_by_the_definition():
    params = replace(DEFAULTS, bits=9, target=300, min=300_000, max=LONGEST_CHUNK)
    expect_plan(params, Random(5_000_000).randbytes(5_000_000))


@test
def plan_of_many_lines_is_printed_whole():
    expect_equal_chunks(48, bytes(4_000_000))


@test
def random_text_is_cut_into_the_shortest_chunks():
    expect_equal_chunks(48, Random(48).randbytes(3_000_001))


@test
def random_text_is_cut_into_the_longest_chunks():
    expect_equal_chunks(LONGEST_CHUNK, Random(20).randbytes(2 * LONGEST_CHUNK + 5))


@test
def every_mark_in_a_long_text_cuts_by_the_limits():
    mark = DEFAULTS.target
    if not reference.mark_makes_one_candidate(DEFAULTS, mark):
        raise Mismatch("the marks of this test make more candidates than their own")
    draw, length, candidates = Random(32), 2**25, [WINDOW]
    while candidates[-1] < length - 100_000:
        candidates.append(candidates[-1] + draw.randrange(WINDOW, 100_000))
    text = marked_zeros(mark, [it - 1 for it in candidates], length)
    lines = reference.lines_of(text, reference.lengths_between(DEFAULTS, candidates, length))
    with file_of(text) as source:
        expect(run([STORE, "plan"], source), output=lines)


LIMIT_ROWS = [
    # Keys, the index of a mark or None, the length of the text, and the lengths of its chunks.
    (["max=1048576"], None, 2**21 + 1, [2**20, 2**20, 1]),
    (["max=1048576"], 2**20 - 1, 2**20 + 50, [2**20, 50]),
    (["max=1048576"], 2**20 - 2, 2**20 + 50, [2**20 - 1, 51]),
    (["max=1048576"], 2**20, 2**20 + 50, [2**20, 50]),
    (["min=300000", "max=1048576"], 299_999, 300_100, [300_000, 100]),
    (["min=300000", "max=1048576"], 299_998, 300_100, [300_100]),
    (["min=65536"], 65_000, 70_000, [65536, 4464]),
    (["min=48"], 47, 100, [48, 52]),
    (["min=48"], 46, 100, [100]),
    (["min=48", "max=48"], 60, 100, [48, 48, 4]),
    (["max=48", "min=48"], None, 96, [48, 48]),
    (["max=2048"], None, 5000, [2048, 2048, 904]),
    (["min=1048576", "max=1048576"], 70_000, 2**20 + 7, [2**20, 7]),
]


@test
def limits_at_their_edges_cut():
    def expect_row(keys, index, length, lengths):
        text = marked_zeros(DEFAULTS.target, [] if index is None else [index], length)
        came = run([STORE, "plan", *keys], text)
        expect(came, output=reference.lines_of(text, lengths))

    each_row(LIMIT_ROWS, expect_row)


@test
def polynomials_at_their_edges_cut():
    text = mixed_text(16, 3000)

    def expect_row(polynomial, bits):
        # The target is that of a window of the text, so that something is cut there.
        window = text[700 - WINDOW : 700]
        target = reference.fingerprint(polynomial, window) % 2**bits
        expect_plan(Params(polynomial, bits, target, min=48, max=2500), text)

    each_row(((it, bits) for it in EDGE_POLYNOMIALS for bits in (1, 6, 15, 16)), expect_row)


KEYS_ALONE = [("polynomial", 0x1000001), ("bits", 9), ("target", 77), ("min", 3000), ("max", 3000)]


@test
def one_key_alone_leaves_the_others_as_they_are():
    marked = marked_zeros(DEFAULTS.target, [2500], 4_000) + marked_zeros(77, [3000], 4_000)
    text = marked + Random(14).randbytes(5_000)

    def expect_row(key, number):
        params = replace(DEFAULTS, **{key: number})
        lengths = reference.lengths_of(params, text)
        if lengths == reference.lengths_of(DEFAULTS, text):
            raise Mismatch("the text of this test does not tell the key from its default")
        value = f"{number:x}" if key == "polynomial" else number
        came = run([STORE, "plan", f"{key}={value}"], text)
        expect(came, output=reference.lines_of(text, lengths))

    each_row(KEYS_ALONE, expect_row)


@test
def spellings_of_a_number_are_read():
    known = Params(polynomial=0x00ABCDEF01, bits=9, target=0, min=48, max=300)
    text = mixed_text(3, 4000)
    lines = reference.plan(known, text)
    for polynomial in ("00abcdef01", "ABCDEF01", "aBcDeF01", "00000000abcdef01"):
        keys = ["max=300", "min=48", "target=0", f"polynomial={polynomial}", "bits=9"]
        expect(run([STORE, "plan", *keys], text), output=lines)


def marks_of_the_longest_input():
    """Candidates at or beside the powers of 2 and, apart from these, about one in 3 MB."""
    draw, candidates = Random(28), {LONGEST_INPUT}
    for power in range(16, 28):
        candidates.add(2**power + power % 3 - 1)
    for start in range(2**20, LONGEST_INPUT - 2**20, 3_000_000):
        candidates.add(start + draw.randrange(900_000))
    return sorted(candidates)


@lru_cache(maxsize=None)
def name_of_marked_zeros(length, indexes):
    return hashlib.sha256(marked_zeros(DEFAULTS.target, indexes, length)).hexdigest()


def lines_of_marked_zeros(candidates, length):
    """The lines of a text too long to be held, of which each distinct chunk is named once."""
    offset = 0
    for size in reference.lengths_between(DEFAULTS, candidates, length):
        indexes = tuple(it - 1 - offset for it in candidates if offset < it <= offset + size)
        yield f"{offset} {size} {name_of_marked_zeros(size, indexes)}\n"
        offset += size


@test
def longest_input_is_cut():
    candidates = marks_of_the_longest_input()
    with tempfile.TemporaryFile() as source:
        for candidate in candidates:
            source.seek(candidate - 1)
            source.write(bytes([DEFAULTS.target]))
        source.seek(0)
        lines = "".join(lines_of_marked_zeros(candidates, LONGEST_INPUT)).encode()
        expect(run([STORE, "plan"], source), output=lines)
