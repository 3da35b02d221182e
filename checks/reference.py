"""A second implementation of `plan`, straight from its definition: each window is divided anew.

Run as a program it compares itself with values that were worked out by hand.
"""

from bisect import bisect_left
from dataclasses import dataclass
from functools import lru_cache
from hashlib import sha256
from random import Random
from typing import NamedTuple

WINDOW = 48
LONGEST_INPUT = 2**28
LONGEST_CHUNK = 2**20


@dataclass(frozen=True)
class Params:
    polynomial: int = 0x3DA3358B4DC173
    bits: int = 13
    target: int = 120
    min: int = 2048
    max: int = 65536


def keys_of(params):
    """The keys that `plan` needs to cut by these parameters, each with its value."""
    if params == Params():
        return []
    numbers = [f"{key}={getattr(params, key)}" for key in ("bits", "target", "min", "max")]
    return [f"polynomial={params.polynomial:x}", *numbers]


def remainder(polynomial, dividend):
    """Divides polynomials over GF(2) whose coefficients are the bits of these numbers."""
    degree = polynomial.bit_length() - 1
    while (excess := dividend.bit_length() - 1 - degree) >= 0:
        dividend ^= polynomial << excess
    return dividend


@lru_cache(maxsize=None)
def remainders_of_bytes(polynomial):
    """For each byte, its remainder if its lowest bit is the coefficient of t^degree."""
    degree = polynomial.bit_length() - 1
    return [remainder(polynomial, byte << degree) for byte in range(256)]


# Kept, since most windows of a sparse input are equal.
@lru_cache(maxsize=4096)
def fingerprint(polynomial, window):
    """Divides a window, the high bit of each byte first, byte by byte."""
    degree = polynomial.bit_length() - 1
    table, low_bits = remainders_of_bytes(polynomial), 2**degree - 1
    rest = 0
    for byte in window:
        longer = rest << 8 | byte
        rest = longer & low_bits ^ table[longer >> degree]
    return rest


def is_candidate(params, text, position):
    if position < WINDOW:
        return False
    window = text[position - WINDOW : position]
    return fingerprint(params.polynomial, window) % 2**params.bits == params.target


def next_cut(params, text, start):
    end = min(start + params.max, len(text))
    eligible = range(start + params.min, end + 1)
    return next((it for it in eligible if is_candidate(params, text, it)), end)


def lengths_of(params, text):
    """The lengths of the content-defined chunks of a text, in order."""
    lengths, start = [], 0
    while start < len(text):
        cut = next_cut(params, text, start)
        lengths.append(cut - start)
        start = cut
    return lengths


def lengths_between(params, candidates, length):
    """The lengths of the chunks of an input that has this length and exactly these candidates."""
    lengths, start = [], 0
    while start < length:
        cut = min(start + params.max, length)
        least = bisect_left(candidates, start + params.min)
        if least < len(candidates):
            cut = min(cut, candidates[least])
        lengths.append(cut - start)
        start = cut
    return lengths


def lines_of(text, lengths):
    """The lines of `plan` if a text is cut into pieces of these lengths."""
    lines, offset = [], 0
    for length in lengths:
        name = sha256(text[offset : offset + length]).hexdigest()
        lines.append(f"{offset} {length} {name}\n")
        offset += length
    return "".join(lines).encode()


def plan(params, text):
    return lines_of(text, lengths_of(params, text))


def marked_zeros(mark, indexes, length):
    """Zero bytes, except for a mark at each of these indexes.

    The fingerprint of 47 zeros and a mark is the mark, modulo every polynomial of degree 8 or
    more. So if the target is the mark, the position after it is a candidate.
    """
    text = bytearray(length)
    for index in indexes:
        text[index] = mark
    return bytes(text)


def mark_makes_one_candidate(params, mark):
    """Whether a mark among zeros makes the position after it a candidate and no other."""
    text = marked_zeros(mark, [WINDOW], 3 * WINDOW)
    return [it for it in range(len(text)) if is_candidate(params, text, it)] == [WINDOW + 1]


class KnownCut(NamedTuple):
    params: Params
    text: bytes
    lengths: list


DEFAULTS = Params()
# Modulo t^63 + 1 a bit only moves as the window slides: one marked byte makes one candidate.
SPARSE = Params(polynomial=0x8000000000000001, bits=13, target=1, min=64, max=256)
SPARSE_ZERO = Params(polynomial=0x8000000000000001, bits=13, target=0, min=64, max=256)

KNOWN_CUTS = {
    "empty_input_has_no_chunk": KnownCut(DEFAULTS, b"", []),
    "one_byte_is_a_chunk": KnownCut(DEFAULTS, b"x", [1]),
    "zeros_are_cut_at_the_maximum": KnownCut(
        DEFAULTS, bytes(200_000), [65536, 65536, 65536, 3392]
    ),
    "input_of_exactly_the_maximum_is_one_chunk": KnownCut(DEFAULTS, bytes(65536), [65536]),
    "candidate_at_the_minimum_cuts": KnownCut(
        DEFAULTS, marked_zeros(120, [2047], 3000), [2048, 952]
    ),
    "candidate_before_the_minimum_is_passed_over": KnownCut(
        DEFAULTS, marked_zeros(120, [2046], 3000), [3000]
    ),
    "minimum_counts_from_the_last_cut": KnownCut(
        DEFAULTS, marked_zeros(120, [2047, 4094, 6200], 7000), [2048, 4153, 799]
    ),
    "least_candidate_cuts": KnownCut(
        DEFAULTS, marked_zeros(120, [3000, 4000], 5000), [3001, 1999]
    ),
    "candidate_before_the_maximum_cuts": KnownCut(
        DEFAULTS, marked_zeros(120, [65534], 70_000), [65535, 4465]
    ),
    "candidate_after_the_maximum_is_too_late": KnownCut(
        DEFAULTS, marked_zeros(120, [65540], 70_000), [65536, 4464]
    ),
    "zeros_are_cut_at_a_given_maximum": KnownCut(SPARSE, bytes(700), [256, 256, 188]),
    "zeros_are_cut_at_a_given_minimum": KnownCut(SPARSE_ZERO, bytes(200), [64, 64, 64, 8]),
    "given_target_cuts": KnownCut(SPARSE, marked_zeros(1, [99], 300), [100, 200]),
    "candidate_before_a_given_minimum_is_passed_over": KnownCut(
        SPARSE, marked_zeros(1, [62], 200), [200]
    ),
    "candidate_at_a_given_minimum_cuts": KnownCut(SPARSE, marked_zeros(1, [63], 200), [64, 136]),
    "candidate_after_a_given_maximum_is_too_late": KnownCut(
        SPARSE, marked_zeros(1, [256], 300), [256, 44]
    ),
}

KNOWN_FINGERPRINTS = [
    (SPARSE.polynomial, bytes(48), 0),
    (SPARSE.polynomial, bytes(47) + b"\x01", 1),
    (SPARSE.polynomial, b"\x01" + bytes(47), 2**61),
    (SPARSE.polynomial, b"\xff" * 48, 63),
    (DEFAULTS.polynomial, bytes(47) + b"\x78", 120),
    # t^53 modulo the polynomial is the polynomial without its highest bit.
    (DEFAULTS.polynomial, bytes(41) + b"\x20" + bytes(6), DEFAULTS.polynomial - 2**53),
]


def compare(what, wanted, came):
    if wanted != came:
        raise ValueError(f"{what}: wanted {wanted}, came {came}")


def compare_fingerprints():
    for polynomial, window, value in KNOWN_FINGERPRINTS:
        what = f"the fingerprint of {window.hex()} modulo {polynomial:#x}"
        compare(what, value, fingerprint(polynomial, window))
    random = Random(48)
    for degree in range(16, 64):
        polynomial = 1 << degree | random.getrandbits(degree) | 1
        window = random.randbytes(WINDOW)
        wanted = remainder(polynomial, int.from_bytes(window, "big"))
        compare(f"{window.hex()} modulo {polynomial:#x}", wanted, fingerprint(polynomial, window))


def compare_cuts():
    for name, known in KNOWN_CUTS.items():
        params, text, lengths = known
        compare(name, lengths, lengths_of(params, text))
        candidates = [it for it in range(len(text) + 1) if is_candidate(params, text, it)]
        by_candidates = lengths_between(params, candidates, len(text))
        compare(f"{name}, by its candidates", lengths, by_candidates)


def self_test():
    """Raises a ValueError at the first value that does not come out as it is known."""
    compare_fingerprints()
    compare_cuts()


if __name__ == "__main__":
    self_test()
    print("the reference has the known values")
