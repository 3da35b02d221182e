"""A second implementation of the generator of `bulk`.

Run as a program it compares itself with values that were worked out by hand.
"""

import struct
from functools import lru_cache
from itertools import accumulate, repeat

from reference import compare

STATES = 16_384
BLOCK = 4 * STATES
MASK = 2**64 - 1
MULTIPLIER, INCREMENT = 6364136223846793005, 1442695040888963407
STEP_OF_ORIGINS = 0x9E3779B97F4A7C15


def next_state(state, _=None):
    """The step of the generator of MMIX."""
    return (state * MULTIPLIER + INCREMENT) & MASK


def bytes_after(state, count):
    """The bytes of the states after this one: the high half of each, the highest byte first."""
    states = accumulate(repeat(None, count), next_state, initial=state)
    next(states)
    return struct.pack(f">{count}I", *(it >> 32 for it in states))


@lru_cache(maxsize=4)
def block_of(seed, origin, states=STATES):
    """A block, or the bytes that its first states give it."""
    return bytes_after((seed + STEP_OF_ORIGINS * (origin + 1)) & MASK, states)


def origin_of(number):
    return number - 3 if number % 4 == 3 else number


def bulk_input(seed, blocks):
    return b"".join(block_of(seed, origin_of(number)) for number in range(blocks))


def self_test():
    """Raises a ValueError at the first value that does not come out as it is known."""
    compare("the state after 0", INCREMENT, next_state(0))
    compare("the state after 1", 7806831264735756412, next_state(1))
    # This seed makes the state before block 0 a 0, and 0x14057b7ef767814f is the increment.
    compare("the first bytes", "14057b7e", block_of(2**64 - STEP_OF_ORIGINS, 0)[:4].hex())
    compare("the origins", [0, 1, 2, 0, 4, 5, 6, 4], [*map(origin_of, range(8))])


if __name__ == "__main__":
    self_test()
    print("the reference has the known values")
