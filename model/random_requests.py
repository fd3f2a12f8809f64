#!/usr/bin/env python3
"""Prints pseudo-random requests for the program `granules`.

    model/random_requests.py SEED SIZE LINES

The same arguments always give the same lines. Two limits stand in each
session of 8 lines or more: one after a quarter of the lines, one after half.
tests/cases/random.in is the output for 7 200 300.
"""

import sys


class Numbers:
    """A linear congruential generator, the same on every machine."""

    def __init__(self, seed):
        self.state = seed

    def below(self, bound):
        self.state = (self.state * 6364136223846793005 + 1442695040888963407) % 2**64
        return (self.state >> 33) % bound


def stretch(numbers, size):
    """A first granule and a length; some run past the size, some are empty."""
    first = numbers.below(size + size // 16 + 1)
    length = numbers.below(size // 5 + 2)
    return f"{first} {length}"


def any_request(numbers, size):
    kind = numbers.below(20)
    if kind < 9:
        return f"commit {stretch(numbers, size)}"
    if kind < 14:
        return f"release {stretch(numbers, size)}"
    if kind < 17:
        return f"held {numbers.below(size + 2)}"
    return ["size", "allowance", "count"][kind - 17]


def requests(seed, size, lines):
    numbers = Numbers(seed)
    half = lines // 2
    fixed = {
        0: f"mask {size}",
        lines // 4 - 1: f"release 0 {size}",
        lines // 4: f"limit {size * 3 // 4}",
        half - 1: f"release 0 {(size + 1) // 2}",
        half: f"limit {(size + 1) // 2}",
    }
    return [fixed.get(i) or any_request(numbers, size) for i in range(lines)]


def main():
    seed, size, lines = (int(a) for a in sys.argv[1:])
    print("\n".join(requests(seed, size, lines)))


if __name__ == "__main__":
    main()
