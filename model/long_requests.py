#!/usr/bin/env python3
"""Prints a long list of requests for the program `granules`.

    model/long_requests.py KIND

KIND is the word of the first line, and changes that line alone. The committed
granules stand in many short runs most of the time, so that commits join runs
and releases split them. tests/cases/long-mask.in is its output for mask.
"""

import sys

sys.dont_write_bytecode = True

from random_requests import Numbers  # noqa: E402

SIZE = 97
LAST = SIZE - 1


def every_second(word, first):
    """A request for every second granule alone."""
    return [f"{word} {g} 1" for g in range(first, SIZE, 2)]


def look():
    """Asks for every granule, and one past the last."""
    return [f"held {g}" for g in range(SIZE + 1)] + ["count"]


def edges():
    """Requests at the first and the last granule, in and out of the size."""
    stretches = ["0 1", f"{LAST} 1", f"{LAST} 2", f"{SIZE} 1", "0 0", f"0 {SIZE + 1}"]
    return [f"{word} {s}" for word in ("commit", "release", "commit") for s in stretches]


def joined_and_split():
    """Many runs joined by one commit, and one run split by releases."""
    joins = ["commit 11 1", "commit 30 1", "commit 30 3", "commit 40 21", "commit 39 23", f"commit 0 {SIZE}"]
    splits = ["release 50 1", "release 49 3", "release 10 20", "release 12 5", "release 48 9", "release 0 1"]
    return joins + ["count"] + splits + [f"release {LAST} 1", "commit 9 22", "count"]


def at_the_limit():
    """Twelve runs of two under a limit of 60; commits of 36 granules more, and of 37."""
    runs = [f"commit {g} 2" for g in range(1, 96, 8)]
    over = ["limit 23", "limit 60", "commit 0 49", f"commit 0 {SIZE}", "commit 0 48", "commit 48 1", "commit 49 2"]
    again = ["release 8 9", "commit 40 18", "commit 40 17", "release 3 2", "commit 89 5", "commit 89 4", "count"]
    return [f"release 0 {SIZE}"] + runs + over + again


def comb(numbers, times):
    """Where the odd granules are committed: joins some of them, and parts them again."""
    requests = []
    for _ in range(times):
        first, length = numbers.below(SIZE - 14), 3 + numbers.below(12)
        requests += [f"commit {first} {length}", f"held {first + numbers.below(length)}", "count"]
        requests += [f"release {g} 1" for g in range(first, first + length) if g % 2 == 0]
    return requests


def under_two_limits():
    """Forty runs of one are all that is allowed; room for joins comes from releases."""
    limits = ["limit 0", "limit 40", "limit 97", "mask 97", "runs 97", "allowance"]
    joins = ["commit 0 3", "commit 1 1", "release 60 20", "commit 1 19", "commit 21 5", "commit 19 3", "count"]
    return [f"release 9 {SIZE - 9}"] + limits + [f"release 0 {SIZE}"] + every_second("commit", 1) + joins


def stretch(numbers):
    """Mostly one to three granules, at times many; some end past the size."""
    length = [1, 1, 1, 2, 2, 3, 5 + numbers.below(12), 10 + numbers.below(40)][numbers.below(8)]
    first = numbers.below(SIZE) if numbers.below(12) == 0 else numbers.below(SIZE - length + 1)
    return first, length


def mixed(numbers, lines):
    """Commits and releases of any order, each with a look at its ends."""
    requests = []
    while len(requests) < lines:
        word = ["commit", "release"][numbers.below(2)]
        first, length = stretch(numbers)
        requests.append(f"{word} {first} {length}")
        around = [max(first - 1, 0), first, first + length - 1, first + length]
        requests.append(["count", f"held {around[numbers.below(4)]}"][numbers.below(2)])
    return requests


def requests(kind):
    numbers = Numbers(11)
    parts = [
        [f"{kind} {SIZE}", "size", "allowance", "count"],
        every_second("commit", 0) + edges() + joined_and_split(),
        [f"commit 0 {SIZE}"] + every_second("release", 0) + comb(numbers, 24) + look(),
        mixed(numbers, 120) + at_the_limit() + mixed(numbers, 120),
        under_two_limits() + mixed(numbers, 120) + look(),
        [f"release 0 {SIZE}", "count", "size", "allowance"],
    ]
    return [request for part in parts for request in part]


def main():
    (kind,) = sys.argv[1:]
    print("\n".join(requests(kind)))


if __name__ == "__main__":
    main()
