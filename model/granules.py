#!/usr/bin/env python3
"""A model of the program `granules`, in plain slow Python.

It follows the rules of docs/REQUESTS.md and docs/BACKINGS.md, not the code.
The committed granules are a set, the limiters a list of limits.

As a program it reads requests from standard input and prints the answers.
As a module, `run(data)` takes the bytes of a whole session and gives the
answers.
"""

import sys

LARGEST_NUMBER = 4_294_967_295
MOST_GRANULES = 1_024
MOST_LIMITERS = 2

# How many numbers follow each word.
NUMBERS_AFTER = {
    "mask": 1,
    "limit": 1,
    "commit": 2,
    "release": 2,
    "held": 1,
    "size": 0,
    "allowance": 0,
    "count": 0,
}


class Backing:
    """A mask of `size` granules and the limiters on top of it."""

    def __init__(self, size):
        self.size = size
        self.committed = set()
        self.limits = []

    def allowance(self):
        return min([self.size] + self.limits)

    def count(self):
        return len(self.committed)

    def room(self):
        return self.allowance() - self.count()

    def held(self, granule):
        return granule in self.committed

    def stretch(self, first, length):
        """The granules of a stretch, or None where it is refused with 20."""
        if length == 0 or first + length > self.size:
            return None
        return set(range(first, first + length))

    def limit(self, limit):
        if limit < self.count():
            return "no 5"
        self.limits.append(limit)
        return str(self.allowance())

    def commit(self, first, length):
        stretch = self.stretch(first, length)
        if stretch is None:
            return "no 20"
        missing = stretch - self.committed
        if len(missing) > self.room():
            return f"no 21 {len(missing)} {self.room()}"
        self.committed |= missing
        return str(len(missing))

    def release(self, first, length):
        stretch = self.stretch(first, length)
        if stretch is None:
            return "no 20"
        leaving = stretch & self.committed
        self.committed -= leaving
        return str(len(leaving))


def read_number(text):
    """The number that `text` spells, or None."""
    if text == "" or any(c not in "0123456789" for c in text):
        return None
    value = 0
    for c in text:
        value = value * 10 + "0123456789".index(c)
    return value if value <= LARGEST_NUMBER else None


def read_request(line):
    """The word and the list of its numbers, or None for a bad line."""
    word, *rest = line.split(" ")
    numbers = [read_number(text) for text in rest]
    if word not in NUMBERS_AFTER or len(numbers) != NUMBERS_AFTER[word]:
        return None
    if None in numbers:
        return None
    return word, numbers


class Session:
    """The requests so far: the backing they made, and whether they ended."""

    def __init__(self):
        self.backing = None
        self.ended = False

    def mask(self, size):
        if self.backing is not None:
            return None
        if not 1 <= size <= MOST_GRANULES:
            self.ended = True
            return "no 6"
        self.backing = Backing(size)
        return str(size)

    def limit(self, limit):
        if len(self.backing.limits) == MOST_LIMITERS:
            return None
        return self.backing.limit(limit)

    def result(self, word, numbers):
        """What follows the word in the answer, or None for a bad line."""
        if word == "mask":
            return self.mask(*numbers)
        if self.backing is None:
            return None
        if word == "limit":
            return self.limit(*numbers)
        if word == "commit":
            return self.backing.commit(*numbers)
        if word == "release":
            return self.backing.release(*numbers)
        if word == "held":
            return "yes" if self.backing.held(*numbers) else "no"
        if word == "size":
            return str(self.backing.size)
        if word == "allowance":
            return str(self.backing.allowance())
        return str(self.backing.count())

    def answer(self, number, line):
        """The line printed for line `number`, which is not empty."""
        request = read_request(line)
        if request is not None:
            word, numbers = request
            result = self.result(word, numbers)
            if result is not None:
                return f"{word} {result}"
        return f"bad line {number}"


def split_lines(data):
    """The lines of `data` as bytes, without their ends."""
    pieces = data.split(b"\n")
    last = pieces.pop()
    lines = [p[:-1] if p.endswith(b"\r") else p for p in pieces]
    return lines + [last] if last else lines


def run(data):
    """The answers to the bytes of a session, and the line that is not text.

    The second is the number of the first line that was read and is not
    UTF-8, or None.
    """
    session = Session()
    answers = []
    for number, raw in enumerate(split_lines(data), start=1):
        try:
            line = raw.decode("utf-8")
        except UnicodeDecodeError:
            return answers, number
        if line != "":
            answers.append(session.answer(number, line))
        if session.ended:
            break
    return answers, None


def as_text(answers):
    """The answers as the bytes printed, each with its line feed."""
    return "".join(a + "\n" for a in answers).encode("ascii")


def main():
    answers, broken = run(sys.stdin.buffer.read())
    sys.stdout.buffer.write(as_text(answers))
    sys.stdout.flush()
    if broken is not None:
        print(f"granules: line {broken} is not UTF-8 text", file=sys.stderr)
        return 1
    return 0


if __name__ == "__main__":
    sys.exit(main())
