#!/usr/bin/env python3
"""Spells the repository's own definitions and lemmas in snake case.

    tools/snake_names.py      at the top of the repository, right after the kit's port.py

It takes each name with a dash that specs/ or proofs/ defines, but for the
names of goals, which Rattle makes, and writes it with underscores in every
.antt file, and in the clauses, ghost items and ghost imports of every .rt file.
A name that would fall together with another one gets the name given below.
"""

import re
import sys
from pathlib import Path

# These would fall together with names of the library or of functions.
OTHER = {
    "bit-and": "bit_of_and",
    "bit-or": "bit_of_or",
    "answers-are-count-changes": "answers_are_count_changes_lem",
    "calls-keep-backings-sound": "calls_keep_backings_sound_lem",
    "calls-turn-their-stretch": "calls_turn_their_stretch_lem",
    "full-allowance-never-refuses": "full_allowance_never_refuses_lem",
    "limiters-join": "limiters_join_lem",
    "refusals-change-nothing": "refusals_change_nothing_lem",
}

WORD = re.compile(r"[A-Za-z][\w'-]*")
DEFINED = re.compile(
    r"^[ ]*(?:(?:abbrev|unfoldable|pub|data|record|ruleset)\s+)*([A-Za-z][\w'-]*)"
    r"\s*(?:\{[^}]*\}|\([^)]*\))*\s*:(?!\s*goal\.)",
    re.M,
)
# The names of goals and invariants that Rattle makes.
MADE = re.compile(r"(invariant|decreases|returns|loop|overflow|index|shift|div)-|.*-requires(-|$)")


def own_names(files):
    """Each name with a dash that a file of specs/ or proofs/ defines."""
    names = set()
    for path in files:
        for match in DEFINED.finditer(path.read_text(encoding="utf-8")):
            if "-" in match[1] and not MADE.match(match[1]):
                names.add(match[1])
    return names


def turned(text, names):
    return WORD.sub(lambda m: names.get(m[0], m[0]), text)


def in_ghosts(text, names):
    """Turns the lines of a source file that are clauses, ghost items or ghost imports."""
    ghost = re.compile(r"^\s*(ghost|requires|ensures)\b")
    return "".join(turned(l, names) if ghost.match(l) else l for l in text.splitlines(keepends=True))


def main():
    top = Path("crates")
    proofs = sorted(p for p in top.glob("*/*/**/*.antt") if p.parts[2] in ("specs", "proofs"))
    sources = sorted(top.glob("*/src/**/*.rt"))
    names = {n: OTHER.get(n, n.replace("-", "_")) for n in own_names(proofs)}
    used = set()
    for path in proofs + sources:
        used |= set(WORD.findall(path.read_text(encoding="utf-8")))
    together = sorted(n for n, new in names.items() if new in used)
    if together:
        print("these fall together with a name that is there: " + ", ".join(f"{n} as {names[n]}" for n in together))
        return 1
    for path in proofs:
        text = path.read_text(encoding="utf-8")
        path.write_text(turned(text, names), encoding="utf-8")
    for path in sources:
        text = path.read_text(encoding="utf-8")
        path.write_text(in_ghosts(text, names), encoding="utf-8")
    print(f"{len(names)} names in {len(proofs) + len(sources)} files")
    return 0


if __name__ == "__main__":
    sys.exit(main())
