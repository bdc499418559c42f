#!/usr/bin/env python3
"""Counts the ways down through crates.txt, which a kit that remembers nothing walks one by one.

    tools/ways.py            prints crates, edges, ways, and the estimated seconds of a kit's work before its first proof
    tools/ways.py --check    the same; the status is 1 where there are more than 100,000 ways or more than 120 seconds
    tools/ways.py --edges    also each edge that others imply, with the ways that its removal saves

A way down from a crate is the crate itself, or a crate that it names and a way down from there. Such a kit visits each way
once for each library, and once for each name that a `ghost use` of src/ brings; a visit of the second kind takes about
two microseconds, and reading all files about 25 seconds. An edge that others imply is not needed: the crate in between
hands the names on (`pub use` in its specs/Lib.antt, proofs/Lib.antt or src/lib.rt).
"""
import functools
import pathlib
import re
import sys

TOP = pathlib.Path(__file__).resolve().parent.parent
MOST_WAYS = 100_000
MOST_SECONDS = 120
SECONDS_A_VISIT = 2e-6
SECONDS_TO_READ = 25
NAMES = re.compile(r"ghost use [^;{]*(?:\{([^}]*)\})?")


def crates_below():
    """Each crate of the repository with those that its line names."""
    below = {}
    for line in (TOP / "crates.txt").read_text().splitlines():
        head, colon, names = line.split("#")[0].partition(":")
        if colon:
            below[head.split()[0]] = names.split()
    return {crate: [it for it in names if it in below] for crate, names in below.items()}


def ways_of(below):
    """The number of ways down from each crate."""
    @functools.lru_cache(None)
    def ways(crate):
        return 1 + sum(ways(it) for it in below[crate])
    return {crate: ways(crate) for crate in below}


def implied_edges(below):
    """The edges to a crate that another crate of the same line stands on."""
    @functools.lru_cache(None)
    def reached(crate):
        return frozenset().union(*[{it} | reached(it) for it in below[crate]]) if below[crate] else frozenset()
    return [(crate, it) for crate in below for it in below[crate]
            if any(it in reached(other) for other in below[crate] if other != it)]


def names_brought(crate):
    """How many names the `ghost use` lines of a crate's src/ bring."""
    texts = [path.read_text() for path in (TOP / "crates" / crate / "src").rglob("*.rt")]
    return sum(len((found.group(1) or "one").split(",")) for text in texts for found in NAMES.finditer(text))


def saved(below, edge):
    """The ways that are gone without an edge."""
    crate, it = edge
    return sum(ways_of(below).values()) - sum(ways_of({**below, crate: [x for x in below[crate] if x != it]}).values())


def main():
    below = crates_below()
    ways = ways_of(below)
    total = sum(ways.values())
    visits = sum(names_brought(crate) * ways[crate] for crate in below)
    seconds = SECONDS_TO_READ + visits * SECONDS_A_VISIT
    most = max(ways, key=ways.get)
    implied = implied_edges(below)
    print(f"ways: {len(below)} crates, {sum(map(len, below.values()))} edges ({len(implied)} implied by others), "
          f"{total:,} ways, {ways[most]:,} of them from {most}; about {seconds:.0f} s before the first proof")
    if "--edges" in sys.argv:
        for gain, crate, it in sorted(((saved(below, edge), *edge) for edge in implied), reverse=True):
            print(f"{gain:>10,}  {crate} > {it}")
    if "--check" in sys.argv and (total > MOST_WAYS or seconds > MOST_SECONDS):
        gain, crate, it = max((saved(below, edge), *edge) for edge in implied)
        print(f"ways: more than {MOST_WAYS:,} ways or {MOST_SECONDS} s; most is saved without the edge {crate} > {it} ({gain:,})")
        return 1
    return 0


if __name__ == "__main__":
    sys.exit(main())
