#!/usr/bin/env python3
"""Counts the ways that lead through crates.txt from each crate down, which is how often `rt` reads a crate's files.

    python3 bench/ways.py

Prints the sum over all libraries, and the twenty crates from which most ways lead. Each run of the gate goes twice along all ways of
every library, at some three hundred ways a second of one processor.
"""
import functools
import pathlib

ROOT = pathlib.Path(__file__).resolve().parent.parent


def stands_on():
    """For each crate those of the repository that it lists."""
    lines = [line.partition("#")[0] for line in (ROOT / "crates.txt").read_text().splitlines()]
    listed = {line.split()[0].rstrip(":"): line.partition(":")[2].split() for line in lines if ":" in line}
    return {name: [it for it in below if it in listed] for name, below in listed.items()}


def main():
    below = stands_on()

    @functools.lru_cache(maxsize=None)
    def ways(name):
        return 1 + sum(ways(it) for it in below[name])

    libraries = [it for it in below if (ROOT / "crates" / it / "src/lib.rt").is_file()]
    print(f"{sum(map(ways, libraries))} ways from {len(libraries)} libraries")
    for name in sorted(libraries, key=ways, reverse=True)[:20]:
        print(f"{ways(name):8} {name}, which lists {len(below[name])}")


main()
