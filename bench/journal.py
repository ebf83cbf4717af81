#!/usr/bin/env python3
"""Times appends to a journal on a disk in memory, and its opening.

    python3 bench/journal.py PROGRAM

PROGRAM is bench/out/journal_speed, which `bench/build journal_speed` builds. Each time is the least of five. The time
for a batch is to stay the same as the journal grows.
"""
import subprocess
import sys
import time

COUNTS = (25_000, 50_000, 100_000, 200_000)


def timed(program, count):
    start = time.perf_counter()
    out = subprocess.run([program, str(count)], check=True, capture_output=True, text=True).stdout
    wanted = f"{count} batches, {17 + 45 * count} octets\n"
    if out != wanted:
        sys.exit(f"{count}: {out!r} in place of {wanted!r}")
    return time.perf_counter() - start


def main():
    for count in COUNTS:
        least = min(timed(sys.argv[1], count) for _ in range(5))
        print(f"{count} batches of 40 octets: {least:.3f} s, {1e9 * least / count:.0f} ns a batch")


if __name__ == "__main__":
    main()
