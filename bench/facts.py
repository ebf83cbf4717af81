#!/usr/bin/env python3
"""Measures what a manager's facts cost its calls: at one that knows 100,000 facts beside one that knows 1,000.

    python3 bench/facts.py [PROGRAM]

PROGRAM is the built program, and crates/qkdnet/out/qkdnet where none is named. Node a makes keys for applications of node c,
to which no lane has bytes, so that they stay; and 4,000 keys for bob, which are stored. Then come 4,000 lines of one kind: calls of
`enc` and of `dec`, and ticks. Then keys for applications of node b, 1,000 or 15,000 of them, were sent and never passed, so that a
tick finds them in flight; and last frames come changed or made up behind 125 or 4,000 that were put on their wire. A line's time is the processor time of a run with such lines less that of one without, each the least
of seven turns. Printed are both times of a line, and their ratio. No test depends on them.
"""
import os
import pathlib
import subprocess
import sys
import tempfile

HERE = pathlib.Path(__file__).resolve().parent
PROGRAM = pathlib.Path(sys.argv[1] if len(sys.argv) > 1 else HERE.parent / "crates/qkdnet/out/qkdnet").resolve()
TURNS = 7
LINES = 4_000
FILLED = 125
POOLS = 25


def key(count):
    return f"00000000-0000-8000-8000-{count:012x}"


def site():
    """Nodes a, b and c; alice at a may have keys for bob and others at b, and for others at c."""
    others = [(f"{node}{pool}", node) for node in "bc" for pool in range(POOLS)]
    saes = [("alice", "a"), ("bob", "b"), *others]
    lines = ["node a", "node b", "node c", "link a b", "link a c"]
    lines += [f"sae {name} {node}" for name, node in saes]
    return lines + [f"allow alice {name}" for name, _ in saes[1:]] + ["bits 0 both 1024"]


def fills(node, facts):
    """So many keys for the applications of a node, and no pool gets too many."""
    return [f"fill alice {node}{n % POOLS} 256 {FILLED}" for n in range(facts // FILLED)]


def stored(facts):
    """Keys for bob that are stored, and so many facts that stay."""
    lines = []
    for _ in range(LINES // FILLED):
        lines += [f"fill alice bob 256 {FILLED}", "settle 40"]
    return lines + fills("c", facts)


def in_flight(facts):
    """Keys that were sent and never passed."""
    return [*fills("b", facts), "tick a"]


def turn(lines, report):
    """The processor seconds of one run, whose report goes to the file."""
    with open(report, "wb") as out, tempfile.TemporaryFile() as source:
        source.write("".join(line + "\n" for line in [*site(), *lines, "end"]).encode())
        source.seek(0)
        child = subprocess.Popen([PROGRAM, "run", "1"], stdin=source, stdout=out)
        _, status, used = os.wait4(child.pid, 0)
        child.returncode = os.waitstatus_to_exitcode(status)
    if child.returncode:
        sys.exit(f"{PROGRAM} ends with {child.returncode}")
    return used.ru_utime + used.ru_stime


def seconds_of_a_line(before, measured, report):
    """The two runs take turns, so that what else the machine does meets both."""
    turns = [(turn(before, report), turn([*before, *measured], report)) for _ in range(TURNS)]
    return (min(whole for _, whole in turns) - min(part for part, _ in turns)) / len(measured)


def kinds():
    """Of each kind its name, how many facts there are, the lines before it by their number, and its lines."""
    enc = ["enc a alice bob 1 256"] * LINES
    dec = [f"dec b bob alice {key(n + 1)}" for n in range(LINES)]
    tick = ["tick a"] * LINES
    yield "enc", (1_000, 100_000), stored, enc
    yield "dec", (1_000, 100_000), lambda facts: stored(facts) + enc, dec
    yield "tick", (1_000, 100_000), stored, tick
    yield "tick, facts in flight", (1_000, 15_000), in_flight, tick
    yield "flip, frames on the wire", (125, 4_000), in_flight, [f"flip 0 up {n % 125} {n % 400}" for n in range(LINES)]
    yield "forge, frames on the wire", (125, 4_000), in_flight, ["forge 0 up " + "5a" * 60] * LINES


def main():
    print("line: microseconds at few facts, at many, ratio")
    with tempfile.TemporaryDirectory() as room:
        for kind, sizes, before, measured in kinds():
            few, many = (seconds_of_a_line(before(facts), measured, f"{room}/report") for facts in sizes)
            print(f"{kind} ({sizes[0]} and {sizes[1]}): {few * 1e6:.1f}  {many * 1e6:.1f}  {many / few:.2f}", flush=True)


main()
