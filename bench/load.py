#!/usr/bin/env python3
"""Measures the generated load and a long run over a mesh: the built program beside a plain Rust program of the same work.

    python3 bench/load.py [PROGRAM]

PROGRAM is the built program, and crates/qkdnet/out/qkdnet where none is named. The plain program stands in bench/plain and
is built by cargo, without a network: once so that its disks keep the record of all their calls, and once
without that. All get the words `load N`, and then `run 1` with the same lines as a scenario, whose whole report is written too;
what they write has to be equal. Then come the lines `run 1` of a mesh: 16 nodes, 32 links with all their blocks, and 128 and 256 keys
for each of 240 pairs of applications. Printed are, for each N, the middle one of the processor times of 15 turns, of the mesh of 5, which
the programs take one after the other, and the greatest memory of each, and the program's ratios to both plain ones. The memory is the
program's own: a small process starts it, since what a process had before it became the program counts, too. No test depends on them.
"""
import pathlib
import statistics
import subprocess
import sys
import tempfile

from cargo import built

HERE = pathlib.Path(__file__).resolve().parent
PROGRAM = pathlib.Path(sys.argv[1] if len(sys.argv) > 1 else HERE.parent / "crates/qkdnet/out/qkdnet").resolve()
NODES = range(8)
TURNS = 15
MESH_TURNS = 5
MESH_NODES = range(16)


def key(node, count):
    return f"00000000-0000-8{node:03x}-8000-{count:012x}"


def scenario(rounds):
    """The generated load as a scenario: eight nodes in a ring, and rounds in which four keys go from one to another."""
    lines = [f"node n{v}" for v in NODES] + [f"link n{v} n{v + 1}" for v in range(7)] + ["link n0 n7"]
    lines += [f"sae s{v} n{v}" for v in NODES] + [f"allow s{a} s{b}" for a in NODES for b in NODES if a != b]
    lines += [f"bits {link} both {2 * rounds}" for link in NODES]
    given = [0] * 8
    for r in range(rounds):
        master, slave = r % 8, (3 * r + 1) % 8
        names = " ".join(key(master, 4 * given[master] + k) for k in (1, 2, 3, 4))
        lines += [f"fill s{master} s{slave} 256 4", "settle 40", f"enc n{master} s{master} s{slave} 4 256", f"dec n{slave} s{slave} s{master} {names}"]
        for node in {master, slave}:
            given[node] += 1
    lines += [f"ledger {link} {way}" for link in NODES for way in ("up", "down")]
    return "".join(line + "\n" for line in [*lines, "end"]).encode()


def mesh(keys):
    """A scenario of a mesh: so many keys for each pair of nodes, sent, settled and handed out."""
    near = [(a, b) for a in MESH_NODES for b in MESH_NODES if b - a in (1, 15)]
    far = [(a, a + step) for step, count in ((5, 11), (8, 5)) for a in range(count)]
    pairs = [(a, b) for a in MESH_NODES for b in MESH_NODES if a != b]
    times = range(keys // 128)
    lines = [f"node n{v}" for v in MESH_NODES] + [f"link n{a} n{b}" for a, b in near + far] + [f"sae s{v} n{v}" for v in MESH_NODES]
    lines += [f"allow s{a} s{b}" for a, b in pairs] + [f"bits {link} both 1024" for link in range(32)]
    lines += [f"fill s{a} s{b} 64 128" for a, b in pairs for _ in times] + ["settle 1000"] * 2
    lines += [f"enc n{a} s{a} s{b} 128 64" for a, b in pairs for _ in times]
    return "".join(line + "\n" for line in [*lines, "end"]).encode()


def turn(starter, program, words, text, report):
    """The processor seconds and the KB of one run, whose report goes to the file."""
    with open(report, "wb") as out, tempfile.TemporaryFile() as source:
        source.write(text)
        source.seek(0)
        ended = subprocess.run([starter, program, *words], stdin=source, stdout=out, stderr=subprocess.PIPE)
    if ended.returncode:
        sys.exit(f"{program} ends with {ended.returncode}")
    seconds, kilobytes = ended.stderr.split()[-2:]
    return float(seconds), int(kilobytes)


def cases():
    """Of each case its name, its number, its words, its scenario and how many turns it has."""
    for words in ("load N", "run 1"):
        for rounds in (50, 100, 200, 500):
            yield words, rounds, words.replace("N", str(rounds)).split(), scenario(rounds), TURNS
    for keys in (128, 256):
        yield "mesh", keys, ["run", "1"], mesh(keys), MESH_TURNS


def main():
    programs = PROGRAM, built("plain", "qkdnet-plain", feature="record"), built("plain", "qkdnet-plain")
    starter = built("plain", "starter")
    print("words     number  program: s, KB  plain with the record: s, KB  ratios of time, memory  without: s, KB  ratios")
    with tempfile.TemporaryDirectory() as room:
        reports = [f"{room}/{number}" for number in range(len(programs))]
        for name, number, words, text, count in cases():
            turns = [[turn(starter, it, words, text, report) for it, report in zip(programs, reports)] for _ in range(count)]
            if len({pathlib.Path(it).read_bytes() for it in reports}) > 1:
                sys.exit(f"the reports of {name}, {number}, differ")
            ours, *others = [(statistics.median(s for s, _ in it), max(kb for _, kb in it)) for it in zip(*turns)]
            beside = "  ".join(f"{s:.3f} {kb}  {ours[0] / s:.2f} {ours[1] / kb:.2f}" for s, kb in others)
            print(f"{name:8}  {number:6}  {ours[0]:.3f} {ours[1]}  {beside}", flush=True)


main()
