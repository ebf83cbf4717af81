#!/usr/bin/env python3
"""Measures the gate from nothing: the processor minutes of each crate's proof, tests and edits, of `rt`, the compiler and the linker.

    python3 bench/gate.py [LOG]

Runs `.ci/run` in a copy of the repository as it was last committed, and looks four times a second at which crate each check is for
and how much of a processor each process has used. Prints a row for each crate, a row for each other program, the whole time of
all processes as the system counts it when they end, how long it took by the clock, and what the gate said last; what the gate printed
goes to LOG. Its status is that of the gate.
"""
import collections
import os
import pathlib
import resource
import subprocess
import sys
import tempfile
import time

ROOT = pathlib.Path(__file__).resolve().parent.parent
TICKS = os.sysconf("SC_CLK_TCK")
KINDS = ("proof", "tests", "edits")


def crates_of(root):
    """The crates of the repository, lowest first."""
    lines = (root / "crates.txt").read_text().splitlines()
    return [line.split()[0].rstrip(":") for line in lines if line and not line.startswith("#")]


def processes():
    """Each process with its parent, when it was started and the processor seconds that it has used itself."""
    found = {}
    for folder in pathlib.Path("/proc").glob("[0-9]*"):
        try:
            fields = (folder / "stat").read_text().rpartition(")")[2].split()
            found[int(folder.name)] = int(fields[1]), fields[19], (int(fields[11]) + int(fields[12])) / TICKS
        except OSError:
            pass
    return found


def below(top, found):
    """The processes that stand below one."""
    children = collections.defaultdict(list)
    for number, (parent, _, _) in found.items():
        children[parent].append(number)
    seen, left = set(), [top]
    while left:
        number = left.pop()
        if number not in seen:
            seen.add(number)
            left += children[number]
    return seen


def task_of(number, root):
    """What a process works at: a crate and a kind of work, or the name of a program."""
    folder = pathlib.Path(f"/proc/{number}")
    words = (folder / "cmdline").read_bytes().decode(errors="replace").split("\0")
    if words[0].endswith("/rattle") and "--crate-name" in words:
        here = os.readlink(folder / "cwd")
        kind = "tests" if "--test" in words else "proof" if here.startswith(str(root)) else "edits"
        return words[words.index("--crate-name") + 1], kind
    name = os.path.basename(words[0])
    if name.startswith("python") and len(words) > 1:
        name = os.path.basename(words[1])
    return {"rattle-link": "linker", "ld.lld": "linker", "ld-linux-x86-64.so.2": "linker"}.get(name, name) or "others", None


def look(gate, root, used):
    """Notes for each process of the gate how much it has used by now."""
    found = processes()
    for number in below(gate, found):
        try:
            _, start, seconds = found[number]
            used[task_of(number, root), number, start] = seconds
        except (OSError, KeyError):
            pass


def main():
    log = sys.argv[1] if len(sys.argv) > 1 else os.devnull
    with tempfile.TemporaryDirectory(prefix="gate-") as made:
        root = pathlib.Path(made) / "repository"
        subprocess.run(["git", "clone", "-q", str(ROOT), str(root)], check=True)
        used, begun, before = {}, time.time(), resource.getrusage(resource.RUSAGE_CHILDREN)
        with open(log, "wb") as said:
            gate = subprocess.Popen(["bash", ".ci/run"], cwd=root, stdin=subprocess.DEVNULL, stdout=said, stderr=subprocess.STDOUT)
            while gate.poll() is None:
                look(gate.pid, root, used)
                time.sleep(0.25)
        after = resource.getrusage(resource.RUSAGE_CHILDREN)
        rows = {name: dict.fromkeys(KINDS, 0.0) for name in crates_of(root)}
    others = collections.Counter()
    for ((name, kind), _, _), seconds in used.items():
        if kind and name in rows:
            rows[name][kind] += seconds / 60
        else:
            others[name] += seconds / 60
    print("| Crate | Proof | Tests | Edits |\n|---|---|---|---|")
    for name, row in rows.items():
        print(f"| `{name}` | " + " | ".join(f"{row[kind]:.1f}" for kind in KINDS) + " |")
    sums = [sum(row[kind] for row in rows.values()) for kind in KINDS]
    print(f"| all {len(rows)} | " + " | ".join(f"{it:.1f}" for it in sums) + " |")
    for name, minutes in others.most_common():
        if minutes >= 0.1:
            print(f"| {name} | {minutes:.1f} |")
    whole = after.ru_utime + after.ru_stime - before.ru_utime - before.ru_stime
    print(f"{whole / 60:.0f} processor minutes of all processes, {(time.time() - begun) / 60:.0f} minutes by the clock, {os.cpu_count()} processors")
    print(subprocess.run(["rt", "version"], capture_output=True, text=True).stdout.strip())
    return gate.returncode


sys.exit(main())
