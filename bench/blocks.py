#!/usr/bin/env python3
"""Measures blocks of lines: what more workers gain, and what a block costs.

    python3 bench/blocks.py [PROGRAM]

PROGRAM is the built program, and crates/qkdnet/out/qkdnet where none is named. Eight pairs of nodes make keys: no two pairs share a
manager or a lane, and of each number of workers here each has pairs of its own. A time ends with the last octet of the report: what the
program still lets go of before it exits belongs to no line. Printed are the least times of 25 turns, without that of a scenario that
ends before the lines: of the lines outside of a block, and in a block by 1, 2 and 4 workers, each as a ratio to the first. A last column
has the lines a second of so many workers as a multiple of one worker's. The last lines say what the machine itself gives: the same for 2
and 4 programs at once that do the lines outside, which share nothing; and what 500 blocks of four lines cost 4 workers, as a multiple of
the processor time that they cost one. No test depends on them.
"""
import os
import pathlib
import selectors
import subprocess
import sys
import tempfile
import time

HERE = pathlib.Path(__file__).resolve().parent
PROGRAM = pathlib.Path(sys.argv[1] if len(sys.argv) > 1 else HERE.parent / "crates/qkdnet/out/qkdnet").resolve()
PAIRS = range(8)
APPLICATIONS = range(8)
TURNS = 25


def declarations():
    lines = [f"node n{v}" for v in range(16)] + [f"link n{2 * p} n{2 * p + 1}" for p in PAIRS]
    lines += [f"sae m{p}x{a} n{2 * p}" for p in PAIRS for a in APPLICATIONS] + [f"sae s{p}x{a} n{2 * p + 1}" for p in PAIRS for a in APPLICATIONS]
    return lines + [f"allow m{p}x{a} s{p}x{a}" for p in PAIRS for a in APPLICATIONS]


def fills():
    """Of each application 16 lines that make 128 keys of 4,096 bits; neighbouring lines are of different pairs."""
    return [f"fill m{p}x{a} s{p}x{a} 4096 128" for a in APPLICATIONS for _ in range(16) for p in PAIRS]


def text(lines):
    return "".join(line + "\n" for line in [*declarations(), *lines, "end"]).encode()


def seconds(workers, lines, programs=1):
    """The time until so many programs at once have done the lines."""
    with tempfile.TemporaryFile() as source:
        source.write(text(lines))
        start = time.perf_counter()
        running = [subprocess.Popen([PROGRAM, "run", str(workers)], stdin=opened(source), stdout=subprocess.PIPE) for _ in range(programs)]
        last = reported(running)
        if any([it.wait() for it in running]):
            sys.exit(f"{PROGRAM} fails")
        return last - start


def processor_seconds(workers, lines):
    """The processor time of a run of the lines."""
    with tempfile.TemporaryFile() as source:
        source.write(text(lines))
        child = subprocess.Popen([PROGRAM, "run", str(workers)], stdin=opened(source), stdout=subprocess.DEVNULL)
        _, status, used = os.wait4(child.pid, 0)
        child.returncode = os.waitstatus_to_exitcode(status)
    if child.returncode:
        sys.exit(f"{PROGRAM} fails")
    return used.ru_utime + used.ru_stime


def reported(running):
    """When the last octet of all these programs' reports came, or where none did, their end."""
    last = None
    with selectors.DefaultSelector() as reports:
        for it in running:
            reports.register(it.stdout, selectors.EVENT_READ)
        while reports.get_map():
            for ready, _ in reports.select():
                if os.read(ready.fd, 1 << 16):
                    last = time.perf_counter()
                else:
                    reports.unregister(ready.fileobj)
                    ready.fileobj.close()
    return last or time.perf_counter()


def opened(source):
    """The file from its beginning, at a place of its own."""
    source.flush()
    return open(f"/proc/self/fd/{source.fileno()}", "rb")


def main():
    block = ["together", *fills(), "apart"]
    cases = {
        "before the lines": (1, []),
        "outside": (1, fills()),
        "block, 1 worker": (1, block),
        "block, 2 workers": (2, block),
        "block, 4 workers": (4, block),
        "2 programs": (1, fills(), 2),
        "4 programs": (1, fills(), 4),
    }
    turns = [{name: seconds(*case) for name, case in cases.items()} for _ in range(TURNS)]
    least = {name: min(turn[name] for turn in turns) for name in cases}
    start = least.pop("before the lines")
    outside, alone = least["outside"] - start, least["block, 1 worker"] - start
    print(f"processors {len(os.sched_getaffinity(0))}, lines {len(fills())}, start {start * 1000:.0f} ms")
    programs = {count: least.pop(f"{count} programs") for count in (2, 4)}
    for name, time_of in least.items():
        print(f"{name:18} {(time_of - start) * 1000:7.0f} ms  {(time_of - start) / outside:5.2f} of outside  {alone / (time_of - start):5.2f} of one worker's rate")
    for count, time_of in programs.items():
        print(f"{count} programs at once {count * (outside + start) / time_of:5.2f} of one program's rate")
    small = ["together", *["status n0 m0x0 s0x0"] * 4, "apart"] * 500
    one, four = (min(processor_seconds(workers, small) for _ in range(TURNS)) for workers in (1, 4))
    print(f"500 blocks of four lines: 4 workers {four / one:.2f} of one worker's processor time")


if __name__ == "__main__":
    main()
