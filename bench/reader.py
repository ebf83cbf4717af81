#!/usr/bin/env python3
"""Times the reading of a scenario of 4 MiB against bench/reader.rs.

    python3 bench/reader.py PROGRAM

PROGRAM is bench/out/scenario_speed, which `bench/build scenario_speed` builds. The two forms take turns, and each time is
the least of five, for ten readings more than one. What is printed are octets
a second, and the ratio of one run on one machine.
"""
import pathlib
import subprocess
import sys
import tempfile
import time

LIMIT = 4_194_304
MORE = 10


def name(node, kind, count):
    return f"00000000-0000-80{node:02x}-800{kind}-{count:012x}"


def scenario():
    """All forms of lines in turn, as many as there is room for."""
    lines = [f"node n{v}" for v in range(8)]
    lines += [f"link n{v} n{v + 1}" for v in range(7)]
    lines += [f"sae s{v} n{v}" for v in range(8)]
    lines += [f"allow s{i} s{j}" for i in range(8) for j in range(8) if i != j]
    size = sum(len(line) + 1 for line in lines) + len("end\n")
    turn = 0
    while True:
        m, s = turn % 8, (3 * turn + 1) % 8
        more = [
            f"fill s{m} s{s} 256 4",
            f"tick n{m}",
            f"pass {turn % 7} up {turn}",
            f"flip {turn % 7} down {turn} {turn % 600}",
            f"forge {turn % 7} up {'5a' * 60}",
            f"enc n{m} s{m} s{s} 4 256",
            f"dec n{s} s{s} s{m} " + " ".join(name(m, 0, turn + k) for k in range(1, 5)),
            f"status n{m} s{m} s{s}",
            f"q004 n{m} GET_KEY s{m} {name(m, 1, turn + 1)} {turn}",
            f"ledger {turn % 7} up",
        ]
        size += sum(len(line) + 1 for line in more)
        if size > LIMIT:
            return "\n".join(lines + ["end"]) + "\n"
        lines += more
        turn += 1


def timed(words, text):
    start = time.perf_counter()
    out = subprocess.run(words, input=text, check=True, capture_output=True, text=True).stdout
    return time.perf_counter() - start, out


def main():
    text = scenario()
    source = pathlib.Path(__file__).with_name("reader.rs")
    with tempfile.TemporaryDirectory() as folder:
        rust = f"{folder}/reader"
        subprocess.run(["rustc", "-O", "--edition=2024", "-o", rust, source], check=True)
        forms = {"proved": sys.argv[1], "plain": rust}
        least, outputs = {}, set()
        for _ in range(5):
            for form, program in forms.items():
                for count in (1, 1 + MORE):
                    seconds, out = timed([program, str(count)], text)
                    key = (form, count)
                    least[key] = min(least.get(key, seconds), seconds)
                    outputs.add(out)
        if len(outputs) != 1:
            sys.exit(f"the forms differ: {outputs}")
    rates = {form: MORE * len(text) / (least[form, 1 + MORE] - least[form, 1]) for form in forms}
    print(f"{len(text)} octets, {outputs.pop().strip()}")
    for form, rate in rates.items():
        print(f"{form}: {rate / 1e6:.1f} million octets a second")
    print(f"plain / proved = {rates['plain'] / rates['proved']:.1f}")


if __name__ == "__main__":
    main()
