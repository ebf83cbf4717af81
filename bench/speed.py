#!/usr/bin/env python3
"""Times the products and the tags of bench/programs/tag_speed against bench/speed.rs.

    python3 bench/speed.py PROGRAM

PROGRAM is bench/out/tag_speed, which `bench/build tag_speed` builds. The forms take turns, each time is the least
processor time of five, and what is printed are ratios of one run on one machine.
"""
import pathlib
import resource
import subprocess
import sys
import tempfile

COUNTS = {"products": ("4000000", "0"), "tags of 585 octets": ("0", "60000")}


def timed(words):
    start = resource.getrusage(resource.RUSAGE_CHILDREN).ru_utime
    out = subprocess.run(words, check=True, capture_output=True, text=True).stdout
    return resource.getrusage(resource.RUSAGE_CHILDREN).ru_utime - start, out


def main():
    program = sys.argv[1]
    source = pathlib.Path(__file__).with_name("speed.rs")
    with tempfile.TemporaryDirectory() as folder:
        rust = f"{folder}/speed"
        subprocess.run(["rustc", "-O", "--edition=2024", "-o", rust, source], check=True)
        forms = {"proved": [program], "shift loop": [rust, "shift"], "carry-less": [rust, "carry-less"]}
        forms |= {"masked products": [rust, "masked"], "of 128 bits": [rust, "wide"]}
        for name, counts in COUNTS.items():
            least, outputs = {}, set()
            for _ in range(5):
                for form, words in forms.items():
                    seconds, out = timed(words + list(counts))
                    least[form] = min(least.get(form, seconds), seconds)
                    outputs.add(out)
            if len(outputs) != 1:
                sys.exit(f"{name}: the forms differ: {outputs}")
            each = 1e9 / max(int(c) for c in counts)
            print(f"{name}: " + ", ".join(f"{form} {seconds * each:.0f} ns" for form, seconds in least.items()))
            print(f"  shift loop / proved = {least['shift loop'] / least['proved']:.1f}")
            print(f"  proved / carry-less = {least['proved'] / least['carry-less']:.1f}")
            for form in ("masked products", "of 128 bits"):
                print(f"  {form} / proved = {least[form] / least['proved']:.1f}")


if __name__ == "__main__":
    main()
