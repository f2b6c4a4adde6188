#!/usr/bin/env python3
"""Compares the kit's calls with plain C in one run: first that both write the same, then how long each call takes, by turns.

Usage: bench/kit.py [turns]    after `rt run` in crates/kitbench; run it on a quiet machine. A C compiler is needed (gcc).
bench/scheme.c is the same scheme in C with a SHAKE256 of its own, so equal checksums also test the one against the other. It is not blind: the
order of steps in seal, open and gauge, and the methods of product and packer, were known to its author.
"""
import pathlib
import subprocess
import sys
import tempfile
import time

ROOT = pathlib.Path(__file__).resolve().parent.parent
PROGRAM = ROOT / "crates" / "kitbench" / "out" / "kitbench"
SOURCE = ROOT / "bench" / "scheme.c"
# The instruction set of the toolchain's own programs.
COMPILE = ["gcc", "-std=c11", "-O3", "-march=x86-64", "-Wall", "-Wextra"]
CALLS = ("publish", "seal", "open", "gauge")
# The runs of each set that are compared, and those of a call that are timed.
COMPARED = {"small": 2000, "coded": 100, "wide": 100, "noisy": 200, "least": 2000, "most": 30}
TIMED = {"small": 20000, "coded": 500, "wide": 500}
LIMIT = 1.2


def output(program, words):
    return subprocess.run([program, *words], check=True, capture_output=True, text=True).stdout


def compare(ours, theirs):
    cases = [[]] + [["all", name, str(count)] for name, count in COMPARED.items()]
    cases += [[call, name, "3"] for call in CALLS for name in TIMED]
    for words in cases:
        if output(ours, words) != output(theirs, words):
            sys.exit(f"the checksums differ: {' '.join(words) or 'no words'}")
    print(f"the same checksums in {len(cases)} runs")


def microseconds(program, call, name):
    words = [call, name, str(TIMED[name])]
    start = time.perf_counter()
    output(program, words)
    return (time.perf_counter() - start) * 1e6 / TIMED[name]


def main():
    turns = int(sys.argv[1]) if len(sys.argv) > 1 else 15
    with tempfile.TemporaryDirectory() as folder:
        plain = pathlib.Path(folder) / "scheme"
        subprocess.run([*COMPILE, "-o", plain, SOURCE], check=True)
        compare(PROGRAM, plain)
        print(f"least of {turns} turns, in microseconds a call")
        print("set    call        kit        C  ratio")
        fast = True
        for name in TIMED:
            for call in CALLS:
                times = [(microseconds(PROGRAM, call, name), microseconds(plain, call, name)) for _ in range(turns)]
                ours, theirs = (min(column) for column in zip(*times))
                fast = fast and (name == "small" or ours <= LIMIT * theirs)
                print(f"{name:7}{call:8}{ours:8.2f} {theirs:8.2f} {ours / theirs:6.2f}", flush=True)
        print(f"within {LIMIT} times of C on the large sets: {'yes' if fast else 'NO'}")


if __name__ == "__main__":
    main()
