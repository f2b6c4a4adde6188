#!/usr/bin/env python3
"""Times this repository's SHAKE256 against Python's hashlib in one run, 64 MiB in and 64 MiB out, by turns.

Usage: bench/shake.py [turns]    after `rt run` in crates/hashbench; run it on a quiet machine.
Ours is the whole run of the program, its start included. hashlib's output comes as 1024 digests of 64 KiB, so that it writes to memory in use,
as the program does, and not to 64 MiB of fresh memory.
"""
import hashlib
import pathlib
import subprocess
import sys
import time

BLOCK = 65536
BLOCKS = 1024
PROGRAM = pathlib.Path(__file__).resolve().parent.parent / "crates" / "hashbench" / "out" / "hashbench"
LIMIT = 1.3


def timed(work):
    start = time.perf_counter()
    result = work()
    return time.perf_counter() - start, result


def ours(word):
    return subprocess.run([PROGRAM, word], check=True, capture_output=True, text=True).stdout.split()[1]


def library_in():
    message = hashlib.shake_256()
    for _ in range(BLOCKS):
        message.update(DATA)
    return message.hexdigest(32)


def library_out():
    message = hashlib.shake_256(b"")
    for _ in range(BLOCKS):
        message.digest(BLOCK)


DATA = b"\xa5" * BLOCK


def main():
    turns = int(sys.argv[1]) if len(sys.argv) > 1 else 20
    if ours("in") != library_in():
        sys.exit("the digests of the input differ")
    if ours("out") != hashlib.shake_256(b"").digest(BLOCKS * BLOCK + 32)[-32:].hex():
        sys.exit("the outputs differ")
    times = {(who, way): [] for who in ("ours", "hashlib") for way in ("in", "out")}
    for _ in range(turns):
        for way, library in (("in", library_in), ("out", library_out)):
            times["ours", way].append(timed(lambda: ours(way))[0])
            times["hashlib", way].append(timed(library)[0])
    print(f"least of {turns} turns, 64 MiB, in ms")
    print("      ours  hashlib  ratio")
    fast = True
    for way in ("in", "out"):
        a, b = min(times["ours", way]), min(times["hashlib", way])
        fast = fast and a <= LIMIT * b
        print(f"{way:4}{a * 1e3:6.0f}{b * 1e3:9.0f}{a / b:7.2f}")
    print(f"within {LIMIT} times of hashlib: {'yes' if fast else 'NO'}")


if __name__ == "__main__":
    main()
