#!/usr/bin/env python3
"""Tries each use that the types allow: a caller's text is taken and, run before any proof, prints what it must.

Usage: tests/uses.py    from anywhere; rt must be on the path.
A file tests/uses/NAME.txt is a program; its first line names the crates that it uses, its second what it prints.
"""
import pathlib
import shutil
import subprocess
import sys
import tempfile

ROOT = pathlib.Path(__file__).resolve().parent.parent


def taken(use, room):
    below, wanted = (line.split(": ", 1)[1] for line in use.read_text().splitlines()[:2])
    crate = room / "crates" / use.stem
    (crate / "src").mkdir(parents=True)
    shutil.copy(use, crate / "src" / "main.rt")
    with open(room / "crates.txt", "a") as crates:
        crates.write(f"{use.stem}: {below}\n")
    run = subprocess.run(["rt", "try"], cwd=crate, capture_output=True, text=True)
    if run.returncode != 0 or wanted not in run.stdout.splitlines():
        return "NOT TAKEN: " + (run.stdout + run.stderr)[-500:]
    return None


def main():
    uses = sorted(ROOT.glob("tests/uses/*.txt"))
    bad = 0
    with tempfile.TemporaryDirectory() as name:
        room = pathlib.Path(name)
        shutil.copytree(ROOT / "crates", room / "crates", ignore=shutil.ignore_patterns("out"))
        shutil.copy(ROOT / "crates.txt", room)
        for use in uses:
            fault = taken(use, room)
            bad += fault is not None
            print(f"{use.relative_to(ROOT)}: {fault or 'taken, as it must be'}")
    print(f"{len(uses) - bad} passed, {bad} failed")
    return 1 if bad or not uses else 0


if __name__ == "__main__":
    sys.exit(main())
