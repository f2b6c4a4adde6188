#!/usr/bin/env python3
"""Tries each use that the types rule out, and checks that the compiler refuses it in the words expected.

Usage: tests/misuse.py    from anywhere; rt must be on the path.
A file crates/NAME/misuse/LABEL.edit has four lines: `file:`, `old:` (a text that stands once in that file), `new:`, and `says:` (what the compiler says).
`rt must-fail` takes only edits that compile, and whose proof then fails; these do not compile.
"""
import pathlib
import shutil
import subprocess
import sys
import tempfile

ROOT = pathlib.Path(__file__).resolve().parent.parent


def fields(edit):
    return dict(line.split(": ", 1) for line in edit.read_text().splitlines())


def refused(edit, room):
    want = fields(edit)
    crate = edit.parent.parent.name
    source = room / "crates" / crate / want["file"]
    text = source.read_text()
    if text.count(want["old"]) != 1:
        return f"`{want['old']}` does not stand once in {want['file']}"
    source.write_text(text.replace(want["old"], want["new"]))
    run = subprocess.run(["rt", "check"], cwd=room / "crates" / crate, capture_output=True, text=True)
    source.write_text(text)
    if run.returncode == 0:
        return "NOT REFUSED"
    if want["says"] not in run.stdout + run.stderr:
        return "refused, but not in these words: " + want["says"]
    return None


def main():
    edits = sorted(ROOT.glob("crates/*/misuse/*.edit"))
    bad = 0
    with tempfile.TemporaryDirectory() as name:
        room = pathlib.Path(name)
        shutil.copytree(ROOT / "crates", room / "crates", ignore=shutil.ignore_patterns("out"))
        shutil.copy(ROOT / "crates.txt", room)
        for edit in edits:
            fault = refused(edit, room)
            bad += fault is not None
            print(f"{edit.relative_to(ROOT / 'crates')}: {fault or 'refused, as it must be'}")
    print(f"{len(edits) - bad} passed, {bad} failed")
    return 1 if bad or not edits else 0


if __name__ == "__main__":
    sys.exit(main())
