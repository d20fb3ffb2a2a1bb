#!/usr/bin/env python3
"""Looks for what fails the gate in its first minute, and brings each crate into the layout.

usage: tools/ready.py      run it before each commit

Formats each crate (`rt fmt`) and names what wasn't in the layout; says of each edit whose old text doesn't stand exactly once in
its file; and runs tests/docs. Ends with 'ready: N wrong', and with that status if there are some."""
import subprocess
import sys
from pathlib import Path

ROOT = Path(__file__).resolve().parent.parent


def laid_out(crate):
    """Formats a crate: the lines that say which files it changed, or why it couldn't."""
    done = subprocess.run(["rt", "fmt"], cwd=crate, capture_output=True, text=True)
    return [f"{crate.name}: {line}" for line in (done.stdout + done.stderr).splitlines() if "formatted" in line or done.returncode]


def edits(crate):
    """The edits of a crate that don't apply."""
    for edit in sorted([*crate.glob("must-fail/*.edit"), *crate.glob("wrong-bodies/*.edit")]):
        file = None
        for line in edit.read_text().splitlines():
            word, _, rest = line.partition(": ")
            if word == "file":
                file = crate / rest
            elif word == "old" and (not file or not file.exists() or file.read_text().count(rest) != 1):
                yield f"{crate.name}: {edit.name}: its old text doesn't stand exactly once: {rest}"


def main():
    wrong = []
    for crate in sorted(path for path in (ROOT / "crates").iterdir() if (path / "src").is_dir()):
        wrong += laid_out(crate) + list(edits(crate))
    docs = subprocess.run([ROOT / "tests/docs"], capture_output=True, text=True)
    wrong += docs.stdout.splitlines()[:-1]
    print("\n".join([*wrong, f"ready: {len(wrong)} wrong"]))
    sys.exit(bool(wrong))


main()
