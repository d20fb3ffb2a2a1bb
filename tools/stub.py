#!/usr/bin/env python3
"""Makes stubs of a crate's functions: each public one that may refuse answers `Fault::Memory`, which meets every contract. So a crate above it
can be checked while this one isn't proved yet.

usage: tools/stub.py CRATE     in a copy that is thrown away: the crate's files are overwritten

Private functions and their proofs go, and the crate's edits. Lemmas stay, and so do public functions that refuse nothing, with their proofs and the
private functions that they call; methods aren't touched.
"""
import re
import shutil
import sys
from pathlib import Path

ROOT = Path(__file__).resolve().parent.parent
# A function with its documentation and attributes, and the lines between which its body stands: after clauses they begin a line, without clauses they end
# the function's first.
FUNCTION = re.compile(r"^((?:(?:///|#\[)[^\n]*\n)*)(pub )?(?:pub\(crate\) )?fn (\w+)(?:[^{}]*? (?=\{\n)|.*?^)(\{\}|\{\n.*?^\})\n\n?", re.M | re.S)
STUB = "{\n    Err(Fault::Memory)\n}\n\n"


def refuses(head):
    return "-> R<" in head


def kept_names(texts):
    """The functions that stay as they are: public ones that refuse nothing, and private ones that these, or methods, call."""
    found = {}
    for head, is_public, name, body in (part for text in texts for part in parts(text)):
        # (of two of one name, in two files, the public one counts)
        if is_public or name not in found:
            found[name] = (is_public, head + body, head)
    kept = {name for name, (is_public, _, head) in found.items() if is_public and not refuses(head)}
    reached = kept
    others = [FUNCTION.sub("", text) for text in texts]
    while reached:
        called = {word for text in [*others, *(found[name][1] for name in reached)] for word in re.findall(r"\b([a-z_0-9]+)\(", text)}
        reached = {name for name in called & set(found) if not found[name][0]} - kept
        kept |= reached
    return kept, {name for name, (is_public, _, _) in found.items() if not is_public} - kept


def parts(text):
    for found in FUNCTION.finditer(text):
        _, is_public, name, body = found.groups()
        yield text[found.start():found.start(4)], is_public, name, body


def stub(text, kept, gone):
    """A file with stubs, without the functions that are gone."""

    def turned(found):
        name, whole = found.group(3), found.group(0)
        if name in kept:
            return whole
        head = whole[:found.start(4) - found.start(0)]
        return re.sub(r"^#\[cycle\(\w+\)\]\n", "", head, flags=re.M) + STUB if found.group(2) else ""

    def imported(found):
        path, names = found.group(1), [name.strip() for name in found.group(2).strip("{}").split(",")]
        left = [name for name in names if name and name not in gone]
        return f"use crate::{path}{{{', '.join(left)}}};\n" if left else ""

    text = re.sub(r"^use crate::((?:\w+::)*)(\w+|\{[^}]*\});\n", imported, FUNCTION.sub(turned, text), flags=re.M)
    return re.sub(r"^use sqlval::(?![^;]*\bFault\b)\{?([^;}]*)\}?;", r"use sqlval::{Fault, \1};", text, flags=re.M)


def main():
    if len(sys.argv) != 2:
        sys.exit(__doc__)
    crate = ROOT / "crates" / sys.argv[1]
    files = [file for file in crate.glob("src/*.rt") if file.name != "lib.rt"]
    kept, gone = kept_names([file.read_text() for file in files])
    for file in files:
        file.write_text(stub(file.read_text(), kept, gone))
    for folder in crate.glob("proofs/*/*"):
        if folder.is_dir() and folder.name not in kept:
            shutil.rmtree(folder)
    for edits in "must-fail", "wrong-bodies":
        shutil.rmtree(crate / edits, ignore_errors=True)
    print(f"stub: {sys.argv[1]}, with {', '.join(sorted(kept)) or 'nothing'} as before")


main()
