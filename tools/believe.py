#!/usr/bin/env python3
"""Writes docs/BELIEVE.md: the definitions that the public clauses of `engine` reach, by crate and file.

usage: tools/believe.py [--check]     --check: writes nothing, and says whether the page is as it would be written
"""
import re
import sys
from pathlib import Path

ROOT = Path(__file__).resolve().parent.parent
PAGE = ROOT / "docs/BELIEVE.md"
# A definition's first line: a record, a data type, or a name and its type.
FIRST = re.compile(r" *(?:abbrev |unfoldable |irreducible )?(?:pub )?(?:record |data |(?=[^\s({=]+ :))([^\s({=]+)")
WORD = re.compile(r"[^\s(){}\[\],;⟦⟧]+")
HEAD = """# What has to be believed

Who relies on the guarantees relies on the definitions that the public clauses of `engine` cite, and on those that these cite: they say what SQL means, what a file holds and what a crash may leave. Nothing else in `specs` matters to a user, and nothing in `proofs` or in the bodies: these are checked. The definitions of Rattle's own library (lists, numbers, results) come to them.

Begin with the machine ([Machine](../crates/session/specs/Machine.antt), [Steps](../crates/session/specs/Steps.antt)), then what files hold ([Holding](../crates/session/specs/Holding.antt), [Files](../crates/db_files/specs/Files.antt)), then what a query means ([Values](../crates/query_terms/specs/Values.antt)). This page is made by [believe.py](../tools/believe.py), which follows the names from the clauses of `create`, `open`, `execute`, `run`, of the laws, and of the trait `Disk`; `tests/docs` compares it with the tree.
"""


def module_of(file):
    crate, _, rest = file.relative_to(ROOT / "crates").as_posix().partition("/specs/")
    return f"Rattle.{crate}.specs." + rest.removesuffix(".antt").replace("/", ".")


def imported(line):
    """What a line `use M.{a, b}` or `use M as m` brings: its module, the names, and the module's own name here."""
    found = re.match(r"\s*(?:pub )?(?:ghost )?use ([\w.]+?)(?:\.\{(.*)\})?(?: as (\w+))?;?\s*$", line)
    if not found:
        return None
    names = [it.strip().partition(" as ")[::2] for it in (found[2] or "").split(",") if it.strip()]
    return found[1], [(name, name if not alias else alias.strip()) for name, alias in names], found[3]


class Scope:
    """The names that a file sees: those that it imports, and modules under other names."""

    def __init__(self, lines):
        self.names, self.modules = {}, {}
        for line in lines:
            it = imported(line)
            if it is None:
                continue
            module, names, alias = it
            if alias:
                self.modules[alias] = module
            for name, here in names:
                for part in here.split("◌"):
                    if part:
                        self.names[part] = (module, name)

    def reached(self, text, own):
        """The definitions that a text names: of its own file, of others."""
        for word in WORD.findall(text):
            first, _, rest = word.partition(".")
            if word in own:
                yield own[word]
            elif word in self.names:
                yield self.names[word]
            elif first in self.modules and rest:
                yield self.modules[first], rest.partition(".")[0]
            elif first in own:
                yield own[first]
            elif first in self.names:
                yield self.names[first]


def definitions(lines):
    """Each definition of a file: its name, and its lines, without comments."""
    found, depth = [], None
    for line in lines:
        text = line.split("--")[0].rstrip()
        indent = len(line) - len(line.lstrip())
        if not text or re.match(r" *(pub )?(use|mod) ", text):
            continue
        if re.match(r" *(pub )?module ", text):
            depth = None
        elif (depth is None or indent <= depth) and (first := FIRST.match(text)):
            found.append((first[1], [text]))
            depth = indent
        elif found:
            found[-1][1].append(text)
    return found


def read_specs():
    """Of each module its file, its scope, and its definitions by name."""
    modules = {}
    for file in sorted(ROOT.glob("crates/*/specs/**/*.antt")):
        lines = file.read_text().splitlines()
        them = {name: text for name, text in definitions(lines)}
        modules[module_of(file)] = (file, Scope(lines), them)
    return modules


def clauses(file, is_wanted):
    """The text of the clauses of a file's functions."""
    text, on = [], False
    for line in file.read_text().splitlines():
        if found := re.match(r"\s*(?:pub(?:\(crate\))? )?fn (\w+)", line):
            on = is_wanted(found[1], line)
        elif line.strip() in ("{", "{}") or line.startswith("}"):
            on = False
        if on:
            text.append(re.sub(r"\b(ensures|requires)\s+\w*", " ", line.split("//")[0]))
    return "\n".join(text)


def starts():
    engine, disk = ROOT / "crates/engine/src", ROOT / "crates/disk/src/device.rt"
    for file in sorted(engine.glob("*.rt")):
        wanted = ("create", "open", "execute", "run") if file.name != "laws.rt" else None
        yield file, clauses(file, lambda name, line: line.lstrip().startswith("pub fn") and (wanted is None or name in wanted))
    yield disk, clauses(disk, lambda name, line: True)


def reach(modules):
    own = {module: {part: (module, name) for name in them for part in name.split("◌") if part} for module, (_, _, them) in modules.items()}
    todo = [it for file, text in starts() for it in Scope(file.read_text().splitlines()).reached(text, {})]
    seen = set()
    while todo:
        it = todo.pop()
        module, name = it
        if it in seen or module not in modules or name not in modules[module][2]:
            continue
        seen.add(it)
        _, scope, them = modules[module]
        todo.extend(scope.reached("\n".join(them[name]), own[module]))
    return seen


def groups():
    found = []
    for line in (ROOT / "crates.txt").read_text().splitlines():
        if group := re.match(r"# (\w+) \(.*\): (.*)$", line):
            found.append((group[1], group[2], []))
        elif crate := re.match(r"(\w+):", line):
            found[-1][2].append(crate[1])
    return found


def page():
    modules = read_specs()
    seen = reach(modules)
    lines = {it: len(modules[it[0]][2][it[1]]) for it in seen}
    crates = {module.split(".")[1] for module, _ in seen}
    files = {module for module, _ in seen}
    out = [HEAD, f"{len(seen)} definitions, {sum(lines.values())} lines, in {len(files)} files of {len(crates)} crates.", ""]
    for group, what, names in groups():
        if not crates & set(names):
            continue
        out += [f"## {group}: {what}", "", "| Crate | File | Lines | Definitions |", "|---|---|---|---|"]
        for crate in names:
            for module, (file, _, them) in modules.items():
                here = [name for name in them if (module, name) in seen]
                if module.split(".")[1] == crate and here:
                    count = sum(lines[module, name] for name in here)
                    out.append(f"| {crate} | [{file.stem}](../{file.relative_to(ROOT)}) | {count} | {', '.join(here)} |")
        out.append("")
    return "\n".join(out)


if __name__ == "__main__":
    made = page()
    if sys.argv[1:] == ["--check"]:
        sys.exit(PAGE.read_text() != made and "docs/BELIEVE.md isn't what tools/believe.py writes")
    PAGE.write_text(made)
