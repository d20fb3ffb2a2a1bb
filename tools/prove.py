#!/usr/bin/env python3
"""Proves the libraries below a crate, side by side, those with the longest chain above them first, and a program or a static library over them.

usage: tools/prove.py NAME     says how far it is on standard error; each crate's log is crates/CRATE/out/build.log

The work is that of the kit's own `rt`, whose functions this loads: what is proved is kept in out/, and what was proved
before isn't proved again.
"""
import importlib.machinery
import importlib.util
import os
import shutil
import signal
import sys
import time

sys.dont_write_bytecode = True
ROOT = os.path.dirname(os.path.dirname(os.path.realpath(__file__)))


def load_rt():
    file = os.path.realpath(shutil.which("rt") or sys.exit("the command rt of the kit isn't there"))
    loader = importlib.machinery.SourceFileLoader("rt", file)
    made = importlib.util.module_from_spec(importlib.util.spec_from_loader("rt", loader))
    loader.exec_module(made)
    # (its first call sets a signal's handler, which only the main thread may)
    made.rtlib.guarded()
    signal.signal(signal.SIGINT, signal.SIG_DFL)
    return made


def keep_answers(crate):
    """Has the kit's crates keep their libraries, and the sums of their files until something is built: the kit goes over them once for each
    way that leads to a crate, and sums them several times for each library."""
    below, stamp, call = crate.below, crate.stamp, crate.call
    libraries, sums = {}, {}

    def kept_below(self):
        if self.folder not in libraries:
            libraries[self.folder] = below(self)
        return list(libraries[self.folder])

    def kept_stamp(self):
        if self.folder not in sums:
            sums[self.folder] = stamp(self)
        return sums[self.folder]

    def call_anew(self, *words):
        status = call(self, *words)
        # (a file may have changed meanwhile: the kit compares the sums before and after)
        sums.clear()
        return status

    crate.below, crate.stamp, crate.call = kept_below, kept_stamp, call_anew


rt = load_rt()
keep_answers(rt.rtlib.Crate)


def say(text):
    """Writes a line at once, so that those of other threads stand beside it and not in it."""
    sys.stderr.write(f"{text}\n")


def crates():
    """Returns the crates by name, lowest first."""
    found = rt.rtlib.crates_below(f"{ROOT}/crates")
    return {it.name: it for it in sorted(found, key=lambda it: len(it.below()))}


def is_made_by_ci(crate):
    """Whether a library is one that `rt ci` made of the files that are there: it leaves no stamp."""
    made, stamp = f"{crate.folder}/out/rlib", f"{crate.folder}/out/rlib/stamp"
    files = [it for below in [*crate.below(), crate] for it in rt.rtlib.files_of(below.folder)]
    return os.path.isdir(crate.rlib) and not os.path.exists(stamp) and all(os.path.getmtime(it) < os.path.getmtime(made) for it in files)


def are_ready(libraries):
    """Proves these libraries, except where all are those that `rt ci` has just made of the same files."""
    return all(is_made_by_ci(it) for it in libraries) or prove(libraries)


def prove(libraries):
    """Proves what isn't proved of these libraries, and returns whether all are."""
    left = [it for it in libraries if not it.is_built()]
    held = rt.rtlib.lock(libraries) if left else []
    started = iter(range(1, len(left) + 1))

    def work(crate, given, jobs):
        if not all(given.get((it.name, "proof"), True) for it in crate.below()):
            return False
        say(f"crate {next(started)} of {len(left)}: {crate.name}")
        begun = time.monotonic()
        os.makedirs(f"{crate.folder}/out", exist_ok=True)
        with open(f"{crate.folder}/out/build.log", "w", errors="replace") as crate.out:
            failed = crate.build_rlib(["--jobs", str(jobs)], anew=False)
        took = f"after {time.monotonic() - begun:.0f} s"
        say(f"{crate.name}: {f'not proved {took}: see {crate.out.name}' if failed else f'proved {took}'}")
        return not failed

    names = {it.name for it in left}
    tasks = {}
    for crate in left:
        waits = [(it.name, "proof") for it in crate.below() if it.name in names]
        tasks[crate.name, "proof"] = (waits, crate.count(rb"\n"), rt.need(crate), lambda given, jobs, it=crate: work(it, given, jobs))
    given = rt.in_lanes(tasks)
    for it in held:
        os.close(it)
    return all(given.values())


def is_of(program, stamp):
    """Whether a program is there that was made of the sources with this sum."""
    return os.path.isfile(program) and rt.rtlib.text_of(f"{program}.stamp") in (stamp, stamp + rt.rtlib.sum_of(program))


def make(program):
    """Proves and compiles a program over its libraries, which are proved, and returns whether it could."""
    say(f"the program: {program.name}")
    os.makedirs(f"{program.folder}/out", exist_ok=True)
    # (the kit lets go of what its crate holds before it runs the program)
    program.held = rt.rtlib.lock([program])
    with open(f"{program.folder}/out/build.log", "w", errors="replace") as program.out:
        failed = program.run(["--jobs", str(os.cpu_count())], ["--help"])
    if failed:
        say(f"{program.name}: not built: see {program.out.name}")
    return not failed


def archive(crate):
    """Proves and compiles a static library over its libraries, which are proved, and returns its file, or None."""
    made, stamp = f"{crate.folder}/out/lib{crate.name}.a", crate.stamp()
    if is_of(made, stamp):
        return made
    say(f"the static library: {crate.name}")
    os.makedirs(f"{crate.folder}/out", exist_ok=True)
    with open(f"{crate.folder}/out/build.log", "w", errors="replace") as crate.out:
        failed = crate.build_static(["--jobs", str(os.cpu_count())])
    if failed:
        say(f"{crate.name}: not built: see {crate.out.name}")
        return None
    with open(f"{made}.stamp", "w") as it:
        it.write(stamp)
    return made


if __name__ == "__main__":
    if len(sys.argv) != 2 or sys.argv[1] not in crates():
        sys.exit(__doc__)
    wanted = crates()[sys.argv[1]]
    if wanted.is_static:
        sys.exit(not (are_ready(wanted.below()) and archive(wanted)))
    is_made = wanted.is_program and is_of(f"{wanted.folder}/out/{wanted.name}", wanted.stamp())
    sys.exit(not (is_made or prove(wanted.below()) and (not wanted.is_program or make(wanted))))
