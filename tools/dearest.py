#!/usr/bin/env python3
"""Proves libraries from nothing, one function at a time, and lists those functions whose proofs take the most seconds.

usage: tools/dearest.py [NAME ..] [--most N]     NAME: a library, with those below it (without names: those below each crate)

Each crate's times are kept in crates/NAME/out/times, a line 'SECONDS FUNCTION' each, so that a crate whose files haven't changed is
listed and not proved again. Its library is the one that `rt check` takes.
"""
import argparse
import os
import shutil
import subprocess
import sys
import tempfile
import time

sys.dont_write_bytecode = True
sys.path.insert(0, os.path.dirname(os.path.realpath(__file__)))
from prove import crates, prove, rt  # noqa: E402

rtlib = rt.rtlib
RATTLE = f"{rtlib.KIT}/bin/rattle"


def times_of(crate):
    """The file of a crate's times, which begins with the sum of what they were taken of."""
    return f"{crate.folder}/out/times"


def timed(crate, words):
    """Checks the crate, and returns its exit status and the seconds of each function, in the order in which they were proved."""
    found, begun = [], time.monotonic()
    how = {"cwd": crate.folder, "stdout": subprocess.PIPE, "stderr": subprocess.STDOUT, "text": True, "errors": "replace", "bufsize": 1}
    with subprocess.Popen([RATTLE, "check", *words, "--progress"], **how) as ran:
        last = begun
        for line in ran.stdout:
            crate.out.write(line)
            now = time.monotonic()
            if line.startswith("checked "):
                found.append((now - last, line.split(",")[0].removeprefix("checked ")))
                last = now
    return ran.returncode, [*found, (time.monotonic() - begun, "the whole crate")]


def build_timed(crate, flags, anew):
    """In place of the kit's `build_rlib`: a check that says when each function is proved, and then the library of that check."""
    if crate.is_built():
        return 0
    stamp, made = crate.stamp(), os.path.dirname(crate.rlib)
    shutil.rmtree(made, ignore_errors=True)
    os.makedirs(made)
    words = crate.words(["--jobs", "1"])
    with tempfile.TemporaryDirectory(prefix="dearest-") as room:
        status, found = timed(crate, [*words, "-o", f"{room}/checked"])
        for flag in ("--logic-built", "--jobs"):
            at = words.index(flag)
            words = [*words[:at], *words[at + 2:]]
        status = status or crate.call(RATTLE, "build", *words, "--crate-checked", f"{room}/checked", "-o", crate.rlib)
    if status == 0 and stamp == crate.stamp():
        with open(f"{made}/stamp", "w") as it:
            it.write(stamp)
        with open(times_of(crate), "w") as it:
            it.write(f"{stamp}\n")
            it.writelines(f"{seconds:.2f} {name}\n" for seconds, name in found)
    return status


def times(crate):
    lines = (rtlib.text_of(times_of(crate)) or "").splitlines()
    pairs = [line.split(" ", 1) for line in lines[1:]] if lines and lines[0] == crate.stamp() else []
    return [(float(seconds), name) for seconds, name in pairs]


def main():
    parser = argparse.ArgumentParser(usage=__doc__.split("usage: ")[1].split("\n")[0])
    parser.add_argument("names", nargs="*")
    parser.add_argument("--most", type=int, default=30)
    given, every = parser.parse_args(), crates()
    picked = [every[it] for it in given.names] or list(every.values())
    wanted = {below for crate in picked for below in [*crate.below(), crate] if below.makes_rlib()}
    rtlib.Crate.build_rlib = build_timed
    proved = prove([it for it in every.values() if it in wanted])
    found = [(seconds, name, crate.name) for crate in wanted for seconds, name in times(crate)]
    whole = [it for it in found if it[1] == "the whole crate"]
    for seconds, name, crate in sorted(set(found) - set(whole), reverse=True)[:given.most]:
        print(f"{seconds:7.1f}  {crate}  {name}")
    print(f"{sum(seconds for seconds, _, _ in whole) / 60:7.1f} minutes: " + ", ".join(f"{crate} {seconds:.0f}" for seconds, _, crate in sorted(whole, reverse=True)))
    sys.exit(not proved)


main()
