#!/usr/bin/env python3
"""compare.py WORK LIB [PEA]: runs each folder of WORK/in by its script of WORK/script, and compares the events with those of WORK/wanted.

Without PEA the program of crates/pea is run by `rt try`, without proofs. Prints each folder whose events differ, with the first line that does,
and at the end how many agree.
"""
import os
import re
import subprocess
import sys
import tempfile

ROOT = os.path.join(os.path.dirname(os.path.abspath(__file__)), "..", "..")
COUNTS = re.compile(r" ; a=\d+ m=\d+")
HELD = re.compile(r"(r:\d+)\*\d+")


def without_counts(text):
    """The lines of a run, without how much was allocated and how often monitors were entered."""
    lines = []
    for line in text.splitlines():
        words, counts, held = line.partition(" ; a=")
        lines.append(words + HELD.sub(r"\1", COUNTS.sub("", counts + held)))
    return lines


def run_each(pea, work, lib, names):
    """What the program prints of each folder."""
    printed = {}
    for name in names:
        words = [pea, "run", os.path.join(work, "in", name), os.path.join(work, "script", name), "--lib", lib]
        printed[name] = subprocess.run(words, stdout=subprocess.PIPE, stderr=subprocess.DEVNULL).stdout.decode("latin-1")
    return printed


def try_all(work, lib, names):
    """The same by `rt try`, which builds the program once."""
    printed = {}
    with tempfile.TemporaryDirectory() as cases:
        for name in names:
            with open(os.path.join(work, "script", name), "rb") as script, open(os.path.join(cases, name), "wb") as file:
                file.write(script.read())
            with open(os.path.join(cases, name + ".args"), "w", encoding="utf-8") as file:
                file.write("\n".join(["run", os.path.join(work, "in", name), "{}", "--lib", lib]) + "\n")
        # The interpreter that tries the program as well cannot read files, so it gets one step.
        words = ["rt", "try", "--steps", "1", "--cases", cases]
        tried = subprocess.run(words, cwd=os.path.join(ROOT, "crates", "pea"), stdout=subprocess.PIPE, stderr=subprocess.PIPE)
    name = None
    for line in tried.stdout.decode("latin-1").splitlines(keepends=True):
        if line.startswith("== "):
            name = line.split()[1]
            printed[name] = ""
        elif name:
            printed[name] += line
    if not printed:
        sys.exit(tried.stderr.decode("latin-1")[-2000:])
    return printed


def first_difference(came, wanted):
    """The number of the first line that differs, or None."""
    if came == wanted:
        return None
    return next((at for at, pair in enumerate(zip(came, wanted)) if pair[0] != pair[1]), min(len(came), len(wanted)))


def altered(wanted):
    """The same lines with another number in the last line that has one, so that the comparison itself is tried; None where no line has one."""
    for at in reversed(range(len(wanted))):
        if re.search(r" [il]:-?\d+", wanted[at]):
            return wanted[:at] + [re.sub(r"( [il]:-?)(\d+)", lambda it: it[1] + str(int(it[2]) + 1), wanted[at], count=1)] + wanted[at + 1:]
    return None


def main(work, lib, pea=None):
    names = sorted(os.listdir(os.path.join(work, "in")))
    printed = run_each(pea, work, lib, names) if pea else try_all(work, lib, names)
    events = differ = noticed = tried = 0
    for name in names:
        with open(os.path.join(work, "wanted", name), encoding="latin-1") as file:
            wanted = file.read().splitlines()
        came = without_counts(printed.get(name, ""))
        events += len(wanted) - 1
        wrong = altered(wanted)
        if wrong:
            tried += 1
            noticed += first_difference(came, wrong) is not None
        at = first_difference(came, wanted)
        if at is not None:
            differ += 1
            print(f"{name} differs: pea  {came[at] if at < len(came) else 'nothing'}")
            print(f"               the JVM {wanted[at] if at < len(wanted) else 'nothing'}")
    if noticed != tried or not tried:
        print(f"of {tried} wrong expectations {tried - noticed} were not noticed")
    elif not differ:
        print(f"{len(names)} folders agree ({events} events; each of {tried} wrong expectations was noticed)")
    else:
        print(f"{len(names) - differ} folders agree, {differ} differ ({events} events)")
    return 1 if differ or noticed != tried or not tried else 0


if __name__ == "__main__":
    sys.exit(main(*sys.argv[1:]))
