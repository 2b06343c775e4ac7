#!/usr/bin/env python3
"""compare_written.py optimise|compare WORK LIB PEA: optimises each folder of WORK/in to WORK/written/in; compares what the JVM showed of both, and what
`pea both` shows of both: the same events, with no more allocations and monitors at any.

Prints each folder that differs, and at the end how many agree, and how many methods were rewritten.
"""
import os
import re
import subprocess
import sys

from compare import first_difference, without_counts

COUNTS = re.compile(r" ; a=(\d+) m=(\d+)")
SUMMARY = re.compile(r"done files=\d+ classes=\d+ rewritten=(\d+) kept=\d+")


def said_by(words):
    ran = subprocess.run(words, stdout=subprocess.PIPE, stderr=subprocess.DEVNULL)
    return ran.returncode, ran.stdout.decode("latin-1")


def optimise_all(work, lib, pea):
    """Optimises each folder; says which could not be."""
    wrong = rewritten = 0
    names = sorted(os.listdir(os.path.join(work, "in")))
    for name in names:
        status, said = said_by([pea, "optimise", os.path.join(work, "in", name), os.path.join(work, "written", "in", name), "--lib", lib])
        found = SUMMARY.match(said)
        if status or not found:
            wrong += 1
            print(f"{name} is not optimised: {said.strip()}")
        else:
            rewritten += int(found[1])
    print(f"{len(names)} folders optimised ({rewritten} methods rewritten)")
    return 1 if wrong else 0


def saved(before, after):
    """Whether no event of the second run counts more, and what the last event of both counts less."""
    one, other = (COUNTS.findall(text) for text in (before, after))
    fine = all(int(b[0]) <= int(a[0]) and int(b[1]) <= int(a[1]) for a, b in zip(one, other))
    less = [int(one[-1][at]) - int(other[-1][at]) for at in (0, 1)] if one and other else [0, 0]
    return fine, less


def compare_all(work, lib, pea):
    names = sorted(os.listdir(os.path.join(work, "in")))
    differ = allocations = monitors = 0
    for name in names:
        pair = []
        for of in (work, os.path.join(work, "written")):
            with open(os.path.join(of, "wanted", name), encoding="latin-1") as file:
                pair.append(file.read().splitlines())
        _, said = said_by([pea, "both", os.path.join(work, "in", name), os.path.join(work, "script", name), "--lib", lib])
        before, found, after = said.removeprefix("before\n").partition("after\n")
        fine, less = saved(before, after)
        on_jvm = first_difference(pair[1], pair[0])
        by_pea = first_difference(without_counts(after), without_counts(before))
        if on_jvm is not None or by_pea is not None or not found or not fine:
            differ += 1
            print(f"{name} differs" + (f" on the JVM at line {on_jvm}" if on_jvm is not None else "") + (f" by pea at line {by_pea}" if by_pea is not None else "") + ("" if fine else ", with more allocations or monitors"))
        allocations += less[0]
        monitors += less[1]
    if differ:
        print(f"{len(names) - differ} written folders agree, {differ} differ")
    else:
        print(f"{len(names)} written folders agree ({allocations} allocations and {monitors} monitor entries less)")
    return 1 if differ else 0


if __name__ == "__main__":
    sys.exit({"optimise": optimise_all, "compare": compare_all}[sys.argv[1]](*sys.argv[2:]))
