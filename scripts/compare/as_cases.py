#!/usr/bin/env python3
"""as_cases.py WORK [NAME PRINTED TITLE]: a folder of WORK with its script and what `pea run` printed of it to the file PRINTED, as a case of
crates/cases_command with the input NAME; with WORK alone the host of such cases, which has the base library and library/L."""
import os
import sys
import textwrap

LIBRARY = "class lib/library/L.class public library/L Object / " + " / ".join(
    f"method public+static+native {name}" for name in
    [f"use ({it})V" for it in ("I", "J", "F", "D", "Z", "B", "S", "C", "Ljava/lang/Object;")]
    + [f"ask{letter} (){it}" for letter, it in
       (("I", "I"), ("J", "J"), ("F", "F"), ("D", "D"), ("Z", "Z"), ("B", "B"), ("S", "S"), ("C", "C"), ("O", "Ljava/lang/Object;"), ("A", "[I"))])


def wrapped(text):
    return "\n  ".join(textwrap.wrap(text, 160, break_long_words=False, break_on_hyphens=False))


def case(work, name, printed, title):
    lines = [f"# {title}"]
    folder = os.path.join(work, "in", name)
    for where, folders, files in sorted(os.walk(folder)):
        for file in sorted(files):
            path = os.path.join(where, file)
            with open(path, "rb") as it:
                data = it.read().hex()
            words = " ".join(data[at:at + 64] for at in range(0, len(data), 64))
            lines.append(wrapped(f"put {name}/{os.path.relpath(path, folder)} {words}"))
    with open(os.path.join(work, "script", name), encoding="latin-1") as it:
        actions = it.read().splitlines()
    lines.append(f"script s.txt {' | '.join(actions)}")
    answer = "".join(line + "\\0a" for line in printed.splitlines())
    lines.append(f"run run {name} s.txt --lib lib => 0 Done | {answer}")
    return "\n".join(lines) + "\n"


if __name__ == "__main__":
    if len(sys.argv) == 2:
        print(wrapped("host ; base lib ; " + LIBRARY))
    else:
        with open(sys.argv[3], encoding="latin-1") as came:
            print(case(sys.argv[1], sys.argv[2], came.read(), sys.argv[4]), end="")
