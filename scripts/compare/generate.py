#!/usr/bin/env python3
"""generate.py WORK COUNT SEED: makes so many folders: writes the sources of Java to WORK/source, those that are compiled once more against the
classes of the first to WORK/second, and class files that are no javac's to WORK/in. Of twenty folders fifteen have random classes, three class files
that are put together directly, and two a form of separate.py."""
import os
import random
import sys

from byte_folders import byte_files
from separate import separate_files
from sources import Sources


def write(folder, files):
    for name, content in files.items():
        path = os.path.join(folder, name)
        os.makedirs(os.path.dirname(path), exist_ok=True)
        with open(path, "wb") as file:
            file.write(content if isinstance(content, bytes) else content.encode("ascii"))


def main(work, count, seed):
    for number in range(count):
        package = f"f{number:04d}"
        rng = random.Random(f"{seed} {number}")
        source = os.path.join(work, "source", package)
        if number % 20 in (3, 9, 13):
            write(os.path.join(work, "in", package, package), byte_files(rng, package))
        elif number % 10 == 6:
            first, second = separate_files(rng, package, number // 10)
            write(source, first)
            write(os.path.join(work, "second", package), second)
        else:
            write(source, Sources(rng, package).files())


if __name__ == "__main__":
    main(sys.argv[1], int(sys.argv[2]), int(sys.argv[3]))
