#!/usr/bin/env python3
"""gate_times.py [FOLDER] [--every SECONDS]: what the checks of a running gate cost.

Watches the processes `rattle check` and `rattle build` whose working folder, or that of the command that started them, lies in FOLDER
(any such process of the machine, if none is named), also of a run that someone else started. Reads the processor time and the memory
of each, with its child processes, from /proc once a second. Ended by SIGINT or SIGTERM, it prints the processor minutes of each crate as
the rows of a table: of its proof (and of compiling it, for a program), its tests and its edits (the second check that they begin with, each edit, and the last
check); the largest memory of one check in gigabytes; their sums; and the longest chain of crates by the minutes of proofs and tests. What a process uses
after it was last seen, at most a second, is missing.
"""
import argparse
import os
import re
import signal
import time

TICKS = os.sysconf("SC_CLK_TCK")
ROOT = os.path.dirname(os.path.dirname(os.path.abspath(__file__)))
KINDS = ("proof", "tests", "edits")


def read(path):
    """The text of a file of /proc, empty where the process has ended."""
    try:
        with open(path, encoding="utf-8", errors="replace") as file:
            return file.read()
    except OSError:
        return ""


def folder_of(pid):
    """The working folder of a process."""
    try:
        return os.readlink(f"/proc/{pid}/cwd")
    except OSError:
        return ""


class Process:
    """A process as it is seen once."""

    def __init__(self, pid):
        self.pid = pid
        fields = read(f"/proc/{pid}/stat").rpartition(")")[2].split()
        self.is_there = len(fields) > 20
        if self.is_there:
            self.parent = int(fields[1])
            self.seconds = sum(map(int, fields[11:15])) / TICKS
            self.begun = fields[19]
            self.words = read(f"/proc/{pid}/cmdline").split("\0")

    def crate(self):
        """The crate that it checks or builds, if it does."""
        if len(self.words) < 4 or os.path.basename(self.words[0]) != "rattle" or self.words[1] not in ("check", "build"):
            return None
        if "--crate-name" not in self.words[:-1]:
            return None
        return self.words[self.words.index("--crate-name") + 1]

    def kind(self):
        """What it checks of the crate."""
        if re.search(r"/rt-edit-\d+-", folder_of(self.pid)):
            return "edits"
        return "tests" if "--test" in self.words else "proof"

    def kilobytes(self):
        """The memory that it has."""
        found = re.search(r"^VmRSS:\s+(\d+)", read(f"/proc/{self.pid}/status"), re.MULTILINE)
        return int(found[1]) if found else 0


class Watch:
    """What was seen so far, by process."""

    def __init__(self, folder):
        self.folder = folder
        self.first = self.last = None
        self.seen = {}

    def is_inside(self, processes, process):
        """Whether the working folder of a process, or of one of the three above it, lies in the folder."""
        for _ in range(4):
            here = folder_of(process.pid)
            if here == self.folder or here.startswith(self.folder + "/"):
                return True
            process = processes.get(process.parent)
            if process is None:
                return False
        return False

    def look(self):
        """Reads the processes that are there."""
        found = [Process(int(name)) for name in os.listdir("/proc") if name.isdigit()]
        processes = {it.pid: it for it in found if it.is_there}
        below = {}
        for it in processes.values():
            below.setdefault(it.parent, []).append(it)
        for it in processes.values():
            crate = it.crate()
            above = processes.get(it.parent)
            if crate is None or above is not None and above.crate() == crate:
                continue
            key = it.pid, it.begun
            if key not in self.seen:
                if self.folder and not self.is_inside(processes, it):
                    continue
                self.seen[key] = [crate, it.kind(), 0, 0]
            whole = [it]
            for one in whole:
                whole += below.get(one.pid, [])
            entry = self.seen[key]
            entry[2] = max(entry[2], sum(one.seconds for one in whole))
            entry[3] = max(entry[3], sum(one.kilobytes() for one in whole))
            self.last = time.monotonic()
            self.first = self.first or self.last

    def crates(self):
        """By crate: minutes by kind, and gigabytes."""
        told = {}
        for crate, kind, seconds, kilobytes in self.seen.values():
            one = told.setdefault(crate, {**dict.fromkeys(KINDS, 0), "used": 0})
            one[kind] += seconds / 60
            one["used"] = max(one["used"], kilobytes / 1_000_000)
        return told


def crates_of(folder):
    """The crates of a repository with the libraries of each, lowest first."""
    crates = {}
    for line in read(f"{folder}/crates.txt").splitlines():
        name, colon, libraries = line.partition("#")[0].partition(":")
        if colon:
            crates[name.split()[0]] = libraries.split()
    order = []

    def add(name):
        if name in crates and name not in order:
            for library in crates[name]:
                add(library)
            order.append(name)

    for name in crates:
        add(name)
    return {name: crates[name] for name in order}


def chain(crates, told):
    """The longest chain: its minutes and its crates. The tests of a crate are checked beside its proof, and no crate waits for them."""
    ends, best = {}, (0, [])
    for name, libraries in crates.items():
        one = told.get(name, dict.fromkeys(KINDS, 0))
        start = max((ends[it] for it in libraries if it in ends), default=(0, []))
        ends[name] = start[0] + one["proof"], [*start[1], name]
        best = max(best, ends[name], (start[0] + one["tests"], [*start[1], name]))
    return best


def show(watch, crates):
    """Prints the table."""
    told = watch.crates()
    names = [it for it in crates if it in told] + sorted(it for it in told if it not in crates)
    print("| Crate | Used | Proof | Tests | Edits |\n|---|---|---|---|---|")
    for name in names:
        one = told[name]
        minutes = " | ".join(f"{one[kind]:.1f}" if one[kind] else "" for kind in KINDS)
        print(f"| {name} | {one['used']:.1f} | {minutes} |")
    sums = {kind: sum(one[kind] for one in told.values()) for kind in KINDS}
    most = max((one["used"] for one in told.values()), default=0)
    print(f"| all | {most:.1f} | {' | '.join(f'{sums[kind]:.1f}' for kind in KINDS)} |")
    clock = (watch.last - watch.first) / 60 if watch.first else 0
    print(f"\n{sum(sums.values()):.1f} processor minutes in {clock:.1f} of the clock, of {len(watch.seen)} processes.")
    minutes, longest = chain(crates, told)
    print(f"The longest chain takes {minutes:.1f}: {', '.join(longest)}.")


def main():
    parser = argparse.ArgumentParser(description="What the checks of a running gate cost; ended by SIGINT or SIGTERM.")
    parser.add_argument("folder", nargs="?", help="the repository whose checks are watched (default: all of the machine)")
    parser.add_argument("--every", type=float, default=1, help="seconds between two looks")
    words = parser.parse_args()
    folder = words.folder and os.path.realpath(words.folder)
    ended = []
    for number in (signal.SIGINT, signal.SIGTERM):
        signal.signal(number, lambda *_: ended.append(True))
    watch = Watch(folder)
    while not ended:
        watch.look()
        time.sleep(words.every)
    show(watch, crates_of(folder if folder and os.path.isfile(f"{folder}/crates.txt") else ROOT))


if __name__ == "__main__":
    main()
