#!/usr/bin/env python3
"""Says where a check of a crate spends its time, item by item. In a crate's folder:

    ANTT_CACHE_DEBUG=1 rt check --jobs 1 2>&1 | python3 ../../scripts/slow_proofs.py [HOW_MANY]

The checker then names each item of each module before it elaborates it, and the time up to the next line is the item's. Only what the check
does anew is named, so take out/incremental away first to see all of it. An item of `F.Proof` is a goal of the function F, which the search
closes where no answer stands in proofs/; `F.Lts` is the generated proof of F's borrows, which grows steeply with the places and steps of
its body. Times are by the clock: on a busy machine what took under a second says nothing.

    python3 ../../scripts/slow_proofs.py FOLDER/out/incremental [HOW_MANY]

tells the same of a check that runs or ran with one job, in whatever clone, from what it kept: the times at which the modules were written. A pause of
the check, as between two runs, counts for the module behind it.
"""
import os
import re
import sys
import time
from collections import defaultdict

HEAD = re.compile(r"antt: cache: (?P<module>\S+): (?P<rest>.*)")
ITEM = re.compile(r"(?P<item>.+): not reused")


def function_of(module):
    """The function that a generated module is part of, or the module itself."""
    return re.sub(r"\.(Code|Lts)(\..*)?$|\.[A-Z][A-Za-z0-9-]*$", "", module)


def times_kept(folder):
    """How long each module took that a check kept, by when it was written."""
    written = []
    for place, _, names in os.walk(folder):
        written += [(os.stat(os.path.join(place, name)).st_mtime, name) for name in names if name.endswith(".oantt")]
    written.sort()
    modules, functions = defaultdict(float), defaultdict(float)
    for (before, _), (at, name) in zip(written, written[1:]):
        module = re.sub(r"(\.decls)?\.oantt$", "", name)
        modules[module] += at - before
        functions[function_of(module)] += at - before
    return modules, functions


def times_told():
    """How long each item took of a check whose lines come on standard input; other lines are printed."""
    items, functions = defaultdict(float), defaultdict(float)
    last, began = None, time.monotonic()
    for line in sys.stdin:
        now = time.monotonic()
        if last:
            items[last] += now - began
            functions[function_of(last[0])] += now - began
        head = HEAD.match(line)
        if head:
            item = ITEM.match(head["rest"])
            last = head["module"], item["item"] if item else ""
        else:
            last = None
            if not line.startswith("antt: cache:"):
                print(line, end="")
        began = now
    return items, functions


def main():
    words = sys.argv[1:]
    folder = words.pop(0) if words and os.path.isdir(words[0]) else None
    many = int(words[0]) if words else 40
    items, functions = times_kept(folder) if folder else times_told()
    for title, found in (("functions and files", functions), ("items", items)):
        print(f"\nthe slowest {title}, in seconds:")
        for key, seconds in sorted(found.items(), key=lambda it: -it[1])[:many]:
            print(f"{seconds:8.2f} {key if isinstance(key, str) else ' : '.join(key)}")


main()
