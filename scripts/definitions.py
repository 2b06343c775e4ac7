#!/usr/bin/env python3
"""definitions.py: compares docs/DEFINITIONS.md with the definitions of crates/*/specs (without Inner and Laws).

Prints each definition that a contract cites, directly or by other definitions, and that no row names; and each name in backticks in the first columns
of a row that no specs/ and no src/ has. Ends with status 1 where one was printed. With --counts it prints how many there are alone.
"""
import collections
import pathlib
import re
import sys

ROOT = pathlib.Path(__file__).resolve().parent.parent
USE = re.compile(r"^\s*(?:ghost )?use Rattle\.(\w+)\.specs\.([\w.]+?)\.\{([^}]*)\}", re.M)
MADE = re.compile(r"^\s*(?:\w+ )*pub (?:record |data |abbrev )?([^\s:({]+)", re.M)
WORD = re.compile(r"[^\W\d][\w']*")


def imports(text):
    """The definitions that a file brings in, each by crate, module and name."""
    for crate, module, names in USE.findall(text):
        for name in names.split(","):
            yield crate, module, name.split(" as ")[0].strip()


def main(words):
    if words not in ([], ["--counts"]):
        print("usage: python3 scripts/definitions.py [--counts]", file=sys.stderr)
        return 64
    made, used = {}, collections.defaultdict(set)
    for path in ROOT.glob("crates/*/specs/**/*.antt"):
        parts = path.relative_to(ROOT / "crates").with_suffix("").parts
        text = path.read_text(encoding="utf-8")
        made[parts[0], ".".join(parts[2:])] = set(MADE.findall(text))
        used[parts[0], ".".join(parts[2:])] = set(imports(text))
    cited, code = set(), set()
    for path in ROOT.glob("crates/*/src/**/*.rt"):
        text = path.read_text(encoding="utf-8")
        cited |= set(imports(text))
        code |= set(WORD.findall(text))
    # what the files of cited definitions bring in is cited by them
    left = list(cited)
    while left:
        crate, module, _ = left.pop()
        new = used[crate, module] - cited
        cited |= new
        left += new
    rows = [line for line in (ROOT / "docs/DEFINITIONS.md").read_text(encoding="utf-8").splitlines() if line.startswith("| ")]
    named = set(WORD.findall(" ".join(part for row in rows for part in re.findall(r"`([^`]*)`", row))))
    first = set(WORD.findall(" ".join(part for row in rows for part in re.findall(r"`([^`]*)`", "|".join(row.split("|")[1:3])))))
    lacks = sorted((crate, module, name) for crate, module, name in cited
                   if not re.match(r"(Inner|Laws|declared)\b", module) and name in made.get((crate, module), ()) and name not in named)
    known = code | {name for names in made.values() for name in names} | {part for _, module in made for part in module.split(".")}
    known |= {crate for crate, _ in made}
    stale = sorted(name for name in first if name not in known)
    if words:
        print(f"{len(lacks)} definitions that are cited and in no row, {len(stale)} names of rows that nothing has")
    else:
        for crate, module, name in lacks:
            print(f"in no row: {name} of crates/{crate}/specs/{module.replace('.', '/')}.antt")
        for name in stale:
            print(f"nothing has the name {name}, which a row has")
    return 1 if lacks or stale else 0


if __name__ == "__main__":
    sys.exit(main(sys.argv[1:]))
