#!/usr/bin/env bash
# build.sh: proves the program and all below it, and leaves it at bin/pea.
set -eu
if [ $# != 0 ]; then
    echo "usage: bash scripts/build.sh" >&2
    exit 64
fi
if ! command -v rt >/dev/null; then
    echo "the command rt is missing; it is part of the Rattle kit" >&2
    exit 69
fi
cd "$(dirname "$0")/.."
root=$PWD
cd crates/pea
rt check
rm -f out/pea
# rt builds a program by running it. With no words it refuses them, and ends with status 1.
rt run >/dev/null || true
test -x out/pea
mkdir -p "$root/bin"
cp out/pea "$root/bin/pea"
