#!/usr/bin/env bash
# Runs the proved program on real folders, and compares status, printed bytes and files. Prints a line for each check.
set -u
if [ $# != 0 ]; then
    echo "usage: bash scripts/acceptance.sh" >&2
    exit 64
fi
cd "$(dirname "$0")/.." || exit 1
for tool in make find sort diff od cmp mktemp xargs paste rt; do
    if ! command -v "$tool" >/dev/null; then
        echo "skipped: acceptance, since $tool is missing"
        exit 0
    fi
done
if ! make -s bin/pea >/dev/null; then
    echo "FAILED the program is built"
    echo "0 passed, 1 failed"
    exit 1
fi
pea=$PWD/bin/pea
root=$PWD
work=$(mktemp -d)
trap 'rm -rf "$work"' EXIT

source "$root/scripts/acceptance/checks.sh"
for part in folders refusals words scripts rewriting library java methods damaged jars; do
    source "$root/scripts/acceptance/$part.sh"
done

echo "$passed passed, $failed failed"
[ "$failed" = 0 ]
