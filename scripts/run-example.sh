#!/usr/bin/env bash
# run-example.sh: runs the main job on the first example, and shows what was printed and what was written.
set -u
if [ $# != 0 ]; then
    echo "usage: bash scripts/run-example.sh" >&2
    exit 64
fi
cd "$(dirname "$0")/.." || exit 1
source scripts/program.sh
out=$(mktemp -d)
trap 'rm -rf "$out"' EXIT
echo "\$ pea optimise examples/first/in OUT --lib examples/first/lib"
"$pea" optimise examples/first/in "$out" --lib examples/first/lib
status=$?
echo "status $status"
(cd "$out" && find . -type f | LC_ALL=C sort | while read -r file; do
    echo "OUT/${file#./}: $(wc -c <"$file") bytes"
    od -An -v -tx1 "$file"
done)
if diff -r examples/first/in "$out"; then
    echo "OUT has the bytes of IN"
fi
exit "$status"
