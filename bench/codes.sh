#!/usr/bin/env bash
# Reads class files with a code of 8,000 jumps (64,001 bytes) each, and with a table of 5,000 stack map frames each, and at a quarter and at
# half of that size, beyond class files with none. Their library is empty, so that the folder is refused once it is read. Time is to
# grow in proportion. The sizes take turns, and the least time of the processor counts. Prints what is wanted and what came, and fails where a
# want is not met.
set -eu
cd "$(dirname "$0")/.."
. bench/measures.sh
need_python codes
in_memory
mkdir none
files=400

# reads FOLDER: reads it; ends with the status of a folder that is refused
reads() { "$pea" verify "$1" --lib none 2>/dev/null || true; }

while read -r kind count; do
    for part in 0 4 2 1; do
        size=$((part == 0 ? 0 : count / (part == 0 ? 1 : part)))
        mkdir "$kind$size"
        python3 "$root/bench/large_methods.py" "$kind$size" "$kind" "$size" "$files"
    done
    for _ in $(seq 1 "$runs"); do
        for size in 0 $((count / 4)) $((count / 2)) "$count"; do turn "$kind$size" reads "$kind$size"; done
    done
    first=
    for part in 4 2 1; do
        ms=$((least_ms[$kind$((count / part))] - least_ms[${kind}0]))
        first=${first:-$ms}
        echo "$files class files with $((count / part)) $kind: $ms ms"
        wanted "$(ratio "$ms" "$first") times the first (in proportion: $((4 / part)); at most half as much again is wanted)" \
            "$first > 0 && $ms <= $((4 / part)) * 1.5 * $first"
    done
    rm -rf "$kind"*
done <<'KINDS'
jumps 8000
frames 5000
KINDS
exit "$failed"
