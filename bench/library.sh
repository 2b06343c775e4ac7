#!/usr/bin/env bash
# Reads the JDK that is on the machine as a library, with an empty input, against cat of the same files in the same run, with a
# warm cache. The files stand in memory (/dev/shm) where the machine has it. The two take turns, and the least time of each
# counts: that of the processor, since both use one, and other work may stand beside them. Of the files only their headers are to
# stay in memory: the peak is told against the bytes that these keep. Prints what is wanted and what came, and fails where a want
# is not met.
set -eu
cd "$(dirname "$0")/.."
. bench/measures.sh
in_memory
mkdir in
if ! said=$(bash "$root/scripts/jdk-library.sh" --whole lib); then
    echo "library: skipped, since $said"
    exit 0
fi
find lib -type f -print0 >names
read -r files bytes kept <<<"$(python3 "$root/bench/header_bytes.py" lib)"

read_library() { "$pea" optimise in out --lib lib; }
cat_library() { xargs -0 cat <names; }

read_ms=999999
cat_ms=999999
for _ in $(seq 1 "$runs"); do
    cat_ms=$(least "$cat_ms" "$(processor_ms cat_library)")
    read_ms=$(least "$read_ms" "$(processor_ms read_library)")
done
peak_kb=$(/usr/bin/time -f %M "$pea" optimise in out --lib lib 2>&1 >/dev/null)
memory=$(awk "BEGIN { printf \"%.2f\", $peak_kb * 1024 / $kept }")
echo "$files class files of a library, $bytes bytes: pea $read_ms ms, cat $cat_ms ms; peak memory $peak_kb kB, headers keep $kept bytes"
wanted "read in $read_ms ms (at most 1.5 times cat and a second is wanted)" "$read_ms <= 1.5 * $cat_ms + 1000"
wanted "memory $memory times what the headers keep (at most 4 is wanted)" "$memory <= 4"
exit "$failed"
