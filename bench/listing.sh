#!/usr/bin/env bash
# Lists a class file of 1 MB, beside reading it: its library is empty, so that the folder is refused once it is read. The two take turns, and the
# least time of the processor counts. Prints what is wanted and what came, and fails where a want is not met.
set -eu
cd "$(dirname "$0")/.."
. bench/measures.sh
need_python listing
in_memory
mkdir none in
python3 "$root/bench/large_class.py" in/M.class

# reads: reads the folder; ends with the status of a folder that is refused
reads() { "$pea" verify in --lib none 2>/dev/null || true; }

# lists: lists the class file
lists() { "$pea" list in M.class >listing; }

for _ in $(seq 1 "$runs"); do
    turn read reads
    turn list lists
done
read=${least_ms[read]}
list=${least_ms[list]}
echo "a class file of $(stat -c %s in/M.class) bytes: read in $read ms, listed in $list ms, in $(stat -c %s listing) bytes"
wanted "$(ratio "$list" "$((read > 0 ? read : 1))") times the time of reading (at most 4 is wanted)" "$list <= 4 * $read"
exit "$failed"
