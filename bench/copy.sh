#!/usr/bin/env bash
# Copies a folder of 20,000 plain class files, linked with the library of the first example, and 200 MB of other files, against
# cp -r of the same folder in the same run, with a warm cache. The folders stand in memory (/dev/shm) where the machine has it,
# since a disk's own noise is larger than both times. The two take turns, and the least time of each counts. Prints what is wanted
# and what came, and fails where a want is not met.
set -eu
cd "$(dirname "$0")/.."
. bench/measures.sh
in_memory
mkdir -p in/classes in/files
cp -r "$root/examples/first/lib" lib

# a class without members, whose name is C and a number
plain='\xca\xfe\xba\xbe\0\0\0\x34\0\x05\x07\0\x02\x01\0\x06C%05d\x07\0\x04\x01\0\x10java/lang/Object\0\x21\0\x01\0\x03\0\0\0\0\0\0\0\0'
for group in $(seq 1 200); do
    mkdir "in/classes/$group"
    for number in $(seq 1 100); do printf "$plain" $((group * 100 + number - 101)) >"in/classes/$group/C$number.class"; done
done
for number in $(seq 1 200); do head -c 1000000 /dev/urandom >"in/files/$number.bin"; done
bytes=$(find in -type f -printf '%s\n' | awk '{ sum += $1 } END { print sum }')
cat in/classes/*/* in/files/* >/dev/null

# milliseconds COMMAND..: the time of one run into a fresh output
milliseconds() {
    local start end
    rm -rf out
    start=$(date +%s%N)
    "$@" >/dev/null
    end=$(date +%s%N)
    echo $(((end - start) / 1000000))
}

copy_ms=999999
pea_ms=999999
for _ in $(seq 1 "$runs"); do
    copy_ms=$(least "$copy_ms" "$(milliseconds cp -r in out)")
    pea_ms=$(least "$pea_ms" "$(milliseconds "$pea" optimise in out --lib lib)")
done
diff -r in out
rm -rf out
peak_kb=$(/usr/bin/time -f %M "$pea" optimise in out --lib lib 2>&1 >/dev/null)
echo "input: $bytes bytes, 20,000 class files and 200 other files"
echo "cp -r $copy_ms ms, pea $pea_ms ms; peak memory $peak_kb kB"
wanted "time $(ratio "$pea_ms" "$copy_ms") times cp -r (at most 3 is wanted)" "$pea_ms <= 3 * $copy_ms"
wanted "memory $(ratio "$peak_kb * 1024" "$bytes") times the input (at most 3 and 64 MB is wanted)" "$peak_kb * 1024 <= 3 * $bytes + 64 * 1048576"
exit "$failed"
