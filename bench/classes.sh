#!/usr/bin/env bash
# Reads, links with the JDK that is on the machine, and writes at least 5,000 class files of compiled Java, twice and four times
# as many, against cp -r of the same folders in the same run, with a warm cache. What reading the library takes by itself, with an
# empty input, is taken off. Reading alone is measured by an empty library, with which the folder is refused before anything is
# linked or written. The folders stand in memory (/dev/shm) where the machine has it. All take turns, and the least time of each
# counts: that of the processor, since each uses one, and other work may stand beside them. Prints what is wanted and what came,
# and fails where a want is not met.
set -eu
cd "$(dirname "$0")/.."
. bench/measures.sh
in_memory
mkdir one in none
if ! said=$(bash "$root/scripts/jdk-library.sh" lib); then
    echo "class files: skipped, since there is no library: $said"
    exit 0
fi
for release in 7 8; do
    if ! said=$(bash "$root/scripts/compile-java.sh" "$release" one); then
        echo "class files: skipped, since Java $release was not compiled: $said"
        exit 0
    fi
done
copies=$((5000 / $(find one -name '*.class' | wc -l) + 1))

# milliseconds COMMAND..: the processor's time of one run into a fresh output
milliseconds() {
    rm -rf out
    processor_ms "$@"
}

# copy_as NUMBER: puts into the input a copy of the class files with packages of their own, whose names are as long
copy_as() {
    cp -r one "in/copy$1"
    find "in/copy$1" -type f -exec env LC_ALL=C \
        sed -i "s#depot/#$(printf 'd%04d' "$1")/#g; s#survey/#$(printf 's%05d' "$1")/#g" {} +
}

# measure TIMES: of so many times the copies, sets bytes, read_ms, pea_ms, copy_ms and peak_kb
measure() {
    local number
    rm -rf in
    mkdir in
    for number in $(seq 1 $(($1 * copies))); do copy_as "$number"; done
    bytes=$(find in -type f -printf '%s\n' | awk '{ sum += $1 } END { print sum }')
    copy_ms=999999
    read_ms=999999
    pea_ms=999999
    for _ in $(seq 1 "$runs"); do
        copy_ms=$(least "$copy_ms" "$(milliseconds cp -r in out)")
        read_ms=$(least "$read_ms" "$(milliseconds "$pea" optimise in out --lib none)")
        pea_ms=$(least "$pea_ms" "$(milliseconds "$pea" optimise in out --lib lib)")
    done
    pea_ms=$((pea_ms - library_ms))
    diff -r in out
    rm -rf out
    peak_kb=$(($(peak "$pea" optimise in out --lib lib) - library_kb))
}

library_ms=999999
for _ in $(seq 1 "$runs"); do
    library_ms=$(least "$library_ms" "$(milliseconds "$pea" optimise none out --lib lib)")
done
library_kb=$(peak "$pea" optimise none out --lib lib)
echo "the library's $(find lib -type f | wc -l) class files alone: $library_ms ms; peak memory $library_kb kB"

first_ms=0
for times in 1 2 4; do
    measure "$times"
    if [ "$first_ms" = 0 ]; then first_ms=$pea_ms; fi
    speed=$(ratio "$bytes" "($read_ms * 1000)")
    slower=$(ratio "$read_ms" "$copy_ms")
    memory=$(ratio "$peak_kb * 1024" "$bytes")
    growth=$(ratio "$pea_ms" "$first_ms")
    echo "$(find in -type f | wc -l) class files, $bytes bytes: read in $read_ms ms, read, linked and written in $pea_ms ms;" \
        "cp -r $copy_ms ms; $peak_kb kB more memory at the peak"
    wanted "read $speed MB/s, in $slower times cp -r (40 MB/s or 4 times is wanted)" "$speed >= 40 || $slower <= 4"
    wanted "memory $memory times the input (at most 12 is wanted)" "$memory <= 12"
    wanted "time $growth times the first (in proportion: $times; at most half as much again is wanted)" "$growth <= $times * 1.5"
done
exit "$failed"
