#!/usr/bin/env bash
# Links generated class files: folders of 1,000, 2,000 and 4,000 classes with seven times as many of a library. What linking takes is the time
# of verifying the folder where the first method of the first class fails, beyond that of the same where the first class fails to link.
# Linking is to take less than a second of processor time for the largest, and time and counted instructions in proportion to the classes. The
# sizes take turns, and the least time of each counts. Prints what is wanted and what came, and fails where a want is not met.
set -eu
cd "$(dirname "$0")/.."
. bench/measures.sh
need_python links
in_memory

# as many classes are linked at each size, so that one noise falls on all
linked=16000
sizes="1000 2000 4000"
for count in $sizes; do
    mkdir "$count"
    library "$count/lib"
    python3 "$root/bench/link_folders.py" "$count" "$count"
done

# fails COUNT: verifies the folder of so many classes, which is refused
fails() { "$pea" verify "$1/in" --lib "$1/lib" 2>/dev/null || true; }

# all WHICH: makes the first class of each folder fail to link, or to verify
all() { for count in $sizes; do python3 "$root/bench/link_folders.py" "$count" "$1"; done; }

for _ in $(seq 1 "$runs"); do
    for which in link type; do
        all "$which"
        for count in $sizes; do turn "$which $count" times $((linked / count)) fails "$count"; done
    done
done
for which in link type; do
    all "$which"
    for count in $sizes; do
        echo "the first class fails: $(fails "$count")"
        if command -v valgrind >/dev/null; then
            declare "${which}_$count=$(instructions "$pea" verify "$count/in" --lib "$count/lib")"
        fi
    done
done

first=
for count in $sizes; do
    times=$((linked / count))
    read_ms=$((least_ms[link $count] / times))
    link_ms=$((least_ms[type $count] - least_ms[link $count]))
    one_ms=$((link_ms / times))
    first=${first:-$link_ms}
    growth=$(ratio "$link_ms" "($first < 1 ? 1 : $first)")
    echo "$count classes and $((7 * count)) of a library: read and built in $read_ms ms, linked in $one_ms ms"
    wanted "a class is linked in $growth times the first's time (half as much again is let pass)" "$link_ms <= 1.5 * $first"
    wanted "linked in less than a second" "$one_ms < 1000"
    if command -v valgrind >/dev/null; then
        until_type=type_$count
        until_link=link_$count
        class=$(((${!until_type} - ${!until_link}) / count))
        first_class=${first_class:-$class}
        wanted "$class instructions a class that is linked, the first $first_class (a tenth more is let pass)" "$class <= 1.1 * $first_class"
    else
        echo "  skipped: instructions are not counted, since valgrind is missing"
    fi
done
exit "$failed"
