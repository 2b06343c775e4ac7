#!/usr/bin/env bash
# What rewriting does beside reading and verifying, each at a size and at twice that size, beyond what the same takes with no times; the sizes
# take turns, and the least time of each counts. Constants are added to a pool and looked up, and to a pool of 65,000 entries: in constant time
# each. A code of 8,000 items is laid out, in at most 3 times the time of decoding its bytes. States of 256 virtual objects with 4,096 field units
# are joined and compared, in proportion to their places and fields; joins of equal states are kept, and share what they have: memory does
# not grow with the fields (all by crates/bench). The flat code of methods of 7,900 instructions is made, in proportion to these and with some
# hundreds of bytes a point (pea plan beyond pea verify). Plans are made of straight code of 2,000 to 8,000 points with 256 sites, and
# of six loops in one another of as many points, in proportion to the points (cases for crates/cases_expand, which bench/plan_cases.py writes). Prints what is
# wanted and what came, and fails where a want is not met.
set -eu
cd "$(dirname "$0")/.."
. bench/measures.sh
need_python rewriting
build_bench
build_cases
in_memory

parts=('edits 65000 1000000' 'layouts 8000 500' 'decodes 8000 500' 'joins 256 5000' 'below 256 20000' 'grow 65000 20')
plans=('straight 4000' 'straight 8000' 'nested 4000' 'nested 8000')
library lib
for size in 3950 7900; do
    mkdir "$size" "one$size"
    python3 "$root/bench/expansion_folders.py" "$size" handled 100 "$size"
    python3 "$root/bench/expansion_folders.py" "one$size" handled 1 "$size"
done
for size in 2000 4000 8000; do
    for word in straight nested; do python3 "$root/bench/plan_cases.py" "$word" "$size" 10 >"$word$size"; done
done

for _ in $(seq 1 "$runs"); do
    for whole in "${parts[@]}"; do
        read -r word count times <<<"$whole"
        for size in $((count / 2)) "$count"; do
            turn_bench "$word" "$size" 0
            turn_bench "$word" "$size" "$times"
        done
    done
    turn_bench edits 65000 2000000
    turn_bench edits 65000 4000000
    for size in 3950 7900; do
        turn "verify $size" "$pea" verify "$size/in" --lib lib
        turn "plan $size" "$pea" plan "$size/in" --lib lib
    done
    for size in 2000 4000 8000; do
        for word in straight nested; do turn "$word $size" "$cases" "$word$size"; done
    done
done

# beyond WORD COUNT TIMES: the time of these words beyond those of no times
beyond() { echo $((least_ms[$*] - least_ms[$1 $2 0])); }

# doubles WHAT HALF WHOLE WANTED: the times at half a size and at the whole, at most so many times the first
doubles() {
    echo "$1: $2 and $3 ms"
    wanted "$(ratio "$3" "($2 < 1 ? 1 : $2)") times the first (at most $4 is wanted)" "$2 > 0 && $3 <= $4 * $2"
}

for whole in "${parts[@]}"; do
    read -r word count times <<<"$whole"
    # the map of a pool of 65,000 entries outgrows the processor's caches
    most=2.6
    if [ "$word" = grow ]; then most=3.2; fi
    half=$(beyond "$word" $((count / 2)) "$times")
    doubles "$word of $((count / 2)) and of $count, $times times" "$half" "$(beyond "$word" "$count" "$times")" "$most"
done
doubles "100 flat codes of methods of 3,950 and of 7,900 instructions" $((least_ms[plan 3950] - least_ms[verify 3950])) $((least_ms[plan 7900] - least_ms[verify 7900])) 2.6
for plan in "${plans[@]}"; do
    read -r word count <<<"$plan"
    doubles "10 plans of $word code of $((count / 2)) and of $count points" "${least_ms[$word $((count / 2))]}" "${least_ms[$word $count]}" 2.6
done

once=$(beyond edits 65000 2000000)
twice=$(beyond edits 65000 4000000)
doubles "2,000,000 and 4,000,000 edits of a pool of 65,000 entries" "$once" "$twice" 2.6

laid=$(beyond layouts 8000 500)
decoded=$(beyond decodes 8000 500)
wanted "8,000 items laid out in $(ratio "$laid" "$decoded") times the time of decoding their bytes (at most 3 is wanted)" \
    "$laid <= 3 * $decoded"

flat=$(($(peak "$pea" plan one7900/in --lib lib) - $(peak "$pea" verify one7900/in --lib lib)))
echo "the flat code of a method of 7,900 instructions: $flat kB beyond verifying it"
wanted "at most 400 bytes a point" "$flat * 1024 <= 400 * 7904"

few=$(($(peak "$bench" kept 64 200000) - $(peak "$bench" kept 64 0)))
many=$(($(peak "$bench" kept 256 200000) - $(peak "$bench" kept 256 0)))
echo "200,000 joins of equal states that are kept: $few kB of 64 objects, $many kB of 256"
wanted "at most 24 bytes a join, which shares all that it has" "$few * 1024 <= 24 * 200000 && $many * 1024 <= 24 * 200000"
exit "$failed"
