#!/usr/bin/env bash
# Tries the greatest legal sizes. bench/size_folders.py, hierarchy_sizes.py, expansion_folders.py and machine_folders.py make folders of
# one shape each: they are verified, the flat code of their methods is made (pea plan), or a script runs with them. The shapes are classes with the
# most and the largest methods, tables, frames, handlers, members, constants and texts; many classes; deep trees of calls, many callees and
# hosts, chains of classes; millions of objects, frames and stores, long scripts. Plans are made of 8,000 points with 256 sites, of code
# with the most handlers, and below a Top, which bench/plan_cases.py writes as cases for the program of crates/cases_expand.
# A row of a table has a shape and how often or how large it is made, then the processor's milliseconds and the megabytes at the peak that
# are wanted at most, then the answer. "-" is what the input allows: a second and one more for each 5 MB, with 3 microseconds for each
# point of flat code and half a microsecond for each step; 64 MB and 16 bytes for each byte. Prints what is wanted and what came, the
# least of some runs each, and fails where a want is not met.
# With `worse` as the first word it tries the shapes that cost more than in proportion to their size instead (docs/MEASURES.md says why),
# prints their time and memory, and judges nothing. Other words are the shapes to try, all where there is none. PEA=FILE and CASES=FILE
# time other programs; RUNS=1 is enough for a look.
set -eu
cd "$(dirname "$0")/.."
. bench/measures.sh
pea=${PEA:-$pea}
runs=${RUNS:-3}
need_python sizes
kind=judged
if [ "${1:-}" = worse ]; then
    kind=worse
    runs=${RUNS:-1}
    shift
fi
if [ "$kind" = judged ]; then build_cases; fi
lib=$root/examples/first/lib
in_memory

words=" $* "
# is_tried KIND SHAPE: whether a row of the tables of this kind is to be tried
is_tried() { [ "$1" = "$kind" ] && { [ "$words" = "  " ] || [[ $words == *" $2 "* ]]; }; }

# to_verify SHAPE NUMBER: makes a folder, and the command that verifies it
to_verify() {
    local maker=size_folders
    case $1 in
    interfaces | diamonds | crossed | inherited | overriding | finals | private | elsewhere | circle) maker=hierarchy_sizes ;;
    esac
    mkdir in
    python3 "$root/bench/$maker.py" in "$1" "$2"
    command=("$pea" verify in --lib "$lib")
}

# to_expand SHAPE NUMBER: makes a folder and its library, and the command that makes the flat code of each method
to_expand() {
    library lib
    python3 "$root/bench/expansion_folders.py" . "$1" "$2"
    command=("$pea" plan in --lib lib)
}

# flat_codes: how many methods the last plan says to have flat code
flat_codes() { grep -cvE ' (Host|Float|Expanded|NoSite|Wide)$' said || true; }

# to_run SHAPE NUMBER STEPS: makes a folder and a script, and the command that runs it in so many steps
to_run() {
    python3 "$root/bench/machine_folders.py" . "$1" "$2"
    command=("$pea" run in script --lib "$lib" --steps "$3")
}

# taken: the processor's milliseconds and the peak in kB of one run of the command, which is cut off after 60 seconds of the processor and
# at 8 GB; what it prints is in the file said
taken() {
    (ulimit -t 60 -v 8000000 && /usr/bin/time -o took -f '%U %S %M' "${command[@]}" >said 2>&1 </dev/null) || true
    awk 'END { printf "%d %d\n", ($1 + $2) * 1000, $3 }' took
}

# spend SHAPE NUMBER: runs the command and removes its input. The least milliseconds and kB of the runs are in ms and kb, the bytes of the
# input in bytes. Runs of more than 20 seconds are not repeated.
spend() {
    local took
    ms=999999 kb=999999999
    bytes=$(find in lib script -type f -printf '%s\n' 2>/dev/null | awk '{ sum += $1 } END { print sum }')
    for _ in $(seq 1 "$runs"); do
        took=$(taken)
        ms=$(least "$ms" "${took% *}")
        kb=$(least "$kb" "${took#* }")
        if [ "$ms" -gt 20000 ]; then break; fi
    done
    echo "$1 $2: $bytes bytes in $ms ms, $((kb / 1024)) MB; $(tail -n 1 said | head -c 80)"
    rm -rf in lib script
}

# judge SHAPE NUMBER MS MB MICROSECONDS ANSWER: whether the command takes at most so much time and memory, where "-" allows so many
# microseconds beside what the bytes allow, and prints a line that begins with the answer
judge() {
    bounded "$@"
    if ! grep -q "^$6" said; then
        echo "  FAILED: the answer begins with $6"
        failed=1
    fi
}

# bounded SHAPE NUMBER MS MB MICROSECONDS: the same of time and memory
bounded() {
    local most_ms=$3 most_mb=$4
    spend "$1" "$2"
    if [ "$most_ms" = - ]; then most_ms=$((1000 + bytes / 5000 + $5 / 1000)); fi
    if [ "$most_mb" = - ]; then most_mb=$((64 + 16 * bytes / 1048576)); fi
    wanted "$ms ms (at most $most_ms is wanted)" "$ms <= $most_ms"
    wanted "$((kb / 1024)) MB (at most $most_mb is wanted)" "$kb <= $most_mb * 1024"
}

while read -r shape number most_ms most_mb answer; do
    is_tried judged "$shape" || continue
    to_verify "$shape" "$number"
    judge "$shape" "$number" "$most_ms" "$most_mb" 0 "$answer"
done <<'SIZES'
interfaces 40000 3000 200 verified
overriding 20000 3000 - verified
circle 39000 2000 - refused
diamonds 20000 - - verified
crossed 20000 - - verified
inherited 20000 - - verified
finals 20000 - - verified
private 20000 - - verified
elsewhere 20000 - - verified
nops 200 2000 100 verified
handlers 1000 1000 - verified
handlers 65535 3000 - verified
targets 65535 3000 - verified
changes 1 3000 - verified
changes 30 3000 - verified
calls 800000 2000 - verified
references 65000 2000 - verified
interface-calls 640000 2000 - verified
same-descriptors 65000 2000 - verified
same-types 65000 2000 - verified
full 64 - 100 verified
wide 65535 - 200 verified
wide-handlers 65535 - 200 verified
wide-stores 65535 - 200 verified
fields 65535 - - verified
methods 65535 - - verified
constants 65534 - - verified
texts 256 - - verified
tiny 40000 - - verified
tables 50 - - verified
lookups 50 - - verified
names 100 - - verified
deep 1000 - - verified
SIZES

# The flat code of each method, of so many points in all; the answer is how many methods have one.
while read -r shape number most_ms most_mb points methods; do
    is_tried judged "$shape" || continue
    to_expand "$shape" "$number"
    bounded "$shape" "$number" "$most_ms" "$most_mb" "$((3 * points))"
    wanted "$(flat_codes) methods have flat code, of $points points (it is wanted of $methods)" "$(flat_codes) == $methods"
done <<'EXPANSIONS'
tree-under 500 4000 - 3828500 500
tree-over 500 2000 - 0 0
hosts 500 - - 183500 500
callers 40000 - - 160000 40000
constructors-one 4000 - - 32093 4006
candidates 8000 - - 24000 8000
ask-others 2000 - - 802000 2000
handles 10000 - - 401 1
final-stores 8000 - 160 24000 8000
same-ranges 65535 - - 7904 1
EXPANSIONS

# Runs in so many steps; the answer is the last line.
while read -r shape number steps most_ms most_mb answer; do
    is_tried judged "$shape" || continue
    to_run "$shape" "$number" "$steps"
    judge "$shape" "$number" "$most_ms" "$most_mb" "$((steps / 2))" "$answer"
done <<'RUNS'
objects 0 10000000 - 512 end Running
objects 100 200000 - 256 end Running
arrays 10 10000000 - 1024 end Running
arrays 1000000 150 - 1024 end Running
multi-arrays 1000 33 - 160 end Running
frames 1 10000000 - 1400 end Running
frames 65535 500 - 1024 end Running
lines 100000 1000000 - - end Waits
known 100000 1000000 - - end Waits
known-held 100000 1000000 - - end Waits
known-calls 100000 1000000 - 160 end Waits
stores 1000000 8000000 - 128 end Running
sets 100000 1000000 - - end Waits
begun 20000 1000000 - - end Waits
begun-chain 20000 1000000 - - end Waits
strings 60000 1000000 - - end Waits
throws 1 10000000 - 512 end Running
run-ranges 65535 1000000 - - end Waits
RUNS

# Four plans of half as many points, and of so many: in at most 2.4 times the time, and the milliseconds and megabytes that a row states.
while read -r word count most_ms most_mb; do
    is_tried judged "$word" || continue
    for _ in $(seq 1 "$runs"); do
        for size in $((count / 2)) "$count"; do
            python3 "$root/bench/plan_cases.py" "$word" "$size" 4 >"$size.cases"
            turn "$word $size" "$cases" "$size.cases"
        done
    done
    half=${least_ms[$word $((count / 2))]}
    whole=${least_ms[$word $count]}
    kb=$(peak "$cases" "$count.cases")
    if [ "$("$cases" "$count.cases")" != "$count.cases: 4" ]; then
        echo "  FAILED: each of the plans saves something"
        failed=1
    fi
    echo "$word $count: 4 plans of $((count / 2)) points in $half ms, of $count in $whole ms, $((kb / 1024)) MB"
    wanted "$(ratio "$whole" "$half") times the first (at most 2.4 is wanted)" "$half > 0 && $whole <= 2.4 * $half"
    wanted "$whole ms (at most $most_ms is wanted)" "$whole <= $most_ms"
    wanted "$((kb / 1024)) MB (at most $most_mb is wanted)" "$kb <= $most_mb * 1024"
done <<'PLANS'
straight 8000 1000 64
nested 8000 1500 64
linked 8000 3000 64
looped 8000 3000 64
joined 8000 1500 64
caught 8000 12000 64
PLANS

# A plan of code with 65,535 handlers, of points with 65,000 local units, and of points with 5,000 stack entries below a Top: the milliseconds
# and megabytes that a row states, of the whole program.
while read -r word count most_ms most_mb; do
    is_tried judged "$word" || continue
    python3 "$root/bench/plan_cases.py" "$word" "$count" 1 >"$word.cases"
    for _ in $(seq 1 "$runs"); do turn "$word" "$cases" "$word.cases"; done
    kb=$(peak "$cases" "$word.cases")
    if [ "$("$cases" "$word.cases")" != "$word.cases: 1" ]; then
        echo "  FAILED: the plan saves something"
        failed=1
    fi
    echo "$word $count: a plan in ${least_ms[$word]} ms, $((kb / 1024)) MB"
    wanted "${least_ms[$word]} ms (at most $most_ms is wanted)" "${least_ms[$word]} <= $most_ms"
    wanted "$((kb / 1024)) MB (at most $most_mb is wanted)" "$kb <= $most_mb * 1024"
done <<'LARGE_PLANS'
thrown 65535 2000 256
broad 65000 2000 256
sunk 5000 2000 256
LARGE_PLANS

# What costs more than in proportion to its size: how it is tried, its shape and number, and the steps of a run.
while read -r way shape number steps; do
    is_tried worse "$shape" || continue
    "to_$way" "$shape" "$number" "$steps"
    spend "$shape" "$number"
done <<'WORSE'
verify pushes 32000
verify constructor-calls 80000
verify chain-calls 20000
expand alike 6000
expand alike-callers 4000
expand colliding 8000
expand constructors-own 1000
expand constructors-last 1000
expand library-chain 6000
expand quiet 6000
expand silent 16000
expand long-fields 20000
expand ranges 8000
expand units 8000
expand units-calls 16000
expand flat-pushes 2
expand long-calls 4
expand long-constructors 4
run begun-interfaces 10000 1000000
run long-strings 65535 100000
run selections 8000 1000000
run defaults 8000 1000000
run throws 8000 20000
run switches 8000 1000000
run casts 8000 1000000
WORSE
exit "$failed"
