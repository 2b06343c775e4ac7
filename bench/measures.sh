# Words for the scripts of this folder, which source it at the top of the repository: wants that are met or not, and times of programs.

runs=${RUNS:-5}
failed=0
root=$PWD
pea=$PWD/bin/pea

# in_memory: makes the folder $work, which goes at the end, and enters it; it stands in memory (/dev/shm) where the machine has it
in_memory() {
    if [ -w /dev/shm ]; then work=$(mktemp -d -p /dev/shm); else work=$(mktemp -d); fi
    trap 'rm -rf "$work"' EXIT
    cd "$work"
}

# build_bench: proves and builds the program $bench, of which the scripts time what a word says (crates/bench); $BENCH names one that is built
build_bench() {
    bench=${BENCH:-$root/crates/bench/out/bench}
    if [ -z "${BENCH:-}" ]; then (cd "$root/crates/bench" && rt check && rt run -- grow 1 1) >/dev/null; fi
}

# build_cases: the same of the program $cases, which asks files of cases (crates/cases_expand), and of $CASES
build_cases() {
    cases=${CASES:-$root/crates/cases_expand/out/cases_expand}
    if [ -z "${CASES:-}" ]; then (cd "$root/crates/cases_expand" && rt check && rt run -- /dev/null) >/dev/null; fi
}

# ratio ONE OTHER: one number, or what awk makes of it, by another
ratio() { awk "BEGIN { printf \"%.2f\", $1 / $2 }"; }

# wanted TEXT CONDITION: prints whether the condition, in awk's words, holds
wanted() {
    if awk "BEGIN { exit !($2) }"; then
        echo "  ok: $1"
    else
        echo "  FAILED: $1"
        failed=1
    fi
}

# least NUMBER NUMBER: the lesser
least() { if [ "$1" -lt "$2" ]; then echo "$1"; else echo "$2"; fi; }

# processor_ms COMMAND..: the processor's time of one run of a command
processor_ms() {
    local TIMEFORMAT='%3U %3S'
    { time "$@" >/dev/null; } 2>&1 | awk '{ printf "%d\n", ($1 + $2) * 1000 }'
}

declare -A least_ms
# turn NAME COMMAND..: one run of a command, whose time of the processor counts in least_ms[NAME] if it is the least yet
turn() {
    local name=$1
    shift
    least_ms[$name]=$(least "${least_ms[$name]:-999999}" "$(processor_ms "$@")")
}

# turn_bench WORDS..: the same of $bench with these words, in least_ms[WORDS..]
turn_bench() { turn "$*" "$bench" "$@"; }

# times COUNT COMMAND..: so many runs of a command, each a process of its own
times() {
    local count=$1
    shift
    for _ in $(seq 1 "$count"); do "$@" || true; done
}

# peak COMMAND..: the most memory of one run of a command, in kB
peak() { /usr/bin/time -f %M "$@" 2>&1 >/dev/null | tail -n 1; }

# instructions COMMAND..: how many instructions one run of a command takes
instructions() {
    valgrind --tool=callgrind --callgrind-out-file=/dev/null "$@" 2>&1 >/dev/null |
        awk '/Collected/ { print $NF }'
}

# library FOLDER: makes a folder of the class files of the first example's library
library() {
    cp -r "$root/examples/first/lib" "$1"
    rm -f "$1"/README.md
}

# need_python WHAT: ends the script where python3 is missing
need_python() {
    if ! command -v python3 >/dev/null; then
        echo "$1: skipped, since python3 is missing"
        exit 0
    fi
}
