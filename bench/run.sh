#!/usr/bin/env bash
# Runs bench/java/Turns.java by the machine: 5 and 10 million steps of a loop with arithmetic, a field, an array, a virtual and a
# static call, against the interpreter of the JVM on the same method (java -Xint); 200,000 and 400,000 objects of two fields that
# stay; and 50,000 and 100,000 frames. Reading, linking and verifying are taken off: a run of one step. Prints what is wanted and what
# came, and fails where a want is not met.
set -eu
cd "$(dirname "$0")/.."
. bench/measures.sh
# short runs: the least of more of them
runs=${RUNS:-15}
in_memory

for tool in javac java; do
    if ! command -v "$tool" >/dev/null; then
        echo "runs: skipped, since $tool is missing"
        exit 0
    fi
done
mkdir in
javac --release 8 -Xlint:-options -d in "$root/bench/java/Turns.java"
lib=$root/examples/first/lib
# the methods of Turns but main, which names more of the library than there is here
mkdir -p one
awk '/Prints the least time/ { exit } { print }' "$root/bench/java/Turns.java" >one/Turns.java
echo "}" >>one/Turns.java
mkdir only
javac --release 8 -Xlint:-options -d only one/Turns.java

# run_ms SCRIPT STEPS: the least time of running a script in so many steps
run_ms() {
    local best=999999
    for _ in $(seq 1 "$runs"); do
        best=$(least "$best" "$(processor_ms "$pea" run only "$1" --lib "$lib" --steps "$2")")
    done
    echo "$best"
}

# run_kb SCRIPT STEPS: the most memory
run_kb() { /usr/bin/time -f %M "$pea" run only "$1" --lib "$lib" --steps "$2" 2>&1 >/dev/null | tail -n 1; }

# ends SCRIPT STEPS END: a run ends so
ends() {
    local came
    came=$("$pea" run only "$1" --lib "$lib" --steps "$2" 2>/dev/null | tail -n 1)
    wanted "$1 in $2 steps: $came" "\"$came\" == \"end $3\""
}

echo "call Turns loop (I)I i:1000000" >loop
base_ms=$(run_ms loop 1)
base_kb=$(run_kb loop 1)
half_ms=$(($(run_ms loop 5000000) - base_ms))
whole_ms=$(($(run_ms loop 10000000) - base_ms))
java_us=999999999
for _ in $(seq 1 "$runs"); do
    java_us=$(least "$java_us" "$(java -Xint -cp in Turns $((10000000 / 53)) 2>/dev/null)")
done
ends loop 10000000 Running
wanted "10,000,000 steps in $whole_ms ms, java -Xint in $((java_us / 1000)) ms: $(ratio "$whole_ms * 1000" "$java_us") times (at most 6 is wanted)" \
    "$whole_ms * 1000 <= 6 * $java_us"
wanted "10,000,000 steps take $(ratio "$whole_ms" "$half_ms") times as long as 5,000,000 (2 within a tenth is wanted)" \
    "$whole_ms <= 2.2 * $half_ms && $whole_ms >= 1.8 * $half_ms"

for count in 200000 400000; do
    printf 'call Turns objects (I)I i:%d\nstop\n' "$count" >objects
    ends objects 10000000 Stopped
    kb=$(($(run_kb objects 10000000) - base_kb))
    wanted "$count objects of two fields: $kb kB more memory at the peak" "$kb <= 60000"
done
for count in 50000 100000; do
    printf 'call Turns deep (I)I i:%d\nstop\n' "$count" >deep
    ends deep 10000000 Stopped
    echo "$count frames: $(($(run_ms deep 10000000) - base_ms)) ms, $(($(run_kb deep 10000000) - base_kb)) kB more memory at the peak"
done
exit "$failed"
