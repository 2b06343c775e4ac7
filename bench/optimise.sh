#!/usr/bin/env bash
# Optimises compiled Java with a library of 20,000 headers against verifying the same folder with it, in the same run, the files in memory
# (/dev/shm) where the machine has it: the classes of examples/java once and more often, under other package names. The least processor time and
# the least peak of memory of some runs count. Prints what is wanted and what came, and fails where a want is not met. PEA=FILE times
# another program.
set -eu
cd "$(dirname "$0")/.."
. bench/measures.sh
pea=${PEA:-$pea}
for tool in javac python3; do
    if ! command -v "$tool" >/dev/null; then
        echo "optimise: skipped, since $tool is missing"
        exit 0
    fi
done
in_memory
mkdir one in
for release in 7 8; do bash "$root/scripts/compile-java.sh" "$release" one; done
bash "$root/scripts/jdk-library.sh" --whole lib >/dev/null
# of the JDK's 26,518 class files some 20,000: all but those of some modules that no other class's hierarchy needs
rm -rf lib/jdk.localedata lib/jdk.hotspot.agent lib/jdk.jdi lib/jdk.javadoc lib/jdk.jdeps lib/java.xml.crypto lib/java.net.http lib/jdk.jfr lib/jdk.management.jfr

# copy_as ONE OTHER: puts into the input a copy of the class files in packages of these names, which are as long as their own
copy_as() {
    cp -r one/depot "in/$1"
    cp -r one/survey "in/$2"
    find "in/$1" "in/$2" -type f -exec env LC_ALL=C sed -i "s#depot/#$1/#g; s#survey/#$2/#g" {} +
}

# run COMMAND..: the processor's milliseconds and the peak in kB of one run
run() {
    /usr/bin/time -o took -f '%U %S %M' "$pea" "$@" >said
    awk 'END { printf "%d %d\n", ($1 + $2) * 1000, $3 }' took
}

# least_of WORDS..: the least of some runs, in ms and kb
least_of() {
    local took
    ms=999999 kb=999999999
    for _ in $(seq 1 "$runs"); do
        took=$(run "$@")
        ms=$(least "$ms" "${took% *}")
        kb=$(least "$kb" "${took#* }")
    done
}

# measured FOLDER: both commands on a folder, in verify_ms, verify_kb, ms and kb
measured() {
    least_of verify "$1" --lib lib
    verify_ms=$ms verify_kb=$kb
    least_of optimise "$1" out --lib lib
    echo "$(find "$1" -name '*.class' | wc -l) class files, $(find lib -name '*.class' | wc -l) of the library: $(cat said)"
    if ! grep -q '^done ' said; then
        echo "  FAILED: it is not done"
        failed=1
    fi
    rm -rf out
}

mkdir none
least_of optimise none out --lib lib
library_ms=$ms library_kb=$kb
measured one
wanted "optimised in $ms ms, verified in $verify_ms ms: $(ratio "$ms" "$verify_ms") times (at most 2 is wanted)" "$ms <= 2 * $verify_ms"
wanted "$kb kB at the peak, $verify_kb to verify: $(ratio "$kb" "$verify_kb") times (at most 1.3 is wanted)" "$kb <= 1.3 * $verify_kb"

# the same classes more often: in proportion
copies=$((500 / $(find one -name '*.class' | wc -l) + 1))
first_ms=0 first_kb=0
for times in 1 2; do
    for number in $(seq $(((times - 1) * copies + 1)) $((times * copies))); do
        copy_as "$(printf 'd%04d' "$number")" "$(printf 's%05d' "$number")"
    done
    measured in
    echo "  optimised in $ms ms and $kb kB, verified in $verify_ms ms and $verify_kb kB: $(ratio "$ms" "$verify_ms") and $(ratio "$kb" "$verify_kb") times"
    if [ "$first_ms" = 0 ]; then first_ms=$((ms - library_ms)) first_kb=$((kb - library_kb)); fi
    wanted "time beyond the library's $(ratio "($ms - $library_ms)" "$first_ms") times the first (in proportion: $times; at most half as much again is wanted)" \
        "$ms - $library_ms <= $times * 1.5 * $first_ms"
    wanted "memory beyond the library's $(ratio "($kb - $library_kb)" "$first_kb") times the first (in proportion: $times; at most half as much again is wanted)" \
        "$kb - $library_kb <= $times * 1.5 * $first_kb"
done
exit "$failed"
