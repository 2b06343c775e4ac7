#!/usr/bin/env bash
# Verifies 2,000 and 4,000 class files of compiled Java, with the JDK that is on the machine as the library, against the JVM that
# loads and verifies the same classes, in the same run with a warm cache; the files stand in memory (/dev/shm) where the machine
# has it. Then methods with 1,250, 2,500 and 5,000 stated frames, and one of 65,535 bytes of code with a frame of 65,535 locals at
# each instruction. The least time of some runs counts: that of the processor, since other work may stand beside. Prints what is
# wanted and what came, and fails where a want is not met.
set -eu
cd "$(dirname "$0")/.."
. bench/measures.sh
in_memory

# peak_of FOLDER LIBRARY: the most memory of verifying a folder, in kB
peak_of() { /usr/bin/time -f %M "$pea" verify "$1" --lib "$2" 2>&1 >/dev/null; }

# verify_ms FOLDER LIBRARY: the least time of verifying a folder
verify_ms() {
    local best=999999
    for _ in $(seq 1 "$runs"); do
        best=$(least "$best" "$(processor_ms "$pea" verify "$1" --lib "$2")")
    done
    echo "$best"
}

# copy_as ONE OTHER: puts into the input a copy of the class files in packages of these names, which are as long as their own
copy_as() {
    cp -r one/depot "in/$1"
    cp -r one/survey "in/$2"
    find "in/$1" "in/$2" -type f -exec env LC_ALL=C sed -i "s#depot/#$1/#g; s#survey/#$2/#g" {} +
}

# many_classes: of 2,000 and 4,000 classes
many_classes() {
    local classes times number copies pea_ms java_ms bytes kb first_ms=0
    mkdir one none in loads
    for release in 7 8; do bash "$root/scripts/compile-java.sh" "$release" one; done
    copies=$((2000 / $(find one -name '*.class' | wc -l) + 1))
    if command -v javac >/dev/null; then javac -d loads "$root"/scripts/java/{LoadClasses,FolderLoader}.java; fi
    local library_ms library_kb
    library_ms=$(verify_ms none lib)
    library_kb=$(peak_of none lib)
    echo "the library's $(find lib -type f | wc -l) class files alone: $library_ms ms; peak memory $library_kb kB"
    for times in 1 2; do
        for number in $(seq $(((times - 1) * copies + 1)) $((times * copies))); do
            copy_as "$(printf 'd%04d' "$number")" "$(printf 's%05d' "$number")"
        done
        classes=$(find in -type f | wc -l)
        bytes=$(find in -type f -printf '%s\n' | awk '{ sum += $1 } END { print sum }')
        pea_ms=$(verify_ms in lib)
        kb=$(($(peak_of in lib) - library_kb))
        echo "$classes class files, $bytes bytes: verified in $pea_ms ms; $kb kB more memory at the peak"
        if [ "$first_ms" = 0 ]; then first_ms=$((pea_ms - library_ms)); fi
        wanted "time beyond the library's $(ratio "($pea_ms - $library_ms)" "$first_ms") times the first (in proportion: $times; at most half as much again is wanted)" \
            "$pea_ms - $library_ms <= $times * 1.5 * $first_ms"
        wanted "memory $(ratio "$kb * 1024" "$bytes") times the input (at most 16 is wanted)" "$kb * 1024 <= 16 * $bytes"
        if [ -f loads/LoadClasses.class ] && command -v java >/dev/null; then
            java_ms=999999
            for _ in $(seq 1 "$runs"); do
                java_ms=$(least "$java_ms" "$(processor_ms java -Xverify:all -XX:+UseSerialGC -cp loads LoadClasses in)")
            done
            wanted "$pea_ms ms, and the JVM $java_ms ms (at most 2 times is wanted)" "$pea_ms <= 2 * $java_ms"
        else
            echo "  skipped: the JVM's time, since javac or java is missing"
        fi
    done
}

if said=$(bash "$root/scripts/jdk-library.sh" lib) && command -v javac >/dev/null; then
    many_classes
else
    echo "many classes: skipped, since there is no library or no javac: $said"
fi

if ! command -v python3 >/dev/null; then
    echo "large methods: skipped, since python3 is missing"
    exit "$failed"
fi
mkdir large empty
base_kb=$(peak_of empty "$root/examples/first/lib")
first=0
for count in 1250 2500 5000; do
    python3 "$root/bench/large_methods.py" large stated $((count / 2)) 1
    if command -v valgrind >/dev/null; then
        cost=$(instructions "$pea" verify large --lib "$root/examples/first/lib")
        unit=instructions
    else
        cost=$(verify_ms large "$root/examples/first/lib")
        unit=ms
    fi
    if [ "$first" = 0 ]; then first=$cost; fi
    echo "a method with $count stated frames: $cost $unit"
    wanted "$(ratio "$cost" "$first") times the first (in proportion: $((count / 1250)); at most half as much again is wanted)" "$cost <= $count / 1250 * 1.5 * $first"
done
python3 "$root/bench/large_methods.py" large locals 65535 1
kb=$(($(peak_of large "$root/examples/first/lib") - base_kb))
echo "a method of 65,535 bytes with 65,535 locals at each instruction: $(verify_ms large "$root/examples/first/lib") ms, $kb kB"
wanted "memory $kb kB (at most 1,000,000 is wanted)" "$kb <= 1000000"
exit "$failed"
