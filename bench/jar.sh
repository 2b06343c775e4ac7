#!/usr/bin/env bash
# Verifies the class files of one jar of Debian (commons-lang3, some 360 of version 52.0) with the JDK that is on the machine as the
# library, against the JVM that loads and verifies the same classes, in the same run with a warm cache; the files stand in memory
# (/dev/shm) where the machine has it. Beside them with the whole JDK as the library, which has to answer the same. Runs of all come in
# turn, and the least time of each counts: that of the clock, and that of the processor, since other work may stand beside. Prints what
# is wanted and what came, and fails where a want is not met.
set -eu
cd "$(dirname "$0")/.."
. bench/measures.sh
jar=${1:-/usr/share/java/commons-lang3.jar}
if [ ! -f "$jar" ] || ! command -v javac >/dev/null || ! command -v unzip >/dev/null; then
    echo "the classes of a jar: skipped, since $jar, javac or unzip is missing"
    exit 0
fi
in_memory

# clock_ms COMMAND..: the clock's time of one run of a command
clock_ms() {
    local TIMEFORMAT='%3R'
    { time "$@" >/dev/null; } 2>&1 | awk '{ printf "%d\n", $1 * 1000 }'
}

if ! said=$(bash "$root/scripts/jdk-library.sh" lib); then
    echo "the classes of a jar: skipped, since there is no library: $said"
    exit 0
fi
bash "$root/scripts/jdk-library.sh" --whole whole
unzip -q "$jar" -d in
rm -rf in/META-INF/versions
find in -name module-info.class -delete
mkdir loads
javac -d loads "$root"/scripts/java/{LoadClasses,FolderLoader}.java
verifies() { "$pea" verify in --lib "$1"; }
loads() { java -Xverify:all -XX:+UseSerialGC -cp loads LoadClasses in; }

declare -A clock cpu
# turn NAME COMMAND..: two runs of a command, whose times in clock[NAME] and cpu[NAME] count if they are the least yet
turn() {
    local name=$1
    shift
    clock[$name]=$(least "${clock[$name]:-999999}" "$(clock_ms "$@")")
    cpu[$name]=$(least "${cpu[$name]:-999999}" "$(processor_ms "$@")")
}

for _ in $(seq 1 "$runs"); do
    turn pea verifies lib
    turn whole verifies whole
    turn java loads
done
echo "$(find in -name '*.class' | wc -l) class files with a library of $(find lib -name '*.class' | wc -l):" \
    "${clock[pea]} ms by the clock, ${cpu[pea]} of the processor; with the whole JDK of $(find whole -name '*.class' | wc -l):" \
    "${clock[whole]} and ${cpu[whole]}; the JVM ${clock[java]} and ${cpu[java]}"
if [ "$(verifies lib)" = "$(verifies whole)" ]; then same=1; else same=0; fi
wanted "the same answer with the whole JDK" "$same"
wanted "${clock[pea]} ms (at most 300 are wanted)" "${clock[pea]} <= 300"
wanted "$(ratio "${clock[pea]}" "${clock[java]}") times the JVM's (at most 1.2 is wanted)" "${clock[pea]} <= 1.2 * ${clock[java]}"
exit "$failed"
