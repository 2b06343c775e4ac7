#!/usr/bin/env bash
# Builds the hierarchy of generated class files without members: of 5,000, 10,000 and 20,000 classes, which is to grow in proportion beyond
# reading them (with an empty library, where the folder is refused once it is read); linking and verifying classes without members is in it.
# Asks a million questions of subtypes of each, about a thousand classes spread over it, which are not to take more where there are more classes
# (crates/bench); and builds a chain of 40,000 classes, which is to take about the time of 40,000 others. Counted instructions are judged where
# valgrind is there: they are the same at each run. Times are printed beside them, since they also tell how far the classes outgrow the
# processor's caches, and are judged where it is missing. The sizes take turns, so that other work on the machine falls on all of them, and the
# least time of each counts. Prints what is wanted and what came, and fails where a want is not met.
set -eu
cd "$(dirname "$0")/.."
. bench/measures.sh
need_python trees
build_bench
in_memory

# growth ONE OTHER: how many times the first the other is
growth() { ratio "$2" "($1 < 1 ? 1 : $1)"; }

# make FOLDER SHAPE COUNT: makes a folder with such an input, and its library
make() {
    mkdir -p "$1/in"
    python3 "$root/bench/hierarchy_sizes.py" "$1/in" "$2" "$3"
    library "$1/lib"
}

# reads and builds FOLDER: what is refused once it is read, and what is verified; asks FOLDER MOST TIMES: so many questions
reads() { "$pea" verify "$1/in" --lib none 2>/dev/null || true; }
builds() { "$pea" verify "$1/in" --lib "$1/lib"; }
asks() { (cd "$1" && "$bench" ask "$2" "$3"); }

# as many classes are built at each size, so that one noise falls on all
built=40000
questions=1000000
asked=20000
few=1000
all=4294967295
sizes="5000 10000 20000"
mkdir none
for count in $sizes; do make "$count" lattice "$count"; done
make others lattice 40000
make chain chain 40000

for _ in $(seq 1 "$runs"); do
    for count in $sizes; do
        turn "read $count" times $((built / count)) reads "$count"
        turn "build $count" times $((built / count)) builds "$count"
        turn "none $count" asks "$count" "$few" 0
        turn "few $count" asks "$count" "$few" "$questions"
        turn "all $count" asks "$count" "$all" "$questions"
    done
    turn chain builds chain
    turn others builds others
done

# beyond WHICH COUNT: the time of the questions about few or all
beyond() { echo $((least_ms[$1 $2] - least_ms[none $2])); }

# counted COUNT MOST: the instructions of a question, beyond those of none
counted() { echo $((($(cd "$1" && instructions "$bench" ask "$2" "$asked") - $(cd "$1" && instructions "$bench" ask "$2" 0)) / asked)); }

first_few_ms=
for count in $sizes; do
    builds=$((built / count))
    build_ms=$((least_ms[build $count] - least_ms[read $count]))
    few_ms=$(beyond few "$count")
    all_ms=$(beyond all "$count")
    if [ -z "$first_few_ms" ]; then
        first_build_ms=$build_ms
        first_few_ms=$few_ms
    fi
    slower_build=$(growth "$first_build_ms" "$build_ms")
    slower_few=$(growth "$first_few_ms" "$few_ms")
    echo "$count classes: built in $builds processes in $build_ms ms, $slower_build times the first's time"
    echo "  $questions questions about 1,000 of them in $few_ms ms, $slower_few times the first's time; about all in $all_ms ms"
    if command -v valgrind >/dev/null; then
        build=$((($(instructions "$pea" verify "$count/in" --lib "$count/lib") - $(instructions "$pea" verify "$count/in" --lib none)) / count))
        one_few=$(counted "$count" "$few")
        one=$(counted "$count" "$all")
        first_build=${first_build:-$build}
        first_few=${first_few:-$one_few}
        first_one=${first_one:-$one}
        wanted "$build instructions a class that is built, the first $first_build (a tenth more is let pass)" "$build <= 1.1 * $first_build"
        wanted "$one_few instructions a question about 1,000, the first $first_few (a tenth more is let pass)" "$one_few <= 1.1 * $first_few"
        wanted "$one instructions a question about all, the first $first_one (a tenth more is let pass)" "$one <= 1.1 * $first_one"
    else
        echo "  instructions are not counted, since valgrind is missing: times are judged"
        wanted "a class is built in $slower_build times the first's time (half as much again is let pass)" "$build_ms <= 1.5 * $first_build_ms"
        wanted "questions take $slower_few times the first's time (half as much again is let pass)" "$few_ms <= 1.5 * $first_few_ms"
    fi
done

slower=$(growth "${least_ms[others]}" "${least_ms[chain]}")
echo "40000 classes in a chain: read and built in ${least_ms[chain]} ms; 40000 others in ${least_ms[others]} ms"
wanted "the chain $slower times the others (at most twice is wanted)" "$slower <= 2"
exit "$failed"
