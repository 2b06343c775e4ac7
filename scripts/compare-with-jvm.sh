#!/usr/bin/env bash
# compare-with-jvm.sh [NUMBER_OF_FOLDERS] [SEED]: makes random folders (1,000, of seed 1) and runs each on the JVM and by `pea run` with the same
# script: the events have to be the same, but for the counts of allocations and of monitors. Then each folder is optimised, and the written one is run on
# the JVM, which verifies its classes, and by `pea both`: the events have to be the same, with no more allocations and monitors. Prints a line for each of
# the two where all agree, and else each folder that differs, and where the folders are kept. PEA=FILE takes another program than bin/pea; where neither is there, crates/pea is run
# by `rt try`, without proofs. KEEP=FOLDER keeps all that was made.
set -eu
if [ $# -gt 2 ]; then
    echo "usage: bash scripts/compare-with-jvm.sh [NUMBER_OF_FOLDERS] [SEED]" >&2
    exit 64
fi
cd "$(dirname "$0")/compare"
count=${1:-1000}
seed=${2:-1}
for tool in java javac jimage python3; do
    if ! command -v "$tool" >/dev/null; then
        echo "skipped: the comparison with the JVM, since $tool is missing"
        exit 0
    fi
done
pea=${PEA:-$PWD/../../bin/pea}
if [ ! -x "$pea" ]; then
    if ! command -v rt >/dev/null; then
        echo "skipped: the comparison with the JVM, since there is no $pea and no rt"
        exit 0
    fi
    pea=
fi
work=${KEEP:-$(mktemp -d)}
mkdir -p "$work"/{in,source,second,script,wanted,classes,again,player}
flags=(-J-Duser.language=en --release 8 -Xlint:-options -nowarn -proc:none)

# compile FROM INTO CLASSES: the sources of a folder, some hundred packages a call, against these classes
compile() {
    local part
    find "$1" -name '*.java' | sort >"$work/sources"
    rm -f "$work"/part.*
    split -l 2000 "$work/sources" "$work/part."
    for part in "$work"/part.*; do
        if [ -s "$part" ]; then javac "${flags[@]}" -cp "$3" -sourcepath "$1" -d "$2" "@$part"; fi
    done
}

javac "${flags[@]}" -d "$work/player" java/*.java
python3 -B library.py "$work/player" "$work/lib"
python3 -B generate.py "$work" "$count" "$seed"
compile "$work/source" "$work/classes" "$work/player"
compile "$work/second" "$work/again" "$work/player:$work/classes"
cp -r "$work/again/." "$work/classes"
for folder in "$work"/classes/*; do
    name=${folder##*/}
    mkdir -p "$work/in/$name"
    mv "$folder" "$work/in/$name/$name"
done
java -Xint -cp "$work/player" library.RunFolders "$work" "$seed"
status=0
python3 -B compare.py "$work" "$work/lib" ${pea:+"$pea"} || status=$?
if [ -n "$pea" ]; then
    mkdir -p "$work"/written/{in,script,wanted}
    python3 -B compare_written.py optimise "$work" "$work/lib" "$pea" || status=1
    java -Xint -Xverify:all -cp "$work/player" library.RunFolders "$work/written" "$seed"
    python3 -B compare_written.py compare "$work" "$work/lib" "$pea" || status=1
fi
if [ "$status" != 0 ]; then
    echo "kept in $work"
elif [ -z "${KEEP:-}" ]; then
    rm -rf "$work"
fi
exit "$status"
