#!/usr/bin/env bash
# Runs the proved program on each class file of the tables of conformance/ (README.md there) with the library of the first example, and
# compares its answer and the files that it leaves. A file that is read counts as ok whether it is linked with that library and
# verifies, and is then written, or not, and then leaves no files. What is written has the same bytes where no method is rewritten, and else verifies.
# Prints a line for each file. PEA=PROGRAM names another program than bin/pea.
set -u
if [ $# != 0 ]; then
    echo "usage: bash scripts/conformance.sh" >&2
    exit 64
fi
cd "$(dirname "$0")/.." || exit 1
for tool in make awk sed cut paste split nproc cmp mktemp; do
    if ! command -v "$tool" >/dev/null; then
        echo "skipped: conformance, since $tool is missing"
        exit 0
    fi
done
if [ -z "${PEA:-}" ] && ! make -s bin/pea >/dev/null; then
    echo "FAILED the program is built"
    echo "0 passed, 1 failed"
    exit 1
fi
pea=$(realpath "${PEA:-bin/pea}")
tables=$PWD/conformance
changes=$PWD/scripts/changed-files.awk
library=$PWD/examples/first/lib
work=$(mktemp -d)
trap 'rm -rf "$work"' EXIT
cd "$work" || exit 1

# Sets came to the answer of the last run in the words of the tables, and written where it wrote the file. It printed to printed, and
# explained to why; the file stood in this folder.
answer() {
    local status=$1 folder=$2 printed said counts rewritten
    printed=$(<printed)
    {
        IFS= read -r said
        # That IN has no files is noted where the file stands in the library.
        case "$folder $said" in "LIB pea: note: NOTHING WAS READ: "*) IFS= read -r said ;; esac
    } <why
    if [ "$folder" = IN ]; then counts="files=1 classes=1"; else counts="files=0 classes=0"; fi
    rewritten=${printed##* rewritten=}
    rewritten=${rewritten%% *}
    case "$status $printed" in
        "0 done $counts rewritten="*" kept="*) came=ok ;;
        "4 refused 4 Unlinked "* | "5 refused 5 Unverified "*) came=ok ;;
        "2 refused 2 Malformed A.class "*) came="Malformed ${printed#refused 2 Malformed A.class }" ;;
        "3 refused 3 Version A.class "*) came="Version ${printed#refused 3 Version A.class }" ;;
        *) came="status $status, ${printed%%$'\n'*}" ;;
    esac
    # A refusal is explained on standard error, and nothing else is said there.
    case "$status $said" in
        "0 " | [2345]" pea: error: "*) ;;
        *) came="$came, explained by $said" ;;
    esac
    written=
    if [ "$status" = 0 ] && [ "$folder" = IN ]; then
        written=", written"
        if [ "$rewritten" = 0 ]; then
            cmp -s in/A.class out/A.class || came="$came, and other bytes"
        else
            written=", rewritten"
            "$pea" verify out --lib "$library" >/dev/null 2>&1 || came="$came, and what is written does not verify"
        fi
        rm -r out
    elif [ -e out ]; then
        came="$came, and files"
        rm -r out
    fi
}

# Runs the program on each file of a list, in a folder of its own.
run_each() {
    local name folder bytes wanted came written
    mkdir "$1.files"
    cd "$1.files" || exit 1
    mkdir in none
    cp -r "$library" lib
    while IFS=$'\t' read -r name folder wanted bytes; do
        if [ "$folder" = IN ]; then
            printf '%b' "$bytes" >in/A.class
            "$pea" optimise in out --lib "$library" >printed 2>why
        else
            printf '%b' "$bytes" >lib/A.class
            "$pea" optimise none out --lib lib >printed 2>why
        fi
        answer $? "$folder"
        if [ "$came" = "$wanted" ]; then
            echo "ok $name: $wanted$written"
        else
            echo "FAILED $name: wanted $wanted, came $came"
        fi
    done <"../$1"
}

# The files by name, folder, answer, and bytes with \x before each.
{
    awk -F'\t' -v OFS='\t' '{ print "class-files.tsv, line " NR, "IN", $1, $2 }' "$tables/class-files.tsv" &&
        awk -f "$changes" "$tables"/samples/*.hex "$tables/changes.tsv" &&
        awk -f "$changes" -v in_order=1 "$tables"/samples/*.hex "$tables/order.tsv"
} >hex || echo "FAILED the files are made" >said
paste <(cut -f 1,2,4 hex) <(cut -f 3 hex | sed 's/../\\x&/g') >files

# Every so many-th of them on each processor; what is said is in the order of the tables again.
split -n "r/$(nproc)" files part.
for part in part.*; do run_each "$part" >"$part.said" & done
wait
paste -d '\n' part.*.said | grep . >>said
cat said

passed=$(grep -c '^ok ' said)
failed=$(grep -c '^FAILED ' said)
written=$(grep -cE ', (re)?written$' said)
echo "$passed passed, $failed failed ($written written)"
[ "$passed" = "$(wc -l <files)" ] && [ "$failed" = 0 ] && [ "$written" != 0 ]
