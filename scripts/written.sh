#!/usr/bin/env bash
# Runs the program on each folder of conformance/written.tar.xz (conformance/README.md) and compares the reasons, the summary line, the written
# class files byte for byte, and the runs before and after with those of an independent implementation. Prints a line for each folder that differs.
# PEA=PROGRAM names another program than bin/pea. A word names the folders to take, as in: bash scripts/written.sh cases
set -u
cd "$(dirname "$0")/.." || exit 1
if [ $# -gt 1 ]; then
    echo "usage: bash scripts/written.sh [cases|random|FOLDER]" >&2
    exit 64
fi
for tool in tar xz cmp diff find sort mktemp nproc xargs; do
    if ! command -v "$tool" >/dev/null; then
        echo "skipped: written code, since $tool is missing"
        exit 0
    fi
done
if [ -z "${PEA:-}" ] && ! make -s bin/pea >/dev/null; then
    echo "FAILED the program is built"
    echo "0 passed, 1 failed"
    exit 1
fi
pea=$(realpath "${PEA:-bin/pea}")
export pea
work=$(mktemp -d)
trap 'rm -rf "$work"' EXIT
tar xJf conformance/written.tar.xz -C "$work" || exit 1

# The library of a case: one has a member that is public and protected.
library() { case $1 in */protected-and-public) echo "$2/lib2" ;; *) echo "$2/lib" ;; esac; }

# One folder: says what differs.
folder_differs() {
    local case=$1 lib differs=""
    lib=$(library "$case" "$2")
    cd "$case" || return
    "$pea" plan in --lib "$lib" >plan.came 2>/dev/null
    cmp -s plan.txt plan.came || differs="$differs plan"
    "$pea" optimise in came --lib "$lib" >summary.came 2>/dev/null
    cmp -s summary.txt summary.came || differs="$differs summary"
    if [ -d out ]; then
        # All files that do not stand in out/ are as they were.
        cp -r in wanted
        cp -r out/. wanted/
        diff -rq wanted came >/dev/null 2>&1 || differs="$differs files"
    fi
    "$pea" verify came --lib "$lib" >/dev/null 2>&1 || differs="$differs verification"
    for script in script*.txt; do
        [ -e "$script" ] || continue
        "$pea" both in "$script" --lib "$lib" >both.came 2>/dev/null
        cmp -s "both${script#script}" both.came || differs="$differs runs($script)"
    done
    if [ -n "$differs" ]; then echo "FAILED ${case#"$2"/}:$differs"; else echo "ok ${case#"$2"/}"; fi
}
export -f folder_differs library

of=${1:-}
case $of in
    "") of="$work/cases $work/random" ;;
    cases | random) of=$work/$of ;;
    *) of="" ;;
esac
if [ -n "$of" ]; then
    find $of -mindepth 1 -maxdepth 1 -type d
else
    echo "$work/$1"
fi | sort | xargs -P "$(nproc)" -I{} bash -c "folder_differs {} $work" >"$work/said"
grep '^FAILED' "$work/said"
passed=$(grep -c '^ok ' "$work/said")
failed=$(grep -c '^FAILED' "$work/said")
echo "$passed passed, $failed failed"
[ "$failed" = 0 ] && [ "$passed" -gt 0 ]
