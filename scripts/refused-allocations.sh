#!/usr/bin/env bash
# Runs bin/pea on an example and refuses its allocations in turn, the first 200 (or so many as the first word says) of those that only a
# run makes: each time the program must end with status 9 and have printed a prefix of what it prints otherwise, or end as otherwise. It is
# no part of the gate. Needs cc: the allocations are refused by a library that is loaded in front of the C library.
set -eu
if [ $# -gt 1 ]; then
    echo "usage: bash scripts/refused-allocations.sh [COUNT]" >&2
    exit 64
fi
cd "$(dirname "$0")/.."
count=${1:-200}
if ! command -v cc >/dev/null; then
    echo "skipped: refused allocations, since cc is missing"
    exit 0
fi
source scripts/program.sh
work=$(mktemp -d)
trap 'rm -rf "$work"' EXIT
cat >"$work/refuse.c" <<'C'
#define _GNU_SOURCE
#include <dlfcn.h>
#include <stdio.h>
#include <stdlib.h>
static long made, refused = -1;
static int refuse(void) {
    if (refused < 0) { char *at = getenv("REFUSED"); refused = at ? atol(at) : 0; }
    return ++made == refused;
}
typedef void *(*take_fn)(size_t);
typedef void *(*grow_fn)(void *, size_t);
typedef void *(*align_fn)(size_t, size_t);
typedef int (*posix_fn)(void **, size_t, size_t);
void *malloc(size_t size) {
    static take_fn real;
    if (!real) real = (take_fn)dlsym(RTLD_NEXT, "malloc");
    return refuse() ? NULL : real(size);
}
void *realloc(void *old, size_t size) {
    static grow_fn real;
    if (!real) real = (grow_fn)dlsym(RTLD_NEXT, "realloc");
    return refuse() ? NULL : real(old, size);
}
void *aligned_alloc(size_t align, size_t size) {
    static align_fn real;
    if (!real) real = (align_fn)dlsym(RTLD_NEXT, "aligned_alloc");
    return refuse() ? NULL : real(align, size);
}
int posix_memalign(void **out, size_t align, size_t size) {
    static posix_fn real;
    if (!real) real = (posix_fn)dlsym(RTLD_NEXT, "posix_memalign");
    return refuse() ? 12 : real(out, align, size);
}
__attribute__((destructor)) static void tell(void) {
    char *path = getenv("MADE"); if (!path) return;
    FILE *file = fopen(path, "w"); if (file) { fprintf(file, "%ld\n", made); fclose(file); }
}
C
cc -shared -fPIC -O1 -o "$work/refuse.so" "$work/refuse.c" -ldl
ask=("$pea" run examples/points/in examples/points/script --lib examples/first/lib)
# where there is a javac, a run with more allocations: the methods of the bench
if command -v javac >/dev/null; then
    mkdir "$work/src" "$work/in"
    { awk '/Prints the least time/ { exit } { print }' bench/java/Turns.java && echo "}"; } >"$work/src/Turns.java"
    if javac --release 8 -Xlint:-options -d "$work/in" "$work/src/Turns.java" 2>/dev/null; then
        printf 'call Turns loop (I)I i:50\ncall Turns objects (I)I i:50\ncall Turns deep (I)I i:50\nstop\n' >"$work/script"
        ask=("$pea" run "$work/in" "$work/script" --lib examples/first/lib)
    fi
fi
made() { MADE="$work/made" LD_PRELOAD="$work/refuse.so" "$@" >"$work/printed" 2>/dev/null; cat "$work/made"; }
before=$(made "${ask[@]}" --steps 0)
all=$(made "${ask[@]}")
cp "$work/printed" "$work/wanted"
last=$((before + count < all ? before + count : all))
nine=0
same=0
for number in $(seq $((before + 1 > 20 ? before - 19 : 1)) "$last"); do
    status=0
    REFUSED=$number LD_PRELOAD="$work/refuse.so" "${ask[@]}" >"$work/printed" 2>/dev/null || status=$?
    size=$(wc -c <"$work/printed")
    if [ "$status" = 9 ] && head -c "$size" "$work/wanted" | cmp -s - "$work/printed"; then
        nine=$((nine + 1))
    elif [ "$status" = 0 ] && cmp -s "$work/wanted" "$work/printed"; then
        same=$((same + 1))
    else
        echo "FAILED: allocation $number of $all refused: status $status, printed $(head -c 100 "$work/printed")"
        exit 1
    fi
done
echo "a run of $all allocations, $((all - before)) of them by its steps and what is printed: $nine refused ones ended it with status 9, $same changed nothing"
