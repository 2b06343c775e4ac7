#!/usr/bin/env bash
# gain.sh JAR [LIB]: what `pea optimise` would gain of a jar: how many methods are rewritten, with the allocation sites that they keep in
# locals, the objects and the monitors that they no longer make and enter, and why the others are kept, by reason. LIB is a library; where it
# is left out, one is made of the machine's JDK, for this run. PEA=FILE takes another program than bin/pea.
set -eu
if [ $# -lt 1 ] || [ $# -gt 2 ]; then
    echo "usage: bash scripts/gain.sh JAR [LIB]" >&2
    exit 64
fi
here=$(cd "$(dirname "$0")" && pwd)
source "$here/program.sh"
work=$(mktemp -d)
trap 'rm -rf "$work"' EXIT
library=${2:-}
if [ -z "$library" ]; then
    library=$work/lib
    if ! said=$(bash "$here/jdk-library.sh" "$library"); then
        echo "there is no LIB, and none can be made of the machine's JDK: $said" >&2
        exit 69
    fi
fi
status=0
PEA=$pea bash "$here/jar.sh" plan "$1" --lib "$library" >"$work/plan" 2>"$work/why" || status=$?
if [ "$status" != 0 ]; then
    cat "$work/plan"
    cat "$work/why" >&2
    exit "$status"
fi
awk '
    $4 == "Rewritten" {
        for (at = 5; at <= NF; at++) {
            split($at, part, "=")
            sum[part[1]] += part[2]
        }
    }
    { count[$4]++; all++ }
    END {
        reasons = "Rewritten Host Float Expanded NoSite Wide NoGain Long PoolFull"
        why["Rewritten"] = "written anew"
        why["Host"] = "no code, or <init> or <clinit>"
        why["Float"] = "arithmetic of float or double"
        why["Expanded"] = "more than 8,000 instructions with its callees"
        why["NoSite"] = "no object that may be kept in locals"
        why["Wide"] = "too many objects, fields, locals or stack"
        why["NoGain"] = "nothing gained: each object is made on each way, or none is"
        why["Long"] = "its new code would be too long"
        why["PoolFull"] = "its constant pool would be too large"
        total = split(reasons, name, " ")
        printf "%-10s %8s %7s  %s\n", "reason", "methods", "share", "meaning"
        for (at = 1; at <= total; at++)
            if (count[name[at]] > 0 || name[at] == "Rewritten")
                printf "%-10s %8d %6.1f%%  %s\n", name[at], count[name[at]], all ? 100 * count[name[at]] / all : 0, why[name[at]]
        printf "%-10s %8d\n", "all", all
        printf "allocation sites in locals: %d; allocations removed: %d; monitor entries removed: %d\n", sum["sites"], sum["news"], sum["enters"]
    }' "$work/plan"
