#!/usr/bin/env bash
# planted.sh [CRATE..]: tries the edits of crates/CRATE/planted/ (of every crate, if none is named), which the gate leaves out, on a scratch
# copy of the repository and over what earlier checks kept. Prints each edit that is still proved, each that was not tried (it cannot be
# applied, compiled or read, or its check was cut off), and each whose refusal says little of the contract. The last line is
# 'N refused, M passed, K not tried'; it fails where M or K is not 0.
set -u
cd "$(dirname "$0")/.." || exit 1
root=$PWD
names=("$@")
if [ $# = 0 ]; then
    for folder in crates/*/planted; do
        if [ -d "$folder" ]; then names+=("$(basename "$(dirname "$folder")")"); fi
    done
fi
tried=()
for name in "${names[@]}"; do
    if [ ! -d "crates/$name" ]; then
        echo "planted.sh: there is no crate $name"
        exit 1
    fi
    if [ -d "crates/$name/planted" ]; then tried+=("$name"); fi
done
if [ ${#tried[@]} = 0 ]; then
    echo "0 refused, 0 passed, 0 not tried"
    exit 0
fi

work=$(mktemp -d)
trap 'rm -rf "$work"' EXIT
tar -C "$root" --exclude=./crates/*/out -cf - ./crates ./crates.txt ./HANDLES | tar -C "$work" -xf -
cd "$work" || exit 1
rm -rf crates/*/must-fail
for name in "${tried[@]}"; do
    mv "crates/$name/planted" "crates/$name/must-fail"
done

wanted=$(find crates/*/must-fail -name '*.edit' | wc -l)
rt must-fail "${tried[@]}" >told 2>&1 || true
grep -E 'must-fail .*: (NOT REFUSED|NOT TRIED|BAD EDIT)|: BAD EDIT: |\(only ' told | sed 's/must-fail/planted/' || true
refused=$(grep -c 'must-fail .*: refused, as it must be' told)
passed=$(grep -c 'must-fail .*: NOT REFUSED' told)
if ! grep -qE 'must-fail .*: ' told; then tail -n 5 told; fi
echo "$refused refused, $passed passed, $((wanted - refused - passed)) not tried"
[ "$refused" = "$wanted" ]
