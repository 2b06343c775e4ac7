#!/usr/bin/env bash
# Asks for the flat code, with callees in place of their calls, of every method of the compiled Java of examples/java, some forty times under
# other package names, with the JDK that is on the machine as its library (pea plan beyond pea verify), against the time of verifying the same
# folder (pea verify, beyond the same where the first method of the first class fails), in the same run. The least time of some runs counts.
# Prints what is wanted and what came, and fails where a want is not met.
set -eu
cd "$(dirname "$0")/.."
. bench/measures.sh
need_python expand
if ! command -v javac >/dev/null; then
    echo "expand: skipped, since javac is missing"
    exit 0
fi
in_memory
mkdir one in
for release in 7 8; do bash "$root/scripts/compile-java.sh" "$release" one; done
bash "$root/scripts/jdk-library.sh" lib >/dev/null
copies=${COPIES:-40}
for number in $(seq 1 "$copies"); do
    first=$(printf 'd%04d' "$number") second=$(printf 's%05d' "$number")
    cp -r one/depot "in/$first"
    cp -r one/survey "in/$second"
    find "in/$first" "in/$second" -type f -exec env LC_ALL=C sed -i "s#depot/#$first/#g; s#survey/#$second/#g" {} +
done

# until_verifying: reads and links the folder; its first class fails to verify
until_verifying() { "$pea" verify in --lib lib 2>/dev/null || true; }

for _ in $(seq 1 "$runs"); do
    python3 "$root/bench/link_folders.py" . type
    turn linked until_verifying
    rm in/A.class
    turn verified "$pea" verify in --lib lib
    turn planned "$pea" plan in --lib lib
done
verify_ms=$((least_ms[verified] - least_ms[linked]))
expand_ms=$((least_ms[planned] - least_ms[verified]))
echo "$(find in -name '*.class' | wc -l) class files; methods with flat code: $("$pea" plan in --lib lib | grep -cvE ' (Host|Float|Expanded|NoSite|Wide)$')"
wanted "flat code of all methods in $expand_ms ms, all verified in $verify_ms ms: $(ratio "$expand_ms" "($verify_ms < 1 ? 1 : $verify_ms)") times (at most 1.5 is wanted)" \
    "$expand_ms <= 1.5 * $verify_ms"
exit "$failed"
