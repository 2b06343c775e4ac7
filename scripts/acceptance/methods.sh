# The static methods of examples/methods, which calls.txt lists with their arguments: run by the program and by the JVM they give the
# same results and throw exceptions of the same classes, and so do the written ones on the JVM.

# script_of CALLS: the script of these calls; each constructor of the library that a method calls returns nothing
script_of() {
    awk '!/^#/ { printf "call %s %s %s", $1, $2, $3; for (i = 5; i <= NF; i++) printf " %s", $i; print "";
        for (i = 0; i < $4; i++) print "return" }' "$1"
    echo stop
}

# outcomes: of the lines of a run, what each call gave; a reference is told by the class with which it appeared first
outcomes() {
    awk '{ for (i = 2; i <= NF; i++) if ($i ~ /^r:[0-9]+=/) { split($i, parts, "="); sub(/[+"].*/, "", parts[2]); class[parts[1]] = parts[2] } }
        $2 == "result" || $2 == "threw" {
            value = $3; if (value == ";") value = ""; sub(/=.*/, "", value); if (value in class) value = class[value]
            print $2 (value == "" ? "" : " " value) }'
}

methods_run() {
    local calls=$root/examples/methods/calls.txt
    fresh
    if ! javac --release 8 -Xlint:-options -d in "$root"/examples/methods/*.java >/dev/null 2>&1; then
        skipped "static methods on the JVM" "javac does not compile for it"
        return
    fi
    mkdir loader
    javac -Xlint:-options -d loader "$root/scripts/java/RunMethods.java"
    script_of "$calls" >script
    run run in script --lib "$jdk"
    outcomes <"$work/printed" >given
    java -cp in:loader RunMethods "$calls" >wanted
    if [ "$status" = 0 ] && tail -n 1 "$work/printed" | grep -qx 'end Stopped' && cmp -s given wanted; then
        passed=$((passed + 1))
        echo "ok $(wc -l <given) calls of $(grep -v '^#' "$calls" | cut -d' ' -f1-3 | sort -u | wc -l) static methods give what they give on the JVM"
    else
        failed=$((failed + 1))
        echo "FAILED static methods on the JVM (status $status): $(tail -n 1 "$work/printed")"
        diff given wanted | head -n 20
    fi
    run optimise in out --lib "$jdk"
    java -Xverify:all -cp out:loader RunMethods "$calls" >given 2>"$work/said"
    check "the same methods as they are written, $(rewritten) of them rewritten" 0 \
        "done files=$(class_files in) classes=$(class_files in) rewritten=$(rewritten) kept=$(kept)" cmp -s given wanted
}

if [ -n "$no_jdk" ]; then
    skipped "static methods on the JVM" "$no_jdk"
elif ! command -v javac >/dev/null || ! command -v java >/dev/null; then
    skipped "static methods on the JVM" "javac or java is missing"
else
    methods_run
fi
