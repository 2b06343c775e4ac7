# The compiled sources of examples/java, linked with the JDK: they verify, and so does what is written, with each method counted.

# How many methods the class files of a folder have, constructors and static initialisers included.
methods() { find "$1" -name '*.class' -print0 | xargs -0 javap -p | grep -cE '^  .*(\(.*\).*|static \{\});$'; }

# planned RELEASE METHODS: the last run printed a line for each of so many methods, each with a reason, and initialisers are no hosts
planned() {
    if [ "$status" = 0 ] && [ "$(wc -l <"$work/printed")" = "$2" ] &&
        ! grep -Evq '^[^ ]+ [^ ]+ [^ ]+ (Host|Float|Expanded|NoSite|Wide|NoGain|Long|PoolFull|Rewritten( (sites|news|enters|bytes)=[0-9]+){4})$' \
            "$work/printed" &&
        ! grep -E ' <(cl)?init> ' "$work/printed" | grep -qv ' Host$'; then
        passed=$((passed + 1))
        echo "ok Java $1, a reason for each method: $(cut -d' ' -f4 "$work/printed" | sort | uniq -c | awk '{ printf "%s%s %s", sep, $1, $2; sep = ", " }')"
    else
        failed=$((failed + 1))
        echo "FAILED Java $1, a reason for each method (status $status): $(head -n 1 "$work/printed")"
    fi
}

# compiled_java RELEASE: checks the sources of a release
compiled_java() {
    local files
    compile_java "$1" "compiled Java" || return 0
    files=$(class_files in)
    run optimise in out --lib "$jdk"
    check "Java $1, $files class files are written, with $(rewritten) rewritten methods" "$compiled" \
        "done files=$files classes=$files rewritten=$(rewritten) kept=$(kept)" same_names in out
    run verify out --lib "$jdk"
    check "Java $1, what is written verifies" 0 "verified $files $(verified)" true
    run verify in --lib "$jdk"
    check "Java $1, verified" 0 "verified $files $(verified)" true
    if command -v javap >/dev/null; then
        check "Java $1, verified methods" 0 "verified $files $(methods in)" true
        run optimise in out --lib "$jdk"
        check "Java $1, rewritten and kept methods" 0 \
            "done files=$files classes=$files rewritten=$(rewritten) kept=$(($(methods in) - $(rewritten)))" true
        run plan in --lib "$jdk"
        planned "$1" "$(methods in)"
    else
        skipped "Java $1, rewritten and kept methods" "javap is missing"
    fi
}

for release in 7 8; do
    if [ -n "$no_jdk" ]; then
        skipped "compiled Java $release" "$no_jdk"
    else
        compiled_java "$release"
    fi
done

# A method that makes a point in front of a division, whose handler reads it, beside the base library: it is rewritten, and what is written verifies.
divided() {
    fresh
    mkdir src
    cat >src/T.java <<'JAVA'
class P {
    int x;
    int y;
    P(int a, int b) { x = a; y = b; }
    int y() { return y; }
}

class T {
    static int t(int d) {
        P p = new P(d, 1);
        if (d == 7) return 7;
        try {
            int q = 10 / d;
            L.use(p);
            return q;
        } catch (ArithmeticException e) {
            return p.x;
        }
    }
}
JAVA
    javac --release "$1" -Xlint:-options -cp lib -d in src/T.java >/dev/null 2>&1
    run verify in --lib lib
    check "Java $1, a point that a handler reads" 0 "verified 2 4" true
    run optimise in out --lib lib
    check "Java $1, the same is rewritten" 0 "done files=2 classes=2 rewritten=1 kept=3" true
    run verify out --lib lib
    check "Java $1, and verifies" 0 "verified 2 5" true
}

for release in 7 8; do
    if ! command -v javac >/dev/null; then
        skipped "Java $release, a point that a handler reads" "javac is missing"
    else
        divided "$release"
    fi
done
