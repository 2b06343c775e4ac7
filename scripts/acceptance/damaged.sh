# Compiled Java with a byte damaged in the code or the stated frames of a method, each class alone: the folder verifies exactly where
# the JVM links the class, but for what linking asks at once and the JVM when an instruction is run (docs/DECISIONS.md).

# damaged_java RELEASE COUNT: checks so many methods of the sources of a release
damaged_java() {
    local release=$1 count=$2 number file place before after jvm both=0 linking=0
    compile_java "$release" "damaged Java" || return 0
    javac -d tools "$root"/scripts/java/{Damage,FolderLoader}.java
    java -Xverify:all -cp tools Damage in damaged "$count" >"$work/damaged" 2>"$work/said"
    while IFS=$'\t' read -r number file place before after jvm; do
        run verify "damaged/$number" --lib "$jdk/java.base"
        if { [ "$status" = 0 ] && [ "$jvm" = yes ]; } || { [ "$status" != 0 ] && [ "$jvm" != yes ]; }; then
            both=$((both + 1))
        elif [ "$status" = 4 ] && [ "$jvm" = yes ]; then
            linking=$((linking + 1))
        else
            echo "  $file at $place, $before is $after: $(head -c 200 "$work/printed"), and the JVM says $jvm"
        fi
    done <"$work/damaged"
    name="Java $release, $count damaged methods: $both answers as the JVM's, $linking refused by linking alone"
    if [ $((both + linking)) = "$count" ]; then
        passed=$((passed + 1))
        echo "ok $name"
    else
        failed=$((failed + 1))
        echo "FAILED $name; $(head -c 200 "$work/said")"
    fi
}

for release in 7 8; do
    if [ -n "$no_jdk" ]; then
        skipped "damaged Java $release" "$no_jdk"
    elif ! command -v java >/dev/null; then
        skipped "damaged Java $release" "java is missing"
    else
        damaged_java "$release" 50
    fi
done
