# What a first user types: how the program is called, another path of a folder, and the scripts of the repository.

# told NAME TEST..: counts a check of its own kind.
told() {
    local name=$1
    shift
    if "$@"; then
        passed=$((passed + 1))
        echo "ok $name"
    else
        failed=$((failed + 1))
        echo "FAILED $name"
    fi
}

# The whole usage with the version, at the status of words that are no command.
for word in --help -h help --version; do
    run "$word"
    told "$word" eval '[ "$status" = 1 ] && [ "$(cat "$work/printed")" = "refused 1 Usage" ] &&
        grep -q "^pea: note: this is pea [0-9.]*," "$work/errors" && [ "$(grep -c "^    pea " "$work/errors")" = 7 ]'
done
run optimize in out --lib lib
told "a wrong command is named" grep -q "^pea: error: the word 'optimize' is no command" "$work/errors"

# A folder that is not there.
fresh
run verify nothere --lib lib
told "that nothing was read is the last line" eval '[ "$status" = 0 ] && [ "$(cat "$work/printed")" = "verified 0 0" ] &&
    tail -n 1 "$work/errors" | grep -q "NOTHING WAS READ"'

# OUT that is IN by another path: the command stands, and is warned of.
hex "$plain" >in/A.class
ln -s in link
for out in ./in in/ link; do
    run optimise in "$out" --lib lib
    told "OUT that is IN as $out" eval '[ "$status" = 0 ] && head -n 1 "$work/errors" | grep -q "^pea: note: OUT is the folder IN by another path"'
done
run optimise in out --lib lib
told "OUT that is another folder" eval '[ "$status" = 0 ] && [ ! -s "$work/errors" ]'

# Each script that takes words says how it is called, with a status of its own.
for script in jar gain library jdk-library compile-java build build-unproved run-example acceptance conformance written refused-allocations \
    compare-with-jvm; do
    case $script in
        jar | gain | library | jdk-library | compile-java) words=() ;;
        *) words=(one two three) ;;
    esac
    bash "$root/scripts/$script.sh" "${words[@]+"${words[@]}"}" >"$work/said" 2>&1
    status=$?
    told "$script.sh says how it is called" eval '[ "$status" = 64 ] && grep -q "^usage: bash scripts/$script.sh" "$work/said"'
done
for script in "$root"/scripts/*.sh "$root"/scripts/acceptance/*.sh; do
    if ! bash -n "$script"; then told "$script can be read" false; fi
done

# Scripts without the program say how it is made.
PEA=$work/none bash "$root/scripts/jar.sh" verify x.jar --lib lib >"$work/said" 2>&1
status=$?
told "jar.sh without the program" eval '[ "$status" = 69 ] && grep -q "make run" "$work/said"'

# jar CASE STATUS WORDS..: jar.sh with the program.
jar_script() {
    local name=$1 wanted=$2
    shift 2
    PEA=$pea bash "$root/scripts/jar.sh" "$@" >"$work/printed" 2>"$work/errors"
    status=$?
    told "jar.sh: $name" [ "$status" = "$wanted" ]
}
if command -v python3 >/dev/null; then
    fresh
    cp -r "$root/examples/points/in/." in
    (cd in && python3 -m zipfile -c ../points.jar Main.class Point.class)
    ln -s points.jar again.jar
    printf 'no jar' >none.jar
    jar_script "verify" 0 verify points.jar --lib lib
    told "jar.sh: its line" [ "$(cat "$work/printed")" = "verified 2 4" ]
    jar_script "plan" 0 plan points.jar --lib lib
    jar_script "run" 0 run points.jar "$root/examples/points/script" --lib lib
    told "jar.sh: the end of a run" [ "$(tail -n 1 "$work/printed")" = "end Stopped" ]
    jar_script "optimise" 0 optimise points.jar out.jar --lib lib
    told "jar.sh: the same files" eval 'cmp -s <(python3 -m zipfile -l points.jar | cut -c1-46) <(python3 -m zipfile -l out.jar | cut -c1-46)'
    jar_script "OUT.jar that is IN.jar by a link" 64 optimise points.jar again.jar --lib lib
    jar_script "OUT.jar that is IN.jar" 64 optimise points.jar ./points.jar --lib lib
    jar_script "a wrong command" 64 optimize points.jar out.jar --lib lib
    jar_script "a file that is no jar" 65 verify none.jar --lib lib
    jar_script "a jar that is not there" 65 verify nothere.jar --lib lib
    jar_script "a refusal of the program" 4 verify points.jar --lib in
    PEA=$pea bash "$root/scripts/gain.sh" points.jar lib >"$work/said" 2>&1
    status=$?
    told "gain.sh" eval '[ "$status" = 0 ] && grep -q "^all  *4$" "$work/said" && grep -q "^Host  *2 " "$work/said"'
else
    skipped "scripts for jars" "python3 is missing"
fi
