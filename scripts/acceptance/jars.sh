# The class files of Debian's Java packages that are installed, each jar alone, linked with the JDK: what is written verifies. A jar that is
# not linked is one of refused-jars.tsv, with its line and the reason.

# unpack JAR FOLDER: puts the files of a jar into the folder.
unpack() {
    if command -v unzip >/dev/null; then
        unzip -qq -o "$1" '*.class' -d "$2" 2>/dev/null
    else
        (cd "$2" && jar xf "$1")
    fi
}

# Leaves in a folder the class files of versions 50.x, 51.x and 52.0 alone, told by their first eight bytes.
leave_read_versions() {
    find "$1" -type f \( ! -name '*.class' -o -size -8c \) -delete
    find "$1" -type f -print0 | sort -z >"$work/names"
    xargs -0 -r head -q -c 8 <"$work/names" | od -An -v -tx1 -w8 | tr -d ' ' | paste - <(tr '\0' '\n' <"$work/names") |
        grep -vE '^(cafebabe....003[23]|cafebabe00000034)' | cut -f2 | while IFS= read -r name; do rm "$name"; done
    find "$1" -mindepth 1 -type d -empty -delete
}

# The line of a jar that is known to be refused, or nothing.
refusal_of() { awk -F '\t' -v jar="$1" '$1 == jar { print $2 }' "$root/scripts/acceptance/refused-jars.tsv"; }

jars() {
    local jar name files line found=0
    for jar in /usr/share/java/*.jar; do
        if [ -L "$jar" ] || [ ! -f "$jar" ]; then continue; fi
        fresh
        unpack "$jar" in
        leave_read_versions in
        files=$(class_files in)
        if [ "$files" = 0 ]; then continue; fi
        found=1
        name=$(basename "$jar")
        line=$(refusal_of "$name")
        run optimise in out --lib "$jdk"
        if [ -n "$line" ]; then
            check "$name, $files class files, $line" 4 "$line" absent out
        else
            check "$name, $files class files, $(rewritten) rewritten methods" 0 \
                "done files=$files classes=$files rewritten=$(rewritten) kept=$(kept)" same_names in out
            run verify out --lib "$jdk"
            check "$name, what is written" 0 "verified $files $(verified)" true
        fi
    done
    if [ "$found" = 0 ]; then skipped "class files of Debian's packages" "none are in /usr/share/java"; fi
}

if [ -n "$no_jdk" ]; then
    skipped "class files of Debian's packages" "$no_jdk"
elif command -v unzip >/dev/null || command -v jar >/dev/null; then
    jars
else
    skipped "class files of Debian's packages" "unzip and jar are missing"
fi
