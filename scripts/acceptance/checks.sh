# How a check is made. Sourced by acceptance.sh, which sets pea, root and work.
passed=0
failed=0

# A fresh working folder, with the folder of the input and that of the first example's library.
fresh() {
    rm -rf "$work/case"
    mkdir -p "$work/case/in"
    cp -r "$root/examples/first/lib" "$work/case/lib"
    cd "$work/case" || exit 1
}

# Runs the program on the words, and keeps its status and what it printed.
run() {
    "$pea" "$@" >"$work/printed" 2>"$work/errors"
    status=$?
}

# What the last run wrote to standard error explains a refusal or a failed call of the system by its status, and has notes beside.
explained() {
    local said='pea: note: '
    case $status in
        1 | 2 | 3 | 4 | 5 | 7 | 12) said='pea: error: ' ;;
        6) said='pea: cannot ' ;;
    esac
    if [ "$said" != 'pea: note: ' ]; then grep -q "^$said" "$work/errors" || return 1; fi
    ! grep -v '^  ' "$work/errors" | grep -Eqv "^($said|pea: note: )"
}

# check NAME STATUS LINE TEST..: the last run has this status and printed this line (none where it is
# empty), its standard error is as above, and the test holds.
check() {
    local name=$1 want_status=$2 want_line=$3
    shift 3
    if [ -n "$want_line" ]; then printf '%s\n' "$want_line"; fi >"$work/wanted"
    if [ "$status" = "$want_status" ] && cmp -s "$work/printed" "$work/wanted" && explained && "$@"; then
        passed=$((passed + 1))
        echo "ok $name"
    else
        failed=$((failed + 1))
        echo "FAILED $name (status $status, printed: $(head -c 200 "$work/printed"))"
    fi
}

# compile_java RELEASE WHAT: compiles the sources of a release into the input of a fresh folder, and keeps the status; where no
# javac here knows the release, this is skipped, and false
compile_java() {
    local said
    fresh
    said=$(bash "$root/scripts/compile-java.sh" "$1" in)
    compiled=$?
    if [ "$compiled" = 2 ]; then
        skipped "$2 $1" "$said"
        return 1
    elif [ "$compiled" != 0 ]; then
        printf '%s\n' "$said"
    fi
}

skipped() { echo "skipped: $1, since $2"; }

same() { diff -r "$1" "$2" >/dev/null; }
# The second folder has files of the same names, and of them those that are no class files are the same.
same_names() { ! diff -rq "$1" "$2" | grep -vqE '^Files .*\.class differ$'; }
absent() { [ ! -e "$1" ]; }

# The numbers of rewritten and of kept methods that the last run printed.
rewritten() { sed -n 's/.* rewritten=\([0-9]*\) .*/\1/p' "$work/printed"; }
kept() { sed -n 's/.* kept=//p' "$work/printed"; }

# How many methods the last run verified.
verified() { sed -n 's/^verified [0-9]* //p' "$work/printed"; }

# How many class files a folder has.
class_files() { find "$1" -type f -name '*.class' | wc -l; }

# hex BYTES..: writes the bytes
hex() { printf "$(printf '%s' "$*" | tr -d ' \n' | sed 's/../\\x&/g')"; }

# A class without members behind its version. Its name is the letter of this code.
plain_rest_of() { echo "0005 070002 010001$1 070004 0100106a6176612f6c616e672f4f626a656374 0021 0001 0003 0000 0000 0000 0000"; }

# Such classes named A, of 53 bytes, and B, and one named A with two abstract methods.
plain_rest=$(plain_rest_of 41)
plain="cafebabe 0000 0034 $plain_rest"
plain_b="cafebabe 0000 0034 $(plain_rest_of 42)"
two_methods='cafebabe 0000 0034 0008 070002 01000141 070004 0100106a6176612f6c616e672f4f626a656374 0100016d 0100016e 010003282956
    0421 0001 0003 0000 0000 0002 0401 0005 0007 0000 0401 0006 0007 0000 0000'
