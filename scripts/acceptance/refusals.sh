# Class files that are refused: the first fault with its place, or the version, of the first such name in byte order.

fresh
hex "$plain" | head -c 52 >in/A.class
run optimise in out --lib lib
check "a class file without its last byte" 2 "refused 2 Malformed A.class 51 Short" absent out

fresh
hex "$plain" >in/B.class
{ hex "$plain"; printf x; } >in/C.class
printf x >in/D.class
run optimise in out --lib lib
check "the first refused name in byte order" 2 "refused 2 Malformed C.class 53 Extra" absent out

fresh
printf 'class' >'in/größe %.class'
run optimise in out --lib lib
check "a refused name is printed with escapes" 2 "refused 2 Malformed gr%c3%b6%c3%9fe%20%25.class 0 Magic" absent out

fresh
mkdir -p in/p
: >in/p/.class
run optimise in out --lib lib
check "an empty class file" 2 "refused 2 Malformed p/.class 0 Short" absent out

# Versions by their minor and major number, each with the answer.
while read -r minor major want_status want_line; do
    fresh
    hex "cafebabe $minor $major $plain_rest" >in/A.class
    run optimise in out --lib lib
    if [ "$want_status" = 0 ]; then after=(same in out); else after=(absent out); fi
    check "the version $((16#$major)).$((16#$minor))" "$want_status" "$want_line" "${after[@]}"
done <<'VERSIONS'
0000 0032 0 done files=1 classes=1 rewritten=0 kept=0
ffff 0032 0 done files=1 classes=1 rewritten=0 kept=0
0000 0033 0 done files=1 classes=1 rewritten=0 kept=0
0007 0033 0 done files=1 classes=1 rewritten=0 kept=0
0001 0034 3 refused 3 Version A.class 52 1
ffff 0034 3 refused 3 Version A.class 52 65535
0000 0031 3 refused 3 Version A.class 49 0
0003 002d 3 refused 3 Version A.class 45 3
0000 0035 3 refused 3 Version A.class 53 0
ffff ffff 3 refused 3 Version A.class 65535 65535
VERSIONS

# code_file LENGTH: a class file whose one method has a code of so many bytes, nops and a return. The code's length stands at byte 86.
code_file() {
    hex "cafebabe 0000 0034 0008 070002 01000141 070004 0100106a6176612f6c616e672f4f626a656374 0100016d 010003282956
        010004436f6465 0021 0001 0003 0000 0000 0001 0009 0005 0006 0001 0007 $(printf '%08x' $(($1 + 12)))
        0000 0000 $(printf '%08x' "$1")"
    if [ "$1" != 0 ]; then
        head -c $(($1 - 1)) /dev/zero
        hex "b1"
    fi
    hex "0000 0000 0000"
}
for length in 0 1 65535 65536; do
    fresh
    code_file "$length" >in/A.class
    run optimise in out --lib lib
    if [ "$length" = 1 ] || [ "$length" = 65535 ]; then
        check "a code of length $length" 0 "done files=1 classes=1 rewritten=0 kept=1" same in out
    else
        check "a code of length $length" 2 "refused 2 Malformed A.class 86 CodeLength" absent out
    fi
done

fresh
hex "cafebabe 0000 0035 ffff" >in/A.class
printf x >in/B.class
run optimise in out --lib lib
check "a version before a malformed file" 3 "refused 3 Version A.class 53 0" absent out

fresh
printf 'x' >in/A.txt
hex "$plain" | head -c 10 >in/A.class
hex "cafebabe 0000 0035" >in/B.class
mkdir out
printf 'old' >out/A.class
run optimise in out --lib lib
check "a malformed file before a version" 2 "refused 2 Malformed A.class 10 Short" \
    eval '[ "$(cat out/A.class)" = old ] && absent out/A.txt'
