# The library: which of its files are read, and what linking asks of it; and the JDK of the machine as a library, which the
# parts behind this one take as well. Sets jdk to its folder, or no_jdk to why there is none.

name="the example's library and that of the stored run"
if diff -r -x README.md "$root/examples/first/lib" "$root/crates/pea/data/lib" >/dev/null; then
    passed=$((passed + 1))
    echo "ok $name"
else
    failed=$((failed + 1))
    echo "FAILED $name"
fi

fresh
rm -r lib
hex "$plain" >in/A.class
run optimise in out --lib lib
check "a class and no library" 4 "refused 4 Unlinked A - - Missing" absent out

fresh
hex "$plain" >in/A.class
mkdir out
printf 'old' >out/A.class
rm lib/java/lang/NullPointerException.class
run optimise in out --lib lib
check "a library without a class that the machine needs" 4 \
    "refused 4 Unlinked java/lang/NullPointerException - - Missing" eval '[ "$(cat out/A.class)" = old ]'

fresh
hex "$plain" >in/A.class
run optimise in out --lib in
check "the input as its library" 4 "refused 4 Unlinked A - - Duplicate" absent out

fresh
hex "$plain" >in/A.class
hex "cafebabe 0000 0035 $(plain_rest_of 42)" >lib/B.class
printf 'no class file' >lib/B.classes
run optimise in out --lib lib
check "a class file of the library of another version" 3 "refused 3 Version B.class 53 0" absent out

hex "cafebabe 0003 002d $(plain_rest_of 42)" >lib/B.class
run optimise in out --lib lib
check "a class file of the library of version 45.3" 0 "done files=1 classes=1 rewritten=0 kept=0" same in out

fresh
hex "$plain" >in/A.class
mkdir -p 'lib/z z'
printf 'no class file' >'lib/z z/B.class'
run optimise in out --lib lib
check "a file of the library that is no class file" 2 "refused 2 Malformed z%20z/B.class 0 Magic" absent out

fresh
hex "$plain" >in/A.class
rm -r lib
printf 'a file' >lib
run optimise in out --lib lib
check "a library that is a file" 6 "" absent out

jdk=$work/jdk
no_jdk=$(bash "$root/scripts/jdk-library.sh" "$jdk")
case $? in
    0)
        no_jdk=
        fresh
        run optimise in out --lib "$jdk"
        check "the JDK's $(class_files "$jdk") class files as a library" 0 "done files=0 classes=0 rewritten=0 kept=0" absent out
        ;;
    2) skipped "the JDK as a library" "$no_jdk" ;;
    *)
        failed=$((failed + 1))
        echo "FAILED the JDK as a library is made: $no_jdk"
        ;;
esac
