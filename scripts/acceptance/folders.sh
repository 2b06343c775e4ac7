# Folders that are copied, and calls of the host that fail.

fresh
run optimise in out --lib lib
check "an empty folder" 0 "done files=0 classes=0 rewritten=0 kept=0" absent out

fresh
rmdir in
run optimise in out --lib lib
check "an input that is not there" 0 "done files=0 classes=0 rewritten=0 kept=0" absent out

fresh
hex "$plain" >in/A.class
run optimise in out --lib lib
check "a plain class file" 0 "done files=1 classes=1 rewritten=0 kept=0" same in out

fresh
hex "$two_methods" >in/A.class
hex "$plain_b" >in/B.class
printf 'm n' >in/methods
run optimise in out --lib lib
check "methods are counted as kept" 0 "done files=3 classes=2 rewritten=0 kept=2" same in out

fresh
mkdir -p in/p/q out/old
hex "$plain" >in/p/q/A.class
printf 'notes' >in/p/notes.txt
printf 'kept' >out/old/kept.txt
run optimise in out --lib lib
check "nested folders, and old files of the output" 0 "done files=2 classes=1 rewritten=0 kept=0" \
    eval '[ "$(cat out/old/kept.txt)" = kept ] && cmp -s in/p/q/A.class out/p/q/A.class && cmp -s in/p/notes.txt out/p/notes.txt'

fresh
printf 'one' >'in/a b.txt'
printf 'two' >'in/größe.txt'
printf '' >in/empty
run optimise --lib=lib in out
check "names with spaces and letters beyond ASCII" 0 "done files=3 classes=0 rewritten=0 kept=0" same in out

fresh
if touch "$(printf 'in/\377.txt')" 2>/dev/null; then
    run optimise in out --lib lib
    check "a name that is not UTF-8" 6 "" absent out
else
    skipped "a name that is not UTF-8" "the file system refuses it"
fi

fresh
printf a >in/a.txt
printf b >in/b.txt
printf c >in/c.txt
mkdir -p out/b.txt
run optimise in out --lib lib
check "a write that fails" 6 "" eval '[ "$(cat out/a.txt)" = a ] && absent out/c.txt'
rmdir out/b.txt
run optimise in out --lib lib
check "the same again without the fault" 0 "done files=3 classes=0 rewritten=0 kept=0" same in out

fresh
printf a >in/a.txt
printf 'a file' >out
run optimise in out --lib lib
check "an output that is a file" 6 "" eval '[ "$(cat out)" = "a file" ]'

fresh
printf a >in/a.txt
"$pea" optimise in out --lib lib >/dev/full 2>"$work/errors"
status=$?
: >"$work/printed"
check "a full standard output" 6 "" same in out

fresh
printf 'target' >target
ln -s ../target in/link
ln -s . in/loop
printf a >in/a.txt
run optimise in out --lib lib
check "links are not followed" 0 "done files=1 classes=0 rewritten=0 kept=0" eval '[ "$(ls out)" = a.txt ]'

fresh
for number in $(seq 1 2000); do printf '%s' "$number" >"in/file$number.txt"; done
run optimise in out --lib lib
check "2,000 small files" 0 "done files=2000 classes=0 rewritten=0 kept=0" same in out
