# The words of a call.

# Wrong words, each as one line with | between words.
while IFS= read -r line; do
    fresh
    IFS='|' read -r -a words <<<"$line"
    run "${words[@]+"${words[@]}"}"
    check "wrong words: $line" 1 "refused 1 Usage" absent out
done <<'WORDS'

optimise
optimise|in|out
optimise|in|--lib|lib
optimise|in|out|more|--lib|lib
optimise|in|out|--lib
optimise|in|out|--lib|-lib
optimise|in|out|--lib=
optimise|in|out|--lib|lib|--lib=lib
optimise|in|out|--other|lib
optimise|in|out|-x|--lib|lib
optimise|in|in|--lib|lib
optimise|in|lib|--lib|lib
optimise|in||--lib|lib
optimize|in|out|--lib|lib
--lib|lib|optimise|in|out
verify|in
plan|in
plan|in|out|--lib|lib
plan|in|--lib|lib|--steps|1
both|in|--lib|lib
both|in|s.txt|--steps|1
list|in
list|in|A.class|--lib|lib
list|in|A.class|--steps|1
WORDS

# Right words in other orders.
while IFS= read -r line; do
    fresh
    printf a >in/a.txt
    IFS='|' read -r -a words <<<"$line"
    run "${words[@]}"
    check "right words: $line" 0 "done files=1 classes=0 rewritten=0 kept=0" same in out
done <<'WORDS'
optimise|--lib|lib|in|out
optimise|in|--lib|lib|out
optimise|in|out|--lib=lib
optimise|in|out|--lib=-lib
WORDS

fresh
run optimise in out --lib "$(printf '\377')"
check "a word that is not UTF-8" 1 "refused 1 Usage" absent out

fresh
hex "$plain" >in/A.class
run verify in --lib lib
check "verify" 0 "verified 1 0" absent out

run verify --lib=lib in out
check "verify and an output" 1 "refused 1 Usage" absent out

fresh
hex "cafebabe 0000 0034 000a 070002 01000154 070004 0100106a6176612f6c616e672f4f626a656374 01000176 010003282956 010004436f6465
    0c0005 0006 0a0003 0008 0021 0001 0003 0000 0000 0001 0009 0005 0006 0001 0007 0000000e 0000 0000 00000002 57b1 0000 0000 0000" >in/T.class
run verify in --lib lib
check "a method that pops an empty stack" 5 "refused 5 Unverified T v ()V 0 Stack" absent out
run optimise in out --lib lib
check "the same under optimise" 5 "refused 5 Unverified T v ()V 0 Stack" absent out
