# Freed memory: what the log says of it, what leak_find names without it and with it.
section freed memory
build freed.c
build stale.c

# skipped NAME: what is named of the last dump with --skip-freed, after what is named without.
skipped() {
    find_leaks one "$work/$1.core" "$work/$1.log" > "$1.report" 2>&1
    find_leaks one --skip-freed "$work/$1.core" "$work/$1.log" > "$1.skipped" 2>&1
    echo "$(named "$1.report")and $(named "$1.skipped")"
}

# whole NAME: the first search's report is that of the log without its freed memory, except for the numbers of
# lines.
whole() {
    awk '/^\+ / { getline; next } { print }' "$1.log" > "$1.bare.log"
    diff <(sed 's/^\(leak [^ ]* [^ ]*\) [0-9]*/\1/' "$1.report") \
        <(find_leaks one "$work/$1.core" "$1.bare.log" 2>&1 | sed 's/^\(leak [^ ]* [^ ]*\) [0-9]*/\1/') > /dev/null &&
        echo same
}

# freed NAME SOURCE PID: dumps the process, and looks.
freed() {
    dump "$3" "$work/$1"
    verdict "$1: spans" 'over no live block' "$(python3 "$kit/tests/spans.py" "$1.log" | sed 's/.*, //')"
    verdict "$1: named without and with" "and $(expected "$kit/tests/$2")" "$(skipped "$1")"
    verdict "$1: the report without" same "$(whole "$1")"
}
start ./stale
freed stale stale.c $process
stop $process
if [ "$attaches" ]; then
    start ./freed
    freed freed1 freed.c $process
    dump --after "$work/freed1" $process "$work/freed2"
    verdict 'a second dump: spans' 'over no live block' "$(python3 "$kit/tests/spans.py" freed2.log | sed 's/.*, //')"
    verdict 'a second dump: named without and with' "and $(expected "$kit/tests/freed.c")" "$(skipped freed2)"
    find_leaks two --skip-freed freed1.{core,log} freed2.{core,log} > two.report 2>&1
    verdict 'a pair of dumps' "$(expected "$kit/tests/freed.c")" "$(named two.report)"
    verdict 'a pair of dumps: blocks' "$(awk '/^blocks|^freed/' freed2.skipped)" "$(awk '/^blocks|^freed/' two.report)"
    stop $process
else
    leave_out 'two dumps of one process: none may be stopped'
fi
start ./freed child
child=$(pgrep -P $process)
started[$child]=1
settle "$child"
freed freed-child freed.c "$child"
stop $process $child

# Where one of malloc's lists begins is freed memory too, and where a mapping of a block ends is not in the block.
build fast.c
build mapped.c
for name in fast mapped; do
    start ./$name
    dump $process "$work/$name"
    find_leaks one --skip-freed --skip-links "$name.core" "$name.log" > "$name.report" 2>&1
    verdict "$name, traced" "$(expected "$kit/tests/$name.c")" "$(named $name.report)"
    "$kit/leak_walk" --quiet "$name.core" > "$name.walk"
    find_leaks one --check --skip-freed --skip-links "$name.core" "$name.walk" > "$name.report" 2>&1
    verdict "$name, by the heap" "1 0" "$(awk '$1 == "leaked" || $1 == "misfits" { print $2 }' $name.report | xargs)"
    stop $process
done

# If a block is just being moved, the table knows of no free memory, but the heap does.
if [ "$attaches" ]; then
    build moving.c
    gcc -O1 -shared -fPIC "$kit/tests/stopped.c" -o stopped.so
    LD_PRELOAD=$work/stopped.so start ./moving
    limited 120 "$kit/leak_dump" $process "$work/moving" 2> said
    "$kit/leak_walk" --unused moving.table moving.core > moving.unused
    verdict "while realloc moves a block: the heap's free memory alone" same \
        "$(grep '^[-+] 0x' moving.log | cmp - moving.unused && echo same)"
    verdict 'it is said' 1 "$(grep -c 'just being moved by realloc' said)"
    verdict 'what the block holds is not named' '' \
        "$(find_leaks one --skip-freed --skip-links moving.core moving.log > moving.report; named moving.report)"
fi
rm -f ./*.core
