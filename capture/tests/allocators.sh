# Other allocators than glibc's: which options are told, and what a search finds of 600 lost blocks with and without
# them. One that is not installed is left out.
section other allocators
build allocators.c
gcc -O1 -shared -fPIC -DALLOCATOR "$kit/tests/allocators.c" -o side_by_side.so

# found OPTION..: of the lost blocks, how many a search of `heap` names, and how many others.
found() {
    find_leaks one "$@" heap.core heap.log 2> /dev/null > heap.report
    awk 'NR == FNR { lost[$1]; next } $1 == "leak" { if ($2 in lost) found++; else others++ } END {
        print found + 0, others + 0 }' lost heap.report
}

# judge_heap NAME LIBRARY OPTIONS LEAST: with the options that leak_dump tells, this many blocks at least are found, and
# no others. If more than the ends of blocks hide some, the allocator's own records do.
judge_heap() {
    LD_PRELOAD=$2 start ./allocators "$work/lost"
    limited 120 "$kit/leak_dump" $process "$work/heap" 2> said
    limited 120 "$kit/leak_dump" --after "$work/heap" $process "$work/later" 2> later.said
    verdict "$1: a later dump goes on from the log" 0 $?
    rm -f later.core
    stop $process
    verdict "$1: the options that are told" "one $3" \
        "$(sed -n 's/.*now search: leak_find \(.*\) [^ ]*core [^ ]*log$/\1/p' said)"
    echo "     planted, found, others: $(wc -l < lost) $(found --other-heap); with $3: $(found $3)"
    verdict "$1: found with them" "$4 or more, others 0" \
        "$(found $3 | awk -v least="$4" '{ print ($1 >= least ? least " or more" : $1) ", others " $2 }')"
    verdict "$1: none but lost ones are found without" 0 "$(found --other-heap | cut -d ' ' -f 2)"
}
judge_heap glibc '' '--skip-freed --skip-links --all-memory' 590
judge_heap 'one that nobody knows' "$work/side_by_side.so" '--other-heap --skip-ends --all-memory' 590
verdict 'the log says so' '= leak_log allocator unknown' "$(grep '^= leak_log allocator' heap.log)"
for name in jemalloc tcmalloc_minimal mimalloc; do
    library=$(ls /usr/lib/*/lib$name.so.[0-9]* 2> /dev/null | head -n 1)
    [ "$library" ] || { leave_out "$name, which is not installed"; continue; }
    judge_heap $name "$library" '--other-heap --skip-ends --skip-freed --all-memory' 590 # their heaps are walked beside
    verdict "$name: that its records hide leaks is said" "$([ $name = jemalloc ] && echo 1 || echo 0)" \
        "$(grep -c "^leak_log: lib$name.* keeps addresses of blocks" said)"
    verdict "$name: the log says so" 1 "$(grep -c "^= leak_log allocator lib$name" heap.log)"
done
rm -f heap.core heap.log
