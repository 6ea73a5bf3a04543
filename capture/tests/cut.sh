# A table that somebody makes shorter: tracing ends, and the process goes on. What else sends SIGBUS does what it did.
section a table that becomes shorter
build cut.c

# begins MODE: runs it traced, until it is ready. `process` is its id.
begins() {
    rm -f cut.in cut.out table.*
    mkfifo cut.in
    (exec 3<> cut.in; exec "$kit/leak_trace" ./cut "$1" <&3 > cut.out 2> cut.said) &
    process=$!
    started[$process]=1
    until_true 60 grep -qsx ready cut.out
}

# shortened BYTES: its table has only so many bytes then. (Its owner may not write it, but change that.)
shortened() { chmod u+w "table.$process" && truncate -s "$1" "table.$process"; }
answers() { grep -qs '^went on' cut.out || is_dead "$process"; }

# outcome MODE BYTES: what the process says and how it ended, if its table is made so short before it allocates.
outcome() {
    begins "$1"
    shortened "$2"
    echo > cut.in
    until_true 60 answers 2> /dev/null
    tail -n 1 cut.out
    if is_dead "$process"; then { wait "$process"; kill -l $?; } 2> /dev/null; else stop "$process"; fi
}
for bytes in 0 16384 20000 300000; do
    verdict "to $bytes bytes: the process goes on" 'went on' "$(outcome plain $bytes)"
    verdict "to $bytes bytes, and it forks then" 'went on' "$(outcome fork $bytes)"
done
begins plain
shortened 0
echo > cut.in
until_true 60 answers 2> /dev/null
verdict 'it is said' "leak_trace: $process: $work/table.$process: somebody made the table shorter; not traced" \
    "$(cat cut.said)"
verdict 'the table is gone' '' "$(ls table.* 2> /dev/null)"
if [ "$attaches" ]; then
    limited 120 "$kit/leak_dump" "$process" cut 2> said
    verdict 'its blocks are by the heap then' 1 "$(grep -c "the blocks of cut.log are by the heap" said)"
fi
stop "$process"
alive=0
for turn in $(seq 10); do
    begins busy
    sleep "0.0$turn"
    shortened $((turn % 5 * 16384))
    until_true 60 answers 2> /dev/null
    is_dead "$process" || alive=$((alive + 1))
    stop "$process"
done
verdict 'of 10 whose threads were just at work go on' 10 $alive

section SIGBUS by the program itself
verdict 'its own handler gets its own page' 'went on, and its own page was told' "$(outcome own 0)"
verdict 'without a handler it ends by its own page' 'ready BUS' "$(outcome fault 0 | tr '\n' ' ' | sed 's/ $//')"
verdict 'and by kill' 'ready BUS' "$(outcome killed 0 | tr '\n' ' ' | sed 's/ $//')"
begins fault
echo > cut.in
until_true 60 answers 2> /dev/null
verdict 'also with a whole table, which stays' "1 table.$process" "$(is_dead "$process" && echo 1) $(ls table.*)"
rm -f table.*
for mode in shown ignored; do
    verdict "it is told what it set itself: $mode" "$(./cut $mode)" "$(limited 60 "$kit/leak_trace" ./cut $mode)"
done
rm -f cut.core cut.log
