# Words that only the kernel holds: they lead to blocks in leak_core's cores, and no thread notices that it was asked.
section what the kernel holds
build kernel_words.c
build kernel_threads.c
build_faulty faulty_calls
words_of() { python3 "$kit/tests/kernel_words.py" "$1"; }

# ready NAME PROGRAM WORD..: runs it, its output in NAME.out, until it says that it is ready, and its first thread
# waits. Its id is in `process`.
ready() {
    be_ready "$@"
    until_true 60 waits "$process"
}
# waits PID: whether the first thread waits in the kernel.
waits() { ! grep -qs '^running' "/proc/$1/syscall"; }

# lost_by NAME [OPTION..]: a dump by these options, and the sizes that its report names. NAME.said has what leak_core
# says.
lost_by() {
    limited 60 "$kit/leak_core" "${@:2}" "$process" "$1.core" 2> "$1.said" || cat "$1.said"
    "$kit/leak_walk" --quiet "$1.core" > "$1.log"
    find_leaks one "$1.core" "$1.log" --skip-freed --skip-links > "$1.report"
    named "$1.report"
}

ready kinds ./kernel_words
kinds=$process
if grep -q '^refused: ring' kinds.out; then
    leave_out "io_uring: the kernel refuses it"
fi
grep '^refused' kinds.out | grep -v ring
verdict 'epoll, timer, signals, rings and signal stacks are held' '1160 1304 ' "$(lost_by kinds)"
verdict 'with --pipes also what waits in a pipe' '1304 ' "$(lost_by piped --pipes)"
verdict 'with --no-calls no signal stack is known' '1160 1304 16392 ' "$(lost_by uncalled --no-calls)"
verdict '--size says the size' "$(stat -c %s kinds.core)" "$("$kit/leak_core" --size "$kinds")"
if ! grep -q '^refused: ring' kinds.out; then
    verdict 'requests in flight are counted' 'leak_core: 3 requests of io_uring are in flight' \
        "$(grep -o '.*in flight' kinds.said)"
fi
verdict 'the words of the note, in order' "$(words_of piped.core | cut -d ' ' -f 1 | sort | uniq -c | xargs)" \
    "$(grep -q '^refused: ring' kinds.out && echo 1 0 1 1 1 2 1 3 2 6 1 7 || echo 1 0 1 1 1 2 1 3 1 4 1 5 2 6 1 7)"
verdict 'no thread is left unasked' 0 "$(words_of kinds.core | sed -n 1p)"
verdict 'with --no-calls one is' 1 "$(words_of uncalled.core | sed -n 1p)"
verdict 'readelf finds nothing wrong' '' "$(readelf -lW kinds.core 2>&1 > /dev/null)"
if command -v gdb > /dev/null; then
    verdict 'gdb opens the core' yes "$(limited 60 gdb -nx --batch ./kernel_words kinds.core -ex backtrace 2> said |
        grep -q 'in rest ' && echo yes)"
else
    leave_out 'gdb opens the core: no gdb'
fi
address=$(words_of kinds.core | awk '$1 == 1 { print $3 }')
verdict 'leak_lines tells what such a root is' 1 \
    "$(find_leaks why kinds.core kinds.log "$address" | "$kit/leak_lines" --core kinds.core |
    grep -c '^root .*: data of what the epoll at descriptor [0-9]* watches$')"
verdict 'and changes nothing else' "$(find_leaks why kinds.core kinds.log "$address")" \
    "$(find_leaks why kinds.core kinds.log "$address" | "$kit/leak_lines" --core kinds.core | sed '/^root/s/:.*//')"
head -c 3000 kinds.core > cut.core
verdict 'a core that is cut off tells nothing' "$(find_leaks why kinds.core kinds.log "$address")" \
    "$(find_leaks why kinds.core kinds.log "$address" | "$kit/leak_lines" --core cut.core 2>&1)"
stop "$kinds"

section alternate signal stacks
for number in 1 300; do
    ready threads ./kernel_threads $number
    verdict "$number threads: each stack is held" '' "$(lost_by threads)"
    verdict "$number threads: each stack is told right" \
        "$(awk 'NF == 3 { print 3, $1, $2, 8192 }' threads.out | sort)" \
        "$(words_of threads.core | sed 1d | sort)"
    verdict "$number threads: without calls each counts as lost" "$(yes 8200 | head -n $number | xargs) " \
        "$(lost_by uncalled --no-calls)"
    verdict "$number threads: and is marked" "$number marked" \
        "$("$kit/leak_lines" uncalled.report |
        awk '/ size 8200$/ { blocks = $2 } /may be the alternate signal stack of a thread$/ {
            print blocks, "marked" }')"
    stop "$process"
done
ready ended ./kernel_threads ended 4
verdict 'stacks of threads that ended are lost, and are not marked where all threads were asked' \
    '8200 8200 8200 8200  0' \
    "$(lost_by ended) $("$kit/leak_lines" ended.report | grep -c 'may be')"
verdict 'nor where they are more than the threads' '8200 8200 8200 8200 8200  0' \
    "$(lost_by uncalled --no-calls) $("$kit/leak_lines" uncalled.report | grep -c 'may be')"
stop "$process"
ready top ./kernel_threads top
if grep -q refused top.out; then
    leave_out 'a mapping at the end of memory: it is refused'
else
    verdict 'a mapping at the end of memory' '' "$(lost_by top)"
fi
stop "$process"
ready seccomp ./kernel_threads seccomp
if grep -q refused seccomp.out; then
    leave_out 'seccomp: it is refused'
else
    verdict 'a thread under seccomp is not called' '8200 ' "$(lost_by seccomp)"
    verdict 'the reason is said' \
        'leak_core: of 1 of 2 threads it is not known whether they have an alternate signal stack, which only the kernel knows: it is under seccomp' \
        "$(grep 'signal stack' seccomp.said)"
    verdict 'its stack is marked' 1 \
        "$("$kit/leak_lines" seccomp.report | grep -c 'may be the alternate signal stack of a thread$')"
    verdict 'JSON has the mark' 1 \
        "$("$kit/leak_lines" --json seccomp.report |
        grep -c '"remark": "may be the alternate signal stack of a thread"')"
    verdict 'the process lives' 2 "$(ls "/proc/$process/task" | wc -l)"
fi
stop "$process"

section threads that are asked go on as they were
# unusual: what the program says of its threads, after the lines before.
unusual() {
    local before
    before=$(wc -l < states.out)
    kill -USR1 "$process"
    until_true 60 has_lines "$((before + 1))"
    tail -n 1 states.out
}
has_lines() { [ "$(wc -l < states.out)" -ge "$1" ]; }
ready states ./kernel_threads states
for i in 1 2 3 4 5 6 7 8 9 10; do
    limited 60 "$kit/leak_core" "$process" states.core 2> states.said || cat states.said
    words_of states.core
done > told
verdict 'each stack is told right in ten dumps' \
    "$(awk 'NF == 3 { for (i = 0; i < 10; i++) print 3, $1, $2, 8192 }' states.out | sort)" \
    "$(grep '^3 ' told | sort)"
verdict 'no wait has ended, no register has changed' 'ended 0 changed 0 counts' "$(unusual)"
steps=0 status=1
while [ $status != 0 ] && [ $steps -lt 500 ]; do
    steps=$((steps + 1))
    LEAK_CORE_DIE=$steps limited 60 ./faulty_calls "$process" died.core 2> said
    status=$?
    [ "$(ls "/proc/$process/task" | wc -l)" = 8 ] ||
        { echo "after a death at $steps the process has $(ls "/proc/$process/task" | wc -l) threads"; break; }
done > faults 2>&1
verdict "killed at each of $steps places, leak_core leaves all threads living" '50 at least, then status 0' \
    "$([ $steps -ge 50 ] && echo "50 at least, then status $status"; grep -v Killed faults)"
unusual > counted
verdict 'and their registers as they were' 'changed 0 counts' "$(cut -d ' ' -f 3- counted)"
limited 60 "$kit/leak_core" "$process" states.core 2> said || cat said
verdict 'a dump thereafter ends no wait' "$(cat counted)" "$(unusual)"
stop "$process"

section alternate signal stacks by the table
# killed NAME PROGRAM WORD..: runs it traced, kills it when it is ready, and gives the sizes that are lost by the core
# of the kernel. The top of malloc's heap may be the end of a block.
killed() {
    local table pid
    rm -f core core.* table.*
    ready "$1" "$kit/leak_trace" "${@:2}"
    pid=$(awk 'NF == 1 && $1 ~ /^[0-9]+$/ { print $1 }' "$1.out")
    pid=${pid:-$process}
    table=$(sed -n 's/^[^ ]* rw-s [^/]*//p' "/proc/$pid/maps" | grep "^$work/table" | head -n 1)
    { kill -ABRT "$pid"; wait "$process"; } 2> /dev/null
    unset "started[$process]"
    "$kit/leak_dump" --core "$(kernel_core)" "$table" "$1" 2> "$1.said" || cat "$1.said"
    find_leaks one "$1.core" "$1.log" --skip-freed --skip-links --skip-ends > "$1.report"
    named "$1.report"
}
if [ "$dumps_core" ]; then
    verdict 'the core of the kernel: those of three threads are held' '' "$(killed three ./kernel_threads 3)"
    verdict 'none is left that is not known' 0 "$(sed -n 's/^= leak_log signal stacks \([0-9]*\) .*/\1/p' three.log)"
    "$kit/leak_walk" --quiet three.core > three.log
    verdict 'a walk knows none of four threads' 4 "$(sed -n 's/^= leak_log signal stacks \([0-9]*\) .*/\1/p' three.log)"
    verdict 'that of a child of fork is held' '' "$(killed child ./kernel_threads fork)"
    verdict 'those of 400 threads that ended are lost, and that of the one after them is held' \
        "$(yes 8192 | head -n 400 | xargs) " \
        "$(killed ended ./kernel_threads ended 400)"
    verdict 'those of 330 threads find no room in the table' "$(yes 8192 | head -n 10 | xargs) " \
        "$(killed many ./kernel_threads 330)"
    verdict 'which is known' 10 "$(sed -n 's/^= leak_log signal stacks \([0-9]*\) .*/\1/p' many.log)"
    verdict 'and they are marked' yes \
        "$("$kit/leak_lines" many.report | grep -q 'may be the alternate signal stack of a thread$' && echo yes)"
else
    leave_out 'signal stacks by the table: the kernel writes no core here'
fi
rm -f ./*.core ./*.log core core.*

section many words
ready descriptors ./kernel_words many
if grep -q refused descriptors.out; then
    leave_out '19,900 descriptors: they are refused'
else
    verdict '19,900 watched descriptors: each block is held' '' "$(lost_by descriptors)"
    sed -n 's/.*was stopped for/     standstill/p' descriptors.said
fi
stop "$process"
ready threads ./kernel_threads 1000
verdict '1,000 threads: each stack is held' '' "$(lost_by threads)"
sed -n 's/.*was stopped for/     standstill/p' threads.said
stop "$process"
rm -f ./*.core ./*.log
