# leak_core leaves dead stack out: what a thread left below its stack pointer hides no leak, and what frames hold is not
# named.
section dead stack
export LEAK_FIND=$finder
build dead_stack.c

# hold_still MODE [COMMAND..]: runs the program in the background, by the command if there is one, until it is ready.
hold_still() {
    rm -f "$1.out" # of one before, which was ready too
    "${@:2}" ./dead_stack "$1" > "$1.out" 2>&1 &
    process=$!
    started[$process]=1
    until_true 30 grep -qs '^ready' "$1.out" || echo "no sign of $1: $(cat "$1.out")" >&2
}

# judged MODE OPTION..: dumps and searches. Gives how many lost blocks are named, how many others, and how many don't
# fit the heap. A lost block has 333 bytes, and by the heap 344.
judged() {
    limited 60 "$kit/leak_dump" "${@:2}" "$process" "$work/$1" 2> "$1.said" || { cat "$1.said"; return; }
    find_leaks one --check --skip-freed --skip-links "$1.core" "$1.log" > "$1.report" 2>&1
    awk '$1 == "leak" { if ($3 == 333 || $3 == 344) lost++; else others++ } $1 == "misfits" { misfits = $2 }
        END { print lost + 0, others + 0, misfits }' "$1.report"
}

# shows MODE LOST HIDDEN [COMMAND..]: of the lost blocks that many are named, with --whole-stack those but HIDDEN, and
# no others ever.
shows() {
    hold_still "$1" "${@:4}"
    verdict "$1${4:+, traced}: lost blocks named, others, misfits" "$2 0 0" "$(judged "$1")"
    verdict "$1${4:+, traced}: with --whole-stack" "$(($2 - $3)) 0 0" "$(judged "$1" --whole-stack)"
    stop "$process"
    rm -f "$1.core" "$1.table"
}

for by in '' "$kit/leak_trace"; do
    shows first 5 5 $by
    shows threads 12 12 $by
    shows signal 3 3 $by
    shows first_signal 3 3 $by
    shows leave 1 1 $by
    shows heap 0 0 $by
    shows coroutines 0 0 $by
    shows spin 0 0 $by
    shows enter 0 0 $by
    shows array 0 0 $by
    shows ended_hold 0 0 $by
done

section the core without dead stack
hold_still first
"$kit/leak_core" "$process" part.core 2> said
"$kit/leak_core" --whole-stack "$process" whole.core 2> said
pointer=$(limited 60 gdb -nx --batch ./dead_stack whole.core -ex 'p/x $sp' 2> gdb.said | sed -n 's/^\$1 = //p')
if [ "$pointer" ]; then
    at() { printf '0x%x' $((pointer + $1)); }
    word() { python3 "$kit/tests/dump.py" word "$@"; }
    verdict 'it begins at the stack pointer' "absent absent $(word whole.core "$pointer" "$(at 8)")" \
        "$(word part.core "$(at -8)" "$(at -16)" "$pointer" "$(at 8)")"
    frames() { limited 60 gdb -nx --batch ./dead_stack "$1" -ex backtrace 2> gdb.said | grep '^#'; }
    verdict 'gdb shows the same frames' "$(frames whole.core)" "$(frames part.core)"
    verdict 'there are ten at least' yes "$([ "$(frames part.core | wc -l)" -ge 10 ] && echo yes)"
else
    leave_out 'frames and the first word of the stack: no gdb'
fi
verdict 'no segment lies below it' 'absent' "$(python3 "$kit/tests/dump.py" word part.core \
    "$(awk '$6 == "[stack]" { print "0x" substr($1, 1, index($1, "-") - 1) }' "/proc/$process/maps")")"
verdict 'nothing is undumped' 0 "$(python3 "$kit/tests/dump.py" sizes part.core | cut -d ' ' -f 3)"
for option in '' --whole-stack; do
    limited 60 "$kit/leak_report" --raw $option "$process" 2> said | awk -v o="leak_report $option:" \
        '/^leaked/ { print o, $2 }'
done > reports
verdict 'leak_report hands it on' 'leak_report : 5 leak_report --whole-stack: 0' "$(xargs < reports)"
verdict 'of a core it is refused' \
    '2 leak_dump: --whole-stack applies to a running process: the core whole.core is as it was written' \
    "$("$kit/leak_report" --raw --whole-stack whole.core > said 2>&1; echo "$? $(cat said)")"
verdict '--size says the size' "$(stat -c %s part.core) $(stat -c %s whole.core)" \
    "$("$kit/leak_core" --size "$process") $("$kit/leak_core" --whole-stack --size "$process")"
stop "$process"

section dead stack in a core by the kernel
if [ "$dumps_core" ]; then
    hold_still first
    rm -f core core.*
    { kill -ABRT "$process" && wait "$process"; } 2> /dev/null
    limited 60 "$kit/leak_report" --raw "./$(kernel_core)" 2> said | awk '/^leaked/ { print $2 }' > given
    verdict 'the search leaves it out' '5 1' "$(cat given) $(grep -c -e ' --skip-dead-stack' said)"
    limited 60 "$kit/leak_dump" --core "./$(kernel_core)" given 2> said
    verdict 'leak_dump tells the same' 1 "$(grep -c 'now search: leak_find one .* --skip-dead-stack ' said)"
    verdict 'without it they are hidden' 'leaked 0 bytes 0' \
        "$(find_leaks one --skip-freed --skip-links given.core given.log 2> said | grep '^leaked')"
    rm -f core core.* given.*
else
    leave_out 'dead stack in a core by the kernel: it writes no core here'
fi

section threads that ended
hold_still ended_lose
found=$(judged ended_lose)
verdict 'nothing else is named' '0 0' "${found#* }"
if [ "${found%% *}" = 40 ]; then
    whole=$(judged ended_lose --whole-stack)
    verdict 'what only their stacks held is named' yes "$([ "${whole%% *}" -lt 40 ] && echo yes)"
else
    leave_out "stacks of threads that ended: ${found%% *} of 40 are named, so the records are not known"
fi
stop "$process"

# Each of the threads would have 64 MiB looked at: a minute in all.
section a thousand threads on one stack
hold_still crowd
limited 20 "$kit/leak_dump" "$process" "$work/crowd" 2> crowd.said
verdict 'the dump ends in time, and says how long it took' 1 "$(grep -c 'was stopped' crowd.said)"
find_leaks one --skip-freed --skip-links crowd.core crowd.log > crowd.report 2>&1
verdict 'nothing is named' 'leaked 0 bytes 0' "$(grep '^leaked' crowd.report)"
sed -n 's/.*was stopped for/     standstill/p' crowd.said
stop "$process"
rm -f ./*.core
