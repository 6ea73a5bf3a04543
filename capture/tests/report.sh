# leak_report: a process that nobody prepared, the kernel's core of one, two moments, a table if there is one, and what
# is refused.
section leak_report
[ -x walk_leaks ] || build walk_leaks.c
[ -x plain ] || build plain.c
gcc -shared -fPIC -O1 -g -o lost_on.so "$kit/tests/leaker.c" -pthread
export LEAK_FIND=$finder

# reported NAME WORD..: what leak_report prints goes to NAME.out, what it says to NAME.said, its status to `status`.
reported() {
    local name=$1
    shift
    TMPDIR=$work/temporary limited 120 "$kit/leak_report" --raw "$@" > "$name.out" 2> "$name.said"
    status=$?
}
mkdir -p temporary

# listed NAME: the sizes of the blocks that the table of NAME.out is about, each with how many there are.
listed() { awk '$1 == "bytes" && $2 == "blocks" { in_table = 1; next } in_table && /^ *[0-9]/ { print $1 / $2 }' \
    "$1.out" | sort -n | tr '\n' ' '; }

if [ "$attaches" ]; then
    unprepared ./walk_leaks later
    reported living --keep first --list $process
    verdict 'of a living process: the status' 1 $status
    verdict 'named, by the list' "$(expected "$kit/tests/walk_leaks.c")" "$(named living.out | in_steps)"
    verdict 'named, by the table' "$(expected "$kit/tests/walk_leaks.c")" "$(listed living | tr ' ' '\n' | in_steps)"
    verdict 'what is kept' 'dump.core dump.log dump.report ' \
        "$(cd first && ls dump.core dump.log dump.report | tr '\n' ' ')"
    verdict 'the log is by the heap' 1 "$(grep -c 'by the heap in the core' living.said)"
    verdict 'it goes on' yes "$(kill -0 $process && echo yes)"
    echo > in
    settle $process
    reported pair --after first --list $process
    verdict 'of two moments: what was lost at both' "$(expected "$kit/tests/walk_leaks.c")" \
        "$(named pair.out | in_steps)"
    verdict 'no file is left behind' '' "$(ls "$work/temporary")"
    reported again --keep first $process
    verdict 'a folder with a dump' '2 leak_report: first has a dump already' "$status $(cat again.said)"
    reported later --after none $process
    verdict 'no earlier dump' "2 leak_report: none has no dump: make it by leak_report --keep none" \
        "$status $(cat later.said)"
    stop $process

    LD_PRELOAD=$work/lost_on.so unprepared ./plain
    reported attached --attach --for 3s --list $process
    verdict 'attached: what is lost since has callers' '1 yes' \
        "$status $(awk '/ lose_on .*leaker\.c:/ { if ($2 > 5) print "yes" }' attached.out)"
    verdict 'attached: and what was lost before has none' yes \
        "$(awk '$5 == "size" && $6 == 56 && $2 >= 50 { print "yes" }' attached.out)"
    verdict 'attached: it is not traced any more' "leak_attach: process $process is not attached" \
        "$("$kit/leak_trace" --detach $process 2>&1)"
    verdict 'attached: no file is left behind' ' ' "$(ls "$work/temporary") $(ls "$work"/table.$process 2> /dev/null)"
    (exec env --default-signal=INT "$kit/leak_report" --raw --attach --for 10m $process > ended.out 2> ended.said) &
    reporter=$!
    started[$reporter]=1
    until_true 60 test -e "$work/table.$process"
    kill -INT $reporter
    wait $reporter
    verdict 'attached: SIGINT ends the tracing' '2 not attached' \
        "$? $("$kit/leak_trace" --detach $process 2>&1 | grep -o 'not attached')"
    unset "started[$reporter]"
    verdict 'it goes on after that' yes "$(kill -0 $process && echo yes)"
    reported wrong --attach --for soon $process
    verdict 'attached: for no time' '2 1' "$status $(grep -c '^usage: leak_report' wrong.said)"
    reported wrong --attach --after first $process
    verdict 'attached: and after a dump' '2 leak_report: --attach makes both dumps itself: without --after' \
        "$status $(cat wrong.said)"
    stop $process

    start ./plain
    reported traced --list $process
    verdict 'with a table: named' "$(expected "$kit/tests/plain.c")" "$(named traced.out)"
    verdict 'with a table: who asked' 1 "$(grep -c 'plain\.c:' traced.out | awk '{ print ($1 > 0) }')"
    reported first_rows -n 2 $process
    verdict 'the first two callers: the others are summed up' 1 \
        "$(grep -c '^and [0-9]* more: [0-9]* bytes, [0-9]* blocks, [0-9]* heads$' first_rows.out)"
    verdict 'two rows and their sum are all' "$(awk '/^leaked / { print $2, $4 }' first_rows.out)" \
        "$(awk '/^ *[0-9]+ +[0-9]+ +[0-9]+  / { bytes += $1; blocks += $2 } /^and / { bytes += $4; blocks += $6 } END {
            print blocks, bytes }' first_rows.out)"
    mkdir -p no_python && printf '#!/bin/sh\nexit 127\n' > no_python/python3 && chmod +x no_python/python3
    PATH=$PWD/no_python:$PATH reported unnamed --list $process
    verdict 'no python3: the report as it is' "1 $(expected "$kit/tests/plain.c") 1" \
        "$status $(named unnamed.out) $(grep -c 'leak_lines failed' unnamed.said)"
    verdict 'no python3: its callers' yes "$(grep -q '^caller ' unnamed.out && echo yes)"
    stop $process
fi
if [ "$dumps_core" ]; then
    unprepared ./walk_leaks
    rm -f core core.*
    { kill -ABRT $process && wait $process; } 2> /dev/null
    reported dead --list "$(kernel_core)"
    verdict "of the kernel's core: the status" 1 $status
    verdict "of the kernel's core: named" "$(expected "$kit/tests/walk_leaks.c")" "$(named dead.out | in_steps)"
    rm -f core core.*
fi
reported none 999999999
verdict 'no such process' '2 leak_dump: no process 999999999' "$status $(cat none.said)"
reported word 12x
verdict 'no process and no file' "2 leak_report: '12x' is neither a PID nor a file that can be read" \
    "$status $(cat word.said)"
while read -r what wanted; do
    reported kind "$what"
    verdict "no core: $what" "2 leak_dump: $what $wanted" "$status $(cat kind.said)"
done << END
$kit/README.md is no core
$kit/leak_core is a program or a library, and no core
$work is a folder
END
gzip -c "$kit/README.md" > packed.core
reported kind packed.core
verdict 'a core that is compressed' \
    '2 leak_dump: packed.core is compressed: unpack it first, as coredumpctl dump does' "$status $(cat kind.said)"
LEAK_FIND=/nonexistent reported kind $$
verdict 'no leak_find' '2 leak_report: LEAK_FIND is /nonexistent, which is no program' "$status $(cat kind.said)"
printf '#!/bin/sh\nexit 137\n' > ends && chmod +x ends
cat > asked_finder << 'END'
#!/bin/sh
[ "$1" = --version ] || [ "$2" = /dev/null ] || printf '%s\n' "$@" > asked
echo 'leaked 0 bytes 0'
END
chmod +x asked_finder
if [ "$attaches" ]; then
    unprepared ./walk_leaks
    all=$("$finder" one --help 2>&1 | sed -n 's/^ *\(--[a-z-]*\) <[A-Z]*>.*/\1 8/p; s/^ *\(--[a-z-]*\)  .*/\1/p' |
        tr '\n' ' ')
    LEAK_FIND=$PWD/asked_finder reported kind $all $process
    verdict 'every option of a search is handed on' "0 one $all" "$status $(sed 2,3d asked | tr '\n' ' ')"
    LEAK_FIND=$PWD/asked_finder reported kind --skip-ends --displace=8,16 --skip-links $process
    verdict 'those that fit come behind, once' \
        'one --skip-ends --displace 8,16 --skip-links --skip-freed --all-memory' \
        "$(sed '/dump/d' asked | paste -s -d ' ')"
    LEAK_FIND=$PWD/asked_finder reported kind --other-heap $process
    verdict 'those of another heap' 'one --other-heap --skip-ends --all-memory' \
        "$(sed '/dump/d' asked | paste -s -d ' ')"
    reported kind --workers none $process
    verdict 'a wrong value is refused before the process is stopped' "2 1 0" \
        "$status $(grep -c "^leak_report: leak_find: error: invalid value 'none'" kind.said) $(grep -c \
        'was stopped' kind.said)"
    LEAK_FIND=$PWD/ends reported kind $process
    verdict 'a search that is killed' '2 leak_report: leak_find ended with status 137: there is no whole report' \
        "$status $(tail -n 1 kind.said)"
    verdict 'no folder that goes is named' 0 "$(grep -c leak_report\\. kind.said)"
    stop $process
fi
reported nothing
verdict 'no word' 'usage: leak_report [OPTION..] PID | CORE [TABLE]' "$(cat nothing.said)"
reported odd --other 1
verdict 'no option' 2 $status
for number in '' 0 x 1x -1 1000000000000000000000; do
    reported number -n "$number" 999999999
    verdict "-n '$number'" "2 usage: leak_report [OPTION..] PID | CORE [TABLE]" "$status $(cat number.said)"
done
for words in --keep --displace '--list=1' '--piece='; do
    reported odd $words
    verdict "a wrong value: $words" '2 usage: leak_report [OPTION..] PID | CORE [TABLE]' "$status $(cat odd.said)"
done
verdict 'no output where it refuses' '' "$(cat none.out nothing.out odd.out number.out word.out kind.out)"
unset LEAK_FIND
