# leak_report --grow: what grew between two dumps of a process that grows by a list that it holds and by blocks that it
# loses.
section leak_report --grow
[ -x plain ] || build plain.c
build grows.c
export LEAK_FIND=$finder
mkdir -p temporary

# grown NAME WORD..: what leak_report --grow prints goes to NAME.out, what it says to NAME.said, its status to `status`.
grown() {
    local name=$1
    shift
    TMPDIR=$work/temporary limited 120 "$kit/leak_report" --grow "$@" > "$name.out" 2> "$name.said"
    status=$?
}

# new_of FOLDER: blocks that are new, by leak_find, and how many of them are lost, by the lines of the log that they are
# from.
new_of() {
    local before
    before=$(wc -l < "$1/first/dump.log")
    awk -v before="$before" \
        'FILENAME ~ /grow$/ && $1 == "new" { new = $2 } $1 == "leak" && $4 > before { lost++; bytes += $3 }
        END { print new, lost + 0, bytes + 0 }' "$1/dump.grow" "$1/dump.report"
}

# said_of NAME: the same by the sentence: new, lost.
said_of() { tr -d , < "$1" | sed -n '1s/.*; of \([0-9]*\) new blocks.* held .* and \([0-9]*\) are lost.*/\1 \2/p'; }

# waits_for PID: while leak_report waits, the first dump is there, and no core of it.
is_waiting() { ls "$1"/*/first/dump.log 2> /dev/null | grep -q . && ! find "$1" -name '*.core' | grep -q .; }

# ended_by SIGNAL WORD..: starts leak_report --grow, sends it the signal while it waits, and sets `status`.
ended_by() {
    local signal=$1 asked
    shift
    TMPDIR=$work/temporary env --default-signal=INT "$kit/leak_report" --grow "$@" > held.out 2> held.said < /dev/null &
    asked=$!
    started[$asked]=1
    until_true 60 eval 'pgrep -P $asked -x sleep > /dev/null'
    kill "-$signal" $asked
    { wait $asked; status=$?; } 2> /dev/null
    unset "started[$asked]"
}

if [ "$attaches" ]; then
    wait=1 start ./grows
    grown with_calls --for 4s --keep with_calls $process
    verdict 'the status' 1 $status
    verdict 'new blocks, and those that are lost' "$(new_of with_calls | cut -d ' ' -f 1,2)" "$(said_of with_calls.out)"
    verdict 'one in four is lost' yes \
        "$(new_of with_calls |
        awk '{ if ($2 > 5 && $2 * 4 >= $1 - 4 && $2 * 4 <= $1 + 4 && $3 == 500 * $2) print "yes" }')"
    verdict 'what is held, and by whom' '1 1' \
        "$(grep -cE '^ *\+[0-9.]+ KB +[0-9]+ +[0-9.]+ KB +add_session +.*grows\.c:[0-9]+$' with_calls.out) $(grep -cE \
        'one is held by sessions, through [0-9]+ other blocks' with_calls.out)"
    verdict 'what is lost' 1 \
        "$(grep -cE '^ *\+[0-9.]+ KB +[0-9]+ +[0-9.]+ KB +lose_answer +.*grows\.c:[0-9]+$' with_calls.out)"
    verdict 'how long it was' yes "$(sed -n '1s/.* in \([0-9]*\) seconds, .*/\1/p' with_calls.out |
        awk '$1 >= 4 && $1 < 120 { print "yes" }')"
    TMPDIR=$work/temporary limited 60 "$kit/leak_lines" --log with_calls/dump.log with_calls/dump.grow > by_lines.out
    grown raw --raw --for 1s $process
    verdict '--raw: the lines of both reports' \
        "$(sed 's/ .*//' by_lines.out | grep '^[a-z]' | xargs) blocks undumped unknown freed new marked leaked" \
        "$(grep '^[a-z]' raw.out | sed 's/ .*//' | grep -v '^and' | xargs)"
    stop $process

    (exec ./grows > /dev/null 2>&1) &
    process=$!
    started[$process]=1
    sleep 1
    grown bare --for 2s --keep bare --html grown.html $process
    verdict 'not prepared: new blocks, and those that are lost' "1 $(new_of bare | cut -d ' ' -f 1,2)" \
        "$status $(said_of bare.out)"
    verdict 'not prepared: what is held, and by whom' '1 1' \
        "$(grep -cE '^ *\+[0-9.]+ KB +[0-9]+ +[0-9.]+ KB +(blocks of 200 bytes|struct session)$' bare.out) $(grep -cE \
        'one is held by sessions, through [0-9]+ other blocks' bare.out)"
    verdict 'not prepared: what the lost ones are' 1 "$(grep -c 'lost: begins "HTTP/1.1 200 OK, and 7 more"' bare.out)"
    verdict 'the page: what was lost, what grew, and who holds the memory' 'structures grow holders' \
        "$(python3 -c 'import json, re, sys
print(*(it["report"] for it in json.loads(re.search("id=\"data\">(.*?)</script>", open("grown.html").read(), re.DOTALL)[1])["parts"]))')"
    verdict 'not prepared: what to do next' 1 \
        "$(grep -c "^Next: leak_report --grow $process --attach --for 10m shows which functions allocate what grows\.$" bare.out)"
    grown attached --attach --for 2s $process
    [ $status = 1 ] || cat attached.said
    verdict 'attached: functions' '1 1 1' \
        "$status $(grep -cE '^ *\+[0-9.]+ KB +.* +add_session +.*grows\.c:' attached.out) $(grep -cE \
        '^ *\+[0-9.]+ KB +.* +lose_answer +.*grows\.c:' attached.out)"
    verdict 'attached: it is not traced any more' "leak_attach: process $process is not attached" \
        "$("$kit/leak_trace" --detach $process 2>&1)"
    verdict 'no file is left behind' '' "$(ls temporary)"

    for words in "--for 10m $process" "--for 10m --keep kept_none $process" "--attach --for 10m $process"; do
        for signal in INT TERM; do
            ended_by $signal $words
            verdict "SIG$signal while it waits: $words" '2  ' "$status $(ls temporary) $(ls -d kept_none 2> /dev/null)"
            verdict "SIG$signal: the process goes on, untraced" 'yes 1' \
                "$(kill -0 $process && echo yes) $("$kit/leak_trace" --detach $process 2>&1 | grep -c 'not attached')"
        done
    done
    TMPDIR=$work/temporary "$kit/leak_report" --grow --for 10m $process > held.out 2> held.said < /dev/null &
    asked=$!
    started[$asked]=1
    until_true 60 is_waiting temporary
    verdict 'while it waits there is no core' 0 "$(is_waiting temporary; echo $?)"
    stop $process
    { wait $asked; status=$?; } 2> /dev/null
    unset "started[$asked]"
    verdict 'the process ends meanwhile' "2 leak_report: process $process has ended, or is another one by now " \
        "$status $(tail -n 1 held.said) $(cat held.out)"
    verdict 'and no file is left behind' '' "$(ls temporary)"

    start ./plain
    grown still --for 1s $process
    verdict 'what does not grow' "plain (pid $process): did not grow; no block is new" \
        "$(sed -n '1s/ in [0-9]* seconds*, .*;/;/p' still.out)"
    verdict 'what does not grow: what to do next' 1 \
        "$(grep -c "^Next: wait longer: leak_report --grow $process --for 2h\.$" still.out)"
    verdict 'no table' 0 "$(grep -c 'grew  ' still.out)"
    stop $process
    while IFS='|' read -r words wanted; do
        grown wrong $words
        verdict "refused: $words" "2 $wanted" "$status $(cat wrong.said wrong.out | head -n 1)"
    done << END
$kit/leak_log|leak_report: --grow is of a running process, and this is a core
--after with_calls 1|leak_report: --grow makes both dumps itself: without --after
--for 0 1|usage: leak_report [OPTION..] PID | CORE [TABLE]
999999999|leak_dump: no process 999999999
END
    verdict 'still no file' '' "$(ls temporary)"
fi
unset LEAK_FIND
