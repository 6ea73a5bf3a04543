# What is left behind if a dump or a report is ended early: no file, and no process that goes on.
section what is left behind
[ -x plain ] || build plain.c
[ -x faulty ] || build_faulty faulty
export LEAK_FIND=$finder
mkdir -p remains remains_tools
for file in "$kit"/leak_* "$kit/scripts" "$kit/lines"; do ln -sf "$file" remains_tools/; done
rm remains_tools/leak_dump remains_tools/leak_report remains_tools/leak_core
cp "$kit/leak_dump" "$kit/leak_report" remains_tools
ln -s ../faulty remains_tools/leak_core

# below PID: the processes that it started, and those that these started.
below() {
    local child
    for child in $(pgrep -P "$1"); do echo "$child"; below "$child"; done
}

# ended_by SIGNAL COMMAND..: starts the command, whose leak_core waits once it has made a file, sends the signal to the
# command alone, and sets `status` and `children`. (The shell has its background ignore SIGINT.)
ended_by() {
    local signal=$1 asked
    shift
    LEAK_CORE_WAIT=$made env --default-signal=INT "$@" > held.out 2> held.said < /dev/null &
    asked=$!
    started[$asked]=1
    until_true 60 eval 'find remains -name "*.part" | grep -q .'
    children=$(below $asked)
    kill "-$signal" $asked
    { wait $asked; status=$?; } 2> /dev/null
    unset "started[$asked]"
    until_true 20 eval '! kill -0 $children 2> /dev/null' # leak_core waits half a minute if no signal comes
}
gone() { kill -0 $children 2> /dev/null && echo 'one goes on' || echo gone; }

if [ "$attaches" ]; then
    unprepared ./plain
    made=1
    until LEAK_CORE_FAIL=$made limited 20 ./faulty $process none.core 2>&1 | grep -q 'a file is made' ||
        [ $made = 50 ]; do made=$((made + 1)); done
    for signal in TERM INT HUP; do
        ended_by $signal remains_tools/leak_dump $process remains/d1
        verdict "leak_dump and SIG$signal: the status, the processes, the files" '2 gone ' \
            "$status $(gone) $(ls remains)"
    done
    ended_by KILL remains_tools/leak_dump $process remains/d1
    verdict 'leak_dump and SIGKILL: leak_core ends too' 'gone ' "$(gone) $(ls remains)"
    TMPDIR=$work/remains ended_by TERM remains_tools/leak_report $process
    verdict 'leak_report and SIGTERM while it dumps' '2 gone ' "$status $(gone) $(ls remains)"
    TMPDIR=$work/remains ended_by KILL remains_tools/leak_report $process
    kill $children 2> /dev/null # leak_core waits half a minute for a signal
    verdict 'leak_report and SIGKILL: the folder goes once all has ended' 'gone ' \
        "$(until_true 60 eval '! ls remains | grep -q .'; until_true 20 eval \
        '! kill -0 $children 2> /dev/null'; gone) $(ls remains)"
    ended_by TERM remains_tools/leak_report --keep remains/kept $process
    verdict 'with --keep' '2 gone ' "$status $(gone) $(ls remains)"
    verdict 'the process goes on' 'yes S' \
        "$(kill -0 $process && echo yes) $(awk '$1 == "State:" { print $2 }' /proc/$process/status)"

    printf '#!/bin/sh\n[ "$2" = /dev/null ] || { echo > remains/searches; exec sleep 1000; }\n' > sleeps &&
        chmod +x sleeps
    TMPDIR=$work/remains LEAK_FIND=$PWD/sleeps "$kit/leak_report" $process > held.out 2> held.said < /dev/null &
    asked=$!
    until_true 60 test -e remains/searches
    children=$(below $asked)
    kill -TERM $asked
    { wait $asked; status=$?; } 2> /dev/null
    verdict 'leak_report and SIGTERM while it searches' '2 gone searches' "$status $(gone) $(ls remains)"
    rm -f remains/searches
    export LEAK_CORE_HANG='the mappings are read'
    for command in "dump --hold 1 $process remains/d1" "report --hold 1 $process" "report --hold=1 $process"; do
        TMPDIR=$work/remains limited 60 remains_tools/leak_$command > held.out 2> held.said
        status=$?
        verdict "leak_${command%% *} --hold: the status, what is said, the files" \
            '2 leak_core: the process was stopped for 1 s (--hold) and resumed ' \
            "$status $(grep '^leak_core' held.said | sed 's/ resumed: .*/ resumed/') $(ls remains)"
    done
    unset LEAK_CORE_HANG
    for lines in 1 3; do
        TMPDIR=$work/remains limited 120 "$kit/leak_report" --list $process 2>&1 | head -n $lines > held.out
        verdict "leak_report into head -n $lines" "$lines " "$(wc -l < held.out) $(ls remains)"
    done
    TMPDIR=$work/remains limited 120 "$kit/leak_report" $process 2>&1 | true
    verdict 'leak_report that nobody reads' '' "$(ls remains)"
    limited 120 "$kit/leak_dump" $process remains/d1 2>&1 | true
    verdict 'leak_dump that nobody reads is whole' 'd1.core d1.log ' "$(ls remains | tr '\n' ' ')"
    rm -f remains/*
    stop $process
fi

section the files of a dump
if [ "$attaches" ]; then
    start ./plain
    echo precious > remains/other
    for kind in core log table; do ln -s other remains/d1.$kind; done
    (umask 022; limited 120 "$kit/leak_dump" $process remains/d1 2> said)
    verdict 'no link is followed' 'precious d1.core d1.log d1.table other ' \
        "$(cat remains/other) $(ls remains | tr '\n' ' ')"
    verdict 'all are for their owner alone' '600 600 600 ' "$(stat -c %a remains/d1.* | tr '\n' ' ')"
    (umask 022; limited 120 "$kit/leak_report" --keep remains/kept $process > said 2>&1)
    verdict 'those of leak_report too' '700 600' "$(stat -c %a remains/kept) $(stat -c %a remains/kept/* | sort -u)"
    if [ "$(id -u)" = 0 ]; then
        chmod 777 remains
        verdict 'a folder that others may write' \
            '2 leak_dump: others may write in remains, which has no sticky bit: as root take another folder' \
            "$(said=$("$kit/leak_dump" $process remains/d2 2>&1); echo "$? $said")"
        limited 120 "$kit/leak_report" --keep remains $process > /dev/null 2> said
        verdict 'leak_report refuses it too' \
            "2 leak_report: others may write in remains, which has no sticky bit: as root take another folder" \
            "$? $(cat said)"
        chmod 1777 remains
        limited 120 "$kit/leak_dump" $process remains/d2 2> said
        verdict 'with the sticky bit' '0 d2.core d2.log d2.table' "$? $(cd remains && echo d2.*)"
    fi
    verdict 'the earlier dump is not written over' \
        '2 leak_dump: remains/d1 is the earlier dump, and would be overwritten yes' \
        "$(said=$("$kit/leak_dump" --after remains/d1 $process remains/d1 2>&1);
        echo "$? $said") $([ -s remains/d1.log ] && echo yes)"
    stop $process
fi
rm -rf remains remains_tools
unset LEAK_FIND
