# A crash, and the tables that dead processes leave.
section a crash, and the tables of dead processes
rm -f table.*
build crash.c
if [ "$dumps_core" ]; then
    rm -f core core.*
    (wait=0 start ./crash; echo $process > pid; wait $process) 2> /dev/null
    core=$(kernel_core)
    "$kit/leak_dump" --core "$core" "table.$(cat pid)" crash 2> said && search crash
    verdict 'crash' "$(expected "$kit/tests/crash.c")" "$(named crash.report)"
    verdict 'what is undumped is told' "$(awk '$1 == "undumped" { print $2 }' crash.report)" \
        "$(sed -n 's/.*undumped: of \([0-9]*\) bytes.*/\1/p' said)"
    verdict 'none of it is the program'"'"'s but untouched memory' small \
        "$([ "$(sed -n 's/.*; \([0-9]*\) are the program.*/\1/p' said)" -lt 20000000 ] && echo small)"
    "$kit/leak_log" "$core" <(head -c 3000 "table.$(cat pid)") > /dev/null 2>&1
    verdict 'a table that is cut off' 2 $?
    head -c 100000 "$core" > cut.core
    "$kit/leak_log" cut.core "table.$(cat pid)" 2>&1 > /dev/null | grep -q 'the core is cut off'
    verdict 'a core that is cut off' 0 $?
    mv "table.$(cat pid)" crash.table && cp crash.table "table.$(cat pid)"
    rm -f core core.*
else
    leave_out "a crash: $(cat /proc/sys/kernel/core_pattern) takes the kernel's core elsewhere"
    start ./plain; kill -9 $process; wait $process 2> /dev/null; echo $process > pid
fi
start ./plain
verdict 'one is dead, one lives' "$(cat pid) dead, $process live" \
    "$("$kit/leak_trace" --list | awk 'NR > 1 { print $1, $2 }' | sort -k 2 | paste -s -d , | sed 's/,/, /')"
verdict 'the program of one' "./plain, $work/table.$process" \
    "$("$kit/leak_trace" --list | awk -v pid=$process '$1 == pid { print $4, $5 }')"
verdict 'nothing else is said, where SIGPIPE is ignored, as in a service' '' \
    "$(trap '' PIPE; "$kit/leak_trace" --list 2>&1 > /dev/null)"
other=1 as=
mkdir -p public && cp -r "$kit/leak_dump" "$kit/scripts" public && chmod 755 . public
[ "$(id -u)" = 0 ] && other=$process as='setpriv --reuid=65534 --regid=65534 --clear-groups'
verdict 'the process of another user' "leak_dump: process $other is of user 0: run this as that user or as root" \
    "$($as public/leak_dump "$other" other 2>&1)"
"$kit/leak_trace" --remove > /dev/null
verdict 'the dead one is removed' "$process live" "$("$kit/leak_trace" --list | awk 'NR > 1 { print $1, $2 }')"
if [ -e crash.core ]; then
    "$kit/leak_log" crash.core "table.$process" > /dev/null 2> said
    verdict 'a table of another process' "is not of this core's process" "$(sed 's/.*the table //' said)"
fi
stop $process
verdict 'a killed process leaves its table' 1 "$(ls table.* | wc -l)"
"$kit/leak_trace" --remove > /dev/null
"$kit/leak_trace" true
"$kit/leak_trace" sh -c 'true; (exit 3); exec true'
verdict 'one that ends leaves none' 0 "$(ls table.* 2> /dev/null | wc -l)"
