#!/bin/bash
# How long leak_core holds a process: of 100 MB and of 1 GiB of random bytes, DUMPS dumps each (three). By hand, on a
# machine that is otherwise idle.
. "$(dirname "$0")/common.sh"
[ "$attaches" ] || { leave_out 'dumps of living processes'; complete=1; exit; }
echo "     $(nproc) processors, load $(cut -d ' ' -f 1-3 /proc/loadavg), Linux $(uname -r), $(df -T . |
    awk 'NR == 2 { print $2 }')"
while read -r name bytes limit; do
    unprepared /usr/bin/python3 -c 'import os, sys
x = os.urandom(int(sys.argv[1]))
sys.stdin.readline()' "$bytes"
    rm -f times
    for _ in $(seq "${DUMPS:-3}"); do
        "$kit/leak_core" $process held.core 2> said && sed -n 's/.*was stopped for \([0-9]*\) ms$/\1/p' said >> times
        rm -f held.core
    done
    stop $process
    echo "     $name: $(sort -n times | tr '\n' ' ')ms"
    verdict "$name: at most $limit ms, at best" yes "$([ "$(sort -n times | head -n 1)" -le "$limit" ] && echo yes)"
done << 'END'
100-MB 100000000 200
1-GiB 1073741824 1000
END
complete=1
