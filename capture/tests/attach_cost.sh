#!/bin/bash
# What attaching costs a program that only allocates: how long it was stopped, as it saw it itself, a malloc and a
# free before, meanwhile and after, and memory left behind; beside heaptrack -p and uprobes of bpftrace, one after
# the other in the same minutes. `attach_cost.sh [THREADS..]` (1 4). As root, on a machine that is otherwise idle, or
# by `chrt -r 1`; not part of `make check`.
. "$(dirname "$0")/common.sh"
. "$kit/tests/attach_common.sh"
unset LEAK_TRACE
gcc -O2 -g -pthread "$kit/tests/attach_cost.c" -o attach_cost || exit 1
[ -n "$1" ] || set -- 1 4
# (what memleak of bcc does: the stack of each block that was not freed)
cat > blocks.bt << 'END_OF_PROGRAM'
uprobe:LIBC:malloc /pid == PID/ { @size[tid] = arg0; }
uretprobe:LIBC:malloc /pid == PID && @size[tid]/ { @blocks[retval] = (@size[tid], ustack(8)); delete(@size[tid]); }
uprobe:LIBC:free /pid == PID/ { delete(@blocks[arg0]); }
END { clear(@blocks); clear(@size); }
END_OF_PROGRAM

declare -A shown=([leak_trace]='leak_trace --attach' [heaptrack]='heaptrack -p' [bpftrace]='bpftrace, uprobes')
private() { awk '$1 == "RssAnon:" { print $2 }' "/proc/$1/status"; }
lines() { wc -l < cost.out; }
# middle COLUMN FROM: of the lines from there on.
middle() {
    tail -n +"$2" cost.out | awk -v k="$1" '{ print $k }' | sort -n |
        awk '{ n[NR] = $1 } END { print n[int((NR + 1) / 2)] }'
}
# longest FROM: the longest standstill in the lines from there on.
longest() { tail -n +"$1" cost.out | awk '$3 > most { most = $3 } END { print most }'; }
# while_on SECONDS: lets it run, and gives the cost of a pair meanwhile by processor and by the clock.
while_on() {
    local from=$(($(lines) + 2))
    sleep "$1"
    echo "$(middle 1 $from) ($(middle 2 $from))"
}

begin_leak_trace() { limited 60 "$trace" --attach "$process" 2> said; }
end_leak_trace() { limited 60 "$trace" --detach "$process" 2>> said; }
begin_heaptrack() {
    heaptrack -o heap -p "$process" > said 2>&1 < /dev/null & tool=$!
    started[$tool]=1
    until_true 60 grep -q 'injection finished' said
}
# As heaptrack itself does at its end.
end_heaptrack() {
    limited 60 gdb --batch-silent -n -iex='set auto-solib-add off' -p "$process" \
        --eval-command='sharedlibrary libheaptrack_inject' --eval-command='call (void) heaptrack_stop()' \
        --eval-command=detach >> said 2>&1
    { kill $(pgrep -P $tool) $tool; wait $tool; } 2> /dev/null
}
begin_bpftrace() {
    local libc
    libc=$(readlink -f "$(ldd ./attach_cost | awk '$1 == "libc.so.6" { print $3 }')")
    sed "s|LIBC|$libc|; s|PID|$process|" blocks.bt > run.bt
    BPFTRACE_MAP_KEYS_MAX=1000000 bpftrace run.bt > said 2>&1 & tool=$!
    started[$tool]=1
    until_true 60 grep -q Attaching said && sleep 2
}
end_bpftrace() { { kill $tool; wait $tool; } 2> /dev/null; }

# measure TOOL THREADS: a row.
measure() {
    local before meanwhile after memory from stood stood_at_end
    be_ready cost ./attach_cost "$2"
    sleep 1
    before=$(while_on 3)
    memory=$(private "$process")
    from=$(($(lines) + 1))
    "begin_$1" || { echo "$1: $(tail -n 2 said)"; stop "$process"; return; }
    sleep 0.5
    stood=$(longest "$from")
    meanwhile=$(while_on 4)
    from=$(($(lines) + 1))
    "end_$1"
    sleep 0.5
    stood_at_end=$(longest "$from")
    after=$(while_on 3)
    memory=$(($(private "$process") - memory))
    echo "| ${shown[$1]} | $2 | $stood, $stood_at_end | $before | $meanwhile | $after | $memory |"
    verdict "$1: the program lives" yes "$(is_dead "$process" || echo yes)"
    stop "$process"
}
# measure_started THREADS: a row of leak_trace from the program's start on.
measure_started() {
    LEAK_TRACE=/dev/shm/leak_trace_cost.$$ be_ready cost "$trace" -d 8 ./attach_cost "$1"
    sleep 1
    echo "| leak_trace -d 8, from the start | $1 | | | $(while_on 4) | | |"
    stop "$process"
    rm -f /dev/shm/leak_trace_cost.$$*
}
echo "$(nproc) processors, load $(cut -d ' ' -f 1-3 /proc/loadavg), Linux $(uname -r)"
echo '| Tool | threads | longest standstill, attaching and detaching, ms |' \
    'ns for malloc and free before: processor (clock) | meanwhile | after | KiB of private memory left |'
for threads in "$@"; do
    measure_started "$threads"
    measure leak_trace "$threads"
    for tool in heaptrack bpftrace; do
        command -v $tool > /dev/null || { leave_out "$tool, which is not installed"; continue; }
        measure $tool "$threads"
    done
done
complete=1
