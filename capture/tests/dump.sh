# leak_core and leak_dump: what a core has, that the process goes on as it was, and what is refused.
section cores of hard processes
build dump_kinds.c && build dump_many.c
build_faulty faulty
reads() { python3 "$kit/tests/dump.py" "$@"; }

# states PID: how many threads are in which state, and who traces them.
states() { cat /proc/"$1"/task/*/status | awk '/^State:/ { state = $2 } /^TracerPid:/ { print state, $2 }' | sort |
    uniq -c | xargs; }
# has_states PID STATES, for until_true; is_as_it_was: the same in words.
has_states() { [ "$(states "$1")" = "$2" ]; }
is_as_it_was() { until_true 60 has_states "$1" "$2" && echo same || states "$1"; }
# all_pause PID: whether each of its threads is in pause().
all_pause() { ! awk '{ print $1 }' "/proc/$1"/task/*/syscall | grep -qvx 34; }

# bytes_there PID: what is in memory or swapped out.
bytes_there() { awk '/^(Rss|Swap):/ { kilobytes += $2 } END { print kilobytes * 1024 }' "/proc/$1/smaps_rollup"; }

# takes_no_more CORE PID: whether the core has at most the bytes that are there.
takes_no_more() { [ "$(reads sizes "$1" | cut -d ' ' -f 2)" -le "$(bytes_there "$2")" ] && echo yes; }
core_of() { limited 60 "$kit/leak_core" "$1" "$2" 2> "$2.said" || cat "$2.said"; }
standstill() { sed -n 's/.*was stopped for/     standstill/p' "$1.said"; }

be_ready vfork ./dump_many vfork
vfork=$process
verdict 'a parent by vfork is refused, in time' \
    "leak_core: thread $vfork of process $vfork does not stop (state D): it waits in the \
kernel for a device, or by vfork for a child; try again later" "$(limited 60 "$kit/leak_core" "$vfork" vfork.core 2>&1)"
printf 'a table' > table.file
be_ready kinds ./dump_kinds table.file
kinds=$process
until_true 60 all_pause "$kinds"
before=$(states "$kinds")
size=$("$kit/leak_core" --size "$kinds")
core_of "$kinds" kinds.core
verdict 'a process with threads goes on' same "$(is_as_it_was "$kinds" "$before")"
verdict '--size says the size' "$(stat -c %s kinds.core)" "$size"
words=$(reads word kinds.core $(awk 'NF == 2 { print $2 }' kinds.out))
verdict 'private, shared, by a child, MADV_DONTDUMP, read-only, PROT_NONE, zeros, a written page of a file' \
    "$(awk 'NF == 2 { print ($1 == "zeros" ? "absent" : "0x1122334455667788") }' kinds.out | xargs)" "$words"
LEAK_CORE_OLD=1 ./faulty "$kinds" old.core 2> said
verdict 'the same by page maps' "$(reads sizes kinds.core) $words" \
    "$(reads sizes old.core) $(reads word old.core $(awk 'NF == 2 { print $2 }' kinds.out))"
verdict 'nothing is undumped' 0 "$(reads sizes kinds.core | cut -d ' ' -f 3)"
verdict 'no more bytes than are there' yes "$(takes_no_more kinds.core "$kinds")"
verdict 'the program headers come first, and memory by its address' first "$(reads order kinds.core)"
verdict 'the order of the notes' '0x1 0x3 0x53494749 0x6 0x46494c45 own own 0x2 0x202 0x1 0x2 0x202' \
    "$(reads notes kinds.core | cut -d ' ' -f 1-12)"
if grep -qw avx2 /proc/cpuinfo; then
    verdict 'the upper half of ymm8, there alone' 'fedcba9876543210 1' "$(reads vector kinds.core)"
else
    leave_out 'the upper half of ymm8: no AVX2'
fi
# The frames of each thread, by the thread's number in the system.
frames() { limited 60 gdb -nx --batch "$@" -ex 'thread apply all backtrace' 2> gdb.said |
    awk '/^Thread/ { match($0, /LWP [0-9]+/); thread = substr($0, RSTART, RLENGTH) } thread && /^#/ {
        print thread, $0 }' | sort; }
if command -v gdb > /dev/null; then
    frames -p "$kinds" > live.frames
    frames ./dump_kinds kinds.core > core.frames
    verdict 'each thread has the frames that gdb finds in the living one' "$(md5sum < live.frames)" \
        "$(md5sum < core.frames)"
    verdict 'frames of five threads at least' yes "$([ "$(cut -d ' ' -f 2 core.frames | sort -u | wc -l)" -ge 5 ] &&
        echo yes)"
else
    leave_out 'frames: no gdb'
fi

section faults and signals at each step
# wait_at N WORD..: starts a dump, which waits at the step N. Its id is in `dumper`.
wait_at() {
    : > said
    LEAK_CORE_WAIT=$1 ./faulty "${@:2}" 2> said &
    dumper=$!
    until_true 60 dumper_waits
}
dumper_waits() { grep -q '^waits' said || [ ! -d "/proc/$dumper" ] || grep -q '^State:.*Z' "/proc/$dumper/status"; }
# try_step HOW N: a dump that ends badly at the step N. Says what is wrong then.
try_step() {
    case $1 in
    fail) LEAK_CORE_FAIL=$2 limited 60 ./faulty --copy table.file bad.table "$kinds" bad.core 2> said; status=$? ;;
    *) wait_at "$2" --copy table.file bad.table "$kinds" bad.core
        kill -"$1" $dumper
        { wait $dumper; } 2> /dev/null
        status=$? ;;
    esac
    [ $status = 0 ] && return 1
    [ "$1" = KILL ] && rm -f bad.core.part bad.table.part
    [ "$(is_as_it_was "$kinds" "$before")" = same ] || echo "$1 at $2: the process has $(states "$kinds")"
    [ "$1$status" = fail2 ] || [ "$1$status" = TERM2 ] || [ "$1$status" = KILL137 ] ||
        echo "$1 at $2: status $status: $(cat said)"
    ! ls bad.* > /dev/null 2>&1 || echo "$1 at $2: $(ls bad.*) is there"
    rm -f bad.*
}
steps=0
while [ $steps -lt 200 ] && try_step fail $((steps + 1)) >> faults; do steps=$((steps + 1)); done
verdict "$steps steps fail, and nothing is left" "16 at least" \
    "$([ $steps -ge 16 ] && [ $steps -lt 200 ] && echo 16 at least; cat faults)"
verdict 'after the last step both files are there' 'bad.core bad.table' "$(ls bad.* | xargs)"
verdict 'the copy is the same' 'a table' "$(cat bad.table)"
rm -f bad.* faults
for i in $(seq 1 2 $((steps - 2))); do try_step TERM "$i"; done > faults
verdict 'SIGTERM at every second step' '' "$(cat faults)"
for i in $(seq 2 3 $((steps - 2))); do try_step KILL "$i"; done > faults
verdict 'SIGKILL at every third step leaves no core' '' "$(cat faults)"
wait_at 12 "$kinds" bad.core
verdict 'a process under a debugger' \
    "leak_core: process $kinds is under a debugger or tracer already: process $(pgrep -P $dumper) (faulty) must \
detach first" "$("$kit/leak_core" "$kinds" other.core 2>&1)"
kill $dumper
wait $dumper
verdict 'a limit on the size of files' 'leak_core: limited.core: File too large' \
    "$( (ulimit -f 20; "$kit/leak_core" "$kinds" limited.core 2>&1; ls limited.core* 2> /dev/null) |
    grep -v 'was stopped')"
if mkdir tiny && mount -t tmpfs -o size=40k tmpfs tiny 2> /dev/null; then
    verdict 'no room on the disk' \
        "leak_core: tiny/x.core: no space: $("$kit/leak_core" --size "$kinds") bytes are needed, 40960 are free" \
        "$("$kit/leak_core" "$kinds" tiny/x.core 2>&1; ls tiny)"
    umount tiny
else
    leave_out 'a full disk: mount is refused'
fi
if [ "$(id -u)" = 0 ]; then
    verdict 'a process of another user' "leak_core: process $kinds is of user 0: run this as that user or as root" \
        "$(setpriv --reuid=65534 --regid=65534 --clear-groups /proc/self/fd/9 "$kinds" /dev/null 2>&1 9< \
        "$kit/leak_core")"
else
    leave_out 'a process of another user: only root may run one'
fi
verdict 'no process' 'leak_core: no process 4194304' "$("$kit/leak_core" 4194304 none.core 2>&1)"
[ "$(cat /proc/2/comm 2> /dev/null)" != kthreadd ] ||
    verdict 'a thread of the kernel' \
        'leak_core: process 2 has no memory of its own: it is a kernel thread, or is exiting' \
        "$("$kit/leak_core" 2 none.core 2>&1)"
verdict 'no number' "leak_core: '12x' is not a PID" "$("$kit/leak_core" 12x none.core 2>&1)"
kill -STOP "$kinds"
until_true 60 has_states "$kinds" "$(echo "$before" | tr S T)"
core_of "$kinds" stopped.core
verdict 'a stopped process stays stopped' same "$(sleep 0.2; is_as_it_was "$kinds" "$(echo "$before" | tr S T)")"
kill -CONT "$kinds"
verdict 'and goes on when it is told to' same "$(is_as_it_was "$kinds" "$before")"
stop "$kinds"

section many threads, mappings, signals
be_ready signals ./dump_many signals
signals=$process dumps_taken=0
for _ in {1..500}; do
    "$kit/leak_core" "$signals" signals.core 2> said && dumps_taken=$((dumps_taken + 1))
    [ $dumps_taken -lt 2 ] || touch enough
    ! grep -qs taken signals.out && [ -d "/proc/$signals" ] || break
done
touch enough
until_true 120 grep -qs taken signals.out
verdict 'no signal is lost' all \
    "$(awk '/taken/ { print ($2 >= 2000 && $4 == $2 ? "all" : $0) }' signals.out)"
verdict 'dumps were taken while signals came' yes "$([ $dumps_taken -ge 2 ] && echo yes)"
be_ready threads ./dump_many threads
core_of "$process" threads.core
verdict '64 threads: no more bytes than are there' yes "$(takes_no_more threads.core "$process")"
verdict 'registers of 65 threads' 65 "$(reads notes threads.core | tr ' ' '\n' | grep -cx 0x1)"
echo "     $(stat -c %s threads.core) bytes, of $(bytes_there "$process") that are there, $(awk \
    '/^VmSize/ { print $2 }' "/proc/$process/status") kB mapped"
standstill threads.core
stop "$process"
be_ready sparse ./dump_many sparse
core_of "$process" sparse.core
verdict '8 TB with three pages' '0x1122334455667788 0x1122334455667788 0x1122334455667788' \
    "$(reads word sparse.core $(awk 'NF == 2 { print $2 }' sparse.out))"
verdict 'no more bytes than are there' yes "$(takes_no_more sparse.core "$process")"
standstill sparse.core
verdict 'without PAGEMAP_SCAN it is refused' 'Linux 6.7 or later can tell where pages are' \
    "$(LEAK_CORE_OLD=1 limited 60 ./faulty "$process" old.core 2>&1 | sed 's/.*: //')"
stop "$process"
be_ready headless ./dump_many headless
core_of "$process" headless.core
verdict 'a process whose first thread has ended' 1 "$(reads notes headless.core | tr ' ' '\n' | grep -cx 0x1)"
stop "$process"
be_ready storm ./dump_many storm
for i in 1 2 3 4 5 6 7 8; do
    limited 60 "$kit/leak_core" "$process" storm.core 2> storm.core.said || cat storm.core.said
    reads notes storm.core | tr ' ' '\n' |
        awk '/^0x1$/ { threads++ } /^0x202$/ { sets++ } END { print (threads >= 5 && threads == sets) }'
done > storms
verdict 'threads that start and end all the time' '1 1 1 1 1 1 1 1' "$(xargs < storms)"
verdict 'they start still' yes "$([ "$(awk '/^Threads/ { print $2 }' "/proc/$process/status")" -ge 5 ] && echo yes)"
stop "$process"

# reads_many NAME: readelf and leak_find read the core of 70,000 segments and more.
reads_many() {
    core_of "$process" many.core
    verdict "$1: segments" yes "$([ "$(reads sizes many.core | cut -d ' ' -f 1)" -ge 70000 ] && echo yes)"
    verdict "$1: its program headers come first" first "$(reads order many.core)"
    verdict "$1: readelf finds as many" "$(reads sizes many.core | cut -d ' ' -f 1)" \
        "$(readelf -lW many.core 2> said | grep -c '^  LOAD')"
    : > many.log
    find_leaks one many.core many.log > many.report 2>&1
    verdict "$1: leak_find reads it" 'undumped 0' "$(grep '^undumped' many.report || cat many.report)"
    standstill many.core
    stop "$process"
    rm -f many.core
}
be_ready pieces ./dump_many pieces 70000
reads_many '70,000 pieces of a mapping'
limit=$(cat /proc/sys/vm/max_map_count)
if [ "$limit" -gt 70100 ] || echo 100000 2> /dev/null > /proc/sys/vm/max_map_count; then
    be_ready mappings ./dump_many mappings 70000
    reads_many '70,000 mappings'
    [ "$limit" -gt 70100 ] || echo "$limit" > /proc/sys/vm/max_map_count
else
    leave_out "70,000 mappings: vm.max_map_count is $limit"
fi
kill "$(pgrep -P "$vfork")"
until_true 60 grep -qs went vfork.out
verdict 'the parent by vfork goes on' 'went on' "$(tail -n 1 vfork.out)"

section which way leak_dump goes
build plain.c && gcc -shared -fPIC "$kit/tests/module.c" -o libjemalloc.so.2
start ./plain
dump "$process" "$work/table"
verdict 'a table' "leak_dump: the blocks of $work/table.log are by leak_trace's table
leak_dump: now search: leak_find one --skip-freed --skip-links --all-memory $work/table.core $work/table.log" \
"$(grep '^leak_dump' dump.said)"
verdict 'sizes' "core $(stat -c %s table.core)" "$("$kit/leak_dump" --size "$process" | head -n 1)"
usual='--skip-freed --skip-links --all-memory'
find_leaks one $usual table.core table.log > table.report 2> said
verdict 'a compressed core is searched from a pipe' same "$(gzip -1 < table.core | gzip -d |
    timeout 120 "$finder" one $usual /dev/stdin table.log 2> said | cmp - table.report && echo same)"
verdict 'the table is not in the core, nor is the finder' yes "$(takes_no_more table.core "$process")"
stop "$process"
LD_PRELOAD=$work/libjemalloc.so.2 start ./plain
dump "$process" "$work/other" 2> said
verdict 'another allocator' "leak_dump: the blocks are of libjemalloc.so.2: its heap is not glibc's
leak_dump: now search: leak_find one --other-heap --skip-ends --all-memory $work/other.core $work/other.log" \
"$(grep '^leak_dump' dump.said | tail -n 2)"
stop "$process"
if [ -x "$kit/leak_walk" ]; then
    (exec ./plain) & process=$!
    started[$process]=1
    settle $process
    "$kit/leak_dump" "$process" "$work/walked" 2> said
    verdict 'no table' \
        "leak_dump: there is no table by leak_trace: the blocks of $work/walked.log are by the heap in the core" \
        "$(grep '^leak_dump: there' said)"
    verdict 'a log without a table' yes "$([ -s walked.log ] && echo yes)"
    "$kit/leak_dump" --core walked.core again 2> said
    verdict 'the same of its core' "$(md5sum < walked.log)" "$(md5sum < again.log)"
    stop "$process"
else
    leave_out 'a process without a table: no leak_walk is built'
fi
rm -f ./*.core ./*.log
