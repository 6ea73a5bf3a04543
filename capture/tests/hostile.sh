# Processes and files that are made to hold others up, or to take memory or disk: each dump and each walk of one ends in
# time, with little.
build hostile_pages.c
build hostile_disk.c
build hostile_tables.c
[ -x faulty ] || build_faulty faulty
reads() { python3 "$kit/tests/dump.py" "$@"; }

# goes_on PID: whether no thread of it is stopped, or traced.
goes_on() { ! grep -lqsE '^(State:.*[tT] \(|TracerPid:.*[1-9])' "/proc/$1"/task/*/status; }
# freed_within SECONDS PID: whether it goes on by then.
freed_within() { until_true "$1" goes_on "$2" && echo yes || grep -hE '^(State|TracerPid)' "/proc/$2/status"; }
# is_gone PID: whether the process has ended, whoever waits for it.
is_gone() { ! grep -qs '^State:.*[^ZX] (' "/proc/$1/status"; }

section pages that the process itself would supply
be_ready pages ./hostile_pages
if grep -qx ready pages.out; then
    limited 60 "$kit/leak_core" "$process" pages.core 2> pages.said
    verdict 'a dump waits for no page under userfaultfd' 0 $?
    verdict 'what is there is in the core, and the rest is not' \
        '0x1122334455667788 0x1122334455667788 0x1122334455667788 absent' \
        "$(reads word pages.core $(awk 'NF == 2 { print $2 }' pages.out))"
    verdict 'of three mappings of 16 pages all but two pages are missing' $(((15 + 15 + 16) * 4096)) \
        "$(reads sizes pages.core | cut -d ' ' -f 3)"
    verdict 'it is told' $(((15 + 15 + 13) * 4096)) \
        "$(sed -n 's/^leak_core: \([0-9]*\) bytes are not there, and the program is to supply.*/\1/p' pages.said)"
    verdict 'what can not be read is told too' $((3 * 4096)) \
        "$(sed -n 's/^leak_core: \([0-9]*\) bytes could not be read.*/\1/p' pages.said)"
    verdict 'the process goes on' yes "$(freed_within 60 "$process")"
    verdict 'the program headers come first' first "$(reads order pages.core)"
    stop "$process"
    be_ready pages ./hostile_pages many
    limited 60 "$kit/leak_core" "$process" pages.core 2> pages.said
    verdict 'where pages make more of them than there is room for, last' "0 headers last" "$? $(reads order pages.core)"
    verdict 'and each is there' $((512 * 4096)) \
        "$(sed -n 's/^leak_core: \([0-9]*\) bytes could not be read.*/\1/p' pages.said)"
    limited 60 gdb -batch -ex 'info registers rip' ./hostile_pages pages.core > pages.gdb 2>&1
    verdict 'gdb reads it' 1 "$(grep -c '^rip ' pages.gdb)"
else
    leave_out "pages under userfaultfd: $(cat pages.out)"
fi
stop "$process"
rm -f pages.core

section a limit of the standstill
sleep 600 &
held=$!
started[$held]=1

# dumps_to FOLDER WORD..: begins a dump of `held` by these words, and waits until the process is stopped. Its id is in
# `dumper`.
dumps_to() {
    "${@:2}" "$held" "$1/x.core" 2> held.said &
    dumper=$!
    started[$dumper]=1
    until_true 60 is_held
}
is_held() { ! goes_on "$held" || is_gone "$dumper"; }
# ends NAME: the dump must end with status 2, within a minute.
ends() {
    local status=none
    until_true 60 is_gone "$dumper" && { wait "$dumper"; status=$?; } 2> /dev/null
    verdict "$1" 2 "$status"
}

mkdir -p hung
for place in 'make 35' 'ask_for_room 17'; do
    read -r what opcode <<< "$place"
    be_ready disk ./hostile_disk hung "$opcode"
    grep -qx ready disk.out || { leave_out "a disk that hangs: no file system can be mounted here"; stop "$process";
        break; }
    dumps_to hung "$kit/leak_core" --hold 1
    verdict "a disk that hangs ($what): the process goes on after --hold" yes "$(freed_within 60 "$held")"
    ends "a disk that hangs ($what): the dump ends"
    verdict "a disk that hangs ($what): one line says why" \
        'leak_core: the process was stopped for 1 s (--hold) and resumed' "$(cut -d : -f 1,2 held.said)"
    dumps_to hung "$kit/leak_core" --hold 600
    kill "$dumper"
    verdict "a disk that hangs ($what): SIGTERM frees the process at once" yes "$(freed_within 60 "$held")"
    ends "a disk that hangs ($what): SIGTERM ends the dump"
    verdict "a disk that hangs ($what): one line says that" 'leak_core: ended by signal 15: no core is written' \
        "$(cat held.said)"
    dumps_to hung "$kit/leak_core" --hold 600
    { kill -9 "$dumper" && wait "$dumper"; } 2> /dev/null
    verdict "a disk that hangs ($what): SIGKILL frees it too" yes "$(freed_within 60 "$held")"
    [ "$what" = make ] || verdict "a disk that hangs ($what): the unfinished file is removed" 'removed x.core.part' \
        "$(tail -n 1 disk.out)"
    stop "$process"
    umount -l hung
done

# The tracer itself hangs, with all signals blocked, where a process in front can end it alone.
# So it is with what the tracer leaves to its second thread.
for step in 'the mappings are read' 'a file is made'; do
    LEAK_CORE_HANG=$step dumps_to . ./faulty --hold 1
    verdict "a dump that hangs when $step ends after --hold" yes "$(freed_within 60 "$held")"
    ends "it has status 2, when $step"
    verdict "one line says why, when $step" 'leak_core: the process was stopped for 1 s (--hold) and resumed' \
        "$(sed '/^hangs/d; s/ resumed: .*/ resumed/' held.said)"
    LEAK_CORE_HANG=$step dumps_to . ./faulty --hold 600
    until_true 60 grep -q '^hangs' held.said
    kill "$dumper"
    verdict "SIGTERM frees the process at once, when $step" yes "$(freed_within 60 "$held")"
    ends "and ends that dump, when $step"
done
verdict 'no file is left of any' '' "$(ls x.core* 2> /dev/null)"
(trap '' CHLD; exec "$kit/leak_core" "$held" y.core 2> held.said) & dumper=$!
started[$dumper]=1
verdict 'who ignores SIGCHLD gets a core all the same' 'ended, a core' \
    "$(until_true 60 is_gone "$dumper" && echo ended), $([ -s y.core ] && echo a core)"
stop "$dumper"
rm -f y.core
verdict 'no number of seconds' "leak_core: --hold takes seconds, from 0.1 to 86400: not '0'" \
    "$("$kit/leak_core" --hold 0 "$held" x.core 2>&1)"
stop "$held"

section files that the process chose
mkdir -p tables
be_ready tables ./hostile_tables 12000 tables
timeout -k 5 60 "$kit/leak_core" "$process" x.core 2> tables.said
verdict '12,000 files that look like tables: a core' 0 $?
echo "     $(sed -n 's/.*was stopped for/standstill/p' tables.said)"
verdict '12,000 files that look like tables: at most 10 s of standstill' yes \
    "$(awk '/was stopped/ && $(NF - 1) <= 10000 { print "yes" }' tables.said)"
stop "$process"
rm -rf tables x.core

if be_ready disk ./hostile_disk hung 15 libc.so.6 && grep -qx ready disk.out; then
    disk=$process
    # (so large that it lies below the C library, and is looked into first)
    be_ready mapper python3 -c 'import mmap, os, signal, sys
code = mmap.mmap(os.open(sys.argv[1], os.O_RDONLY), 32 << 20, mmap.MAP_PRIVATE, mmap.PROT_READ | mmap.PROT_EXEC, offset=4096)
print("ready", flush=True)
signal.pause()' hung/libc.so.6
    timeout -k 5 60 "$kit/leak_core" "$process" x.core 2> mapper.said
    verdict 'mapped code of a disk that hangs: a core' 0 $?
    verdict 'mapped code of a disk that hangs: what is said' \
        "leak_core: the code of the process could not be read in 2 s: its disk does not answer" \
        "$(grep 'in 2 s' mapper.said | uniq)"
    stop "$process" "$disk"
    umount -l hung
else
    leave_out 'mapped code of a disk that hangs: no file system can be mounted here'
    stop "$process"
fi

if be_ready disk ./hostile_disk hung 17 'x (deleted)' && grep -qx ready disk.out; then
    disk=$process
    be_ready mapper python3 -c 'import mmap, os, signal, sys
memory = mmap.mmap(os.open(sys.argv[1], os.O_RDWR), 4096)
print("ready" if not memory[0] else "", flush=True)
signal.pause()' 'hung/x (deleted)'
    timeout -k 5 60 "$kit/leak_core" "$process" x.core 2> mapper.said
    verdict 'a mapped file of a disk that hangs, which looks like memory: a core' 0 $?
    stop "$process" "$disk"
    umount -l hung
else
    leave_out 'a mapped file of a disk that hangs: no file system can be mounted here'
    stop "$process"
fi

sleep 600 &
held=$!
started[$held]=1
rm -f x.core
mkfifo fifo && ln -s /dev/zero link && echo text > other
# copies FILE: what leak_core --copy says of it.
copies() { timeout -k 5 60 "$kit/leak_core" --copy "$1" copy "$held" x.core 2>&1;
    echo "status $? $(ls copy* x.core* 2> /dev/null)"; }
while read -r file why; do
    verdict "--copy of what is no mapped file: $file" "leak_core: $file: $why
status 2 " "$(copies "$file")"
done << 'END'
fifo no regular file
link no regular file
/dev/zero no regular file
other the process has no such file mapped
END
exec 8< "$(readlink "/proc/$held/exe")"
verdict '--copy of a descriptor that is handed on' "leak_core: /proc/self/fd/8: the process has no such file mapped" \
    "$(copies /proc/self/fd/8 | head -n 1)"
exec 8<&-

section names for a terminal
cp faulty $'red\033[31m'
LEAK_CORE_WAIT=3 dumps_to . $'./red\033[31m'
verdict "a tracer's name is escaped" \
    "leak_core: process $held is under a debugger or tracer already: process $(pgrep \
    -P "$dumper") (red\\x1b[31m) must detach first" \
    "$("$kit/leak_core" "$held" y.core 2>&1)"
kill "$dumper"
ends 'and that tracer ends'
stop "$held"

section small cores that ask for much
walk=$kit/leak_walk
# asks_much WHAT STATUS SECONDS MEGABYTES LOG PROGRAM FILE..: the program over the files ends so, within these bounds.
asks_much() {
    verdict "$1" "$2 in bounds" "$(python3 "$kit/tests/measured.py" "$3" "$4" "$5" asked.log "${@:6}" 2> asked.figures)"
    echo "     $(stat -c %s "${!#}") bytes: $(tail -n 1 asked.figures)"
}
while read -r kind status seconds megabytes log what; do
    python3 "$kit/tests/hostile_cores.py" "$kind" asking.core
    asks_much "$what" "$status" "$seconds" "$megabytes" "$log" "$walk" asking.core
done << 'END'
top      0 20  64  2000000 a top chunk of 2^46 bytes
notes    2 20  64        0 11,000 headers of the same notes
segments 2 20  64        0 9,000 headers of the same memory
threads  2 20  64        0 800 threads, 200 arenas, and 64 pages that look like a heap's begin
pages    2 20  64        0 200 arenas, and 128 such pages
path     0 20  64  2000000 a path of 400 KB
long     0 20  64 24000000 32,000 blocks with a path of 4 KB each
headers  0 20  64  2000000 30,000 files that begin with 65,535 headers
sparse   0 60 128  2000000 64 GiB without a block of the disk
END
python3 "$kit/tests/hostile_cores.py" names asking.core
verdict 'a name with control characters' 'leak_walk: /x/libjemalloc\x1b[31m.so: its blocks are not in the log' \
    "$("$walk" --quiet asking.core 2>&1 > asked.log)"
python3 "$kit/tests/hostile_cores.py" table asking.table asking.core
asks_much 'a table of 256 GiB, sparse' 0 20 64 1000 "$kit/leak_log" asking.core asking.table
asks_much 'the same, for callers' 0 20 64 200000 "$walk" --names asking.table asking.core
python3 "$kit/tests/hostile_cores.py" paths asking.table asking.core
asks_much '3,000 blocks of 32 callers with a path of 4 KB' 0 20 64 24000000 "$kit/leak_log" asking.core asking.table
python3 "$kit/tests/hostile_cores.py" leaves asking.table asking.core
asks_much 'freed memory that the core lacks, or that is told again and again' \
    0 20 64 200000 "$kit/leak_log" asking.core asking.table
verdict 'what the core has of it is in the log' 2048 "$(grep -c '^+ 0x55555556.* 0x10$' asked.log)"
verdict 'a FIFO is no core' 'leak_walk: fifo: no regular file' "$(timeout 60 "$walk" fifo 2>&1)"
verdict 'nor a table' 'leak_log: fifo: no regular file' "$(timeout 60 "$kit/leak_log" asking.core fifo 2>&1)"
gcc -O1 -shared -fPIC "$kit/tests/hostile_shrink.c" -o hostile_shrink.so
python3 "$kit/tests/hostile_cores.py" path asking.core
verdict 'a core that becomes shorter' \
    "leak_walk: a file can't be read any more: it became shorter, or its disk has a fault
status 2, 0 bytes" "$(SHRINK=asking.core LD_PRELOAD=$work/hostile_shrink.so "$walk" asking.core 2>&1 > asked.log;
echo "status $?, $(stat -c %s asked.log) bytes")"
rm -f asking.core asking.table asked.log
