# What the test scripts share. LEAK_FIND names leak_find; without it the one that is installed or built is taken.
# The last line of a script is `capture: N passed, M failed`, even if it ends before its end, which is one failure.
kit=$(readlink -f "$(dirname "${BASH_SOURCE[0]}")/..")
work=$(mktemp -d)
passed=0
failed=0
left_out=0
complete=
declare -A started
export LEAK_TRACE=$work/table.%p
ulimit -c unlimited

# is_ours PID: whether the process is a child of this shell, or works in our folder, or has it in its environment. One
# that ended may have left its number to a stranger, soon where threads start all the time.
is_ours() {
    grep -qsx "PPid:[[:space:]]*$$" "/proc/$1/status" || [[ $(readlink "/proc/$1/cwd") == "$work"* ]] ||
        grep -qszF "$work" "/proc/$1/environ"
}

# stop PID..: kills processes that were started here, and waits for them.
stop() {
    local pid
    for pid in "$@"; do
        { is_ours "$pid" && kill -9 "$pid" && wait "$pid"; } 2> /dev/null
        unset "started[$pid]"
    done
}

finish() {
    local status=$?
    stop "${!started[@]}"
    cd /
    rm -rf "$work"
    [ "$complete" ] || { echo "FAIL the tests ended before their end, with status $status"; failed=$((failed + 1)); }
    [ $left_out = 0 ] || echo "$left_out left out, which can't be tried here"
    [ ! "$complete" ] || [ ! "${failing-}" ] || echo "parts with failures:$failing"
    echo "capture: $passed passed, $failed failed"
    [ $failed = 0 ] && exit 0
    exit 1 # `exit` alone would give the status from before the trap
}
trap finish EXIT
trap 'exit 1' INT TERM HUP

# section TEXT: a headline, with the seconds since the start.
section() { echo "== $* (at $SECONDS s)"; }

# leave_out TEXT: says what can't be tried here.
leave_out() {
    echo "left out: $*"
    left_out=$((left_out + 1))
}

# limited SECONDS COMMAND..: ends it if it takes longer.
limited() { timeout -k 5 "$@" < /dev/null; }

built=$kit/../crates/leak_cli/out/leak_cli
finder=${LEAK_FIND:-$(command -v leak_find || readlink -e "$built")}
[ -x "$finder" ] || { echo "no leak_find: install it, name it by LEAK_FIND, or run 'rt run' in crates/leak_cli" >&2;
    exit 2; }
[ -x "$kit/leak_log" ] && [ -x "$kit/leak_core" ] && [ -e "$kit/leak_trace.so" ] ||
    { echo "capture is not built: run make in $kit" >&2; exit 2; }

# find_leaks WORD..: leak_find.
find_leaks() { limited 120 "$finder" "$@"; }

# verdict NAME WANTED FOUND
verdict() {
    if [ "$2" = "$3" ]; then
        echo "ok   $1"
        passed=$((passed + 1))
    else
        echo "FAIL $1: wanted '$2', found '$3'"
        failed=$((failed + 1))
    fi
}

# The sizes that a source says are lost, and those that a report names.
expected() { sed -n 's/.*expect: \([0-9 ]*\).*/\1/p' "$1" | tr ' ' '\n' | grep . | sort -n | tr '\n' ' '; }
named() {
    grep -qs '^leaked ' "$1" || printf 'no-report '
    awk '$1 == "leak" { print $3 }' "$1" | sort -n | tr '\n' ' '
}

# build_faulty FILE: a leak_core with the faults that a test asks for.
build_faulty() { gcc -std=gnu11 -O1 -g -pthread -DFAULT -DVERSION='"faulty"' "$kit"/dump/*.c -o "$1" || exit 1; }

# build SOURCE [OPTION..]
build() {
    local compiler=gcc
    [ "${1##*.}" = cc ] && compiler=g++
    "$compiler" -O1 -g -pthread "$kit/tests/$1" -o "$work/$(basename "${1%.*}")" "${@:2}" 2> "$work/cc" ||
        { cat "$work/cc" >&2; exit 1; }
}

# until_true SECONDS COMMAND..: waits until the command succeeds, for this many seconds at most.
until_true() {
    local end=$((SECONDS + $1))
    shift
    until "$@"; do
        [ $SECONDS -lt $end ] || return 1
        sleep 0.05
    done
}

# settle PID: waits until the process rests in read(), poll() or epoll_wait(), for three tenths of a second, or a minute
# in all.
settle() {
    local still=0 end=$((SECONDS + 60))
    while [ $SECONDS -lt $end ]; do
        case $(cut -d ' ' -f 1 "/proc/$1/syscall" 2> /dev/null) in
        0 | 7 | 232 | 281) still=$((still + 1)) ;;
        *) still=0 ;;
        esac
        [ $still -lt 4 ] || return 0
        sleep 0.1
    done
    echo "process $1 does not come to rest" >&2
}

# is_program PID: whether the shell of the tests has become leak_trace, and that the program, or is gone.
own_name=$(cat /proc/$$/comm)
is_program() { ! grep -qsxE "leak_trace|bash|$own_name" "/proc/$1/comm"; }

# start PROGRAM ARGS..: runs it traced in the background, gives its id in `process`, and waits until it rests, or as
# many seconds as `wait` says.
start() {
    (cd "$work" && exec "$kit/leak_trace" $options "$@") &
    process=$!
    started[$process]=1
    until_true 60 is_program $process # leak_trace rests too while it reads what the file says
    if [ "${wait-}" ]; then sleep "$wait"; else settle $process; fi
}

# be_ready NAME PROGRAM ARGS..: runs it in the background, its output in NAME.out, until it says so. Its id is in
# `process`.
be_ready() {
    rm -f "$1.out" # of one before, which was ready too
    "${@:2}" > "$1.out" 2>&1 &
    process=$!
    started[$process]=1
    until_true 120 grep -qsx ready "$1.out" || echo "no sign of $1: $(cat "$1.out")" >&2
    sleep 0.1
}

# unprepared PROGRAM..: runs it as it is, and gives its id in `process`.
unprepared() {
    rm -f in && mkfifo in
    (exec 3<> in; exec "$@" <&3 > /dev/null 2>&1 3>&-) &
    process=$!
    started[$process]=1
    settle $process
}

# in_steps: sizes that are named, without the 16 bytes that malloc may leave at a block.
in_steps() { tr ' ' '\n' | awk 'NF { print $1 % 32 == 8 ? $1 - 16 : $1 }' | sort -n | tr '\n' ' '; }

# The kernel's core in the working folder, by whatever name.
kernel_core() { ls core core.* 2> /dev/null | head -n 1; }

# May a process of ours be stopped, and does the kernel write a core if a process dies?
sleep 60 &
started[$!]=1
limited 60 "$kit/leak_core" --size $! > "$work/size" && attaches=1 || attaches=
{ stop $!; } 2> /dev/null
cd "$work" || exit 1
(sleep 60 & sleep 0.2; kill -ABRT $!; wait $!) > /dev/null 2>&1
dumps_core=$(kernel_core)
rm -f core core.*
[ "$attaches" ] || echo "no process may be stopped here: the kernel's cores of killed processes stand in"
dumps=$attaches$dumps_core
[ "$dumps_core" ] || echo "the kernel writes no core here: $(cat /proc/sys/kernel/core_pattern) takes it elsewhere"

# dump_killed PID NAME: kills the process and takes the kernel's core of it.
dump_killed() {
    local table
    table=$(sed -n 's/^[^ ]* rw-s [^/]*//p' "/proc/$1/maps" | grep "^$work/table" | head -n 1)
    rm -f core core.*
    { kill -ABRT "$1" && wait "$1"; } 2> /dev/null # a daemon is no child of ours:
    until_true 60 is_dead "$1" && mv "$(kernel_core)" "$2.kernel"
    "$kit/leak_dump" --core "$2.kernel" "$table" "$2" 2> /dev/null
}
is_dead() { ! grep -qs '^State:.*[^ZX] (' "/proc/$1/status"; }

# dump [--after NAME1] PID NAME: by leak_dump, or, if it may not stop it, by killing the process. If the library takes
# more of the disk than its tables and 4 GB, a core has what it should not have.
dump() {
    local name=${!#} largest
    rm -f "$name.core" "$name.log"
    largest=$(stat -c %s "$work"/table.* | sort -n | tail -n 1)
    if [ "$attaches" ]; then
        (ulimit -f $((largest / 1024 + 4000000)); limited 120 "$kit/leak_dump" "$@" 2> "$work/dump.said")
        grep -vE 'was stopped|^leak_dump: (the blocks|now search)' "$work/dump.said" >&2
    else
        dump_killed "$@"
    fi
    [ -s "$name.log" ] && return
    verdict "dump $name" 'a log' 'none'
    return 1
}

# search NAME: of NAME.core and NAME.log, the report.
search() { find_leaks one "$work/$1.core" "$work/$1.log" > "$work/$1.report" 2>&1; }

# look SOURCE [PID]: dumps, searches, ends the process, and compares what is named with what the source says.
look() {
    local name=${1%.*} pid=${2:-$process}
    rm -f "$work/$name.report"
    dump "$pid" "$work/$name" && search "$name"
    stop "$pid"
    verdict "$name${options:+ $options}" "$(expected "$kit/tests/$1")" "$(named "$work/$name.report")"
    rm -f "$work/$name.core" "$work/$name.kernel"
}

# fetch PORT: asks the server of that port a hundred times for a file.
fetch() {
    limited 60 python3 -c 'import sys, time, urllib.request
for _ in range(100):
    try: urllib.request.urlopen("http://127.0.0.1:%s/x" % sys.argv[1], timeout=5).read()
    except OSError: time.sleep(0.05) # it is not there yet' "$1"
}
