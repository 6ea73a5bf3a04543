# What is hard to attach: loaded in an unusual way, on an unusual stack, in a container. Each is attached and
# detached, or refused and as it was.
. "$kit/tests/attach_common.sh"
build kinds.c
rm -f table.*
gcc -shared -fPIC -O1 -g -o module.so "$kit/tests/module.c"
# asks PID: has it do what it does at SIGUSR1.
asks() { kill -USR1 "$1" && until_true 60 grep -qsx done kinds.out || echo "it does not: $(cat kinds.out)"; }
# told WORDS: how often attaching said so.
told() { grep -c "$1" attach.said; }
# first_table: whose the first table is, and whether that process lives.
first_table() { "$trace" --list | awk 'NR == 2 { print $1, $2 }'; }
# goes NAME: attaches and detaches `process`, whose code is then as it was, and which lives.
goes() {
    local before
    before=$(whole "$process")
    attach "$process"
    verdict "$1: attached" '0 1' "$? $(told 'its blocks have callers from now on')"
    detach "$process"
    verdict "$1: detached, and it lives with its own code" "0 $before" "$? $(whole "$process")"
}

section how it was loaded
printf '__thread char room[200] __attribute__((tls_model("initial-exec")));\nchar *use(void) { return room; }\n' > tls.c
gcc -shared -fPIC -O1 -o tls.so tls.c
for k in $(seq 40); do cp tls.so "tls$k.so"; done
be_ready kinds ./kinds tls ./tls?*.so
verdict 'no static thread-local memory is left' yes \
    "$(grep -q 'cannot allocate memory in static TLS block' kinds.out && echo yes)"
before=$(whole "$process")
attach "$process"
verdict 'no static thread-local memory: it is told' '2 1' \
    "$? $(told 'could not load the library, and is as it was: .*cannot allocate memory in static TLS block')"
verdict 'no static thread-local memory: it lives with its own code' "$before" "$(whole "$process")"
verdict 'no static thread-local memory: no table' 0 "$(ls table.* 2> /dev/null | wc -l)"
stop "$process"

be_ready kinds ./kinds bind ./module.so
attach "$process"
asks "$process"
limited 120 "$kit/leak_dump" "$process" "$work/bind" 2> bind.said
search bind
verdict 'RTLD_DEEPBIND: what its module loses has callers there' yes \
    "$(awk '$1 == "leak" && $3 >= 61 && $3 <= 72 && !/module\.so:\[/ { wrong = 1 }
            $1 == "leak" && /module\.so:\[/ { right = 1 }
            END { print right && !wrong ? "yes" : right " " wrong }' bind.report)"
detach "$process"
stop "$process"
rm -f bind.*

jemalloc=$(readlink -f /usr/lib/x86_64-linux-gnu/libjemalloc.so.2)
libc=$(readlink -f "$(ldd ./kinds | awk '$1 == "libc.so.6" { print $3 }')")
cp "$libc" libc.so.6
be_ready kinds ./kinds data ./libc.so.6 ./kinds ${jemalloc:+"$jemalloc"}
goes 'a C library and an allocator that are mapped as data'
stop "$process"

be_ready kinds ./kinds space libm.so.6
attach "$process"
before=$(whole "$process" | cut -d ' ' -f 1)
asks "$process"
verdict 'a second C library' 2 "$(grep -c ' r-xp .*/libc\.so\.6$' "/proc/$process/maps")"
detach "$process"
verdict 'a second C library after attaching: detached' 0 $?
verdict 'a second C library after attaching: no table' 0 "$(ls table.* 2> /dev/null | wc -l)"
refused 'a second C library' 'has two C libraries' "$process"
stop "$process"

# (its first instruction has seven bytes where glibc is built as Debian's)
if [ "$(gdb -batch -ex 'x/2i valloc' "$libc" 2> /dev/null | grep -c '+7>')" = 1 ]; then
    be_ready kinds ./kinds changes
    goes 'code that is changed later'
    asks "$process"
    refused 'code that is changed later' 'the code of valloc has changed' "$process"
    stop "$process"
else
    leave_out 'code that changes: valloc begins otherwise here, or there is no gdb'
fi

section where its threads are
be_ready kinds ./kinds lent
before=$(whole "$process")
attach "$process"
asks "$process"
detach "$process"
verdict 'no thread can be called: detached, and the file stays' \
    '0 1' "$? $(grep -c "it could not remove its table's file" detach.said)"
verdict 'no thread can be called: it lives with its own code' "$before" "$(whole "$process")"
verdict 'no thread can be called: the table has ended' "$process ended" "$(first_table)"
limited 60 "$trace" --remove > /dev/null
verdict 'no thread can be called: its table can be removed' 0 "$(ls table.* 2> /dev/null | wc -l)"
stop "$process"
if [ "$(id -u)" = 0 ]; then
    be_ready kinds ./kinds drops
    attach "$process"
    asks "$process"
    detach "$process"
    verdict 'rights that were dropped: detached, and the file stays' \
        '0 1' "$? $(grep -c "it could not remove its table's file" detach.said)"
    verdict 'rights that were dropped: the table has ended' "$process ended" "$(first_table)"
    limited 60 "$trace" --remove > /dev/null
    verdict 'rights that were dropped: its table can be removed' 0 "$(ls table.* 2> /dev/null | wc -l)"
    stop "$process"
fi
be_ready kinds ./kinds deep
refused 'a thread that would return among the first instructions' \
    'at each of 50 times a thread was at the first instructions of malloc' "$process"
stop "$process"
be_ready kinds ./kinds sharer
refused 'a process that shares its memory' "shares its memory with process $(pgrep -P "$process")" "$process"
started[$(pgrep -P "$process")]=1
stop "$process" $(pgrep -P "$process")

section shadow stacks
be_ready kinds ./kinds named shstk
goes 'a thread that is only named so'
sed '$a x86_Thread_features:\tshstk wrss ' "/proc/$process/status" > status
if [ "$(id -u)" = 0 ] && unshare -m mount --bind status "/proc/$process/task/$process/status" 2> /dev/null; then
    before=$(whole "$process" mappings)
    limited 60 unshare -m sh -c 'mount --bind status "/proc/$0/task/$0/status" && exec "$@"' \
        "$process" "$trace" --attach "$process" 2> shadow.said
    verdict 'refused: a shadow stack, as Linux 6.6 tells of one' \
        "2 leak_attach: thread $process of process $process has a shadow stack, which knows nothing of the jumps" \
        "$? $(cat shadow.said)"
    verdict 'refused: a shadow stack: it is as it was' "$before" "$(whole "$process" mappings)"
else
    leave_out 'a shadow stack: no file can be mounted over one of /proc here'
fi
stop "$process"

section namespaces
# in_namespace OPTION..: runs `kinds` in a pid namespace, by unshare with these options. `outside` is the process
# that made it.
in_namespace() {
    rm -f kinds.out
    unshare "$@" > kinds.out 2>&1 & outside=$!
    started[$outside]=1
    until_true 60 grep -qsx ready kinds.out
    process=$(pgrep -x kinds -P $outside)
    [ ! "$process" ] || started[$process]=1
}
if [ "$(id -u)" = 0 ] && unshare -p -m -f --mount-proc true 2> /dev/null; then
    in_namespace -p -m -f --mount-proc ./kinds
    goes 'a pid namespace with its own /proc'
    attach "$process"
    verdict 'a pid namespace: its table has its own number' table.1 "$(ls table.*)"
    verdict "a pid namespace: the table is the process's" "$process live" "$(first_table)"
    detach "$process"
    verdict 'a pid namespace: no table is left' 0 "$(ls table.* 2> /dev/null | wc -l)"
    stop "$process" $outside
    in_namespace -p -m -f ./kinds
    goes 'a pid namespace with the /proc of the outer one'
    stop "$process" $outside
    mkdir other_proc
    in_namespace -m sh -c 'unshare -p -f sh -c "mount -t proc proc other_proc && exec sleep 600" &
        until [ -e other_proc/1/comm ]; do sleep 0.1; done
        exec unshare -p -f sh -c "mount --bind other_proc /proc && exec ./kinds"'
    sleeper=$(pgrep -P "$(pgrep -x unshare -P $outside)")
    [ ! "$sleeper" ] || started[$sleeper]=1
    before=$(whole "$process")
    attach "$process"
    verdict 'a pid namespace with the /proc of another: it is told' \
        '2 1' "$? $(told 'could not load the library, and is as it was: .*/proc/self/fd/')"
    verdict 'a pid namespace with the /proc of another: it lives with its own code' "$before" "$(whole "$process")"
    stop "$process" $outside
else
    leave_out 'a pid namespace: none can be made here'
fi
