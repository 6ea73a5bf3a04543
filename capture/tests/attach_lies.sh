# Processes that lie to leak_trace --attach: of what their libc has, and of its code. Each is refused in time, and
# is as it was. And the first instructions of functions, as objdump has them.
. "$kit/tests/attach_common.sh"
section the first instructions of functions
gcc -std=gnu11 -O1 -g -fsanitize=address,undefined "$kit"/tests/moved.c "$kit"/attach/{decode,moved}.c -o moved 2> cc ||
    { cat cc >&2; exit 1; }
libc=$(ldd /bin/sh | awk '$1 == "libc.so.6" { print $3 }')
python3 -B "$kit/tests/moved_test.py" ./moved "$(readlink -f "$libc")" 2> moved.said
verdict "decoded and moved: $(tail -n 3 moved.said | head -n 1)" 0 $?
grep -qx OK moved.said || grep -A 9 -E '^(FAIL|ERROR)' moved.said

section a C library that lies
gcc -static -O1 "$kit/tests/lying.c" -o lying 2> cc || { cat cc >&2; exit 1; }
# lies KIND..: the folders of files of these kinds, and beside each libc.so.6 an ld.so that has nothing.
lies() {
    for kind in "$@"; do
        mkdir -p "lies/$kind"
        python3 -B "$kit/tests/lying.py" "$kind" "lies/$kind/libc.so.6"
        python3 -B "$kit/tests/lying.py" nothing "lies/$kind/ld-linux-x86-64.so.2"
    done
}
# A leak_attach that ends at the first access out of bounds.
gcc -std=gnu11 -O1 -g -pthread -fsanitize=address,undefined -fno-sanitize-recover=all \
    "$kit"/attach/{leak_attach,attach,plan,detach,island,modules,symbols,decode,moved,refuse}.c \
    "$kit"/objects/attach/{gate,library}.o \
    "$kit"/dump/{ending,stop,refuse,text,memory,maps,served,calls,callable,code,frame,front,apart}.c -o checked 2> cc ||
    { cat cc >&2; exit 1; }
export ASAN_OPTIONS=detect_leaks=0    # (it ends soon)
# in_bounds NAME WORD..: the same by that one: status 2, and one line.
in_bounds() {
    limited 60 ./checked "${@:2}" 2> checked.said
    verdict "$1: nothing is read out of bounds" '2 1' "$? $(wc -l < checked.said)"
    grep -m 3 -E 'ERROR|runtime error|^ *#[0-4] ' checked.said
}
build kinds.c
be_ready kinds ./kinds
limited 60 ./checked $process 2> checked.said
verdict 'attached by one that ends at the first access out of bounds' '0 1' "$? $(grep -c 'from now on' checked.said)"
limited 60 ./checked --detach $process 2> checked.said
verdict 'and detached' 0 $?
stop $process
while read -r kind why; do
    lies "$kind"
    be_ready lying ./lying lies/"$kind"/{libc.so.6,ld-linux-x86-64.so.2}
    refused "$kind" "$why" "$process"
    in_bounds "$kind" "$process"
    [[ $kind != *_island ]] || in_bounds "$kind, detaching" --detach "$process"
    stop "$process"
done << 'END_OF_KINDS'
old its libc has no dlopen: it is older than glibc 2.34
nothing its libc has no malloc
elsewhere its libc says that malloc lies where no code of libc is
shared its libc says that malloc lies where no code of libc is
end its libc says that malloc lies where no code of libc is
nowhere 5 bytes at 0x7f0120000000 can't be read
count libc.so.6 has more symbols than are looked at
strings libc.so.6 has more symbols than are looked at
buckets libc.so.6 has more symbols than are looked at
chain libc.so.6 has more symbols than are looked at
odd_chain libc.so.6 has more symbols than are looked at
cut_chain 4096 bytes at 0x120008000 can't be read
bloom bytes at 0x920000808 can't be read
tables bytes at 0x7f0000000000 can't be read
dynamic its libc has no dlopen
headers has no libc.so.6 and ld.so of glibc mapped
into code of libc jumps into the first instructions of malloc
back free jumps into its own first instructions
back_behind_a_call free jumps into its own first instructions
back_behind_what_is_unknown realloc jumps into its own first instructions
unknown the first instructions of malloc are none that can be moved: cc
zero_island was attached by another build of leak_trace: detach it by that
full_island was attached by another build of leak_trace: detach it by that
on_island bytes at 0x4141414141414141 can't be read
own_island was attached by another build of leak_trace: detach it by that
END_OF_KINDS
true_libc=(lies/old/libc.so.6 lies/old/ld-linux-x86-64.so.2)
python3 -B "$kit/tests/lying.py" malloc $'lies/a\nb.so'
be_ready lying ./lying "${true_libc[@]}" $'lies/a\nb.so'
refused 'a malloc in a file whose name has two lines' "has another allocator, of $work/lies/a\\nb.so: only" "$process"
stop "$process"
python3 -B "$kit/tests/lying.py" count lies/many.so
be_ready lying ./lying "${true_libc[@]}" lies/many.so
refused 'a file whose symbols are too many to look for a malloc' 'lies/many.so has more symbols than are looked at' \
    "$process"
stop "$process"
be_ready lying ./lying "${true_libc[@]}" lies/old/libc.so.6
refused 'two C libraries' 'has two C libraries' "$process"
stop "$process"

# in_time NAME WHY PID: it ends with one line, little memory, and twelve seconds of processor time: it may have
# to wait for a processor after the ten seconds that it takes by the clock. The line says so, or WHY if it came so far.
# Before it another may say that the code was not found in two seconds.
in_time() {
    (ulimit -v 1000000; ulimit -t 12; limited 120 "$trace" --attach "$3") 2> in_time.said
    verdict "$1: refused in time" '2 1 1' \
        "$? $(grep -vc 'code of the process could not be read in 2 s' in_time.said) $(grep -cE \
        "could not be looked at in 10 s|$2" in_time.said)"
    echo "     $(cut -c 1-150 in_time.said)"
    stop "$3"
}
section a process that takes long to look at
python3 -B "$kit/tests/lying.py" much lies/much.so
be_ready lying ./lying times 3000 "${true_libc[@]}" lies/much.so
in_time '3,000 files of 300,000 symbols each' 'has more symbols than are looked at' "$process"
be_ready lying ./lying times 60000 "${true_libc[@]}"
in_time '60,000 files' 'its libc has no dlopen' "$process"
be_ready lying ./lying served /dev/shm/leak_trace_test.$$ "${true_libc[@]}"
rm -f /dev/shm/leak_trace_test.$$
if grep -qx ready lying.out; then
    in_time 'pages that the process itself would supply' 'could not be looked at' "$process"
else
    leave_out "pages under userfaultfd: $(cat lying.out)"
    stop "$process"
fi
