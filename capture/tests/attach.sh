# leak_trace --attach and --detach: a process that runs already is traced from now on, and lives on as it was: under
# load, if leak_attach is killed at any of its steps, with children, and where it is refused.
section a process that runs already
build attached.c
build union.c
export LEAK_FIND=$finder
. "$kit/tests/attach_common.sh"
# As leak_attach is built, but it kills itself at the step that LEAK_CORE_DIE says.
gcc -std=gnu11 -O1 \
    -g -pthread -DFAULT "$kit"/attach/{leak_attach,attach,plan,detach,island,modules,symbols,decode,moved,refuse}.c \
    "$kit"/objects/attach/{gate,library}.o \
    "$kit"/dump/{fault,ending,stop,refuse,text,memory,maps,served,calls,callable,code,frame,front,apart}.c \
    -o dying 2> cc || { cat cc >&2; exit 1; }

# launch WORD..: runs `attached` with these words untraced in the background; what it prints goes to attached.out, its
# status to attached.status.
launch() {
    rm -f attached.out attached.status attached.pid
    (./attached "$@" > attached.out & echo $! > attached.pid; wait $!; echo $? > attached.status) &
    waiter=$!
    until_true 30 grep -qs ready attached.out
    until_true 30 test -s attached.pid
    process=$(cat attached.pid)
    started[$process]=1
}
# ended: waits for it, and gives its status and the sum of what it printed.
ended() {
    until_true 200 test -s attached.status
    unset "started[$process]"
    echo "$(cat attached.status) $(md5sum < attached.out)"
}
# rounds NAME WORD..: attached and detached again and again while it runs; its answers and its status are those of an
# untouched run.
rounds() {
    local name=$1 wrong=0 count=0 untouched before
    shift
    launch "$@"
    untouched=$(ended)
    launch "$@"
    before=$(whole $process)
    while [ ! -e attached.status ]; do
        attach $process || { [ -e attached.status ] || is_dead $process || { cat attach.said; wrong=$((wrong + 1)); };
            break; }
        sleep 0.0$((RANDOM % 90 + 10))
        detach $process || { [ -e attached.status ] || is_dead $process || { cat detach.said; wrong=$((wrong + 1)); };
            break; }
        [ "$(whole $process 2> /dev/null)" = "$before" ] || is_dead $process || { echo 'the code has changed';
            wrong=$((wrong + 1)); }
        [ ! -e "$work/table.$process" ] || { echo 'a table is left'; wrong=$((wrong + 1)); }
        count=$((count + 1))
    done
    verdict "$name: each attach and detach" 0 $wrong
    verdict "$name: its answers and its status" "$untouched" "$(ended)"
    verdict "$name: a round at least" yes "$([ $count -ge 1 ] && echo yes || echo $count)"
    echo "     $count rounds"
    rm -f table.*
}
rounds 'four threads' 4 100000
rounds 'signals and children' 3 80000 signals children
LEAK_TRACE_FORK=1 rounds 'children that are traced' 2 80000 children
rounds 'programs by vfork, and files that come and go' 3 60000 spawns modules

# A file that is gone when its tables are read is looked at again, and so is the island's place if it is taken
# meanwhile.
section files that are gone when they are read
build vanishing.c
be_ready vanishing ./vanishing "$(ldd /bin/sh | awk '$1 == "libc.so.6" { sub("libc.so", "libm.so", $3); print $3 }')"
wrong=0
for _ in {1..40}; do
    { attach $process && detach $process; } || { cat attach.said; wrong=$((wrong + 1)); }
done
verdict 'attached and detached 40 times' 0 $wrong
stop $process

section what is lost after
rm -f in union.out && mkfifo in
(exec 3<> in; exec ./union <&3 > union.out 3>&-) &
process=$!
started[$process]=1
until_true 60 grep -qs '^one ' union.out
settle $process
until_true 60 attach $process || cat attach.said
verdict 'a process that waits is armed' 1 \
    "$(grep -c "has not allocated since: its blocks have callers from its next call of malloc on" attach.said)"
echo > in
until_true 60 grep -qs '^again ' union.out
settle $process
verdict 'it has a table then' "$process live" "$("$trace" --list | awk 'NR > 1 { print $1, $2 }')"
limited 120 "$kit/leak_dump" $process "$work/after" 2> after.said
verdict 'a log by heap and table' 1 "$(grep -c "and their callers by leak_trace's table, which began at " after.said)"
"$kit/leak_walk" --quiet after.core > after.walk
sed -n 's/^@ .* + /+ /p' after.walk > blocks.walk
verdict "the blocks are the heap's" same "$(sed -n 's/^@ .* + /+ /p' after.log | cmp - blocks.walk && echo same)"
search after
find_leaks one --skip-freed --skip-links after.core after.log > after.report
verdict 'of the lost blocks the later one has callers' 'size,union' \
    "$(awk '$1 == "leak" { print ($6 ~ /union:\[/ ? "union" : $6) }' after.report | sort -u | paste -s -d ,)"
limited 120 "$kit/leak_report" --raw $process > after.out 2> after.said
verdict 'leak_report tells them' 1 "$(grep -c '^.* late .*union\.c:' after.out)"
detach $process
verdict 'detached' 0 $?
limited 120 "$kit/leak_dump" $process "$work/without" 2> without.said
verdict 'then a log by the heap alone' 1 "$(grep -c "there is no table by leak_trace" without.said)"
verdict 'twice is refused' "leak_attach: process $process is not attached" \
    "$(limited 60 "$trace" --detach $process 2>&1)"
stop $process
rm -f ./*.core

# One in three steps, at random; STEP=1 takes each of them.
section leak_attach is killed at its steps
launch 3 1000000000
before=$(whole $process)
died=0 wrong=0 step=$((1 + RANDOM % 3))
until [ $step -gt 400 ] || is_dead $process; do
    LEAK_CORE_DIE=$step limited 60 ./dying $process 2> dying.said && break
    grep -q 'ended by signal 9' dying.said && died=$((died + 1))
    limited 60 "$kit/leak_attach" --detach $process 2> detach.said || grep -q 'is not attached' detach.said ||
        { cat detach.said; wrong=$((wrong + 1)); }
    [ "$(whole $process)" = "$before" ] || { echo "step $step: the code has changed"; wrong=$((wrong + 1)); }
    step=$((step + ${STEP:-1 + RANDOM % 5}))
done
verdict 'attach: killed at some steps' yes "$([ $died -gt 5 ] && echo yes || echo $died)"
echo "     $died steps"
died=0 step=$((1 + RANDOM % 3))
until [ $step -gt 400 ] || is_dead $process; do
    LEAK_CORE_DIE=$step limited 60 ./dying --detach $process 2> dying.said && break
    grep -q 'ended by signal 9' dying.said && died=$((died + 1))
    limited 60 "$kit/leak_attach" --detach $process 2> detach.said || grep -q 'is not attached' detach.said ||
        { cat detach.said; wrong=$((wrong + 1)); }
    [ "$(whole $process)" = "$before" ] || { echo "step $step: the code has changed"; wrong=$((wrong + 1)); }
    limited 60 "$kit/leak_attach" $process 2> attach.said || { cat attach.said; wrong=$((wrong + 1)); }
    step=$((step + ${STEP:-1 + RANDOM % 5}))
done
verdict 'detach: killed at some steps' yes "$([ $died -gt 5 ] && echo yes || echo $died)"
echo "     $died steps"
verdict 'nothing went wrong' 0 $wrong
verdict 'it lives' yes "$(is_dead $process || echo yes)"
stop $process
wait $waiter 2> /dev/null

section calls that may not load the library
cat > handled.c << 'END'
#include <signal.h>
#include <stdio.h>
#include <sys/time.h>
#include "lose.h"
static void handle(int signal)
{
    void *volatile block = malloc(100 + signal);
    free(block);
}
int main(void)
{
    struct itimerval often = { { 0, 2000 }, { 0, 2000 } };
    char line;
    signal(SIGALRM, handle);
    setitimer(ITIMER_REAL, &often, NULL);
    puts("ready");
    fflush(stdout);
    while (read(0, &line, 1) != 1)
        ;
    for (;; pause()) {
        void *volatile block = malloc(100);
        free(block);
    }
}
END
gcc -O1 -I "$kit/tests" handled.c -o handled
rm -f in && mkfifo in
(exec 3<> in; exec ./handled <&3 > handled.out 3>&-) &
process=$!
started[$process]=1
until_true 30 grep -qs ready handled.out
attach $process
verdict 'a handler that allocates does not load it' 1 "$(grep -c 'has not allocated since' attach.said)"
verdict 'so there is no table' 0 "$(ls table.* 2> /dev/null | wc -l)"
echo > in
verdict 'the program itself does' yes "$(until_true 30 test -e "table.$process" && echo yes)"
detach $process
stop $process

# attach_fed: attaches a shell that allocates for each line that it reads, and gives it lines meanwhile.
attach_fed() {
    (while :; do echo more > in; sleep 0.2; done) &
    feeder=$!
    started[$feeder]=1
    attach $process
    stop $feeder
}
rm -f in && mkfifo in
(exec 3<> in; exec bash -c 'while read -r x; do [ "$x" != go ] || exec sleep 60; y=$y$x; done' <&3 3>&-) &
process=$!
started[$process]=1
until_true 30 grep -qs bash /proc/$process/comm
settle $process
attach_fed
verdict 'a shell is attached' 1 "$(grep -c 'its blocks have callers from now on' attach.said)"
echo go > in
until_true 30 grep -qs sleep /proc/$process/comm
verdict 'it runs another program: the table is of nobody' "$process untraced" \
    "$("$trace" --list | awk 'NR == 2 { print $1, $2 }')"
verdict 'it is not attached any more' "leak_attach: process $process is not attached" \
    "$(limited 60 "$trace" --detach $process 2>&1)"
stop $process
limited 60 "$trace" --remove > /dev/null
verdict 'its table can be removed' 0 "$(ls table.* 2> /dev/null | wc -l)"

section a child by fork
rm -f in child && mkfifo in
(exec 3<> in; exec bash -c 'work() { while :; do y=$RANDOM$y; y=${y:0:99}; read -r -t 0.05 x <> <(:); done; }
    while read -r x; do y=$y$x; [ "$x" != fork ] || { work & echo $! > child; }; done' <&3 3>&-) &
process=$!
started[$process]=1
until_true 30 grep -qs bash /proc/$process/comm
settle $process
attach_fed
echo fork > in
until_true 30 test -s child
child=$(cat child)
started[$child]=1
verdict 'it has no table' "table.$process" "$(ls table.*)"
attach "$child"
verdict 'it can be attached itself' '0 1' "$? $(grep -c 'its blocks have callers from now on' attach.said)"
verdict 'then it has one' "$(printf 'table.%s\n' "$process" "$child" | sort)" "$(ls table.* | sort)"
detach "$child"
verdict 'and without it the other stays' "0 table.$process" "$? $(ls table.*)"
verdict 'the other is traced' "$process live" "$("$trace" --list | awk 'NR == 2 { print $1, $2 }')"
detach $process
verdict 'until it is detached' 0 "$(ls table.* 2> /dev/null | wc -l)"
stop "$child" $process

section what is refused
[ -x plain ] || build plain.c
unprepared ./plain
kill -STOP $process
until_true 30 grep -qs '^State:.*T (' /proc/$process/status
refused 'a process that is stopped' 'is stopped, by a signal or by a tracer' $process
kill -CONT $process
if command -v gdb > /dev/null; then
    (exec gdb -nx -q -p $process -ex 'shell touch traced' -ex 'shell sleep 60' > /dev/null 2>&1 < /dev/null) &
    tracer=$!
    started[$tracer]=1
    until_true 60 test -e traced
    refused 'a process under a debugger' 'it would load nothing' $process
    stop $tracer
fi
limited 60 "$trace" --attach $process 2> said
limited 60 "$trace" --attach $process 2> said
verdict 'refused: a second time' "2 leak_attach: process $process is attached already" "$? $(cat said)"
stop $process
start ./plain
refused 'a process under leak_trace' 'runs under leak_trace already' $process
stop $process
gcc -O1 -static -I "$kit/tests" "$kit/tests/plain.c" -o plain_static 2> cc && {
    unprepared ./plain_static
    refused 'a static program' 'it is static, or has another C library' $process
    stop $process
}
printf '#include "lose.h"\nint main(void) { LOSE(malloc(45)); rest(); }\n' > lost_one.c
command -v musl-gcc > /dev/null && musl-gcc -O1 -I "$kit/tests" lost_one.c -o plain_musl 2> cc && {
    unprepared ./plain_musl
    refused "a program of musl's" 'it is static, or has another C library' $process
    stop $process
}
jemalloc=/usr/lib/x86_64-linux-gnu/libjemalloc.so.2
[ ! -e $jemalloc ] || {
    unprepared env LD_PRELOAD=$jemalloc ./plain
    refused 'another allocator' "has another allocator, of $(readlink -f $jemalloc)" $process
    stop $process
}
cat > filtered.c << 'END'
#include <linux/filter.h>
#include <linux/seccomp.h>
#include <sys/prctl.h>
#include "lose.h"
int main(void)
{
    struct sock_filter allow = BPF_STMT(BPF_RET | BPF_K, SECCOMP_RET_ALLOW);
    struct sock_fprog program = { 1, &allow };
    prctl(PR_SET_NO_NEW_PRIVS, 1, 0, 0, 0);
    prctl(PR_SET_SECCOMP, SECCOMP_MODE_FILTER, &program);
    LOSE(malloc(45));
    rest();
}
END
gcc -O1 -I "$kit/tests" filtered.c -o filtered
unprepared ./filtered
refused 'a process under seccomp' 'is under seccomp' $process
stop $process
# A function that begins with what nobody knows how to move.
cat > changed.c << 'END'
#include <stdint.h>
#include <sys/mman.h>
#include "lose.h"
int main(void)
{
    char *at = (char *)&valloc;
    mprotect((void *)((uintptr_t)at & -4096), 8192, PROT_READ | PROT_WRITE | PROT_EXEC);
    memcpy(at, "\xe8\0\0\0\0", 5);
    mprotect((void *)((uintptr_t)at & -4096), 8192, PROT_READ | PROT_EXEC);
    rest();
}
END
gcc -O1 -w -I "$kit/tests" changed.c -o changed
unprepared ./changed
refused 'instructions that are not known' 'the first instructions of valloc are none that can be moved: e8 00' $process
stop $process
if [ "$(id -u)" = 0 ] && unshare -m true 2> /dev/null; then
    unprepared unshare -m sh -c 'umount -l /proc; exec ./plain'
    refused 'no /proc' 'has no /proc mounted' $process
    stop $process
fi
verdict 'refused: no process' 'leak_attach: no process 4194000' "$("$trace" --attach 4194000 2>&1)"
verdict 'refused: no number' "leak_trace: --attach takes a number, and 'x' is none" "$("$trace" --attach x 2>&1)"

section no memory for the library
cat > narrow.c << 'END'
#include <sys/resource.h>
#include <stdio.h>
#include <unistd.h>
#include "lose.h"
int main(void)
{
    char line[80];
    long pages = 0;
    FILE *file = fopen("/proc/self/statm", "r");
    if (fgets(line, sizeof line, file)) pages = atol(line);
    fclose(file);
    struct rlimit limit = { pages * 4096 + (600 << 10), pages * 4096 + (600 << 10) };
    setrlimit(RLIMIT_AS, &limit);
    for (;;) { void *volatile p = malloc(100); free(p); usleep(1000); }
}
END
gcc -O1 -I "$kit/tests" narrow.c -o narrow
./narrow &
process=$!
started[$process]=1
sleep 0.3
limited 60 "$trace" --attach $process 2> said
verdict 'it is said' '2 1' "$? $(grep -c 'could not load the library, and is as it was: ' said)"
echo "     $(tail -n 1 said)"
sleep 0.2
verdict 'it lives' yes "$(is_dead $process || echo yes)"
stop $process
