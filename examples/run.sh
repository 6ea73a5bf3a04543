#!/bin/sh
# Builds leaky.c, in_vector.c, hidden.c, protected.c, in_flight.c, mixed.c, stale.c and side_by_side.c, runs them under
# mtrace and then with capture, takes cores of them, searches the cores, and compares each report with what the
# program's construction says: which sizes leaked, and that nothing else did. Then it searches cores with logs that are
# theirs and with logs that aren't, and compares the warnings and the misfits that --check lists. It asks what holds a
# block that only a stale word holds. At last it searches a program under jemalloc, whose blocks stand side by side,
# with their ends and without.
#
#     examples/run.sh LEAK_FIND
#
# LEAK_FIND is the installed program. Needs gcc, gdb and addr2line, and permission to attach to a process of one's own;
# without it only cores by the kernel are searched. The last part needs libjemalloc.so.2 too (Debian's package
# libjemalloc2), and is left out without it. The last line is `examples: N passed, M failed`; a script that ends early
# has one failure.
set -eu
leak_find=${1:?usage: run.sh LEAK_FIND}
here=$(cd "$(dirname "$0")" && pwd)
work=$(mktemp -d)
process=
passed=0
failed=0
complete=

# finish: ends the program that was started, and counts.
finish() {
    status=$?
    test -z "$process" || kill -9 "$process" 2> /dev/null || true
    rm -rf "$work"
    [ "$complete" ] || { echo "NOT as built: the examples ended early, with status $status"; failed=$((failed + 1)); }
    echo "examples: $passed passed, $failed failed"
    [ "$failed" = 0 ] && exit 0
    exit 1
}
trap finish EXIT
trap 'exit 1' INT TERM HUP

# judge NAME WANTED FOUND: counts, and says what is not as built.
judge() {
    if [ "$2" = "$3" ]; then
        passed=$((passed + 1))
    else
        echo "NOT as built: $1: wanted '$2', found '$3'"
        failed=$((failed + 1))
    fi
}

# limited COMMAND..: ends it after two minutes.
limited() {
    timeout -k 5 120 "$@" < /dev/null
}
gcc -g -O0 -Wno-unused-result -o "$work/leaky" "$here/leaky.c"
gcc -g -O0 -Wno-unused-result -o "$work/in_flight" "$here/in_flight.c"
gcc -g -O0 -Wno-unused-result -o "$work/in_vector" "$here/in_vector.c"
gcc -g -O0 -Wno-unused-result -o "$work/hidden" "$here/hidden.c"
gcc -g -O0 -Wno-unused-result -o "$work/protected" "$here/protected.c"
gcc -g -O0 -pthread -o "$work/mixed" "$here/mixed.c"
gcc -g -O0 -o "$work/stale" "$here/stale.c"
gcc -g -O0 -o "$work/side_by_side" "$here/side_by_side.c"
cd "$work"
judge "programs that are built" 8 "$(ls | wc -l)"

# check NAME LINES SIZES HEADS SUBCOMMAND FILE..: searches, shows the report, and compares its first lines, those that
# speak of live and of new blocks, the sizes of the leaked blocks, and those of the heads among them.
check() {
    name=$1 lines=$2 wanted=$3 wanted_heads=$4
    shift 4
    status=0
    wanted_status=${wanted:+1}
    limited "$leak_find" "$@" > report 2> warned || status=$?
    echo "== $name"
    cat report
    found=$(awk '$1 == "leak" { print $3 }' report | sort -n | tr '\n' ' ' | sed 's/ $//')
    heads=$(awk '$1 == "leak" && $5 == "head" { print $3 }' report | sort -n | tr '\n' ' ' | sed 's/ $//')
    begins=$(awk '$1 == "blocks" || $1 == "new"' report | tr '\n' ',' | sed 's/,$//')
    judge "$name" "status ${wanted_status:-0}, $lines, leaked sizes: $wanted, heads: $wanted_heads, warned: " \
        "status $status, $begins, leaked sizes: $found, heads: $heads, warned: $(cat warned)"
}

# name_lines PROGRAM: the line of the source for each leaked block of the last report.
name_lines() {
    awk '$1 == "leak" { print $3, $6 }' report | while read -r size caller; do
        offset=$(printf '%s\n' "$caller" | sed 's/.*\[\(0x[0-9a-f]*\)\]$/\1/')
        echo "$size bytes: $(basename "$(addr2line -e "$1" "$offset")")"
    done
}

# start PROGRAM WORD..: runs it with a log of its own, and gives its id in process.
start() {
    MALLOC_TRACE=$1.log LD_PRELOAD=libc_malloc_debug.so.0 "./$@" 2> "$1.said" &
    process=$!
}

# await PROGRAM NUMBER: waits until it has said so many times that it is ready.
await() {
    tries=600
    until [ "$(grep -c ready "$1.said" 2> /dev/null)" = "$2" ]; do
        tries=$((tries - 1))
        [ "$tries" -gt 0 ] || { echo "$1 does not get ready"; exit 1; }
        sleep 0.1
    done
}

# dump PROGRAM NUMBER: waits until it is ready, stops it by gdb, dumps it, copies the log while it stands still, and
# lets it go.
dump() {
    await "$1" "$2"
    limited gdb -nx --batch -p "$process" -ex "generate-core-file $1.core.$2" -ex "shell cp $1.log $1.copy.$2" \
        -ex detach > gdb.out 2>&1
}

# stop: ends the program that was started.
stop() {
    kill -9 "$process"
    wait "$process" 2> /dev/null || true
    process=
}

# leaky.c: what must be reported is the lost block, the chain behind a lost head, the ring. All else is held. Heads are
# the lost block and the first of the chain; the ring has none.
leaky_lines="blocks 12 bytes 1596"
leaky_sizes="45 61 77 93 109 125"
leaky_heads="45 61"

# A process that dies: the kernel dumps it, where it may write a file named core.
ulimit -c unlimited
MALLOC_TRACE=dead.log LD_PRELOAD=libc_malloc_debug.so.0 ./leaky dies 2> /dev/null || true
dead=$(ls core core.* 2> /dev/null | head -n 1)
if [ -n "$dead" ]; then
    check "a core by the kernel" "$leaky_lines" "$leaky_sizes" "$leaky_heads" one "$dead" dead.log
    name_lines leaky
else
    echo "left out: cores by the kernel, since $(cat /proc/sys/kernel/core_pattern) takes them elsewhere"
fi

# in_vector.c: blocks are held by registers of all kinds alone, each by one. What must be reported is the lost block;
# and where mm3 and ymm8 are cleared, those that they held.
vector_lines="blocks 6 bytes 510"
cleared_sizes="45 93 109"
grep -qw avx /proc/cpuinfo && avx=1 || avx=
if [ -z "$avx" ]; then
    echo "left out: a block that only the upper half of ymm8 holds, since this processor has no AVX"
    vector_lines="blocks 5 bytes 401"
    cleared_sizes="45 93"
fi

# rooted NAME CORE LOG SIZE PLACE: asks what holds the block of the size, which is to be the register alone.
rooted() {
    block=$(sed -n "s/.* + \(0x[0-9a-f]*\) $(printf '0x%x' "$4")\$/\1/p" "$3")
    status=0
    limited "$leak_find" why "$2" "$3" "$block" > report 2> warned || status=$?
    echo "== $1"
    cat report
    judge "$1" "status 0, root $5 of thread 1 holds $block" "status $status, $(sed -n 2p report)"
}

# registers_of NAME CORE LOG: what holds the blocks that no general register and no xmm register holds.
registers_of() {
    rooted "$1: mm3" "$2" "$3" 93 "st3 low"
    [ -z "$avx" ] || rooted "$1: the upper half of ymm8" "$2" "$3" 109 "state 704"
}

rm -f core core.*
MALLOC_TRACE=dead.log LD_PRELOAD=libc_malloc_debug.so.0 ./in_vector dies 2> /dev/null || true
dead=$(ls core core.* 2> /dev/null | head -n 1)
if [ -n "$dead" ]; then
    check "registers, by the kernel" "$vector_lines" "45" "45" one "$dead" dead.log
    registers_of "registers, by the kernel" "$dead" dead.log
    rm -f core core.*
    MALLOC_TRACE=dead.log LD_PRELOAD=libc_malloc_debug.so.0 ./in_vector dies cleared 2> /dev/null || true
    dead=$(ls core core.* | head -n 1)
    check "cleared registers, by the kernel" "$vector_lines" "$cleared_sizes" "$cleared_sizes" one "$dead" dead.log
fi

# protected.c: one block is held by memory that was made read-only, one by memory without rights, and one is lost.
# Without an option all three are named, and with --all-memory the lost one alone. The kernel's cores have both pages,
# and so have those of gdb 13.1, by which leak_dump dumps. protected_by CORE LOG
protected_by() {
    check "protected: writable memory" "blocks 4 bytes 276" "45 61 77" "45 61 77" one "$1" "$2"
    check "protected: --all-memory" "blocks 4 bytes 276" "45" "45" one --all-memory "$1" "$2"
}
rm -f core core.*
MALLOC_TRACE=dead.log LD_PRELOAD=libc_malloc_debug.so.0 ./protected dies 2> /dev/null || true
dead=$(ls core core.* 2> /dev/null | head -n 1)
if [ -n "$dead" ]; then
    protected_by "$dead" dead.log
    name_lines protected
fi

# May gdb attach to a process of ours? All that follows needs it.
sleep 60 &
process=$!
limited gdb -nx --batch -p "$process" -ex detach > gdb.out 2>&1 || true
stop
if ! grep -q 'Inferior 1.*detached' gdb.out; then
    echo "left out: what needs a process that goes on living, since gdb may not attach to one here"
    complete=1
    exit
fi

# A process that goes on living.
start leaky
dump leaky 1
stop
check "a core by gdb" "$leaky_lines" "$leaky_sizes" "$leaky_heads" one leaky.core.1 leaky.copy.1
name_lines leaky

start in_vector
dump in_vector 1
stop
check "registers, by gdb" "$vector_lines" "45" "45" one in_vector.core.1 in_vector.copy.1
registers_of "registers, by gdb" in_vector.core.1 in_vector.copy.1
start in_vector cleared
dump in_vector 1
stop
check "cleared registers, by gdb" "$vector_lines" "$cleared_sizes" "$cleared_sizes" one in_vector.core.1 \
    in_vector.copy.1
name_lines in_vector

# hidden.c: three blocks are lost, and no search without an option names one. --skip-freed names the one whose pointer
# is left in freed memory, and --skip-links those in whose last bytes malloc keeps the header of free memory. A log by
# capture lists malloc's own words as freed memory too, so with it --skip-freed names all three.
# hidden_by CORE LOG FREED: FREED are those that --skip-freed names.
hidden_by() {
    check "hidden: without an option" "blocks 5 bytes 439" "" "" one "$1" "$2"
    check "hidden: --skip-freed" "blocks 5 bytes 439" "$3" "$3" one --skip-freed "$1" "$2"
    check "hidden: --skip-freed --skip-links" "blocks 5 bytes 439" "45 56 72" "45 56 72" one \
        --skip-freed --skip-links "$1" "$2"
}
start hidden
dump hidden 1
stop
hidden_by hidden.core.1 hidden.copy.1 45
name_lines hidden

start protected
dump protected 1
stop
protected_by protected.core.1 protected.copy.1

# in_flight.c: three cores of one process, of which each but the first makes a pair with the one before.
start in_flight
dump in_flight 1
kill -USR1 "$process"
dump in_flight 2
kill -USR1 "$process"
dump in_flight 3
stop

# One core names what is in the pipe (61 at the first, 93 at the second), beside what is lost. No leaked block points to
# another, so each is a head.
check "the first core alone" "blocks 5 bytes 449" "45 61" "45 61" one in_flight.core.1 in_flight.copy.1
check "the second core alone" "blocks 7 bytes 651" "45 77 93 109" "45 77 93 109" one in_flight.core.2 in_flight.copy.2

# The pair names what was lost at the first core and is lost at the second. What was lost in between waits for the next
# pair.
check "the first and the second core" "blocks 7 bytes 651,new 2 bytes 202" "45" "45" \
    two in_flight.core.1 in_flight.copy.1 in_flight.core.2 in_flight.copy.2
name_lines in_flight
check "the second and the third core" "blocks 7 bytes 651,new 0 bytes 0" "45 77 109" "45 77 109" \
    two in_flight.core.2 in_flight.copy.2 in_flight.core.3 in_flight.copy.3
name_lines in_flight

# The same with capture, for which a program needs no mtrace(), no library of glibc's, and no flush.
capture=$here/../capture
make -s -C "$capture"

# start_traced PROGRAM: runs it with a table of its own, and gives its id in process.
start_traced() {
    rm -f "$1.said"
    LEAK_TRACE=$work/table.%p "$capture/leak_trace" -d 4 "./$1" 2> "$1.said" &
    process=$!
}

# capture PROGRAM NUMBER: as dump, by leak_dump. From the second on the log begins with the one before.
capture() {
    await "$1" "$2"
    if [ "$2" -gt 1 ]; then
        limited "$capture/leak_dump" --after "$1.traced.$(($2 - 1))" "$process" "$1.traced.$2"
    else
        limited "$capture/leak_dump" "$process" "$1.traced.$2"
    fi
}

start_traced leaky
capture leaky 1
stop
check "leaky, by capture" "$leaky_lines" "$leaky_sizes" "$leaky_heads" one leaky.traced.1.core leaky.traced.1.log
"$capture/leak_lines" report

start_traced hidden
capture hidden 1
stop
hidden_by hidden.traced.1.core hidden.traced.1.log "45 56 72"
"$capture/leak_lines" report

start_traced protected
capture protected 1
stop
protected_by protected.traced.1.core protected.traced.1.log
"$capture/leak_lines" report

start_traced in_flight
capture in_flight 1
kill -USR1 "$process"
capture in_flight 2
kill -USR1 "$process"
capture in_flight 3
stop
check "in_flight, by capture: the first core alone" "blocks 5 bytes 449" "45 61" "45 61" \
    one in_flight.traced.1.core in_flight.traced.1.log
check "the first and the second core" "blocks 7 bytes 651,new 2 bytes 202" "45" "45" \
    two in_flight.traced.1.core in_flight.traced.1.log in_flight.traced.2.core in_flight.traced.2.log
check "the second and the third core" "blocks 7 bytes 651,new 0 bytes 0" "45 77 109" "45 77 109" \
    two in_flight.traced.2.core in_flight.traced.2.log in_flight.traced.3.core in_flight.traced.3.log
"$capture/leak_lines" report

# warns NAME MISFITS FILE FILE: searches a core and a log strictly, and compares whether there is a warning of misfits
# (1 or 0). Without one there is no other warning either.
warns() {
    status=0
    limited "$leak_find" one --strict "$3" "$4" > report 2> warned || status=$?
    echo "== $1"
    cat warned
    misfits=$(grep -c "have no chunk of their size in use" warned || true)
    if [ "$2" = 1 ]; then
        judge "$1" "1 of misfits, status 3" "$misfits of misfits, status $status"
    else
        judge "$1" "" "$(cat warned)"
        judge "$1: the report" 1 "$(grep -c '^leaked ' report || true)"
    fi
}

# mixed.c: all calls of malloc. In four threads, by capture: each live block has its chunk.
THREADS=4
export THREADS
start_traced mixed
capture mixed 1
stop
warns "calls of all kinds in four threads" 0 mixed.traced.1.core mixed.traced.1.log

# In one thread by mtrace, whose log has the give-backs: without its last lines blocks seem live that were given back.
THREADS=1
start mixed
dump mixed 1
stop
warns "the right log" 0 mixed.core.1 mixed.copy.1
head -n -50 mixed.copy.1 > mixed.cut
warns "a log without its last lines" 1 mixed.core.1 mixed.cut

# --check lists them, and the lines that were cut off gave each of them back. What is taken out of the leaks is no leak.
limited "$leak_find" one --check mixed.core.1 mixed.cut > report 2> warned || true
echo "== the blocks that were given back since"
grep '^misfit' report || true
tail -n 50 mixed.copy.1 | awk '$(NF - 1) == "-" || $(NF - 1) == "<" { print $NF }' | sort > given_back
awk '$1 == "misfit" { print $2 }' report | sort > listed
judge "misfits are listed" some "$([ -s listed ] && echo some)"
judge "as many as are counted" "$(awk '$1 == "misfits" { print $2 }' report)" "$(wc -l < listed)"
judge "each was given back" "" "$(comm -23 listed given_back)"
echo "$(grep -c '^leak ' \
    report || true) leaks, of which $(awk 'NR == FNR { if (/^misfit /) misfit[$2]; next } /^leak / && $2 in misfit' \
    report report | wc -l) are none"

warns "the log of another process" 1 mixed.core.1 in_flight.copy.1

# stale.c: its block is lost, and counts as held: by a word of the stack, with no other block in between.
start stale
await stale 1
stack=$(awk '$6 == "[stack]" { print $1 }' "/proc/$process/maps")
dump stale 1
stop
block=$(sed -n 's/.* + \(0x[0-9a-f]*\) 0x2d$/\1/p' stale.copy.1)
status=0
limited "$leak_find" why stale.core.1 stale.copy.1 "$block" > report || status=$?
echo "== what holds a lost block"
cat report
root=$(awk -v block="$block" 'NR == 2 && $1 == "root" && $3 == "holds" && $4 == block { print $2 }' report)
lines=$(awk -v block="$block" '$2 == block && $3 == 45 { print $1 }' report | tr '\n' ' ')
judge "why" "status 0, 3 lines, of the block: asked block " \
    "status $status, $(wc -l < report) lines, of the block: $lines"
judge "the root is in the stack, $stack" 1 "$((root >= 0x${stack%-*} && root < 0x${stack#*-}))"

# An address that no block holds is refused.
status=0
limited "$leak_find" why stale.core.1 stale.copy.1 0x10 2> warned || status=$?
judge "an address that no block holds" "2 leak_find: no live block holds 0x10" "$status $(cat warned)"
# side_by_side.c: 24 blocks are lost under jemalloc. At the ends of 12 of them a held block begins, so only --skip-ends
# names these.
jemalloc=$(/sbin/ldconfig -p | awk '$1 == "libjemalloc.so.2" { print $NF; exit }')
if [ -z "$jemalloc" ]; then
    echo "left out: blocks side by side, since the package libjemalloc2 is missing"
    complete=1
    exit
fi
export LD_PRELOAD="$jemalloc"
start_traced side_by_side
unset LD_PRELOAD
capture side_by_side 1
judge "jemalloc is the program's allocator" some "$(grep -q "$(readlink -f "$jemalloc")" "/proc/$process/maps" &&
    echo some)"
stop

# count_by_size NAME WANTED OPTION..: searches its core, shows the report, and compares how many blocks of each size
# leaked.
count_by_size() {
    name=$1 wanted=$2
    shift 2
    status=0
    limited "$leak_find" one --other-heap "$@" side_by_side.traced.1.core side_by_side.traced.1.log > report \
        2> warned || status=$?
    echo "== $name"
    cat report
    found=$(awk '$1 == "leak" { leaked[$3]++ } END { for (size in leaked) print leaked[size] " of " size }' report |
        sort | tr '\n' ' ')
    judge "$name" "status 1, $wanted, warned: " "status $status, ${found% }, warned: $(cat warned)"
}
count_by_size "side by side: with ends" "12 of 100"
count_by_size "side by side: without" "12 of 100 12 of 64" --skip-ends
complete=1
