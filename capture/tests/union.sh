# leak_walk --names: the blocks are the heap's, the callers a table's that has not all of them, or that began late.
section a heap and a table that lacks blocks
build union.c
export LEAK_FIND=$finder

# blocks LOG: start and size of each block. free_memory LOG: what is told as free.
blocks() { sed -n 's/^@ .* + \(0x[0-9a-f]* 0x[0-9a-f]*\)$/\1/p' "$1"; }
free_memory() { grep '^[-+] 0x' "$1"; }
# text LOG START: of the last line that begins a block there.
text() { sed -n "s/^@ \(.*\) + $2 0x[0-9a-f]*\$/\1/p" "$1" | tail -n 1; }
# asked_by LOG START: the function of the caller.
asked_by() { text "$1" "$2" | sed -n 's/^[^ ]*union:\[\(0x[0-9a-f]*\)\].*/\1/p' | addr2line -f -e union |
    sed -n '1s/?*//p'; }
at() { sed -n "s/.*$1 \(0x[0-9a-f]*\).*/\1/p" union.out | tail -n 1; }
# differ UNION TABLE: the blocks of a union whose callers are not those that a log of the whole table tells of that
# start.
differ() {
    awk '!/^@ / { next } { at = $(NF - 1); sub(/ \+ 0x[0-9a-f]+ 0x[0-9a-f]+$/, "") }
        NR == FNR { text[at] = $0; next }
        !/^@ size [0-9]+$/ && text[at] != $0 { wrong++ } END { print wrong + 0 }' "$2" "$1"
}

# traced_union [VARIABLE=VALUE]: runs the program, traced, until it rests.
traced_union() {
    rm -f in union.out && mkfifo in
    (exec 3<> in; exec env "$@" "$kit/leak_trace" -d 2 ./union <&3 > union.out 3>&-) &
    process=$!
    started[$process]=1
    until_true 60 grep -qs '^one ' union.out
    settle $process
}

# A table that has no room for all blocks.
traced_union LEAK_TRACE_BLOCKS=1
limited 120 "$kit/leak_dump" $process "$work/union" 2> union.said
verdict 'a log by both' 1 \
    "$(grep -c "by the heap in the core, and their callers by leak_trace's table, which missed [0-9]* blocks" \
    union.said)"
verdict 'it says so' 1 "$(grep -cE '^= leak_log names since 0 moment 0x[0-9a-f]+$' union.log)"
"$kit/leak_walk" --quiet union.core > union.walk
verdict "the blocks are the heap's" "$(blocks union.walk | md5sum)" "$(blocks union.log | md5sum)"
verdict "free memory is the heap's" "$(free_memory union.walk | md5sum)" "$(free_memory union.log | md5sum)"
"$kit/leak_log" union.core union.table > union.alone 2> alone.said
verdict "callers are the table's" 0 "$(differ union.log union.alone)"
verdict 'most blocks of the table have them' yes \
    "$(awk '/^@ / { all++; named += !/^@ size / } END {
        print (named > 25000 && named < all - 5000) ? "yes" : named " of " all }' union.log)"
verdict 'a caller' early "$(asked_by union.log "$(at one)")"
verdict 'a block has the start of another' 1 "$(sed -n 's/^other .* same //p' union.out)"
verdict 'which has another size: nobody is told' 'size 504' "$(text union.log "$(at other)")"

if [ "$attaches" ]; then
    section two moments of such a process
    echo > in
    until_true 60 grep -qs '^again ' union.out
    settle $process
    verdict 'a block is asked for anew' "$(at one)" "$(at again)"
    limited 120 "$kit/leak_dump" --after "$work/union" $process "$work/later" 2> later.said
    verdict 'its new caller' again "$(asked_by later.log "$(at again)")"
    verdict 'the old one ended' 1 "$(grep -c "^- $(at one)\$" later.log)"
    "$kit/leak_walk" --quiet --after union.log later.core > gone.log
    verdict 'where the table is gone: nobody' 72 "$(text gone.log "$(at again)" | sed 's/^size //')"
    find_leaks two --skip-freed --skip-links union.{core,log} later.{core,log} > two.report
    verdict 'lost at both moments' '88 ' "$(named two.report)"
    verdict 'the pair is taken' 'unknown 0 displaced 0 torn 0' "$(grep '^unknown' two.report)"
    "$kit/leak_walk" --quiet --names later.table --after union.walk later.core 2> alone.said > alone.log
    verdict 'an earlier log by the heap alone' \
        '2 leak_walk: union.walk: the earlier log is by the heap alone: make both of them with --names, or none' \
        "$? $(cat alone.said)"
    mkdir -p alone && ln -f union.core alone/dump.core && cp union.walk alone/dump.log
    limited 120 "$kit/leak_dump" --after "$work/alone/dump" $process "$work/alone/later" 2> alone.said
    verdict 'leak_dump makes another such log of it' '0 0' \
        "$(grep -c '^= leak_log names' alone/later.log) $(grep -c 'union:\[' alone/later.log)"
    rm -f later.core alone/*.core
fi
stop $process

# changed TABLE KIND: a table that says it began late, or that has two entries of one start, those of the first and the
# second early block.
cat > changed.py << 'END'
import struct, sys
table, kind, at = bytearray(open(sys.argv[1], "rb").read()), sys.argv[2], int(sys.argv[3])
if kind == "late":
    table[at:at + 8] = struct.pack("<Q", 1234567890)
else:
    size, used, words = 8 * (3 + 2), struct.unpack_from("<Q", table, 32)[0], {}
    starts = [entry for entry in range(16384, 16384 + used * size, size) if table[entry] & 1]
    table[starts[1]:starts[1] + 8] = table[starts[0]:starts[0] + 8]
    print(hex(~struct.unpack_from("<q", table, starts[0])[0]))
open(sys.argv[4], "wb").write(table)
END
printf '#include <stddef.h>\n#include <stdio.h>\n#include "table.h"\nint main(void) { printf("%%zu", offsetof(struct table_head, began)); }' |
    gcc -x c -I "$kit" - -o began
changed() { python3 changed.py "$1" "$2" "$(./began)" "$3"; }

section a table that began late
traced_union LEAK_TRACE_BLOCKS=100000
dump $process "$work/whole" 2> whole.said
verdict 'a table that lacks nothing' '0 0' \
    "$("$kit/leak_tables" --lacks whole.table | wc -c) $(grep -c '^= leak_walk' whole.log)"
stop $process
changed whole.table late late.table
verdict 'it says when' 'began at 2009-02-13 23:31:30' "$(TZ=UTC "$kit/leak_tables" --lacks late.table)"
"$kit/leak_log" whole.core late.table > late.log 2> late.said
verdict 'leak_log refuses it' \
    '2 leak_log: late.table: the table began when the process was running: it lacks the blocks from before, which leak_walk --names has' "$? $(cat late.said)"
limited 120 "$kit/leak_dump" --core whole.core late.table late 2> late.said
verdict 'leak_dump takes both' '0 1' \
    "$? $(grep -c "by the heap in the core, and their callers by leak_trace's table, which began at " late.said)"
verdict 'the log has the moment' 1 "$(grep -cE '^= leak_log names since 1234567890 moment 0x[0-9a-f]+$' late.log)"
verdict 'its callers' 0 "$(differ late.log whole.log)"
limited 120 "$kit/leak_report" --raw whole.core late.table > late.out 2> late.said
verdict 'leak_report tells them' '1 1' "$? $(grep -c ' early .*union\.c' late.out)"

twice=$(changed whole.table twice twice.table)
"$kit/leak_walk" --quiet --names twice.table whole.core > twice.log
verdict 'two entries of one start: nobody is told' size "$(text twice.log "$twice" | cut -d ' ' -f 1)"
verdict 'one entry of it: its caller' 1 "$(text late.log "$twice" | grep -c '^/')"

section what a heap says beside a table
verdict 'of a table that does not agree nothing' 'leak_walk: twice.table: table and heap do not agree' \
    "$("$kit/leak_walk" --unused twice.table whole.core 2>&1)"
[ -x freed ] || build freed.c
start ./freed
dump $process "$work/beside"
stop $process
"$kit/leak_walk" --unused beside.table beside.core > unused
verdict 'free memory, where both agree' 0 $?
verdict 'it stands in the log' same "$(tail -n "$(wc -l < unused)" beside.log | cmp - unused && echo same)"
verdict 'its spans' 'over no live block' "$(python3 "$kit/tests/spans.py" beside.log | sed 's/.*, //')"
rm -f whole.core beside.core

section a table of another allocator
jemalloc=/usr/lib/x86_64-linux-gnu/libjemalloc.so.2
if [ "$attaches" ] && [ -e $jemalloc ]; then
    printf '#include "lose.h"\nvoid *__libc_malloc(size_t);\nint main(void) { __libc_malloc(9); for (int i = 0; i < 40000; i++) lose_one(malloc(45)); rest(); }\n' > lost_many.c
    gcc -O1 -I "$kit/tests" lost_many.c -o lost_many
    (exec env LD_PRELOAD=$jemalloc LEAK_TRACE_BLOCKS=1 "$kit/leak_trace" ./lost_many) &
    process=$!
    started[$process]=1
    until_true 60 is_program $process
    settle $process
    limited 120 "$kit/leak_dump" $process "$work/other" 2> other.said
    verdict 'its heap has them' '= leak_walk heap' "$(grep -o '^= leak_walk heap' other.log)"
    verdict 'and the table tells who asked' 1 "$(grep -c '^= leak_log names' other.log)"
    stop $process
    rm -f other.core
else
    leave_out 'a table of another allocator: no jemalloc'
fi
