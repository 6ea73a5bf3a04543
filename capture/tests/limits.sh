# A program that limits its own memory must run as it does untraced. If its table can't grow any more it lives on, and
# the log says how many blocks are missing.
section a limit of memory that the program sets
build limited.c
for options in '' '-d 8'; do
    start ./limited > limited.out
    look limited.c
    verdict 'it runs as untraced' 'status 0' "$(cat limited.out)"
done
options=
start ./limited full > limited.out
verdict 'where the table cannot grow it runs on' 'status 0' "$(cat limited.out)"
limited 120 "$kit/leak_dump" $process "$work/full" 2> said
verdict 'it is said' 1 \
    "$(grep -c "by the heap in the core, and their callers by leak_trace's table, which missed [1-9][0-9]* blocks" \
    said)"
"$kit/leak_log" full.core full.table 2>&1 > full.alone |
    grep -q 'blocks found no place in the table (Cannot allocate memory)'
verdict 'leak_log says why' 0 $?
search full
verdict 'the log has all blocks' all "$(awk '$1 == "blocks" { print ($2 >= 800000) ? "all" : $2 }' full.report)"
verdict 'of the missed ones alone no caller is known' yes \
    "$(awk '/^= leak_log missed / { missed = $4 } /^@ / { unnamed += /^@ size / } END {
        print (unnamed > 0 && unnamed < missed + 100) ? "yes" : missed " and " unnamed }' full.log)"
verdict 'the log is taken' 'unknown 0 displaced 0 torn 0' "$(grep ^unknown full.report)"
limited 120 "$kit/leak_dump" --after "$work/full" $process "$work/full2" 2> said
verdict 'a second log after such a one' 'unknown 0 displaced 0 torn 0' \
    "$(find_leaks two full.core full.log full2.core full2.log | grep ^unknown)"
stop $process
rm -f full.core full2.core

# With few first cells in its directories the library soon needs the further ones, which otherwise are for heaps above 2
# GiB.
section a heap of many regions
mkdir -p few && cp -r "$kit/leak_trace" "$kit/scripts" few
gcc -std=gnu11 -O2 -g -DFEW_CELLS -fPIC -fvisibility=hidden -ftls-model=initial-exec \
    -shared -static-libgcc -Wl,-z,initfirst \
    -o few/leak_trace.so "$kit"/library/*.c -lgcc_eh
build exchange.c
verdict exchange 'wrong 0 others few missed 0' "$(limited 120 few/leak_trace ./exchange "$work/table" 2> /dev/null)"
build threads.c
rm -f threads.out # of one before, which was ready too
(cd "$work" && exec few/leak_trace -d 2 ./threads > threads.out) & process=$!
started[$process]=1
until_true 60 grep -qsx ready threads.out
verdict 'the further cells are there' '8192 kB' \
    "$(awk '$1 == "Size:" && $2 == 8192 { print $2, $3; exit }' "/proc/$process/smaps")"
dump $process "$work/threads" && search threads
verdict 'wrongly named' '' "$(named threads.report | tr ' ' '\n' | grep -vxE '45|61|77|93|109|125|' | tr '\n' ' ')"
verdict 'of 600 lost blocks are named' 'most' "$([ "$(grep -c '^leak ' threads.report)" -gt 500 ] && echo most)"
stop $process
rm -f threads.core
