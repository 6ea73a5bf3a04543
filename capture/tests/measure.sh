#!/bin/bash
# Nanoseconds of processor time for a pair of malloc and free, best of several, beside other tools; bytes a block; how
# long a dump of a million blocks takes. Not part of `make check`.
kit=$(readlink -f "$(dirname "$0")/..") work=$(mktemp -d)
trap 'rm -rf "$work"' EXIT
cd "$work" || exit 1
gcc -O2 -o bench "$kit/tests/bench.c" -pthread
gcc -O1 -o blocks "$kit/tests/blocks.c"
best() {
    for _ in $(seq "${TIMES:-5}"); do "$@" 2>&1; done |
        awk '/ns\/pair/ { k = $1; if (!(k in m) || $4 < m[k]) m[k] = $4 } END {
            print "alike", m["pair"], "mixed", m["window"] }'
}
for threads in 1 4; do
    echo "threads $threads"
    echo "  native: $(best ./bench 3000000 $threads)"
    echo "  leak_trace: $(best "$kit/leak_trace" ./bench 3000000 $threads)"
    echo "  leak_trace -d 8: $(best "$kit/leak_trace" -d 8 ./bench 1000000 $threads)"
    echo "  mtrace, log in memory: $(best env MALLOC_TRACE=/dev/shm/leak_bench.log LD_PRELOAD=libc_malloc_debug.so.0 \
        ./bench 200000 $threads)"
    command -v heaptrack > /dev/null && echo "  heaptrack: $(best heaptrack ./bench 200000 $threads)"
    command -v valgrind > /dev/null && echo "  valgrind: $(best valgrind -q ./bench 50000 $threads)"
done
rm -f /dev/shm/leak_bench.log
"$kit/leak_trace" ./blocks 1000000
"$kit/leak_trace" ./blocks 1000000 wait > waiting & process=$!
until grep -qs waiting waiting; do sleep 0.2; done
time "$kit/leak_dump" $process big
kill $process
