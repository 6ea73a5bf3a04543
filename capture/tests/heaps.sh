# leak_walk of other heaps than glibc's: programs at rest and killed at any moment, whose memory says what is live;
# leaks that leak_report names without an option; and words of the heap's records that are changed. STORMS and DAMAGES
# say how many (heaps_long.sh), and SEED which: each commit has others. An allocator that is not installed is left out.
section other heaps
walk=$kit/leak_walk
seed=${SEED:-$((0x$(git -C "$kit" rev-parse --short=7 HEAD 2> /dev/null || echo 1)))}
. "$kit/tests/heaps_common.sh"
build heaps_storm.c

# Each walk looks for other heaps, in all memory. If it went wherever a word leads, pages would be let go and mapped
# again and again: half a minute for 1 GiB.
python3 "$kit/tests/hostile_cores.py" far far.core
read -r status faults < <(limited 60 python3 "$kit/tests/faults.py" far.log "$walk" --quiet far.core)
[ "$faults" -gt $((2 * $(stat -c %s far.core) / 4096)) ] || faults=few
verdict "a heap of glibc's whose words lead all over it: walked, with at most 2 page faults for each page" \
    '0, 131072 blocks, few' "$status, $(grep -c '^@' far.log) blocks, $faults"
rm -f far.core

if command -v musl-gcc > /dev/null; then
    musl-gcc -O1 -g -pthread "$kit/tests/heaps_storm.c" -o storm_musl && heap musl musl 396 ./storm_musl
    musl-gcc -O1 -g -static -pthread "$kit/tests/heaps_storm.c" -o storm_static && at_rest musl_static musl \
        ./storm_static
else
    leave_out "musl's heap: no musl-gcc"
fi
preloaded jemalloc 'jemalloc 5.3' 396 libjemalloc.so.2
preloaded mimalloc 'mimalloc 2.0' 390 libmimalloc.so.2
preloaded tcmalloc 'tcmalloc 2.10' 390 libtcmalloc_minimal.so.4
