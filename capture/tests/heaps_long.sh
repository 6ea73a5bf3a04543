#!/bin/bash
# More of heaps.sh than the gate takes, by hand: 20 storms of each heap, killed at any moment, and 1,000 changed words;
# storms of a program in Rust; and redis-server against its table. STORMS, DAMAGES and SEED say others, REDIS another
# redis-server, which has LIBRARIES as its LD_LIBRARY_PATH.
. "$(dirname "$0")/common.sh"
STORMS=${STORMS:-20} DAMAGES=${DAMAGES:-1000}
. "$kit/tests/heaps.sh"

section 'a program in Rust'
if command -v rustc > /dev/null; then
    rustc -O -g "$kit/tests/heaps_storm.rs" -o storm_rust 2> rust.said || { cat rust.said; exit 1; }
    storms_of rust_glibc ./storm_rust
    for library in libjemalloc.so.2 libmimalloc.so.2 libtcmalloc_minimal.so.4; do
        [ ! "$(ls /usr/lib/*/$library 2> /dev/null)" ] || storms_of "rust_$library" env LD_PRELOAD=$library ./storm_rust
    done
else
    leave_out 'a program in Rust: no rustc'
fi

section 'redis-server against its table'
server=${REDIS:-$(command -v redis-server)}
if [ "$server" ] && command -v redis-benchmark > /dev/null && [ "$attaches" ]; then
    LD_LIBRARY_PATH=${LIBRARIES-} start "$server" --port 28186 --bind 127.0.0.1 --save '' --appendonly no > redis.out 2>&1
    for command in set lpush sadd hset zadd; do
        limited 300 redis-benchmark -p 28186 -n "${KEYS_EACH:-100000}" -r 100000 -P 16 -d 200 -q -t $command > /dev/null
    done
    settle $process
    dump $process "$work/redis"
    limited 60 "$walk" --quiet redis.core > redis.walk
    verdict 'redis: walked' 0 $?
    python3 "$kit/tests/heaps_table.py" redis.log redis.walk > redis.same
    verdict 'redis: the blocks of its table' 'missing 0 smaller 0' "$(head -n 1 redis.same)"
    echo "     $(grep '^= leak_log allocator' redis.walk): $(tail -n 1 redis.same)"
    stop $process
    rm -f redis.*
else
    leave_out 'redis-server against its table: no redis-server or redis-benchmark, or no dumps'
fi
complete=1
