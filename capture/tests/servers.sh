# Servers of Debian, which fork and close what they have open: the process that stays must have its table. And one
# under load, into which leaks are planted: those must be named, and nothing else. Those not installed are left out.
section daemons
chmod 755 . && mkdir -p www && head -c 20000 /dev/zero > www/x && chmod 755 www

# has_written FILE: waits until the daemon has written its number there, and rests.
has_written() { until_true 60 test -s "$1" && settle "$(cat "$1")"; }
# daemon NAME PID: its table has its id, and is in order.
daemon() {
    verdict "$1: its table" "$work/table.$2" "$(ls "$work/table.$2" 2> /dev/null)"
    dump "$2" "$work/$1" && search "$1"
    verdict "$1: the log" 'unknown 0 displaced 0 torn 0' "$(grep '^unknown' "$1.report")"
    echo "     $(grep -E '^(blocks|leaked)' "$1.report" | tr '\n' ' ')"
    rm -f "$1.core" "$1.table"
}
if command -v nginx > /dev/null; then
    printf 'pid %s/nginx.pid; error_log %s/e.log; worker_processes 2;\nevents {}\nhttp { access_log off; server { listen 127.0.0.1:28181; root %s/www; } }\n' "$work" "$work" "$work" > n2.conf
    limited 60 "$kit/leak_trace" nginx -c "$work/n2.conf"
    until_true 60 test -s nginx.pid
    fetch 28181
    master=$(cat nginx.pid)
    started[$master]=1
    for worker in $(pgrep -P "$master"); do daemon "nginx-worker-$worker" "$worker"; done
    daemon nginx-master "$master"
    kill "$master"
fi
if command -v lighttpd > /dev/null; then
    printf 'server.document-root="%s/www"\nserver.port=28180\nserver.bind="127.0.0.1"\nserver.pid-file="%s/lighttpd.pid"\n' "$work" "$work" > l2.conf
    limited 60 "$kit/leak_trace" lighttpd -f l2.conf
    has_written lighttpd.pid
    started[$(cat lighttpd.pid)]=1
    daemon lighttpd "$(cat lighttpd.pid)"
fi
if command -v memcached > /dev/null; then
    limited 60 "$kit/leak_trace" memcached -d -u root -l 127.0.0.1 -p 28182 -P "$work/memcached.pid"
    has_written memcached.pid
    started[$(cat memcached.pid)]=1
    daemon memcached "$(cat memcached.pid)"
fi
if command -v redis-server > /dev/null; then
    limited 60 "$kit/leak_trace" redis-server --port 28183 --bind 127.0.0.1 --daemonize yes --dir "$work" \
        --pidfile "$work/redis.pid" > /dev/null
    has_written redis.pid
    started[$(cat redis.pid)]=1
    limited 120 redis-benchmark -p 28183 -n 20000 -r 20000 -q -t set > /dev/null
    limited 60 redis-cli -p 28183 bgsave > /dev/null
    sleep 2
    verdict 'redis: a child of fork saves' ok \
        "$(redis-cli -p 28183 info persistence | tr -d '\r' | sed -n 's/^rdb_last_bgsave_status://p')"
    daemon redis "$(cat redis.pid)"

    section a server under load
    gcc -shared -fPIC -O1 -o leaker.so "$kit/tests/leaker.c" -pthread
    LD_PRELOAD=$work/leaker.so "$kit/leak_trace" redis-server --port 28184 --bind 127.0.0.1 --save '' \
        --appendonly no > loaded.out 2>&1 &
    process=$!
    started[$process]=1
    until_true 60 redis-cli -p 28184 ping > /dev/null 2>&1
    redis-benchmark -p 28184 -n 100000000 -r 20000 -d 100 -P 4 -q -t set,get,lpush,lpop,sadd,hset,spop,zadd,zpopmin \
        > /dev/null 2>&1 &
    load=$!
    started[$load]=1
    sleep 3
    for i in 1 2; do
        dump $([ $i -gt 1 ] && echo --after "$work/loaded1") $process "$work/loaded$i"
        search loaded$i
        verdict "dump $i: wrongly named" '' "$(named loaded$i.report | tr ' ' '\n' | grep -vxE '45|77|' | tr '\n' ' ')"
        echo "     $(grep -E '^(blocks|leaked)' loaded$i.report | tr '\n' ' ')"
        sleep 2
    done
    find_leaks two loaded1.core loaded1.log loaded2.core loaded2.log > loaded.report 2>&1
    verdict 'the pair: wrongly named' '' "$(named loaded.report | tr ' ' '\n' | grep -vxE '45|77|' | tr '\n' ' ')"
    verdict 'the pair: of the 50 lost at the start' 50 "$(named loaded.report | tr ' ' '\n' | grep -cx 45)"
    { kill $load; kill $process; wait $load $process; } 2> /dev/null
    rm -f loaded?.core
fi
