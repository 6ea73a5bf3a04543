# load_redis.bash PROCESS: keys of all kinds, of which some go again, and clients that wait until the server is gone,
# which listens at port 21579.
ask() { redis-cli -p 21579 > /dev/null; }
for i in $(seq 1500); do
    printf '%s\n' "SET str$i value$i" "HSET h$((i % 150)) f$i v$i" "LPUSH l$((i % 60)) e$i" "ZADD z$((i % 60)) $i m$i" "SADD s$((i % 60)) m$i"
    [ $((i % 4)) != 0 ] || printf '%s\n' "DEL str$((i - 3))" "EXPIRE str$i 5000"
    [ $((i % 25)) != 0 ] || printf '%s\n' "DEL h$((i % 150))" "DEL z$((i % 60))" "XADD st$((i % 5)) * a $i b $i" "SETRANGE big$((i % 7)) 200 x"
    [ $((i % 10)) != 0 ] || echo "APPEND str$i zzzzzzzzzzz"
    [ $((i % 30)) != 0 ] || printf '%s\n' MULTI "SET tx$i 1" EXEC "EVAL 'return redis.call(\"get\", KEYS[1])' 1 str$i" 'SLOWLOG RESET' 'CLIENT LIST'
done | ask
for i in 1 2 3 4 5; do
    (echo "SUBSCRIBE stay$i"; tail -f --pid="$1" /dev/null) | ask &
    (echo "BLPOP nolist$i 0"; tail -f --pid="$1" /dev/null) | ask &
done
until [ "$(redis-cli -p 21579 client list | grep -c 'cmd=\(subscribe\|blpop\)')" = 10 ] || [ ! -e "/proc/$1" ]; do
    sleep 0.2
done
