# Real programs, run with the table and with mtrace at once, stopped while idle: both must know the same blocks,
# but those from before mtrace() was called. Programs that are not installed are left out.
section against mtrace, in the same run
gcc -shared -fPIC -O1 -o mtrace_on.so "$kit/tests/mtrace_on.c"

# both NAME PROGRAM..: in the background, with both. Its standard input is kept open by a pipe.
both() {
    local name=$1
    shift
    rm -f "$name.in" && mkfifo "$name.in"
    (exec 3<> "$name.in"; exec env MALLOC_TRACE="$work/$name.mlog" \
        LD_PRELOAD="$kit/leak_trace.so $work/mtrace_on.so libc_malloc_debug.so.0" "$@" <&3 > "$name.out" 2>&1 3>&-) &
    process=$!
    started[$process]=1
    until_true 60 is_program $process
    settle $process
}

# compare NAME [EARLIER [STACKS]]: this many blocks may be in the table alone, which were there before mtrace() was
# called, and so many by mtrace alone: alternate signal stacks, which leak_log leaves out where the core does not tell
# them.
compare() {
    local name=$1 table=$work/table.$process said
    settle $process
    limited 120 gdb -nx --batch -p $process -ex 'call (void)muntrace()' -ex "generate-core-file $name.core" \
        -ex "shell cp --sparse=always $table $name.table; cp $name.mlog $name.mcopy" -ex detach > "$name.gdb" 2>&1
    "$kit/leak_log" "$name.core" "$name.table" > "$name.log"
    said=$(python3 "$kit/tests/same.py" "$name.log" "$name.mcopy" | head -n 1)
    verdict "$name" "same, ${2:-0} more" \
        "$(echo "$said" |
        awk '{ print $NF <= '"${3:-0}"' && $(NF - 4) + 0 <= '"${2:-0}"' ? "same, '"${2:-0}"' more" : $0 }' )"
    echo "     $said"
    stop $process
    rm -f "$name.core"
}
say() { printf '%s\n' "$2" > "$1.in"; }
have() { command -v "$1" > /dev/null; }
mkdir -p www && head -c 20000 /dev/zero > www/x

if have sqlite3; then
    both sqlite3 sqlite3 :memory:
    say sqlite3 'create table t(a,b); with recursive c(x) as (select 1 union all select x+1 from c where x<9999) insert into t select x, hex(x) from c; create index i on t(b); select count(*), max(b) from t;'
    compare sqlite3
fi
if [ -x /usr/bin/python3 ]; then
    PYTHONMALLOC=malloc both python /usr/bin/python3 -c 'import json, sys
x = [json.loads(json.dumps({"a": [i] * 5})) for i in range(3000)]
sys.stdin.readline()'
    compare python
fi
if have gawk; then
    both gawk gawk 'BEGIN { for (i = 0; i < 9999; i++) a[i "x"] = i * 2 "y"; n = asorti(a, b); getline x }'
    compare gawk 0 1
fi
if have perl; then
    both perl perl -e 'my %h; $h{$_} = [1..5, "x" x $_] for 1..3000; for (1..3000) { delete $h{$_} if $_ % 3 } <STDIN>'
    compare perl
fi
if have memcached; then
    both memcached memcached -u root -p 21211 -l 127.0.0.1 -t 4
    timeout 60 python3 - <<'P'
import socket
s = [socket.create_connection(("127.0.0.1", 21211)) for _ in range(20)]
for i in range(3000):
    s[i % 20].sendall(b"set k%d 0 0 5\r\nhello\r\n" % i); s[i % 20].recv(100)
P
    compare memcached
fi
if have redis-server; then
    # Its own jemalloc is what mtrace can't follow: glibc's malloc comes first.
    both redis redis-server --port 26379 --bind 127.0.0.1 --save '' --appendonly no
    limited 120 redis-benchmark -p 26379 -n 5000 -q > /dev/null 2>&1
    compare redis 8
fi
if have lighttpd; then
    printf 'server.document-root="%s/www"\nserver.port=28080\nserver.bind="127.0.0.1"\n' "$work" > l.conf
    both lighttpd lighttpd -D -f l.conf
    fetch 28080
    compare lighttpd
fi
if have nginx; then
    printf 'daemon off; master_process off; pid %s/nginx.pid; error_log %s/e.log;\nevents {}\nhttp { access_log off; server { listen 127.0.0.1:28081; root %s/www; } }\n' "$work" "$work" "$work" > n.conf
    both nginx nginx -c "$work/n.conf"
    fetch 28081
    compare nginx
fi
