#!/bin/bash
# What of leak_walk takes too long for the gate: many real programs, fifty killed storms, 1,000 mutations under
# sanitizers, ten million blocks, and programs with another allocator. Programs that are not installed are left out.
# LEAK_FIND names leak_find, as for run.sh. REDIS_LIBC names a redis-server that was built by `make MALLOC=libc`:
# Debian's has jemalloc.
. "$(dirname "$0")/common.sh"
STORMS=${STORMS:-50}
HEAPS=${HEAPS:-24}
. "$kit/tests/walk.sh"

section more real programs
if [ "$dumps" ]; then
    traced sqlite3 sqlite3 :memory: \
        "create table t(a,b); with recursive c(x) as (select 1 union all select x+1 from c where x<9999) insert into t select x, hex(x) from c; select count(*) from t;" '.read /dev/stdin'
    traced php php \
        -r '$a = []; for ($i = 0; $i < 20000; $i++) $a["k$i"] = [$i, str_repeat("x", $i % 99)]; ini_set("memory_limit", -1); fgets(STDIN);'
    USE_ZEND_ALLOC=0 traced php_malloc php \
        -r '$a = []; for ($i = 0; $i < 20000; $i++) $a["k$i"] = [$i, str_repeat("x", $i % 99)]; fgets(STDIN);'
    traced ruby ruby -e 'h = {}; 9999.times { |i| h["k#{i}"] = [i] * 5 }; STDIN.gets'
    traced lua lua5.4 -e 't = {} for i = 1, 9999 do t[i] = { tostring(i), i } end io.read()'
    traced tclsh tclsh
    traced jq jq -n '[range(20000) | tostring] | input'
    { echo '<a>'; seq -f '<b n="%g">text</b>' 9999; echo '</a>'; } > big.xml
    traced xmllint xmllint --shell big.xml
    traced cmake cmake -E sleep 600
    traced bc bc -q
    traced memcached memcached -u root -p 28186 -l 127.0.0.1 -t 4
    traced node node -e 'let a = []; for (let i = 0; i < 9999; i++) a.push({ i }); process.stdin.resume()'
    traced sort sort -S 100M --parallel=4
    traced gdb_of_gdb gdb -nx -q "$(command -v gdb)"
    printf '#include <%s>\n' iostream map regex string vector > many.cc
    echo '#include "/dev/stdin"' >> many.cc # it waits there, with all headers read
    traced cc1plus "$(gcc -print-prog-name=cc1plus)" -quiet -imultiarch x86_64-linux-gnu -D_GNU_SOURCE many.cc -o many.s
    [ ! "${REDIS_LIBC-}" ] || traced redis "$REDIS_LIBC" --port 28184 --bind 127.0.0.1 --save '' --appendonly no
fi

section servers that are no daemons
if [ "$dumps" ]; then
    chmod 1777 . # they give up root's rights, and write their tables here
    postgres=$(ls /usr/lib/postgresql/*/bin/postgres 2> /dev/null | tail -n 1)
    nobody='setpriv --reuid=nobody --regid=nogroup --clear-groups'
    if [ "$postgres" ]; then
        (mkdir pg && chown nobody pg && cd pg && limited 120 $nobody "${postgres%/*}/initdb" -D data > initdb.out 2>&1)
        run_by=$nobody traced postgres "$postgres" --single -D pg/data postgres
    else
        leave_out postgres
    fi
    if command -v mariadbd > /dev/null; then
        mkdir maria && chown nobody maria
        limited 120 mariadb-install-db --no-defaults --datadir="$work/maria" --user=nobody \
            --auth-root-authentication-method=normal > maria.out 2>&1
        traced mariadbd mariadbd --no-defaults --bootstrap --datadir="$work/maria" --user=nobody
    else
        leave_out mariadbd
    fi
fi

section leaks of requests to a server, between two moments
# ask N: so many requests, each by a connection of its own.
ask() { limited 60 python3 -c 'import sys, urllib.request
for _ in range(int(sys.argv[1])):
    urllib.request.urlopen("http://127.0.0.1:28187/x", timeout=5).read()' "$1" 2> /dev/null; }

# named_of WORD..: of a search: lists and blocks of requests before the first moment, lists and blocks of those between,
# and other blocks.
named_of() {
    find_leaks "$@" > requests.report 2>&1
    # one of the three may have a rest of 16 bytes
    awk 'FNR == NR { for (i = 1; i < NF; i++) if ($i == "+") live[$(i + 1)]; else if ($i == "-") delete live[$(i + 1)];
        next }
        $1 == "leak" { of = $3 != 1016 && $3 != 1032 ? "other" : $2 in live ? "before" : "between"; blocks[of]++;
        heads[of] += $5 == "head" }
        END { print heads["before"] + 0, blocks["before"] + 0, heads["between"] + 0, blocks["between"] + 0, blocks["other"] + 0 }' before.log requests.report
}

# at_least NUMBERS NUMBERS: yes, if no number is below that of the first list in its place; else the second list.
at_least() { awk -v least="$1" -v found="$2" \
    'BEGIN { n = split(least, a); split(found, b); for (i = 1; i <= n; i++) if (b[i] < a[i]) { print found; exit }
        print "yes" }'; }

# lists_of NAME BEFORE LEAST LEAST_BY_ZERO LEAST_OF_PAIR PROGRAM..: a server with one worker loses a list of three for
# each request: of one and BEFORE more, and then, between both moments, of 30. So many are named at least, in the order
# of named_of, and nothing else is.
lists_of() {
    local name="$1, $(($2 + 1)) and 30" found
    LD_PRELOAD=$work/request_leaks.so "${@:6}" > served.out 2>&1 &
    master=$!
    started[$master]=1
    until_true 20 ask 1
    worker=$(pgrep -P "$master")
    started[$worker]=1
    ask "$2"
    "$kit/leak_dump" "$worker" before 2> before.said
    ask 30
    "$kit/leak_dump" --after before "$worker" after 2> after.said
    found=$(named_of one --skip-freed --skip-links after.core after.log)
    echo "     $name: lists, blocks of those before; of those between; others: $found"
    verdict "$name: lists that are named" yes "$(at_least "$3" "$found")"
    verdict "$name: nothing else" 0 "${found##* }"
    found=$(named_of one --skip-freed --skip-links --displace 0 after.core after.log)
    verdict "$name: by addresses of their begins alone" yes "$(at_least "$4" "$found")"
    found=$(named_of two --skip-freed --skip-links before.core before.log after.core after.log)
    verdict "$name: of those before, by the pair" yes "$(at_least "$5" "$found")"
    verdict "$name: nothing else by the pair" '0 0 0' "$(echo "$found" | cut -d ' ' -f 3-)"
    stop "$master" "$worker" # in this order, or the master makes another worker
    until_true 20 is_dead "$worker"
    rm -f before.core after.core
}
if [ "$attaches" ]; then
    mkdir www && echo hello > www/x && chmod 755 . www
    gcc -shared -fPIC -O1 -o request_leaks.so "$kit/tests/request_leaks.c"
    if command -v nginx > /dev/null; then
        printf 'pid %s/nginx.pid; error_log %s/e.log; worker_processes 1; daemon off;\nevents {}\nhttp { access_log off; server { listen 127.0.0.1:28187; root %s/www; } }\n' "$work" "$work" "$work" > n.conf
        # it keeps addresses in memory that it gave back once it had read its configuration, where the first lists then
        # are
        lists_of nginx 2 '2 2 28 80' '2 2 28 80' '2 2' nginx -c "$work/n.conf"
        lists_of nginx 30 '30 80 30 90' '30 80 30 90' '30 80' nginx -c "$work/n.conf"
    else
        leave_out 'leaks of requests to nginx'
    fi
    if command -v apache2 > /dev/null; then
        printf 'LoadModule mpm_prefork_module /usr/lib/apache2/modules/mod_mpm_prefork.so\nLoadModule authz_core_module /usr/lib/apache2/modules/mod_authz_core.so\n' > a.conf
        printf 'ServerRoot %s\nServerName x\nUser nobody\nGroup nogroup\nPidFile apache2.pid\nErrorLog a.log\nListen 127.0.0.1:28187\nDocumentRoot %s/www\nStartServers 1\nMaxRequestWorkers 1\n' "$work" "$work" >> a.conf
        lists_of apache2 2 '3 9 30 90' '3 9 30 90' '3 9' apache2 -D FOREGROUND -f "$work/a.conf"
        lists_of apache2 30 '31 93 30 90' '31 93 30 90' '31 93' apache2 -D FOREGROUND -f "$work/a.conf"
    else
        leave_out 'leaks of requests to apache2'
    fi
else
    leave_out 'leaks of requests to servers'
fi

section other allocators
if [ "$dumps" ]; then
    jemalloc=$(ls /usr/lib/x86_64-linux-gnu/libjemalloc.so.2 2> /dev/null)
    if [ "$jemalloc" ]; then
        LD_PRELOAD=$jemalloc unprepared ./walk_leaks
        core_of $process jemalloc
        stop $process
        limited 60 "$walk" --quiet jemalloc.core > jemalloc.log
        verdict 'jemalloc: walked' 0 $?
    else
        leave_out jemalloc
    fi
    if command -v redis-server > /dev/null; then # Debian's has jemalloc
        unprepared redis-server --port 28185 --bind 127.0.0.1 --save '' --appendonly no
        core_of $process redis
        stop $process
        limited 60 "$walk" --quiet redis.core > redis.log
        verdict 'redis: walked' 0 $?
    else
        leave_out redis
    fi
    if command -v musl-gcc > /dev/null; then
        musl-gcc -O1 -static "$kit/tests/walk_leaks.c" -o musl && unprepared ./musl
        core_of $process musl
        stop $process
        limited 60 "$walk" --quiet musl.core > musl.log
        verdict 'musl: walked' 0 $?
    else
        leave_out musl
    fi
    rm -f jemalloc.core musl.core redis.core
fi

# killed NAME PROGRAM..: the kernel's core of it, NAME.killed.
killed() {
    unprepared "${@:2}"
    rm -f core core.*
    { kill -ABRT $process && wait $process; } 2> /dev/null
    unset "started[$process]"
    mv "$(kernel_core)" "$1.killed"
}

section 1,000 mutations under sanitizers
if [ "$dumps_core" ] && gcc -O1 -g -std=gnu11 -fsanitize=address,undefined -fno-sanitize-recover=undefined \
    -DVERSION='""' "$kit"/walk/*.c "$kit"/heaps/*.c "$kit"/common/*.c -o sanitized 2> sanitized.said; then
    killed leaks ./walk_leaks
    killed types ./walk_types
    killed perl perl -e 'my %h; $h{$_} = "x" x $_ for 1 .. 999; <STDIN>'
    killed bash bash -c 'x=$(seq 9999); read y'
    killed python /usr/bin/python3 -c 'import sys; x = [str(i) for i in range(9999)]; sys.stdin.readline()'
    gcc -shared -fPIC -O1 -o memory.so "$kit/tests/walk_memory.c"
    python3 "$kit/tests/walk_mutate.py" "${MUTATIONS:-1000}" "$walk" ./sanitized ./memory.so *.killed > mutations
    verdict 'mutations and cuts' 0 $?
    tail -n 5 mutations
fi

section ten million blocks
build walk_many.c
unprepared ./walk_many 10000000
core_of $process many
stop $process
python3 - "$walk" many.core > many.used 2> many.said << 'END'
import resource, subprocess, sys, time
began = time.monotonic()
status = subprocess.run(sys.argv[1:], stdout=open("many.log", "wb")).returncode
used = resource.getrusage(resource.RUSAGE_CHILDREN)
print(status, used.ru_maxrss * 1024, int(1000 * (used.ru_utime + used.ru_stime)), int(1000 * (time.monotonic() - began)))
END
read -r status bytes processor_ms clock_ms < many.used
verdict 'ten million blocks' 0 "$status"
echo "     $clock_ms ms by the clock, $processor_ms of a processor, at most $bytes bytes in memory; $(cat many.said)"
verdict 'at most 4 s of a processor, and 300 MB with what is in memory of the core' 'yes yes' \
    "$([ "$processor_ms" -le 4000 ] && echo yes) $([ "$bytes" -le 300000000 ] && echo yes)"
verdict 'each in the log' yes "$([ "$(grep -c '^@' many.log)" -ge 10000000 ] && echo yes)"
rm -f many.core many.log
complete=1
