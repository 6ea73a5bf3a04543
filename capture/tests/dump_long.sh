#!/bin/bash
# Cores of servers that are hard to dump, by leak_core: not part of run.sh. Those not installed are left out. As root on
# Debian 12: apt-get install mariadb-server default-jre-headless nodejs golang-go postgresql.
. "$(dirname "$0")/common.sh"
chmod 755 .

# memory_of PID: how many bytes of it are in memory, or swapped out.
memory_of() { awk '/^(Rss|Swap):/ { kilobytes += $2 } END { print kilobytes * 1024 }' "/proc/$1/smaps_rollup"; }

# serve NAME PID: dumps a process that serves, and compares what gdb finds in the core with what there is.
serve() {
    local there later threads
    there=$(memory_of "$2")
    threads=$(ls "/proc/$2/task" | wc -l)
    limited 300 "$kit/leak_core" "$2" "$1.core" 2> said || cat said
    later=$(memory_of "$2") # it goes on taking and giving back
    [ "$later" -le "$there" ] || there=$later
    echo "     $1: $(stat -c %s "$1.core") bytes, of $there that are there and $(awk '/^VmSize/ { print $2 }' \
        "/proc/$2/status") kB mapped;" \
        "standstill $(sed -n 's/.*was stopped for //p' said)"
    grep -v 'was stopped' said
    verdict "$1: no more bytes of memory than are there" yes \
        "$([ "$(python3 "$kit/tests/dump.py" sizes "$1.core" | cut -d ' ' -f 2)" -le $((there + shared_more)) ] &&
        echo yes)"
    verdict "$1: gdb finds each thread" "$threads" \
        "$(limited 300 gdb -nx --batch "$(readlink "/proc/$2/exe")" "$1.core" -ex 'thread apply all backtrace 1' \
        2> /dev/null | grep -c '^Thread ')"
    : > "$1.log"
    find_leaks one "$1.core" "$1.log" > "$1.report" 2>&1
    verdict "$1: leak_find reads it" 'blocks 0 bytes 0' "$(head -n 1 "$1.report")"
    echo "     $(grep '^undumped' "$1.report")"
    rm -f "$1.core"
}
# Shared memory is in the core even if another process wrote it.
shared_more=0

if command -v mariadbd > /dev/null; then
    section mariadbd
    mkdir maria && chown nobody maria
    limited 120 mariadb-install-db --no-defaults --datadir="$work/maria" --user=nobody \
        --auth-root-authentication-method=normal > maria.out 2>&1
    mariadbd --no-defaults --datadir="$work/maria" --user=nobody --socket="$work/maria/m.sock" \
        --skip-networking > maria.out 2>&1 &
    process=$!
    started[$process]=1
    ask() { mariadb --no-defaults -S "$work/maria/m.sock" -N -e 'select count(*) from mysql.global_priv' 2> /dev/null; }
    until_true 60 ask > answer
    serve mariadbd $process
    verdict 'mariadbd answers as before' "$(tail -n 1 answer)" "$(ask)"
    kill $process && wait $process
else
    leave_out mariadbd
fi

if command -v java > /dev/null; then
    section java
    printf 'public class Serve { public static void main(String[] a) throws Exception { byte[][] held = new byte[50][];
        for (int i = 0; i < 50; i++) held[i] = new byte[1 << 20]; System.out.println("ready");
        for (int i = 0;; i++) { held[i %% 50] = new byte[1 << 20]; Thread.sleep(1); if (System.in.available() > 0) { System.in.read(); System.out.println("alive"); } } } }' > Serve.java
    mkfifo java.in
    java -Xmx512m Serve.java < java.in > java.out 2>&1 &
    process=$!
    started[$process]=1
    exec 8> java.in
    until_true 60 grep -qx ready java.out || cat java.out
    serve java $process
    echo >&8
    verdict 'java answers as before' yes "$(until_true 10 grep -qx alive java.out && echo yes)"
    exec 8>&-
    stop $process
else
    leave_out java
fi

if command -v node > /dev/null; then
    section node
    node -e 'let held = []; setInterval(() => { held.push(Buffer.alloc(1000)); if (held.length > 1000) held = []; }, 1);
        require("http").createServer((q, a) => a.end("alive")).listen(28185, "127.0.0.1", () => console.log("ready"))' \
        > node.out 2>&1 &
    process=$!
    started[$process]=1
    until_true 60 grep -qx ready node.out
    serve node $process
    verdict 'node answers as before' alive \
        "$(limited 20 python3 \
        -c 'import urllib.request; print(urllib.request.urlopen("http://127.0.0.1:28185/").read().decode())')"
    stop $process
else
    leave_out node
fi

if command -v go > /dev/null; then
    section go
    printf 'package main\nimport ("fmt"; "os"; "time")\nfunc main() { ended := make(chan int, 100); turns := 0\n\tgo func() { for { go func() { x := make([]byte, 10000); ended <- len(x) }(); <-ended; turns++ } }()
\tfmt.Println("ready"); for { was := turns; time.Sleep(time.Second); if turns == was { fmt.Println("stuck"); os.Exit(1) }; fmt.Println("alive") } }\n' > serve.go
    GOCACHE=$work/gocache GOFLAGS=-mod=mod go build -o serve_go serve.go
    ./serve_go > go.out 2>&1 &
    process=$!
    started[$process]=1
    until_true 60 grep -qx ready go.out
    serve go $process
    : > go.out
    verdict 'go goes on' yes "$(until_true 10 grep -qx alive go.out && echo yes)"
    stop $process
else
    leave_out go
fi

postgres=$(command -v postgres || ls /usr/lib/postgresql/*/bin/postgres 2> /dev/null | tail -n 1)
if [ "$postgres" ]; then
    section postgres
    bin=$(dirname "$(readlink -f "$postgres")")
    mkdir pg && chown nobody pg
    as='setpriv --reuid=nobody --regid=nogroup --clear-groups'
    (cd pg && limited 120 $as "$bin/initdb" -D data > initdb.out 2>&1
    exec $as "$bin/postgres" -D data -k "$work/pg" -c listen_addresses= > postgres.out 2>&1) &
    process=$!
    started[$process]=1
    ask() { limited 20 $as psql -h "$work/pg" -U nobody -Atc 'select count(*) from pg_class where oid < 1000' \
        postgres 2> /dev/null; }
    until_true 60 ask > answer
    # A process that serves one client: it has the shared memory that others wrote.
    (sleep 60 | $as psql -h "$work/pg" -U nobody postgres > /dev/null 2>&1) &
    started[$!]=1
    until_true 20 pgrep -f 'postgres: nobody postgres' > /dev/null
    backend=$(pgrep -f 'postgres: nobody postgres' | head -n 1)
    shared_more=$((256 << 20))
    serve postgres "$process"
    serve backend "$backend"
    verdict 'postgres answers as before' "$(tail -n 1 answer)" "$(ask)"
    kill $process && wait $process
else
    leave_out postgres
fi
complete=1
