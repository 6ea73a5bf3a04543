# Servers of Debian, with glibc's malloc, that are made to lose lists: each list must be named whole. Those not
# installed are left out.
section lists that servers lose
gcc -O1 -shared -fPIC "$kit/tests/planted.c" -o planted.so
mkdir -p www && head -c 20000 /dev/zero > www/x

# ask PORT TEXT: sends it to a server a hundred times, and waits for what comes.
ask() {
    limited 60 python3 -c 'import socket, sys, time
for _ in range(100):
    try:
        with socket.create_connection(("127.0.0.1", int(sys.argv[1])), timeout=5) as s:
            s.sendall(sys.argv[2].encode().decode("unicode_escape").encode())
            s.recv(9999)
    except OSError: time.sleep(0.05) # it is not there yet' "$1" "$2"
}

# loses PORT TEXT SERVER..: the server, asked before and after it loses its lists. Traced if `by` is leak_trace.
loses() {
    local port=$1 text=$2 name=$3${by:+, traced}
    shift 2
    command -v "$1" > /dev/null || { leave_out "$name, which is not installed"; return; }
    rm -f lose
    LOSE=$work/lose LD_PRELOAD=$work/planted.so:/lib/x86_64-linux-gnu/libc.so.6 $by "$@" > server.out 2>&1 &
    process=$!
    started[$process]=1
    ask "$port" "$text"
    : > lose
    ask "$port" "$text"
    settle $process
    if limited 60 "$kit/leak_dump" $process "$work/planted" 2> planted.said; then
        find_leaks one --skip-freed --skip-links planted.core planted.log > planted.report 2>&1
        verdict "$name: lists, blocks" '61 183' "$(awk '$1 == "leak" && $3 == 1240 { blocks++; heads += $5 == "head" }
            END { print heads + 0, blocks + 0 }' planted.report)"
        echo "     $(grep -E '^(blocks|leaked)' planted.report | tr '\n' ' ')"
    else
        verdict "$name: a dump" yes "$(cat planted.said server.out)"
    fi
    stop $process
    rm -f planted.core planted.table
}
printf 'server.document-root="%s/www"\nserver.port=28190\nserver.bind="127.0.0.1"\n' "$work" > planted.conf
for by in '' "$kit/leak_trace"; do
    loses 28190 'GET /x HTTP/1.0\r\n\r\n' lighttpd -D -f planted.conf
    loses 28191 'set k 0 0 5\r\nhello\r\nget k\r\n' memcached -u root -l 127.0.0.1 -p 28191 -U 0
    loses 28192 'LPUSH l hello\r\n' redis-server --port 28192 --bind 127.0.0.1 --save ''
done
by=
