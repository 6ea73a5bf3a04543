#!/bin/bash
# What searches with and without each option find in Debian's own programs, into which plant.c plants leaks: the table
# of docs/STUDIES.md. Programs that are not installed are left out; as root vsftpd, dovecot and exim are taken too. Not
# part of `make check`.
. "$(dirname "$0")/common.sh"
mkdir -m 777 planted
gcc -O1 -g -shared -fPIC -DFOLDER="\"$work/planted\"" -o plant.so "$kit/tests/plant.c" || exit 1
chmod 755 . && mkdir -p www && head -c 20000 /dev/zero > www/x && chmod 755 www
have() { command -v "$1" > /dev/null || { leave_out "$1, which is not installed"; return 1; }; }

# traced OPTIONS PROGRAM..: runs it with the leaks planted, in the background, and gives its id in `process`.
traced() {
    LD_PRELOAD=$work/plant.so "$kit/leak_trace" -d 16 $1 "${@:2}" > out 2> err &
    process=$!
    started[$process]=1
    sleep 1.5
}

# named_by OPTION..: found and others of what a search names.
named_by() {
    find_leaks one "$@" program.core program.log > program.report 2> warned
    awk 'NR == FNR { planted[$1]; next } $1 == "leak" { if ($2 in planted) found++; else others++ } END {
        print found + 0 "+" others + 0 }' "$lost" program.report
}

# measure NAME PID: a row of the table.
measure() {
    sleep 1
    lost=planted/$2
    rm -f program.*
    limited 120 "$kit/leak_dump" "$2" "$work/program" 2> said || { echo "$1: $(tail -n 1 said)"; return; }
    row="$1 | $(awk '$1 == "@" { n++ } END { print n + 0 }' program.log) | $(wc -l < "$lost")"
    heap=''
    grep '^= leak_log allocator' program.log | grep -qv 'glibc$' && heap=--other-heap
    for options in '' --skip-freed --skip-links '--skip-freed --skip-links' '--skip-freed --skip-links --skip-slack' \
        --skip-ends '--skip-freed --skip-ends'; do
        row="$row | $(named_by $heap $options)"
    done
    echo "| $row |"
    [ ! "${KEEP-}" ] || for file in "$lost" program.*; do
        cp "$file" "$KEEP/$1.$(basename "$file" | sed 's/^[0-9]*$/lost/')"; done
}
echo '| Program | blocks | planted | no option | --skip-freed | --skip-links | both | both, --skip-slack | --skip-ends | --skip-freed --skip-ends |'

have redis-server && {
    traced '' redis-server --port 28184 --bind 127.0.0.1 --save '' --appendonly no
    limited 120 redis-benchmark -p 28184 -n 5000 -r 5000 -q -t set,get,lpush,lpop,sadd,hset,spop,zadd > /dev/null 2>&1
    measure 'redis-server (jemalloc)' $process
    stop $process
}
have nginx && {
    printf 'daemon off; pid %s/nginx.pid; error_log %s/e.log; worker_processes 1;\nevents {}\nhttp { access_log off; server { listen 127.0.0.1:28181; root %s/www; } }\n' "$work" "$work" "$work" > nginx.conf
    touch e.log; chmod 777 .
    traced '' nginx -c "$work/nginx.conf"
    fetch 28181
    worker=$(pgrep -P $process)
    measure 'nginx, a worker' "$worker"
    measure 'nginx, the master' $process
    kill "$worker"
    stop $process
}
have memcached && {
    traced '' memcached -u root -l 127.0.0.1 -p 28182
    limited 60 python3 -c 'import socket
for i in range(200):
    s = socket.create_connection(("127.0.0.1", 28182), 5)
    s.sendall(b"set k%d 0 0 5\r\nhello\r\nget k%d\r\n" % (i, i)); s.recv(200); s.close()'
    measure memcached $process
    stop $process
}
have lighttpd && {
    printf 'server.document-root="%s/www"\nserver.port=28180\nserver.bind="127.0.0.1"\n' "$work" > lighttpd.conf
    traced '' lighttpd -D -f "$work/lighttpd.conf"
    fetch 28180
    measure lighttpd $process
    stop $process
}

# with_input PROGRAM..: of a program that reads `in`, after which it waits for more.
with_input() {
    rm -f fifo && mkfifo fifo
    LD_PRELOAD=$work/plant.so "$kit/leak_trace" -d 16 "$@" < fifo > out 2> err &
    process=$!
    started[$process]=1
    exec 5> fifo
    cat in >&5
    sleep 2
    measure "$(basename "$1")" $process
    stop $process
    exec 5>&-
}
have sqlite3 && {
    { echo 'create table t(a integer primary key, b text); create index i on t(b);'
      seq 500 | sed "s/.*/insert into t values(&, 'text &');/"
      for i in 1 2 3 4 5 6; do
          echo "attach 'x$i.db' as x$i; create table x$i.y(z); detach x$i; select count(*) from t where b like '%$i%';"; done; } > in
    with_input sqlite3 main.db
}
have gawk && {
    seq 2000 > numbers
    for i in 1 2 3 4 5 6; do echo numbers; done > in
    with_input gawk \
        '{ while ((getline line < $1) > 0) n[line % 99] = n[line % 99] line % 7; close($1);
            print length(n) > "/dev/stdout" }'
}
have xmllint && {
    { echo '<a>'; seq 300 | sed 's|.*|<b c="&">text &</b>|'; echo '</a>'; } > a.xml
    for i in 1 2 3 4 5 6; do echo "load $work/a.xml"; echo 'xpath //b[@c>7]'; done > in
    with_input xmllint --shell a.xml
}
[ "$(id -u)" = 0 ] && have vsftpd && {
    mkdir -p empty
    printf 'listen=YES\nlisten_address=127.0.0.1\nlisten_port=28121\nbackground=NO\nanonymous_enable=YES\nlocal_enable=NO\nanon_root=%s/www\nsecure_chroot_dir=%s/empty\nseccomp_sandbox=NO\nisolate=NO\nisolate_network=NO\n' "$work" "$work" > vsftpd.conf
    chmod 755 www . && chown root vsftpd.conf
    traced '' vsftpd vsftpd.conf
    timeout 20 python3 -c 'import ftplib, time
f = ftplib.FTP(); f.connect("127.0.0.1", 28121, timeout=9); f.login(); out = []
for i in range(20): f.retrlines("LIST", out.append); f.retrbinary("RETR x", out.append)
time.sleep(9)' & client=$!
    started[$client]=1
    sleep 3
    session=$(pgrep -P "$(pgrep -P $process | head -n 1)" | head -n 1)
    measure 'vsftpd, a session' "${session:-$(pgrep -P $process | head -n 1)}"
    measure 'vsftpd, the listener' $process
    stop $client
    kill $(pgrep -P $process) 2> /dev/null
    stop $process
}
[ "$(id -u)" = 0 ] && have dovecot && {
    mkdir -p run &&
        printf 'base_dir = %s/run\nstate_dir = %s/run\nlog_path = %s/dovecot.log\nprotocols =\nssl = no\nlisten = 127.0.0.1\npassdb {\n  driver = static\n  args = password=x\n}\nuserdb {\n  driver = static\n  args = uid=nobody gid=nogroup home=/tmp\n}\nservice auth {\n  process_min_avail = 1\n}\n' "$work" "$work" "$work" > dovecot.conf
    touch dovecot.log; chmod 777 . dovecot.log
    traced -e dovecot -F -c "$work/dovecot.conf"
    for _ in 1 2 3 4 5 6; do limited 20 doveadm -c dovecot.conf auth test bob x; done > /dev/null 2>&1
    for child in $(pgrep -P $process); do
        case $(cat /proc/$child/comm) in auth | stats) measure "dovecot, $(cat /proc/$child/comm)" "$child" ;; esac
    done
    kill $process
    sleep 1
    stop $process
}
[ "$(id -u)" = 0 ] && have exim4 && {
    mkdir -p spool && chown Debian-exim spool
    printf 'primary_hostname = test.localhost\nspool_directory = %s/spool\nlog_file_path = %s/spool/%%slog\nacl_smtp_rcpt = accept\ndaemon_smtp_ports = 28125\nlocal_interfaces = 127.0.0.1\ntls_advertise_hosts =\nbegin acl\nbegin routers\ndrop:\n  driver = redirect\n  data = :blackhole:\nbegin transports\n' "$work" "$work" > exim.conf
    traced '' exim4 -C "$work/exim.conf" -bdf
    limited 60 python3 -c 'import smtplib
for i in range(10):
    s = smtplib.SMTP("127.0.0.1", 28125, timeout=9); s.sendmail("a@test.localhost", ["b@test.localhost"], "Subject: x\r\n\r\nhello\r\n"); s.quit()'
    measure 'exim4, the daemon' $process
    stop $process
}
complete=1
