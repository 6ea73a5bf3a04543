#!/bin/bash
# Does anything lead to what leak_report names? Of programs of Debian as they are, each for some seconds: how many
# blocks are lost by the report, to how many of them a search that knows nothing of any allocator finds a word
# (leads.c), to how many of these only words in memory that malloc gave back, and how many are lost if no thread is
# asked for its signal stack. Programs that are not installed are left out. As root; not part of `make check`.
. "$(dirname "$0")/common.sh"
gcc -O2 "$kit/tests/leads.c" -o leads || exit 1
export LEAK_FIND=$finder
chmod 755 .
programs=0 false_rows=0

# look_into NAME PID: a row of the table.
look_into() {
    rm -rf kept
    limited 120 "$kit/leak_report" --raw --keep kept --list "$2" > report 2> said
    if [ $? -gt 1 ]; then
        echo "| $1 | $(tail -n 1 said) |"
        return
    fi
    counts=$(limited 120 ./leads kept/dump.core kept/dump.log kept/dump.report "$2" 2> words)
    programs=$((programs + 1))
    [ ! -s words ] || { false_rows=$((false_rows + 1)); sed 's/^/     /' words | head -n 5; }
    uncalled=$(limited 120 "$kit/leak_report" --raw --no-calls "$2" 2> said | awk '$1 == "leaked" { print $2 }')
    echo "| $1 | $(echo "$counts" | sed 's/ / | /g') | $uncalled |"
}

# try NAME PROGRAM..: runs it in the background and looks into it, if it is installed and lives.
try() {
    command -v "$2" > /dev/null || { leave_out "$1: $2 is not installed"; return; }
    (exec "${@:2}" > out 2> err < fifo) &
    process=$!
    started[$process]=1
    sleep "${seconds:-3}"
    if is_dead "$process"; then
        leave_out "$1: it ended: $(tail -n 1 err)"
    else
        ${load:-true} > /dev/null 2>&1
        look_into "$1" "$process"
    fi
    children=$(pgrep -P "$process")
    stop "$process" $children
}
mkfifo fifo
exec 8<> fifo
echo '| Program | lost | led to | by free memory alone | lost with --no-calls |'

# The search itself is tried on a report that calls each block of a program lost.
bash -c 'a=($(seq 99)); read -r x' < fifo &
process=$!
started[$process]=1
sleep 1
"$kit/leak_report" --raw --keep tried "$process" > report 2> said
awk '/^@ size/ { print "leak", $(NF - 1), 9, 1, "head ?" }' tried/dump.log > all.report
verdict 'blocks that are held are led to' yes \
    "$(./leads tried/dump.core tried/dump.log all.report "$process" 2> words |
    awk '$1 > 99 && $2 * 2 > $1 { print "yes" }')"
stop "$process"

cat > busy.erl <<'END'
-module(busy).
-export([start/0]).
start() -> [spawn(fun() -> work(N) end) || N <- lists:seq(1, 50)], timer:sleep(1000000).
work(N) -> _ = [integer_to_list(X) || X <- lists:seq(1, 1000)], timer:sleep(N), work(N).
END
! command -v erlc > /dev/null || erlc busy.erl
try 'beam.smp (erlang)' erl -noshell -s busy start
cat > held.ml <<'END'
let held = Array.init 1000 (fun i -> String.make (i + 1) 'x')
let () = while true do ignore (Array.length held); ignore (input_char stdin) done
END
! command -v ocamlopt > /dev/null || ocamlopt held.ml -o held 2> /dev/null
try 'native OCaml' ./held
mkdir -p slapd.d ldap
cat > slapd.conf <<END
include /etc/ldap/schema/core.schema
pidfile $work/slapd.pid
modulepath /usr/lib/ldap
moduleload back_mdb
database mdb
suffix "dc=x"
directory $work/ldap
END
try slapd slapd -d 0 -f slapd.conf -h ldap://127.0.0.1:28389/
try snmpd snmpd -f -Lo -C udp:127.0.0.1:28161
try redis redis-server --port 28379 --bind 127.0.0.1 --save ''
try memcached memcached -u root -l 127.0.0.1 -p 28211
printf 'server.document-root="%s"\nserver.port=28080\nserver.bind="127.0.0.1"\n' "$work" > lighttpd.conf
load='fetch 28080' try lighttpd lighttpd -D -f lighttpd.conf
printf 'daemon off; pid %s/nginx.pid; error_log %s/e.log;\nevents {}\nhttp { access_log off; server { listen 127.0.0.1:28081; root %s; } }\n' "$work" "$work" "$work" > nginx.conf
load='fetch 28081' try 'nginx, the master' nginx -c "$work/nginx.conf"
printf 'listener 28183 127.0.0.1\nallow_anonymous true\n' > mosquitto.conf
try mosquitto mosquitto -c mosquitto.conf
try dnsmasq dnsmasq -k -p 28053 -C /dev/null --user=root --no-resolv
printf 'router id 1.2.3.4;\nprotocol device {}\n' > bird.conf
try bird bird -f -c bird.conf -s bird.ctl -P bird.pid
printf 'defaults\n mode http\n timeout connect 5s\n timeout client 5s\n timeout server 5s\nfrontend f\n bind 127.0.0.1:28082\n' > haproxy.cfg
try haproxy haproxy -db -f haproxy.cfg
try Xvfb Xvfb :77 -screen 0 640x480x8
try python3 python3 \
    -c 'import json, re, sys, faulthandler; faulthandler.enable(); held = [json.loads("[1, 2, {}]") for _ in range(999)]; sys.stdin.read()'
try perl perl -e 'my %h = map { $_ => [1 .. 9] } 1 .. 999; <STDIN>'
try gawk gawk 'BEGIN { for (i = 0; i < 999; i++) a[i] = i "x"; getline }'
try gdb gdb -nx -q "$finder"
try bash bash -c 'a=($(seq 999)); read -r x'
try ssh-agent ssh-agent -D
rm -rf pg
postgres=$(ls -d /usr/lib/postgresql/*/bin 2> /dev/null | tail -n 1)
if [ "$postgres" ] && install -d -o postgres pg && setpriv --reuid=postgres --regid=postgres \
    --clear-groups "$postgres/initdb" -D "$work/pg" > /dev/null 2>&1; then
    try postgres setpriv --reuid=postgres --regid=postgres --clear-groups "$postgres/postgres" -D "$work/pg" -p 28432 \
        -k /tmp
fi
echo "programs with rows to which something leads: $false_rows of $programs"
complete=1
