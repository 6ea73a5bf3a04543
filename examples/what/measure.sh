#!/bin/bash
# How often leak_what is right: runs programs of which each some-teenth free() is dropped, with the callers of their
# blocks by leak_trace, searches each by its heap alone, and compares what leak_what says of the lost blocks with their
# callers (score.py). The table of docs/LIMITS.md. Programs that are not installed are left out. measure.sh [NAME..]
# takes those of these names alone.
#
# BUILT=FOLDER measure.sh [NAME..]: also the programs of that folder, which were built with debug information from
# sources below it, and how often the types of their held blocks are right (score_types.py), and of ninja and cppcheck
# the containers of C++ (score_containers.py), of the lost blocks and of all as if all were lost. KEEP=FOLDER
# measure.sh ..: what was compared is kept in FOLDER/NAME, which is large.
here=$(dirname "$(readlink -f "$0")")
kit=$here/../../capture
finder=${LEAK_FIND:-leak_find}
[ ! "${BUILT-}" ] || BUILT=$(readlink -f "$BUILT") || exit
work=$(mktemp -d)
trap 'kill -9 $(jobs -p) 2> /dev/null; rm -rf "$work"' EXIT
cd "$work" || exit 1
gcc -O2 -shared -fPIC "$here/drop_free.c" -o drop_free.so && gcc -O2 -g "$here/server.c" -o server || exit 1

# score_objects NAME: a row of the table of Python's objects.
score_objects() {
    python3 -B "$here/all_lost.py" run.walk > run.all && "$kit/leak_what" run.core run.walk run.all > run.all.what &&
        python3 -B "$here/score_objects.py" "$1" run.all.what run.types >> objects.rows
}
# score_containers NAME: a row of the table of containers for the lost blocks, and one for all blocks.
score_containers() {
    python3 -B "$here/score_containers.py" "$1" run.what run.log run.report >> containers.rows
    python3 -B "$here/all_lost.py" run.walk > run.all && "$kit/leak_what" run.core run.walk run.all > run.all.what &&
        python3 -B "$here/score_containers.py" "$1, all" run.all.what run.log run.all >> containers.rows
}
# wait_for CONDITION..: waits until it is true, for ten minutes at most, while the program runs.
wait_for() {
    local turns=0
    until "$@"; do
        if [ $((turns += 1)) -gt 3000 ] || [ ! -e "/proc/$process" ]; then
            echo "not true: $*" >&2
            return 1
        fi
        sleep 0.2
    done
}
# states: of each thread of the program its state, and how much processor time it had.
states() { awk '{ sub(/^.*\) /, ""); print $1, $12, $13 }' "/proc/$process/task/"*/stat; }
# rests: whether all threads slept for a second.
rests() {
    local first
    first=$(states)
    for _ in 1 2 3 4 5; do
        sleep 0.2
        [[ $first == S* && $first != *$'\n'[!S]* && $(states) == "$first" ]] || return
    done
}
# listens PORT: whether a program listens there.
listens() { grep -q "^ *[0-9]*: [0-9A-F]*:$(printf %04X "$1") [0-9A-F]*:0000 0A" /proc/net/tcp; }
# has_said COUNT TEXT: whether the program wrote so many lines with this text.
has_said() { [ "$(grep -c "$2" out)" -ge "$1" ]; }
# ask KIND PORT: asks the server at this port many things; some connections stay until it is gone.
ask() {
    wait_for listens "$2" || return
    python3 -B "$here/load.py" "$1" "$2" "$process" > asked 3>&- &
    wait_for test -s asked
}
# score NAME: the rows of what was dumped. leak_walk's status is 1 if malloc was at work.
score() {
    [ -s run.core ] && { "$kit/leak_walk" --quiet run.core > run.walk || [ $? = 1 ]; } || return
    "$finder" one --skip-freed --skip-links run.core run.walk > run.report
    "$kit/leak_what" run.core run.walk run.report > run.what &&
        python3 -B "$here/score.py" "$1" run.what run.report run.log > row || return
    tee -a likeness.rows < row
    [ ! -s run.types ] || score_objects "$1"
    case $1 in ninja | cppcheck) score_containers "$1" ;; esac
    [ "$has_types" ] && "$kit/leak_what" --types run.core run.walk > run.typed || return 0
    "$finder" one --skip-freed --skip-links run.core run.typed > run.report
    "$kit/leak_what" run.core run.typed run.report > run.what
    python3 -B "$here/score_types.py" "$1" run.typed run.log run.what "$BUILT" >> types.rows
}
# measure NAME EVERY AFTER INPUT READY LOAD PROGRAM..: a row of the table. The program reads INPUT, and LOAD runs beside
# it; then it is dumped, as soon as READY is true.
measure() {
    local name=$1 every=$2 after=$3 input=$4 ready=$5 load=$6 has_types='' process
    shift 6
    case $(command -v "$1") in "${BUILT-}/$1") has_types=1 ;; ./server) has_types=${BUILT-} ;; esac
    rm -f in asked && mkfifo in && exec 3<> in
    DROP_FREE=$every DROP_AFTER=$after LEAK_TRACE=$work/table.%p LEAK_TRACE_DEPTH=10 \
        LD_PRELOAD=$work/drop_free.so:$kit/leak_trace.so "$@" <&3 > out 2>&1 3>&- &
    process=$!
    cat "$input" >&3
    eval "$load" 3>&- && eval "wait_for $ready" && "$kit/leak_dump" "$process" run 2> said
    { kill -9 "$process" && wait "$process"; } 2> /dev/null
    score "$name" || { echo "$name: no row" && tail -n 3 out said; } >&2
    [ ! "${KEEP-}" ] || { mkdir -p "$KEEP/$name" && mv run.* "$KEEP/$name"; }
    rm -rf run.* table.* said tmux-*
    exec 3>&-
}
# run NAME ..: measures what is installed, and what of the same name is in the folder.
run() {
    [[ ! "$names" || " $names " == *" $1 "* ]] || return
    if command -v "$7" > /dev/null; then
        measure "$@"
    else
        echo "$1 is not installed: left out" >&2
    fi
    [ ! -x "${BUILT:-.}/$7" ] || [[ $7 == */* ]] || PATH=$BUILT:$PATH measure "$1, built" "${@:2}"
}
# run_built NAME ..: measures what is in the folder.
run_built() {
    [[ ! "$names" || " $names " == *" $1 "* ]] || return
    if [ -x "$BUILT/$7" ]; then
        PATH=$BUILT:$PATH measure "$@"
    else
        echo "$1 is not in $BUILT: left out" >&2
    fi
}
# total [SHARE:RIGHT]..: the sums of rows. In column SHARE is how many of a hundred are right, of those in column RIGHT
# and in the one after it.
total() {
    awk -F '|' -v shares="$*" '{ for (i = 3; i < NF; i++) sum[i] += $i; last = NF }
        END {
            count = split(shares, share, "[ :]")
            for (i = 1; i < count; i += 2) {
                all = sum[share[i + 1]] + sum[share[i + 1] + 1]
                sum[share[i]] = all ? sprintf("%.1f", 100 * sum[share[i + 1]] / all) : "-"
            }
            printf "| all |"
            for (i = 3; i < last; i++) printf " %s |", sum[i]
            print ""
        }'
}

mkdir -p www/dir && echo text | tee www/a.txt > www/b.html
cat > nginx.conf << END
daemon off; master_process off; pid $work/nginx.pid; error_log $work/nginx.err;
events { worker_connections 512; }
http { access_log off; client_body_temp_path $work/body; proxy_temp_path $work/proxy; fastcgi_temp_path $work/fastcgi; uwsgi_temp_path $work/uwsgi;
    scgi_temp_path $work/scgi; server { listen 127.0.0.1:21481; root $work/www; location / { autoindex on; } } }
END
cat > lighttpd.conf << END
server.document-root = "$work/www"
server.port = 21480
server.modules = ("mod_indexfile", "mod_redirect", "mod_dirlisting", "mod_staticfile")
dir-listing.activate = "enable"
index-file.names = ("index.html")
END
for i in $(seq 60); do
    echo "create table z$i(a, b, c text); insert into z$i values($i, 'x$i', null); select * from z$i, t where t.a = z$i.a; create index zi$i on z$i(b);"
    [ $((i % 3)) != 0 ] || echo "drop table z$i;"
done | cat "$here/load.sql" - > many.sql
for i in $(seq 300); do
    echo "<a n=\"$i\"><b>text $i</b><c d=\"e\"/></a>"
done | { echo '<all>'; cat; echo '</all>'; } > many.xml
for i in $(seq 40); do
    printf 'load many.xml\nxpath //a[@n>%s]\ncd all\nls\nsetns p=urn:x\nxpath count(//b)\n' "$i"
done > many.xpath
for i in $(seq 1500); do
    echo "build output_of_the_build_$i.o: copy input_of_the_build_$i.c | header_$((i % 40)).h"
    printf '  flags = -DFLAG_%s\n  long_variable_%s = a value that is longer than sixteen\n' "$i" $((i % 30))
    touch "input_of_the_build_$i.c" "header_$((i % 40)).h"
done | { printf 'rule copy\n  command = sleep 60\n  depfile = $out.d\n'; cat; } > build.ninja
printf '%s\n' 'break main' 'info functions new' 'info types .' 'info line main' 'ptype struct connection' \
    'print sizeof(struct timer)' > many.gdb

names=$*
export TMUX_TMPDIR=$work
printf '%s\n%s\n' \
    '| Program | lost | text | words | FILE | right | wrong | silent | right, % | by type | wrong | right, % | by size |' \
    '|---|---|---|---|---|---|---|---|---|---|---|---|---|'
run server 0 0 /dev/null rests true ./server
run nginx 12 500 /dev/null rests 'ask http 21481' nginx -c "$work/nginx.conf"
run lighttpd 12 500 /dev/null rests 'ask http 21480' lighttpd -D -f "$work/lighttpd.conf"
run memcached 3 100 /dev/null rests 'ask memcached 21479' memcached -u "$(id -un)" -p 21479
run bash 25 500 /dev/null rests true bash "$here/load.bash"
run sqlite3 25 500 many.sql rests true sqlite3
run perl 25 1000 /dev/null rests true perl "$here/load.pl"
run lua 25 1000 /dev/null rests true lua5.4 "$here/load.lua"
run gawk 25 500 /dev/null rests true gawk \
    'BEGIN { for (i = 0; i < 20000; i++) { a[i % 700][i] = i "x"; b = b i; if (i % 50 == 0) delete a[i % 300];
    if (i % 500 == 0) b = ""; c = gensub(/x(.)/, "\\1", "g", a[i % 700][i]); split(c b, parts, i % 9) } getline }'
# No rule was chosen on gdb and xmllint.
run gdb 60 2000 many.gdb rests true gdb -nx -q ./server
run tmux 12 500 /dev/null rests "wait_for test -S $work/tmux-$(id -u)/measure && bash $here/load_tmux.bash" \
    tmux -D -L measure -f /dev/null
PYTHONMALLOC=malloc run python3 200 5000 /dev/null rests true /usr/bin/python3 -B "$here/load_objects.py" run.types
PYTHONMALLOC=malloc run documents 200 5000 /dev/null rests true \
    /usr/bin/python3 -B "$here/load_documents.py" run.types
run xmllint 25 500 many.xpath rests true xmllint --shell many.xml
if [ "${BUILT-}" ]; then # Debian's redis has jemalloc; no rule was chosen on cppcheck
    run_built redis 60 2000 /dev/null rests "wait_for listens 21579 && bash $here/load_redis.bash \$process" \
        redis-server --port 21579 --save ''
    run_built ninja 20 500 /dev/null rests true ninja -j 4
    run_built cppcheck 200 5000 /dev/null "has_said 10 'files checked'" true cppcheck --enable=all "$here/../../capture"
fi
total 10:7 13:11 < likeness.rows
printf '\n%s\n%s\n' '| Program | objects | right | wrong | none of them |' '|---|---|---|---|---|'
cat objects.rows 2> /dev/null
if [ "${BUILT-}" ]; then
    printf '\n%s\n%s\n' \
        '| Program | blocks | typed | right | wrong | unjudged | array right | wrong | unjudged | lost right | wrong | unjudged |' \
        '|---|---|---|---|---|---|---|---|---|---|---|---|'
    cat types.rows
    total < types.rows
    printf '\n%s\n%s\n' '| Program | blocks | tree: right / wrong / silent | hash | buckets | string |' \
        '|---|---|---|---|---|---|'
    cat containers.rows
fi
