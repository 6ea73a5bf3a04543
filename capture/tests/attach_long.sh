#!/bin/bash
# Attaches real programs under load and detaches them again, ROUNDS times each (50): how long they were stopped,
# whether each round went well, how much memory is left behind, and whether they answer as in a run that nobody
# touched, and end with its status. `attach_long.sh NAME..` takes these alone. Programs that are not installed are
# left out. As root; not part of `make check`. Servers listen on loopback.
. "$(dirname "$0")/common.sh"
. "$kit/tests/attach_common.sh"
rounds=${ROUNDS:-50}
unset LEAK_TRACE
chmod 755 .
mkdir -p www && head -c 20000 /dev/urandom > www/x && chmod 755 www
all=0

# middle FILE: the middle and the largest number.
middle() { sort -n "$1" | awk '{ n[NR] = $1 } END { print n[int((NR + 1) / 2)] " | " n[NR] }'; }
resident() { awk '$1 == "RssAnon:" { print $2 }' "/proc/$1/status"; }
# tried WORD PID: leak_trace --WORD, and how long the process was stopped.
tried() {
    limited 60 "$trace" "--$1" "$2" 2> said || { echo "$name: $(tail -n 1 said)" >&2; return 1; }
    sed -n 's/.*was stopped for \([0-9]*\) ms.*/\1/p' said >> "$1.ms"
}
# rounds_of NAME PID: a row of the table.
rounds_of() {
    local name=$1 pid=$2 wrong=0 before after=0 code
    rm -f attach.ms detach.ms
    code=$(whole "$pid" | cut -d ' ' -f 1)
    before=$(resident "$pid")
    for i in $(seq "$rounds"); do
        tried attach "$pid" || { wrong=$((wrong + 1)); [ "$i" -gt 3 ] || break; continue; }
        sleep 0.0$((RANDOM % 90 + 10))
        tried detach "$pid" || wrong=$((wrong + 1))
        [ "$i" != 1 ] || after=$(resident "$pid")
    done
    all=$((all + $(cat attach.ms 2> /dev/null | wc -l)))
    is_dead "$pid" && wrong="$wrong, and it died"
    [ "$(whole "$pid" | cut -d ' ' -f 1)" = "$code" ] || wrong="$wrong, and its code has changed"
    echo "| $name | $(cat attach.ms | wc -l) | $(middle attach.ms) | $(middle detach.ms) | $wrong |" \
        "$((after - before)), $(($(resident "$pid") - after)) |"
}
# begins NAME: starts the program, and what asks it, if it doesn't print passes itself. `process` is attached, `top`
# ended.
begins() {
    rm -f end passes backend
    "begin_$1" > passes 2> "$1.said"
    until_true 120 has_passes 2 || { echo "$1: no passes: $(tail -n 2 "$1.said")"; return 1; }
    [ "$(type -t "find_$1")" ] && process=$("find_$1") || process=$top
}
has_passes() { [ "$(wc -l < passes)" -ge "$1" ]; }
# ends NAME: ends what asks, then the program, and gives its status.
ends() {
    touch end
    [ ! "${asker-}" ] || wait "$asker" 2> /dev/null
    [ ! "${asker-}" ] || kill -"$1" "$top"
    asker=''
    wait "$top" 2> /dev/null
    status=$?
    unset "started[$top]"
}
# goes_on NAME SIGNAL: without a touch, and then with all rounds.
goes_on() {
    local wanted untouched
    [ ! "$chosen" ] || [[ " $chosen " == *" $1 "* ]] || return
    begins "$1" || { ends "$2"; verdict "$1 runs" yes no; return; }
    ends "$2"
    untouched=$status
    verdict "$1, untouched: each pass is as the first" 1 "$(sort -u passes | wc -l)"
    wanted=$(head -n 1 passes)
    begins "$1"
    rounds_of "$1" "$process"
    has_passes 9 || until_true 120 has_passes 9
    ends "$2"
    verdict "$1: its answers" "$wanted" "$(sort -u passes)"
    verdict "$1: its status" "$untouched" "$status"
    echo "     $(wc -l < passes) passes"
}
# runs COMMAND..: in the background, as `top`; asks KIND WORD..: who asks it.
runs() {
    "$@" & top=$!
    started[$top]=1
}
asks() {
    python3 -B "$kit/tests/attach_long.py" "$1" end "${@:2}" & asker=$!
    started[$asker]=1
}
port_is_open() { (exec 3<> "/dev/tcp/127.0.0.1/$1") 2> /dev/null; }

. "$kit/tests/attach_programs.sh"
chosen=$*
echo '| Program | rounds | ms in the middle, at most, attaching | detaching | went wrong |' \
    'KiB of memory without a file more after the first round, and after all |'
for name in c python perl node java rust; do
    ! "has_$name" || goes_on $name TERM
done
for name in nginx lighttpd memcached slapd mariadb postgres; do
    ! "has_$name" || goes_on $name "$([ $name = nginx ] && echo QUIT || echo TERM)"
done
echo "$all rounds in all"
complete=1
