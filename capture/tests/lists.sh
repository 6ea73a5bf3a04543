# leak_trace --list and --remove: tables of other containers, of other users, and files that only have the name of one.
section the list of tables
[ -x plain ] || build plain.c
build ends.c # another test has a script of that name
rm -f table.*
list() { limited 60 "$kit/leak_trace" --list "$@"; }

# What is no regular file is not opened.
mkfifo table.5
ln -s "$work/table.5" table.6
mkdir table.7
ln -s /dev/zero table.8
verdict 'a FIFO, links and a folder' 0 "$(list | sed 1d | wc -l; [ "${PIPESTATUS[0]}" = 0 ] || echo 'it waits')"
rm -rf table.5 table.6 table.7 table.8
{ limited 60 "$kit/leak_trace" ./ends signal; } 2> /dev/null
mv table.* dead.table
for number in 9 10 100; do cp --sparse=always dead.table table.$number; done
start ./plain
verdict 'those that live come first, then all by number' "$process live, dead, dead, dead, " \
    "$(list | awk 'NR > 1 { printf "%s%s, ", $2 == "live" ? $1 " " : "", $2 }')"
ln -s "$work/table.$process" table.1
verdict 'a link to one that lives' 1 "$(list | grep -c live)"
verdict 'it is not removed by its link' "$process live" \
    "$("$kit/leak_trace" --remove > /dev/null; list | awk 'NR > 1 { print $1, $2 }')"
stop $process
rm -f table.*
cat > renamed.sh << END
exec -a "\$(printf 'bad\\033[2J\\nname')" ./plain
END
(cd "$work" && exec "$kit/leak_trace" bash renamed.sh) &
process=$!
started[$process]=1
until_true 60 eval 'list | grep -q bad'
settle $process
verdict 'the name of a program is escaped' "bad\\x1b[2J\\nname," "$(list | awk 'NR == 2 { print $4 }')"
stop $process
rm -f table.*

section tables of other users
if [ "$(id -u)" = 0 ]; then
    chmod 1777 . && cp -r "$kit/leak_trace" "$kit/leak_trace.so" "$kit/leak_tables" "$kit/scripts" . &&
        chmod 755 plain ends
    nobody='setpriv --reuid=65534 --regid=65534 --clear-groups'
    { limited 60 $nobody ./leak_trace ./ends signal; } 2> /dev/null
    verdict 'a dead one of another is not shown' \
        '1 1 more are of other users, and no process is known to live: --all shows them' \
        "$(list | wc -l | awk '{ print $1 - 1 }') $(list | tail -n 1)"
    verdict 'with --all it is' 'dead' "$(list --all | awk 'NR == 2 { print $2 }')"
    verdict 'to itself it is its own' 'dead' "$($nobody ./leak_trace --list | awk 'NR == 2 { print $2 }')"
    verdict 'it takes over a megabyte, and does not count for others' '' \
        "$(limited 60 "$kit/leak_trace" -m 1 true 2>&1)"
    verdict 'it counts for its owner' 1 "$(limited 60 $nobody ./leak_trace -m 1 true 2>&1 | grep -c 'at their limit')"
    "$kit/leak_trace" --remove > /dev/null
    verdict 'root removes it' 0 "$(ls table.* 2> /dev/null | wc -l)"
    verdict 'its owner can not cut it short' 'Permission denied' \
        "$({ limited 60 $nobody ./leak_trace -k true; } 2> /dev/null; $nobody sh -c ': > '"$(echo table.*)" 2>&1 |
        sed 's/.*: //')"
    rm -f table.* leak_trace leak_trace.so leak_tables
    rm -rf scripts
    chmod 755 .
else
    leave_out 'tables of other users: only root can be one'
fi

section tables of other containers
# apart PROGRAM..: runs it in a namespace of its own for process numbers, where it is the first.
apart() { exec unshare --pid --fork --mount-proc --kill-child "$@"; }
if [ "$(id -u)" = 0 ] && (apart true) 2> /dev/null; then
    (apart "$kit/leak_trace" ./plain) &
    first=$!
    started[$first]=1
    until_true 60 test -s table.1
    (apart "$kit/leak_trace" ./plain) &
    second=$!
    started[$second]=1
    until_true 60 eval 'list | grep -c live | grep -qx 2'
    verdict 'two have the number 1: each has a table' '2 live' \
        "$(list | awk 'NR > 1 { print $2 }' | sort | uniq -c | awk '{ print $1, $2 }')"
    verdict 'they are told by their numbers here' "$(pgrep -P $first,$second -x plain | sort -n | paste -s)" \
        "$(list | awk 'NR > 1 { print $1 }' | sort -n | paste -s)"
    verdict 'from a third container it is not known whether they live' 'elsewhere elsewhere' \
        "$( (apart "$kit/leak_trace" --list) | awk 'NR > 1 { print $2 }' | paste -s -d ' ')"
    (apart "$kit/leak_trace" --remove) > removed
    "$kit/leak_trace" --remove >> removed
    verdict 'none that lives is removed' '2 0' "$(list | grep -c live) $(wc -l < removed)"
    if [ "$attaches" ]; then
        limited 120 "$kit/leak_dump" "$(pgrep -P $second -x plain)" inner 2> said
        verdict 'the table of one is dumped from outside' 1 "$(grep -c "by leak_trace's table" said)"
    fi
    pid=$(pgrep -P $first -x plain)
    (apart sh -c "kill -0 1; exec '$kit/leak_trace' -o '$work/table.%p' true")
    verdict 'another process of that number leaves it alone' live "$(list | awk -v pid="$pid" '$1 == pid { print $2 }')"
    stop $first $second
    until_true 60 eval '! pgrep -x plain > /dev/null'
    if [ "$(stat -L -c %i /proc/self/ns/pid)" = 4026531836 ] && cat /proc/[0-9]*/maps > /dev/null 2> unseen; then
        "$kit/leak_trace" --remove > /dev/null
        verdict 'where all processes are seen, the dead ones are removed' 0 "$(ls table.* 2> /dev/null | wc -l)"
    else
        leave_out 'the end of tables of containers that are gone: not all processes are seen from here'
    fi
else
    leave_out 'tables of other containers: unshare is refused'
fi
rm -f table.* dead.table inner.* removed renamed.sh
