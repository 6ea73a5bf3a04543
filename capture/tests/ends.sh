# The tables of processes that ended: one that ended by itself leaves none, unless -k asks for it, and one that was
# killed does.
section processes that end
build ends.c
rm -f table.*
left() { ls table.* 2> /dev/null | wc -l; }
for way in return exit _exit _Exit quick_exit thread; do
    limited 60 "$kit/leak_trace" ./ends $way
    verdict "$way: tables that are left" 0 "$(left)"
    limited 60 "$kit/leak_trace" ./ends $way 3
    verdict "$way of three children" 0 "$(left)"
    limited 60 "$kit/leak_trace" -k ./ends $way
    verdict "$way with -k" '1 dead' "$(left) $("$kit/leak_trace" --list | awk 'NR == 2 { print $2 }')"
    "$kit/leak_trace" --remove > /dev/null
done
{ limited 60 "$kit/leak_trace" ./ends signal; } 2> /dev/null
verdict 'a signal' 1 "$(left)"
rm -f table.*

# A child that gave up its rights can't remove its table: it makes it small, and the next child removes it.
for way in rights runs; do
    limited 60 "$kit/leak_trace" ./ends $way 25
    verdict "$way: of 25 tables are left" 'at most one' "$([ "$(left)" -le 1 ] && echo at most one)"
    "$kit/leak_trace" --remove > /dev/null
    verdict "$way: --remove removes it" 0 "$(left)"
done
if [ "$(id -u)" = 0 ]; then
    chmod 1777 . && limited 60 "$kit/leak_trace" ./ends rights 1
    verdict 'it is said to have ended, and is small' 'ended small' \
        "$("$kit/leak_trace" --list | awk 'NR == 2 { print $2, $3 <= 16 ? "small" : $3 }')"
    rm -f table.*
    chmod 755 .
fi

section the limit of all tables together
build hello.c
{ limited 60 "$kit/leak_trace" ./ends signal; } 2> /dev/null
kib=$(du -k table.* | cut -f 1)
verdict 'one that was killed takes a megabyte' yes "$([ "$kib" -gt 1024 ] && echo yes)"
verdict 'below the limit' '' "$(limited 60 "$kit/leak_trace" -m 100 ./hello 2>&1 > /dev/null)"
limited 60 "$kit/leak_trace" -m 1 ./hello > hello.out 2> said
verdict 'at the limit: the program runs, and it is said' 'hello 1' \
    "$(cat hello.out) $(grep -c 'all tables together are at their limit .*; not traced' said)"
verdict 'no table is made' 1 "$(left)"
if [ "$(id -u)" = 0 ]; then
    chown 65534 table.*
    verdict "another user's tables do not count" '' "$(limited 60 "$kit/leak_trace" -m 1 ./ends exit 2>&1)"
    chown 0 table.*
    verdict 'one of its own does' 1 "$(limited 60 "$kit/leak_trace" -m 1 ./ends exit 2>&1 | grep -c 'at their limit')"
fi
"$kit/leak_trace" --remove > /dev/null
options='-m 1'
start ./ends rests 1 2> said
options=
until_true 60 pgrep -P $process > child
started[$(cat child)]=1
until_true 60 eval '"$kit/leak_trace" --list | grep -q "not traced"'
verdict 'a child that has no table is told' "1 children were not traced: ./ends $(cat child)" \
    "$("$kit/leak_trace" --list | tail -n 1)"
stop $process "$(cat child)"
rm -f table.*
