# leak_report for a person: what it says of processes whose leaks are known, on a terminal and elsewhere; and that --raw
# is as leak_lines has it.
section a report for a person
python3 -B "$kit/tests/person_test.py" 2> person_test.said
status=$?
verdict "its words: $(tail -n 3 person_test.said | head -n 1)" 0 $status
[ $status = 0 ] || cat person_test.said
[ -x what_blocks ] || build what_blocks.c
[ -x plain ] || build plain.c
export LEAK_FIND=$finder

# told NAME WORD..: what leak_report prints goes to NAME.out, what it says to NAME.said, its status to `status`.
told() {
    local name=$1
    shift
    TMPDIR=$work/temporary limited 120 "$kit/leak_report" "$@" > "$name.out" 2> "$name.said"
    status=$?
}
mkdir -p temporary

# line_of NAME: what the lines of a report say in a sentence: blocks and bytes in use, and lost.
line_of() { awk '$1 == "blocks" { print $2, $4 } $1 == "leaked" { print $2, $4 }' "$1" | paste -s -d ' '; }

# size_of BYTES: as a person reads them.
size_of() { awk -v bytes="$1" \
    'BEGIN { if (bytes < 1000) print bytes " bytes"; else if (bytes < 999950) printf "%.1f KB\n", bytes / 1000; else printf "%.1f MB\n", bytes / 1000000 }'; }

# wanted_sentence NAME REPORT STRUCTURES: the sentence of these lines.
wanted_sentence() {
    set -- "$1" $(line_of "$2") "$3"
    echo "$1: $2 blocks, $(size_of "$3") in use; $4 lost, $(size_of "$5"), in $6 structures"
}

# structures_of NAME: how many of the lost blocks are in no other's structure.
structures_of() { awk 'NR == FNR { if ($1 == "part") part[$2]; next } $1 == "leak" && !($2 in part)' "$1.what" \
    "$1.report" | wc -l; }

# raw_of FOLDER PID WORD..: what the lines of a report are, as leak_lines has them.
raw_of() {
    [ -e "$1/dump.what" ] && set -- "$@" --what "$1/dump.what"
    "$kit/leak_lines" --pid "$2" "${@:3}" "$1/dump.report" | sed -e '/^leak /d' -e '/^what /d'
}

# parts_of PAGE: the reports that the page has, and its title with the first line of its head. head_of PAGE: its head.
parts_of() { data_of "$1" 'print(*(it["report"] for it in page["parts"]), page["title"] + ": " + page["head"][0])'; }
head_of() { data_of "$1" 'print("\n".join(page["head"]))'; }
data_of() {
    python3 -c 'import json, re, sys
page = json.loads(re.search("id=\"data\">(.*?)</script>", open(sys.argv[1], encoding="utf-8").read(), re.DOTALL)[1])
exec(sys.argv[2])' "$1" "$2"
}

# widest FILE: the longest line without colors, and without progress, which is written over.
widest() { sed 's/\x1b\[[0-9;]*m//g; s/\r$//; s/.*\r\x1b\[K//' "$1" |
    awk '{ if (length > most) most = length } END { print most }'; }

if [ "$attaches" ]; then
    unprepared ./what_blocks
    told living --keep living -n 1000 $process
    verdict 'the status' 1 $status
    verdict 'the sentence' \
        "$(wanted_sentence "what_blocks (pid $process)" living/dump.report "$(structures_of living/dump)")" \
        "$(head -n 1 living.out)"
    verdict 'its rows have all that is lost' "$(line_of living/dump.report | cut -d ' ' -f 3)" \
        "$(awk '/^ *lost  blocks/ { in_table = 1; next } /^$/ { in_table = 0 } in_table && $2 ~ /^(bytes|KB)$/ {
            sum += $3 } END { print sum }' living.out)"
    verdict 'none of the lines for scripts' 0 \
        "$(grep -cE '^(blocks|undumped|unknown|freed|marked|leaked|heads|leak|what|caller) [0-9]' living.out)"
    verdict 'what a block is' 1 \
        "$(grep -cE 'looks like (0x[0-9a-f]*|struct node( or array)?) \(2 held, by conns>\+0x0\)' living.out)"
    verdict 'what to do next' \
        "Next: leak_report --attach $process shows which functions allocate what is lost from now on." \
        "$(grep '^Next' living.out)"
    verdict 'nothing is said beside' '' "$(cat living.said)"
    verdict 'the last lines' 1 "$(tail -n 2 living.out | grep -cE '^The process was stopped for [0-9]+ ms\.$')"
    verdict 'what is kept' 'dump.core dump.log dump.report dump.what' "$(cd living && echo *)"
    told raw --raw --keep raw $process
    verdict '--raw is as leak_lines has it' 1 "$(cmp raw.out <(raw_of raw $process) && echo 1)"
    verdict '--raw: what is said' 'leak_core: leak_dump: leak_walk: leak_report:' \
        "$(cut -d ' ' -f 1 raw.said | grep -v leak_what | uniq | head -n 4 | paste -s -d ' ')"
    told raw --raw -n 2 --structures $process
    verdict '--raw -n 2 --structures' \
        "$(raw_of raw $process -n 2 --structures | sed 's/0x[0-9a-f]*//g; s/leak_find why .*//')" \
        "$(sed 's/0x[0-9a-f]*//g; s/--why 1 .*//' raw.out)"
    told rows $process -n 1
    verdict 'options may follow the process; the rows left out are summed up' '1 1' \
        "$(grep -cE '^and [0-9]+ more rows: [0-9.]+ (bytes|KB) in [0-9]+ blocks; -n [0-9]+ shows all$' \
        rows.out) $status"
    told pair --after living $process
    verdict 'two moments' '1 1' "$(head -n 1 pair.out | grep -c ' lost at both moments, ') $status"
    told chain --why 1 $process
    verdict 'what holds the block that it looks like' 'conns' \
        "$(sed -n '/^chain to /{n;s/^ *//;s/,.*//;p}' chain.out | head -n 1)"

    # a terminal, of which leak_report knows by standard output
    script -qec "stty cols 70; TMPDIR=$work/temporary TERM=xterm '$kit/leak_report' $process" \
        /dev/null < /dev/null > wide.out
    verdict 'on a terminal: colors, and its width' 'yes 70' \
        "$(grep -q $'\x1b\\[1;31mwhat_blocks' wide.out && echo yes) $([ "$(widest wide.out)" -le 70 ] && echo 70)"
    script -qec "stty cols 70; NO_COLOR=1 TMPDIR=$work/temporary TERM=xterm '$kit/leak_report' $process" \
        /dev/null < /dev/null > wide.out
    verdict 'on a terminal: NO_COLOR' 0 "$(grep -c $'\x1b\\[[0-9;]*m' wide.out)"
    verdict 'into a file: neither' 0 "$(grep -c $'\x1b' living.out)"

    printf '#!/bin/sh\n[ "$1" = --version ] || [ "$2" = /dev/null ] || sleep 4\nexec "%s" "$@"\n' "$finder" > slow &&
        chmod +x slow
    script -qec "LEAK_FIND=$work/slow TMPDIR=$work/temporary '$kit/leak_report' $process > slow.out" \
        /dev/null < /dev/null > slow.said
    verdict 'progress of what takes more than two seconds' 'yes 1' \
        "$(grep -qE 'leak_report: searches for what is lost \([2-9] s\)' slow.said && echo yes) $(head -n 1 slow.out |
        grep -c ' lost, ')"
    verdict 'and none before' '' "$(grep -oE '\([01] s\)' slow.said)"
    LEAK_FIND=$work/slow told quiet $process
    verdict 'no progress where standard error is no terminal' '' "$(cat quiet.said)"
    told page --html page.html $process
    verdict 'a page: what was lost, and who holds the memory' "structures holders $(head -n 1 page.out)" \
        "$(parts_of page.html)"
    told page --after living --html page.html $process
    verdict 'a page of two moments: what grew too' "structures grow holders $(head -n 1 page.out)" \
        "$(parts_of page.html)"
    verdict 'no zeros in its head' 0 "$(head_of page.html | grep -cE '(^|[^0-9.,])0 ')"
    told wrong --html none/page.html $process
    verdict 'a page that nobody can write' '2 leak_report: cannot write none/page.html ' \
        "$status $(cat wrong.said) $(cat wrong.out)"
    told wrong --raw --html page.html $process
    verdict 'a page and lines for scripts' 2 $status

    mkdir -p no_python && printf '#!/bin/sh\nexit 127\n' > no_python/python3 && chmod +x no_python/python3
    PATH=$PWD/no_python:$PATH told unnamed $process
    verdict 'no python3: the lines' "1 $(line_of living/dump.report) 1" \
        "$status $(line_of unnamed.out) $(grep -c 'leak_lines failed' unnamed.said)"
    mkdir -p no_facts && cp -r "$kit"/leak_* "$kit/lines" "$kit/scripts" no_facts &&
        printf '#!/bin/sh\nexit 2\n' > no_facts/leak_what
    TMPDIR=$work/temporary limited 120 no_facts/leak_report $process > no_facts.out 2> no_facts.said
    verdict 'no leak_what: what is not known is left out' '1 0 1' \
        "$? $(head -n 1 no_facts.out | grep -c structure) $(grep -c '^Note: leak_what failed' no_facts.out)"
    stop $process

    start ./plain
    told traced $process
    verdict 'with a table: functions' 1 "$(grep -c 'plain\.c:' traced.out | awk '{ print ($1 > 0) }')"
    verdict 'with a table: what to do next' 1 \
        "$(grep -c "^Next: compare with a second dump: leak_report --keep DIR $process, " traced.out)"
    stop $process
    cp what_blocks "$(printf 'a\033[2J\nb')"
    unprepared "./$(printf 'a\033[2J\nb')"
    told hostile --list $process
    verdict 'a hostile name' "a\\x1b[2J (pid $process):" "$(grep -o '^.* (pid [0-9]*):' hostile.out)"
    verdict 'no control character' 0 "$(LC_ALL=C grep -c $'[\x01-\x09\x0b-\x1f\x7f]' hostile.out)"
    stop $process

    printf '#include <stdlib.h>\n#include <unistd.h>\nstatic void *volatile held;\nint main(void) { held = malloc(100); return (int)read(0, held, 1); }\n' > keeps.c
    gcc -O1 keeps.c -o keeps
    unprepared ./keeps
    told none $process
    verdict 'nothing is lost' "0 keeps (pid $process): none lost 1" \
        "$status $(head -n 1 none.out |
        sed 's/: .*; /: /') $(grep -c "^Next: if it still grows, leak_report --grow $process --for 10m shows" none.out)"
    printf '#!/bin/sh\n"%s" "$@"; found=$?; echo "leak_find: warning: input 1: something" >&2; exit $found\n' \
        "$finder" > warns && chmod +x warns
    LEAK_FIND=$PWD/warns told none $process
    verdict 'nothing found with a warning is no all-clear' '0 0 1 1' \
        "$status $(grep -c 'none lost' none.out) $(head -n 1 none.out |
        grep -c 'none found lost, but the search is not complete') $(grep -c '^Warning: Input 1: something\.$' \
        none.out)"
    verdict 'warnings are last' 'Warning:' "$(grep -v '^Note: ' none.out | tail -n 1 | cut -d ' ' -f 1)"
    stop $process
fi
told gone 999999999
verdict 'no such process: nothing but why' '2  leak_dump: no process 999999999' \
    "$status $(cat gone.out) $(cat gone.said)"
gcc -O0 -g -w -o leaky_one "$kit/../examples/leaky.c"
if [ "$dumps_core" ]; then
    be_ready leaky_one ./leaky_one
    rm -f core core.*
    { kill -ABRT $process && wait $process; } 2> /dev/null
    mv "$(kernel_core)" leaky.core
    told dead leaky.core
    verdict "the kernel's core" \
        "1 leaky_one (core leaky.core): 12 blocks, $(size_of 1728) in use; 6 lost, 576 bytes, in 3 structures" \
        "$status $(cat dead.out | head -n 1)"
    verdict "the kernel's core: what to do next" 1 \
        "$(grep -c '^Next: start the program by leak_trace -d 8 PROGRAM: then a report of its core has' dead.out)"
    rm -f leaky.core
fi
verdict 'no file is left behind' '' "$(ls temporary)"
unset LEAK_FIND
