# leak_walk: known and real programs, each dumped once under leak_trace, whose table must have the same blocks as the
# heap; a program stopped after each instruction of malloc; programs killed at any moment; damaged heaps; what is
# refused; and leaks of programs that nobody prepared.
section the heap itself
build walk_leaks.c
build walk_storm.c
build walk_types.cc
build walk_none.c
build walk_step.c
build walk_stepped.c
build walk_sparse.c
walk=$kit/leak_walk

# walked NAME [MORE]: the log of the heap of NAME.core against the table's log. MORE blocks may be in the heap alone.
walked() {
    local said
    verdict "$1: its log is by the table" 1 "$(grep -c '^= leak_log moment' "$1.log")"
    limited 60 "$walk" "$1.core" > "$1.walk" 2> "$1.said"
    verdict "$1: the heap is walked" 0 $?
    said=$(python3 "$kit/tests/walk.py" "$1.log" "$1.walk" "${2:-0}")
    verdict "$1: blocks of table and heap" 0 $?
    echo "     $said"
    verdict "$1: misfits" 'misfits 0' "$(find_leaks one --check "$1.core" "$1.walk" 2>&1 | grep '^misfits')"
}

# traced NAME PROGRAM..: runs it under leak_trace, by the command `run_by` if there is one, with standard input held
# open, and compares.
traced() {
    local name=$1
    shift
    command -v "$1" > /dev/null || { leave_out "$1, which is not installed"; return; }
    rm -f "$name.in" && mkfifo "$name.in"
    (exec 3<> "$name.in"; exec ${run_by-} "$kit/leak_trace" "$@" <&3 > "$name.out" 2>&1 3>&-) &
    process=$!
    started[$process]=1
    settle $process
    dump $process "$work/$name" && walked "$name"
    stop $process
    rm -f "$name.core" "$name.kernel"
}

if [ "$dumps" ]; then
    [ -x plain ] || build plain.c
    traced plain ./plain
    traced walk_types ./walk_types
    traced walk_leaks ./walk_leaks
    traced walk_sparse ./walk_sparse
    traced perl perl \
        -e 'my %h; $h{$_} = [1..5, "x" x $_] for 1..3000; for (1..3000) { delete $h{$_} if $_ % 3 } <STDIN>'
    PYTHONMALLOC=malloc traced python /usr/bin/python3 -c 'import json, sys
x = [json.loads(json.dumps({"a": [i] * 5})) for i in range(3000)]
sys.stdin.readline()'
    traced bash bash -c 'x=$(seq 10000); for i in 1 2 3; do y=${x//1/aa}; done; read z'
    traced gawk gawk 'BEGIN { for (i = 0; i < 9999; i++) a[i "x"] = i * 2 "y"; n = asorti(a, b); getline x }'
    traced gdb gdb -nx -q "$kit/leak_trace.so"
fi

# A core of each moment at which memory changes inside malloc, realloc, memalign and free; by registers the walk knows
# what they were about to write.
section stopped after each instruction
while read -r kind calls fresh; do
    limited 300 ./walk_step "$walk" "$kind" "$calls" $fresh > stepped
    verdict "$kind: each moment is walked right" 'refused 0 missing 0 freed 0 lost 0 more 0 misfits 0' \
        "$(tail -n 1 stepped)"
    echo "     $(grep instructions stepped)"
    [ "$fresh" ] ||
        verdict "$kind: without registers some are refused" yes \
            "$(awk '/instructions/ { print ($5 > 0 ? "yes" : "no") }' stepped)"
    [ "$kind" = heaps ] || [ "$fresh" ] ||
        verdict "$kind: a block that realloc is about to change is left out" yes \
            "$(awk '/instructions/ { print ($(NF - 1) > 0 ? "yes" : "no") }' stepped)"
    [ "$kind" != heaps ] ||
        verdict "$kind: a thread's second heap comes and goes" yes \
            "$(awk '/instructions/ { print ($11 > 0 ? "yes" : "no") }' stepped)"
done << END
main 24
thread 24
sbrk 20
thread 1 fresh
heaps ${HEAPS:-6}
END

storms=${STORMS:-0}
# Each takes two seconds or more: so they are made by hand, by walk_long.sh.
[ "$storms" != 0 ] || leave_out 'programs that are killed at any moment: STORMS=50 makes fifty'
[ "$dumps_core" ] || { leave_out 'cores of any moment: the kernel writes none here'; storms=0; }

# storms_of NAME ARGUMENT..: walk_storm, killed this many times; the kernel's core as it is and its table have the same
# blocks. KEEP names a folder for the cores of which that isn't so.
storms_of() {
    local name=$1 bad=0 was_bad one
    shift
    rm -f busy.more
    for _ in $(seq "$storms"); do
        was_bad=$bad
        wait=0.$((RANDOM % 90 + 10)) start ./walk_storm "$@"
        sleep 0.$((RANDOM % 90 + 10))
        dump_killed $process "$work/busy"
        unset "started[$process]"
        limited 60 "$walk" --quiet busy.core > busy.walk 2> busy.said || { cat busy.said; bad=$((bad + 1)); }
        # a thread has at most the block that malloc gave it, and the one that realloc or free is taking
        python3 "$kit/tests/walk.py" busy.log busy.walk 16 > busy.compared || { cat busy.compared; bad=$((bad + 1)); }
        sed -n 's/^both.*only in the walk \([0-9]*\).*/\1/p' busy.compared >> busy.more
        find_leaks one --check busy.core busy.walk 2> busy.warned | grep '^misfit' > busy.misfits
        [ "$(cat busy.misfits)" = 'misfits 0' ] || { cat busy.misfits; bad=$((bad + 1)); }
        [ $bad = $was_bad ] || [ ! "${KEEP-}" ] || for one in core log walk; do cp --sparse=always busy.$one \
            "$KEEP/$1.$bad.$one"; done
    done
    verdict "$name: walks at $storms moments, with what the table has, which fits the core" 0 $bad
    echo "     blocks in hand: $(sort -n busy.more | tr '\n' ' ')"
    rm -f busy.core busy.kernel
}
if [ "$storms" != 0 ]; then
    section busy threads, killed at any moment
    storms_of 'eight threads' 8
    storms_of 'a thread of several heaps' 1 100
fi

# core_of PID NAME: a core, by gdb or by killing the process.
core_of() {
    rm -f "$2.core" core core.*
    if [ "$attaches" ]; then
        limited 120 gdb -nx --batch -iex 'set auto-solib-add off' -iex 'set debuginfod enabled off' -p "$1" \
            -ex "generate-core-file $2.core" -ex detach > "$2.gdb" 2>&1
    else
        { kill -ABRT "$1" && wait "$1"; } 2> /dev/null
        mv "$(kernel_core)" "$2.core"
    fi
    [ -s "$2.core" ] || { verdict "dump $2" 'a core' none; return 1; }
}

# classes FILE: those that leak_lines names.
classes() { awk '/walk_types:\[/ && !/^leak/ { print $4 }' "$1" | sort | tr '\n' ' ' | sed 's/ $//'; }

section leaks of programs that nobody prepared
if [ "$dumps" ]; then
    unprepared ./walk_leaks
    core_of $process leaks
    stop $process
    "$walk" leaks.core > leaks.log 2> leaks.said
    verdict 'what is said' 1 \
        "$(grep -cE '^leak_walk: [0-9]+ blocks of [0-9]+ bytes in use; [0-9]+ arenas; [0-9]+ free chunks of [0-9]+ bytes$' leaks.said)"
    verdict 'nothing more is said' 1 "$(wc -l < leaks.said)"
    verdict 'with --quiet nothing' '' "$("$walk" --quiet leaks.core 2>&1 > quiet.log)"
    verdict 'the same log' "$(md5sum < leaks.log)" "$(md5sum < quiet.log)"
    find_leaks one --check --skip-freed --skip-links leaks.core leaks.log > leaks.report 2>&1
    verdict 'named of four threads' "$(expected "$kit/tests/walk_leaks.c")" "$(named leaks.report | in_steps)"
    verdict 'their heads' 'heads 4' "$(grep '^heads' leaks.report)"
    verdict 'misfits' 'misfits 0' "$(grep '^misfits' leaks.report)"

    unprepared ./walk_types
    core_of $process types
    stop $process
    "$walk" --quiet types.core > types.log
    find_leaks one --skip-freed --skip-links types.core types.log > types.report 2>&1
    verdict 'objects that are lost' "$(expected "$kit/tests/walk_types.cc")" "$(named types.report)"
    "$kit/leak_lines" types.report > types.lines
    verdict 'their classes' 'shapes::many<long> shapes::square' "$(classes types.lines)"

    build walk_guarded.c
    unprepared ./walk_guarded guarded
    core_of $process guarded
    stop $process
    "$walk" --quiet guarded.core > guarded.log
    verdict 'blocks of which a page has other rights' "$(sort guarded)" \
        "$(sed -n 's/^@ .* + \(0x[0-9a-f]* 0x10[0-9a-f]*\)$/\1/p' guarded.log | sort)"
    rm -f guarded.core

    gcc -O1 -g -pthread -static "$kit/tests/walk_leaks.c" -o static_leaks 2> static.cc && unprepared ./static_leaks &&
        core_of $process static
    stop $process
    "$walk" --quiet static.core > static.log
    verdict 'a static program: walked' 0 $?
    # (libc holds blocks of its own by memory alone that is read-only by then)
    find_leaks one --check --all-memory --skip-freed --skip-links static.core static.log > static.report 2>&1
    verdict 'a static program: named' "$(expected "$kit/tests/walk_leaks.c")" \
        "$(awk '$1 == "leak" { print $3 }' static.report | in_steps)"
    rm -f static.core types.core
fi

# A filter without bit 4 leaves out the first pages of mapped files, by which readers of cores know the files (core(5)).
if [ "$dumps_core" ]; then
    section a core without the first pages of files
    unprepared ./walk_types
    echo 0x23 > "/proc/$process/coredump_filter"
    rm -f core core.*
    { kill -ABRT $process && wait $process; } 2> /dev/null
    unset "started[$process]"
    mv "$(kernel_core)" bare.kernel
    verdict 'of ELF files only the one of the kernel' 1 "$(python3 "$kit/tests/walk_headers.py" bare.kernel)"
    "$kit/leak_dump" --core bare.kernel bare 2> bare.said
    verdict 'a log' 0 $?
    find_leaks one --skip-freed --skip-links bare.core bare.log > bare.report 2>&1
    verdict 'objects that are lost' "$(expected "$kit/tests/walk_types.cc")" "$(named bare.report)"
    "$kit/leak_lines" bare.report > bare.lines
    verdict 'no class, since the core has no build-id' 1 "$(grep -c '^build not known: 1 of 1 files ' bare.lines)"
    "$kit/leak_lines" --unchecked bare.report > bare.lines
    verdict 'their classes, if they are asked for' 'shapes::many<long> shapes::square' "$(classes bare.lines)"
    mv walk_types walk_types.away
    "$walk" --quiet bare.core > away.log
    find_leaks one --skip-freed --skip-links bare.core away.log > away.report 2>&1
    verdict 'the file is not here: what is lost' "$(expected "$kit/tests/walk_types.cc")" "$(named away.report)"
    verdict 'the file is not here: it is told by file and offset' yes \
        "$(awk '$1 == "leak" { print ($6 ~ /walk_types:\[0x[0-9a-f]+\]$/ ? "yes" : $6) }' away.report | sort -u)"
    mv walk_types.away walk_types
    rm -f bare.core bare.kernel
fi

section two moments of one process
if [ "$attaches" ]; then
    unprepared ./walk_leaks later
    core_of $process first
    "$walk" --quiet first.core > first.log
    echo > in
    settle $process
    core_of $process second
    stop $process
    "$walk" --quiet --after first.log second.core > second.log
    verdict 'the later log' 0 $?
    verdict 'begins with the earlier one' same "$(cmp -n "$(stat -c %s first.log)" first.log second.log && echo same)"
    "$walk" --quiet second.core > alone.log
    verdict 'has the blocks of the later core' "$(find_leaks one second.core alone.log 2>&1 | head -n 1)" \
        "$(find_leaks one second.core second.log 2>&1 | head -n 1)"
    find_leaks one --check --skip-freed --skip-links second.core second.log > later.report 2>&1
    verdict 'named of the later core' "$(expected "$kit/tests/walk_leaks.c")312 344 376 408 " \
        "$(named later.report | in_steps)"
    verdict 'give-backs of no block, and blocks over others' 'unknown 0 displaced 0 torn 0' \
        "$(grep '^unknown' later.report)"
    find_leaks two --skip-freed --skip-links first.core first.log second.core second.log > pair.report 2>&1
    verdict 'named of the pair' "$(expected "$kit/tests/walk_leaks.c")" "$(named pair.report | in_steps)"
    "$walk" --after leaks.log second.core 2>&1 > stranger.log |
        grep -q 'leaks.log: the earlier log is of another process$'
    verdict 'the log of another process' '0 0' "${PIPESTATUS[1]} $(wc -c < stranger.log)"
    head -c 1000 first.log > cut.log
    verdict 'a log that is cut off' 'leak_walk: cut.log: the log ends in the middle of a line' \
        "$("$walk" --after cut.log second.core 2>&1)"
    rm -f second.core
else
    leave_out 'two dumps of one process: gdb may not attach'
fi

# refused NAME WHY WORD..: leak_walk ends with 2, one line that has WHY, and no output.
refused() {
    local name=$1 why=$2 status
    shift 2
    limited 60 "$walk" "$@" > refused.out 2> refused.said
    status=$?
    verdict "refused: $name" "2, 0 bytes, 1 line: $why" \
        "$status, $(wc -c < refused.out) bytes, $(wc -l < refused.said) line: $(grep -oF -- "$why" refused.said |
        head -n 1)"
}

section what is refused
refused 'no core' 'not a core file of x86-64' "$kit/README.md"
refused 'no file' 'No such file or directory' none.core
refused 'a folder' 'Is a directory' .
refused 'no argument' 'usage: leak_walk'
refused 'two arguments' 'usage: leak_walk' a b
refused 'no option' 'usage: leak_walk' --other a
if [ "$dumps" ]; then
    unprepared ./walk_none
    core_of $process none
    stop $process
    limited 60 "$walk" none.core > none.log 2> none.said
    verdict 'malloc was never called: a log without a block' \
        '0 leak_walk: malloc was never called: there is no block 0' \
        "$? $(tail -n 1 none.said) $(grep -c '^@' none.log)"
    head -c $(($(stat -c %s leaks.core) / 2)) leaks.core > cut.core
    refused 'a core that is cut off' 'the core is cut off' cut.core
    refused 'no log of leak_walk' 'not a log of leak_walk' --after "$kit/README.md" leaks.core
    "$walk" --quiet leaks.core > /dev/full 2> full.said
    verdict 'a full disk' '2 leak_walk: standard output: No space left on device' "$? $(cat full.said)"

    section damaged heaps
    while read -r what why; do
        read -r chunk < <(python3 "$kit/tests/walk_damage.py" leaks.core leaks.log damaged.core $what)
        refused "damaged: $what" "$why" damaged.core
        verdict "damaged: $what: it says where" 1 "$(grep -c "$chunk" refused.said)"
        limited 60 "$walk" --partial damaged.core > partial.log 2> partial.said
        verdict "damaged: $what: partial" 1 $?
        verdict "damaged: $what: what is left out" 1 \
            "$(grep -c 'the log is not complete: [1-9][0-9]* bytes of the heap are left out$' partial.said)"
        python3 "$kit/tests/walk.py" partial.log leaks.log 99999 > partial.compared
        verdict "damaged: $what: no block but right ones" 'only in the table 0, odd sizes 0, freed over live 0' \
            "$(sed -n 's/^both [0-9]*, //; s/only in the walk [0-9]*, //p' partial.compared)"
        verdict "damaged: $what: the right log has misfits" yes \
            "$(find_leaks one --check damaged.core leaks.log 2> damaged.warned |
            awk '$1 == "misfits" { print ($2 > 0 ? "yes" : "no") }')"
    done << 'END'
main breaks after
thread breaks after
END
    read -r chunk < <(python3 "$kit/tests/walk_damage.py" leaks.core leaks.log damaged.core bit)
    "$walk" damaged.core > bit.log 2> bit.said
    verdict 'a byte that says a block is free: walked' 0 $?
    verdict 'a byte that says a block is free: it says where' 1 \
        "$(grep -c "1 free chunks have no size behind them, the first at $chunk" bit.said)"
    verdict 'a byte that says a block is free: the block is the misfit' "$(printf '0x%x' $((chunk + 16)))" \
        "$(find_leaks one --check damaged.core bit.log 2> bit.warned | awk '$1 == "misfit" { print $2 }')"
    rm -f damaged.core cut.core leaks.core first.core
fi
