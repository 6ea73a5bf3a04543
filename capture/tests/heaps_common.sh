# What the tests of other heaps share: storms at rest and killed at any moment, changed words, and planted leaks. They
# want `walk` and `seed`.

# core_now PID NAME: a core of the process, which is ended.
core_now() {
    rm -f core core.* "$2.core"
    if [ "$attaches" ]; then
        limited 60 "$kit/leak_core" "$1" "$2.core" > "$2.dumped" 2>&1
        stop "$1"
    else
        { kill -ABRT "$1" && wait "$1"; } 2> /dev/null
        unset "started[$1]"
        mv "$(kernel_core)" "$2.core"
    fi
}

# at_rest KIND NAME PROGRAM..: a storm at rest is walked, whole, as the heap of NAME and no other.
at_rest() {
    local kind=$1 name=$2
    be_ready "$kind" "${@:3}" 3 1500 8000 1
    core_now "$process" "$kind"
    limited 60 "$walk" --quiet "$kind.core" > "$kind.log" 2> "$kind.said"
    verdict "$kind: at rest: walked, and nothing is said" '0 0' "$? $(wc -c < "$kind.said")"
    verdict "$kind: the log says whose heap it is" "= leak_log allocator $name" \
        "$(grep '^= leak_log allocator' "$kind.log")"
    python3 "$kit/tests/heaps_truth.py" "$kind.core" "$kind.log" > "$kind.truth"
    verdict "$kind: at rest: its blocks" 'missing 0 smaller 0' "$(head -n 1 "$kind.truth")"
    echo "     $(tail -n 1 "$kind.truth")"
}

# damages KIND: changed words refuse the core, or change nothing.
damages() {
    limited 900 python3 "$kit/tests/heaps_damage.py" "$walk" "$1" "$1.core" "${DAMAGES:-8}" "$seed" > "$1.damaged"
    verdict "$1: changed words, as by SEED=$seed: no log is wrong" '0 wrong 0' \
        "$? $(sed -n 's/.*\(wrong [0-9]*\) of .*/\1/p' "$1.damaged")"
    sed 's/^/     /' "$1.damaged"
}

# interrupted KIND: what a thread of jemalloc gives back counts as blocks while a signal has stopped it there, though its
# handler waits elsewhere; and of a cache that it puts a block into, the newest item. One with an item twice is refused.
interrupted() {
    cp "$1.core" interrupted.core
    python3 "$kit/tests/heaps_interrupted.py" "$walk" interrupted.core > interrupted.told
    verdict "$1: a thread that a signal stopped: what it has in hand is told as blocks; and an item twice is refused" 'all 1 2' \
        "$(awk '{ print ($1 > 1 && $1 == $2 ? "all" : $1 " " $2), $3, $4 }' interrupted.told)"
    rm -f interrupted.core
}

# widened KIND: jemalloc's tree of extents has another shape where it was built on another processor: then the blocks are
# the same.
widened() {
    python3 "$kit/tests/heaps_wide.py" "$1.core" "$1.log" wide.core &&
        limited 60 "$walk" --quiet wide.core > wide.log
    verdict "$1: a tree of three levels: the same blocks" "$(grep -v '^[-+]' "$1.log" | md5sum)" \
        "$(grep -v '^[-+]' wide.log | md5sum)"
    rm -f wide.core
}

# memory_of CORE EACH: the status of the walk of a core, and whether it took no more memory than it may: that many bytes
# for each word of the core and a million more. A list that grows by doubling takes three times its own.
memory_of() {
    limited 60 env MEMORY="$PWD/most" LD_PRELOAD=./memory.so "$walk" --quiet "$1" > hostile.log 2> hostile.said
    echo $? "$(awk -v core="$(stat -c %s "$1")" -v each="$2" '{ print ($1 <= each * (core / 8 + 1048576) ? "yes" : $1) }' most)"
}

# hostile KIND: a core that claims far more blocks than it can have is refused, before there is memory for them.
hostile() {
    local each=2
    [ "$1" != jemalloc ] || each=64 # 16 bytes for a word of a thread, and the threads
    [ -e memory.so ] || gcc -shared -fPIC -O1 -o memory.so "$kit/tests/walk_memory.c"
    cp "$1.core" changed.core
    python3 "$kit/tests/heaps_hostile.py" "$1" changed.core "$1.log" hostile.core "$2" 8144
    verdict "$1: a core that claims more than it has: refused, with little memory" '2 yes' "$(memory_of hostile.core $each)"
    sed 's/^/     /' hostile.said
    [ "$1" != mimalloc ] || at_most "$@"
    rm -f changed.core hostile.core
}

# at_most KIND PARTS: one that claims as many as it can have is walked.
at_most() {
    cp "$1.core" changed.core
    python3 "$kit/tests/heaps_hostile.py" "$1" changed.core "$1.log" hostile.core "$2" 24
    verdict "$1: a core that claims as much as it can have: walked, with memory for three times its blocks" '0 yes' \
        "$(memory_of hostile.core 72)"
}

# planted KIND LEAST PROGRAM..: leak_report names lost blocks, at least so many of 400, and nothing else, but the
# object that tcmalloc loses itself.
planted() {
    local kind=$1 least=$2 others=0
    [ "$kind" != tcmalloc ] || others=1
    be_ready "$kind" "${@:3}" 4 3000 12000 5 400
    rm -rf "$kind.kept"
    LEAK_FIND=$finder limited 120 "$kit/leak_report" --raw --keep "$kind.kept" \
        "$process" > "$kind.shown" 2> "$kind.said"
    verdict "$kind: leak_report: something is lost" 1 $?
    stop "$process"
    verdict "$kind: its options" '--other-heap --skip-ends --skip-freed --all-memory' \
        "$(sed -n 's/^leak_report: leak_find one //p' "$kind.said")"
    python3 "$kit/tests/heaps_truth.py" "$kind.kept/dump.core" "$kind.kept/dump.log" \
        "$kind.kept/dump.report" > "$kind.found"
    verdict "$kind: named: $least of 400 at least, and no others" yes \
        "$(awk -v least="$least" -v others=$others \
        '$1 == "lost" { print ($2 == 400 && $4 >= least && $6 == others ? "yes" : $0) }' "$kind.found")"
    echo "     $(tail -n 1 "$kind.found")"
    rm -rf "$kind.kept"
}

# storms_of KIND PROGRAM..: killed at any moment, in every second one with threads that a signal stopped at any moment
# before: nothing is missing. What a thread has in hand may not fit: then it is said.
storms_of() {
    local kind=$1 bad=0 odd=0 refused=0 status
    for i in $(seq "${STORMS:-3}"); do
        "${@:2}" 6 2000 0 $((i + seed)) $((i % 2 * 3)) > "$kind.out" 2>&1 &
        process=$!
        started[$process]=1
        sleep 0.$((RANDOM % 60 + 35))
        rm -f core core.*
        { kill -ABRT $process && wait $process; } 2> /dev/null
        unset "started[$process]"
        limited 60 "$walk" --quiet "$(kernel_core)" > busy.log 2> busy.said
        status=$?
        [ $status != 1 ] || odd=$((odd + 1))
        [ $status != 2 ] || { refused=$((refused + 1)); cat busy.said; continue; }
        python3 "$kit/tests/heaps_truth.py" "$(kernel_core)" busy.log > busy.truth
        [ "$(head -n 1 busy.truth)" = 'missing 0 smaller 0' ] || { bad=$((bad + 1)); cat busy.truth; }
    done
    verdict "$kind: ${STORMS:-3} storms, killed at any moment: with a block missing" 0 $bad
    echo "     something was in hand in $odd, refused $refused"
    rm -f core core.*
}

# heap KIND NAME LEAST PROGRAM..
heap() {
    at_rest "$1" "$2" "${@:4}"
    damages "$1"
    [[ $1 != jemalloc* ]] || { interrupted "$1"; widened "$1"; }
    [ "$1" != mimalloc ] || hostile mimalloc 200
    [ "$1" != tcmalloc ] || hostile tcmalloc 20
    [ "$1" != jemalloc ] || hostile jemalloc 20000
    [ ! "$attaches" ] || planted "$1" "$3" "${@:4}"
    [ ! "$dumps_core" ] || storms_of "$1" "${@:4}"
    rm -f "$1.core"
}

# preloaded KIND NAME LEAST LIBRARY: a heap by a library of that name, if it is installed.
preloaded() {
    local library
    library=$(ls /usr/lib/*/"$4" 2> /dev/null | head -n 1)
    [ "$library" ] || { leave_out "$1's heap: no $4"; return; }
    heap "$1" "$2" "$3" env LD_PRELOAD="$library" ./heaps_storm
}
