#!/bin/bash
# Some minutes of AFL++ over leak_walk and leak_log, built with the address and undefined sanitizers, from files that
# are made here, and over the walk of each other heap, from words of its records. By hand, beside the gate. EACH
# seconds for each of the ways (60), or of those that ONLY names; KEEP names a folder in which what was found is kept,
# and taken up again. JEMALLOC_OLD names a library of jemalloc 5.2.1.
. "$(dirname "$0")/common.sh"
command -v afl-fuzz > /dev/null && command -v afl-clang-fast > /dev/null || { leave_out 'fuzzing: no afl++';
    complete=1; exit; }
export AFL_USE_ASAN=1 AFL_USE_UBSAN=1 AFL_QUIET=1 AFL_NO_UI=1 AFL_SKIP_CPUFREQ=1 AFL_AUTORESUME=1 \
    AFL_I_DONT_CARE_ABOUT_MISSING_CRASHES=1 AFL_NO_AFFINITY=1
export ASAN_OPTIONS=abort_on_error=1:symbolize=0:detect_leaks=0 UBSAN_OPTIONS=halt_on_error=1:abort_on_error=1
EACH=${EACH:-60} KEEP=${KEEP:-$work/kept}

section fuzzing
cp -r "$kit/Makefile" "$kit"/*.h "$kit/common" "$kit/log" "$kit/walk" "$kit/heaps" "$kit/dump" "$kit/library" .
make VERSION="$kit/../VERSION" CC=afl-clang-fast HARDENING= LDFLAGS= CFLAGS='-O1 -g -fno-sanitize-recover=undefined' \
    leak_walk leak_log > built 2>&1 || { cat built; exit 1; }
mkdir -p cores tables logs "$KEEP"
python3 "$kit/tests/hostile_cores.py" small cores/small
python3 "$kit/tests/hostile_cores.py" names cores/names
python3 "$kit/tests/hostile_cores.py" few tables/few few.core
"$kit/leak_walk" --quiet cores/small > logs/small

# fuzzed NAME FOLDER COMMAND..: no input that the fuzzer makes of those in the folder may end it by a signal, or take
# over two seconds.
fuzzed() {
    [[ " ${ONLY:-$1} " = *" $1 "* ]] || return 0
    afl-fuzz -V "$EACH" -t 2000 -m none -i "$2" -o "$KEEP/$1" -- "${@:3}" > "$1.said" 2>&1 || tail -n 20 "$1.said"
    verdict "$1: crashes and hangs" '0 0' \
        "$(find "$KEEP/$1" -path '*crashes/id*' | wc -l) $(find "$KEEP/$1" -path '*hangs/id*' | wc -l)"
    echo "     $(awk '$1 == "execs_done" || $1 == "corpus_count" || $1 == "bitmap_cvg" { print $1, $3 }' \
        "$KEEP/$1/default/fuzzer_stats" | xargs)"
}

# patched KIND PROGRAM..: the walk of the heap of a small storm at rest, of which words are changed.
patched() {
    be_ready "$1" "${@:2}" 2 60 600 1
    "$kit/leak_core" "$process" "$1.core" > "$1.dumped" 2>&1
    stop "$process"
    "$kit/leak_walk" --quiet "$1.core" > "$1.log" || exit 1
    python3 "$kit/tests/heaps_places.py" "$1" "$1.core" "$1.log" "$1.places" "$1.changes" || exit 1
    CORE=$PWD/$1.core PLACES=$PWD/$1.places fuzzed "heaps_$1" "$1.changes" ./heaps_patched @@
}

# patched_by KIND LIBRARY: the same, if a library of that name is installed.
patched_by() {
    local library
    library=$(ls /usr/lib/*/"$2" 2> /dev/null | head -n 1)
    [ "$library" ] || { leave_out "$1's heap: no $2"; return; }
    patched "$1" env LD_PRELOAD="$library" ./heaps_storm
}

fuzzed walk cores ./leak_walk @@
fuzzed walk_partial cores ./leak_walk --partial --quiet @@
fuzzed walk_after logs ./leak_walk --after @@ cores/small
fuzzed log tables ./leak_log few.core @@

build heaps_storm.c
afl-clang-fast -I. -O1 -g -fno-sanitize-recover=undefined -o heaps_patched "$kit/tests/heaps_patched.c" \
    $(ls objects/{common,walk,heaps}/*.o | grep -v /leak_walk.o) || exit 1
[ ! "${JEMALLOC_OLD-}" ] || patched jemalloc_old env LD_PRELOAD="$JEMALLOC_OLD" ./heaps_storm
patched_by jemalloc libjemalloc.so.2
patched_by mimalloc libmimalloc.so.2
patched_by tcmalloc libtcmalloc_minimal.so.4
if command -v musl-gcc > /dev/null; then
    musl-gcc -O1 -g -pthread "$kit/tests/heaps_storm.c" -o storm_musl && patched musl ./storm_musl
else
    leave_out "musl's heap: no musl-gcc"
fi
complete=1
