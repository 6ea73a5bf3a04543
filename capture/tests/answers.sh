# leak_report gives no false answer: no block to search, an allocator that was not searched, memory that the core lacks,
# memory that can't be written.
section answers of leak_report
[ -x walk_leaks ] || build walk_leaks.c
[ -x walk_none ] || build walk_none.c
[ -x plain ] || build plain.c
export LEAK_FIND=$finder

# answered NAME WORD..: what leak_report prints goes to NAME.out, what it says to NAME.said, its status to `status`.
answered() {
    local name=$1
    shift
    limited 120 "$kit/leak_report" --raw "$@" > "$name.out" 2> "$name.said"
    status=$?
}

# remarks_of LOG: whose heap it has, what it lacks, and whether the program is static.
remarks_of() { sed -n 's/^= leak_log \(allocator\|lacks\|program\)/\1/p' "$1" | tr '\n' ' '; }

# A malloc of the program's own, which takes from a pool and gives nothing back.
cat > own_malloc.c << 'END'
#include <poll.h>
#include <stddef.h>
static char pool[1 << 20] __attribute__((aligned(16)));
static size_t used;
void *malloc(size_t size) { void *block = pool + used; used += (size + 15) & ~(size_t)15; return block; }
void free(void *block) { (void)block; }
int main(void) { for (int i = 0; i < 9; i++) *(volatile char *)malloc(100) = 7; return poll(NULL, 0, -1); }
END
gcc -O1 own_malloc.c -o own_malloc
gcc -O1 -shared -fPIC -Dmain=no_main own_malloc.c -o libown.so
# A static program of glibc has a pointer to a block in memory that can't be written. This one loses one block besides,
# of 61 bytes, for which malloc gives 72.
cat > static_one.c << 'END'
#include "lose.h"
static void *volatile held;
int main(void)
{
    LOSE(malloc(61));
    held = malloc(100);
    rest();
}
END
gcc -O1 -static -I "$kit/tests" static_one.c -o static_one 2> static.cc ||
    leave_out 'a static program: no static C library'

if [ "$attaches" ]; then
    unprepared ./walk_none
    answered none $process
    verdict 'malloc was never called: the status, and it is said' '0 1 leaked 0 bytes 0' \
        "$status $(grep -c '^leak_walk: malloc was never called: there is no block$' none.said) $(grep '^leaked' \
        none.out)"
    verdict 'nothing else fails' 0 "$(grep -c failed none.said)"
    stop $process
    start ./walk_none
    answered traced_none $process
    verdict 'under leak_trace too few answers' '2 1 ' \
        "$status $(grep -c '^leak_report: the table has no live block' traced_none.said) $(cat traced_none.out)"
    stop $process

    unprepared ./own_malloc
    answered own $process
    verdict 'a malloc of its own' '2 1 ' \
        "$status $(grep -c "never called, and $work/own_malloc has or may have one of its own" own.said) $(cat own.out)"
    stop $process
    start ./own_malloc
    answered traced_own $process
    verdict 'under leak_trace: what to do' '2 1 ' \
        "$status $(grep -c 'a malloc of its own, which passes leak_trace by: build it without' \
        traced_own.said) $(cat traced_own.out)"
    stop $process
    unprepared env LD_PRELOAD="$work/libown.so" ./walk_none
    answered own_library $process
    verdict 'a malloc of a library' '2 1 ' \
        "$status $(grep -c "never called, and $work/libown.so has or may have" own_library.said) $(cat own_library.out)"
    stop $process

    # The files that it has mapped may be others by now: of another build, or what waits for a reader.
    echo 'int nothing;' > nothing.c && gcc -shared -fPIC nothing.c -o libnothing.so
    cp libnothing.so libmapped.so
    unprepared env LD_PRELOAD="$work/libmapped.so" ./walk_none
    "$kit/leak_core" $process mapped.core 2> mapped.said
    verdict 'a library without a malloc' '0 1' "$("$kit/leak_walk" mapped.core 2> mapped.said > mapped.log;
        echo $?) $(grep -c 'never called: there is no block$' mapped.said)"
    gcc -shared -fPIC -DANOTHER=1 -Wl,--build-id=0x1234 nothing.c -o libother.so && mv libother.so libmapped.so
    verdict 'another build of it, of which nobody knows' "2 1" \
        "$("$kit/leak_walk" mapped.core 2> mapped.said > mapped.log;
        echo $?) $(grep -c "$work/libmapped.so has or may have one of its own" mapped.said)"
    rm libmapped.so && mkfifo libmapped.so
    (echo waits > libmapped.so) & writer=$!
    started[$writer]=1
    sleep 0.2
    verdict 'a FIFO in its place' "2 1 waits" \
        "$("$kit/leak_walk" mapped.core 2> mapped.said > mapped.log;
        echo $?) $(grep -c "$work/libmapped.so has or may have one of its own" mapped.said) $(sleep 0.2;
        kill -0 $writer && echo waits)"
    stop $process $writer
    rm -f mapped.core libmapped.so

    cp libnothing.so libjemalloc.so.2
    cat > holds.c << 'END'
#include <stdlib.h>
#include <unistd.h>
static void *volatile held;
int main(void) { held = malloc(100); return (int)read(0, held, 1); }
END
    gcc -O1 holds.c -o holds
    unprepared env LD_PRELOAD="$work/libjemalloc.so.2" ./holds
    answered lacks $process
    verdict 'blocks of another allocator are not in the log, and nothing is lost' '2 1 ' \
        "$status $(grep -c \
        '^leak_report: nothing is lost in glibc.s heap, but most blocks may be those of libjemalloc.so.2' \
        lacks.said) $(cat lacks.out)"
    verdict 'the remarks of the log' 'allocator glibc lacks libjemalloc.so.2 ' \
        "$("$kit/leak_dump" $process lacks 2> said; remarks_of lacks.log)"
    stop $process
    if [ -x static_one ]; then
        unprepared ./static_one
        answered static --list $process
        verdict 'a static program: only what it lost' '1 72 ' "$status $(named static.out)"
        verdict 'by the option that is told' 1 \
            "$(grep -c '^leak_report: leak_find one --skip-freed --skip-links --all-memory$' static.said)"
        "$kit/leak_dump" $process static 2> said
        verdict 'leak_dump tells the same' 1 \
            "$(grep -c '^leak_dump: now search: leak_find one --skip-freed --skip-links --all-memory static.core static.log$' said)"
        verdict 'the remarks of its log' 'allocator glibc program static ' "$(remarks_of static.log)"
        stop $process
    fi
    start ./plain
    mkdir -p no_tools && printf '#!/bin/sh\nexit 127\n' > no_tools/readelf && chmod +x no_tools/readelf
    PATH=$PWD/no_tools:$PATH "$kit/leak_dump" $process glibc 2> said
    verdict 'the remark of a table' 'allocator glibc ' "$(remarks_of glibc.log)"
    stop $process
fi

section memory that a core lacks
cat > shares.c << 'END'
#include <fcntl.h>
#include <poll.h>
#include <stdlib.h>
#include <string.h>
#include <sys/mman.h>
#include <unistd.h>
static void *volatile held;
int main(int count, char **words)
{
    int file = open(words[1], O_RDWR | O_CREAT, 0600);

    if (count != 2 || ftruncate(file, 40960))
        return 1;
    memset(mmap(NULL, 40960, PROT_READ | PROT_WRITE, MAP_SHARED, file, 0), 7, 40960);
    held = malloc(100);
    return poll(NULL, 0, -1);
}
END
gcc -O1 shares.c -o shares
if [ "$attaches" ]; then
    shared=$(printf 'a\033[2Jb')
    unprepared ./shares "$work/$shared"
    answered shares $process
    verdict 'which file, how much and why' \
        "leak_walk: undumped: 40960 bytes of $work/a\\x1b[2Jb: shared with the file, or it can't be read" \
        "$(grep undumped: shares.said)"
    verdict 'as many bytes as the report counts' 'undumped 40960' "$(grep '^undumped' shares.out)"
    stop $process
    start ./shares "$work/$shared"
    answered shares $process
    verdict 'by a table' \
        "leak_log: undumped: 40960 bytes of $work/a\\x1b[2Jb: shared with the file, or it can't be read" \
        "$(grep undumped: shares.said)"
    stop $process
fi

section programs that leak_trace runs untraced
if command -v musl-gcc > /dev/null && musl-gcc "$kit/tests/hello.c" -o hello_musl 2> musl.cc; then
    "$kit/leak_trace" ./hello_musl > hello.out 2> said
    verdict 'one with musl' "0 hello leak_trace: ./hello_musl has musl's C library: it is not traced" \
        "$? $(cat hello.out said | paste -s -d ' ')"
    printf '#! %s/hello_musl -x\n' "$work" > by_musl && chmod +x by_musl
    verdict 'a script of it' 'hello 1' \
        "$("$kit/leak_trace" ./by_musl 2> said) $(grep -c '^leak_trace: ./by_musl has musl' said)"
else
    leave_out "a program with musl's C library: no musl-gcc"
fi
# (a 32-bit compiler may be missing: the head of a file is enough)
printf '\177ELF\1\1\1\0' > narrow && head -c 100 /dev/zero >> narrow && chmod +x narrow
"$kit/leak_trace" ./narrow > said 2>&1
verdict 'a program of 32 bits' "leak_trace: ./narrow is a program of 32 bits: it can't be dumped, and is not traced" \
    "$(head -n 1 said)"
if [ "$(id -u)" = 0 ] && [ "$attaches" ]; then
    cat > hides.c << 'END'
#include <sys/prctl.h>
#include <unistd.h>
int main(void) { char byte; prctl(PR_SET_DUMPABLE, 0); return (int)read(0, &byte, 1); }
END
    gcc hides.c -o hides
    mkdir -p shown && cp -r "$kit"/leak_dump "$kit"/leak_core "$kit/scripts" hides shown && mkdir -p shown/to &&
        chmod 777 shown/to && chmod 755 . shown
    unprepared setpriv --reuid=65534 --regid=65534 --clear-groups shown/hides
    (cd shown/to && limited 60 setpriv --reuid=65534 --regid=65534 --clear-groups ../leak_dump $process \
        d1 2> "$work/said")
    verdict 'a process that is not dumpable' \
        "leak_core: process $process keeps itself from being traced (prctl, PR_SET_DUMPABLE), or was started as a setuid program: run this as root" "$(cat said)"
    stop $process
else
    leave_out 'a process that is not dumpable: as root it is'
fi
rm -rf shown no_tools
unset LEAK_FIND
