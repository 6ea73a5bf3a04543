#!/bin/sh
# Builds many_maps.c, lets it die under mtrace, takes the kernel's core of its 70,000 mappings, searches it, and
# compares the report with what the program's construction says: which sizes leaked, and that nothing else did.
#
#     examples/many_maps.sh LEAK_FIND
#
# LEAK_FIND is the installed program. Needs gcc, readelf and addr2line; 300 MB in the folder for temporary files
# ($TMPDIR); a kernel that writes a file named core (see /proc/sys/kernel/core_pattern), or else gdb's gcore, and
# permission to attach to a process of one's own; and vm.max_map_count of at least 70,100, or permission to raise it for
# the time of the run, as root has.
set -eu
leak_find=${1:?usage: many_maps.sh LEAK_FIND}
here=$(cd "$(dirname "$0")" && pwd)
work=$(mktemp -d)
limit=$(cat /proc/sys/vm/max_map_count)
process=
end() {
    test -z "$process" || kill -9 "$process" 2> /dev/null || true
    test "$(cat /proc/sys/vm/max_map_count)" = "$limit" || echo "$limit" > /proc/sys/vm/max_map_count
    rm -rf "$work"
}
trap end EXIT
if [ "$limit" -lt 70100 ]; then
    echo 80000 > /proc/sys/vm/max_map_count || { echo "vm.max_map_count is $limit: raise it to 80000" >&2; exit 1; }
fi
gcc -g -O0 -Wno-unused-result -o "$work/many_maps" "$here/many_maps.c"
cd "$work"
ulimit -c unlimited

# dump WORDS..: runs the program until it dies, and leaves the file core, by the kernel or by gcore.
dump() {
    rm -f core core.* many_maps.log
    MALLOC_TRACE=many_maps.log LD_PRELOAD=libc_malloc_debug.so.0 ./many_maps "$@" 2> /dev/null || true
    dead=$(ls core core.* 2> /dev/null | head -n 1)
    if [ -n "$dead" ]; then
        by="the kernel"
        test "$dead" = core || mv "$dead" core
        return
    fi
    by=gcore
    MALLOC_TRACE=many_maps.log LD_PRELOAD=libc_malloc_debug.so.0 ./many_maps "$@" waits 2> said &
    process=$!
    until grep -q ready said; do
        kill -0 "$process" || { cat said >&2; exit 1; }
        sleep 0.1
    done
    gcore -o core "$process" > gcore.out 2>&1
    mv "core.$process" core
    kill -9 "$process"
    wait "$process" 2> /dev/null || true
    process=
}

# check NAME SIZES: searches the core, shows the report, and compares its first line and the sizes of the leaked blocks.
check() {
    status=0
    "$leak_find" one core many_maps.log > report || status=$?
    echo "== $1, by $by: $(readelf -h core 2> /dev/null |
        sed -n 's/^ *Number of program headers: *//p') program headers"
    cat report
    awk '$1 == "leak" { print $3, $6 }' report | while read -r size caller; do
        offset=$(printf '%s\n' "$caller" | sed 's/.*\[\(0x[0-9a-f]*\)\]$/\1/')
        echo "$size bytes: $(basename "$(addr2line -e many_maps "$offset")")"
    done
    found=$(awk '$1 == "leak" { print $3 }' report | sort -n | tr '\n' ' ' | sed 's/ $//')
    if [ "$status" != 1 ] || [ "$found" != "$2" ] || [ "$(head -n 1 report)" != "blocks 3 bytes 407" ]; then
        echo "NOT as built: status $status, $(head -n 1 report), leaked sizes: $found" >&2
        exit 1
    fi
}

dump
check "a block held by the last of 70,000 pages" "45"
dump drops
check "the same block, held by nothing" "45 141"
echo "as built"
