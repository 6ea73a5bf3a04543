#!/bin/bash
# Builds programs whose leaks are known, captures each, and compares leak_find's report with what was lost. Then
# stops at each instruction, threads, two dumps, crashes, and what keeps a program from being traced. `run.sh --quick`
# leaves out what takes long, `run.sh PART..` runs these parts alone. LEAK_FIND names leak_find. The last line is
# `capture: N passed, M failed`; if a test failed, a line `parts with failures: PART..` comes before it.
#
# Dumps are taken by leak_core, which must be allowed to stop a process of ours. If it is not (a container without
# SYS_PTRACE, kernel.yama.ptrace_scope above 0), the tests kill each program and take the kernel's core, and leave out
# what needs a process that goes on living. If the kernel writes no core into the working folder either, all that
# needs a dump is left out.
. "$(dirname "$0")/common.sh"
quick=
[ "${1-}" = --quick ] && quick=1 && shift
readonly chosen_parts=$*
failing=
for name in $chosen_parts; do
    grep -q "^ *part $name\b" "$kit/tests/run.sh" || { echo "run.sh: no part $name" >&2; exit 2; }
done

# part NAME [DUMPS]: runs NAME.sh, if it is wanted and the dumps can be had that it needs. All parts need what the first
# builds.
part() {
    if [ "$chosen_parts" ] && [[ " built $chosen_parts " != *" $1 "* ]]; then
        return
    elif [ $# = 1 ] || [ "$2" ]; then
        local failed_before=$failed
        . "$kit/tests/$1.sh"
        [ $failed = $failed_before ] || failing+=" $1"
    else
        leave_out "$1.sh, for want of dumps"
    fi
}

part built
part dump "$attaches"
part dead_stack "$attaches"
part kernel_words "$attaches"
part hostile "$attaches"
part known "$dumps"
part pages
part docs
part lines
part lines_symbols
part lines_options
part lines_builds "$attaches"
part lines_files "$attaches"
part lines_safe
part stops
part freed "$dumps"
part walk
part heaps "$dumps"
part union "$dumps"
part attach "$attaches"
part attach_kinds "$attaches"
part attach_lies "$attaches"
part what "$dumps"
part types
part frames "$dumps"
part tables "$dumps"
part limits "$attaches"
part ends
part cut
part execs
part kept_out "$dumps"
part allocators "$attaches"
part moments "$attaches"
part untraced
part report "$dumps"
part person "$dumps"
part grow "$attaches"
part remains "$attaches"
part lists
part answers
part install "$attaches"
if [ ! "$quick" ]; then
    part mtrace "$attaches"
    part servers "$attaches"
    part planted "$attaches"
fi
complete=1
