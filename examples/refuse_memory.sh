#!/bin/sh
# Makes each call that takes memory with its first allocation refused, then with its second, and so on until a run meets
# no refusal, and prints how often it answered what. Wants gcc and the program of crates/leak_refused_memory.
#
#   (cd crates/leak_refused_memory && rt run)      # once: proves and builds it
#   examples/refuse_memory.sh                      # ends with status 0 where no call answered anything but want of
#                                                  # memory, or the same
#
# 'same' counts answers like those with ample memory after a refusal: as where a thread could not be had, and its work
# was done by another. 'inputs' counts refusals that hit the making of a call's inputs.
set -u
here=$(cd "$(dirname "$0")" && pwd)
program=${1:-$here/../crates/leak_refused_memory/out/leak_refused_memory}
[ -x "$program" ] || {
    echo "no program at $program: build it with 'rt run' in crates/leak_refused_memory" >&2
    exit 2
}
work=$(mktemp -d) || exit 2
trap 'rm -rf "$work"' EXIT
gcc -O1 -shared -fPIC -Wall -Wextra -o "$work/refuse.so" "$here/refuse_memory.c" || exit 2

# Runs the call with each allocation refused in turn, and prints a row.
row() {
    wanting=0 same=0 inputs=0 other=0 number=1
    while :; do
        REFUSE=$number LD_PRELOAD="$work/refuse.so" "$program" "$1" >"$work/out" 2>"$work/err"
        status=$?
        grep -q '^refused$' "$work/err" || break
        case $status in
            0) same=$((same + 1)) ;;
            3) wanting=$((wanting + 1)) ;;
            5) inputs=$((inputs + 1)) ;;
            *) other=$((other + 1)); echo "$1: allocation $number: status $status: $(cat "$work/out")" >&2 ;;
        esac
        number=$((number + 1))
    done
    [ "$status" = 0 ] || other=$((other + 1))
    printf '%-22s %7d %6d %7d %6d\n' "$1" "$wanting" "$same" "$inputs" "$other"
    [ "$other" = 0 ] || faults=1
}

faults=0
printf '%-22s %7s %6s %7s %6s\n' call wanting same inputs other
"$program" | sed 's/: [^:]*$//' >"$work/calls"
while read -r call; do
    row "$call"
done <"$work/calls"
exit $faults
