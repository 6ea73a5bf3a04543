# Memory that a program keeps out of cores: leak_core has it, a core by gdb lacks it, and leak_log says so.
section memory that is kept out of cores
build kept_out.c
start ./kept_out
first=$process
if [ "$attaches" ]; then
    limited 120 "$kit/leak_dump" $process "$work/kept_out" 2> said
    search kept_out
    verdict 'by leak_core' "$(expected "$kit/tests/kept_out.c")" "$(named kept_out.report)"
    verdict 'nothing is said' 0 "$(cat said kept_out.log | grep -c 'kept out\|keeps')"
fi
# by_gdb NAME PID: dumps the process by gdb, and looks.
by_gdb() {
    limited 120 gdb -nx -batch -p "$2" -ex "generate-core-file $1.gdb" > gdb.out 2>&1
    limited 120 "$kit/leak_dump" --core "$1.gdb" "table.$2" "$1" 2> said
    search "$1"
    verdict "$1: the core says nothing" 'undumped 0' "$(grep '^undumped' "$1.report")"
    verdict "$1: what is missing is told" "$((8 * 4096))" \
        "$(sed -n 's/.* keeps \([0-9]*\) bytes out of cores .*/\1/p' said)"
    verdict "$1: by the log too" "= leak_log kept out $((8 * 4096))" "$(grep 'kept out' "$1.log")"
}
if [ "$attaches" ] && command -v gdb > /dev/null; then
    by_gdb gdb $first
    start ./kept_out child
    parent=$process
    until_true 60 pgrep -P $parent > child
    child=$(cat child)
    started[$child]=1
    settle "$child"
    by_gdb gdb_child "$child"
    stop "$parent" "$child"
else
    leave_out 'a core by gdb'
fi
stop $first
rm -f ./*.core ./*.gdb
