# The documents, and what docs/USING.md shows of examples/growing.c: what grew, who retains it, and by which variable.
section documents
python3 -B "$kit/tests/docs_test.py" 2> docs_test.said
status=$?
verdict "the pages: $(tail -n 3 docs_test.said | head -n 1)" 0 $status

if [ "$attaches" ]; then
    gcc -g -O0 "$kit/../examples/growing.c" -o growing
    options='-d 8' wait=1 start ./growing
    dump $process "$work/g1"
    sleep 1
    dump --after "$work/g1" $process "$work/g2"
    stop $process
    find_leaks grow g1.log g2.log > grow.report
    skips='--skip-freed --skip-links --skip-slack'
    find_leaks holders g2.core g2.log --since g1.log $skips > holders.report
    # rows REPORT: of each row of the table the function that called malloc.
    rows() {
        limited 60 "$kit/leak_lines" --log g2.log "$1" 2> said |
            sed -n 's/^ *[+0-9].* \(reply\|question\|keep\)  .*growing.c:.*/\1/p' | tr '\n' ' '
    }
    verdict 'who grew: three places, the texts most' 'reply 3' "$(rows grow.report | awk '{ print $1, NF }')"
    verdict 'who retains it: the list nodes, all of it' 'keep 0' \
        "$(rows holders.report | cut -d ' ' -f 1) $(awk '$1 == "holder" { print $6; exit }' holders.report)"
    node=$(awk '$1 == "holder" { print $7; exit }' holders.report)
    root=$(find_leaks why g2.core g2.log "$node" $skips | awk '$1 == "root" { print $2 }')
    verdict 'by which variable' "place $root cache" "$(limited 60 "$kit/leak_what" --place g2.core "$root")"
else
    leave_out 'two dumps of a program that grows'
fi
