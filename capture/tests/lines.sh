# leak_lines: reports that lie here, reports that are made up, a stripped library, and programs that are built here.
section reports with the lines of their callers
for form in plain heads holders in by grew; do
    verdict "a report, $form" "$(cat "$kit/tests/lines.$form.wanted")" "$("$kit/leak_lines" "$kit/tests/lines.$form")"
done
verdict 'from standard input' "$(cat "$kit/tests/lines.plain.wanted")" "$("$kit/leak_lines" < "$kit/tests/lines.plain")"
python3 -B "$kit/tests/lines_test.py" 2> lines_test.said
status=$?
verdict "the parts: $(tail -n 3 lines_test.said | head -n 1)" 0 $status

# first_rows FORM N: what the table of a report ends with.
first_rows() { "$kit/leak_lines" -n "$2" "$kit/tests/lines.$1" | grep -A 9 '^ *[a-z].* function ' | grep -v '^leak '; }
verdict 'the first row of callers' "$(printf '%s\n' 'bytes blocks heads  function  where' \
    '   11      1     1  begin+1c  /no/such/program:(begin+1c)[0x1234] (file not found)' \
    'and 1 more: 9 bytes, 1 blocks, 0 heads')" "$(first_rows heads 1)"
verdict 'the list of blocks stays whole' 2 "$("$kit/leak_lines" -n 1 "$kit/tests/lines.heads" | grep -c '^leak ')"
verdict 'all callers' "$(cat "$kit/tests/lines.heads.wanted")" "$("$kit/leak_lines" -n 2 "$kit/tests/lines.heads")"
verdict 'the first holder' 'and 2 more, none holds more than 1.15 kB: 208 B in 6 own blocks' \
    "$(first_rows holders 1 | tail -n 1)"
verdict 'the first that is held' 'and 1 more: 24 B in 1 blocks' "$(first_rows in 1 | tail -n 1)"
verdict 'the first of those that hold' 'and 1 more, none holds more than 64 B' "$(first_rows by 1 | tail -n 1)"
verdict 'the first that grew' 'and 2 more: -32 B, 3 blocks, 1 new' "$(first_rows grew 1 | tail -n 1)"

# refused STATUS WORD..: what leak_lines says, with its status and how much it prints.
refused() {
    "$kit/leak_lines" "$@" > refused.out 2> refused.said
    echo "$? $(wc -c < refused.out) $(cat refused.said)"
}
usage='usage: leak_lines [OPTION..] [REPORT] | leak_lines [OPTION..] --since OLD [NEW]'
for words in '-n' '-n 0' '-n x' '-n -1' '-x' 'one two'; do
    verdict "refused: $words" "2 0 $usage" "$(refused $words)"
done
verdict 'no such report' '2 0 leak_lines: none.report: No such file or directory' "$(refused none.report)"

# Names that a shell, printf, or a program that reads options would take for something else.
sh -c 'echo ran > hostile.ran' && rm hostile.ran
printf '%s\n' 'marked 4 bytes 96' 'holder 1 40 1 40 0 0x10 $(echo ran > hostile.ran) "%s\n" '"'"';`x` \t:(f+1)[0x9]' \
    'holder 1 30 1 30 0 0x20 -o@hostile.ran:[0x1]' 'holder 1 20 1 20 0 0x30 @hostile.ran:[0x1]' \
    'holder 1 6 1 6 0 0x40 ' > hostile.report
printf '%s\n' 'marked 4 bytes 96' 'held   share  blocks   own  within  address  function            where' \
    '40 B  41.7 %       1  40 B       0     0x10  f+1                 $(echo ran > hostile.ran) "%s\\n" '"'"';`x` \\t:(f+1)[0x9] (file not found)' \
    '30 B  31.3 %       1  30 B       0     0x20  -o@hostile.ran+0x1  -o@hostile.ran:[0x1] (file not found)' \
    '20 B  20.8 %       1  20 B       0     0x30  @hostile.ran+0x1    @hostile.ran:[0x1] (file not found)' \
    ' 6 B   6.3 %       1   6 B       0     0x40  ?                   ' > hostile.wanted
verdict 'hostile names are only text' "$(cat hostile.wanted)" "$("$kit/leak_lines" hostile.report)"
verdict 'nothing of them ran' no "$([ -e hostile.ran ] && echo yes || echo no)"

# Of a log by leak_walk: the word in an object is 16 bytes after the start of its class's table.
build walk_types.cc
echo 'heads 3' > classes.report
nm walk_types | awk '/_ZTVN6shapes/ { print $1 }' | while read -r table; do
    printf 'caller 1 40 1 %s:[0x%x]\n' "$work/walk_types" $((0x$table + 16))
done >> classes.report
echo 'caller 1 24 1 size 24' >> classes.report
"$kit/leak_lines" classes.report > classes.lines
verdict 'classes of objects' '? shapes::many<long> shapes::square' \
    "$(awk 'NR > 2 { print $4 }' classes.lines | LC_ALL=C sort | tr '\n' ' ' | sed 's/ $//')"
verdict 'a size stays as it is' 1 "$(grep -c ' size 24$' classes.lines)"

# A stripped library has the symbols of its exported functions alone. addr2line takes the nearest before for what is
# hidden.
section names in a stripped library
gcc -O1 -fPIC -shared "$kit/tests/lines_library.c" -o whole.so && strip -o stripped.so whole.so || exit 1
# asks FILE: a report with a return address in the middle of each function of the library.
asks() {
    nm -S whole.so | awk '$4 ~ /_function$/ { print $1, $2 }' | sort | while read -r start size; do
        printf 'caller 1 1 %s:[0x%x]\n' "$work/$1" $((0x$start + 0x$size / 2))
    done
}
# hidden NAME: as it is told if no symbol has the address.
hidden() { printf 'stripped.so+0x%x\n' \
    $((0x$(nm -S whole.so | awk -v name="$1" '$4 == name { print $1, "+ 0x" $2, "/ 2" }' | sed 's/ +/ +/'))); }
asks whole.so | "$kit/leak_lines" | awk 'NR > 1 { print $3 }' | tr '\n' ' ' > whole.names
asks stripped.so | "$kit/leak_lines" | awk 'NR > 1 { print $3 }' | tr '\n' ' ' > stripped.names
verdict 'with all symbols' 'first_function hidden_function last_function lost_function ' \
    "$(tr ' ' '\n' < whole.names | sort | grep . | tr '\n' ' ')"
verdict 'stripped: what is exported has its name, what is hidden its place' \
    "$(for name in $(cat whole.names); do case $name in first* | last*) echo $name ;; *) hidden $name ;; esac; done | tr '\n' ' ')" "$(cat stripped.names)"
verdict 'addr2line by itself names a wrong function' yes \
    "$(addr2line -f -e stripped.so "0x$(nm whole.so | awk '/hidden_function/ { print $1 }')" |
    grep -q '^first_function' && echo yes)"

[ "$dumps" ] || return 0

build plain.c
start ./plain
look plain.c
"$kit/leak_lines" plain.report > lines
verdict 'each line of plain.c that loses a block' \
    "$(grep -n 'LOSE(\|loses' "$kit/tests/plain.c" | grep -v strdup | cut -d : -f 1 | tr '\n' ' ')" \
    "$(sed -n 's/.*plain\.c:\([0-9]*\)$/\1/p' lines | sort -nu |
    grep -vx "$(grep -n strdup "$kit/tests/plain.c" | cut -d : -f 1)" | tr '\n' ' ')"
verdict 'the function' work "$(awk '/plain\.c:/ { print $(NF - 1) }' lines | sort -u)"
verdict 'a place in each line of the table' 0 "$(grep -c '\^ *$' lines)"

# The callers of a real program's log in rows of holders: the same functions and lines as in a table of callers.
options='-d 8' start ./plain
dump $process holders
stop $process
sed -n 's/^@ \(.*\) + 0x[0-9a-f]* 0x[0-9a-f]*$/\1/p' holders.log | sort -u > holders.texts
verdict 'callers in the log' yes "$([ "$(grep -c ' < ' holders.texts)" -gt 5 ] && echo yes)"
{ echo 'marked 2 bytes 8'; sed 's/^/holder 2 4 1 3 0 0x10 /' holders.texts; } > holders.report
sed 's/^/caller 2 4 /' holders.texts > callers.report
"$kit/leak_lines" holders.report | sed '1,2d; s/^ *4 B  50\.0 %  *2  *3 B  *0  *0x10 *//; s/^ *//; s/  */ /' \
    > holders.lines
"$kit/leak_lines" callers.report | sed '1d; s/^ *4 *2 *//; s/^ *//; s/  */ /' > callers.lines
verdict 'a row of holders for each caller' "$(wc -l < holders.texts)" \
    "$("$kit/leak_lines" holders.report | grep -c '^ *4 B  50\.0 % ')"
verdict 'with functions and lines as of callers' "$(cat callers.lines)" "$(cat holders.lines)"
rm -f holders.core holders.kernel
