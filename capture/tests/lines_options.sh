# leak_lines: suppressions and exit statuses, two reports compared, stacks for flame graphs and JSON.
section suppressions, comparisons and other forms
python3 -B "$kit/tests/lines_options_test.py" 2> options_test.said
status=$?
verdict "the parts: $(tail -n 3 options_test.said | head -n 1)" 0 $status

# said WORD..: what leak_lines prints, and its status in a last line.
said() {
    "$kit/leak_lines" "$@" 2>&1
    echo "status $?"
}
# status_of WORD..: its status alone.
status_of() { said "$@" | tail -n 1; }
heads=$kit/tests/lines.heads
printf '%s\n' '# known' '' 'leak:^begin$' > known.supp
echo 'leak:/no/such/*gram$' > module.supp
echo 'race:begin' > race.supp
verdict 'a suppressed caller and its blocks are left out and counted' "$(sed -e '/begin/d' "$heads.wanted"
    printf '%s\n' 'suppressed 1 blocks 11 bytes' 'status 1')" "$(said --suppress known.supp "$heads")"
verdict 'nothing is left' 'suppressed 2 blocks 20 bytes status 0' \
    "$(said --suppress module.supp "$heads" | tail -n 2 | tr '\n' ' ' | sed 's/ $//')"
verdict 'of the first row what is left' 'and 0' "and $(said -n 1 --suppress known.supp "$heads" | grep -c '^and ')"
verdict 'another suppression' \
    "leak_lines: race.supp:1: 'race:begin' is no suppression of leaks: a line is leak:PATTERN, or # and a comment status 2" \
    "$(said --suppress race.supp "$heads" | tr '\n' ' ' | sed 's/ $//')"
verdict 'no such file' 'leak_lines: none.supp: No such file or directory status 2' \
    "$(said --suppress none.supp "$heads" | tr '\n' ' ' | sed 's/ $//')"

verdict 'without an option leaks have status 0' 'status 0' "$(status_of "$heads")"
for form in plain heads; do verdict "leaks, $form" 'status 1' "$(status_of --exit-code "$kit/tests/lines.$form")"; done
for form in holders in by grew; do verdict "no leaks, $form" 'status 0' \
    "$(status_of --exit-code "$kit/tests/lines.$form")"; done
verdict 'an empty report' 'leak_lines: this is no report: no line says what leaked status 2' \
    "$(said --exit-code /dev/null | tr '\n' ' ' | sed 's/ $//')"
head -n 7 "$heads" > broken.report
verdict 'a report that breaks off' \
    'leak_lines: the report is not whole: 2 blocks leaked, and its callers have 1 status 2' \
    "$(said --exit-code broken.report | tr '\n' ' ' | sed 's/ $//')"

sed -e 's/^leaked .*/leaked 5 bytes 78/' -e 's/^caller 1 11 1/caller 2 30 2/' \
    -e 's/^caller 1 9 0 .*/caller 3 48 3 x.so:[0x5]/' "$heads" > newer.report
printf '%s\n' 'then 2 blocks 20 bytes' 'now 5 blocks 78 bytes' 'callers: 1 new, 1 grown, 0 shrunk, 1 gone, 0 same' \
    'state  change  then  now  blocks  function      where' \
    '  new     +48     0   48       3  x.so+0x5      x.so:[0x5] (file not found)' \
    'grown     +19    11   30       2  begin+1c      /no/such/program:(begin+1c)[0x1234] (file not found)' \
    ' gone      -9     9    0       0  program+0x99  /no/such/program:[0x99] (file not found)' \
    '                                  ?             [0x7f0000001000]' 'status 0' > since.wanted
verdict 'two reports' "$(cat since.wanted)" "$(said --since "$heads" newer.report)"
verdict 'the newer one from standard input' "$(sed '$d' since.wanted)" \
    "$("$kit/leak_lines" --since "$heads" < newer.report)"
verdict 'the first change' 'and 2 more' "$(said -n 1 --since "$heads" newer.report | tail -n 2 | head -n 1)"
verdict 'what is new has status 1' 'status 1' "$(status_of --exit-code --since "$heads" newer.report)"
verdict 'what is as before has status 0' 'status 0' "$(status_of --exit-code --since "$heads" "$heads")"
verdict 'two kinds' 'leak_lines: --since compares two reports of leaks, or two of holders status 2' \
    "$(said --since "$heads" "$kit/tests/lines.holders" | tr '\n' ' ' | sed 's/ $//')"

# Two builds of one program: other addresses and another folder, the same functions and lines.
printf '%s\n' '#include <stdlib.h>' 'void *lose(void) { return calloc(1, 7); }' '#ifdef MORE' \
    'int other(int x) { return x * 3; }' '#endif' \
    'int main(void) { return !lose(); }' > built.c
mkdir -p one two && gcc -g -O0 built.c -o one/built && cp built.c two &&
    (cd two && gcc -g -O1 -fno-inline -DMORE built.c -o built) || exit 1
# lost FOLDER: a report of the call in the middle of lose.
lost() {
    nm -S "$1/built" | awk '$4 == "lose" { print $1, $2 }' | while read -r start size; do
        printf '%s\n' 'leaked 1 bytes 7' 'heads 1' \
            "$(printf 'caller 1 7 1 %s/built:[0x%x]' "$work/$1" $((0x$start + 0x$size / 2)))"
    done
}
lost one > one.report && lost two > two.report
verdict 'the builds differ' differ "$(cmp -s <(nm one/built) <(nm two/built) && echo same || echo differ)"
verdict 'another build has the same caller' 'callers: 0 new, 0 grown, 0 shrunk, 0 gone, 1 same' \
    "$("$kit/leak_lines" --since one.report two.report | grep '^callers')"

verdict 'folded: outermost first' "$(printf '%s\n' 'begin 11' '[0x7f0000001000];program+0x99 9' 'status 0')" \
    "$(said --folded "$heads")"
verdict 'folded, holders' "$(printf '%s\n' 'program+0x99;begin 1250' 'program+0x77 1150' 'size 24 58' 'status 0')" \
    "$(said --folded "$kit/tests/lines.holders")"
verdict 'folded, what grew' "$(printf '%s\n' 'b+0x2;a+0x1 2000' 'c+0x3 16' 'status 0')" \
    "$(said --folded "$kit/tests/lines.grew")"
verdict 'folded, by functions of a program' 'lose 7' "$("$kit/leak_lines" --folded one.report)"
verdict 'JSON has function, file and line' 'lose built.c 2 7' \
    "$("$kit/leak_lines" --json one.report | python3 -c 'import json, os, sys
caller = json.load(sys.stdin)["callers"][0]
frame = caller["frames"][0]
print(frame["function"], os.path.basename(frame["file"]), frame["line"], caller["bytes"])')"
verdict 'no report for a form' 'leak_lines: this is no report with callers status 2' \
    "$(said --json /dev/null | tr '\n' ' ' | sed 's/ $//')"

# What only suppressed blocks lead to, as leak_what tells it.
printf '%s\n' 'leaked 5 bytes 50' 'heads 2' 'caller 3 25 1 a:(other+1)[0x1]' 'caller 2 25 1 a:(known+1)[0x2]' \
    'leak 0x10 10 1 head a:(known+1)[0x2]' \
    'leak 0x20 15 2 held a:(known+1)[0x2]' 'leak 0x30 9 3 held a:(other+1)[0x1]' 'leak 0x40 8 4 head a:(other+1)[0x1]' \
    'leak 0x50 8 5 held a:(other+1)[0x1]' > held.report
printf 'part %s\n' '0x20 0x10' '0x30 0x10' '0x50 0x40' > held.what
echo 'leak:^known$' > held.supp
verdict 'held by a suppressed block: suppressed' '16 2 1 other+1 0x40 0x50 3 34 1' \
    "$(said --suppress held.supp --what held.what held.report |
    awk '/other.1  / { print $1, $2, $3, $4 } /^leak / { print $2 } /^suppressed/ { print $2, $4 } /^status/ {
        print $2 }' | tr '\n' ' ' | sed 's/ $//')"
verdict 'without leak_what: not' '25 3 2 25' \
    "$(said --suppress held.supp held.report | awk '/other.1  / { print $1, $2 } /^suppressed/ { print $2, $4 }' |
    tr '\n' ' ' | sed 's/ $//')"
printf 'part %s\n' '0x20 0x10' '0x30 0x10' '0x50 0x10' '0x40 0x10' >> held.what
verdict 'nothing is left: status 0' 'suppressed 5 blocks 50 bytes status 0' \
    "$(said --suppress held.supp --what held.what held.report | tail -n 2 | tr '\n' ' ' | sed 's/ $//')"
if [ "$dumps" ]; then
    build held.c
    start ./held
    dump $process held && find_leaks one held.core held.log > held.report
    stop $process
    "$kit/leak_what" held.core held.log held.report > held.what
    verdict 'of a program: all that is lost' "$(expected "$kit/tests/held.c")" "$(named held.report)"
    "$kit/leak_lines" --suppress held.supp --what held.what held.report > held.lines
    verdict 'of a program: what known() alone leads to is suppressed' '77 93 suppressed 3 blocks 135 bytes' \
        "$(named held.lines)$(tail -n 1 held.lines)"
    rm -f held.core held.kernel
fi

python3 -B "$kit/tests/lines_html_test.py" 2> html_test.said
status=$?
verdict "the page: $(tail -n 3 html_test.said | head -n 1)" 0 $status
unchecked='leak_lines: 1 files may be of another build than those that ran: no log tells (--log LOG)'
verdict 'a page is written, and nothing printed' "$(printf '%s\n' "$unchecked" 'status 0')" \
    "$(said --html one.html one.report)"
verdict 'the page has the function' 1 "$(grep -c '"lose"' one.html)"
verdict 'a page has the status too' 'status 1' "$(status_of --html=one.html --exit-code one.report)"
verdict 'no folder for the page' "$unchecked"' leak_lines: none/one.html: No such file or directory status 2' \
    "$(said --html none/one.html one.report | tr '\n' ' ' | sed 's/ $//')"
verdict 'a page of no report' 'leak_lines: this is no report with callers status 2' \
    "$(said --html none.html /dev/null | tr '\n' ' ' | sed 's/ $//')"
verdict 'then none is written' no "$([ -e none.html ] && echo yes || echo no)"
