# leak_what: what lost blocks are, by programs whose blocks are known; files that are no longer what the process had
# mapped; cores, logs and reports that are damaged; time and memory; and what leak_lines and leak_report show of it.
section what lost blocks are
build what_blocks.c
build what_many.c
[ -x walk_leaks ] || build walk_leaks.c
tells=$kit/leak_what

# unprepared_dump NAME PROGRAM..: runs it untraced and dumps, walks and searches it, and leaves it running.
unprepared_dump() {
    local name=$1
    shift
    unprepared "$@"
    if [ "$attaches" ]; then
        limited 60 "$kit/leak_core" $process "$name.core" 2> "$name.dumped"
    else
        rm -f core core.*
        { kill -ABRT $process && wait $process; } 2> /dev/null
        mv "$(kernel_core)" "$name.core"
    fi
    limited 60 "$kit/leak_walk" --quiet "$name.core" > "$name.log"
    find_leaks one --skip-freed --skip-links "$name.core" "$name.log" > "$name.report"
}
# told NAME: what is said of NAME's blocks, each with its size in place of addresses.
told() {
    limited 60 "$tells" "$1.core" "$1.log" "$1.report" > "$1.what" || echo "status $?"
    awk 'NR == FNR { if ($1 == "leak") size[$2] = $3; next }
        { text = $1 == "part" ? "" : substr($0, length($1 " " $2) + 1); if ($1 == "like") sub(/ [^ ]*/, "", text);
        print size[$2], $1 text }' \
        "$1.report" "$1.what" | LC_ALL=C sort
}
wanted_of() { sed -n 's/^ \* what //p' "$kit/tests/$1" | LC_ALL=C sort; }
sizes_with() { grep -E " ($1)( |\$)" "$2" | cut -d ' ' -f 1 | sort -nu | tr '\n' ' '; }

if [ "$dumps" ]; then
    unprepared_dump facts ./what_blocks
    stop $process
    told facts > facts.told
    verdict 'each block is told by its content' "$(wanted_of what_blocks.c)" "$(cat facts.told)"
    verdict 'none but the one of all conditions is likened' '392 ' "$(sizes_with like facts.told)"
    held=$(sed -n 's/^like [^ ]* \([^ ]*\) .*/\1/p' facts.what)
    verdict 'what it looks like is held by a variable' 1 \
        "$(find_leaks why facts.core facts.log "$held" | grep -c '^root 0x')"
    head=$(awk '$1 == "holds" && $3 == 2 { print $2 }' facts.what)
    verdict 'one block alone' "$(grep " $head " facts.what)" \
        "$(limited 60 "$tells" facts.core facts.log facts.report "$head" | grep -v '^part')"
    verdict 'a held block has no likeness' "word $held +0x8 on_read" \
        "$(limited 60 "$tells" facts.core facts.log facts.report "$held")"
    find_leaks two facts.core facts.log facts.core facts.log --skip-freed > twice.report
    verdict 'of a report of two cores' "$(cut -d ' ' -f 1 facts.what | sort | uniq -c)" \
        "$(limited 60 "$tells" facts.core facts.log twice.report | cut -d ' ' -f 1 | sort | uniq -c)"

    stack=$(find_leaks why facts.core facts.log "$(awk '$NF == "0x1b8" { print $(NF - 1); exit }' facts.log)" |
        sed -n 's/^root \(0x[^ ]*\) .*/\1/p')
    variable=$(find_leaks why facts.core facts.log "$held" | sed -n 's/^root \(0x[^ ]*\) .*/\1/p')
    limited 60 "$tells" --place facts.core "$variable" "${stack:-0}" "$held" 0x10 > places.out
    verdict 'places: a variable, a stack, other memory, and none' 'conns stack memory memory that' \
        "$(awk '{ printf "%s%s", sep, $3; sep = " " } END { print " " $4 }' places.out)"
    verdict 'a place on the stack of the only thread' 1 \
        "$(grep -c "^place $stack stack of thread 1, 0x[0-9a-f]* above its stack pointer\$" places.out)"

    strip -o what_stripped what_blocks
    unprepared_dump stripped ./what_stripped
    stop $process
    told stripped > stripped.told
    verdict 'stripped: none of its symbols is named' '' "$(grep -E 'on_done|on_read|table|conns' stripped.told)"
    verdict 'stripped: texts, literals and FILE stay' "$(grep -E ' (text|literal|stdio) ' facts.told)" \
        "$(grep -E ' (text|literal|stdio) ' stripped.told)"
    verdict 'stripped: the one of all conditions is likened' '392 ' "$(sizes_with like stripped.told)"

    mkdir interpreter && cp what_blocks interpreter/python3 # (not in the folder that later tests have in PATH)
    unprepared_dump interpreted interpreter/python3
    stop $process
    told interpreted > interpreted.told
    verdict 'what variables of Python lead to is not compared with' "$(grep -v ' like ' facts.told)" "$(cat interpreted.told)"

    gcc -O1 -g -no-pie "$kit/tests/what_blocks.c" -o what_fixed
    unprepared_dump fixed ./what_fixed
    stop $process
    told fixed > fixed.told
    verdict 'not position independent: only the first bytes of symbols are named' \
        "$(wanted_of what_blocks.c | grep -vE 'table\+|literal')" "$(cat fixed.told)"
fi

section files that are no longer what they were
# changed NAME COMMAND..: what is told where the command changed the program's file after it was started.
changed() {
    local name=$1
    shift
    cp what_blocks what_changed
    unprepared_dump changed ./what_changed
    stop $process
    "$@"
    told changed > changed.told
    verdict "$name: no symbol and no literal of it" '' "$(grep -E 'on_done|on_read|table|conns|literal' changed.told)"
    verdict "$name: texts and FILE stay" "$(grep -E ' (text|stdio)( |$)' facts.told)" \
        "$(grep -E ' (text|stdio)( |$)' changed.told)"
    rm -rf what_changed
}
rebuilt() { gcc -O2 -g "$kit/tests/what_blocks.c" -o what_changed; }
replaced_by_pipe() { rm what_changed && mkfifo what_changed; }
replaced_by_folder() { rm what_changed && mkdir what_changed; }
replaced_by_device() { rm what_changed && ln -s /dev/zero what_changed; }
cut_off() { rm what_changed && head -c 9000 what_blocks > what_changed; }
# The file is whole, but each byte after its first page that tells of symbols is another.
garbled() { rm what_changed && python3 -c 'import sys
data = bytearray(open("what_blocks", "rb").read())
for place in range(0x2800, len(data)): data[place] ^= 0xa5
open("what_changed", "wb").write(data)'; }
if [ "$dumps" ]; then
    changed 'another build' rebuilt
    changed 'a pipe' replaced_by_pipe
    changed 'a folder' replaced_by_folder
    changed 'a device' replaced_by_device
    changed 'a file that is cut off' cut_off
    changed 'no file' rm what_changed
    changed 'a file that is damaged' garbled
fi

section what is damaged
# refused WORD..: status and message of leak_what, and whether it prints anything.
refused_what() {
    limited 60 "$tells" "$@" > refused.out 2> refused.said
    echo "$? $(wc -c < refused.out) $(head -n 1 refused.said)"
}
verdict 'no words' '2 0 usage: leak_what [--root DIR].. CORE LOG REPORT [ADDRESS..] |' "$(refused_what)"
verdict 'no such core' '2 0 leak_what: absent.core: No such file or directory' \
    "$(refused_what absent.core absent.log absent.report)"
verdict 'no core' '2 0 leak_what: '"$kit"'/README.md: not a core file of x86-64' \
    "$(refused_what "$kit/README.md" absent.log absent.report)"
if [ "$dumps" ]; then
    : > empty.log
    printf 'leak 0x1000 24 1 head ?\n' > other.report
    verdict 'no blocks' '2 0 leak_what: empty.log: no log with live blocks' \
        "$(refused_what facts.core empty.log facts.report)"
    verdict 'a report of another log' \
        '2 0 leak_what: other.report: the block at 0x1000 is not in facts.log: report and log don'"'"'t belong together' \
        "$(refused_what facts.core facts.log other.report)"
    verdict 'no address' '2 0 leak_what: here: not an address' "$(refused_what facts.core facts.log facts.report here)"
    verdict 'no block' '2 0 leak_what: 0x10: no live block has this address' \
        "$(refused_what facts.core facts.log facts.report 0x10)"
    limited 300 python3 "$kit/tests/what_damage.py" "$tells" facts.core facts.log facts.report > damage.said 2>&1
    verdict 'damaged cores, logs and reports: each has an answer or is refused' 'status 0 or 2' \
        "$(tail -n 1 damage.said)"
fi

section containers of C++
# contained NAME: of each lost block of a container its size, the container, and the size of the block that has that.
contained() {
    limited 60 "$tells" "$1.core" "$1.log" "$1.report" > "$1.what" || echo "status $?"
    awk 'NR == FNR { if ($1 == "leak") size[$2] = $3; next }
        $1 == "container" { print size[$2], $1, $3, $4, size[$5], $6 }' "$1.report" "$1.what" | LC_ALL=C sort -u
}
if [ "$dumps" ]; then
    build what_cxx.cc
    unprepared_dump containers ./what_cxx
    stop $process
    verdict 'whose nodes, elements and texts blocks are' "$(wanted_of what_cxx.cc)" "$(contained containers)"
    verdict 'all nodes of each' 'buckets 1, hash 6, string 1, tree 3' \
        "$(awk '$1 == "container" { count[$3]++ } END { for (it in count) print it, count[it] }' containers.what |
        LC_ALL=C sort | paste -s -d , | sed 's/,/, /g')"
    limited 300 python3 "$kit/tests/what_damage.py" "$tells" containers.core containers.log \
        containers.report > damage.said 2>&1
    verdict 'damaged ones: each has an answer or is refused' 'status 0 or 2' "$(tail -n 1 damage.said)"
    g++ -O1 -g -static-libstdc++ -static-libgcc "$kit/tests/what_cxx.cc" -o what_cxx
    unprepared_dump containers ./what_cxx
    stop $process
    verdict 'without the library that lays them out so nothing is told' '' "$(contained containers)"
    rm containers.core
    build what_vtables.cc
    unprepared_dump vtables ./what_vtables
    stop $process
    verdict 'of a word into the table of a class only what an object can have' "$(wanted_of what_vtables.cc)" \
        "$(told vtables)"
fi

section blocks that have a name of themselves
if [ "$dumps" ]; then
    echo 'int is_talloc(void) { return 1; }' | gcc -shared -fPIC -x c - -o libtalloc.so.2 || exit 1
    build what_objects.c -Wl,-rpath,"$work" "$work/libtalloc.so.2"
    unprepared_dump objects ./what_objects
    stop $process
    told objects | grep ' object ' > objects.told
    verdict 'of talloc, and of types of Python' "$(wanted_of what_objects.c)" "$(cat objects.told)"
    limited 300 python3 "$kit/tests/what_damage.py" "$tells" objects.core objects.log objects.report > damage.said 2>&1
    verdict 'damaged ones: each has an answer or is refused' 'status 0 or 2' "$(tail -n 1 damage.said)"
    strip what_objects && unprepared_dump objects ./what_objects
    stop $process
    told objects | grep ' object ' > objects.told
    verdict 'without the type of types none is of Python' "$(wanted_of what_objects.c | grep -v python)" \
        "$(cat objects.told)"

    echo 'static void **names[3]; void set_names(void **first, void **second) { names[0] = second, names[2] = first; }' |
        gcc -shared -fPIC -x c - -o libglib-2.0.so.0 &&
        echo 'int is_gobject(void) { return 1; }' | gcc -shared -fPIC -x c - -o libgobject-2.0.so.0 || exit 1
    build what_gobjects.c -Wl,-rpath,"$work" "$work/libglib-2.0.so.0" "$work/libgobject-2.0.so.0"
    unprepared_dump objects ./what_gobjects
    stop $process
    told objects | grep ' object ' > objects.told
    verdict 'of types of GLib' "$(wanted_of what_gobjects.c)" "$(cat objects.told)"
    limited 300 python3 "$kit/tests/what_damage.py" "$tells" objects.core objects.log objects.report > damage.said 2>&1
    verdict 'damaged ones: each has an answer or is refused' 'status 0 or 2' "$(tail -n 1 damage.said)"
    unprepared_dump objects ./what_gobjects two
    stop $process
    verdict 'two tables of names: none is of GLib' '' "$(told objects | grep ' object ')"
    rm objects.core
fi

section what several lost blocks lead to
cat > shared_blocks.c << 'END'
#include "lose.h"
/* Two lost blocks of 200 and 300 bytes lead to one of 400, and that to one of 500; one of 600 leads to the latter too. */
int main(void)
{
    void **last = calloc(1, 500), **shared = calloc(1, 400), **first = calloc(1, 200), **second = calloc(1, 300), **other = calloc(1, 600);
    shared[3] = other[4] = last, first[5] = second[6] = shared;
    last = shared = first = second = other = NULL;
    LOSE(malloc(61));
    rest();
}
END
if [ "$dumps" ]; then
    gcc -O0 -g -I "$kit/tests" shared_blocks.c -o shared_blocks && unprepared_dump shared ./shared_blocks
    stop $process
    "$tells" shared.core shared.log shared.report > shared.what
    verdict 'which lead to which' '400 by 200, 400 by 300, 500 by 400, 500 by 600' "$(awk '
        FILENAME == "shared.report" { if ($1 == "leak") size[$2] = int($3 / 100) * 100; next }
        $1 == "led" { print size[$2] " by " size[$3] }' shared.report shared.what | sort | paste -s -d , |
        sed 's/,/, /g')"
fi
cat > several.report << 'END'
leaked 6 bytes 210
heads 3
caller 1 10 1 /x:(first+1)[0x1]
caller 1 20 1 /x:(second+1)[0x2]
caller 1 30 1 /x:(other+1)[0x3]
caller 2 90 0 /x:(shared+1)[0x4]
caller 1 60 0 /x:(last+1)[0x5]
leak 0x1000 10 1 head /x:(first+1)[0x1]
leak 0x2000 20 2 head /x:(second+1)[0x2]
leak 0x3000 30 3 head /x:(other+1)[0x3]
leak 0x4000 40 4 held /x:(shared+1)[0x4]
leak 0x4100 50 5 held /x:(shared+1)[0x4]
leak 0x5000 60 6 held /x:(last+1)[0x5]
END
printf '%s\n' 'led 0x4000 0x1000' 'led 0x4000 0x2000' 'part 0x4100 0x4000' 'led 0x5000 0x4000' \
    'led 0x5000 0x3000' > several.what
# left PATTERN..: the blocks that are left where these are suppressed.
left() {
    printf 'leak:%s\n' "$@" > left.supp
    "$kit/leak_lines" --suppress left.supp --what several.what several.report | awk '$1 == "leak" { print $2 }' |
        paste -s -d ' '
}
verdict 'what only suppressed ones lead to is suppressed' '0x3000 0x5000' "$(left first second)"
verdict 'of two one is suppressed: what the other leads to stays' '0x2000 0x3000 0x4000 0x4100 0x5000' "$(left first)"
verdict 'all heads are suppressed' '' "$(left first second other)"
verdict 'one on the way is suppressed: what another leads to stays' '0x1000 0x2000 0x3000 0x5000' "$(left shared)"

section time and memory
# Many lost blocks of few kinds, and lost blocks of many kinds, each compared with held ones of many kinds. The limits
# are far above what it takes.
if [ "$dumps" ]; then
    strip -o what_odd what_many # without symbols each list is reached in a way of its own, which keeps more kinds apart
    while read -r kind least words; do
        unprepared_dump many ./$words
        stop $process
        (TIMEFORMAT='%U %S'; ulimit -v 500000; time limited 300 "$tells" many.core many.log \
            many.report > many.what 2> many.said) 2> many.took
        verdict "$words: status" 0 $?
        verdict "$words: at most 20 s of processor time" yes "$(awk '{ print $1 + $2 < 20 ? "yes" : $0 }' many.took)"
        verdict "$words: at least $least such lines" yes \
            "$([ "$(cat many.what many.said | grep -c "$kind")" -ge "$least" ] && echo yes)"
        rm -f many.core
    done << END
^like 4000 what_many 200000
were.not.compared 1 what_odd 500000 odd
END
    build what_chains.cc
    unprepared_dump many ./what_chains
    stop $process
    (ulimit -t 20; limited 300 "$tells" many.core many.log many.report > many.what 2> many.said)
    verdict 'a chain of 20,000 tables: at most 20 s of processor time, and none is told' '0 1 0' \
        "$? $(grep -c 'too many words: no containers are told' many.said) $(grep -c '^container' many.what)"
    unprepared_dump many ./what_many 1000000
    stop $process
    verdict 'a million blocks, 50,000 of them lost: at most 5 s of processor time and 200 MB' '0 in bounds' \
        "$(ulimit -t 5; python3 "$kit/tests/measured.py" 300 200 100000000 many.what "$tells" many.core many.log \
        many.report 2> many.figures)"
    verdict 'of which 20,000 look like others' yes "$([ "$(grep -c '^like' many.what)" -ge 20000 ] && echo yes)"
    rm -f many.core
fi

section what leak_lines shows of it
cat > shown.report << 'END'
blocks 9 bytes 1000
undumped 0
unknown 0 displaced 0 torn 0
marked 2 bytes 200
leaked 7 bytes 352
heads 4
caller 4 224 2 size 56
caller 2 80 1 size 40
caller 1 48 1 size 48
leak 0x1000 56 1 head size 56
leak 0x1100 56 2 head size 56
leak 0x1200 56 3 held size 56
leak 0x1300 56 4 held size 56
leak 0x1400 40 5 head size 40
leak 0x1500 40 6 held size 40
leak 0x1600 48 7 head size 48
END
cat > shown.what << 'END'
like 0x1000 0x2000 17 conns>+0x0
word 0x1000 +0x8 on_read
holds 0x1000 2 bytes 96
like 0x1100 0x2100 17 conns>+0x0
text 0x1200 5 "first"
part 0x1200 0x1000
text 0x1400 6 "second"
text 0x1500 9 "third\x1b[1m"
part 0x1500 0x1000
word 0x1600 +0x0 _ZTV6Square+0x10
END
cat > container.what << 'END'
container 0x1000 tree 2 0x1600 +0x10
word 0x1000 +0x8 on_read
container 0x1100 tree 2 0x1600 +0x10
container 0x1200 tree 7 0x1600 +0x18
container 0x1400 hash 1 0x1600 +0x18
container 0x1500 string 32 0x1600 +0x28
object 0x1600 python "Thing"
word 0x1600 +0x8 PyType_Type
END
verdict 'containers and objects' "$(cat << 'END'
bytes blocks heads  function  where
  224      4     2  ?  size 56
                       node of std::map or set at 0x1600+0x10: 2 of 4, 2 kinds
   80      2     1  ?  size 40
                       node of std::unordered_map or set at 0x1600+0x18: 1 of 2, 2 kinds
   48      1     1  ?  size 48
                       Python object of type "Thing"
END
)" "$("$kit/leak_lines" --what container.what shown.report | sed -n '/^bytes/,/^leak/p' | grep -v ^leak)"
sed 's/ python / glib /' container.what > glib.what
verdict 'an object of GLib' 'GLib object of type "Thing"' "$("$kit/leak_lines" --what glib.what shown.report | sed -n 's/^ *\(GLib .*\)/\1/p')"
verdict 'below each row' "$(cat << 'END'
bytes blocks heads  function  where
  224      4     2  ?  size 56
                       looks like 0x2000 (17 held, by conns>+0x0): 2 of 4, 2 kinds
   80      2     1  ?  size 40
                       begins "second" and 1 other text: 2 of 2
   48      1     1  ?  size 48
                       +0x0 vtable for Square+0x10
END
)" "$("$kit/leak_lines" --what shown.what shown.report | sed -n '/^bytes/,/^leak/p' | grep -v ^leak)"
verdict 'in the list of blocks' "$(cat << 'END'
leak 0x1000 56 1 head size 56
what 0x1000 looks like 0x2000 (17 held, by conns>+0x0)
what 0x1000 +0x8 on_read
what 0x1000 holds 2 lost blocks of 96 B
leak 0x1100 56 2 head size 56
what 0x1100 looks like 0x2100 (17 held, by conns>+0x0)
leak 0x1200 56 3 held size 56
what 0x1200 begins "first"
END
)" "$("$kit/leak_lines" --what shown.what shown.report | grep -E '^(leak|what) ' | head -n 8)"
verdict 'structures' "$(cat << 'END'
bytes  blocks  structures  function  where
  208       4           2  ?         size 56
                                     looks like 0x2000 (17 held, by conns>+0x0): 2 of 2
                                     of which size 56 x 3, size 40 x 1
   56       1           1  ?         size 56
   48       1           1  ?         size 48
                                     +0x0 vtable for Square+0x10
   40       1           1  ?         size 40
                                     begins "second"
END
)" "$("$kit/leak_lines" --structures --what shown.what shown.report | sed -n '/^bytes/,/^leak/p' | grep -v ^leak)"
verdict 'the first structure' 'and 3 more: 144 bytes, 3 blocks, 3 structures' \
    "$("$kit/leak_lines" -n 1 --structures --what shown.what shown.report | grep '^and ')"
"$kit/leak_lines" --json --what shown.what shown.report > shown.json
verdict 'JSON: all facts of a row' 'like 2 0x1000 word 1 0x1000 holds 1 0x1000 text 1 0x1200' "$(python3 -c 'import json
print(*(word for it in json.load(open("shown.json"))["callers"][0]["what"] for word in (it["fact"], it["blocks"], it["block"])))')"
"$kit/leak_lines" --json --structures --what shown.what shown.report > shown.json
verdict 'JSON: structures' 'structures 4 208 2 0x1000' "$(python3 -c 'import json
read = json.load(open("shown.json")); row = read["callers"][0]
print(read["report"], row["blocks"], row["bytes"], row["structures"], row["address"])')"
"$kit/leak_lines" --html shown.html --what shown.what shown.report
verdict 'HTML: the row and all facts' 1 \
    "$(grep -c 'looks like 0x2000 (17 held, by conns.*holds 2 lost blocks of 96 B' shown.html)"
printf 'word 0x1600 +0x0 a\033[1m\342\200\256b\ntext 0x1000 200 "%0200d"\n' 0 > odd.what
verdict 'what does not show is escaped' 'what 0x1600 +0x0 a\u{1b}[1m\u{202e}b' \
    "$("$kit/leak_lines" --what odd.what shown.report | grep '^what 0x1600')"
verdict 'at most 60 characters' 60 \
    "$("$kit/leak_lines" --what odd.what shown.report | sed -n 's/^ *\(begins "0*\.\.\).*/\1/p' | tr -d '\n' | wc -m)"
# A name of C++ of 388 characters, which a demangler makes megabytes of: each part of it has the one before twice.
python3 -c 'digits = "0123456789ABCDEFGHIJKLMNOPQRSTUVWXYZ"
parts = "".join("S_I" + f"S{digits[it]}_" * 2 + "E" for it in range(36))
print(f"word 0x1600 +0x0 _Z1fI1AIiiES_IS_S_E{parts}Evv")' > odd.what
verdict 'a name that is meant to take long' yes \
    "$(limited 60 "$kit/leak_lines" --what odd.what shown.report > odd.out; [ "$(wc -c < odd.out)" -lt 10000 ] &&
    echo yes)"
echo 'no fact 0x1' > odd.what
verdict 'no output of leak_what' '2 leak_lines: odd.what: this is no output of leak_what: no fact 0x1' \
    "$(said=$("$kit/leak_lines" --what odd.what shown.report 2>&1); echo "$? $said")"
verdict 'structures of nothing' 2 "$("$kit/leak_lines" --structures shown.report > /dev/null 2>&1; echo $?)"
verdict 'two reports' 2 "$("$kit/leak_lines" --what shown.what --since shown.report shown.report > /dev/null 2>&1;
    echo $?)"

section leak_report of a process that nobody prepared
if [ "$attaches" ]; then
    unprepared ./what_blocks
    LEAK_FIND=$finder limited 120 "$kit/leak_report" --raw --keep kept $process > report.out 2> report.said
    verdict 'the status' 1 $?
    verdict 'a row says what its block is' 1 \
        "$(grep -cE '^ *looks like (0x[0-9a-f]*|struct node( or array)?) \(2 held, by conns>\+0x0\)$' report.out)"
    verdict 'all that leak_what tells is kept' \
        "$(cut -d ' ' -f 1,3- facts.what | grep -v like | sed 's/0x[0-9a-f]*//g')" \
        "$(cut -d ' ' -f 1,3- kept/dump.what | grep -vE '^(like|type) ' | sed 's/0x[0-9a-f]*//g')"
    verdict 'the command that shows the chain' 1 \
        "$(grep -cE '^chain to 0x[0-9a-f]+: leak_find why( --[a-z-]+){4} kept/dump.core kept/dump.log 0x[0-9a-f]+$' \
            report.out)"
    find_leaks why $(sed -n 's/^chain to .*: leak_find why //p' report.out) > chain.out
    verdict 'that command' "conns $(sed -n 's/^chain to \([^:]*\): .*/\1/p' report.out)" \
        "$("$tells" --place kept/dump.core "$(sed -n 's/^root \([^ ]*\) .*/\1/p' chain.out)" |
        cut -d ' ' -f 3) $(tail -n 1 chain.out | cut -d ' ' -f 2)"
    verdict 'no block is listed' 0 "$(grep -cE '^(leak|what) ' report.out)"
    LEAK_FIND=$finder limited 120 "$kit/leak_report" --raw $process > gone.out 2> report.said
    verdict 'without a dump that is kept no command that needs it' '1 0' \
        "$(grep -c '^chain to 0x[0-9a-f]*: --why 1 ' gone.out) $(grep -c 'leak_find why -' gone.out)"
    LEAK_FIND=$finder limited 120 "$kit/leak_report" --raw --why 1 $process > report.out 2> report.said
    verdict 'a chain from the variable' 'conns 0x size' \
        "$(sed -n '/^chain to /,$p' report.out | tail -n +2 | sed 's/0x[0-9a-f]*/0x/; s/struct/size/' |
        awk '{ print $1, $2 }' | paste -s -d ' ' | cut -d ' ' -f 1,3,4)"
    verdict 'no chain without a row that has one' 0 \
        "$(limited 60 "$kit/leak_lines" --why 1 --what shown.what shown.report | grep -c '^chain')"
    find_leaks holders kept/dump.core kept/dump.log > kept/dump.holders
    LEAK_FIND=$finder limited 60 "$kit/leak_lines" -n 2 --why 2 kept/dump.holders > chain.out
    verdict 'chains to holders' "$(awk '$1 == "holder" { print $7 }' kept/dump.holders | head -n 2)" \
        "$(sed -n 's/^chain to \(.*\):$/\1/p' chain.out)"
    LEAK_FIND=$finder limited 120 "$kit/leak_report" --raw --structures --list $process > report.out 2> report.said
    verdict 'a lost chain is one row' 1 "$(grep -cE '^ *440 +3 +1 ' report.out)"
    verdict 'blocks are listed with what they are' 1 "$(grep -c '^what 0x[0-9a-f]* begins "a lost' report.out)"
    stop $process
    mkdir no_what && cp -r "$kit"/leak_* "$kit/lines" "$kit/scripts" no_what &&
        printf '#!/bin/sh\nexit 2\n' > no_what/leak_what
    unprepared ./what_blocks
    LEAK_FIND=$finder limited 120 no_what/leak_report --raw $process > report.out 2> report.said
    verdict 'leak_what fails: the report is as without it' '1 1 0' \
        "$? $(grep -c 'leak_what failed: the report' report.said) $(grep -c 'looks like' report.out)"
    stop $process
    options=
    start ./what_blocks
    LEAK_FIND=$finder limited 120 "$kit/leak_report" --raw $process > report.out 2> report.said
    verdict 'a table of leak_trace: rows are of callers, as they were' 0 "$(grep -c 'looks like' report.out)"
    LEAK_FIND=$finder limited 120 "$kit/leak_report" --raw --structures $process > report.out 2> report.said
    verdict 'a table of leak_trace: structures on demand' 1 "$(grep -cE '^ *bytes +blocks +structures' report.out)"
    stop $process
fi
