# leak_what --types: types of blocks by debug information, of programs whose types are known; files that are elsewhere,
# of another build or damaged; with limits and without rights; and what others show of it.
section types of blocks by debug information
tells=$kit/leak_what
known=("$kit/tests/types.c" "$kit/tests/types_more.c" "$kit/tests/types_other.c")
gcc -O1 -g "${known[@]}" -o types_known || exit 1
build types_cxx.cc

# heap_dump NAME PROGRAM: runs it untraced, dumps it and makes a log of its heap.
heap_dump() {
    unprepared "./$2"
    if [ "$attaches" ]; then
        limited 60 "$kit/leak_core" $process "$1.core" 2> "$1.dumped"
        stop $process
    else
        rm -f core core.*
        { kill -ABRT $process && wait $process; } 2> /dev/null
        mv "$(kernel_core)" "$1.core"
    fi
    limited 60 "$kit/leak_walk" --quiet "$1.core" > "$1.log"
}
# types NAME WORD..: the log with types, in NAME.typed, and what is said in NAME.said.
types() { limited 200 "$tells" --types "${@:2}" "$1.core" "$1.log" > "$1.typed" 2> "$1.said" 9< "$kit/tests/types.sh"; }
# typed NAME: of each type that NAME.typed tells the size of its blocks.
typed() {
    sed -n 's/^@ \(.*\) + 0x[0-9a-f]* \(0x[0-9a-f]*\)$/\2 \1/p' "$1.typed" | grep -vE '^0x[0-9a-f]* (size [0-9]+$|/)' |
        while read -r size text; do echo "$((size)) $text"; done | LC_ALL=C sort -u
}
wanted_types() { sed -n 's/^ \* type //p' "$kit/tests/$1" | LC_ALL=C sort; }
typed_cxx() { typed cxx | grep -v ' class std::'; }
# texts_alone NAME: whether the log with types is the given one but for texts.
texts_alone() {
    cmp -s <(sed 's/^@ .* + 0x/@ + 0x/' "$1.log") \
        <(grep -v '^= leak_what types$' "$1.typed" | sed 's/^@ .* + 0x/@ + 0x/') && echo yes
}

if [ ! -x "$kit/leak_types" ]; then
    leave_out 'leak_types was built without libdw'
elif [ "$dumps" ]; then
    heap_dump known types_known
    types known
    verdict 'status, and only texts are changed' '0 yes' "$? $(texts_alone known)"
    verdict 'each block has its type, or none' "$(wanted_types types.c)" "$(typed known)"
    cp types_known libc-known && heap_dump library libc-known
    types library
    verdict 'variables of the C library give no type' '' "$(typed library)"
    cp known.typed twice.log && ln -s known.core twice.core && types twice
    verdict 'of a log with types' "$(cat known.typed)" "$(cat twice.typed)"
    heap_dump cxx types_cxx
    types cxx
    verdict 'classes of C++' "$(wanted_types types_cxx.cc)" "$(typed_cxx)"
    verdict 'an object with a table keeps its class by that' 1 \
        "$(grep -c "^@ $work/types_cxx:\[0x[0-9a-f]*\] + 0x[0-9a-f]* 0x68\$" cxx.typed)"

    if command -v clang > /dev/null; then
        clang -O1 -g "${known[@]}" -o types_clang || exit 1
        heap_dump clang types_clang
        types clang
        verdict 'by clang, which has the addresses of variables in a list' "$(wanted_types types.c)" "$(typed clang)"
    else
        leave_out 'types by clang'
    fi

    # array_of LANGUAGE: what is said of an array of three by a source in that language (DWARF, DW_LANG).
    array_of() {
        echo 'char *list[3];' | gcc -O1 -g -dA -S -x c - -o language.s
        sed -E -i "s/(\\.byte\t)0x[0-9a-f]+(\t# DW_AT_language)/\\1$1\\2/" language.s
        gcc -shared language.s -o language.so && timeout 60 "$kit/leak_types" < language.so | head -n 1
    }
    verdict 'an array begins with element 0, in Fortran with 1' 'array 3 2, array 2 2' \
        "$(array_of 0xc), $(array_of 0x8)"

    for i in {1..12000}; do
        echo "struct s$i { long first; char rest[$((i % 5 * 8 + 8))]; } v$i;"
    done | gcc -g -shared -x c - -o alike.so || exit 1
    verdict '12,000 structures that begin alike' 12000 \
        "$(timeout 60 "$kit/leak_types" < alike.so 2> said | grep -c '^struct ')"

    section what is shown of types
    find_leaks one --skip-freed --skip-links known.core known.typed > known.report
    "$tells" known.core known.typed known.report > known.what
    likeness='looks like struct node (3 held, by nodes>+0x0)'
    verdict 'a lost block looks like a type' 1 "$(grep -c '^type 0x[0-9a-f]* struct node$' known.what)"
    verdict 'below its row' 1 \
        "$("$kit/leak_lines" --what known.what known.report | grep -c "^ *$likeness\$")"
    verdict 'holders name types' 'struct node' \
        "$(find_leaks holders known.core known.typed | awk '$1 == "holder" && $5 == 1176 { print $8, $9 }')"
    unprepared ./types_known
    reported=$process
    limited 120 "$kit/leak_report" --raw $reported > reported.out 2> reported.said
    verdict 'leak_report of a process that nobody prepared' '1 1' \
        "$? $(grep -c "^ *$likeness\$" reported.out)"
    stop $reported

    section files elsewhere, and of another build
    mkdir -p "root$work" "root/usr/lib/debug/.build-id" empty && cp types_known "root$work" && cp types_known types_kept
    gcc -O1 -g -DOTHER "${known[@]}" -Wl,--build-id=0x1234 -o types_known
    types known
    verdict 'a file of another build' '0 0' "$? $(typed known | wc -l)"
    types known --root empty --root root
    verdict 'the file below a root' "$(wanted_types types.c)" "$(typed known)"
    rm types_known "root$work/types_known" && ln -s /proc/self/cwd/types_kept "root$work/types_known"
    types known --root root
    verdict 'no link leads out of a root' 0 "$(typed known | wc -l)"
    id=$(readelf -n types_kept | sed -n 's/.*Build ID: //p')
    debug=root/usr/lib/debug/.build-id/${id:0:2}
    mkdir "$debug" && objcopy --only-keep-debug types_kept "$debug/${id:2}.debug"
    types known --root root
    verdict 'a debug file below a root' "$(wanted_types types.c)" "$(typed known)"
    rm "$debug/${id:2}.debug" && objcopy --only-keep-debug types_kept named.debug
    objcopy --strip-all --add-gnu-debuglink=named.debug types_kept types_named && rm "root$work/types_known"
    for folder in "$work" "$work/.debug" "/usr/lib/debug$work"; do
        mkdir -p "root$folder" && cp types_named "root$work/types_known" && mv named.debug "root$folder"
        types known --root root
        verdict "a debug file that the file names, in ${folder/$work/ITS_FOLDER}" "$(wanted_types types.c)" \
            "$(typed known)"
        mv "root$folder/named.debug" .
    done
    rm named.debug && gcc -O1 -g -DOTHER "${known[@]}" -Wl,--build-id=0x1234 -o "root$work/named.debug"
    types known --root root
    verdict 'one of another build is none' 0 "$(typed known | wc -l)"
    rm -r "root/usr/lib/debug" && mkfifo "root$work/pipe" && ln -sf pipe "root$work/types_known"
    types known --root root
    verdict 'a pipe is not waited for' '0 0' "$? $(typed known | wc -l)"

    section files that are made to harm
    rm "root$work/types_known"
    limited 600 python3 "$kit/tests/types_damage.py" "$tells" known.core known.log types_kept root > damage.said 2>&1
    verdict 'damaged debug information' 'statuses [0], the same log' "$(tail -n 1 damage.said)"
    cp types_kept types_known && chmod 755 . && mkdir -p fake && cp "$tells" fake
    tells=$work/fake/leak_what
    types known
    verdict 'without leak_types' '2 1 0' \
        "$? $(grep -c '^leak_what: there is no leak_types beside it' known.said) $(wc -c < known.typed)"
    # made CASE [NAME [SECONDS]]: what comes of it if leak_types says that of types_NAME, and whether that was soon:
    # to wait for such a reader until its time is up takes two minutes.
    made() {
        local name=${2-known} start took status
        local at=$(nm "types_$name" | awk '$3 == "plain" { print $1 }')
        gcc -O1 -DCASE=$1 -DAT=0x$at "$kit/tests/types_fake.c" -o fake/leak_types || exit 1
        start=$SECONDS
        (ulimit -v 1000000; types "$name")
        status=$? took=$((SECONDS - start))
        echo "$status $(texts_alone "$name") $([ $took -lt "${3-110}" ] && echo soon || echo "$took s")"
    }
    verdict 'leak_types runs' '0 yes soon' "$(made RIGHTS)"
    wanted=user_$(id -u)_groups_$(id -G | wc -w)
    [ "$(id -u)" != 0 ] || wanted=user_65534_groups_0
    verdict 'without rights and with limits' "40 struct ${wanted}_news_1_memory_1_seconds_30_file_ELF_open_0" \
        "$(typed known)"
    while read -r case count why; do
        verdict "$why" "0 yes soon $count" "$(made $case) $(typed known | wc -l)"
    done << 'END'
WITHIN_ITSELF 0 a structure that is within itself a thousand times
LONG_ARRAYS 0 arrays of many arrays of many
ENDLESS 0 an output without an end
ODD_NUMBERS 0 numbers that fit nothing
FAILS 0 a reader that fails
MANY_LINKS 0 links of links of links
MANY_BEGINNINGS 1 a structure with which a million others begin
END
    verdict 'an odd name' '0 yes soon' "$(made ODD_NAMES)"
    verdict 'an odd name is no list of callers and does not speak to a terminal' \
        '40 struct a< b+0x100x20\x1b[1m\x5c‮c' "$(typed known)"

    section many files
    for i in {1..12}; do
        echo "int of_library_$i;" | gcc -g -shared -fPIC -Wl,--build-id -x c - -o "libtypes_$i.so" || exit 1
    done
    gcc -O1 -g "${known[@]}" -Wl,--no-as-needed,-rpath,"$work" libtypes_*.so -o types_many || exit 1
    heap_dump many types_many
    verdict 'all together say no more than one may' '0 yes soon 40 struct a' "$(made MUCH many) $(typed many)"
    gcc -std=gnu11 -O1 -DALL_SECONDS=4 -DVERSION='"brief"' "$kit"/what/*.c "$kit"/common/*.c -o "$tells" || exit 1
    # (thirteen files for three seconds each: 39 s)
    verdict 'all together take no more time than is allowed: two take half each' '0 yes soon' "$(made SLOW many 30)"
    verdict 'a reader that said all and goes on' '0 yes soon 0' "$(made LINGERS) $(typed known | wc -l)"
fi
