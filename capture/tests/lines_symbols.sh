# leak_lines: names from separate debug files and from .gnu_debugdata, and none if no symbol's size has the address.
section names in debug files
python3 -B "$kit/tests/lines_symbols_test.py" 2> symbols_test.said
status=$?
verdict "the parts: $(tail -n 3 symbols_test.said | head -n 1)" 0 $status

gcc -O1 -fPIC -shared -Wl,--build-id "$kit/tests/lines_library.c" -o full.so && objcopy --only-keep-debug full.so \
    full.debug &&
    strip -o bare.so full.so && objcopy --add-gnu-debuglink=full.debug bare.so linked.so || exit 1
# The recipe of gdb's manual: a .symtab of the functions that .dynsym lacks, packed by xz.
nm full.so --format=posix --defined-only | awk '$2 ~ /[Tt]/ { print $1 }' | sort > functions.all
nm -D full.so --format=posix --defined-only | awk '{ print $1 }' | sort > functions.dynamic
comm -13 functions.dynamic functions.all > functions.kept
objcopy -S --keep-symbols=functions.kept full.debug mini && python3 -c 'import lzma, sys
sys.stdout.buffer.write(lzma.compress(open("mini", "rb").read()))' > mini.xz &&
    objcopy --add-section .gnu_debugdata=mini.xz bare.so mini.so || exit 1

# middles FILE: a report with a return address in the middle of each function of the library.
middles() {
    nm -S full.so | awk '$4 ~ /_function$/ { print $1, $2 }' | sort | while read -r start size; do
        printf 'caller 1 1 %s:[0x%x]\n' "$work/$1" $((0x$start + 0x$size / 2))
    done
}
# with_root FOLDER: leak_lines, with debug files by build-id below this folder.
with_root() {
    python3 -B -c 'import sys
sys.path.insert(0, sys.argv[1])
from lines import command, debug_files
debug_files.ROOT = sys.argv[2]
sys.exit(command.main([]))' "$kit" "$1"
}
names() { awk 'NR > 1 { print $3 }' | tr '\n' ' '; }
all='first_function hidden_function lost_function last_function '
bare="first_function $(middles bare.so | sed -n 's/.*\[\(0x.*\)\]/bare.so+\1/; 2,3p' | tr '\n' ' ')last_function "
verdict 'stripped' "$bare" "$(middles bare.so | "$kit/leak_lines" | names)"
verdict 'by .gnu_debuglink' "$all" "$(middles linked.so | "$kit/leak_lines" | names)"
verdict 'by .gnu_debugdata' "$all" "$(middles mini.so | "$kit/leak_lines" | names)"
mkdir .debug && mv full.debug .debug/
verdict 'by .gnu_debuglink in .debug' "$all" "$(middles linked.so | "$kit/leak_lines" | names)"
echo >> .debug/full.debug
verdict 'a debug file with another CRC is not taken' "${bare//bare/linked}" \
    "$(middles linked.so | "$kit/leak_lines" | names)"

identity=$(readelf -n bare.so | awk '/Build ID/ { print $3 }')
mkdir -p "root/.build-id/${identity:0:2}"
cp .debug/full.debug "root/.build-id/${identity:0:2}/${identity:2}.debug"
verdict 'by build-id' "$all" "$(middles bare.so | with_root root | names)"
gcc -O2 -fPIC -shared -Wl,--build-id -DOTHER "$kit/tests/lines_library.c" \
    -o "root/.build-id/${identity:0:2}/${identity:2}.debug" || exit 1
verdict 'a debug file of another build is not taken' "$bare" "$(middles bare.so | with_root root | names)"

# Debug information in a separate file: function and line.
gcc -g -O1 -fPIC -shared "$kit/tests/lines_library.c" -o informed.so && objcopy --only-keep-debug informed.so \
    informed.debug &&
    strip informed.so && objcopy --add-gnu-debuglink=informed.debug informed.so || exit 1
verdict 'lines of a separate file' "$(grep -n 'return' "$kit/tests/lines_library.c" | cut -d : -f 1 | tr '\n' ' ')" \
    "$(middles informed.so | "$kit/leak_lines" | sed -n 's/.*lines_library\.c:\([0-9]*\)$/\1/p' | tr '\n' ' ')"

# A file that is not stripped, without debug information: a function of 4 bytes, code of no symbol, a function without a
# size.
gcc -shared -nostdlib "$kit/tests/lines_gap.s" -o gap.so || exit 1
start=0x$(nm gap.so | awk '/ sized_function/ { print $1 }')
verdict 'addr2line by itself names the function before' sized_function \
    "$(addr2line -f -e gap.so "$(printf '0x%x' $((start + 4)))" | head -n 1)"
printf 'caller 1 1 %s/gap.so:[0x%x]\n' "$work" $((start + 4)) "$work" $((start + 5)) "$work" $((start + 36)) |
    "$kit/leak_lines" > gap.lines
verdict 'no name behind the end of a function, nor in one without a size' \
    "sized_function $(printf 'gap.so+0x%x ' $((start + 5)) $((start + 36)))" \
    "$(names < gap.lines)"
verdict 'nor a file' 2 "$(grep -c "gap\.so+0x.*$work/gap\.so:\[" gap.lines)"
