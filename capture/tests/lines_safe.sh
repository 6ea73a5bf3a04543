# leak_lines: files that are made to take all memory, tools with limits and without rights, and names that would speak
# to a terminal.
section hostile files and names
chmod 755 "$work"

# measured MOST_SECONDS WORD..: leak_lines, with its output in safe.out, what it says in safe.said, and the largest
# memory of a process in MB in safe.mb.
measured() {
    timeout -k 5 "$1" python3 -B -c 'import os, resource, subprocess, sys, time
began = time.monotonic()
status = subprocess.run(sys.argv[1:]).returncode
most = resource.getrusage(resource.RUSAGE_CHILDREN).ru_maxrss // 1024
print(most, file=open("safe.mb", "w"))
os.write(3, f"     {time.monotonic() - began:.1f} s, {most} MB\n".encode())
sys.exit(status)' "$kit/leak_lines" "${@:2}" 3>&1 > safe.out 2> safe.said
}
# asked NAME FILE ADDRESS: a report with a place in the file.
asked() { printf 'heads 1\ncaller 1 9 1 %s:[0x%x]\n' "$work/$2" "$3" > "$1.report"; }
# below MOST FILE: whether the number in the file is below.
below() { [ "$(cat "$2")" -lt "$1" ] && echo yes; }

# A name of 311 letters each of whose types has the one before twice.
python3 -B "$kit/tests/lines_hostile.py" doubling 30 > doubling.s && gcc -nostdlib -shared -s doubling.s \
    -o doubling.so || exit 1
asked doubling doubling.so $((0x$(nm -D doubling.so | awk '/ T / { print $1 }') + 1))
measured 120 doubling.report
verdict 'a name that stands for an endless one: status, memory' '0 yes' "$? $(below 600 safe.mb)"
verdict 'it is as linkers have it, and that is said' '1 1' \
    "$(grep -c ' _Z1f1AIiiES_IS0_S0_ES_' safe.out) $(grep -c '^leak_lines: c++filt ' safe.said)"
python3 -B "$kit/tests/lines_hostile.py" doubling 3 > short.s && gcc -nostdlib -shared -s short.s -o short.so || exit 1
asked short short.so $((0x$(nm -D short.so | awk '/ T / { print $1 }') + 1))
measured 120 short.report
verdict 'a short one is as its source has it' 1 \
    "$(grep -c ' f(A<int, int>, A<A<int, int>, A<int, int> >, A<A<A<int' safe.out)"

# Debug information of 360 MB in a file of one thousandth of that.
printf '%s\n' '.globl f' '.type f,@function' 'f: nop' 'nop' '.size f,.-f' > packed.s && gcc -nostdlib -shared packed.s \
    -o packed.so &&
    head -c 120000000 /dev/zero > zeros && objcopy --add-section .debug_info=zeros --add-section .debug_abbrev=zeros \
        --add-section .debug_line=zeros \
    packed.so wide.so && objcopy --compress-debug-sections=zlib-gabi wide.so packed.so || exit 1
rm -f zeros wide.so
asked packed packed.so $((0x$(nm -D packed.so | awk '/ T / { print $1 }') + 1))
verdict 'packed debug information: the file is small' yes "$([ "$(stat -c %s packed.so)" -lt 1000000 ] && echo yes)"
measured 120 packed.report
verdict 'packed debug information: status, memory' '0 yes' "$? $(below 400 safe.mb)"
verdict 'packed debug information: a name by the symbols, or none' 1 \
    "$(awk '$3 == 1 { print $4 }' safe.out | grep -cE '^(f|packed\.so\+0x[0-9a-f]+)$')"

# Names that are all in one text: 94 MB of them in a file of 253 KB.
python3 -B "$kit/tests/lines_hostile.py" suffixes 10000 12000 suffixes.so || exit 1
asked suffixes suffixes.so 32
measured 120 suffixes.report
verdict 'names that are ends of one text: status, memory, what is said' '0 yes 1' \
    "$? $(below 400 safe.mb) $(grep -c '^leak_lines: nm of .* printed more than 65 MB' safe.said)"

# More symbols with the address of each place than memory has room for, and a .gnu_debugdata that unpacks to 200 MB.
python3 -B "$kit/tests/lines_hostile.py" around 3000 > around.s && gcc -nostdlib -shared around.s -o around.so || exit 1
{ echo 'heads 1'; seq 1 2 2000 | awk -v at=$((0x$(nm around.so | awk '/ first$/ { print $1 }'))) \
    -v file="$work/around.so" \
    '{ printf "caller 1 9 1 %s:[0x%x]\n", file, at + $1 }'; } > around.report
measured 120 around.report
verdict 'symbols around each place: status, memory' '0 yes' "$? $(below 250 safe.mb)"
python3 -c 'import lzma, sys
packer = lzma.LZMACompressor(preset=0)
for _ in range(200): sys.stdout.buffer.write(packer.compress(bytes(1000000)))
sys.stdout.buffer.write(packer.flush())' > data.xz && objcopy --add-section .gnu_debugdata=data.xz short.so data.so ||
exit 1
asked data data.so 1
measured 120 data.report
verdict '.gnu_debugdata of 200 MB: status, memory' '0 yes' "$? $(below 400 safe.mb)"

# A tool tells by its answer as who it runs, and what it may take.
mkdir -p tools && chmod 755 tools && cat > tools/eu-addr2line << 'END'
#!/bin/sh
read -r address
printf '0x%016x\n' "$address"
printf 'user_%s_groups_%s_news_%s_memory_%s_file_%s\n' "$(id -u)" "$(id -G | tr ' ' ,)" "$(awk '/^NoNewPrivs/ { print $2 }' /proc/self/status)" \
    "$(ulimit -v)" "$(head -c 4 "$5" | tail -c 3)"
echo a.c:1
END
chmod 755 tools/eu-addr2line
cp short.so secret.so && chmod 700 secret.so
for name in short secret; do
    asked $name $name.so 9
    PATH=$work/tools:$PATH measured 60 $name.report
    verdict "$name.so: a tool's rights, limits and file" \
        "user_$([ "$(id -u)" = 0 ] && echo 65534_groups_65534 ||
        echo "$(id -u)_groups_$(id -G | tr ' ' ,)")_news_1_memory_$(((
        256 * 1048576 + 16 * $(stat -c %s $name.so)) / 1024))_file_ELF" "$(awk '/ user_/ { print $4 }' safe.out)"
done
printf '#!/bin/sh\nexec yes %01000d\n' 0 > tools/eu-addr2line
measured_tool() { PATH=$work/tools:$PATH measured 120 short.report; }
measured_tool
verdict 'a tool that prints without end is cut off, and that is said' '0 yes 1' \
    "$? $(below 400 safe.mb) $(grep -c '^leak_lines: eu-addr2line of .* printed more than ' safe.said)"
printf '#!/bin/sh\nkill -SEGV $$\n' > tools/eu-addr2line
measured_tool
verdict 'a tool that dies: no name, and that is said' '0 1' \
    "$? $(grep -c '^leak_lines: eu-addr2line of .* was ended by signal 11' safe.said)"
rm tools/eu-addr2line

# Chains are by leak_find, which reads a core that may be made to take long.
printf 'marked 1 bytes 8\nholder 1 8 1 8 0 0x10 size 8\n' > chained.report
touch chained.core chained.log
chained() { printf '#!/bin/sh\n%s\n' "$1" > finder && chmod 755 finder && LEAK_FIND=$work/finder measured 120 --why 1 \
    chained.report; }
chained "$(printf 'exec yes %01000d' 0)"
verdict 'a search without end is cut off, and that is said' '0 yes 1' \
    "$? $(below 400 safe.mb) $(grep -c '^leak_lines: finder of .* printed more than ' safe.said)"
chained 'id -u; kill -SEGV $$'
verdict 'one that dies' '0 1 1' \
    "$? $(grep -c '^leak_lines: finder of .* was ended by signal 11' safe.said) $(grep -c \
    'leak_find why has no answer' safe.out)"

# Names of files that would move the cursor, begin a line, or are no text.
printf 'leaked 1 bytes 9\nheads 1\ncaller 1 9 1 /a\033[2J\302\233b\rc\td\377e\\f\342\200\256g\303\251:[0x1]\nleak 0x10 9 1 head /a\033[2J\n' > names.report
wanted='/a\x1b[2J\xc2\x9bb\rc\td\xffe\\f\xe2\x80\xaeg'$'\303\251'
for form in '' '--folded' '--since names.report'; do
    "$kit/leak_lines" $form names.report > names.out 2> names.said
    verdict "names are escaped, ${form:-as a table}" '0 0' \
        "$(LC_ALL=C grep -c '[[:cntrl:]]' names.out) $(LC_ALL=C grep -c '[[:cntrl:]]' names.said)"
done
"$kit/leak_lines" names.report > names.out
verdict 'a table: what stands for them' "${wanted##*/}+0x1  $wanted:[0x1] (file not found)" \
    "$(sed -n 's/^ *9 *1 *1  //p' names.out)"
verdict 'a list: what stands for them' 'leak 0x10 9 1 head /a\x1b[2J' "$(grep '^leak ' names.out)"
printf 'leaked 1 bytes 9\nheads 1\ncaller 1 9 1 /other:[0x2]\n' > other.report
"$kit/leak_lines" --since other.report names.report > names.out
verdict 'a comparison: what stands for them' 1 "$(grep -cF "$wanted:[0x1]" names.out)"

python3 -B "$kit/tests/lines_safe_test.py" 2> safe_test.said
status=$?
verdict "the parts: $(tail -n 3 safe_test.said | head -n 1)" 0 $status
