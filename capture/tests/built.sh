# How capture is built: without a warning, by each compiler that is here; hardened; by the flags that a distribution
# gives; and anew if a header changed.
section how it is built
mkdir strict && find "$kit" -mindepth 1 -maxdepth 1 ! -name tests ! -name objects -exec cp -r {} strict \; &&
    cp "$kit/../VERSION" .
for compiler in gcc clang; do
    command -v $compiler > /dev/null || { leave_out "a build by $compiler"; continue; }
    make -C strict clean > strict.said 2>&1
    make -j "$(nproc)" -C strict CC=$compiler CFLAGS='-O2 -g -Werror' all > strict.said 2>&1
    verdict "$compiler has no warning" 0 $?
    grep -E '(warning|error): ' strict.said
done
hardened='leak_core leak_log leak_walk leak_what leak_attach leak_trace.so'
[ ! -x "$kit/leak_types" ] || hardened="$hardened leak_types"
for name in $hardened; do
    verdict "$name: position independent, its tables read-only, all bound at the start, no code on the stack" \
        'DYN NOW RELRO RW' \
        "$(readelf -hldW "$kit/$name" |
        awk '/^ *Type: *DYN/ { type = "DYN" } /BIND_NOW/ { now = "NOW" } /GNU_RELRO/ { relro = "RELRO" } /GNU_STACK/ {
            stack = $7 }
            END { print type, now, relro, stack }')"
    verdict "$name: stacks and buffers are checked" 'yes yes' \
        "$(nm -D "$kit/$name" |
        awk '/__stack_chk_fail/ { stack = "yes" } /_chk@/ && !/stack/ { buffers = "yes" } END {
            print stack, buffers }')"
done
make -C strict -nB WITH_DW=leak_types CPPFLAGS=-DWANTED=1 LDFLAGS=-Wl,--wanted > strict.said
verdict 'CPPFLAGS in each compilation' 'all of many' \
    "$(awk '/ -c / { count++; without += !/-DWANTED=1 / } END {
        print (without ? without " without" : "all"), "of", (count > 40 ? "many" : count) }' strict.said)"
verdict 'LDFLAGS in each link' \
    'leak_attach leak_attach.so leak_core leak_log leak_tables leak_trace.so leak_types leak_walk leak_what' \
    "$(sed -n 's/.*-Wl,--wanted .*-o \([a-z_.]*\) .*/\1/p' strict.said | sort | xargs)"
touch strict/dump/dump.h
verdict 'a header that changed' 'stale current' \
    "$(make -C strict -q leak_core > strict.said 2>&1 && printf current || printf stale) $(make -C strict \
    -q leak_log > strict.said 2>&1 && echo current || echo stale)"
rm -rf strict
