# The callers that library/frames.c finds, against those of libgcc's unwinder, which the same library built
# with no_rules.c takes for each block: of real programs, run twice.
section "deep callers against libgcc's unwinder"
mkdir -p ours them && cp -r "$kit/leak_trace" "$kit/scripts" ours && cp -r "$kit/leak_trace" "$kit/scripts" them &&
    cp "$kit/leak_trace.so" ours
(cd "$kit" && gcc -std=gnu11 -O2 -fPIC -fvisibility=hidden -ftls-model=initial-exec -shared -static-libgcc \
    -Wl,-z,initfirst -o "$work/them/leak_trace.so" $(ls library/*.c | grep -v -e frames -e rows) \
    tests/no_rules.c -lgcc_eh)

# runs_as PROGRAM: whether the last process is it already, and no longer a script or a shell before it.
runs_as() { [ "/proc/$process/exe" -ef "$1" ]; }

# callers_of KIT PROGRAM..: the callers and sizes of the blocks of a program that waits for its input.
callers_of() {
    local by=$1
    shift
    rm -f input output "$by.callers" && mkfifo input
    (exec 3<> input; exec setarch -R env -i PATH="$PATH" LEAK_TRACE="$LEAK_TRACE" PERL_HASH_SEED=0 \
        "$work/$by/leak_trace" -d 12 "$@" <&3 > output 2>&1 3>&-) &
    process=$!
    started[$process]=1
    # gdb rests for long too while it reads what its child iconv says
    [ "${prompt-}" ] && until_true 60 grep -qsF "$prompt" output
    until_true 60 runs_as "$1"
    settle $process
    dump $process "$work/$by" && grep '^@' "$by.log" | sed 's/ + 0x[0-9a-f]* / + /' | sort > "$by.callers"
    stop $process
    rm -f "$by.core" "$by.kernel"
}

# deep NAME PROGRAM..: what a program allocates may depend on how fast its child answers, so it may differ in one run,
# but not in three.
deep() {
    local name=$1 differ
    shift
    for _ in 1 2 3; do
        callers_of ours "$@"
        callers_of them "$@"
        differ=$([ -s ours.callers ] && echo "$(diff ours.callers them.callers | grep -c '^[<>]') differ")
        [ "$differ" = '0 differ' ] && break
    done
    verdict "$name, $(wc -l < ours.callers) blocks" '0 differ' "$differ"
}
[ -x /usr/bin/perl ] && deep perl /usr/bin/perl \
    -e '$|=1; my %h; $h{$_} = [1..5, "x" x $_] for 1..2000; $x = join ",", sort { $a <=> $b } map { s/7/8/gr } keys %h; <STDIN>'
[ -x /usr/bin/gawk ] && deep gawk /usr/bin/gawk \
    'BEGIN { for (i = 0; i < 3000; i++) a[i "x"] = i * 2 "y"; n = asorti(a, b); getline x }'
[ -x /usr/bin/sqlite3 ] && deep sqlite3 /usr/bin/sqlite3 \
    -cmd 'create table t(a,b); with recursive c(x) as (select 1 union all select x+1 from c where x<9999) insert into t select x, hex(x) from c; create index i on t(b);' :memory:
[ -x /usr/bin/gdb ] && prompt='(gdb)' deep gdb /usr/bin/gdb -nx -q
deep cxx ./cxx
