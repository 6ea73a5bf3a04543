# If no table can be had the program runs on, with one line at most.
section limits
build hello.c
untraced() {
    local name=$1 text
    shift
    text=$(limited 60 "$@" 2>&1)
    verdict "$name: runs" hello "$(echo "$text" | grep -v '^leak_trace: .*not traced$')"
    verdict "$name: lines" 1 "$(echo "$text" | grep -c '^leak_trace')"
}
runs() { verdict "$1: runs" hello "$(limited 60 "${@:2}" 2>&1)"; }
untraced 'no directory' "$kit/leak_trace" -o /nonexistent/x ./hello
untraced 'file size 0' bash -c 'ulimit -f 0; "$@"' - "$kit/leak_trace" ./hello
runs 'memory limit' bash -c 'ulimit -v 2000000; "$@"' - "$kit/leak_trace" ./hello
runs 'file size 1 MB' bash -c 'ulimit -f 1024; "$@"' - "$kit/leak_trace" ./hello
untraced 'no descriptors later' "$kit/leak_trace" bash -c 'ulimit -n 3; (echo hello)'
runs 'few blocks' env LEAK_TRACE_BLOCKS=1000 "$kit/leak_trace" ./hello
runs 'forks untraced' env LEAK_TRACE_FORK=0 "$kit/leak_trace" ./hello
runs 'depth 99' "$kit/leak_trace" -d 99 ./hello
gcc -static "$kit/tests/hello.c" -o hello_static 2> hello.cc && untraced 'a static program' "$kit/leak_trace" \
    ./hello_static
if [ "$(id -u)" = 0 ]; then
    chmod 755 . && cp -r "$kit/leak_trace" "$kit/leak_trace.so" "$kit/scripts" . && cp hello hello_setuid &&
        chmod u+s hello_setuid
    untraced 'a setuid program' setpriv --reuid=65534 --regid=65534 --clear-groups ./leak_trace ./hello_setuid
else
    leave_out 'a setuid program of another user: only root may run one'
fi
verdict 'no such program' '127 leak_trace: ./nonexistent: no such program' \
    "$(said=$("$kit/leak_trace" ./nonexistent 2>&1); echo "$? $said")"
verdict 'a depth that is no number' "2 leak_trace: -d takes a number, and 'x' is none" \
    "$(said=$("$kit/leak_trace" -d x ./hello 2>&1); echo "$? $said")"
if mkdir small && mount -t tmpfs -o size=512k tmpfs small 2> /dev/null; then
    untraced 'full disk' "$kit/leak_trace" -o "$work/small/t.%p" ./hello
    dd if=/dev/zero of=small/fill bs=4k 2> /dev/null
    untraced 'disk full from the start' "$kit/leak_trace" -o "$work/small/t.%p" ./hello
    umount small
else
    leave_out 'a full disk: mount is refused'
fi

section the output of commands
head -c 3000000 "$finder" > sample
same() {
    command -v "$1" > /dev/null || { leave_out "the output of $1, which is not installed"; return; }
    verdict "$*" "$(limited 60 "$@" 2>&1 | md5sum)" "$(limited 60 "$kit/leak_trace" $options "$@" 2>&1 | md5sum)"
}
for options in '' '-d 8' '-w'; do
    same perl -e 'my %h = map { $_ => $_ ** 2 } 1 .. 999; print join ",", map { $h{$_} } sort keys %h'
    same gzip -9 -n -c sample
    same xz -T 4 -c sample
    same tar -c -C "$kit" --mtime=@0 library
    same sort -R --random-source=sample "$kit/library/table.c"
    same git -C "$kit" log --stat -3
    same gcc -O2 -x c -S -o - "$kit/library/finder.c"
    same g++ -O1 -x c++ -S -o - "$kit/tests/cxx.cc"
    same bash -c 'for i in 1 2 3; do (echo $i; ls / | wc -l); done; cat <(seq 9)'
    same find "$kit/library" -name '*.c'
    same awk 'BEGIN { for (i = 0; i < 9999; i++) a[i] = i; for (i in a) s += a[i]; print s }'
    same python3 -c 'import multiprocessing as m
if __name__ == "__main__":
    with m.Pool(3) as p: print(p.map(abs, range(-9, 0)))'
    same openssl dgst -sha256 sample
    same make -n -C "$kit" -B leak_log
done
options=
