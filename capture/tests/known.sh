# Programs whose leaks are known: what each says that it loses must be named, and nothing else.
section known leaks
for source in plain.c storm.c early.c children.c exec.c cxx.cc dl.c signals.c stale.c rbp.cc; do
    build $source
done
build module.c -shared -fPIC -o "$work/module.so"
build module_cxx.cc -shared -fPIC -o "$work/module_cxx.so"
build bump.c -shared -fPIC -o "$work/bump.so"
for options in '' '-d 8' '-w -d 2'; do
    for source in plain.c storm.c early.c children.c exec.c cxx.cc rbp.cc; do
        start ./${source%.*}
        look $source
    done
    start ./dl ./module.so ./module_cxx.so
    look dl.c
    LD_PRELOAD=$work/bump.so start ./signals
    look signals.c
done
options=-w
start ./stale
look stale.c
options=

section a daemon that closes all its descriptors
build daemon.c
rm -f table.*
find_daemon() { # the last of its three processes, which goes to /
    daemon=$(for pid in $(pgrep -x daemon); do
        [ "/proc/$pid/exe" -ef "$work/daemon" ] && [ "/proc/$pid/cwd" -ef / ] && echo "$pid"
    done)
    [ "$daemon" ]
}
wait=0 start ./daemon
until_true 60 find_daemon
started[$daemon]=1
settle "$daemon"
verdict 'its table has its pid' "table.$daemon" "$(ls "table.$daemon")"
if [ "$attaches" ]; then
    look daemon.c "$daemon"
else
    leave_out 'the dump of a daemon: the kernel would write its core into /'
fi
