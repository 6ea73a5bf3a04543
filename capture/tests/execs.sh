# Programs that clear the environment and run another: untraced, which `--list` tells, or traced with -e.
section programs that are run without the environment
build lost.c

# lost WAY OPTION..: runs it, and waits for the child, of which `child` is the id.
lost() {
    rm -f lost.out
    (cd "$work" && exec "$kit/leak_trace" -d 3 "${@:2}" ./lost "$1" > lost.out 2> lost.err) &
    process=$!
    started[$process]=1
    until_true 60 [ -s lost.out ]
    settle $process
    child=$(cat lost.out)
    started[$child]=1
    settle "$child"
}
for way in execve execv execvp execvpe execl execlp execle fexecve execveat vfork posix_spawn posix_spawnp; do
    rm -f table.*
    lost $way
    verdict "$way: it is told" "1 children were not traced: ./lost $child" "$("$kit/leak_trace" --list | tail -n 1)"
    stop "$process" "$child"
    "$kit/leak_trace" --remove > /dev/null
    lost $way -e
    verdict "$way: with -e it is traced" "./lost, $work/table.$child" \
        "$("$kit/leak_trace" --list | awk -v child="$child" '$1 == child && $2 == "live" { print $4, $5 }')"
    verdict "$way: nothing is untraced" 0 "$("$kit/leak_trace" --list | grep -c 'not traced')"
    [ $way != execv ] || [ ! "$attaches" ] || { look lost.c "$child"; stop "$process"; continue; }
    stop "$process" "$child"
done
lost failing
verdict 'an exec that fails' "$child live" \
    "$("$kit/leak_trace" --list | awk -v child="$child" '$1 == child { print $1, $2 }')"
verdict 'one that has another name now' 'now renamed' \
    "$("$kit/leak_trace" --list | awk -v pid=$process '$1 == pid { print $(NF - 1), $NF }')"
[ ! "$attaches" ] || look lost.c "$child"
stop "$process" "$child"

section programs that can not have the library
if command -v musl-gcc > /dev/null && musl-gcc "$kit/tests/hello.c" -o hello_musl 2> musl.cc; then
    printf '#! %s/hello_musl -x\n' "$work" > by_musl && chmod +x by_musl
    # ran COMMAND..: what a traced program prints that runs others, its status and what it says.
    ran() {
        local status # $? would be that of paste
        PATH=$work:$PATH limited 300 "$kit/leak_trace" $options "$@" > ran.out 2> ran.said
        status=$?
        echo "$(paste -s -d ' ' ran.out) $status $(cat ran.said)"
    }
    for options in '' -e; do
        verdict "musl by a shell, and by a script, $options" 'hello hello hello 0 ' \
            "$(ran bash -c './hello_musl; ./by_musl; exec ./hello_musl')"
        verdict "musl by env, which looks in PATH, $options" 'hello 0 ' "$(ran env hello_musl)"
        for call in 'os.execv("./hello_musl", ["x"])' 'os.execvp("hello_musl", ["x"])' \
            'os.execve(os.open("hello_musl", 0), ["x"], os.environ)' \
            'os.waitpid(os.posix_spawn("./hello_musl", ["x"], os.environ), 0)' \
            'os.waitpid(os.posix_spawnp("hello_musl", ["x"], os.environ), 0)' \
            'import subprocess; subprocess.run(["./hello_musl"])'; do
            verdict "musl by $call $options" 'hello 0 ' "$(ran python3 -c "import os; $call")"
        done
    done
    options=
    printf '#include <stdio.h>\n#include <stdlib.h>\nint main(void) { return puts(getenv("LD_PRELOAD")) < 0; }\n' \
        > shows.c
    musl-gcc shows.c -o shows_musl
    verdict 'other libraries stay' '/x/liba.so:/y/libb.so 0 ' "$(ran python3 -c 'import os
os.environ["LD_PRELOAD"] = "/x/liba.so:" + os.environ["LD_PRELOAD"] + ":/y/libb.so"
os.execv("./shows_musl", ["x"])')"
else
    leave_out "programs with musl's C library: no musl-gcc"
fi

section the tables that are there
rm -f table.*
lost execve
verdict 'one that runs another program' "$child untraced" \
    "$("$kit/leak_trace" --list | awk -v child="$child" '$1 == child { print $1, $2 }')"
stop "$child"
verdict 'it is dead' "$child dead" "$("$kit/leak_trace" --list | awk -v child="$child" '$1 == child { print $1, $2 }')"
cp --sparse=always "table.$process" "table.$$"
printf "$(printf '\\%03o' $(($$ & 255)) $(($$ >> 8 & 255)) $(($$ >> 16 & 255)))" | dd of="table.$$" bs=1 seek=8 \
    conv=notrunc 2> /dev/null
verdict 'a process that has the id of a dead one' "$$ dead" \
    "$("$kit/leak_trace" --list | awk -v pid=$$ '$1 == pid { print $1, $2 }')"
stop "$process"
"$kit/leak_trace" --remove > /dev/null

section a child of a bare clone
build cloned.c
start ./cloned
until_true 60 pgrep -P $process > child
child=$(cat child)
started[$child]=1
settle "$child"
if [ "$attaches" ]; then
    limited 120 "$kit/leak_dump" "$child" cloned 2> said
    verdict 'the table of its parent is not taken for its own' 1 \
        "$(grep -c "process $child is not traced: .* it was cloned from" said)"
fi
stop "$process" "$child"
rm -f cloned.core
