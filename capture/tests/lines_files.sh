# Where files are looked for: kept beside the dump, below the root of a process that lives, and their debug files below
# roots and by debuginfod.
section files of a process, and their debug files
. "$kit/tests/builds_common.sh"
mkdir -p older newer app && rm -rf older/* newer/* app/* && build_of older && build_of newer -DNEWER &&
    installs older || exit 1
export LEAK_FIND=$finder

# reports NAME WORD..: leak_report to NAME.lines, what it says to NAME.said, its status to `status`.
reports() {
    limited 120 "$kit/leak_report" --raw "${@:2}" > "$1.lines" 2> "$1.said"
    status=$?
}
own=older_library_table
unprepared ./app/builds
reports now --keep files_kept --files $process
verdict 'files are kept: status, names' "1 $own" "$status $(names_in now.lines | tr -d ' ')"
verdict 'they are the ones that ran' same \
    "$(cmp -s older/libbuilds.so "files_kept/dump.files$work/app/libbuilds.so" && cmp -s older/builds \
    "files_kept/dump.files$work/app/builds" && echo same)"
verdict 'the loader and libc too' 2 "$(find files_kept/dump.files -name 'ld-linux*' -o -name 'libc.so.6' | wc -l)"
installs newer
reports later -n 99 $process
lines files_kept/dump
verdict 'replaced: names by the files that were kept' "$own" "$(names_in files_kept/dump.lines | tr -d ' ')"
if [ "$(id -u)" = 0 ]; then
    verdict 'as root: names by what the process has mapped' "$own" "$(names_in later.lines | tr -d ' ')"
    rm app/*
    reports gone --keep files_gone --files $process
    stop $process
    verdict 'deleted: kept' same \
        "$(cmp -s older/libbuilds.so "files_gone/dump.files$work/app/libbuilds.so (deleted)" && echo same)"
    lines files_gone/dump
    verdict 'deleted: names' "$own" "$(names_in files_gone/dump.lines | tr -d ' ')"
else
    verdict 'replaced, and none kept' '' "$(names_in later.lines)"
    leave_out 'what only root may follow: /proc/PID/map_files'
fi
stop $process
reports core --keep files_more --files files_gone/dump.core
verdict '--files of a core' '2 leak_report: --files keeps the files of a running process, and this is a core' \
    "$status $(cat core.said)"
reports alone --files $$
verdict '--files alone' '2 leak_report: --files needs --keep, which names the folder' "$status $(cat alone.said)"

# A process that has another file at the path than we have, as in a container.
installs newer
if [ "$(id -u)" = 0 ] && unshare -m true 2> /dev/null; then
    unprepared unshare -m --propagation private sh -c "mount --bind $work/older $work/app && exec $work/app/builds"
    reports inside $process
    stop $process
    verdict 'another root: names by the files there' "$own" "$(names_in inside.lines | tr -d ' ')"
else
    leave_out 'a process with mounts of its own'
fi

# Debug files below a root, and by debuginfod.
mkdir -p debug && cp older/libbuilds.so debug/ && objcopy --only-keep-debug older/libbuilds.so \
    debug/libbuilds.debug && strip older/libbuilds.so &&
    installs older || exit 1
identity=$(id_of older/libbuilds.so)
place=$(nm debug/libbuilds.so | awk '/ older_library_give$/ { print $1 }')
printf 'heads 1\ncaller 1 9 1 %s:[0x%x]\n' "$work/app/libbuilds.so" $((0x$place + 1)) > stripped.report
printf '= leak_log files\n= leak_log file %s %s\n' "$identity" "$work/app/libbuilds.so" > stripped.log
with_line() { grep -c 'older_library_give .*builds_library\.c:[1-9]' "$1"; }
lines stripped
verdict 'stripped: no line' 0 "$(with_line stripped.lines)"
below="$PWD/debug root/usr/lib/debug/.build-id/${identity:0:2}"
mkdir -p "$below" && ln -s "/../../../../../../${identity:2}.hidden" "$below/${identity:2}.debug"
cp debug/libbuilds.debug "debug root/${identity:2}.hidden" && cp debug/libbuilds.debug "$work/${identity:2}.outside"
lines stripped --root 'debug root'
verdict 'a debug file below --root, by a link within it' 1 "$(with_line stripped.lines)"
ln -sfT "$work/${identity:2}.outside" "$below/${identity:2}.debug"
lines stripped --root 'debug root'
verdict 'none by a link that leads out of it' 0 "$(with_line stripped.lines)"
if command -v debuginfod > /dev/null && command -v debuginfod-find > /dev/null; then
    port=$(python3 -c 'import socket
with socket.socket() as it: it.bind(("127.0.0.1", 0)); print(it.getsockname()[1])')
    env -u DEBUGINFOD_URLS debuginfod -d "$work/debuginfod.sqlite" -p "$port" -F "$work/debug" > debuginfod.said 2>&1 &
    server=$!
    started[$server]=1
    served() { DEBUGINFOD_CACHE_PATH=$work/cache DEBUGINFOD_URLS=http://127.0.0.1:$port limited 20 debuginfod-find \
        debuginfo "$identity" > /dev/null 2>&1 || { rm -rf cache; false; }; }
    until_true 60 served
    DEBUGINFOD_URLS=http://127.0.0.1:$port lines stripped
    verdict 'a debug file by debuginfod' '1 0' "$(with_line stripped.lines) $(wc -l < stripped.lines.said)"
    lines stripped
    verdict 'without DEBUGINFOD_URLS none' 0 "$(with_line stripped.lines)"
    stop $server
    DEBUGINFOD_URLS=http://127.0.0.1:$port lines stripped
    verdict 'no server: the name alone' '0 1' \
        "$(with_line stripped.lines) $(grep -c ' older_library_give ' stripped.lines)"
else
    leave_out 'debuginfod, which is missing'
fi
verdict 'nothing of it is left' '' "$(ls -d "${TMPDIR:-/tmp}"/leak_lines.* 2> /dev/null)"
unset LEAK_FIND
rm -rf files_kept files_gone older newer app debug "debug root"

python3 -B "$kit/tests/lines_files_test.py" 2> files_test.said
status=$?
verdict "the parts: $(tail -n 3 files_test.said | head -n 1)" 0 $status
