#!/bin/bash
# container.sh [SUITE | FOLDER]: a container of another release of Debian, made by debootstrap (or in the folder
# already), in which perl runs under leak_trace.so, and who holds its memory. The files at its paths are of other builds
# than ours. Each function that leak_lines names must be that of a symbol of the container's own file that has the
# address; and without these files nothing is named from ours. Needs root, debootstrap and a mirror of Debian, and takes
# minutes, so run.sh leaves it out. The last line is `capture: N passed, M failed`.
. "$(dirname "$0")/common.sh"
suite=${1:-trixie}
mirror=http://deb.debian.org/debian
root=$work/root

# judged TABLE: of the functions that a table names in the container's files, how many are right, and how many wrong.
judged() {
    python3 - "$root" "$1" << 'END'
import re, subprocess, sys
root, table = sys.argv[1:]
def symbols(path):
    out = subprocess.run(["nm", "-D", "-S", "--defined-only", root + path], capture_output=True, text=True).stdout
    found = [re.fullmatch(r"([0-9a-f]+) ([0-9a-f]+) [TtWwi] ([^@]*)(@.*)?", line) for line in out.split("\n")]
    return [(int(it[1], 16), int(it[2], 16), it[3]) for it in found if it]
found = set(re.findall(r"(\S+)  +(/\S+):\[0x([0-9a-f]+)\]$", open(table, errors="replace").read(), re.MULTILINE))
known = {path: symbols(path) for path in {it[1] for it in found}}
wrong = [it for it in found if "+0x" not in it[0] and not any(
    start < int(it[2], 16) <= start + size and name == it[0] for start, size, name in known[it[1]])]
for it in wrong:
    print("wrong:", *it, file=sys.stderr)
print(f"{sum('+0x' not in it[0] for it in found) - len(wrong)} right {len(wrong)} wrong")
END
}

section "a container of $suite"
complete=1
if [ "$(id -u)" != 0 ] || ! command -v debootstrap > /dev/null; then
    leave_out 'no root, or no debootstrap'
    exit
fi
if [ -d "$suite" ]; then
    cp -a "$suite" "$root"
else
    debootstrap --variant=minbase "$suite" "$root" "$mirror" > debootstrap.said 2>&1 ||
        { tail -n 5 debootstrap.said; leave_out "debootstrap of $suite from $mirror failed"; exit; }
fi
chmod 755 "$work"
cp "$kit/leak_trace.so" "$root/"
mkdir -p "$root/before"
mkfifo hold
# With mounts and a root of its own, as in a container: the system tells its paths from there.
(exec 3<> hold; exec unshare -m --propagation private sh \
    -c 'mount --bind "$0" "$0" && cd "$0" && pivot_root . before && cd / && exec "$@"' \
    "$root" env LD_PRELOAD=/leak_trace.so LEAK_TRACE=/table.%p LEAK_TRACE_DEPTH=8 \
    perl -e 'use POSIX; my @x = map { {a => "b" x $_} } 1 .. 3000; sysread STDIN, $_, 1' <&3 3>&- > /dev/null 2>&1) &
process=$!
started[$process]=1
settle $process
mkdir kept
limited 300 "$kit/leak_dump" $process kept/dump 2> dump.said || cat dump.said
find_leaks holders kept/dump.core kept/dump.log > kept/dump.report
verdict 'blocks of perl with their callers' yes \
    "$(awk '$1 == "marked" { print ($2 > 1000 ? "yes" : $0) }' kept/dump.report)"
verdict 'its file is of another build than ours' differ "$(cmp -s "$root/usr/bin/perl" /usr/bin/perl && echo same ||
    echo differ)"

# lines NAME WORD..: leak_lines to NAME.lines.
lines() { "$kit/leak_lines" "${@:2}" kept/dump.report > "$1.lines" 2> "$1.said"; }
lines living --pid $process
lines below --root "$root"
lines none
stop $process
for name in living below; do
    judged $name.lines > judged
    echo "     $name: $(cat judged)"
    verdict "$name: functions of the container's files, none wrong" yes \
        "$(awk '{ print ($1 > 20 && $3 == 0 ? "yes" : $0) }' judged)"
done
judged none.lines > judged
verdict 'without these files nothing is named' '0 right 0 wrong' "$(cat judged)"
verdict 'and that is said' 1 "$(head -n 1 none.lines | grep -c '^another build: [1-9]')"
