#!/bin/bash
# attach_container.sh [SUITE | FOLDER]: a container of another release of Debian, made by debootstrap (or in the
# folder already), with a root, mounts and process numbers of its own, in which perl runs. It is attached from
# outside, dumped and detached; with a glibc before 2.34, as bullseye's, it is refused and as it was. Needs root,
# debootstrap and a mirror of Debian, and takes minutes, so run.sh leaves it out. The last line is `capture: N
# passed, M failed`.
. "$(dirname "$0")/common.sh"
. "$kit/tests/attach_common.sh"
suite=${1:-trixie}
root=$work/root
export LEAK_TRACE=/table.%p

section "a container of $suite"
complete=1
if [ "$(id -u)" != 0 ] || { [ ! -d "$suite" ] && ! command -v debootstrap > /dev/null; }; then
    leave_out 'no root, or no debootstrap'
    exit
fi
if [ -d "$suite" ]; then
    cp -a "$suite" "$root"
else
    debootstrap --variant=minbase "$suite" "$root" http://deb.debian.org/debian > debootstrap.said 2>&1 ||
        { tail -n 5 debootstrap.said; leave_out "debootstrap of $suite failed"; exit; }
fi
chmod 755 "$work"
mkdir -p "$root/before"
cat > "$root/lose.pl" << 'END_OF_PROGRAM'
my $k;
$| = 1;
print "ready\n";
while (1) {
    my $ring = { text => "x" x 300 };
    $ring->{self} = $ring;          # nobody frees it
    print "100 rings\n" if ++$k % 100 == 0;
    select undef, undef, undef, 0.005;
}
END_OF_PROGRAM
be_ready perl unshare -m -p -f --propagation private sh -c 'mount --bind "$0" "$0" && cd "$0" &&
    mount -t proc proc proc && pivot_root . before && cd / && exec perl lose.pl' "$root"
outside=$process
process=$(pgrep -P "$outside")
started[$process]=1
version=$(chroot "$root" ldd --version | sed -n '1s/.* //p')
echo "     glibc $version there, $(ldd --version | sed -n '1s/.* //p') here"
before=$(whole "$process" mappings)
if [ "$(printf '%s\n' 2.34 "$version" | sort -V | head -n 1)" != 2.34 ]; then
    refused "glibc $version" 'its libc has no dlopen: it is older than glibc 2.34' "$process"
    stop "$process" "$outside"
    exit
fi
attach "$process"
verdict 'attached' '0 1' "$? $(grep -c 'its blocks have callers from now on' attach.said)"
has_rings() { [ "$(grep -c rings perl.out)" -gt 3 ]; }
until_true 60 has_rings
limited 300 "$kit/leak_dump" "$process" "$work/dump" 2> dump.said
verdict 'a log by heap and table' 1 "$(grep -c "and their callers by leak_trace's table, which began at " dump.said)"
find_leaks holders dump.core dump.log > dump.report
verdict "blocks of perl with their callers in the container's files" yes \
    "$(awk '/\/usr\/bin\/perl:\[|\/libperl\.so/ { n++ } END { print (n ? "yes" : "none") }' dump.report)"
detach "$process"
verdict 'detached' 0 $?
verdict 'it lives with its own code' "${before% *}" "$(whole "$process" mappings | cut -d " " -f 1)"
verdict 'no table is left' 0 "$(find "$root" -maxdepth 1 -name 'table*' | wc -l)"
stop "$process" "$outside"
