#!/bin/sh
# Installs what ./package makes in other releases of Debian, which have no kit: in chroots that debootstrap makes. There
# it reports a program that leaks, unprepared and traced, by the package and by the archive, and removes the package.
#
#     gate/package.sh [--program FILE] FOLDER [RELEASE[=MIRROR]..]
#
# FOLDER keeps the chroots, some 400 MB each. By hand, as root: it needs the network, debootstrap, lintian, and minutes.
# The releases are bookworm and trixie if none is named; one of Ubuntu is named with its
# mirror. The last line is `package: N passed, M failed`.
set -u
top=$(dirname "$(dirname "$(readlink -f "$0")")")
[ "${1-}" != --program ] || { program=$(readlink -f -- "$2"); shift 2; }
folder=$(readlink -f -- "${1:?usage: package.sh [--program FILE] FOLDER [RELEASE..]}")
shift
[ "$(id -u)" = 0 ] && command -v debootstrap > /dev/null && command -v lintian > /dev/null || {
    echo 'package.sh: needs root, debootstrap and lintian' >&2
    exit 2
}
work=$(mktemp -d) root='' passed=0 failed=0
trap 'umount "$root/proc" 2> /dev/null; rm -rf "$work"' EXIT
trap 'exit 2' INT TERM HUP

# verdict NAME WANTED FOUND
verdict() {
    if [ "$2" = "$3" ]; then
        echo "ok   $1"
        passed=$((passed + 1))
    else
        echo "FAIL $1: wanted '$2', found '$3'"
        failed=$((failed + 1))
    fi
}

inside() { chroot "$root" /usr/bin/env -i PATH=/usr/sbin:/usr/bin:/sbin:/bin timeout 120 "$@" < /dev/null; }

# files: what is in the release, but for what dpkg notes about any package.
files() {
    (
        cd "$root" || exit
        find . -xdev \( -path ./proc -o -path ./tmp -o -path ./var/log -o -path ./var/lib/dpkg \) -prune -o -print
        find var/lib/dpkg/info
    ) | sort
}

# report COMMANDS [WORD..]: starts the example there by these words, and reports it by leak_report of this folder.
report() {
    inside sh -c 'bin=$1; shift; rm -f /tmp/ready; cd /tmp
        "$@" /tmp/leaky 2> /tmp/ready & process=$!
        until grep -qs ready /tmp/ready; do sleep 0.2; done
        "$bin/leak_report" --raw $process 2> /tmp/said; status=$?; kill $process; exit $status' - "$@"
}

# tried NAME COMMANDS: both ways are reported, and traced with functions.
tried() {
    found=$(report "$2" env)
    verdict "$1: an unprepared program" '1 leaked 6 bytes 576' "$? $(echo "$found" | grep '^leaked ')"
    found=$(report "$2" "$2/leak_trace" -o /tmp/table.%p)
    verdict "$1: a traced one, with functions" '1 leaked 6 bytes 510 lose_a_block lose_a_chain lose_a_ring' \
        "$? $(echo "$found" | grep '^leaked ') $(echo "$found" | grep -o 'lose_a_[a-z]*' | sort -u | xargs)"
}

"$top/package" ${program:+--program "$program"} "$work" || exit 2
verdict 'lintian has no error' '' "$(lintian "$work"/*.deb 2> /dev/null | grep '^E:')"
gcc -g -O0 -w -o "$work/leaky" "$top/examples/leaky.c" || exit 2

# make_root RELEASE [MIRROR]: debootstrap's chroot, which is kept.
make_root() {
    root=$folder/$1
    [ ! -e "$root/usr/bin/eu-addr2line" ] || return 0
    debootstrap --variant=minbase --include=python3,binutils,elfutils "$1" "$root" ${2:+"$2"} > "$work/said" 2>&1 &&
        return
    tail -n 3 "$work/said"
    return 1
}

# try_release RELEASE: in its chroot.
try_release() {
    echo "== $1, $(inside ldd --version | head -n 1)"
    cp "$work"/*.deb "$work"/*.tar.gz "$work/leaky" "$root/tmp"
    files > "$work/before"
    inside sh -c 'dpkg -i /tmp/*.deb' > "$work/said" 2>&1
    verdict "$1: the package is installed" '0 ' "$? $(grep -i error "$work/said")"
    tried "$1: the package" /usr/bin
    inside dpkg --purge leak-find > "$work/said" 2>&1
    verdict "$1: the package is removed" 0 $?
    verdict "$1: nothing stays" '' "$(files | diff "$work/before" - | head -n 3)"
    inside sh -c 'cd /tmp && tar xzf *.tar.gz'
    tried "$1: the archive" "/tmp/leak-find-$(cat "$top/VERSION")/bin"
    find "$root/tmp" -mindepth 1 -delete
}

for each in ${*:-bookworm trixie}; do
    release=${each%%=*}
    mirror=${each#"$release"}
    if make_root "$release" "${mirror#=}" && mount -t proc proc "$root/proc"; then
        try_release "$release"
        umount "$root/proc"
    else
        verdict "$release: a chroot" made none
    fi
done
echo "package: $passed passed, $failed failed"
[ $failed = 0 ]
