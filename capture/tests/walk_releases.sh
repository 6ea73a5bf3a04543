#!/bin/bash
# walk_releases.sh [RELEASE..]: leak_walk with the glibc of other Debian releases, by hand, as root: each in a folder
# that debootstrap makes (some hundred MB each, from the network). A storm of threads and programs of the release run
# there unprepared and are killed; their cores are walked here, and what is walked must fit its core. Without a table
# nothing tells which blocks there are, but for walk_leaks, whose leaks must be named.
. "$(dirname "$0")/common.sh"
[ "$(id -u)" = 0 ] && command -v debootstrap > /dev/null || { leave_out 'other releases: needs root and debootstrap';
    complete=1; exit; }
walk=$kit/leak_walk

# in_release FOLDER NAME COMMAND..: runs it in the release, kills it after two seconds, and takes its core.
in_release() {
    local folder=$1 name=$2 pid
    shift 2
    rm -f "$folder"/tmp/core*
    (cd "$folder/tmp"; exec chroot "$folder" /bin/sh -c 'cd /tmp; exec "$@"' - "$@" < <(sleep 20) > /dev/null 2>&1) &
    pid=$!
    started[$pid]=1
    sleep 3
    { kill -ABRT $pid; wait $pid; } 2> /dev/null
    unset "started[$pid]"
    mv "$folder"/tmp/core* "$name.core" 2> /dev/null || { verdict "$name: a core" yes no; return 1; }
    "$walk" "$name.core" > "$name.log" 2> "$name.said"
    verdict "$name: walked" 0 $?
    sed 's/^/     /' "$name.said"
}

for release in "${@:-bullseye trixie}"; do for one in $release; do
    section "$one"
    folder=$work/$one
    debootstrap --variant=minbase --include=perl,python3-minimal,gcc,libc6-dev "$one" "$folder" > "$one.said" 2>&1 ||
        { leave_out "$one: debootstrap fails"; continue; }
    echo "     $(chroot "$folder" ldd --version | head -n 1)"
    cp "$kit"/tests/walk_leaks.c "$kit"/tests/walk_storm.c "$kit"/tests/lose.h "$folder/tmp"
    chroot "$folder" sh \
        -c 'cd /tmp && for name in walk_leaks walk_storm; do gcc -O1 -g -pthread $name.c -o $name || exit; done' ||
        { verdict "$one: the programs are built" yes no; continue; }
    in_release "$folder" "$one-storm" ./walk_storm 12
    in_release "$folder" "$one-perl" perl \
        -e 'my %h; $h{$_} = [1..5, "x" x $_] for 1..3000; for (1..3000) { delete $h{$_} if $_ % 3 } <STDIN>'
    PYTHONMALLOC=malloc in_release "$folder" "$one-python" python3 \
        -c 'x = [{"a": [i] * 5} for i in range(9999)]; input()'
    in_release "$folder" "$one-leaks" ./walk_leaks || continue
    for name in storm perl python leaks; do
        verdict "$one-$name: misfits" 'misfits 0' "$(find_leaks one --check "$one-$name.core" "$one-$name.log" 2>&1 |
            grep '^misfits')"
    done
    find_leaks one --skip-freed --skip-links "$one-leaks.core" "$one-leaks.log" > "$one.report" 2>&1
    verdict "$one: named" 8 "$(grep -c '^leak ' "$one.report")"
    rm -rf "$folder" "$one"-*.core
done; done
complete=1
