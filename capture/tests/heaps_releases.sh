#!/bin/bash
# heaps_releases.sh [RELEASE..] [/LIBRARY..]: leak_walk of heaps of the allocators that other Debian releases have, or
# of a library, by hand. apt-get fetches their packages, from the network, into a folder of this test. A storm under
# each must be walked, at rest and killed at any moment, with words that are changed and with leaks, or be refused in a
# line. STORMS and DAMAGES say how many.
. "$(dirname "$0")/common.sh"
command -v apt-get > /dev/null || { leave_out 'other releases: no apt-get'; complete=1; exit; }
walk=$kit/leak_walk
seed=${SEED:-1}
. "$kit/tests/heaps_common.sh"
build heaps_storm.c
command -v musl-gcc > /dev/null && musl-gcc -O1 -g -pthread "$kit/tests/heaps_storm.c" -o storm_musl

# fetch RELEASE: its allocators and C library, below the folder of its name.
fetch() {
    local at=$work/$1 names package
    mkdir -p "$at/lists/partial" "$at/cache/archives/partial"
    echo "deb [signed-by=/usr/share/keyrings/debian-archive-keyring.gpg] http://deb.debian.org/debian $1 main" \
        > "$at/sources.list"
    : > "$at/status"
    printf '%s "%s";\n' Dir::Etc::sourcelist "$at/sources.list" Dir::Etc::sourceparts - Dir::State::lists "$at/lists" \
        Dir::State::status "$at/status" Dir::Cache "$at/cache" APT::Sandbox::User root > "$at/apt.conf"
    apt-get -c "$at/apt.conf" update > "$at/said" 2>&1 || return
    names=$(apt-cache -c "$at/apt.conf" show libc6 libgcc-s1 libstdc++6 libatomic1 zlib1g liblzma5 libunwind8 musl \
        libjemalloc2 libmimalloc2.0 libmimalloc3 libtcmalloc-minimal4 libtcmalloc-minimal4t64 libgoogle-perftools4 \
        libgoogle-perftools4t64 2> /dev/null | sed -n 's/^Package: //p' | sort -u)
    (cd "$at" && apt-get -c "$at/apt.conf" download $names >> said 2>&1 &&
        for package in *.deb; do dpkg -x "$package" .; done)
}

# kind_of ALLOCATOR: the records that are changed.
kind_of() {
    case $1 in
    'jemalloc 5.2'*) echo jemalloc_old ;;
    *) echo "${1%% *}" ;;
    esac
}

# tried NAME PROGRAM..: walked, or refused.
tried() {
    section "$1"
    be_ready "$1" "${@:2}" 3 1500 8000 1
    local status allocator
    core_now "$process" "$1"
    limited 60 "$walk" --quiet "$1.core" > "$1.log" 2> "$1.said"
    status=$?
    [ -s "$1.core" ] || status='no core'
    rm -f "$1.core"
    allocator=$(sed -n 's/^= leak_log allocator //p' "$1.log")
    if [ $status = 0 ]; then
        heap "$(kind_of "$allocator")" "$allocator" 390 "${@:2}"
    else
        verdict "$1: refused in a line" '2 0 1' "$status $(wc -l < "$1.log") $(wc -l < "$1.said")"
        sed 's/^/     /' "$1.said"
    fi
}

# try_release RELEASE
try_release() {
    local loader libraries library musl
    fetch "$1" || { leave_out "$1: can't be fetched"; return; }
    loader=$(find "$1" -name 'ld-linux-x86-64.so.2' -not -type d | head -n 1)
    libraries=$work/$1/usr/lib/x86_64-linux-gnu
    for library in "$libraries"/lib{jemalloc,mimalloc,tcmalloc,tcmalloc_minimal}.so.?; do
        [ -e "$library" ] || continue
        # one older than the program's C library is preloaded as it is
        if [ ! "$("$loader" --library-path "$libraries" --list ./heaps_storm 2>&1 | grep 'not found')" ]; then
            tried "$1.$(basename "$library")" "$loader" --library-path "$libraries" --preload "$library" ./heaps_storm
        else
            tried "$1.$(basename "$library")" env LD_PRELOAD="$library" ./heaps_storm
        fi
    done
    musl=$(find "$work/$1" -path '*musl/libc.so' | head -n 1)
    [ ! "$musl" ] || [ ! -e storm_musl ] || tried "$1.musl" "$musl" ./storm_musl
}

for name in ${@:-bullseye trixie sid}; do
    case $name in
    /*) tried "$(basename "$name")" env LD_PRELOAD="$name" ./heaps_storm ;;
    *) try_release "$name" ;;
    esac
done
complete=1
