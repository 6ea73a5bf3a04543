# What ./install, ./package and ./check share. Who reads it has gone to the top of the repository.
program=$(basename "$0")
version=$(cat VERSION)

say() { printf '%s: %s\n' "$program" "$*" >&2; }
fail() {
    say "$@"
    exit 2
}

# lacking TOOL=PACKAGE..: the packages whose tool, or file, is missing.
lacking() {
    for pair in "$@"; do
        command -v "${pair%=*}" > /dev/null || [ -e "${pair%=*}" ] || printf ' %s' "${pair#*=}"
    done
}

# install_packages PACKAGE..: by apt-get, as root.
install_packages() {
    export DEBIAN_FRONTEND=noninteractive
    { timeout 300 apt-get update && timeout 900 apt-get install -y --no-install-recommends "$@"; } >&2
}

# need TOOL=PACKAGE..: installs as root what is missing, or says who should.
need() {
    missing=$(lacking "$@")
    [ "$missing" ] || return 0
    [ "$(id -u)" = 0 ] || fail "missing packages: run 'apt-get install$missing' as root first"
    command -v apt-get > /dev/null || fail "missing:$missing; there is no apt-get here that could install them"
    say "installing$missing"
    install_packages $missing || fail "apt-get could not install$missing"
}

# quietly LOG COMMAND..: runs it with its output in the file, whose end is shown if it fails.
quietly() {
    log=$1
    shift
    "$@" > "$log" 2>&1 < /dev/null && return
    tail -n 20 "$log" >&2
    return 1
}

# built_tree FOLDER PROGRAM: puts into the folder what is installed below a prefix: this leak_find, and capture.
built_tree() {
    make -s -C capture install PREFIX="$1" && install "$2" "$1/bin/leak_find"
}

# check_version PROGRAM TEXT: refuses a leak_find of another version, or what is none.
check_version() {
    told=$("$1" --version 2> /dev/null) || told=nothing
    [ "$told" = "leak_find $version$2" ] || fail "$1 --version says '$told', and not 'leak_find $version$2'"
}
