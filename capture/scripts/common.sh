# What the scripts share: messages, the programs beside them, words that are handed on, and the options of a search.
program=$(basename "$0")

# shown TEXT: the text with each control character (of C1 in UTF-8 too) and each backslash escaped, since the names of
# files are anybody's.
shown() {
    case $1 in
    *[[:cntrl:]\\]* | *"$first_of_c1"*) printf '%s' "$1" | od -A n -v -t u1 | LC_ALL=C awk '
        { for (i = 1; i <= NF; i++) byte[++count] = $i }
        END {
            named[92] = "\\\\"; named[9] = "\\t"; named[10] = "\\n"; named[13] = "\\r"
            for (i = 1; i <= count; i++)
                if (byte[i] in named) printf "%s", named[byte[i]]
                else if (byte[i] == 194 && byte[i + 1] >= 128 && byte[i + 1] < 160) printf "\\x%02x", byte[++i]
                else printf(byte[i] < 32 || byte[i] == 127 ? "\\x%02x" : "%c", byte[i])
        }' ;;
    *) printf '%s' "$1" ;;
    esac
}
first_of_c1=$(printf '\302')
say() { printf '%s\n' "$program: $(shown "$*")" >&2; }
fail() {
    say "$@"
    exit 2
}

# tell_version: says which version this is, and ends. The file is where `make install` puts it, or at the top of the
# repository.
tell_version() {
    for file in "$scripts/../VERSION" "$scripts/../../VERSION"; do
        [ ! -r "$file" ] || { echo "$program $(cat "$file")"; exit 0; }
    done
    fail "there is no file VERSION beside $scripts"
}

# tool NAME: the program beside this script, or the one in PATH.
tool() {
    if [ -x "$here/$1" ]; then
        printf '%s\n' "$here/$1"
    else
        command -v "$1" || fail "$1 is not installed: neither in $here nor in PATH"
    fi
}

# quoted WORD..: the words as text that `eval` makes words of again.
quoted() {
    for word; do
        printf " '%s'" "$(printf '%s\n' "$word" | sed "s/'/'\\\\''/g")"
    done
}

# remarks KIND LOG: what the log says of this kind, a line each.
remarks() { LC_ALL=C sed -n "s/^= leak_log $1 //p" "$2"; }

# other_allocator LOG: the allocator that the log names, if it is not glibc's alone.
other_allocator() { remarks allocator "$1" | grep -v '^glibc' | tail -n 1; }

# The options that fit the heap of a log, which is not glibc's if OTHER says so. glibc's own links and what was
# freed are known where no other allocator is named; others lay blocks side by side, so that the start of one is the end
# of another, and what was freed is known where their heap was walked. Memory that can't be written holds blocks too: a
# static program of glibc has pointers there. leak_core leaves dead stack out of its cores; of a core that is GIVEN the
# search leaves it out.
#
# fitting LOG [OTHER [GIVEN]]
fitting() {
    if [ "${2-}" ] || [ "$(other_allocator "$1")" ]; then
        freed=$(LC_ALL=C grep -aqE '^= leak_walk (heap|unused) ' "$1" && echo ' --skip-freed')
        echo "--other-heap --skip-ends$freed --all-memory${3:+ --skip-dead-stack}"
    else
        echo "--skip-freed --skip-links --all-memory${3:+ --skip-dead-stack}"
    fi
}

# check_folder FILE: root makes no file in a folder where others may put another one in its place.
check_folder() {
    [ "$(id -u)" = 0 ] || return 0
    about=$(stat -L -c '%A %u %g' -- "$(dirname -- "$1")" 2> /dev/null)
    case $about in
    ?????????[tT]* | *' '*' 0') is_open='' ;;
    # a group of one's own
    ?????w*) [ "${about##* }" = "$(printf '%s\n' "$about" | cut -d ' ' -f 2)" ] && is_open='' || is_open=1 ;;
    *) is_open='' ;;
    esac
    case $about in ????????w[!tT]*) is_open=1 ;; esac
    [ ! "$is_open" ] ||
        fail "others may write in $(dirname -- "$1"), which has no sticky bit: as root take another folder"
}

# run COMMAND..: runs it, so that a signal which ends this script ends the command first, and isn't heeded only after
# it.
run() {
    "$@" <&0 &
    child=$!
    wait "$child"
    ran=$?
    child=''
    return $ran
}

# into FILE COMMAND..: runs it with its output in the file, which is there once it is whole, and for its owner alone. A
# status of 0, 1 or 3 is an answer. No link that stands in the file's place is followed.
into() {
    file=$1
    shift
    part=$(mktemp -- "$file.XXXXXX") || exit 2
    run "$@" > "$part"
    case $ran in
    0 | 1 | 3) mv -fT -- "$part" "$file" || exit 2 ;;
    *) rm -f -- "$part" ;;
    esac
    part=''
    return $ran
}

# end_well: what a signal is to do. It ends the command that runs, and sets `ended`; the EXIT trap then removes what is
# half done.
end_well() {
    trap '' INT TERM HUP QUIT PIPE
    ended=1
    [ ! "$child" ] || { kill -TERM "$child"; wait "$child"; } 2> /dev/null
    exit 2
}
child='' part='' ended=''
