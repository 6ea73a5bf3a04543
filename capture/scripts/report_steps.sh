# The steps of leak_report: a dump and its log, the search, and what leak_what tells. Files are in `folder`.

# What leak_dump says, but for the search, which is settled here, and for a folder that goes.
told() {
    hidden=$(printf '%s\n' "$folder/" | sed 's/[][\\.*^$|]/\\&/g')
    grep -v '^leak_dump: now search' "$messages" | if [ "$keep" ]; then cat; else sed "s|$hidden||g"; fi >&2
}

# dump PID | CORE [TABLE]: makes dump.core and dump.log in the folder.
dump() {
    given=''
    case $1 in *[!0-9]*) given=1 && set -- --core "$@" ;; esac
    set -- "$@" "$folder/dump"
    [ -z "$after" ] || set -- --after "$after/dump" "$@"
    eval "set -- $dump_words"' "$@"'
    messages=$(mktemp -- "$folder/dump.said.XXXXXX") || exit 2
    run "$here/leak_dump" "$@" 2> "$messages"
    dumped=$?
    told
    rm -f -- "$messages"
    [ $dumped -lt 2 ] || exit 2
}

# Where the log is by the heap: puts types in place of sizes, as far as there is debug information.
name_types() {
    [ -x "$here/leak_types" ] || return 0
    grep -q '^= leak_walk ' "$folder/dump.log" && grep -q '^@ ' "$folder/dump.log" || return 0
    eval "set -- $what_words"
    if into "$folder/dump.typed" "$here/leak_what" --types "$@" "$folder/dump.core" "$folder/dump.log"; then
        mv -fT -- "$folder/dump.typed" "$folder/dump.log" || exit 2
    else
        say 'leak_what failed: the log does not say of which types blocks are'
    fi
}

# Makes dump.files, in which leak_lines finds the files later.
keep_files() {
    [ -z "$files" ] || "$here/leak_lines" --copy-files "$folder/dump.files" --pid "$1" --log "$folder/dump.log" ||
        say 'the files that the process has mapped are not all kept'
}

# The options of the search: those that were given, and those that fit the log.
search_options() {
    is_other=$(printf '%s\n' "$find_words" | grep -e "'--other-heap'")
    for option in $(fitting "$folder/dump.log" "$is_other" "$given"); do
        case $find_words in *" '$option'"*) ;; *) find_words="$find_words '$option'" ;; esac
    done
}

# Makes dump.report, and sets `status`.
search() {
    search_options
    set -- one "$folder/dump.core" "$folder/dump.log"
    [ ! "$after" ] || [ "$grows" ] ||
        set -- two "$after/dump.core" "$after/dump.log" "$folder/dump.core" "$folder/dump.log"
    eval "set -- \"\$@\" $find_words"
    say "leak_find $1$(printf '%s\n' "$find_words" | tr -d "'")"
    into "$folder/dump.report" "$finder" "$@"
    check_found $?
    status=$found
}

# check_found STATUS: a report that is not whole is none.
check_found() {
    found=$1
    [ $found -ne 2 ] || exit 2
    [ $found -lt 4 ] || fail "leak_find ended with status $found: there is no whole report"
}

# Makes dump.holders, and if there are two moments dump.grow, for a report of what grew, and for a page. Who holds what
# grew is by what is new.
compare() {
    [ "$grows$html" ] || return 0
    parts=holders
    if [ "$after" ]; then
        parts='grow holders'
        into "$folder/dump.grow" "$finder" grow "$after/dump.log" "$folder/dump.log"
        check_found $?
    fi
    holders ${grows:+--since "$after/dump.log"}
}

# holders WORD..: makes dump.holders, by the options of the search, which are but one those of holders too.
holders() {
    eval "set -- \"\$@\" $(printf '%s\n' "$find_words" | sed "s/ '--check'//g")"
    into "$folder/dump.holders" "$finder" holders "$@" "$folder/dump.core" "$folder/dump.log"
    check_found $?
}

# Does the report need what leak_what tells? Lines for scripts do if the log is by the heap, which knows no callers, or
# for structures.
needs_facts() {
    [ "$raw" ] || return 0
    case $lines_words in
    *" '--structures'"* | *" '--why' "*) ;;
    *) grep -q '^= leak_walk ' "$folder/dump.log" ;;
    esac
}

# Makes dump.what where something is lost.
what() {
    [ $status != 0 ] && needs_facts || return 0
    eval "set -- $what_words"
    set -- "$@" "$folder/dump.core" "$folder/dump.log" "$folder/dump.report"
    if into "$folder/dump.what" "$here/leak_what" "$@"; then
        lines_words="$lines_words$(quoted --what "$folder/dump.what")"
    else
        say 'leak_what failed: the report does not say what blocks are'
        rm -f -- "$folder/dump.what"
    fi
}

# A search of no block, or of a part of them, that found nothing is no answer.
check_answer() {
    lacks=$(remarks lacks "$folder/dump.log" | tail -n 1)
    if grep -q '^blocks 0 ' "$folder/dump.report" && LC_ALL=C grep -aq '^= leak_log moment ' "$folder/dump.log"; then
        fail 'the table has no live block. Either the program has a malloc of its own, which passes leak_trace by:' \
            'build it without; or it allocates nothing: its work may be done by another of its processes, which' \
            'leak_trace --list shows'
    elif [ "$lacks" ] && [ $status = 0 ]; then
        fail "nothing is lost in glibc's heap, but most blocks may be those of $lacks, which were not searched:" \
            'start the program by leak_trace'
    fi
}

# A leak_find that was compiled without its proofs has that in its version.
tell_unproved() {
    case $("$finder" --version 2> /dev/null) in
    *' (unproved)') say 'this leak_find was compiled without its proofs (./install --unproved)' ;;
    esac
}
