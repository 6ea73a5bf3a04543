# What leak_report prints: the report for a person, or with --raw the lines of leak_find with names.

# Prints the lines of a report: with tables by leak_lines, or as they are.
lines_of() {
    hint='--why 1 shows it, and --keep DIR keeps the dump for leak_find why'
    [ "$keep" ] && hint='' || hint="s/^\\(chain to 0x[0-9a-f]*: \\)leak_find why .*/\\1$hint/"
    if [ "$list" ]; then sed -e "$hint" -- "$1"; else sed -e '/^leak /d' -e '/^what /d' -e "$hint" -- "$1"; fi
}

# show_lines REPORT: prints the report with the names of lines, or as it is where they can't be had.
show_lines() {
    shown_report=$1
    eval "set -- $lines_words"
    lined=$folder/dump.lines
    into "$lined" "$here/leak_lines" "$@" --log "$folder/dump.log" "$shown_report" || {
        say 'leak_lines failed: the report has no functions and lines'
        lined=$shown_report
    }
    lines_of "$lined"
    rm -f -- "$folder/dump.lines"
}

show_raw() {
    if [ "$grows" ]; then
        show_lines "$folder/dump.grow"
        show_lines "$folder/dump.holders"
    else
        show_lines "$folder/dump.report"
    fi
}

# about PID | CORE: what a person's report tells of this run.
about() {
    case $1 in
    *[!0-9]*) printf 'core %s\n' "$(shown "$1")" ;;
    *) echo "process $1" ;;
    esac
    [ -z "$way" ] || echo "way $way"
    [ -z "$first_at" ] || echo "seconds $((second_at - first_at))"
    [ -z "$keep" ] || printf 'kept %s\n' "$(shown "$keep")"
    [ -z "$list" ] || echo list
    for each in $parts; do echo "part $each"; done
    sed 's/^/said /' "$heard"
}

# show_person PID | CORE: prints the report for a person; where leak_lines can't be had it is that of leak_find.
show_person() {
    about "$1" > "$folder/dump.about" || exit 2
    eval "set -- $lines_words"
    [ -z "$html" ] || set -- --html "$html" "$@"
    run "$here/leak_lines" --plain "$folder/dump.about" "$@" "$folder/dump.report" 2>&4
    shown_by=$?
    rm -f -- "$folder/dump.about"
    [ $shown_by -ne 0 ] && [ $shown_by -lt 128 ] || return 0
    say 'leak_lines failed: the report has no functions and lines'
    tell_all
    lines_of "$folder/dump.report"
}

# Tells on standard error what was kept for the end of a person's report.
tell_all() { [ ! -s "$heard" ] || cat -- "$heard" >&4; }
