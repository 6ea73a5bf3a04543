# Progress of leak_report: on a terminal it says what is done, and for how long, once that takes over two seconds.
# Descriptor 4 is standard error of who asked.

# seconds_up: since the system started, whatever becomes of its clock.
seconds_up() { cut -d . -f 1 /proc/uptime; }

# during TEXT COMMAND..: runs the command, a function of this shell, and says meanwhile what is done.
during() {
    begin_telling "$1"
    shift
    "$@"
    during=$?
    end_telling
    return $during
}

begin_telling() {
    [ -t 4 ] && [ ! "$raw" ] || return 0
    tell_progress "$1" < /dev/null > /dev/null 2>&1 9>&- &
    teller=$!
}

# It ends with the shell that began it, if that is killed.
tell_progress() {
    began=$(seconds_up)
    sleep 2
    while kill -0 $$; do
        printf '\r\033[Kleak_report: %s (%s s) ' "$1" $(($(seconds_up) - began)) >&4
        sleep 1
    done
}

# A signal that could be caught would be lost if the teller has just been forked.
end_telling() {
    [ "$teller" ] || return 0
    { kill -KILL "$teller" && wait "$teller"; } 2> /dev/null
    teller=''
    printf '\r\033[K' >&4
}
teller=''
