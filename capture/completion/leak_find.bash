# Completion for bash of leak_find and the commands around it. `make install` puts it where bash-completion looks for each of them.

# The options of leak_find's subcommands, and what their values are (written by setup/options.py: begin).
_leak_find_options() {
    case $1 in
    one | two) echo '--skip-freed --skip-links --skip-slack --skip-dead-stack --skip-ends --all-memory --displace --check --other-heap --strict --workers --piece --stack' ;;
    why) echo '--skip-freed --skip-links --skip-slack --skip-dead-stack --skip-ends --all-memory --displace --other-heap --strict' ;;
    holders) echo '--skip-freed --skip-links --skip-slack --skip-dead-stack --skip-ends --all-memory --displace --other-heap --strict --in --of --block --since --workers --piece --stack' ;;
    grow) echo '--strict' ;;
    esac
}

_leak_find_value() {
    case $1 in
    --displace | --workers | --piece | --stack) echo number ;;
    --in | --of) echo address ;;
    --since) echo file ;;
    esac
}
# written by setup/options.py: end

# The options of a command, or of a subcommand of leak_find.
_leak_options() {
    case $1 in
    leak_find) echo '-h --help -V --version' ;;
    help) echo '-h --help' ;;
    one | two | holders | why | grow) echo "$(_leak_find_options "$1") -h --help" ;;
    leak_trace) echo '-o -d -m -w -k -e --attach --detach --list --all --remove --version' ;;
    leak_dump) echo '--after --core --size --whole-stack --no-calls --pipes --hold --version' ;;
    leak_log) echo '--after --version' ;;
    leak_walk) echo '--partial --quiet --names --after --arenas --unused --version' ;;
    leak_what) echo '--types --root --place --version' ;;
    leak_report) echo "--attach --grow --for --keep --files --after --root --unchecked --list --raw --html --version --whole-stack --no-calls --pipes --hold -n --structures --why $(_leak_find_options one)" ;;
    leak_lines) echo '-n --suppress --exit-code --folded --json --html --since --no-lines --what --structures --why --plain --core --log --root --pid --unchecked --copy-files --version' ;;
    esac
}

# What the value of an option is, or nothing where it has none.
_leak_value() {
    case "$1 $2" in
    leak_*' --hold' | leak_*' -n' | leak_*' --why' | 'leak_trace -d' | 'leak_trace -m' | 'leak_report --for') echo number ;;
    'leak_report --keep' | 'leak_report --after' | *' --root' | 'leak_lines --copy-files') echo folder ;;
    'leak_dump --size' | 'leak_lines --pid' | 'leak_trace --attach' | 'leak_trace --detach') echo process ;;
    *' --names' | *' --unused' | *' --after' | *' --core' | *' --suppress' | *' --since' | *' --html' | *' --what' | *' --log' | *' --plain' | *' -o') echo file ;;
    *) _leak_find_value "$2" ;;
    esac
}

# What the operand at a place is, counted from 0.
_leak_operand() {
    case "$1 $2" in
    'leak_find 0' | 'help 0') echo subcommand ;;
    'leak_trace 0') echo program ;;
    'leak_dump 0' | 'leak_report 0') echo process ;;
    'why 2') echo address ;;
    *) echo file ;;
    esac
}

# The processes of this user.
_leak_processes() {
    local folder
    for folder in /proc/[0-9]*; do
        [ -O "$folder" ] && echo "${folder#/proc/}"
    done
}

# _leak_offer KIND WORD: the words of this kind that begin so.
_leak_offer() {
    case $1 in
    subcommand) compgen -W 'one two why holders grow help' -- "$2" ;;
    program) compgen -c -- "$2"; compgen -f -- "$2" ;;
    process) compgen -W "$(_leak_processes)" -- "$2"; compgen -f -- "$2" ;;
    folder) compgen -d -- "$2" ;;
    file) compgen -f -- "$2" ;;
    esac
}

# Goes through the words before the one that is asked for: sets the command that rules, and the operands and value that are before it.
_leak_walk_words() {
    local i
    for ((i = 1; i < COMP_CWORD; i++)); do
        local each=${COMP_WORDS[i]}
        if [ "$each" = '=' ]; then
            continue
        elif [ "$value" ]; then
            value=
        elif [[ $each == -?* ]]; then
            value=$(_leak_value "$command" "$each")
        elif [ "$command" = leak_find ]; then
            command=$each
        else
            operands=$((operands + 1))
        fi
    done
}

_leak_complete() {
    local command=${COMP_WORDS[0]##*/} word=${COMP_WORDS[COMP_CWORD]} operands=0 value=
    _leak_walk_words
    [ "$word" != '=' ] || word=
    local kind=${value:-$(_leak_operand "$command" "$operands")}
    if [[ ! $value && $word == -* && ($command != leak_trace || $operands == 0) ]]; then
        mapfile -t COMPREPLY < <(compgen -W "$(_leak_options "$command")" -- "$word")
        return
    fi
    [ "$kind" = subcommand ] || compopt -o filenames 2> /dev/null # fails where no completion goes on, as in tests
    mapfile -t COMPREPLY < <(_leak_offer "$kind" "$word")
}

complete -F _leak_complete leak_find leak_trace leak_dump leak_log leak_walk leak_what leak_report leak_lines
