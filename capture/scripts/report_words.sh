# The words of leak_report.

# Its options, once each: who takes it, its name and value, and what it does. `report` is leak_report itself; `dump`,
# `find` and `lines` are leak_dump, leak_find and leak_lines, to which the option is handed on as it is.
options() {
    cat << 'END'
report  --keep DIR       keeps core, log and report in the folder
report  --files          with --keep: also keeps the process's mapped files, for names later or on another machine
report  --after DIR      reports only what is lost both now and in the dump that DIR keeps
report  --attach         traces the process, waits, and reports what is lost; blocks allocated since have call stacks
report  --grow           dumps the process twice, and reports what grew, reachable or lost, and what retains it
report  --for TIME       how long --attach and --grow wait, such as 90s, 10m or 2h [10m]
report  --list           also prints each lost block
report  --raw            prints leak_find's own lines, with names, for scripts
report  --html FILE      also writes a page: what was lost, what grew (if there are two dumps), what retains the memory
report  --version        prints the version
dump    --whole-stack    keeps memory below the stack pointers in the core, though it hides leaks
dump    --no-calls       makes no system calls in the process's threads; alternate signal stacks stay unknown
dump    --pipes          counts blocks whose addresses wait in pipes as reachable
dump    --hold SECONDS   how long the process may be stopped; past that there is no report [20, and 1 for each 32 MiB]
lines   -n N             shows the first N rows of the table
lines   --structures     with --raw: shows a row for each kind of lost structure, not for each caller
lines   --why N          shows the paths to the reachable blocks that the lost ones in the first N rows look like
lines   --root DIR       looks for the process's files below DIR first, such as a container's root
lines   --unchecked      also takes names from files without a build-id, whose build is unknown
END
    find_options
}

# Those that leak_find takes (written by setup/options.py: begin).
find_options() {
    cat << 'END'
find    --skip-freed     skips pointers in freed memory [chosen if the heap is glibc's, or another that was walked]
find    --skip-links     skips glibc's own links to free memory [chosen if the heap is glibc's]
find    --skip-slack     skips pointers in the bytes that malloc gave a block past its size
find    --skip-dead-stack  skips pointers below stack pointers [chosen if you give a core]
find    --skip-ends      skips pointers one past the end of a block [chosen if the log names another allocator]
find    --all-memory     also counts pointers in memory that can't be written [always chosen]
find    --displace LIST  byte offsets at which a pointer keeps a block alive, besides 0, such as 8,16 [any]
find    --check          lists live blocks that have no chunk of their size in use
find    --other-heap     the allocator is not glibc's [chosen if the log names another allocator]
find    --strict         exits with status 3 on any warning
find    --workers N      threads that search, 1 to 64 [4]
find    --piece N        root words that a thread takes at a time [512]
find    --stack N        blocks that a thread keeps to scan itself [1024]
END
}
# written by setup/options.py: end

usage() {
    echo 'usage: leak_report [OPTION..] PID | CORE [TABLE]' >&2
    [ "${1-}" != help ] || {
        cat << 'END'
Reports what a C or C++ program has leaked: memory that was allocated, not freed, and is no longer reachable.

  PID              one of your processes (any process, as root); it is stopped for a moment, then resumed
  CORE             a core that the kernel wrote (if its name is a number: ./4711)
  TABLE            for call stacks: the table that a process under leak_trace left (leak_trace --list shows it)
END
        options | sed 's/^[a-z]*  *-/  -/'
        cat << 'END'

status: 0 if nothing is lost; 1 if something is; 2 if there is no answer, with a line on standard error; 3 with
--strict, if there is a warning
END
    } >&2
    exit 2
}

# take OPTION [VALUE]: sets a variable of leak_report's own options, or adds to the words of who takes it.
take() {
    case $1 in
    --keep) keep=$2 ;;
    --after) after=$2 ;;
    --list) list=1 ;;
    --raw) raw=1 ;;
    --html) html=$2 ;;
    --files) files=1 ;;
    --root)
        lines_words="$lines_words$(quoted "$@")"
        what_words="$what_words$(quoted "$@")"
        ;;
    --attach) attaches=1 ;;
    --grow) grows=1 ;;
    --for) seconds=$(seconds_of "$2") ;;
    *) eval "${taker}_words=\$${taker}_words\$(quoted \"\$@\")" ;;
    esac
}

# Is the value what the option takes? What leak_find takes it says itself.
check_value() {
    case $1 in
    -n | --why) case $2 in '' | 0* | *[!0-9]* | ???????????????????*) usage ;; esac ;;
    --for) [ "$(seconds_of "$2")" -gt 0 ] 2> /dev/null || usage ;;
    *) [ "$2" ] || usage ;;
    esac
}

# seconds_of TIME: 90s, 10m or 2h in seconds, and nothing of what is no time.
seconds_of() {
    printf '%s\n' "$1" |
        awk '/^[1-9][0-9]?[0-9]?[0-9]?[0-9]?[0-9]?[smh]?$/ { print $0 * (/h$/ ? 3600 : /m$/ ? 60 : 1) }'
}

# read_words WORD..: reads the options, which may stand behind the operands too. These are in `operands`.
read_words() {
    keep='' after='' list='' raw='' html='' files='' attaches='' grows='' seconds=600 operands=''
    dump_words='' find_words='' lines_words='' what_words=''
    while [ $# -gt 0 ]; do
        case $1 in
        -h | --help) usage help ;;
        --version) tell_version ;;
        --) shift && operands="$operands$(quoted "$@")" && return ;;
        -?*)
            read_option "$@"
            shift "$read"
            ;;
        *)
            operands="$operands$(quoted "$1")"
            shift
            ;;
        esac
    done
}

# read_option WORD..: reads the option that comes first, and gives in `read` how many words it has.
read_option() {
    read=1
    option=$(options | awk -v name="${1%%=*}" '$2 == name { print $1, $2, $3 ~ /^[A-Z]+$/ }')
    taker=${option%% *}
    case "$option $1" in
    ' '* | *' 0 '*=*) usage ;;
    *' 0 '*) take "$1" ;;
    *=*)
        check_value "${1%%=*}" "${1#*=}"
        take "${1%%=*}" "${1#*=}"
        ;;
    *)
        [ $# -gt 1 ] || usage
        check_value "$1" "$2"
        take "$1" "$2"
        read=2
        ;;
    esac
}
