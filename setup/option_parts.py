"""What the table of leak_find's options writes into documents, man pages, completions and leak_report's help."""
import re
import textwrap

COLUMNS = 120
# What completions offer for a value, and what zsh says of it.
KINDS = {"N": "number", "LIST": "number", "ADDRESS": "address", "LOG1": "file"}
HINTS = {"LIST": "offsets, as 8,16: ", "ADDRESS": "address, as 0x1f: ", "LOG1": "earlier log:_files"}


def listed(words):
    """Words as a sentence lists them."""
    *first, last = words
    return f"{', '.join(first)} and {last}" if first else last


def code(words):
    """Words as Markdown has them in code."""
    return [f"`{word}`" for word in words]


def wrapped(text):
    """The lines of a paragraph."""
    return textwrap.wrap(text, COLUMNS, break_long_words=False, break_on_hyphens=False)


def by_options(table):
    """The names of options that some subcommands take, and these subcommands."""
    found = {}
    for subcommand in table.names():
        found.setdefault(tuple(option.name for option in table.of(subcommand)), []).append(subcommand)
    return found.items()


def taken(table):
    """Which subcommands take which options, in sentences."""
    names = [option.name for option in table.options]
    return " ".join(sentence_of(subcommands, own, [name for name in names if name not in own]) for own, subcommands in by_options(table))


def sentence_of(subcommands, own, others):
    """Which options these subcommands take: the shorter list tells it."""
    what = "all options" if not others else f"only {listed(code(own))}"
    if 0 < len(others) < len(own):
        what = f"all options but {listed(code(others))}"
    return f"{listed(code(subcommands))} {'take' if len(subcommands) > 1 else 'takes'} {what}."


def with_default(text, option):
    """A text with what holds without the option."""
    return text + (f" [{option.default}]" if option.default else "")


def reference(table):
    """The table of docs/REFERENCE.md, and which subcommands take which options."""
    rows = [f"| `{option.option}` | {with_default(option.means, option)} |" for option in table.options]
    return ["", "| Option | Meaning [default] |", "|---|---|", *rows, "", *wrapped(taken(table)), ""]


def bold(text):
    """A text of the table for a man page: what is code is bold."""
    return re.sub(r"`([^`]*)`", r"\\fB\1\\fR", text)


def spelled(option):
    """An option for a man page, with its value."""
    return f"\\fB{option.name}\\fR" + (f" \\fI{option.value}\\fR" if option.value else "")


def sentences(option):
    """What the man page says of an option."""
    return with_default(f"{option.means[0].upper()}{option.means[1:]}. {option.more}".rstrip(), option)


def manual(table):
    """The options on leak_find's man page."""
    rows = [line for option in table.options for line in (".TP", spelled(option), *wrapped(bold(sentences(option))))]
    return [*wrapped(bold(taken(table))), *rows]


def tag(options):
    """The options of an item on a man page: one line for roff, which goes on where the end of a line is escaped."""
    *lines, last = textwrap.wrap(", ".join(spelled(option) for option in options), COLUMNS - 2, break_on_hyphens=False)
    return [*(line + " \\" for line in lines), last]


def passed_on(table):
    """On leak_report's man page, when it takes the options that it passes on."""
    by_reason = {}
    for option in table.of("one"):
        by_reason.setdefault(option.chosen or "only if you name them", []).append(option)
    return [line for reason, options in by_reason.items() for line in (".TP", *tag(options), f"{reason[0].upper()}{reason[1:]}.")]


def report_words(table):
    """The same options in leak_report's own table of words."""
    rows = [f"find    {option.option:<15}  {option.short}" + "".join(f" [{it}]" for it in (option.chosen, option.default) if it)
            for option in table.of("one")]
    return ["find_options() {", "    cat << 'END'", *rows, "END", "}"]


def bash(table):
    """The options of each subcommand for bash, and what their values are."""
    lines = ["_leak_find_options() {", "    case $1 in"]
    lines += [f"    {' | '.join(subcommands)}) echo '{' '.join(own)}' ;;" for own, subcommands in by_options(table)]
    kinds = {}
    for option in table.options:
        if option.value:
            kinds.setdefault(KINDS[option.value], []).append(option.name)
    values = [f"    {' | '.join(names)}) echo {kind} ;;" for kind, names in kinds.items()]
    return [*lines, "    esac", "}", "", "_leak_find_value() {", "    case $1 in", *values, "    esac", "}"]


def zsh_row(option):
    """An option with its hint and its value, as zsh's _arguments takes them."""
    hint = re.sub(r"([:\[\]])", r"\\\1", option.short).replace("'", r"'\''")
    value = HINTS.get(option.value) or "{} to {}: ".format(*option.bounds) if option.value else ""
    return f"    '{option.name}=[{hint}]:{value}'" if value else f"    '{option.name}[{hint}]'"


def zsh(table):
    """The options of each subcommand for zsh: those that the same subcommands take are a list, and each takes some lists."""
    lists = {}
    for option in table.options:
        lists.setdefault("_leak_of_" + option.of.replace(" ", "_"), []).append(option)
    taken_by = {f"_leak_{name}": [each for each, options in lists.items() if name in options[0].of.split()] for name in table.names()}
    lines = [f"local -a {' '.join(names)}" for names in (lists, taken_by)]
    for each, options in lists.items():
        lines += [f"{each}=(", *(zsh_row(option) for option in options), ")"]
    return lines + [f"{name}=(${' $'.join(of)})" for name, of in taken_by.items()]


PARTS = {
    "docs/REFERENCE.md": reference,
    "capture/man/leak_find.1": manual,
    "capture/man/leak_report.1": passed_on,
    "capture/scripts/report_words.sh": report_words,
    "capture/completion/leak_find.bash": bash,
    "capture/completion/_leak_find": zsh,
}
