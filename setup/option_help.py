"""The help of leak_find by the table of its options, and whether the program and its source have the same."""
import re
import subprocess

SOURCE = "crates/leak_request/src/command_line.rt"
SECONDS = 10
# How the source writes a flag, an option with a text and one with a number.
FLAG = re.compile(r'flag\(alloc, "([a-z-]+)", ([A-Z_]+)\)')
WITH_TEXT = re.compile(r'text\(alloc, "([a-z-]+)", "([A-Z0-9]+)", ([A-Z_]+)\)')
WITH_NUMBER = re.compile(r'\.long\("([a-z]+)"\)\s+\.value_name\("(N)"\)\s+\.default_value\("(\d+)"\)\s+'
                         r'\.value_parser\(clap::value_parser!\(u32\)\.range\((\d+)\.\.=(\d+)\)\)\s+\.help\("(.*)"\)')
CONSTANT = re.compile(r'^const ([A-Z_]+): &str =\s+"(.*)";$', re.MULTILINE)


def columns(rows):
    """Rows of two texts, the second ones below each other, as clap lays them out."""
    width = max(len(left) for left, _ in rows)
    return [f"  {left:<{width}}  {right}" for left, right in rows]


def help_line(option):
    """What help says of an option, with its default."""
    return option.help + (f" [default: {option.default}]" if option.default else "")


def help_of(table, name):
    """What `leak_find NAME --help` prints."""
    subcommand = table.subcommand(name)
    operands = [(f"<{operand}>", text) for operand, text in subcommand.operand]
    options = [(f"    {it.name}" + (f" <{it.value}>" if it.value else ""), help_line(it)) for it in table.in_help(name)]
    usage = " ".join(["leak_find", name, "[OPTIONS]", *(operand for operand, _ in operands)])
    return "\n".join([subcommand.about, "", f"Usage: {usage}", "", "Arguments:", *columns(operands), "",
                      "Options:", *columns([*options, ("-h, --help", "Print help")]), ""])


def help_of_program(table):
    """What `leak_find --help` prints."""
    commands = [(it.subcommand, it.about) for it in table.subcommands]
    commands.append(("help", "Print this message or the help of the given subcommand(s)"))
    options = [("-h, --help", "Print help"), ("-V, --version", "Print version")]
    return "\n".join([table.program.about, "", "Usage: leak_find <COMMAND>", "", "Commands:", *columns(commands), "",
                      "Options:", *columns(options), ""])


def helps(table):
    """The arguments that ask for help, with what they print."""
    return [(("--help",), help_of_program(table)), *(((name, "--help"), help_of(table, name)) for name in table.names())]


def program_faults(table, program):
    """What a program's help has otherwise than the table. It is called by its usual name, which its help tells."""
    faults = []
    for words, wanted in helps(table):
        done = subprocess.run(["leak_find", *words], executable=program, capture_output=True, text=True, timeout=SECONDS, check=False)
        lines, found = wanted.splitlines(), done.stdout.splitlines()
        faults += [f"{program} {' '.join(words)} lacks: {line}" for line in lines if line not in found]
        faults += [f"setup/options.txt lacks, of {' '.join(words)}: {line}" for line in found if line not in lines]
        if not faults and (done.stdout, done.returncode) != (wanted, 0):
            faults.append(f"{program} {' '.join(words)} has other lines, or status {done.returncode}")
    return faults


def wanted_rows(table):
    """Name, value, default, bounds and help of each option, as the source should have them."""
    for it in table.options:
        if it.value == "N":
            yield it.name, it.value, it.default, it.bounds, it.help
        else:
            yield it.name, it.value, "", (), help_line(it)


def source_rows(source):
    """Name, value, default, bounds and help of each option of the source."""
    texts = dict(CONSTANT.findall(source))
    for name, text in FLAG.findall(source):
        yield f"--{name}", "", "", (), texts.get(text)
    for name, value, text in WITH_TEXT.findall(source):
        yield f"--{name}", value, "", (), texts.get(text)
    for name, value, default, least, most, text in WITH_NUMBER.findall(source):
        yield f"--{name}", value, default, (int(least), int(most)), text


def source_faults(table, source):
    """What the source of the command line has otherwise than the table."""
    wanted, found = set(wanted_rows(table)), set(source_rows(source))
    faults = [f"{SOURCE} lacks: {row}" for row in sorted(wanted - found)]
    faults += [f"setup/options.txt lacks, of {SOURCE}: {row}" for row in sorted(found - wanted, key=str)]
    texts = [table.program.about, *(it.about for it in table.subcommands), *(text for it in table.subcommands for _, text in it.operand)]
    return faults + [f"{SOURCE} lacks: {text}" for text in texts if f'"{text}"' not in source]
