"""Command lines: what is taken, what is refused, and help.

The texts of a refused command line and of help are those of clap, the library that reads it. They are pinned as it writes them;
the options, and what help says of them, are those of setup/options.txt. No file is there: the words come first.
"""

import sys
from pathlib import Path

from case import case, one, refused
from cores import ONE_BLOCK, core, word
from texts import held, lost, misfits

sys.path.insert(0, str(Path(__file__).parent.parent / "setup"))
import option_help  # noqa: E402
import option_table  # noqa: E402

TABLE = option_table.read()
VERSION = "leak_find 0.1.0\n"
PROGRAM = "leak_find <COMMAND>"
LINES = {"one": "one core.k trace.log ", "two": "two a b c d ", "why": "why a b 0x1 ", "holders": "holders a b ", "grow": "grow a b "}
ONE = LINES["one"]
# What clap offers in place of an option that a subcommand lacks: one that it finds similar, as help names it.
SIMILAR = {("one", "--since"): "--piece <N>", ("two", "--since"): "--piece <N>", ("why", "--since"): "--strict",
           ("grow", "--since"): "--strict", ("why", "--stack"): "--strict", ("grow", "--stack"): "--strict"}


def clap(error, usage="", tip=""):
    """The text of a refused command line."""
    parts = [f"error: {error}", f"  tip: {tip}" if tip else "", f"Usage: {usage}" if usage else "",
             "For more information, try '--help'."]
    return "\n\n".join(part for part in parts if part) + "\n"


def usage_of(command, options=" [OPTIONS]"):
    """How a subcommand is used."""
    operands = " ".join(f"<{name}>" for name, _ in TABLE.subcommand(command).operand)
    return f"leak_find {command}{options} {operands}"


def bad(name, line, error, usage="", tip=""):
    """A command line that is refused, with status 2."""
    return case(f"words: {name}", "clap refuses the words", line, {}, "", clap(error, usage, tip), 2)


def of_help():
    """Help and the version are asked for: they go to standard output, with status 0."""
    rows = [(line.format(name), name) for name in LINES for line in ("{} --help", "{} -h", "help {}")]
    rows += [("one core.k trace.log --help", "one"), ("one --help --nonsense", "one")]
    asked = [(line, option_help.help_of_program(TABLE)) for line in ("--help", "-h", "help")]
    asked += [(line, option_help.help_of(TABLE, name)) for line, name in rows]
    found = [case(f"help: {line}", "help is asked for", line, {}, text) for line, text in asked]
    return found + [case(f"version: {line}", "the version is asked for", line, {}, VERSION) for line in
                    ("--version", "-V", "--version one", "-V --nonsense")]


def of_sample():
    """Without a word the sample is searched, whose one block is held."""
    return [case("no word", "the sample is the held block, and its heap is not glibc's", "", {}, held())]


def of_subcommands():
    """A subcommand is wanted, and no option comes before it."""
    return [
        bad("another subcommand", "three a b", "unrecognized subcommand 'three'", PROGRAM),
        bad("an empty word", [""], "unrecognized subcommand ''", PROGRAM),
        bad("a version of a subcommand", ONE + "--version", "unexpected argument '--version' found", usage_of("one", ""),
            "to pass '--version' as a value, use '-- --version'"),
        bad("an option before", "--workers 2 " + ONE, "unexpected argument '--workers' found", PROGRAM,
            "'one --workers' exists"),
    ]


def of_control_characters():
    """Clap shows words as they are. One with a control character is escaped first, so that no word forges a line."""
    forged, told = "x\nleak_find: warning: input 1: forged", "x\\nleak_find: warning: input 1: forged"
    return [
        bad("a subcommand with a line end", [forged], f"unrecognized subcommand '{told}'", PROGRAM),
        bad("a path more with a line end", ["one", "a", "b", forged], f"unexpected argument '{told}' found", usage_of("one")),
        bad("an option with an escape", ["one", "a", "b", "--\x1b[2K"], "unexpected argument '--\\x1b[2K' found", usage_of("one", ""),
            "to pass '--\\x1b[2K' as a value, use '-- --\\x1b[2K'"),
        bad("workers of a line end", ["one", "a", "b", "--workers", "1\n2"],
            "invalid value '1\\n2' for '--workers <N>': invalid digit found in string"),
        bad("a backslash alone", ["a\\nb"], "unrecognized subcommand 'a\\nb'", PROGRAM),
    ]


def of_paths():
    """Two paths, four, or two and an address."""
    missing = "the following required arguments were not provided:"
    return [
        bad("one without paths", "one", f"{missing}\n  <CORE>\n  <LOG>", usage_of("one", "")),
        bad("one without a log", "one core.k", f"{missing}\n  <LOG>", usage_of("one", "")),
        bad("one path more", ONE + "c", "unexpected argument 'c' found", usage_of("one")),
        bad("two without paths", "two", f"{missing}\n  <CORE1>\n  <LOG1>\n  <CORE2>\n  <LOG2>", usage_of("two", "")),
        bad("two without the second core", "two a b", f"{missing}\n  <CORE2>\n  <LOG2>", usage_of("two", "")),
        bad("two without the second log", "two a b c", f"{missing}\n  <LOG2>", usage_of("two", "")),
        bad("five paths", "two a b c d e", "unexpected argument 'e' found", usage_of("two")),
        bad("why without an address", "why a b", f"{missing}\n  <ADDRESS>", usage_of("why", "")),
        bad("two addresses", "why a b 0x1 c", "unexpected argument 'c' found", usage_of("why")),
        bad("holders without a log", "holders a", f"{missing}\n  <LOG>", usage_of("holders", "")),
        bad("holders of three files", "holders a b c", "unexpected argument 'c' found", usage_of("holders")),
        bad("grow of one log", "grow a", f"{missing}\n  <LOG2>", usage_of("grow", "")),
        bad("grow of three logs", "grow a b c", "unexpected argument 'c' found", usage_of("grow")),
    ]


def of_numbers():
    """Numbers of options, one below and one above their bounds, and no number."""
    bounds = {it.name.removeprefix("--"): it.bounds for it in TABLE.options if it.value == "N"}
    found = []
    for option, (least, most) in bounds.items():
        shown, valued = f"for '--{option} <N>'", "invalid value '{}' for '--" + option + " <N>': "
        outside = [most + 1, 1 << 32, 99999999999999999999] + ([0] if least else [])
        for number in outside[:2] + outside[3:]:
            found.append(bad(f"{option} of {number}", f"{ONE}--{option} {number}",
                             valued.format(number) + f"{number} is not in {least}..={most}"))
        found.append(bad(f"{option} of x", f"{ONE}--{option} x", valued.format("x") + "invalid digit found in string"))
        found.append(bad(f"{option} of nothing", f"{ONE}--{option}", f"a value is required {shown} but none was supplied"))
        found.append(bad(f"{option} twice", f"{ONE}--{option} 1 --{option} 2",
                         f"the argument '--{option} <N>' cannot be used multiple times", usage_of("one")))
    negative = bad("workers of -1", ONE + "--workers=-1", "invalid value '-1' for '--workers <N>': -1 is not in 1..=64")
    return [*found, negative,
            bad("two by 65 workers", "two a b c d --workers 65", "invalid value '65' for '--workers <N>': 65 is not in 1..=64")]


def of_flags():
    """Flags are given once, and without a value."""
    found = []
    for command, flag in [(command, it.name) for command in LINES for it in TABLE.of(command) if not it.value]:
        found.append(bad(f"{command} with {flag} twice", f"{LINES[command]}{flag} {flag}",
                         f"the argument '{flag}' cannot be used multiple times", usage_of(command)))
        found.append(bad(f"{command} with {flag} and a value", f"{LINES[command]}{flag}=true",
                         f"unexpected value 'true' for '{flag}' found; no more were expected",
                         usage_of(command, f" {flag}")))
    return [*found, bad("check twice with another heap", ONE + "--check --check --other-heap",
                        "the argument '--check' cannot be used multiple times", usage_of("one"))]


def of_other_options():
    """An option that no subcommand has, and each that another one has."""
    found = [bad("another option", ONE + "--no", "unexpected argument '--no' found", usage_of("one", ""),
                 "to pass '--no' as a value, use '-- --no'")]
    for command, option in [(command, it.name) for command in LINES for it in TABLE.options if it not in TABLE.of(command)]:
        similar = SIMILAR.get((command, option), "")
        tip = f"a similar argument exists: '{similar.split()[0]}'" if similar else f"to pass '{option}' as a value, use '-- {option}'"
        found.append(bad(f"{command} with {option}", f"{LINES[command]}{option}", f"unexpected argument '{option}' found",
                         usage_of(command, f" {similar}".rstrip()), tip))
    return found


def of_lists():
    """Lists of displacements: the first item at fault is told, from 0, and a bad list before what follows it."""
    seventeen = ",".join(str(number) for number in range(1, 18))
    rows = [
        ("", "item 0 is not a number"), ("8,,16", "item 1 is not a number"), ("8,", "item 1 is not a number"),
        ("+8", "item 0 is not a number"),
        ("-1", "item 0 is not a number"), ("0x8", "item 0 is not a number"), ("8 ", "item 0 is not a number"),
        ("8,x", "item 1 is not a number"),
        ("000000000000000000008", "item 0 is not a number"), ("18446744073709551616", "item 0 is not a number"),
        ("65536,x", "item 1 is not a number"),
        ("65536", "item 0 is over 65535"), ("8,18446744073709551615", "item 1 is over 65535"),
        (seventeen, "more than 16 values"),
        (seventeen + ",x", "item 17 is not a number"), (seventeen + ",65536", "more than 16 values"),
    ]
    found = [refused(f"list: {listed or 'empty'}", "1 to 16 decimal numbers of 1 to 20 digits, up to 65535",
                     [*ONE.split(), f"--displace={listed}"], {},
                     f"--displace: {text}") for listed, text in rows]
    both = "--check: not with --other-heap"
    return [*found, bad("no list", ONE + "--displace", "a value is required for '--displace <LIST>' but none was supplied"),
            bad("two lists", ONE + "--displace 8 --displace 16",
                "the argument '--displace <LIST>' cannot be used multiple times", usage_of("one")),
            refused("list: of holders", "as of a search", "holders a b --displace x", {}, "--displace: item 0 is not a number"),
            refused("list: of two cores", "as of one", "two a b c d --displace x", {}, "--displace: item 0 is not a number"),
            refused("list: before the heap", "the list is refused first", ONE + "--check --other-heap --displace x", {},
                    "--displace: item 0 is not a number"),
            refused("check with another heap", "nothing could be compared", ONE + "--check --other-heap", {}, both),
            refused("check with another heap, two cores", "nothing could be compared",
                    "two a b c d --other-heap --check --strict", {}, both)]


def of_taken_words():
    """The places of options, and words that begin with a dash."""
    files, warned = {"-a": core(word(0x10008, 0x10110)), "-b": ONE_BLOCK}, misfits(1, 1)
    image = core(word(0x10008, 0x10110))
    lines = ["one --workers=64 --piece=65536 --stack=65536 -- -a -b", "one --workers 1 --piece=1 --stack 0 -- -a -b"]
    found = [case(f"words: {line}", "paths that begin with a dash come after two", line, files, held(),
                  warned) for line in lines]
    between = case("words: options between paths", "options follow the subcommand anywhere",
                   "one --strict core.k --displace 8 trace.log --check",
                   {"core.k": image, "trace.log": ONE_BLOCK}, lost(misfits=1) + "misfit 0x10100 32 1 ./a.out:[0x401136]\n",
                   warned, 3)
    return [*found, between, one("words: displaced by two workers", "16 bytes in, and by 8 alone", image, ONE_BLOCK, lost(),
                                 "--displace 8 --workers 2", warned)]


def cases():
    """All command lines."""
    tables = (of_help, of_sample, of_subcommands, of_control_characters, of_paths, of_numbers, of_flags, of_other_options, of_lists,
              of_taken_words)
    return [each for table in tables for each in table()]
