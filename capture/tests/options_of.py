"""The options that programs, their man pages and their helps name."""
import os
import re
import sys

KIT = os.path.join(os.path.dirname(os.path.realpath(__file__)), "..")
sys.path.insert(0, os.path.join(KIT, "..", "setup"))
import option_help  # noqa: E402
import option_table  # noqa: E402

TABLE = option_table.read()
SUBCOMMANDS = tuple(TABLE.names())
SOURCES = {"leak_trace": "leak_trace", "leak_dump": "leak_dump", "leak_report": "scripts/report_words.sh",
           "leak_lines": "lines/options.py",
        "leak_log": "log/leak_log.c", "leak_walk": "walk/leak_walk.c", "leak_what": "what/leak_what.c"}
OPTION = re.compile(r"(?<![\w/-])--?[a-z][a-z-]*")
LISTED = re.compile(r"^(?:  |[a-z]+ +)(--?[a-z][a-z-]*)(?= )", re.MULTILINE)
PAGE_OPTION = re.compile(r"(?:\\fB|^\.B [a-z_]+ (?=-))(--?[a-zA-Z][a-z-]*)", re.MULTILINE)


def text_of(*path):
    """The text of a file of capture."""
    with open(os.path.join(KIT, *path), encoding="utf-8") as file:
        return file.read()


def of_page(name):
    """The options that a man page has."""
    return set(PAGE_OPTION.findall(text_of("man", name + ".1")))


def of_program(name):
    """The options that the usage of a program has."""
    return of_usage(text_of(SOURCES[name]))


def of_usage(text):
    """The options that the lines of a usage have, or if it says [OPTION..], those that have a line each."""
    if "[OPTION..]" in text:
        return set(LISTED.findall(text))
    return set(OPTION.findall("\n".join(re.findall(r"usage: .*(?:\n {7,}.*)*", text))))


def of_help(subcommand):
    """The options of a subcommand of leak_find, or of the program itself, and those that take a value."""
    text = option_help.help_of_program(TABLE) if subcommand == "program" else option_help.help_of(TABLE, subcommand)
    lines = [line for line in text.splitlines() if line.startswith("  ")]
    found = [re.match(r" +(?:(-[a-zA-Z]), )?(--[a-z-]+)( <)?", line) for line in lines]
    found = [match for match in found if match]
    return {word for match in found for word in match.groups()[:2] if word}, {match[2] for match in found if match[3]}
