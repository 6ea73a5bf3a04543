#!/usr/bin/env python3
"""Writes leak_find's options, as options.txt has them, wherever they are listed, or checks that they stand there.

    setup/options.py --write
    setup/options.py --check [PROGRAM]

A part that is written stands between a line with `setup/options.py: begin` and one with `setup/options.py: end`. The check
compares the source of the command line too and, if a leak_find is named, what it prints as help. The status is 0, or 1 with a
line on standard output for each fault.
"""
import re
import subprocess
import sys
from pathlib import Path

import option_help
import option_parts
import option_table

TOP = Path(__file__).resolve().parent.parent
PART = re.compile(r"(?<=\n)([^\n]*setup/options\.py: begin[^\n]*\n)(.*?)([^\n]*setup/options\.py: end)", re.DOTALL)


def written(path, text, lines):
    """The text of a file with these lines in its part."""
    if len(PART.findall(text)) != 1:
        raise option_table.Fault(f"{path} has not just one part of setup/options.py")
    return PART.sub(lambda match: match[1] + "".join(f"{line}\n" for line in lines) + match[3], text)


def changed_files(table, top):
    """The files whose parts are not as the table says, each with the text that it should have."""
    for path, lines_of in option_parts.PARTS.items():
        text = (top / path).read_text(encoding="utf-8")
        wanted = written(path, text, lines_of(table))
        if wanted != text:
            yield path, wanted


def write(top=TOP):
    """Writes all parts, and says which of them changed."""
    for path, text in changed_files(option_table.read(), top):
        (top / path).write_text(text, encoding="utf-8")
        print(f"wrote {path}")


def faults(table, top, programs):
    """What is not as the table says."""
    found = [f"{path} is not as setup/options.txt says: run setup/options.py --write" for path, _ in changed_files(table, top)]
    found += option_help.source_faults(table, (top / option_help.SOURCE).read_text(encoding="utf-8"))
    return found + [fault for program in programs for fault in option_help.program_faults(table, program)]


def check(programs, top=TOP):
    """Prints what is wrong, and gives the status."""
    found = faults(option_table.read(), top, programs)
    print("".join(f"options: {fault}\n" for fault in found), end="")
    return 1 if found else 0


def main(words):
    """Writes or checks."""
    if words[:1] not in (["--write"], ["--check"]) or words[0] == "--write" and words[1:]:
        print("usage: setup/options.py --write | --check [PROGRAM..]", file=sys.stderr)
        return 2
    try:
        return check(words[1:]) if words[0] == "--check" else write()
    except (option_table.Fault, OSError, subprocess.TimeoutExpired) as error:
        print(f"options: {error}")
        return 1


if __name__ == "__main__":
    sys.exit(main(sys.argv[1:]))
