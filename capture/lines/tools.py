"""Asks eu-addr2line for lines and nm for symbols, or others where these are not there. They get open files, and one
that they can't read has neither."""
import re
import shutil
from bisect import bisect_left
from functools import lru_cache
from typing import NamedTuple

from lines import limited, progress

SYMBOL = re.compile("([0-9a-f]{16}) (?:([0-9a-f]{16}) )?([A-Za-z]) (.*)", re.DOTALL)
FUNCTION_TYPES, OBJECT_TYPES = "TtWwi", "BbDdRrVvuGgSs"
VERSION = re.compile("@{1,2}[^@ ]+$")
DISCRIMINATOR = re.compile(r" \(discriminator [0-9]+\)$")
# Those that are asked, the first that is there. elfutils tell the right file of a line in a header and the name of each
# inlined function, which addr2line of binutils 2.40 does not always; but they take some milliseconds for a place in a
# large source, so for many places it is the other way round. The nm of elfutils does not say that an indirect function
# is one.
LINES = (("eu-addr2line", "-a", "-f", "-i", "-e"), ("addr2line", "-a", "-f", "-i", "-e"))
SYMBOLS = (("nm", "-S"), ("eu-nm", "-B", "-S", "-p"))
INLINED = re.compile(" inlined (at|in) ")
COLUMN = re.compile("(:[0-9]+):[0-9]+$")
MOST_SLOW = 4000  # places in a file
MOST_AROUND = 1 << 20  # pairs of an address and a function around it, of which a right file has one or two for each


class Symbols(NamedTuple):
    """What nm knows of a file: of an address the functions around it, the innermost last, and the object that has
    it."""
    around: dict
    objects: dict


@lru_cache(maxsize=None)
def command_of(kind):
    """The words of the first of these commands that is there, or none, which is said once."""
    found = next((words for words in kind if shutil.which(words[0])), None)
    if found is None:
        limited.say(f"neither {kind[0][0]} nor {kind[1][0]} is installed: names are missing")
    return found or ()


def of_binutils(function, where):
    """The pair of function and file:line, as addr2line says it."""
    return function, DISCRIMINATOR.sub("", where)


def of_elfutils(function, where):
    """The same as eu-addr2line says it: with the column, and of what was inlined with the places of the calls."""
    return INLINED.split(function, 1)[0], COLUMN.sub(r"\1", where)


def read_answers(lines, addresses, pair=of_binutils):
    """Of each address, in the order asked, the pairs of function and file:line: first what was inlined, last the
    function itself."""
    answers, following, pairs, function = {}, iter(addresses), None, None
    expected = next(following, None)
    for line in lines:
        if expected is not None and function is None and pairs != [] and line == f"0x{expected:016x}":
            pairs = answers.setdefault(expected, [])
            expected = next(following, None)
            progress.SHOWN.done += 1
        elif function is None:
            function = line
        elif pairs is not None:
            pairs.append(pair(function, line))
            function = None
    return {address: pairs for address, pairs in answers.items() if pairs}


def ask_lines(file, addresses):
    """By address, what addr2line says of it."""
    command = command_of(LINES if len(addresses) <= MOST_SLOW else LINES[::-1])
    text = "".join(f"0x{address:x}\n" for address in addresses)
    lines = limited.lines_of(command, file, text, len(addresses)) if command else ()
    answers = read_answers(lines, addresses, of_elfutils if command == LINES[0] else of_binutils)
    if command and len(answers) < len(addresses):
        limited.say(f"{command[0]} told nothing of {len(addresses) - len(answers)} of {len(addresses)} places in "
                    f"{file.path}")
    return answers


@lru_cache(maxsize=None)
def plain(name):
    """A symbol's name without its version."""
    return VERSION.sub("", name)


def within(addresses, start, size):
    """Those of the sorted addresses that lie in the range."""
    return addresses[bisect_left(addresses, start):bisect_left(addresses, start + size)]


def read_symbols(lines, calls, addresses):
    """The symbols of nm's lines at these addresses, which are sorted: functions at calls, objects at addresses. Of
    functions around one address the one that starts last is the innermost. No more are taken than a right file has of
    them."""
    around, objects, left = {}, {}, MOST_AROUND
    for line in lines:
        match = SYMBOL.fullmatch(line)
        if not match:
            continue
        start, size, name = int(match[1], 16), int(match[2] or "0", 16), match[4]
        if match[3] in FUNCTION_TYPES:
            found = within(calls, start, size)[:left]
            left -= len(found)
            for address in found:
                around.setdefault(address, set()).add((start, plain(name)))
        elif match[3] in OBJECT_TYPES:
            objects.update((address, name) for address in within(addresses, start, size))
    return Symbols({address: [name for _, name in sorted(pairs)] for address, pairs in around.items()}, objects)


def symbol_lines(files):
    """nm's lines of these files: pairs of further words and a file."""
    command = command_of(SYMBOLS)
    for words, file in files if command else ():
        yield from limited.lines_of(command + words, file, "", 0)


def ask_symbols(file, further, calls, addresses):
    """What nm knows of the file: its own symbols, those for the loader, which a stripped file still has, and those of
    its debug files."""
    return read_symbols(symbol_lines([((), file), (("-D",), file)] + [((), it) for it in further]), calls, addresses)
