"""From a row to the variable: what holds the block that its blocks look like, by leak_find why; leak_what names the
root."""
import os
import re
import shutil
from typing import NamedTuple

from lines import kernel_words, limited
from lines.what import visible

HERE = os.path.join(os.path.dirname(os.path.abspath(__file__)), "..")
OF_HOLDER = 5  # numbers of a row of holders
# The options that fit a log, as `fitting` of scripts/common.sh has them. A path through dead stack explains nothing.
OTHER_HEAP = ("--other-heap", "--skip-ends", "--all-memory", "--skip-dead-stack")
GLIBC_HEAP = ("--skip-freed", "--skip-links", "--all-memory", "--skip-dead-stack")
ALLOCATOR = re.compile(b"= [a-z_]+ allocator (?!glibc)")
WALKED = re.compile(b"= leak_walk (?:heap|unused) ")
ROOT = re.compile("root (.*) holds (0x[0-9a-f]+)")
LINK = re.compile("word (0x[0-9a-f]+) holds (0x[0-9a-f]+)")
BLOCK = re.compile("block (0x[0-9a-f]+) [0-9]+ [0-9]+ (.*)", re.DOTALL)


class Dump(NamedTuple):
    """The core and the log beside a file of the same name."""
    core: str
    log: str


def dump_beside(path):
    """The core and the log of the dump that the file belongs to, or None."""
    found = path and Dump(*(os.path.splitext(path)[0] + end for end in (".core", ".log")))
    return found if found and os.path.exists(found.core) and os.path.exists(found.log) else None


def program(name):
    """The path of a program: as LEAK_FIND says, beside leak_lines, or in PATH; or None."""
    given = os.environ.get("LEAK_FIND") if name == "leak_find" else None
    beside = os.path.join(HERE, name)
    found = (shutil.which(given) or given) if given else (beside if os.access(beside, os.X_OK) else shutil.which(name))
    return found and os.path.abspath(found)


def output_of(dump, name, *words):
    """The lines that one of our programs prints of the dump, or none where it can't be had."""
    path = program(name)
    return limited.lines_of_dump([path, *words], *dump) if path else ()


def options_for(log):
    """The options of a search that fit the log."""
    is_other = is_walked = False
    with open(log, "rb") as file:
        for line in file:
            is_other = is_other or bool(ALLOCATOR.match(line))
            is_walked = is_walked or bool(WALKED.match(line))
    if not is_other:
        return GLIBC_HEAP
    return (*OTHER_HEAP, "--skip-freed") if is_walked else OTHER_HEAP


def why_of(dump, address):
    """The lines of leak_find's answer."""
    return output_of(dump, "leak_find", "why", *options_for(dump.log), dump.core, dump.log, address)


def named_root(dump, line, root):
    """The root's place in words: a word that only the kernel holds, an address as leak_what names it, or a register."""
    told = kernel_words.told(line, *kernel_words.read(dump.core))
    if told != line:
        return told.removeprefix(line + ": ")
    lines = list(output_of(dump, "leak_what", "--place", dump.core, root)) if root.startswith("0x") else []
    return lines[0].split(" ", 2)[2] if len(lines) == 1 and lines[0].startswith(f"place {root} ") else root


def chain_of(dump, lines):
    """The chain in words, a line for each block on the way. NoAnswer, if the program that prints the lines fails."""
    shown, last = [], ""
    for line in lines:
        root, link, block = ROOT.fullmatch(line), LINK.fullmatch(line), BLOCK.fullmatch(line)
        if root:
            shown.append(f"  {visible(named_root(dump, line, root[1]))}")
        elif link:
            shown[-1] += f", +{int(link[1], 16) - int(last, 16):#x}"
        elif block:
            last = block[1]
            shown.append(f"  {block[1]} {visible(block[2])}")
    return shown


def likeness_in(facts):
    """The held block that most of the blocks with these facts look like, or None."""
    return next((it.fact.words[0] for it in facts if it.fact.kind == "like"), None)


def chain_to(dump, address):
    """The chain in words, or none."""
    try:
        return chain_of(dump, why_of(dump, address))
    except limited.NoAnswer:
        return []


def lines_of(dump, addresses):
    """The chains to these held blocks."""
    out, dump = [], Dump(*map(os.path.abspath, dump))
    for address in addresses:
        out += [f"chain to {address}:", *(chain_to(dump, address) or ["  leak_find why has no answer"])]
    return out


def hint(dump, address):
    """The command that shows the chain."""
    options = " ".join(options_for(dump.log))
    return f"chain to {address}: leak_find why {options} {visible(dump.core)} {visible(dump.log)} {address}"


def below_tables(asked, rows, said):
    """What follows the tables: chains if they are asked for, else the command that shows the first one."""
    dump = dump_beside(asked.what or asked.path) if asked.what or asked.why else None
    if dump is None:
        return []
    likely = [likeness_in(said.facts(row)) for row in rows]
    found = [it or row.address for it, row in zip(likely, rows) if it or len(row.numbers) == OF_HOLDER]
    addresses = list(dict.fromkeys(found))
    if asked.why:
        return lines_of(dump, addresses[:asked.why])
    return [hint(dump, addresses[0])] if addresses else []
