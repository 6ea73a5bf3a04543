"""What lost blocks are, as leak_what tells it: a line for each fact. docs/FORMAT.md defines the lines."""
import re
from collections import Counter
from typing import NamedTuple

from lines import demangle
from lines.options import Refused
from lines.units import size

ADDRESS, QUOTED = "(0x[0-9a-f]{1,16})", '("(?:[^"\\\\]|\\\\.)*"(?:\\.\\.)?)'
SHAPES = {
    "stdio": re.compile(f"stdio {ADDRESS}"),
    "like": re.compile(f"like {ADDRESS} {ADDRESS} ([0-9]+) (.*)"),
    "type": re.compile(f"type {ADDRESS} (.+)"),
    "text": re.compile(f"text {ADDRESS} ([0-9]+) {QUOTED}"),
    "word": re.compile(f"word {ADDRESS} (\\+0x[0-9a-f]+) (.+)"),
    "literal": re.compile(f"literal {ADDRESS} (\\+0x[0-9a-f]+) {QUOTED}"),
    "object": re.compile(f"object {ADDRESS} (talloc|python|glib) {QUOTED}"),
    "container": re.compile(f"container {ADDRESS} (tree|hash|buckets|string) ([0-9]+) {ADDRESS} (\\+0x[0-9a-f]+)"),
    "holds": re.compile(f"holds {ADDRESS} ([0-9]+) bytes ([0-9]+)"),
    "part": re.compile(f"part {ADDRESS} {ADDRESS}"),
    "led": re.compile(f"led {ADDRESS} {ADDRESS}"),
}
TELLING = ("stdio", "object", "like", "text", "container", "word", "literal", "holds")  # the most telling first
CONTAINERS = {
    "tree": "node of std::map or set",
    "hash": "node of std::unordered_map or set",
    "buckets": "buckets of std::unordered_map or set",
    "string": "text of std::string",
}
OBJECTS = {"talloc": "talloc", "python": "Python object of type", "glib": "GLib object of type"}
LEAK = re.compile(f"leak {ADDRESS} ([0-9]+) [0-9]+ (.*)", re.DOTALL)
KIND = re.compile("(head|held) ")
WIDEST = 60
MANGLED = re.compile(r"\b_Z\w+")


class Fact(NamedTuple):
    """A fact of a block: its kind, the words after the block's address, and of a likeness the type of the held block,
    if it is known."""
    kind: str
    words: tuple
    type: str = ""

    @property
    def same(self):
        """What is equal of blocks of one kind. All texts are one kind; of likenesses the way to the held block counts,
        and of containers where in a block they are."""
        told = {"like": self.words[2:], "word": self.words, "literal": self.words, "container": self.words[::3],
                "object": self.words}
        return (self.kind,) + told.get(self.kind, ())

    @property
    def text(self):
        """The fact in words."""
        if self.kind == "like":
            way = f", by {self.words[2]}" if self.words[2] else ""
            return f"looks like {self.type or self.words[0]} ({self.words[1]} held{way})"
        if self.kind == "text":
            return f"begins {self.words[1]}"
        if self.kind == "object":
            return f"{OBJECTS[self.words[0]]} {self.words[1]}"
        if self.kind == "container":
            return f"{CONTAINERS[self.words[0]]} at {self.words[2]}{self.words[3]}"
        if self.kind == "holds":
            blocks = "block" if self.words[0] == "1" else "blocks"
            return f"holds {self.words[0]} lost {blocks} of {size(int(self.words[1]))}"
        return {"stdio": "FILE of stdio"}.get(self.kind) or " ".join(self.words)


class Block(NamedTuple):
    """A lost block of the report: its address, its size, and the text of its caller."""
    address: str
    size: int
    text: str


class Shared(NamedTuple):
    """A fact that so many blocks share, the address of one of them, and how many other texts those have."""
    fact: Fact
    count: int
    address: str
    others: int


class Facts(NamedTuple):
    """By address, the facts of a block, and the first block of the structure that it is part of; of the first block of
    a structure those of the structures that lead to it."""
    of_block: dict
    top: dict
    led: dict


def visible(text):
    """The text with each character escaped that doesn't show, or that changes how others show."""
    return "".join(it if it.isprintable() else f"\\u{{{ord(it):x}}}" for it in text)


def shortened(text):
    """The text in at most 60 characters."""
    return text if len(text) <= WIDEST else text[:WIDEST - 2] + ".."


def with_names(lines):
    """The lines with the names of C++ as their sources have them."""
    return [MANGLED.sub(lambda match: shortened(demangle.SHARED.of(match[0])), line) for line in lines]


def read(lines, place):
    """The facts of these lines."""
    facts = Facts({}, {}, {})
    for line in with_names(lines):
        shape = SHAPES.get(line.split(" ", 1)[0])
        match = shape and shape.fullmatch(line)
        if not match:
            raise Refused(f"leak_lines: {place}: this is no output of leak_what: {visible(shortened(line))}")
        kind, address, words = line.split(" ", 1)[0], match[1], tuple(visible(it) for it in match.groups()[1:])
        if kind == "part":
            facts.top[address] = words[0]
        elif kind == "type":
            facts.of_block[address] = [it._replace(type=words[0]) if it.kind == "like" else it
                                       for it in facts.of_block.get(address, [])]
        elif kind == "led":
            facts.led.setdefault(address, []).append(words[0])
        else:
            facts.of_block.setdefault(address, []).append(Fact(kind, words))
    return facts


def blocks_of(report):
    """The lost blocks of the report's lines."""
    found = []
    for part in report.parts:
        match = LEAK.fullmatch(part.line)
        if match:
            text = KIND.sub("", match[3], count=1) if report.has_heads else match[3]
            found.append(Block(match[1], int(match[2]), text))
    return found


def most_telling(facts):
    """The fact that tells most. Of several words into files it is the first."""
    return min(facts, key=lambda it: TELLING.index(it.kind))


def shared(pairs):
    """What blocks have in common: pairs of an address and a fact. The one that most share comes first."""
    groups = {}
    for address, fact in pairs:
        groups.setdefault(fact.same, []).append((fact, address))
    found = []
    for group in groups.values():
        counts = Counter(fact for fact, _ in group)
        fact = counts.most_common(1)[0][0]
        address = next(address for it, address in group if it == fact)
        found.append(Shared(fact, len(group), address, len(counts) - 1 if fact.kind == "text" else 0))
    return sorted(found, key=lambda it: -it.count)


def told_of(addresses, facts):
    """What a table shows of the blocks with these addresses, in a list of a line or none; and all their facts."""
    known = [(address, facts.of_block[address]) for address in addresses if address in facts.of_block]
    telling = shared((address, most_telling(found)) for address, found in known)
    every = shared((address, it) for address, found in known for it in found)
    return line_of(telling, len(addresses)) if telling else [], every


def line_of(found, blocks):
    """What a table shows of the facts of so many blocks, of which each has one here at most."""
    first = found[0]
    others = f" and {first.others} other text{'s' if first.others > 1 else ''}" if first.others else ""
    text = shortened(first.fact.text) + others
    kinds = f", {len(found)} kinds" if len(found) > 1 else ""
    return [text if blocks == 1 else f"{text}: {first.count} of {blocks}{kinds}"]


def below_rows(report, facts):
    """By the text and the address of a row of callers, what is shown below it and its facts."""
    addresses = {}
    for block in blocks_of(report):
        addresses.setdefault(block.text, []).append(block.address)
    return {(text, ""): told_of(it, facts) for text, it in addresses.items()}
