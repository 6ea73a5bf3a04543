"""Reads the table of leak_find's options (options.txt, which says what each field is)."""
import re
from pathlib import Path
from typing import NamedTuple

TABLE = Path(__file__).with_name("options.txt")
LINE = re.compile(r"([a-z]+) +(\S.*)")


class Fault(Exception):
    """What is wrong with the table."""


class Program(NamedTuple):
    """The program: its first line of help, and its options in the order of the help."""
    program: str
    about: str
    order: str


class Subcommand(NamedTuple):
    """A subcommand, with the name and the help of each operand."""
    subcommand: str
    about: str
    operand: tuple


class Option(NamedTuple):
    """An option as it is spelled, with the name of its value if it has one, and the texts about it."""
    option: str
    of: str
    help: str
    means: str
    short: str
    default: str = ""
    more: str = ""
    chosen: str = ""

    @property
    def name(self):
        """The option without its value."""
        return self.option.split()[0]

    @property
    def value(self):
        """The name of its value, or an empty text."""
        return self.option.removeprefix(self.name).strip()

    @property
    def bounds(self):
        """The least and the greatest number that it takes."""
        return tuple(int(number) for number in re.search(r"(\d+) to (\d+)", self.help).groups())


KINDS = {"program": Program, "subcommand": Subcommand, "option": Option}


class Table(NamedTuple):
    """All of the table. Options stand in the order of the documents."""
    program: Program
    subcommands: tuple
    options: tuple

    def of(self, subcommand):
        """The options that a subcommand takes."""
        return [option for option in self.options if subcommand in option.of.split()]

    def in_help(self, subcommand):
        """The same in the order of the help."""
        return sorted(self.of(subcommand), key=lambda option: self.program.order.split().index(option.name))

    def subcommand(self, name):
        """The subcommand of this name."""
        return next(it for it in self.subcommands if it.subcommand == name)

    def names(self):
        """The names of all subcommands."""
        return [it.subcommand for it in self.subcommands]


def fields_of(lines):
    """The fields of a record. An operand may come more than once, and all of them are one field."""
    fields = {}
    for line in lines:
        match = LINE.fullmatch(line)
        if not match:
            raise Fault(f"no field and its text: {line}")
        field, text = match.groups()
        if field == "operand":
            fields[field] = (*fields.get(field, ()), tuple(text.split(None, 1)))
        elif field in fields:
            raise Fault(f"{field} is there twice: {line}")
        else:
            fields[field] = text
    return fields


def record_of(lines):
    """A record of the kind that its first field says, which has all fields of that kind and no other."""
    fields = fields_of(lines)
    kind = KINDS.get(next(iter(fields)))
    if not kind:
        raise Fault(f"no record begins so: {lines[0]}")
    lacking = [name for name in kind._fields if name not in fields and name not in kind._field_defaults]
    strange = [name for name in fields if name not in kind._fields]
    if lacking or strange:
        raise Fault(f"{lines[0]}: lacks {lacking}, and has {strange} more")
    return kind(**fields)


def check(table):
    """Refuses a table whose parts do not fit each other."""
    names = [option.name for option in table.options]
    if sorted(names) != sorted(table.program.order.split()) or len(set(names)) != len(names):
        raise Fault("`order` does not have just the options, each once")
    strange = {name for option in table.options for name in option.of.split()} - set(table.names())
    if strange:
        raise Fault(f"no such subcommand: {' '.join(sorted(strange))}")


def read(text=None):
    """The table of this text, or of the repository."""
    text = TABLE.read_text(encoding="utf-8") if text is None else text
    stripped = re.sub(r"^#.*\n", "", text, flags=re.MULTILINE).strip("\n")
    records = [record_of(part.splitlines()) for part in re.split(r"\n{2,}", stripped)]
    programs, subcommands, options = (tuple(it for it in records if isinstance(it, kind)) for kind in KINDS.values())
    if len(programs) != 1:
        raise Fault(f"{len(programs)} records of the program")
    table = Table(programs[0], subcommands, options)
    check(table)
    return table
