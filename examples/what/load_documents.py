"""load_documents.py [TYPES]: parsed sources, letters and documents, of which some are kept, by classes, generators and
threads."""
import ast
import email
import glob
import os
import sys
import threading
import xml.dom.minidom
from collections import OrderedDict, namedtuple
from dataclasses import dataclass, field
from decimal import Decimal
from fractions import Fraction

from objects_of import write_types

Point = namedtuple("Point", "x y")


@dataclass
class Entry:
    """A class without a base."""
    name: str
    values: list = field(default_factory=list)


class Slots:
    """A class whose objects have no dictionary."""
    __slots__ = ("first", "second")


def fill(kept):
    """Keeps a third of what it makes."""
    for number in range(1500):
        slots = Slots()
        slots.first, slots.second = number, Decimal(number) / 7
        made = [Entry(f"entry{number}", [number] * 3), Point(number, str(number)), slots, Fraction(number + 1, 7),
                OrderedDict(a=number),
                {number, -number}, (it for it in range(number)), bytearray(number % 50), memoryview(b"abc"),
                lambda at=number: at]
        kept.append(made[:number % 3 * 5])


kept = []
for path in sorted(glob.glob(os.path.dirname(ast.__file__) + "/[a-c]*.py"))[:12]:
    with open(path, encoding="utf-8") as file:
        tree = ast.parse(file.read())
    kept.append(tree.body[::2])
for number in range(100):
    letter = email.message_from_string(f"Subject: {number}\nFrom: a@b.c\n\nText {number}\n" * 2)
    document = xml.dom.minidom.parseString(f"<a n='{number}'><b>text</b></a>")
    kept.append((letter, document) if number % 2 else None)
threads = [threading.Thread(target=fill, args=(kept,)) for _ in range(3)]
for thread in threads:
    thread.start()
for thread in threads:
    thread.join()
if len(sys.argv) > 1:
    write_types(sys.argv[1])
sys.stdin.readline()
