"""load_objects.py [TYPES]: objects, texts and parsed documents, of which some are kept."""
import json
import re
import sys

from objects_of import write_types


class Thing:
    """An object with a few members."""

    def __init__(self, number):
        self.number, self.name, self.list = number, f"name{number}", [number] * (number % 7)


kept, documents = {}, []
for each in range(6000):
    thing = Thing(each)
    if each % 3 == 0:
        kept[each] = thing
    document = json.loads(json.dumps({"a": [each] * 5, "b": {"c": str(each)}, "d": None}))
    if each % 5 == 0:
        documents.append(document)
    if each % 50 == 0:
        documents.append(re.compile(f"x{each}(y+)z?"))
    if each % 6 == 0:
        kept.pop(each - 300, None)
if len(sys.argv) > 1:
    write_types(sys.argv[1])
sys.stdin.readline()
