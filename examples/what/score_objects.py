"""score_objects.py NAME WHAT TYPES: the types that leak_what tells of Python's objects, against what the interpreter
said of them (objects_of.py). WHAT is what leak_what says of all live blocks, as if all were lost.

Prints a row: name, objects that the interpreter told, and of the blocks that leak_what tells how many are right, wrong
and none of those objects.
"""
import sys
from collections import Counter

HEADS = (0, 16, 32)  # bytes of the collector and of members before an object


def read_types(path):
    """By address, the type of each object."""
    with open(path, encoding="utf-8") as file:
        return {int(address, 16): name for address, name in (line.split() for line in file)}


def main(name, what, types):
    """Prints the row."""
    known, counts = read_types(types), Counter()
    with open(what, encoding="utf-8", errors="replace") as file:
        told = [line.split(" ", 3) for line in file if line.startswith("object ")]
    for _, address, _, quoted in told:
        found = {known[int(address, 16) + head] for head in HEADS if int(address, 16) + head in known}
        counts["other" if not found else "right" if quoted.strip().strip('"').rpartition(".")[2] in found
               else "wrong"] += 1
        if found and quoted.strip().strip('"').rpartition(".")[2] not in found:
            print("wrong", address, quoted.strip(), found, file=sys.stderr)
    print(f"| {name} | {len(known)} | {counts['right']} | {counts['wrong']} | {counts['other']} |")


if __name__ == "__main__":
    main(*sys.argv[1:])
