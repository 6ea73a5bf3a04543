"""Wrong bodies: what their files say, and the texts of a crate with some of them in place.

A file crates/NAME/wrong/*.edit has a line 'function: PATH', the function that it makes wrong as the prover prints it,
without the crate's name; then lines 'file: src/F.rt', 'old: TEXT' and 'new: TEXT', each text in one line. An old text
stands once in its file.
"""
import difflib
import itertools
import os
import re
from dataclasses import dataclass, field

HEAD = re.compile(r"^( *)(?:pub(?:\([a-z]+\))? )?(?:const |unsafe |final )*fn (\w+)")
OF = re.compile(r"^(?:pub )?(?:impl\b(?:<[^{]*?>)?|trait) (?:.*\bfor )?(\w+)")


class Fault(Exception):
    """Why an edit can't be tried. It never counts as a refusal."""


@dataclass(frozen=True)
class Change:
    """One text in place of another: the characters from `start` to `end` of a file become `new`."""

    file: str
    start: int
    end: int
    new: str


@dataclass
class Edit:
    """A wrong body of a crate. One that changes more than its function's body stands alone."""

    crate: str
    name: str
    function: str
    changes: list
    alone: bool
    avoid: set = field(default_factory=set)

    def __str__(self):
        return f"{self.crate}/{self.name}"

    def is_of_definition(self):
        """Returns whether it turns a definition, and no code."""
        return all(it.file.startswith("specs/") for it in self.changes)


def functions_of(text):
    """Returns the functions of a source file: (first character, one past the last, the type or '', the name)."""
    lines = text.split("\n")
    starts = [0, *itertools.accumulate(len(it) + 1 for it in lines)]
    found, kind = [], ""
    for number, line in enumerate(lines):
        of, head = OF.match(line), HEAD.match(line)
        kind = of[1] if of else kind
        if head:
            ends = (at for at in range(number + 1, len(lines)) if lines[at] == head[1] + "}")
            last = number if line.endswith("}") else next(ends, number)
            found.append((starts[number], starts[last + 1], kind if head[1] else "", head[2]))
    return found


def module_of(file):
    """Returns the module that a source file is, as 'halves' for src/halves.rt and '' for the crate's root."""
    parts = file[len("src/"):-len(".rt")].split("/")
    return "::".join(it for it in parts if it not in ("lib", "main", "mod"))


def function_at(text, change):
    """Returns (type, name) of the innermost function that holds the change, or None."""
    holding = [it for it in functions_of(text) if it[0] <= change.start and change.end <= it[1]]
    return max(holding)[2:] if holding else None


def is_named(function, file, found):
    """Returns whether a function's path is that of the function found in the file. A method's begins with its type's module."""
    path, above = function.split("::"), module_of(file).split("::") if module_of(file) else []
    if path[-1] != found[1]:
        return False
    return len(path) > 1 and path[-2].startswith((found[0], "Any")) if found[0] else path[:-1] == above


def read_lines(path):
    """Returns the function that an edit names and its (file, old, new) triples."""
    function = file = old = None
    triples = []
    with open(path, encoding="utf-8") as it:
        lines = [line for line in it.read().split("\n") if line.strip() and not line.startswith("#")]
    for line in lines:
        key, _, value = line.partition(":")
        value = value[1:] if value.startswith(" ") else value
        if key == "function":
            function = value.strip()
        elif key == "file":
            file = value.strip()
        elif key == "old":
            old = value
        elif key == "new" and file and old:
            triples.append((file, old, value))
            old = None
        else:
            raise Fault(f"a line that says nothing: {line[:60]}")
    if not function or not triples or old:
        raise Fault("it has no line 'function:', or no pair of 'old:' and 'new:'")
    return function, triples


def edited(folder, triples):
    """Returns the files' texts before and after, by path. Each pair applies to what the earlier ones made."""
    before, after = {}, {}
    for file, old, new in triples:
        if os.path.normpath(file) != file or not file.startswith(("src/", "specs/")) or not os.path.isfile(f"{folder}/{file}"):
            raise Fault(f"there is no file {file} in src/ or specs/")
        if file not in after:
            with open(f"{folder}/{file}", encoding="utf-8") as it:
                before[file] = after[file] = it.read()
        if after[file].count(old) != 1:
            raise Fault(f"an old text stands in {file} {after[file].count(old)} times, and not once")
        after[file] = after[file].replace(old, new)
    return before, after


def changes_of(file, before, after):
    """Returns what differs between two texts of a file, whole lines at a time."""
    one, other = before.splitlines(True), after.splitlines(True)
    places = [0, *itertools.accumulate(len(it) for it in one)]
    found = difflib.SequenceMatcher(None, one, other, autojunk=False).get_opcodes()
    return [Change(file, places[a], places[b], "".join(other[c:d])) for kind, a, b, c, d in found if kind != "equal"]


def read_edit(folder, crate, path):
    """Returns the edit of the file, or raises Fault: its text is missing or stands twice, or it names another function than it changes."""
    function, triples = read_lines(path)
    before, after = edited(folder, triples)
    changes = [it for file in after for it in changes_of(file, before[file], after[file])]
    if not changes:
        raise Fault("it changes nothing")
    found = [function_at(before[it.file], it) if it.file.startswith("src/") else None for it in changes]
    named = [it is not None and is_named(function, change.file, it) for it, change in zip(found, changes)]
    if any(found) and not any(named):
        raise Fault(f"it names {function}, and changes {next(it[1] for it in found if it)}")
    return Edit(crate, os.path.basename(path)[:-len(".edit")], function, changes, not all(named))


def overlap(one, other):
    """Returns whether two changes touch the same text."""
    return one.file == other.file and one.start < other.end and other.start < one.end


def texts_with(folder, edits):
    """Returns the texts of the files that the edits change, by their paths in the crate."""
    texts = {}
    for change in sorted((it for edit in edits for it in edit.changes), key=lambda it: (it.file, -it.start)):
        if change.file not in texts:
            texts[change.file] = open(f"{folder}/{change.file}", encoding="utf-8").read()
        text = texts[change.file]
        texts[change.file] = text[:change.start] + change.new + text[change.end:]
    return texts


def batch_of(edits):
    """Takes a batch from the edits: at most one a function, none that stands alone beside another, none beside one that it avoids."""
    taken = []
    for edit in edits:
        if edit.alone:
            if not taken:
                return [edit]
            continue
        apart = all(it.function != edit.function and it.function not in edit.avoid and edit.function not in it.avoid for it in taken)
        if apart and not any(overlap(a, b) for it in taken for a in it.changes for b in edit.changes):
            taken.append(edit)
    return taken
