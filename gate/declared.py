"""What a built library declares to others, as `rt ci` leaves its texts in out/rlib/: item by item, for the record of wrong bodies."""
import os
import re
from typing import NamedTuple

COMMENT = {".rt": "//", ".antt": "--"}
# Attributes that say how a function is compiled, and nothing of what it does: on a line of its own in sources, behind a head's start in
# a library's texts.
HINT = re.compile(r"^[ \t]*#\[(?:inline(?:\(\w+\))?|cold)\]\n|# \[ (?:inline(?: \( \w+ \))?|cold) \] ", re.M)
WORD = re.compile(r"\w+")
# A line that imports definitions under names; the heads of a function, of a type and of what is said of one.
IMPORT = re.compile(r"\bghost use [\w.]+(?:\.\{([^}]*)\}| as (\w+));")
FUNCTION = re.compile(r"(?:^| )fn (\w+)")
TYPE = re.compile(r"^(?:# \[.*\] )?(?:pub (?:\( [\w :]+ \) )?)?(?:struct|enum|union|trait|type|const|static) (?!fn\b)(\w+)")
# A trait's head; the first line of what it has, and the end of a function of it that has a body. A head of a function alone.
TRAIT = re.compile(r"\btrait \w+")
HEAD = re.compile(r"fn .* ;$")
MEMBER = re.compile(r"\S|    \S")
BODY = "{ }"
# The head of a type that only its own library can name.
RESTRICTED = re.compile(r"^(?:# \[.*\] )?pub \( ")
RENAMED = re.compile(r"^pub (?:use [\w :]+ as (\w+) ;|type (\w+) )")
IMPL = re.compile(r"\bimpl (.*?)(?: where | as | ?\{|$)")


class Item(NamedTuple):
    """A declaration of a library: its name, the type that it is a function of, whether it is a function, its text, whose it is, and
    whether it is a trait's function that has a body, a type or constant that only definitions and clauses can name, or a type that is
    declared to others only since another one consists of it."""
    name: str
    type: str | None
    is_function: bool
    text: str
    library: str = ""
    is_default: bool = False
    is_inner: bool = False
    is_restricted: bool = False


def files_below(folder):
    """Returns the files of a folder and of those in it, in order."""
    return sorted(os.path.join(at, it) for at, _, files in os.walk(folder) for it in files)


def text_of(path):
    """Returns the text of a file without the lines that are comments, and without hints for the compiler."""
    sign = COMMENT.get(os.path.splitext(path)[1])
    with open(path, encoding="utf-8", errors="surrogateescape") as it:
        text = "".join(line for line in it if not (sign and line.lstrip().startswith(sign)))
    return HINT.sub("", text) if path.endswith(".rt") else text


def clauses_of(head, lines):
    """Returns the lines of the clauses that stand behind each line that is this head of a function."""
    found = []
    for at in (at for at, line in enumerate(lines) if line == head):
        found += lines[at + 1:next((end for end in range(at, len(lines)) if lines[end].rstrip().endswith(";")), at) + 1]
    return found


def declarations(lines):
    """Returns the declarations that stand one behind the other in these lines, each as its own lines."""
    found, depth = [[]], 0
    for line in lines:
        found[-1].append(line)
        depth += line.count("{") - line.count("}")
        ends = ";" if FUNCTION.search(found[-1][0]) else (";", "}")
        if depth <= 0 and line.rstrip().endswith(ends):
            found.append([])
    return [it for it in found if "".join(it).strip()]


def impl_of(head):
    """Returns whether an impl's head names a trait, and what it is of: its type, or its trait if it is for every type."""
    told, depth, end = IMPL.search(head)[1], 0, 0
    if told.startswith("<"):
        end = next(at for at, it in enumerate(told) if (depth := depth + (it == "<") - (it == ">")) == 0)
    trait, is_of_trait, of = told[end:].rpartition(" for ")
    trait, of = (WORD.findall(re.sub(r"<.*", "", it)) for it in (trait, of.lstrip("> ")))
    return bool(is_of_trait), (trait if is_of_trait and of[-1] in WORD.findall(told[:end]) else of)[-1]


def items_of_trait(lines, name):
    """Returns the items of a trait's declaration: the trait, and each of its functions that has a body."""
    members = [[]]
    for line in lines[1:-1]:
        if MEMBER.match(line):
            members.append([])
        members[-1].append(line)
    functions = [it for it in members if it and FUNCTION.search(it[0]) and it[-1].rstrip().endswith(BODY)]
    others = [line for it in members if it not in functions for line in it]
    trait = Item(name, None, False, "\n".join([lines[0], *others, lines[-1]]))
    return [trait, *(Item(FUNCTION.search(it[0])[1], name, True, "\n".join([lines[0], *it]), is_default=True) for it in functions)]


def items_of(lines, heads, of=None):
    """Returns the items of one declaration; `heads` has the clauses of functions."""
    head, text = lines[0], "\n".join(lines)
    if IMPL.search(head):
        is_of_trait, name = impl_of(head)
        if is_of_trait:
            # (what such a function promises stands in the trait)
            return [Item(name, None, False, "\n".join(line for line in lines if not HEAD.match(line)))]
        parts = [it for part in declarations(lines[1:-1]) for it in items_of(part, heads, name)]
        return [it._replace(text=f"{head}\n{it.text}") for it in parts] or [Item(name, None, False, text)]
    if TYPE.search(head):
        name = TYPE.search(head)[1]
        return items_of_trait(lines, name) if TRAIT.search(head) else [Item(name, None, False, text)]
    if FUNCTION.search(head):
        return [Item(FUNCTION.search(head)[1], of, True, "\n".join([text, *clauses_of(head, heads)]))]
    renamed = RENAMED.search(head)
    return [Item(renamed[1] or renamed[2], None, False, text)] if renamed else []


def imports_of(file, item):
    """Returns what a file's imports say of the names in one of its items: an import of each name, however they are put together."""
    words, is_type = set(WORD.findall(item)), TYPE.search(item.partition("\n")[0])

    def is_named(name):
        if WORD.search(name):
            return bool(words & set(WORD.findall(name)))
        # (an operator of signs alone, as ◌≡◌, is named by them; a type has no clauses, only arguments in < and >)
        return not is_type and all(f" {sign} " in item for sign in name.split("◌") if sign)

    found = set()
    for it in IMPORT.finditer(file):
        names = [name for name in (part.strip() for part in (it[1] or it[2]).split(",")) if is_named(name)]
        found |= {f"{it[0][:it.start(1) - it.start()]}{name}}}" for name in names} if it[1] else set(names and [it[0]])
    return sorted(found)


def items_in(root, name):
    """Returns what a built library declares to others, and the types and constants that its definitions can name, each with the imports of
    what it names."""
    library = f"{root}/crates/{name}/out/rlib/{name}.rlib"
    for path in files_below(f"{library}/lang/src"):
        whole, public = text_of(path), path.replace(".rlib/lang/", ".rlib/interface/lang/")
        heads = whole.split("\n")
        declared = declarations(text_of(public).split("\n")) if os.path.isfile(public) else []
        types = [it for it in declarations(heads) if TYPE.search(it[0]) and it not in declared]
        names = {TYPE.search(it[0])[1] for it in declared if TYPE.search(it[0])}
        for item in (it for lines in declared + types for it in items_of(lines, heads)):
            is_type = not item.is_function and bool(TYPE.search(item.text))
            is_inner, is_restricted = is_type and item.name not in names, is_type and bool(RESTRICTED.search(item.text))
            text = "\n".join([item.text, *imports_of(whole, item.text)])
            yield item._replace(text=text, library=name, is_inner=is_inner, is_restricted=is_restricted)
