"""The record of refused wrong bodies: gate/refused.txt, a line for each crate all of whose wrong bodies were refused.

A line has the crate's name, how many wrong bodies it has, the first digits of a checksum of the scripts that judged them, and a
checksum of all that decides whether they are wrong: the kit's logic, the crate's line of crates.txt, its sources, specs, proofs and wrong
bodies; and of the crates of the repository below it, as `rt ci` left them in out/, what these name. When any of this changes, the
line no longer speaks of the crate.

What is named is found by words, so in whatever form: a function's head with its clauses, if its name is a word of the crate's own
text, and so are its library's and its type's, or, where it takes a value of the type, the name stands behind a dot or a path there,
and the type is known; a type, a trait, a renaming and what is said of a type, if the name is a word of anything read so far, but of
a trait's functions that have a body by default only those that the crate's Rust calls or writes, and a type that isn't public only if
a definition names it, or another such type, as with a constant that isn't, which a clause can name too, or if it is declared to others
and a type that was read consists of it; of a module of definitions
whose path stands there, those that stand behind it, and those that these name. A name that means something else is followed too, which
only tries a crate again that need not be.

A body that is wrong by a contract stays so whatever becomes of bodies, inner functions and lemmas of the crates below, so these
count nowhere, nor does a crate that declares nothing, as one of lemmas alone; nor do lines that are comments, but in wrong bodies, nor
attributes by which a function is only compiled otherwise.
"""
import functools
import hashlib
import os
import re
import subprocess

from declared import RENAMED, WORD, files_below, items_in, text_of

PARTS = ("src", "specs", "proofs")
JUDGES = ("edits.py", "judging.py", "wrong_bodies.py")
FILE = "gate/refused.txt"
# The path of a module of definitions, as .antt texts and clauses write it, or as Rust's paths are written, and the names behind it.
PATH = re.compile(r"\b(\w+)(?:\.|\s*::\s*)specs((?:(?:\.|\s*::\s*)\w+)+)(?:\.\{([^}]*)\})?")
# In such a module: an import, and the first line of a definition, or of what else it has.
BRINGS = re.compile(r"(?:pub )?use ")
DEFINES = re.compile(r"(?:(?:abbrev|unfoldable|pub|record|data|mod) )*(\S+)")
# By what path definitions name a type of Rust's, or constants, which are in braces; a constant as a clause names it.
DECLARED = re.compile(r"\bspecs\.declared((?:\.\w+)+(?:(?<=\.TheConstants)\.\{[^}]*\})?)")
CONSTANT = re.compile(r"\b[A-Z][A-Z0-9_]*\b")
CALLED = re.compile(r"(?:\.|::)\s*(\w+)")
WRITTEN = re.compile(r"\bfn (\w+)")
SELF = re.compile(r"\( (?:& (?:'\w+ )?)?(?:mut )?self\b")
PASSED_ON = re.compile(r"^pub use (.*)$", re.M)


@functools.lru_cache(maxsize=None)
def definitions_in(module):
    """Returns the imports of a module and its definitions, each by the names that it gives; None if it has anything else."""
    imports, found, name = [], [], None
    for line in module.split("\n"):
        if BRINGS.match(line):
            imports.append(line)
        elif line[:1].strip():
            first = DEFINES.match(line)[1]
            if first != name and (first == DEFINES.match(line)[0] or not WORD.fullmatch(first)):
                return None
            if first != name:
                name, is_data = first, line.startswith("pub data ")
                found.append(({name}, []))
            found[-1][1].append(line)
        elif line.strip() and found:
            found[-1][1].append(line)
            found[-1][0].update(WORD.findall(line)[:1] if is_data else ())
    return imports, [(names, "\n".join(lines)) for names, lines in found]


@functools.lru_cache(maxsize=None)
def definitions_of(module, names):
    """Returns of a module what these names stand for: definitions, those that they name there, and the imports of their names."""
    parts, wanted, found = definitions_in(module), set(names), []
    if not (names and parts):
        return {module}
    imports, left = parts
    brought = {name.strip() for line in imports for name in line.partition("{")[2].rstrip("}").split(",")}
    if not wanted <= {it for given, _ in left for it in given} | {it.rpartition(" as ")[2] for it in brought}:
        return {module}
    while new := [it for it in left if it[0] & wanted]:
        left = [it for it in left if it not in new]
        found += (text for _, text in new)
        wanted.update(word for _, text in new for word in WORD.findall(text))
    whole = "\n".join(found)
    # (an operator of signs alone is named by them)
    is_named = lambda it: wanted & set(WORD.findall(it)) if WORD.search(it) else all(sign in whole for sign in it.strip().split("◌"))
    for line in imports:
        head, _, tail = line.partition("{")
        found += (f"{head}{{{it.strip()}}}" for it in tail.rstrip("}").split(",") if is_named(it))
    return set(found)


def definitions_at(root, below, text):
    """Returns what a text names of the modules of definitions of the crates below, by their files."""
    found = {}
    for crate, path, names in PATH.findall(text):
        parts = WORD.findall(path) if crate in below else []
        ends = [end for end in range(len(parts), 0, -1) if os.path.isfile(f"{root}/crates/{crate}/specs/{'/'.join(parts[:end])}.antt")]
        if ends:
            file = f"{root}/crates/{crate}/specs/{'/'.join(parts[:ends[0]])}.antt"
            wanted = parts[ends[0]:][:1] or [it.partition(" as ")[0].strip() for it in names.split(",") if it.strip()]
            found[file] = found.get(file, set()) | definitions_of(text_of(file), tuple(wanted))
    return found


def libraries_named(root, below, called):
    """Returns the libraries that are among these words, and those from which these pass names on."""
    named, waiting = set(), [it for it in below if it in called]
    while waiting:
        name = waiting.pop()
        if name not in named:
            named.add(name)
            texts = [text_of(it) for it in files_below(f"{root}/crates/{name}/out/rlib/{name}.rlib/interface/lang/src")]
            waiting += [it for text in texts for line in PASSED_ON.findall(text) for it in WORD.findall(line) if it in below]
    return named


def named_in(root, below, own, rust):
    """Returns the texts that a crate's own text, of which `rust` is Rust, names in the crates below, and those of definitions, with those
    that these name in turn."""
    items = [it for name in sorted(below) for it in items_in(root, name)]
    waiting, found, words, files, calls = [own], [], set(), {}, set(CALLED.findall(own))
    # (named: the types and constants of Rust's that definitions name, or clauses)
    taken, named, consists = set(CALLED.findall(rust)) | set(WRITTEN.findall(rust)), set(), set()
    called = set(WORD.findall(own)).union(*(WORD.findall(it.text) for it in items if RENAMED.search(it.text)))
    libraries = libraries_named(root, below, called)
    # (a function that takes no value of its type is called by a path, from its library and that type)
    is_of_path = lambda it: it.library in libraries and it.type in called | {None}
    is_called = lambda it: it.name in calls and it.type in words if SELF.search(it.text) else it.name in called and is_of_path(it)
    is_taken = lambda it: it.name in taken and it.type in words
    # (the crate can't name a type that is restricted to its library, but a type that it names can consist of it)
    is_free = lambda it: not it.is_restricted or it.name in named or (it.library, it.name) in consists
    is_known = lambda it: it.name in named if it.is_inner else it.name in words and is_free(it)
    is_reached = lambda it: is_taken(it) if it.is_default else is_called(it) if it.is_function else is_known(it)
    while waiting:
        text = waiting.pop()
        words.update(WORD.findall(text))
        named.update(name for path in DECLARED.findall(text) for name in WORD.findall(path))
        # (what the crate's own text has in capitals are its own constants, or public ones)
        named.update(CONSTANT.findall(text) if text is not own else ())
        new = {file: it - files.get(file, set()) for file, it in definitions_at(root, below, text).items()}
        reached = [it for it in items if is_reached(it)]
        items = [it for it in items if not is_reached(it)]
        files |= {file: it | files.get(file, set()) for file, it in new.items()}
        consists.update((it.library, name) for it in reached if not it.is_function for name in WORD.findall(it.text))
        # (what an inner type consists of)
        named.update(name for it in reached if it.is_inner for name in WORD.findall(it.text))
        found += (it.text for it in reached)
        waiting += [*(part for it in new.values() for part in it), *(it.text for it in reached)]
    return sorted(found), {file: "\n".join(sorted(it)) for file, it in files.items()}


def judge():
    """Returns the first digits of the checksum of the scripts that judge."""
    folder = os.path.dirname(os.path.abspath(__file__))
    return hashlib.sha256("".join(text_of(f"{folder}/{it}") for it in JUDGES).encode()).hexdigest()[:16]


def logic():
    """Returns what the kit says of its logic, which two kits may share: a body that is wrong by a contract is so with each of them."""
    said = subprocess.run(["rt", "version"], capture_output=True, text=True, check=True).stdout
    return re.search(r"\blogic \w+", said)[0]


def sum_of(root, crate, libraries, below):
    """Returns the checksum of all that decides whether a crate's wrong bodies are wrong, but the judge."""
    found = hashlib.sha256()

    def add(*texts):
        for text in (text.encode(errors="surrogateescape") for text in texts):
            # (its length keeps a text apart from the next)
            found.update(b"%d:" % len(text) + text)

    add(logic())
    own = {it: text_of(it) for part in (*PARTS, "wrong") for it in files_below(f"{root}/crates/{crate}/{part}")}
    silent = {it for it in below if not any(items_in(root, it))}
    add(" ".join([crate, *(it for it in libraries[crate] if it not in silent)]))
    rust = "\n".join(text for path, text in own.items() if path.endswith((".rt", ".edit")))
    named, files = named_in(root, below, "\n".join(own.values()), rust)
    add(*named)
    for path, text in sorted((own | files).items()):
        add(os.path.relpath(path, root), text)
    return found.hexdigest()


def read(root):
    """Returns the record: by a crate's name, how many wrong bodies were refused, who judged, and the checksum."""
    try:
        with open(f"{root}/{FILE}", encoding="utf-8") as it:
            rows = [line.split() for line in it if not line.startswith("#")]
    except FileNotFoundError:
        return {}
    return {name: (int(count), who, checksum) for name, count, who, checksum in rows}


def speaks_of(row, count, checksum):
    """Returns whether a row of the record speaks of a crate that has so many wrong bodies and this checksum."""
    return row == (count, judge(), checksum)


def write(root, record):
    """Writes the record."""
    with open(f"{root}/{FILE}", "w", encoding="utf-8") as it:
        it.write("# Crates all of whose wrong bodies were refused, how many these are, by which judge, and a checksum of what was read (record.py).\n")
        it.writelines(f"{name} {count} {who} {checksum}\n" for name, (count, who, checksum) in sorted(record.items()))


def commit_of(root):
    """Returns the commit of the work tree as a number, or a number by chance outside a repository."""
    ran = subprocess.run(["git", "-C", root, "rev-parse", "HEAD"], capture_output=True, text=True, check=False)
    return int(ran.stdout, 16) if ran.returncode == 0 else int.from_bytes(os.urandom(20), "big")
