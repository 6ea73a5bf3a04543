"""Shows which changes of a repository change the checksum by which the record of refused wrong bodies speaks of a crate.

The repository is written here: a crate `sums` over a crate `low`, as `rt ci` leaves a library's texts. wrong_bodies_test.py
counts what is shown.
"""
import os
import re
import tempfile

import record
import wrong_bodies

LOW = "crates/low/out/rlib/low.rlib"
# What the lower crate declares. The clauses stand in its whole text alone.
WHOLE = """ghost use Rattle.low.specs.A.{IsOne};
ghost use Rattle.low.specs.C.{IsTwo};
use crate :: inner :: hidden ;
pub use inner :: hidden as shown ;
pub struct Kind { pub size : u64 , }
pub struct Other { pub size : u64 , }
pub struct Inner { pub kind : u64 , }
pub ( crate ) struct Secret { pub part : Part , }
struct Part { size : u64 , }
struct Step { size : u64 , }
const LEAST : u64 = 31 ;
# [ read_as = "3" ] const MOST : u64 = 32 ;
const STEPS : u64 = 33 ;
const FRONT : u64 = 34 ;
pub fn one ( kind : Kind )
    ensures { IsOne result } ;
pub fn two ( other : Other )
    ensures { IsTwo } ;
pub fn hidden ( ) -> u64
    ensures least { 3 ≤ result }
    ensures most { result ≤ 4 }
    ensures limit { result ≤ MOST } ;
fn inner ( )
    ensures { IsTwo } ;
impl Kind {
pub fn size ( & self ) -> u64
        ensures { result ≡ 5 } ;
pub fn left ( & self ) -> u64
        ensures { result ≡ 6 } ;
pub fn made ( ) -> Kind
        ensures { 11 ≤ result.size } ;
}
impl Maker {
pub fn made ( ) -> Maker
        ensures { 12 ≤ result.size } ;
}
pub struct Maker { pub size : Size , }
pub ( crate ) type Size = u8 ;
pub ( crate ) type Own = u8 ;
pub trait Calls {
    ghost count: { Self → ℕ };
fn next ( & self ) -> u64
        ensures { 13 ≤ result } ;
# [ cold ] # [ inline ( always ) ] fn second ( & self ) -> u64
        ensures { 18 ≤ result } { }
fn first ( & self ) -> u64
        ensures { 14 ≤ result } { }
fn last ( & self ) -> u64
        ensures { 15 ≤ result } { }
fn rest ( & self ) -> u64
        ensures least { 16 ≤ result }
        ensures most { result ≤ 17 } { }
}
impl Other {
pub fn size ( & self ) -> u32
        ensures { result ≡ 7 } ;
}
# [ read_as = "1" ] impl < 'a > Iterator for Kind as KindIterator {
    ghost left = { 8 };
fn next ( & mut self ) -> u64 ;
}
# [ read_as = "2" ] impl < R : Read > Calls for R as AnyCalls {
    ghost calls = { 9 };
}
"""
INNER = "fn inner ( )\n    ensures { IsTwo } ;\n"
HIDDEN = r"^(?:ghost use|pub \( crate \) struct|struct|(?:# \[ read_as = \S+ \] )?const) .*\n"
PUBLIC = re.sub(r"(ensures(?: \w+)?) \{[^}]*\}", r"\1 { }", re.sub(HIDDEN, "", WHOLE.replace(INNER, ""), flags=re.M))
FILES = {f"{LOW}/interface/lang/src/lib.rt": PUBLIC, f"{LOW}/lang/src/lib.rt": WHOLE,
         "crates/low/specs/A.antt": "use Rattle.low.specs.B.{one, two}\nuse Rattle.low.specs.C.{three}\n"
                                    "use Rattle.low.specs.declared.lib.Inner.{Inner}\nuse Rattle.low.specs.declared.lib.Secret.{Secret}\n"
                                    "use Rattle.low.specs.declared.lib.TheConstants.{LEAST}\n"
                                    "abbrev pub IsOne : Inner → Secret → ℕ\nIsOne n m = one n half + LEAST\n"
                                    "abbrev pub half : ℕ\nhalf = 1\npub record IsThree (n : ℕ) : Type 0 where\n  pub is : three n\n",
         "crates/low/specs/B.antt": "b\n", "crates/low/specs/C.antt": "c\n", "crates/low/specs/D/E.antt": "e\n",
         "crates/sums/src/lib.rt": "fn all(it: impl Calls) { low::one(it).size(); low::shown(); low::Maker::made(); let Step = it.first() + it.second() + STEPS; } impl Calls for Own { fn last(&self) -> u64 { 15 } } // unfolding(low::specs::D::E::e)\n",
         "crates/sums/specs/G.antt": "use Rattle.low.specs.declared.lib.TheConstants.{FRONT}\n"
                                     "use Rattle.low.specs.declared.lib.Ways.TheVariants.{Step}\n",
         "crates/sums/specs/F.antt": "f\n", "crates/sums/proofs/f/Answers.antt": "f\n", "crates/sums/wrong/f.edit": "f\n",
         "crates.txt": "sums: low\nlow:\nother: sums\n"}
# Files, and what is written in them in the place of what: what a check of `sums` reads,
READ = [
    ("crates/sums/src/lib.rt", "fn all", "fn each"), ("crates/sums/specs/F.antt", "f", "g"), ("crates/sums/proofs/f/Answers.antt", "f", "g"),
    ("crates/sums/wrong/f.edit", "f", "// f"), ("crates.txt", "sums: low", "sums: low more"),
    (f"{LOW}/lang/src/lib.rt", "IsOne result", "IsOne 1"),  # a clause of a function that is called
    (f"{LOW}/lang/src/lib.rt", "A.{IsOne}", "C.{IsOne}"),  # where a name of it is from
    (f"{LOW}/lang/src/lib.rt", "≤ 4", "≤ 5"),  # the second clause of one that is called by its other name
    (f"{LOW}/lang/src/lib.rt", "≡ 5", "≡ 6"),  # of a type that the head of such a function names
    (f"{LOW}/lang/src/lib.rt", "12 ≤", "11 ≤"),  # of a type that is named, without a value of it
    (f"{LOW}/lang/src/lib.rt", "13 ≤", "12 ≤"),  # of a trait that is named
    (f"{LOW}/*/src/lib.rt", "fn next ( & self ) -> u64", "fn next ( & self ) -> u32"),  # where a function with attributes stands behind it
    (f"{LOW}/lang/src/lib.rt", "18 ≤", "17 ≤"),  # of that function, which has a body and is called
    (f"{LOW}/lang/src/lib.rt", "14 ≤", "13 ≤"),  # of a function that it has a body for, and that is called
    (f"{LOW}/lang/src/lib.rt", "15 ≤", "14 ≤"),  # or that is written
    (f"{LOW}/*/src/lib.rt", "Kind { pub size : u64", "Kind { pub size : u32"),
    (f"{LOW}/*/src/lib.rt", "{ 8 }", "{ 9 }"), (f"{LOW}/*/src/lib.rt", "{ 9 }", "{ 10 }"),
    (f"{LOW}/*/src/lib.rt", "Inner { pub kind : u64", "Inner { pub kind : u32"),  # a type that a definition names
    (f"{LOW}/lang/src/lib.rt", "part : Part", "part : u64"),  # and that isn't public; what it consists of
    (f"{LOW}/lang/src/lib.rt", "Part { size : u64", "Part { size : u32"),
    (f"{LOW}/*/src/lib.rt", "Size = u8", "Size = u16"),  # one that is declared since a type that is named consists of it
    (f"{LOW}/lang/src/lib.rt", "= 31", "= 30"),  # a constant that isn't public, and that a definition names
    (f"{LOW}/lang/src/lib.rt", "= 32", "= 31"),  # or a clause
    (f"{LOW}/lang/src/lib.rt", "= 34", "= 35"),  # or a definition of the crate's own
    ("crates/low/specs/A.antt", "B.{one", "C.{one"),  # definitions of a clause, and of definitions, and by a path of Rust's
    ("crates/low/specs/A.antt", "half = 1", "half = 2"),  # one that another names in the same module
    ("crates/low/specs/B.antt", "b", "c"), ("crates/low/specs/D/E.antt", "e", "f")]
# and what none reads.
UNREAD = [
    (f"{LOW}/lang/src/lib.rt", "A.{IsOne}", "A.{◌≢◌, IsOne, IsThree}"),  # names that others have from there
    (f"{LOW}/lang/src/lib.rt", "A.{IsOne}", "A.{IsThree};\nghost use Rattle.low.specs.A.{IsOne}"),  # how imports are put together
    ("crates/low/specs/A.antt", "is : three", "is : 3 + three"), ("crates/low/specs/A.antt", "one, two", "two, one"),  # other definitions
    (f"{LOW}/lang/src/lib.rt", "fn inner ( )\n    ensures { IsTwo }", "fn inner ( )\n    ensures { IsTwo 2 }"),
    (f"{LOW}/lang/src/lib.rt", "Other )\n    ensures { IsTwo }", "Other )\n    ensures { IsTwo 2 }"),
    (f"{LOW}/*/src/lib.rt", "Other { pub size : u64", "Other { pub size : u32"),
    (f"{LOW}/*/src/lib.rt", "fn next ( & mut self ) -> u64 ;\n", ""),  # a head of a trait's function alone, where a type has it
    (f"{LOW}/lang/src/lib.rt", "Step { size : u64", "Step { size : u32"),  # one that no definition names, but a variant
    (f"{LOW}/*/src/lib.rt", "Own = u8", "Own = u16"),  # one that is declared, whose name the crate has for something else
    (f"{LOW}/lang/src/lib.rt", "= 33", "= 34"),  # a constant likewise, whose name the crate's own text has
    (f"{LOW}/lang/src/lib.rt", "16 ≤", "15 ≤"), (f"{LOW}/*/src/lib.rt", "fn rest ( & self )", "fn rest ( & self , most : u64 )"),
    (f"{LOW}/lang/src/lib.rt", "11 ≤", "12 ≤"), (f"{LOW}/lang/src/lib.rt", "≡ 6", "≡ 7"), (f"{LOW}/lang/src/lib.rt", "≡ 7", "≡ 8"),
    ("crates/low/specs/C.antt", "c", "d"), ("crates/low/specs/A.antt", "{three}", "{three}\n-- three"),
    ("crates/sums/src/lib.rt", "fn all", "    /// three\nfn all"), ("crates/sums/specs/F.antt", "f", "-- three\nf"),
    ("crates/sums/src/lib.rt", "fn all", "    #[inline(always)]\n#[cold]\nfn all"),  # how a function is compiled
    (f"{LOW}/*/src/lib.rt", "# [ cold ] # [ inline ( always ) ] fn second", "# [ inline ] fn second"),
    ("crates.txt", "sums: low", "lemmas:\nsums: low lemmas"), ("crates.txt", "\nlow:", "\nlow: more")]
NEW = ("crates/other/src/lib.rt", "README.md", "crates/sums/out/a", "crates/low/wrong/a.edit", "crates/low/src/lib.rt",
       "crates/low/proofs/A.antt", f"{LOW}/toolchain/mir.json")


def write(root, files):
    """Writes files of the repository."""
    for path, text in files.items():
        os.makedirs(os.path.dirname(f"{root}/{path}"), exist_ok=True)
        with open(f"{root}/{path}", "w", encoding="utf-8") as it:
            it.write(text)


def sum_in(root):
    """Returns the checksum of the crate `sums`."""
    libraries = wrong_bodies.libraries_of(root)
    return record.sum_of(root, "sums", libraries, wrong_bodies.below(libraries, "sums"))


def sum_with(root, path, old, new):
    """Returns the checksum with a text in the place of another, in one file or, by `*`, in both texts of the library."""
    paths = [path.replace("*", it) for it in ("lang", "interface/lang")] if "*" in path else [path]
    assert all(FILES[it].count(old) == 1 for it in paths), (path, old)
    write(root, {it: FILES[it].replace(old, new) for it in paths})
    found = sum_in(root)
    write(root, {it: FILES[it] for it in paths})
    return found


def facts_of_sums():
    """Returns what is shown, by its name: whether it holds."""
    with tempfile.TemporaryDirectory(prefix="record-test-") as root:
        write(root, FILES)
        whole = sum_in(root)
        read = [sum_with(root, *it) for it in READ]
        found = {f"the checksum knows {new} in {path}": it != whole for (path, _, new), it in zip(READ, read)}
        found["each such change has its own checksum"] = len(set(read)) == len(read)
        found |= {f"the checksum knows no {new} in {path}": sum_with(root, path, old, new) == whole for path, old, new in UNREAD}
        write(root, dict.fromkeys(NEW, "one\n"))
        return found | {"files that no check reads do not change it": sum_in(root) == whole}
