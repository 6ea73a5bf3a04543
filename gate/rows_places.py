"""Files that can't be opened or read, their names, and streams that take nothing."""

import os

from case import case, refused
from cores import ONE_BLOCK, at, core, word
from texts import held, lost, misfits, no_block, refusal, report, torn, unopened

BLOCK = core(word(0x10008, 0x10100))
FILES = {"core.k": BLOCK, "trace.log": ONE_BLOCK}
BAD = core(at(0, b"\0"))
TWO = {"core.1": BLOCK, "log.1": ONE_BLOCK, "core.2": BLOCK, "log.2": ONE_BLOCK}
FORGED = "core\nleak_find: warning: input 1: forged"


def of_missing_files():
    """All files are opened in order before any is read: the first that is missing is told."""
    opened = "opened in order, before any is read"
    found = [
        refused("no core", opened, "one core.k trace.log", {"trace.log": ONE_BLOCK}, unopened("core.k")),
        refused("no log", opened, "one core.k no.log", {"core.k": BLOCK}, unopened("no.log")),
        refused("neither core nor log", opened, "one core.k trace.log", {}, unopened("core.k")),
        refused("a bad core and no log", opened, "one core.k trace.log", {"core.k": BAD}, unopened("trace.log")),
        refused("why: no core", opened, "why core.k trace.log 0x10100", {"trace.log": ONE_BLOCK}, unopened("core.k")),
        refused("why: no log", opened, "why core.k trace.log 0x10100", {"core.k": BLOCK}, unopened("trace.log")),
        refused("no folder", opened, "one no/core.k trace.log", FILES, unopened("no/core.k")),
        refused("a file as a folder", opened, "one core.k/core.k trace.log", FILES,
                unopened("core.k/core.k", "a part of the path is not a folder")),
    ]
    line = "two core.1 log.1 core.2 log.2"
    for place, name in enumerate(TWO, 1):
        rest = {path: content for path, content in TWO.items() if path != name}
        found.append(refused(f"two: no file {place}", opened, line, rest, unopened(name)))
    found.append(refused("two: no file 2 and 4", opened, line, {"core.1": BLOCK, "core.2": BLOCK}, unopened("log.1")))
    without = {path: content for path, content in {**TWO, "core.1": BAD}.items() if path != "log.2"}
    return [*found, refused("two: a bad core and no file 4", opened, line, without, unopened("log.2"))]


def of_folders():
    """A folder is no file. It is told before anything is read."""
    folder = "a folder can't be read"
    found = [
        refused("a folder as the core", folder, "one core.k trace.log", {"core.k": None, "trace.log": ONE_BLOCK},
                unopened("core.k", "is a folder")),
        refused("a folder as the log", folder, "one core.k trace.log", {"core.k": BLOCK, "trace.log": None},
                unopened("trace.log", "is a folder")),
        refused("a folder with a file in it", folder, "one core.k trace.log", {"core.k": None, "core.k/file": BLOCK, "trace.log": ONE_BLOCK},
                unopened("core.k", "is a folder")),
        refused("why: a folder as the log", folder, "why core.k trace.log 0x10100", {"core.k": BLOCK, "trace.log": None},
                unopened("trace.log", "is a folder")),
        refused("a bad core and a folder", "all is opened before anything is read", "one core.k trace.log",
                {"core.k": BAD, "trace.log": None}, unopened("trace.log", "is a folder")),
        refused("a folder and no log", "the first path that is refused is told", "one core.k trace.log", {"core.k": None},
                unopened("core.k", "is a folder")),
    ]
    line = "two core.1 log.1 core.2 log.2"
    return found + [refused(f"two: a folder as file {place}", folder, line, {**TWO, name: None}, unopened(name, "is a folder"))
                    for place, name in enumerate(TWO, 1)]


def of_readers():
    """A file that is opened, and whose read fails: the reader counts from 1, and its path is told. No byte of a process is at 0."""
    memory = "/proc/self/mem"
    return [
        refused("a core whose read fails", "nothing is mapped at 0", f"one {memory} trace.log", {"trace.log": ONE_BLOCK},
                f"reader 1: read failed: {memory}"),
        refused("a log whose read fails", "files are read in order", f"one core.k {memory}", {"core.k": BLOCK},
                f"reader 2: read failed: {memory}"),
        refused("two: a log whose read fails", "files are read in order", f"two core.1 {memory} core.2 {memory}", TWO,
                f"reader 2: read failed: {memory}"),
        refused("holders: an earlier log whose read fails", "it is read last", f"holders core.k trace.log --since {memory}", FILES,
                f"reader 3: read failed: {memory}"),
        refused("grow: a log whose read fails", "files are read in order", f"grow trace.log {memory}", FILES,
                f"reader 2: read failed: {memory}"),
    ]


def of_denied():
    """A file that may not be read, for all users but root."""
    return [refused("a file that may not be read", "its mode", "one /etc/shadow trace.log", {"trace.log": ONE_BLOCK},
                    unopened("/etc/shadow", "permission denied"))] if os.geteuid() else []


def of_names():
    """Names of files. One refusal is one line: control characters and backslashes of a path are escaped, and all else stays as it is."""
    log = {"trace.log": ONE_BLOCK}
    odd = "a b\tc\u00e9"
    escaped = [("a line end", FORGED, "core\\nleak_find: warning: input 1: forged"), ("a carriage return", "a\rb", "a\\rb"),
               ("an escape", "a\x1b[2Kb", "a\\x1b[2Kb"), ("a delete", "a\x7fb", "a\\x7fb"), ("the first control character", "a\x01b", "a\\x01b"),
               ("the last control character", "a\x1fb", "a\\x1fb"), ("a backslash", "a\\nb", "a\\\\nb"), ("a tab", odd, "a b\\tc\u00e9")]
    return [
        *(refused(f"a name with {what}", "it is escaped", ["one", name, "trace.log"], log, unopened(told)) for what, name, told in escaped),
        refused("two: a name with a line end", "it is escaped", ["two", "core.1", FORGED, "core.2", "log.2"], TWO,
                unopened("core\\nleak_find: warning: input 1: forged")),
        case("a file with a line end in its name", "a path that can be opened is told nowhere", ["one", FORGED, "trace.log"],
             {FORGED: BLOCK, **log},
             held(), misfits(1, 1)),
        refused("a folder with a line end in its name", "it is escaped", ["one", FORGED, "trace.log"], {FORGED: None, **log},
                unopened("core\\nleak_find: warning: input 1: forged", "is a folder")),
        refused("an empty name", "no file has it", ["one", "", "trace.log"], log, unopened("")),
        case("a file with spaces in its name", "it is opened as it is", ["one", odd, "trace.log"], {odd: BLOCK, **log}, held(),
             misfits(1, 1)),
        refused("a name that is not UTF-8", "words are UTF-8", ["one", b"core\xff", "trace.log"], log, "a word is not UTF-8"),
        refused("a name that is too long", "no file can have it", ["one", "a" * 300, "trace.log"], log,
                unopened("a" * 300, "the name is too long")),
        refused("an empty core", "a device that has no byte", "one /dev/null trace.log", log,
                "input 1: core: shorter than an ELF header"),
        case("an empty log", "a device that has no byte", "one core.k /dev/null", {"core.k": BLOCK},
             report((0, 0), (0, 0), (0, 0), 0), no_block()),
        case("a core as its own log", "a file without a line feed is one torn line", "one core.k core.k", {"core.k": BLOCK},
             report((0, 0), (0, 0), (0, 0), 0, signs=(0, 0, 1)), no_block() + torn()),
        refused("core and log exchanged", "a log is too short for a core", "one trace.log core.k", FILES,
                "input 1: core: shorter than an ELF header"),
    ]


def of_streams():
    """If the report can't be written there is no warning; if warnings can't be written the report and the status stay."""
    line, failed = "one core.k trace.log --strict", refusal("write failed after 0 bytes")
    none = "nothing of the report was taken"
    answer = "asked 0x10100 32 1 ./a.out:[0x401136]\nroot 0x10008 holds 0x10100\nblock 0x10100 32 1 ./a.out:[0x401136]\n"
    found = []
    for name, place in (("a full disk", "/dev/full"), ("a closed standard output", "closed")):
        found.append(case(name, none, line, FILES, "", failed, 2, {"stdout": place}))
        found.append(case(f"{name}, why", none, "why core.k trace.log 0x10100", FILES, "", failed, 2, {"stdout": place}))
        found.append(case(f"{name}, no word", none, "", {}, "", failed, 2, {"stdout": place}))
        found.append(case(f"{name}, refused", "nothing was to be written", "one core.k no.log", FILES, "",
                          refusal(unopened("no.log")), 2, {"stdout": place}))
    for name, place in (("full", "/dev/full"), ("closed", "closed")):
        found.append(case(f"warnings, standard error {name}", "the report stands, and the status is that of the warning", line,
                          FILES, held(), "", 3, {"stderr": place}))
        found.append(case(f"a leak, standard error {name}", "as without warnings", "one core.k trace.log --displace 8",
                          {**FILES, "core.k": core()}, lost(), "", 1, {"stderr": place}))
        found.append(case(f"why, standard error {name}", "the answer stands, and its status", "why core.k trace.log 0x10100",
                          FILES, answer, "", 0, {"stderr": place}))
        found.append(case(f"refused, standard error {name}", "the status tells", "one core.k no.log", FILES, "", "", 2,
                          {"stderr": place}))
    return [*found,
            case("both streams closed", "the status tells", line, FILES, "", "", 2, {"stdout": "closed", "stderr": "closed"})]


def cases():
    """All cases of files and streams."""
    return of_missing_files() + of_folders() + of_readers() + of_denied() + of_names() + of_streams()
