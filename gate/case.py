"""What a case is, and short ways to write one."""

from dataclasses import dataclass, field, replace

PLANS = ("--workers 1 --piece 1 --stack 0", "--workers 2 --piece 1 --stack 1", "--workers 64 --piece 65536 --stack 65536")


@dataclass(frozen=True)
class Case:
    """A run of the program, and what it has to print.

    `reason` says why the answer is so. A file whose content is None is a folder. `places` sends standard output or
    standard error (`stdout`, `stderr`) to a device, or closes it (`closed`); then nothing of it is compared.
    """

    name: str
    reason: str
    words: tuple
    files: dict
    stdout: bytes = b""
    stderr: bytes = b""
    status: int = 0
    places: dict = field(default_factory=dict)


def bytes_of(text):
    """The bytes of a text, or the bytes themselves."""
    return text if isinstance(text, bytes) else text.encode()


def words_of(line):
    """The words of a line between spaces, or the words themselves."""
    return tuple(line.split()) if isinstance(line, str) else tuple(line)


def case(name, reason, line, files, stdout="", stderr="", status=0, places=None):
    """A case by its whole command line."""
    content = {path: None if text is None else bytes_of(text) for path, text in files.items()}
    return Case(name, reason, words_of(line), content, bytes_of(stdout), bytes_of(stderr), status, places or {})


def status_of(report):
    """0 if the report says that nothing leaked, and 1 otherwise."""
    return 0 if "\nleaked 0 " in report else 1


def one(name, reason, core, log, report, options="--other-heap", warnings="", status=None):
    """A search of one core. Without a status it is that of the report."""
    files = {"core.k": core, "trace.log": log}
    wanted = status_of(report) if status is None else status
    return case(name, reason, f"one core.k trace.log {options}", files, report, warnings, wanted)


def two(name, reason, first, second, report, options="--other-heap", warnings="", status=None):
    """A search of two cores, each with its log. Without a status it is that of the report."""
    files = {"core.1": first[0], "log.1": first[1], "core.2": second[0], "log.2": second[1]}
    wanted = status_of(report) if status is None else status
    line = f"two core.1 log.1 core.2 log.2 {options}"
    return case(name, reason, line, files, report, warnings, wanted)


def why(name, reason, core, log, address, answer, options="", warnings="", status=None):
    """A question what holds the block of the address: status 1 if it leaked. Without warnings the heap is another's than glibc's."""
    files = {"core.k": core, "trace.log": log}
    wanted = (1 if answer.endswith("\nleaked\n") else 0) if status is None else status
    given = options if warnings else f"{options} --other-heap"
    return case(name, reason, f"why core.k trace.log {address} {given}", files, answer, warnings, wanted)


def refused(name, reason, line, files, text):
    """A run that is refused with the text, and prints no report."""
    return case(name, reason, line, files, "", f"leak_find: {text}\n", 2)


def by_plans(cases):
    """Each case, and the same by few and by many workers, short and long pieces, and small and large stacks."""
    return [each for given in cases for each in (given, *(with_plan(given, plan) for plan in PLANS))]


def with_plan(given, plan):
    """The case by a plan: no answer depends on it."""
    return replace(given, name=f"{given.name}, {plan}", words=given.words + words_of(plan))
