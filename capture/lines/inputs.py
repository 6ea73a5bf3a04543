"""What the command reads: lines of a report, and where the files of its process are."""
import os
import sys

from lines import builds, processes, sources
from lines.options import Refused


def read_lines(path):
    """The lines of the file, or of standard input. Bytes that are no UTF-8 stay as they are."""
    if path is None and sys.stdin.isatty():
        print("leak_lines: waits for a report of leak_find on standard input; leak_lines --help says more",
              file=sys.stderr)
    try:
        with open(path, "rb") if path is not None else sys.stdin.buffer as file:
            text = file.read().decode("utf-8", "surrogateescape")
    except OSError as error:
        raise Refused(f"leak_lines: {path or 'standard input'}: {error.strerror}") from error
    return text[:-1].split("\n") if text.endswith("\n") else text.split("\n") if text else []


def beside(path, ending):
    """The file beside the report at this path, by the names that leak_report --keep gives, or None."""
    name = path and path.removesuffix(".report") + ending
    return name if name and os.path.isfile(name) else None


def kept_beside(log):
    """The folder with the files that leak_report --files kept beside the log, in a list, which may be empty."""
    name = log.removesuffix(".log") + ".files" if log else ""
    return [name] if os.path.isdir(name) else []


def sources_of(path, log, asked):
    """Where the files of the report at this path are looked for, by its log."""
    log = log or beside(path, ".log")
    try:
        told = builds.read(log) if log is not None else builds.NONE
    except OSError as error:
        raise Refused(f"leak_lines: {log}: {error.strerror}") from error
    process = processes.Process(asked.pid) if asked.pid else None
    return sources.Sources(told, [*asked.roots, *kept_beside(log)], asked.is_lenient, process)
