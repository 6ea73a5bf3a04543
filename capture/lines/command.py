"""The command: reads the report, asks for the names of the rows that are shown, and prints all."""
import signal
import sys

from lines import callers, chains, document, folded, held, html, judging, kernel_words, limited, options, person
from lines import processes, progress, report, shown, signal_stacks, since, structures, suppressions, tables, what
from lines.inputs import read_lines, sources_of
from lines.options import Refused


def tell(files, is_table):
    """The lines that come before a table, which say from which files nothing is named; before another form standard
    error has them."""
    unchecked = sum(it.unchecked for it in files)
    if unchecked:
        limited.say(f"{unchecked} files may be of another build than those that ran: no log tells (--log LOG)")
    lines = list(dict.fromkeys(line for it in files for line in it.notes()))
    for line in lines if not is_table else ():
        print(f"leak_lines: {line}", file=sys.stderr)
    return lines if is_table else []


def text_of_lines(lines):
    """The text with these lines."""
    return "".join(line + "\n" for line in lines)


def text_of(lines, most):
    """The report of these lines with tables of so many rows at most."""
    read = report.read(lines)
    found = callers.name({kind: rows[:most] for kind, rows in read.rows.items()}, suppressions.read_files([]))
    return text_of_lines(tables.lines_of(read, found, most))


def read_report(path, asked):
    """The report at this path. Where its leaks decide the status it must be whole."""
    read = report.read(read_lines(path))
    if asked.is_judged:
        judging.check_whole(read)
    if not report.kind_of(read) and asked.form != "table":
        raise Refused("leak_lines: this is no report with callers")
    return read


def with_words(read, path):
    """The report with what the core at this path says of its roots."""
    try:
        address, texts = kernel_words.read(path)
    except OSError as error:
        raise Refused(f"leak_lines: {path}: {error.strerror}") from error
    return read._replace(parts=[part._replace(line=kernel_words.told(part.line, address, texts))
                                for part in read.parts])


def run_since(asked, rules):
    """The text of two reports compared, and the exit status."""
    if asked.path is None and asked.since == "-":
        raise Refused(options.USAGE)
    paths = [None if path == "-" else path for path in (asked.since, asked.path)]
    reports = [read_report(path, asked) for path in paths]
    kind = since.kind_of(reports)
    files = [sources_of(path, log, asked) for path, log in zip(paths, (None, asked.log))]
    found = [callers.name(read.rows, rules, it) for read, it in zip(reports, files)]
    lines = tell(files, True) + since.lines_of(found, kind, asked)
    lines += [tables.suppressed_line(found[1])] if asked.suppress else []
    return text_of_lines(lines), since.status_of(found, asked) if asked.is_judged else 0


def with_facts(asked, read):
    """The report with the rows that are asked for, what is said below rows of structures, and what is known of its
    blocks."""
    if asked.what is None:
        return read, {}, what.Facts({}, {}, {})
    facts = what.read(read_lines(asked.what), asked.what)
    return *(structures.grouped(read, facts) if asked.by_structures else (read, {})), facts


def run_one(asked, rules):
    """The text of one report, and the exit status."""
    read, said, facts = with_facts(asked, read_report(asked.path, asked))
    read = with_words(read, asked.core) if asked.core is not None else read
    files = sources_of(asked.path, asked.log, asked)
    most = asked.most if asked.form == "table" and not asked.is_judged else None
    found = callers.name({kind: rows[:most] for kind, rows in read.rows.items()}, rules, files)
    read, found = held.suppressed(read, found, facts)
    said = what.below_rows(read, facts) if asked.what and not asked.by_structures else said
    found = found._replace(what=callers.What(said, facts.of_block))
    found = signal_stacks.with_marks(found, read, files.told.stacks)
    lines = tell([files], asked.form == "table") + lines_in(asked, read, found)
    return text_of_lines(lines), judging.status_of(found) if asked.is_judged else 0


def lines_in(asked, read, found):
    """The lines in the form that is asked for."""
    kind = report.kind_of(read)
    if asked.form == "folded":
        return folded.lines_of(found.shown.get(kind, []), kind)
    if asked.form == "json":
        return document.lines_of(read, found)
    if asked.form == "html":
        return html.lines_of(read, found)
    rows = [caller.row for caller in found.shown.get(kind, [])[:asked.most]]
    lines = tables.lines_of(read, found, asked.most) + ([tables.suppressed_line(found)] if asked.suppress else [])
    return lines + chains.below_tables(asked, rows, found.what)


def copy_files(asked):
    """Copies the files of the process; prints nothing."""
    if asked.pid is None or asked.log is None:
        raise Refused(options.USAGE)
    try:
        processes.copy_files(asked.pid, asked.log, asked.copies)
    except OSError as error:
        raise Refused(f"leak_lines: {error.filename or asked.copies}: {error.strerror}") from error
    return "", 0


def run(asked):
    """The text that is printed, and the exit status."""
    if asked.copies is not None:
        return copy_files(asked)
    if asked.about is not None:
        return text_of_lines(person.lines_of(asked)), 0
    rules = suppressions.read_files([(path, read_lines(path)) for path in asked.suppress])
    return run_one(asked, rules) if asked.since is None else run_since(asked, rules)


def write(text):
    """Prints the text."""
    signal.signal(signal.SIGPIPE, signal.SIG_DFL)  # `leak_lines | head` ends quietly
    try:
        sys.stdout.buffer.write(text.encode("utf-8", "surrogateescape"))
        sys.stdout.buffer.flush()
    except OSError as error:
        raise Refused(f"leak_lines: write failed: {error.strerror}") from error


def main(words):
    """Prints the report and gives the exit status."""
    try:
        asked = options.read(words)
        with progress.SHOWN:
            text, status = run(asked)
        if asked.page is None or asked.about is not None:
            write(text)
        else:
            html.write(asked.page, text)
    except Refused as refusal:
        print("\n".join(map(shown.escaped, str(refusal).split("\n"))), file=sys.stderr)
        return 2
    return status
