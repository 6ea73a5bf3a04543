"""A report for a person: a sentence, a table, what to do next, and last what may be wrong with it."""
from typing import Callable, NamedTuple

from lines import callers, chains, core_notes, document, grown, growth, html, inputs, limited, logs, lost, options
from lines import paper, remarks, report, runs, sentences, shown, structures, suppressions, what

MOST_ROWS, MOST_ON_PAGE = 20, 5000
TRACE = "start the program by leak_trace -d 8 PROGRAM: then "


def name_of(run, core):
    """The process in words, by the core's notes and what was asked for."""
    try:
        _, name = core_notes.process_of(core) if core else (None, "")
    except OSError:
        name = ""
    name = shown.escaped(name)
    if run.process:
        return f"{name} (pid {run.process})" if name else f"process {run.process}"
    return f"{name} (core {run.core})" if name and run.core else run.core or name or "the process"


def next_if_none(run):
    """What to do if nothing is lost."""
    if run.process:
        return f"if it still grows, leak_report --grow {run.process} --for 10m shows what grew and what retains it"
    return f"leak_report --html FILE {run.target} shows what retains the memory"


def next_if_lost(run, kind):
    """What to do where something is lost."""
    if not kind.has_callers and run.process and run.way != "attach":
        if kind.is_attachable:
            return f"leak_report --attach {run.process} shows which functions allocate what is lost from now on"
        if kind.is_traceable:
            return TRACE + "this report has the functions that allocated what is lost"
    if not kind.has_callers and kind.is_traceable and not run.process:
        return TRACE + "a report of its core has the functions that allocated what is lost"
    if run.process and not run.has_two_moments:
        begin = run.kept or "DIR"
        keep = "" if run.kept else f"leak_report --keep DIR {run.process}, and "
        later = f"some minutes later leak_report --after {begin} {run.process}"
        return f"compare with a second dump: {keep}{later} shows what is still lost"
    if run.way == "attach" and not kind.has_callers:
        return f"wait longer: leak_report --attach --for 2h {run.process}"
    return f"leak_report --list {run.target} has the address of each lost block, for a debugger"


def next_if_grown(run, kind, found):
    """What to do about what grew."""
    again = f"leak_report --grow {run.process}"
    if not found.new.blocks or found.now.size <= found.then.size and not found.lost.blocks:
        return f"wait longer: {again} --for 2h"
    if not kind.has_callers and kind.is_attachable:
        return f"{again} --attach --for 10m shows which functions allocate what grows"
    if not kind.has_callers and kind.is_traceable:
        return TRACE + "this report has the functions that allocate what grows"
    if found.lost.blocks:
        return f"leak_report {run.process} shows all that is lost"
    return f"{again} --html FILE shows all holders"


def next_line(run, kind, counts):
    """The line about what to do next."""
    return f"Next: {next_if_lost(run, kind) if counts['leaked']['blocks'] else next_if_none(run)}."


def stood_in_words(stood):
    """How long the process was stopped, in a list of a line or none."""
    if not stood:
        return []
    often = f"for {max(stood)} ms" if len(stood) == 1 else f"{len(stood)} times, for {max(stood)} ms at most"
    return [f"The process was stopped {often}."]


def tops_of(read, facts):
    """How many structures were lost, or None where that is not known."""
    return None if facts is None else len(structures.structures_of(what.blocks_of(read), facts))


def chains_of(asked, groups, facts):
    """What holds the blocks that those of the first rows look like, if that is asked for."""
    dump = chains.dump_beside(asked.path)
    if not asked.why or dump is None:
        return []
    heads = [[it.address for it in group.heads or ()] for group in groups[:asked.most or MOST_ROWS]]
    found = [chains.likeness_in(what.told_of(addresses, facts)[1]) for addresses in heads]
    return chains.lines_of(dump, [it for it in dict.fromkeys(found) if it][:asked.why])


def facts_of(asked):
    """What leak_what told, but what the structures say too; or None."""
    if asked.what is None:
        return None
    return structures.without_held(what.read(inputs.read_lines(asked.what), asked.what))


class Part(NamedTuple):
    """The parts of a report: the process, the sentence by what the remarks mean, whether something is lost, tables and
    lists, and what to do next."""
    name: str
    head: Callable
    is_lost: bool
    below: list
    following: str


def about_leaks(asked, read, files, run, sheet):
    """The parts of a report of leaks."""
    facts, counts, kind = facts_of(asked), document.counts_of(read), logs.read(inputs.beside(asked.path, ".log"))
    groups, tops = lost.groups_of(read, facts), tops_of(read, facts)
    misfits = [shown.escaped(part.line) for part in read.parts if part.line.startswith("misfit ")]
    below = [lost.table_of(groups, facts, read, files, (asked.most or MOST_ROWS, sheet)),
             lost.listed(read, facts) if run.has_list else [], misfits, chains_of(asked, groups, facts or lost.NONE)]
    return Part(name_of(run, inputs.beside(asked.path, ".core")),
                lambda effect: sentences.leaks(counts, tops, run.has_two_moments, effect),
                counts["leaked"]["blocks"] > 0, below, next_line(run, kind, counts))


def about_growth(asked, read, files, run, sheet):
    """The parts of a report of what grew."""
    found, gone = growth.read(asked.path, read)
    kind, facts = logs.read(inputs.beside(asked.path, ".log")), facts_of(asked) or lost.NONE
    below = [grown.table_of(found, gone, facts, files, (asked, asked.most or MOST_ROWS, sheet)),
             grown.holders_table(asked.path, files, sheet)]
    return Part(name_of(run, inputs.beside(asked.path, ".core")),
                lambda effect: grown.sentence(found, run.seconds, effect < remarks.LACKS),
                found.lost.blocks > 0, below, f"Next: {next_if_grown(run, kind, found)}.")


def lines_of(asked):
    """The lines that are printed."""
    run, read, sheet = runs.read(asked.about), report.read(inputs.read_lines(asked.path)), paper.of_output()
    limited.silence.append("a person has warnings last")
    counts = document.counts_of(read)
    if "blocks" not in counts or "leaked" not in counts:
        raise options.Refused("leak_lines: this is no report of leaks")
    files = inputs.sources_of(asked.path, asked.log, asked)
    part = (about_growth if run.way == "grow" else about_leaks)(asked, read, files, run, sheet)
    pages = parts_of_page(asked, read, files, run) if asked.page is not None else []
    said = remarks.read([*run.said, *(f"leak_lines: {it}" for it in (*files.notes(), *limited.said))], counts)
    head, end = part.head(said.effect), [part.following, *stood_in_words(said.stood)]
    if asked.page is not None:
        html.write(asked.page, html.page(part.name, [head, *end], said.warnings, pages))
    lines = [sheet.painted(line, "lost" if part.is_lost else "head") for line in sheet.wrapped(f"{part.name}: {head}")]
    lines += [line for group in part.below if group for line in [""] + group]
    lines += [""] + [sheet.painted(line, "next") for line in sheet.wrapped(part.following)] + end[1:]
    return lines + [sheet.painted(line, "warning") for it in said.warnings for line in sheet.wrapped(it)]


def named(said, read, files):
    """The part of the page with the first rows of a report, of which this is said."""
    kind = report.kind_of(read)
    rows = read.rows.get(kind, [])
    found = callers.name({kind: rows[:MOST_ON_PAGE]}, suppressions.read_files([]), files)
    return html.part_of(read, found._replace(what=callers.What(*said)), len(rows))


def parts_of_page(asked, read, files, run):
    """The parts of the page: what was lost, what grew between two moments, and who holds the memory."""
    facts = what.read(inputs.read_lines(asked.what), asked.what) if asked.what is not None else None
    lost_rows, said = structures.grouped(read, facts) if facts is not None else (read, {})
    parts = [named((said, facts.of_block if facts else {}), lost_rows, files)]
    for ending in (".grow", ".holders"):
        path = inputs.beside(asked.path, ending) if ending[1:] in run.parts else None
        parts += [named(({}, {}), report.read(inputs.read_lines(path)), files)] if path else []
    return parts
