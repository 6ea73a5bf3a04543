"""The exit status where one is asked for: 1 where something leaked that is not suppressed, 0 where nothing did."""
from lines.options import Refused

OTHER = ("then ", "asked ")  # reports of what grew, and of what holds a block
OTHER_KINDS = ("holder", "in", "by", "grew")


def check_whole(read):
    """Refuses what is no whole report of leaks, whose callers have all leaked blocks: a search that failed must not
    seem to be one without leaks."""
    if any(kind in read.rows for kind in OTHER_KINDS) or any(part.line.startswith(OTHER) for part in read.parts):
        return
    leaked = next((part.line.split(" ")[1] for part in read.parts if part.line.startswith("leaked ")), None)
    if leaked is None:
        raise Refused("leak_lines: this is no report: no line says what leaked")
    found = sum(row.numbers[0] for row in read.rows.get("caller", ()))
    if leaked != str(found):
        raise Refused(f"leak_lines: the report is not whole: {leaked} blocks leaked, and its callers have {found}")


def status_of(found):
    """The status of callers: that of other rows is 0."""
    return 1 if found.shown.get("caller") or found.shown.get("structure") else 0
