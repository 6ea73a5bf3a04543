"""Where the files are that the process had mapped: below given roots, then at their paths here. One of another build is
none.

A place of a file is told as (another build) or the like where nothing may be named from it.
"""
from functools import partial
from typing import NamedTuple

from lines import builds, elf, opened, shown

DELETED = " (deleted)"  # is said by the kernel of a file whose name is gone or is another file's (proc(5))
NOT_FOUND, NO_ELF, OTHER, UNKNOWN = "file not found", "no ELF file", "another build", "build not known"
# Which of two candidates' problems is told.
ORDER = (NOT_FOUND, NO_ELF, UNKNOWN, OTHER)
NOTES = {
    OTHER: "are not those that ran, and nothing is named from them; put the right ones below a folder DIR, at the "
           "same paths, and add "
           "--root DIR",
    UNKNOWN: "have no build-id in the log, and nothing is named from them; if they did not change since they ran, add "
             "--unchecked",
}


class Found(NamedTuple):
    """An open file, or None and why."""
    file: opened.Opened
    problem: str


MOST_LISTED = 8


def listed(paths):
    """The paths in a line, of many the first."""
    further = f" and {len(paths) - MOST_LISTED} more" if len(paths) > MOST_LISTED else ""
    return ", ".join(map(shown.escaped, list(paths)[:MOST_LISTED])) + further


class Sources:
    """Looks for files, and remembers from which nothing may be named."""

    def __init__(self, told=builds.NONE, roots=(), is_lenient=False, process=None):
        """Of these builds, below these roots, the first one first, then of the process while it lives. `is_lenient`
        takes files too whose build nobody can tell."""
        self.told, self.is_lenient, self.process = told, is_lenient, process
        self.roots = tuple(roots) + ((process.root,) if process else ())
        self.refused, self.asked, self.unchecked = {OTHER: [], UNKNOWN: []}, 0, 0

    def candidates(self, path):
        """Openers of the files that may be this one. Where the build is known, a deleted file may be back at its
        path."""
        names = [path]
        if path.endswith(DELETED) and self.told.ids.get(path, {""}) != {""}:
            names.append(path.removesuffix(DELETED))
        for root in self.roots:
            yield from (partial(opened.open_below, root, name) for name in names)
        if self.process:
            yield from (partial(opened.open_here, mapped, path) for mapped in self.process.mapped(path))
        yield from (partial(opened.open_here, name) for name in names)

    def problem_of(self, path, file):
        """Why nothing may be named from the file, or ""."""
        if not elf.is_elf(file):
            return NO_ELF
        if not self.told.is_told:
            self.unchecked += 1
            return ""
        wanted, own = self.told.ids.get(path), elf.loaded_build_id(file)
        if wanted and "?" not in wanted and wanted != {own}:
            return OTHER
        written = self.told.written.get(path)
        if wanted == {""} and not own and written:  # of two builds that had this path nobody knows which one it is
            return "" if written == {file.written} else OTHER
        return "" if own and wanted == {own} or self.is_lenient else UNKNOWN

    def find(self, path):
        """The file that the process had at this path."""
        problem = NOT_FOUND
        self.asked += 1
        for candidate in self.candidates(path):
            try:
                file = candidate()
            except (OSError, ValueError):  # a path with a NUL is of no file
                continue
            further = self.problem_of(path, file)
            if not further:
                return Found(file, "")
            file.close()
            problem = max(problem, further, key=ORDER.index)
        self.refused.get(problem, []).append(path)
        return Found(None, problem)

    def has_offsets(self, path):
        """Whether the log has offsets in this file, since the core lacked its program headers."""
        return self.told.is_told and path not in self.told.ids

    def notes(self):
        """The lines that say from which files nothing is named, and what helps."""
        lines = []
        for problem, paths in self.refused.items():
            if paths:
                lines.append(f"{problem}: {len(paths)} of {self.asked} files {NOTES[problem]}: {listed(paths)}")
        return lines
