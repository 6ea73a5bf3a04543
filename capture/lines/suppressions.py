"""Suppressions as LeakSanitizer reads them: lines leak:PATTERN, of which one that matches a frame leaves the caller
out.

A pattern matches within a text; ^ at its start and $ are the text's begin and end, and * is any text (LeakSanitizer,
Suppressions).
"""
import re

from lines.options import Refused

PREFIX = "leak:"


def expression(pattern):
    """The pattern as a regular expression. What follows a $ is not heeded, as LeakSanitizer does not."""
    begin, rest = (r"\A", pattern[1:]) if pattern.startswith("^") else ("", pattern)
    middle, end, _ = rest.partition("$")
    return begin + ".*".join(re.escape(part) for part in middle.split("*")) + (r"\Z" if end else "")


def read_pattern(line, place):
    """The pattern of a line, or "" where it has none."""
    line = line.strip()
    if line == "" or line.startswith("#"):
        return ""
    pattern = line.removeprefix(PREFIX)
    if pattern == line:
        raise Refused(f"leak_lines: {place}: '{line}' is no suppression of leaks: a line is leak:PATTERN, or # and a "
                      f"comment")
    if pattern == "":
        raise Refused(f"leak_lines: {place}: leak: without a pattern would leave everything out, as leak:* does")
    return pattern


class Suppressions:
    """The suppressions of some files. They remember the texts that they were asked for: callers share most frames."""

    def __init__(self, patterns):
        """Of these patterns."""
        self.shape = re.compile("|".join(f"(?:{expression(it)})" for it in patterns), re.DOTALL) if patterns else None
        self.known = {"": False}

    def matches(self, text):
        """Whether a pattern matches. None matches a text that is empty, so unknown."""
        if text not in self.known:
            self.known[text] = self.shape.search(text) is not None
        return self.known[text]

    def leaves_out(self, places):
        """Whether a function, a source file or a module of these places matches."""
        return self.shape is not None and any(self.matches(text) for it in places for text in (it.function, it.file,
                                                                                               it.module))


def read_files(files):
    """The suppressions of files: pairs of a path and lines."""
    numbered = [(line, f"{path}:{number}") for path, lines in files for number, line in enumerate(lines, 1)]
    return Suppressions([pattern for pattern in (read_pattern(*it) for it in numbered) if pattern])
