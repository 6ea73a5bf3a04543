"""Text from outside as it is shown, so that it can do nothing to a terminal: escaped as leak_find escapes paths.

A line feed is \\n, a carriage return \\r, a tab \\t, a backslash \\\\; each byte of another character that can't be
printed, or that is no UTF-8, is \\x with two digits.
"""
NAMED = {"\\": "\\\\", "\n": "\\n", "\r": "\\r", "\t": "\\t"}


def escape_of(letter):
    """What stands for the character."""
    if letter in NAMED:
        return NAMED[letter]
    return letter if letter.isprintable() else "".join(f"\\x{byte:02x}"
                                                       for byte in letter.encode("utf-8", "surrogateescape"))


def escaped(text):
    """The text with what stands for each character."""
    return text if text.isprintable() and "\\" not in text else "".join(map(escape_of, text))


def visible(text):
    """The text without what can do something to a terminal, where somebody has escaped it already: its backslashes
    stay."""
    return "".join(it if it.isprintable() else escape_of(it) for it in text)
