"""Names of C++, Rust and D as their sources have them, by c++filt. Only names that are shown are asked for.

A name of some letters may stand for one that no memory can hold, so c++filt has limits, and what is over them stays as
it is.
"""
import os
import select
import shutil
import subprocess
import time

from lines import limited

COMMAND = ["c++filt"]
# the clock is a name's; a right one takes less than a millisecond
LIMITS = limited.Limits(256 * limited.MIB, 600, 3, 0)
LONGEST, LONGEST_RESULT, MOST_FAILED = 1 << 14, 1 << 16, 4


class Demangler:
    """A c++filt that runs as long as it answers, and the names that are known."""

    def __init__(self):
        """It is begun when the first name is asked for."""
        self.known, self.running, self.failed = {}, None, 0

    def begin(self):
        """Runs it, unless it runs, is missing, or failed too often. Gives whether it runs."""
        if self.running is None and self.failed < MOST_FAILED:
            if not shutil.which(COMMAND[0]):
                limited.say("c++filt is not installed: names are as linkers have them")
                self.failed = MOST_FAILED
                return False
            try:
                self.running = limited.Running(COMMAND, LIMITS, stdin=subprocess.PIPE)
            except (OSError, subprocess.SubprocessError) as error:
                limited.say(f"c++filt can't be run: {error}")
                self.failed = MOST_FAILED
        return self.running is not None

    def answer(self):
        """The line that it prints next, or None if it takes too long, or is too long itself."""
        output, end, text = self.running.run.stdout, time.monotonic() + LIMITS.clock, b""
        while len(text) <= LONGEST_RESULT and select.select([output], [], [], max(end - time.monotonic(), 0))[0]:
            part = os.read(output.fileno(), limited.PART)
            text += part
            if not part or text.endswith(b"\n"):
                return text[:-1].decode("utf-8", "surrogateescape") if part and len(text) <= LONGEST_RESULT else None
        return None

    def ask(self, name):
        """What it says of the name, or the name. After a fault it is begun anew."""
        try:
            self.running.run.stdin.write(name.encode("utf-8", "surrogateescape") + b"\n")
            self.running.run.stdin.flush()
            answer = self.answer()
        except OSError:
            answer = None
        if answer is None:
            limited.say(f"c++filt of a name of {len(name)} letters took too much: it is as linkers have it")
            self.failed += 1
            self.end("took too much")
        return answer or name

    def end(self, why=None):
        """Ends it."""
        running, self.running = self.running, None
        if running is not None:
            running.why = why
            running.__exit__()

    def of(self, name):
        """The name as its source has it."""
        if not name.startswith("_") or len(name) > LONGEST or "\n" in name:
            return name
        if name not in self.known and self.begin():
            self.known[name] = self.ask(name)
        return self.known.get(name, name)


SHARED = Demangler()
