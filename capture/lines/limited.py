"""Runs programs over files that anybody may have made: with limits, and as root with the rights of nobody.

The program gets the open file as a descriptor, and nothing of the environment by which it would look for others.
"""
import ctypes
import errno
import os
import resource
import select
import signal
import stat
import subprocess
import sys
import tempfile
import time
from contextlib import ExitStack
from typing import NamedTuple

from lines import opened, shown

MIB = 1 << 20
NOBODY = 65534  # Linux, overflowuid: owns nothing on any system
LIBC = ctypes.CDLL(None, use_errno=True)
PR_SET_PDEATHSIG, PR_SET_NO_NEW_PRIVS = 1, 38
PART, LONGEST_LINE = 1 << 16, 1 << 16
MOST_COPIED = 256 * MIB
UNKNOWN = b"??"  # stands for a line that is too long
said = {}  # in order
silence = []  # what keeps it from being said at once


class Limits(NamedTuple):
    """Bytes of memory, seconds of a processor, seconds by the clock, and bytes of output."""
    memory: int
    seconds: int
    clock: int
    output: int


def limits_for(size, questions):
    """What a program may take of a file of this size: measured for debug information of 20 MB to 1 GB, and some times
    that."""
    seconds = 30 + size // (16 * MIB) + questions // 50
    return Limits(min(256 * MIB + 16 * size, 8192 * MIB), seconds, 4 * seconds, 64 * MIB + 8 * size)


class NoAnswer(Exception):
    """A program that failed, which is said already."""


def say(text):
    """Says it on standard error, once."""
    if text not in said and not silence:
        print(f"leak_lines: {shown.escaped(text)}", file=sys.stderr)
    said[text] = None


def drop_rights():
    """As root: the rights of nobody. In a user namespace without such a user root has no more than who made it."""
    if os.geteuid():
        return
    try:
        os.setgroups([])
        os.setresgid(NOBODY, NOBODY, NOBODY)
        os.setresuid(NOBODY, NOBODY, NOBODY)
    except OSError:
        if is_whole_system():
            raise


def is_whole_system():
    """Whether all users of the system are there, or only some, as in a user namespace."""
    with open("/proc/self/uid_map", encoding="ascii") as file:
        return file.read().split() == ["0", "0", "4294967295"]


def limits_for_dump(core, log):
    """What leak_find or leak_what may take of a dump of these sizes: some times what they take of a core in which all
    is live."""
    seconds = 60 + (core + log) // (8 * MIB)
    return Limits(1024 * MIB + 2 * core + 16 * log, seconds, 4 * seconds, 4 * MIB)


def restrain(limits, keeps_rights):
    """What the child does before the program begins in it."""
    resource.setrlimit(resource.RLIMIT_AS, (limits.memory, limits.memory))
    resource.setrlimit(resource.RLIMIT_CPU, (limits.seconds, limits.seconds + 1))
    resource.setrlimit(resource.RLIMIT_CORE, (0, 0))
    if not keeps_rights:
        drop_rights()
    LIBC.prctl(PR_SET_PDEATHSIG, signal.SIGKILL, 0, 0, 0)  # after the change of the user, which resets it
    if LIBC.prctl(PR_SET_NO_NEW_PRIVS, 1, 0, 0, 0):
        raise OSError(ctypes.get_errno(), "no_new_privs")


def environment(variables):
    """The variables of the child: nothing by which a program asks the network or finds other files, unless it is handed
    on."""
    return {"PATH": os.environ.get("PATH", os.defpath), "LC_ALL": "C", **variables}


def copied(file):
    """The file in memory, for a program that may not open it itself."""
    copy = opened.unnamed(file.path)
    try:
        place = 0
        while sent := os.sendfile(copy.descriptor, file.descriptor, place, MOST_COPIED):
            place += sent
    except OSError:
        copy.close()
        raise
    return copy


def readable(file, stack):
    """The file, or a copy where only root may read it."""
    if os.geteuid() or os.fstat(file.descriptor).st_mode & stat.S_IROTH:
        return file
    if file.size > MOST_COPIED:
        raise OSError(errno.EFBIG, "only some users may read the file, and it is too large to be copied")
    return stack.enter_context(copied(file))


class Running:
    """A program that runs, for as long as the block of this `with` does, and why it failed, or None."""

    def __init__(self, command, limits, files=(), variables=(), keeps_rights=False, **streams):
        """Begins to run it."""
        self.limits, self.why, self.end = limits, None, time.monotonic() + limits.clock
        self.run = subprocess.Popen(command, stdout=subprocess.PIPE, stderr=subprocess.DEVNULL, cwd="/",
                                    env=environment(dict(variables)),
                                    pass_fds=[it.descriptor for it in files],
                                    preexec_fn=lambda: restrain(limits, keeps_rights),
                                    **streams)

    def parts(self):
        """What it prints, part by part."""
        left = self.limits.output
        while select.select([self.run.stdout], [], [], max(self.end - time.monotonic(), 0))[0]:
            part = os.read(self.run.stdout.fileno(), PART)
            left -= len(part)
            if left < 0:
                self.why = f"printed more than {self.limits.output // MIB} MB"
            if not part or left < 0:
                return
            yield part
        self.why = f"took more than {self.limits.clock} s"

    def lines(self):
        """The lines that it prints. One that is too long is unknown, and a last one without an end does not count."""
        rest, is_long = b"", False
        for part in self.parts():
            *whole, rest = (rest + part).split(b"\n")
            for line in whole:
                yield (UNKNOWN if is_long or len(line) > LONGEST_LINE else line).decode("utf-8", "surrogateescape")
                is_long = False
            if len(rest) > LONGEST_LINE:
                rest, is_long = b"", True

    def __enter__(self):
        """Itself."""
        return self

    def __exit__(self, *_):
        """Ends it, unless it ended by itself."""
        if self.why:
            self.run.kill()
        if self.run.stdin:
            self.run.stdin.close()
        self.run.stdout.close()
        status = self.run.wait()
        if status < 0 and not self.why:
            self.why = f"was ended by signal {-status}"


def lines_of(command, file, text, questions):
    """The lines that a program prints of this file with this text as its input. What fails is said, and gives fewer."""
    limits, name = limits_for(file.size, questions), os.path.basename(command[0])
    # a file: a pipe that is not read to its end would stop us
    with ExitStack() as stack, tempfile.TemporaryFile() as words:
        words.write(text.encode())
        words.seek(0)
        try:
            handed = readable(file, stack)
            with Running([*command, handed.name], limits, [handed], stdin=words) as run:
                yield from run.lines()
            why = run.why
        except (OSError, subprocess.SubprocessError) as error:
            why = f"can't be run: {error}"
        if why:
            say(f"{name} of {file.path} {why}: names are missing")


def lines_of_dump(command, core, log):
    """The lines that one of our own programs prints of a core and a log, which only their owner may read: it keeps the
    rights for that. Where it fails that is said, and NoAnswer ends the lines."""
    try:
        limits = limits_for_dump(os.path.getsize(core), os.path.getsize(log))
        with Running(command, limits, keeps_rights=True, stdin=subprocess.DEVNULL) as run:
            yield from run.lines()
        why = run.why
    except (OSError, subprocess.SubprocessError) as error:
        why = f"can't be run: {error}"
    if why:
        say(f"{os.path.basename(command[0])} of {core} {why}")
        raise NoAnswer
