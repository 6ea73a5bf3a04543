"""The files of a process that lives: below its root, and those that it has mapped, whatever became of their names."""
import errno
import os
import re
import signal

from lines import builds, elf, limited, opened

MAPPED = re.compile(r"([0-9a-f]+-[0-9a-f]+) .{4} [0-9a-f]+ [0-9a-f:]+ [0-9]+ +(/.*)")
MOST_MAPPINGS = 1 << 17
MOST_BYTES, MOST_OF_ALL, PART = 2 << 30, 16 << 30, 1 << 20  # of a file that is copied, and of all
MOST_SECONDS = 600  # a file may be served by a process that never answers


class Process:
    """The process with this number. Another one may have it by now, so its files are checked as others are."""

    def __init__(self, number):
        """Reads nothing yet."""
        self.root, self.folder, self.by_path = f"/proc/{number}/root", f"/proc/{number}", None

    def read_maps(self):
        """By path, the first mapping of each file."""
        found = {}
        try:
            with open(f"{self.folder}/maps", encoding="utf-8", errors="surrogateescape") as file:
                for line, _ in zip(file, range(MOST_MAPPINGS)):
                    match = MAPPED.fullmatch(line.rstrip("\n"))
                    if match:
                        found.setdefault(match[2].replace("\\012", "\n"), match[1])
        except OSError:
            pass
        return found

    def mapped(self, path):
        """The links by which the system gives the file that is mapped (proc(5), map_files), in a list. Only root may
        follow them."""
        if self.by_path is None:
            self.by_path = self.read_maps()
        return [f"{self.folder}/map_files/{self.by_path[path]}"] if path in self.by_path else []


def make_folders(folder, names):
    """The folder below another one, which is made where it is not there. No link is followed."""
    for name in names:
        try:
            os.mkdir(name, 0o700, dir_fd=folder)
        except FileExistsError:
            pass
        inner = os.open(name, os.O_RDONLY | os.O_DIRECTORY | os.O_NOFOLLOW | os.O_CLOEXEC, dir_fd=folder)
        os.close(folder)
        folder = inner
    return folder


def write_copy(file, writer):
    """Writes all bytes of the file, and gives how many."""
    place = 0
    while part := file.read(place, PART):
        place += len(part)
        if place > MOST_BYTES:
            raise OSError(errno.EFBIG, "more than 2 GB")
        writer.write(part)
    return place


def copy_file(file, folder):
    """Copies the file to its path below the folder, and gives its bytes. A path that would lead out of it is
    refused."""
    *folders, name = [it for it in file.path.split("/") if it]
    if ".." in folders + [name]:
        raise OSError(errno.EINVAL, "not a path that a process has")
    at = make_folders(os.open(folder, os.O_RDONLY | os.O_DIRECTORY | os.O_CLOEXEC), folders)
    try:
        flags = os.O_WRONLY | os.O_CREAT | os.O_EXCL | os.O_NOFOLLOW | os.O_CLOEXEC
        with open(os.open(name, flags, 0o644, dir_fd=at), "wb") as writer:
            size = write_copy(file, writer)
            writer.flush()
            os.utime(writer.fileno(), ns=(file.written[1] * 10 ** 9 + file.written[2],) * 2)
            return size
    finally:
        os.close(at)


def open_right(process, path, wanted):
    """The file that the process has at this path, if it is the only build that the log tells."""
    openers = [lambda it=it: opened.open_here(it, path) for it in process.mapped(path)]
    for opener in openers + [lambda: opened.open_below(process.root, path)]:
        try:
            file = opener()
        except OSError:
            continue
        if wanted == {elf.loaded_build_id(file)}:
            return file
        file.close()
    return None


def copy_files(number, log, folder):
    """Copies the files of the process that the log tells into the folder, which must not be there. Says which can't be
    had."""
    signal.signal(signal.SIGALRM, signal.SIG_DFL)
    signal.alarm(MOST_SECONDS)
    process, left = Process(number), MOST_OF_ALL
    os.mkdir(folder, 0o700)
    for path, wanted in builds.read(log).ids.items():
        file = open_right(process, path, wanted)
        try:
            if file is None or left < file.size:
                raise OSError(errno.ENOENT, "the process has it no more" if file is None
                              else "all files are more than 16 GB")
            with file:
                left -= copy_file(file, folder)
        except OSError as error:
            limited.say(f"{path} is not kept: {error.strerror}")
