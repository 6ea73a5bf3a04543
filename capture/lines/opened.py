"""Regular files, opened so that nothing else is: no device, no queue, and below a given root nothing outside of it."""
import errno
import os
import stat

MOST_LINKS, LONGEST = 40, 4096  # as the kernel's own limits (path_resolution(7), PATH_MAX)


class Opened:
    """An open file, for as long as the block of this `with` runs, and the path that the process had it at."""

    def __init__(self, descriptor, path):
        """Takes the descriptor."""
        self.descriptor, self.path = descriptor, path

    @property
    def name(self):
        """A path by which a child that gets the descriptor opens this file, whatever is at the path by then."""
        return f"/proc/self/fd/{self.descriptor}"

    @property
    def size(self):
        """Its bytes."""
        return os.fstat(self.descriptor).st_size

    @property
    def written(self):
        """Its bytes, and seconds and nanoseconds of its time of change."""
        about = os.fstat(self.descriptor)
        return (about.st_size, *divmod(about.st_mtime_ns, 10 ** 9))

    def read(self, place, count):
        """So many bytes from this place on, or fewer at the end."""
        return os.pread(self.descriptor, count, place)

    def close(self):
        """Closes it."""
        os.close(self.descriptor)

    def __enter__(self):
        """Itself."""
        return self

    def __exit__(self, *_):
        """Closes it."""
        self.close()


def unnamed(path):
    """A new file in memory, told as of this path."""
    return Opened(os.memfd_create("leak_lines", os.MFD_CLOEXEC), path)


def reopened(found, path):
    """The file at an O_PATH descriptor, which opens nothing, if it is a regular one."""
    if not stat.S_ISREG(os.fstat(found).st_mode):
        raise OSError(errno.EINVAL, "not a regular file")
    return Opened(os.open(f"/proc/self/fd/{found}", os.O_RDONLY | os.O_NONBLOCK | os.O_CLOEXEC), path)


def open_here(path, told=None):
    """The regular file at this path, which may be told as of another one."""
    found = os.open(path, os.O_PATH | os.O_CLOEXEC)
    try:
        return reopened(found, told or path)
    finally:
        os.close(found)


def target_of(link):
    """The names in a symbolic link, the last one first, and whether they begin at the root."""
    target = os.readlink("", dir_fd=link)
    return target.split("/")[::-1], target.startswith("/")


def close_to(trail, count):
    """Closes the folders beyond the first ones."""
    while len(trail) > count:
        os.close(trail.pop())


def open_below(root, path):
    """The regular file that a process with this root sees at this path. No link and no .. leads out of the root."""
    if len(path) > LONGEST:
        raise OSError(errno.ENAMETOOLONG, os.strerror(errno.ENAMETOOLONG))
    trail, names, links = [os.open(root, os.O_PATH | os.O_DIRECTORY | os.O_CLOEXEC)], path.split("/")[::-1], 0
    try:
        while names:
            name = names.pop()
            if name == "..":
                close_to(trail, max(len(trail) - 1, 1))
            if name in ("", ".", ".."):
                continue
            trail.append(os.open(name, os.O_PATH | os.O_NOFOLLOW | os.O_CLOEXEC, dir_fd=trail[-1]))
            if not stat.S_ISLNK(os.fstat(trail[-1]).st_mode):
                continue
            links += 1
            if links > MOST_LINKS:
                raise OSError(errno.ELOOP, os.strerror(errno.ELOOP))
            further, from_root = target_of(trail[-1])
            close_to(trail, 1 if from_root else len(trail) - 1)
            names += further
        return reopened(trail[-1], path)
    finally:
        close_to(trail, 0)
