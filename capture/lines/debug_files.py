"""Files with the symbols that a stripped file lacks: separate debug files by build-id or by .gnu_debuglink, and
.gnu_debugdata.

The folders are those that gdb and Debian's binutils look in, then debuginfod is asked. A debug file of another build is
none.
"""
import os
import zlib

from lines import debuginfod, elf, opened

try:
    import lzma
except ImportError:  # a Python that was built without it has no .gnu_debugdata
    lzma = None

ROOT = "/usr/lib/debug"
NOTE, LINK, DATA = ".note.gnu.build-id", ".gnu_debuglink", ".gnu_debugdata"
LARGEST = 1 << 26  # bytes of an unpacked .gnu_debugdata; those of Fedora have up to some 10 MB
LARGEST_FILE = 1 << 33  # bytes of a file whose CRC is taken


def crc_of(file):
    """The CRC-32 of the file's bytes, or None of one that is too large."""
    crc, place = 0, 0
    while place <= LARGEST_FILE and (part := file.read(place, 1 << 20)):
        crc, place = zlib.crc32(part, crc), place + len(part)
    return crc if place <= LARGEST_FILE else None


def first_right(paths, roots, is_right):
    """The first of the files at these paths, below the roots and here, that is the right one, open, or None."""
    for path, root in ((path, root) for path in paths for root in (*roots, None)):
        try:
            file = opened.open_here(path) if root is None else opened.open_below(root, path)
        except (OSError, ValueError):
            continue
        try:
            if is_right(file):
                return file
        except OSError:
            pass
        file.close()
    return None


def has_build_id(identity):
    """Whether a debug file is of this build."""
    return lambda file: elf.build_id(elf.read_sections(file, (NOTE,)).get(NOTE, b"")) == identity


def by_build_id(identity, roots):
    """The debug file of this build-id."""
    path = f"{ROOT}/.build-id/{identity[:2]}/{identity[2:]}.debug"
    return first_right([path] if len(identity) >= 4 else [], roots, has_build_id(identity))


def by_link(path, link, roots):
    """The debug file that the section names: the first file of that name that has its CRC."""
    if link is None:
        return None
    folders = dict.fromkeys((os.path.dirname(path), os.path.dirname(os.path.realpath(path))))
    places = [place for folder in folders for place in (folder, os.path.join(folder, ".debug"), ROOT + folder)]
    return first_right([os.path.join(place, link[0]) for place in places], roots, lambda file: crc_of(file) == link[1])


def separate(file, sections, roots):
    """The separate debug file, or None."""
    identity = elf.build_id(sections.get(NOTE, b""))
    return (by_build_id(identity, roots) or by_link(file.path, elf.debug_link(sections.get(LINK, b"")), roots)
            or debuginfod.SHARED.file_of(identity, has_build_id(identity)))


def unpacked(data):
    """A file in memory with the bytes of the ELF file that is packed in .gnu_debugdata, or None. They are written part
    by part."""
    if lzma is None or not data:
        return None
    file, left = opened.unnamed(DATA), LARGEST
    try:
        unpacker = lzma.LZMADecompressor(memlimit=LARGEST)
        while not unpacker.eof and left > 0:
            part = unpacker.decompress(data, max_length=min(left, 1 << 20))
            data, left = b"", left - len(part)
            os.write(file.descriptor, part)
            if not part:
                break
    except (lzma.LZMAError, MemoryError, OSError):
        left = 0
    if left > 0 and unpacker.eof:
        return file
    file.close()
    return None


class DebugFiles:
    """The open files with a file's further symbols, for as long as the block of this `with` runs: the separate debug
    file and what was packed in the file, each None where there is none."""

    def __init__(self, file, roots=()):
        """Looks for those of the open file, below these roots first."""
        self.file, self.roots, self.separate, self.packed = file, roots, None, None

    def all(self):
        """Those that are there."""
        return [it for it in (self.separate, self.packed) if it is not None]

    def __enter__(self):
        """Itself, with the files."""
        sections = elf.read_sections(self.file, (NOTE, LINK, DATA))
        self.separate = separate(self.file, sections, self.roots)
        self.packed = unpacked(sections.get(DATA, b""))
        return self

    def __exit__(self, *_):
        """Closes them."""
        for file in self.all():
            file.close()
