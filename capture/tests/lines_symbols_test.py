"""Tests of what leak_lines reads of ELF files: bytes by hand, as the gABI lays them out, and what is damaged."""
import lzma
import os
import struct
import sys
import tempfile
import unittest
import zlib

sys.path.insert(0, os.path.join(os.path.dirname(os.path.abspath(__file__)), ".."))
from lines import tools, debug_files, elf, frames, opened  # noqa: E402

NOTE = struct.pack("<III", 4, 3, 3) + b"GNU\0" + b"\xab\xcd\xef\0"


def file_with(name, content):
    """An ELF file with section 0, the names and one section."""
    names = b"\0.shstrtab\0" + name.encode() + b"\0"
    header = struct.pack("<16sHHIQQQIHHHHHH", b"\x7fELF\x02\x01\x01", 3, 62, 1, 0, 0, 64, 0, 64, 0, 0, 64, 3, 1)
    start = 64 + 3 * 64
    sections = [(0, 0, 0, 0), (1, 3, start, len(names)), (11, 1, start + len(names), len(content))]
    return header + b"".join(struct.pack("<IIQQQQIIQQ", it[0], it[1], 0, 0, it[2], it[3], 0, 0, 1, 0)
                             for it in sections) + names + content


class Elf(unittest.TestCase):
    def sections(self, content, wanted=(".x",)):
        with tempfile.NamedTemporaryFile() as file:
            file.write(content)
            file.flush()
            with opened.open_here(file.name) as file:
                return elf.read_sections(file, wanted)

    def test_a_section(self):
        self.assertEqual(self.sections(file_with(".x", b"four")), {".x": b"four"})
        self.assertEqual(self.sections(file_with(".y", b"four")), {})

    def test_what_is_damaged_tells_nothing(self):
        whole = file_with(".x", b"four")
        for end in range(64 + 3 * 64):
            self.assertEqual(self.sections(whole[:end]), {}, end)
        for damaged in (b"", b"text", b"\x7fELF\x01" + whole[5:], whole[:60] + b"\xfe\xff" + whole[62:],
                        whole[:62] + b"\x09\0" + whole[64:], whole[:40] + b"\xff" * 8 + whole[48:],
                        whole[:96] + b"\xff" * 96 + whole[192:]):
            self.assertEqual(self.sections(damaged), {})

    def test_build_ids(self):
        other = struct.pack("<III", 2, 4, 1) + b"X\0\0\0" + b"1234"
        for note, identity in ((NOTE, "abcdef"), (other + NOTE, "abcdef"), (other, ""), (NOTE[:-2], ""), (b"", ""),
                               (NOTE[:11], ""),
                               (struct.pack("<III", 4, 3, 3) + b"GNX\0abc\0", ""), (b"\xff" * 16, "")):
            self.assertEqual(elf.build_id(note), identity)

    def test_debug_links(self):
        for section, link in ((b"ab.debug\0\0\0\0\x04\x03\x02\x01", ("ab.debug", 0x01020304)),
                              (b"abc\0\x04\x03\x02\x01", ("abc", 0x01020304)), (b"abc\0\x04\x03\x02", None),
                              (b"\0\0\0\0\x04\x03\x02\x01", None),
                              (b"", None),
                              (b"../x\0\0\0\0\x04\x03\x02\x01", None)):
            self.assertEqual(elf.debug_link(section), link)


class DebugFiles(unittest.TestCase):
    def setUp(self):
        self.folder = tempfile.TemporaryDirectory()
        self.root, debug_files.ROOT = debug_files.ROOT, self.folder.name

    def tearDown(self):
        debug_files.ROOT = self.root
        self.folder.cleanup()

    def write(self, name, content):
        path = os.path.join(self.folder.name, name)
        os.makedirs(os.path.dirname(path), exist_ok=True)
        with open(path, "wb") as file:
            file.write(content)
        return path

    def paths(self, path):
        with opened.open_here(path) as file, debug_files.DebugFiles(file) as further:
            return [it.path for it in further.all()]

    def test_by_build_id(self):
        path, debug = self.write("app", file_with(".note.gnu.build-id", NOTE)), ".build-id/ab/cdef.debug"
        self.assertEqual(self.paths(path), [])
        self.write(debug, file_with(".note.gnu.build-id", NOTE[:-2] + b"\0\0"))
        self.assertEqual(self.paths(path), [])
        debug = self.write(debug, file_with(".note.gnu.build-id", NOTE))
        self.assertEqual(self.paths(path), [debug])

    def test_by_link_in_its_folders(self):
        link = b"app.debug\0\0\0" + struct.pack("<I", zlib.crc32(b"content"))
        path = self.write("bin/app", file_with(".gnu_debuglink", link))
        self.write("bin/app.debug", b"another")
        self.assertEqual(self.paths(path), [])
        for name in (self.folder.name[1:] + "/bin/app.debug", "bin/.debug/app.debug", "bin/app.debug"):
            debug = self.write(name, b"content")
            self.assertEqual(self.paths(path), [debug])

    def test_packed(self):
        path = self.write("app", file_with(".gnu_debugdata", lzma.compress(b"plain")))
        with opened.open_here(path) as file, debug_files.DebugFiles(file) as further:
            self.assertEqual(further.packed.read(0, 9), b"plain")

    def test_packed_data_that_is_damaged_or_too_large_is_not_taken(self):
        packed = lzma.compress(b"plain" * 100)
        for data in (b"text", packed[:-1], packed[:20], b""):
            self.assertIsNone(debug_files.unpacked(data))
        most, debug_files.LARGEST = debug_files.LARGEST, 400
        self.assertIsNone(debug_files.unpacked(packed))
        debug_files.LARGEST = most
        with debug_files.unpacked(packed) as file:
            self.assertEqual(file.read(0, 999), b"plain" * 100)


class Functions(unittest.TestCase):
    symbols = ["0000000000001000 0000000000000010 t exact", "0000000000001020 0000000000000010 t parted.cold",
               "0000000000001040 0000000000000010 t parted(int) [clone .cold]",
               "0000000000001060 0000000000000010 t parted",
               "0000000000001080 0000000000000010 t parted(int)"]

    def place(self, address, function, where):
        frame, names = frames.frame_of(f"/lib/x.so:[{address:#x}]"), frames.Names(())
        names.lines["/lib/x.so"] = {frame.call: [(function, where)]}
        names.symbols["/lib/x.so"] = tools.read_symbols(self.symbols, [frame.call], [address])
        return names.places(frame)[0]

    def test_a_function_of_a_debug_file(self):
        self.assertEqual(self.place(0x1008, "??", "??:0"), ("exact", "/lib/x.so:[0x1008]"))
        self.assertEqual(self.place(0x1011, "??", "??:0"), ("x.so+0x1011", "/lib/x.so:[0x1011]"))

    def test_a_file_without_a_line_does_not_vouch_for_a_function(self):
        self.assertEqual(self.place(0x1008, "exact", "x.c:?"), ("exact", "x.c:?"))
        self.assertEqual(self.place(0x1018, "exact", "x.c:?"), ("x.so+0x1018", "/lib/x.so:[0x1018]"))
        self.assertEqual(self.place(0x1008, "parted", ":?"), ("exact", "/lib/x.so:[0x1008]"))

    def test_a_part_of_a_function_elsewhere_is_of_the_function(self):
        self.assertEqual(self.place(0x1028, "parted", "x.c:?"), ("parted", "x.c:?"))
        self.assertEqual(self.place(0x1048, "parted(int)", "x.c:?"), ("parted(int)", "x.c:?"))


if __name__ == "__main__":
    unittest.main()
