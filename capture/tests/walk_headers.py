"""walk_headers.py CORE: how many segments of a core begin as an ELF file does. One is the kernel's own, which each
process has: vdso(7)."""
import struct, sys

data = open(sys.argv[1], "rb").read()
headers, number = struct.unpack_from("<Q", data, 32)[0], struct.unpack_from("<H", data, 56)[0]
segments = (struct.unpack_from("<IIQQQQ", data, headers + 56 * i) for i in range(number))
print(sum(kind == 1 and size >= 4 and data[offset:offset + 4] == b"\x7fELF" for kind, _, offset, _, _,
          size in segments))
