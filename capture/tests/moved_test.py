"""The first instructions of a function: how long they are, and what they are elsewhere. objdump judges.
moved_test.py PROGRAM FILE.."""
import random
import re
import subprocess
import sys
import time
import unittest

SLOT, CODE, MOST = 64, 32, 1000
FROM, TO = 0x7F0000001000, 0x7F0040003000
PREFIXES = ["", "66", "64", "f0", "f2", "f3", "2e", "6666", "662e", "2e6666", "f366", "f364"]
WIDE = ["", "41", "48", "4c"]
SEED = int(time.time())


def made(cases):
    """Of each (from, size, to, code): length, place of an address, bytes of a jump's, bytes taken, what they become."""
    lines = "".join(f"{start:x} {size:x} {to:x} {code.hex().ljust(2 * CODE, '9')[:2 * CODE]}\n"
                    for start, size, to, code in cases)
    done = subprocess.run([PROGRAM], input=lines, capture_output=True, text=True, check=True)
    rows = [line.split() for line in done.stdout.splitlines()]
    return [(*map(int, row[:4]), b"" if row[4] == "-" else bytes.fromhex(row[4])) for row in rows]


def output_of(*words):
    """What a program prints."""
    return subprocess.run(words, capture_output=True, text=True, check=True).stdout


def told(pieces):
    """What objdump says of each piece of code, as if each lay SLOT bytes behind the one before: of its instructions
    (place in it, length, text)."""
    found = [[] for _ in pieces]
    with open("moved.bin", "wb") as file:
        for code in pieces:
            file.write(code[:SLOT].ljust(SLOT, b"\x90"))
    for line in output_of("objdump", "-D", "-w", "-b", "binary", "-m", "i386:x86-64", "moved.bin").splitlines():
        if row := re.match(r"\s*([0-9a-f]+):\t((?:[0-9a-f]{2} )+)\s*\t?(.*)", line):
            at = int(row[1], 16)
            found[at // SLOT].append((at % SLOT, len(row[2]) // 3, row[3]))
    return found


def anywhere(text, by):
    """An instruction's text with addresses as they are, if its code lies `by` higher than objdump thinks."""
    text = re.sub(r"-?0x[0-9a-f]+\(%rip\)(.*?)\s+# (0x[0-9a-f]+)",
                  lambda it: f"({(int(it[2], 16) + by) % 2**64:#x}){it[1]}", text)
    return re.sub(r"^(j\w+)\s+(0x[0-9a-f]+)$", lambda it: f"{it[1]} {(int(it[2], 16) + by) % 2**64:#x}", text.strip())


class Lengths(unittest.TestCase):
    """The length of an instruction, and what in it depends on its place."""

    def compare(self, codes):
        """All that are known must be as objdump has them. Gives how many are."""
        known = [(code, row) for code, row in zip(codes, made([(FROM, 0, TO, code) for code in codes])) if row[0]]
        count = 0
        for (code, row), instructions in zip(known, told([code for code, _ in known])):
            _, size, text = instructions[0]
            if "(bad)" in text or re.fullmatch(r"(rex\S*|data16|cs|fs|[defgs]s|rep\w*|lock)\s*", text):
                continue    # no instruction
            wanted = size, "(%rip)" in text, bool(re.search(r"\b(j|call|xbegin)", text)) and "*" not in text
            self.assertEqual((row[0], row[1] > 0, row[2] > 0), wanted, f"{code.hex()} {text} (seed {SEED})")
            count += 1
        return count

    def test_made_instructions(self):
        chance = random.Random(SEED)
        codes = [bytes.fromhex(prefix + wide + second) + bytes([operation]) + chance.randbytes(14)
                 for prefix in PREFIXES for wide in WIDE for second in ("", "0f") for operation in range(256)]
        self.assertGreater(self.compare(codes), 10000)

    def test_instructions_of_libraries(self):
        for path in FILES:
            out = output_of("objdump", "-d", "-w", "-j", ".text", path)
            codes = sorted({row[1] for row in re.finditer(r"^ *[0-9a-f]+:\t((?:[0-9a-f]{2} )+)", out, re.MULTILINE)})
            codes = [bytes.fromhex(code) for code in random.Random(SEED).sample(codes, min(len(codes), MOST))]
            self.assertGreater(self.compare(codes), len(codes) // 2)


class Moved(unittest.TestCase):
    """What the first instructions become."""

    def compare(self, cases):
        """They must do the same elsewhere, and go on behind what was taken."""
        rows = [(case, row) for case, row in zip(cases, made(cases)) if row[3]]
        before, after = told([case[3] for case, _ in rows]), told([row[4] for _, row in rows])
        for number, ((start, _, to, code), row) in enumerate(rows):
            here = [anywhere(text, start - number * SLOT) for at, _, text in before[number] if at < row[3]]
            there = [(at, anywhere(text, to - number * SLOT)) for at, _, text in after[number]]
            self.assertEqual(here, [text for _, text in there[:len(here)]], f"{code.hex()} to {to - start:#x}")
            self.assertEqual(there[len(here)][0], len(row[4]) - 14, code.hex())
            self.assertEqual(row[4][-14:], b"\xff\x25\0\0\0\0" + (start + row[3]).to_bytes(8, "little"), code.hex())
        return len(rows)

    def test_functions_of_libraries(self):
        chance = random.Random(SEED)
        for path in FILES:
            with open(path, "rb") as file:
                content = file.read()
            names = output_of("nm", "-D", "-S", "--defined-only", path)
            functions = [(int(row[1], 16), int(row[2], 16))
                         for row in re.finditer(r"^([0-9a-f]+) ([0-9a-f]+) [TWi] ", names, re.MULTILINE)]
            # (their code is in the file where it is in memory)
            functions = chance.sample(functions, min(len(functions), MOST))
            cases = [(FROM + at, size, FROM + at + chance.randrange(-0x70000000, 0x70000000), content[at:at + CODE])
                     for at, size in functions if at + CODE < len(content)]
            self.assertGreater(self.compare(cases), len(cases) // 3)

    def test_what_can_be_moved(self):
        for code in ["4883ec18 31c0", "f00fb10f 90", "488b0578563412 c3", "c7057856341278563412", "83bd785634127f 90",
                     "66488105111111112222222290", "f30f1efa 4989f8", "85ff 7410 31c0", "85ff 0f8400010000",
                     "e900010000", "64488b0425280000009090", "48b8" + "11" * 8,
                     "803d78563412 01"]:
            with self.subTest(code):
                self.assertEqual(self.compare([(FROM, 0, TO, bytes.fromhex(code).ljust(CODE, b"\x90"))]), 1)

    def test_what_can_not_be_moved(self):
        for why, code in {"call": "e800000000", "a breakpoint": "cc90909090", "ret": "31c0c39090",
                          "VEX": "c5f877909090", "EVEX": "62f17c48280000", "XBEGIN": "c7f800000000",
                          "xabort": "c6f80190909090",
                          "a jump with a prefix": "f2e900010000", "with a hint": "2e7410909090",
                          "into what is taken": "90eb0190909090", "to the start": "9085ff74fb909090",
                          "back to the start": "909090ebfb", "loop": "90e2fd909090", "a short end": "50eb30909090",
                          "five prefixes": "666666666690", "a pointer": "ff2090909090", "syscall": "90900f05",
                          "32-bit addresses": "678b0590909090"}.items():
            with self.subTest(why):
                self.assertEqual(made([(FROM, 0, TO, bytes.fromhex(code).ljust(CODE, b"\x90"))])[0][3:], (0, b""))

    def test_what_is_out_of_reach(self):
        code = bytes.fromhex("488b05ffffff7f")
        self.assertEqual(made([(FROM, 0, FROM - 0x10000000, code)])[0][3], 0)
        self.assertEqual(made([(FROM, 0, FROM + 0x10000000, code)])[0][3], 7)

    def test_a_function_that_is_shorter(self):
        code = bytes.fromhex("4883ec1831c0").ljust(CODE, b"\x90")
        self.assertEqual([made([(FROM, size, TO, code)])[0][3] for size in (4, 5, 6, 0)], [0, 0, 6, 6])


PROGRAM, *FILES = sys.argv[1:]
unittest.main(argv=sys.argv[:1])
