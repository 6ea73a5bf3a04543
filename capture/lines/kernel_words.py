"""Words that only the kernel holds, in a core by leak_core: what each is, by the note LEAKFIND (docs/FORMAT.md).

`leak_find why` may name such a word as a root, by its address.
"""
import re
import struct

from lines import core_notes

NOTE, NAME = 0x4b524e, b"LEAKFIND\0"
HEAD, WORD = struct.Struct("<QQQ"), struct.Struct("<IiQQ")
MOST_WORDS = 1 << 20  # leak_core writes no more
ROOT = re.compile("root (0x[0-9a-f]{1,16}) holds 0x[0-9a-f]{1,16}")

KINDS = {
    1: "data of what the epoll at descriptor {} watches",
    2: "the value of timer {}",
    3: "the alternate signal stack of thread {}",
    4: "a buffer registered with the io_uring at descriptor {}",
    5: "user_data of a result of the io_uring at descriptor {}",
    6: "the value of a signal that waits for thread {}",
    7: "bytes that wait in the pipe at descriptor {}",
}
PROCESS = "the value of a signal that waits for the process"


def text_of(kind, of):
    """What the word is."""
    return PROCESS if (kind, of) == (6, 0) else KINDS.get(kind, "a word that the kernel holds").format(of)


def read(path):
    """The address of the segment, and the texts of its words; 0 and none of a core without such a note."""
    with open(path, "rb") as file:
        note = core_notes.find(file, NAME, NOTE, HEAD.size + MOST_WORDS * WORD.size)
    if len(note) < HEAD.size:
        return 0, []
    words = range(HEAD.size, len(note) - WORD.size + 1, WORD.size)
    return HEAD.unpack_from(note)[0], [text_of(*WORD.unpack_from(note, at)[:2]) for at in words]


def told(line, address, texts):
    """The line, and if it is a root in the segment also what the word is."""
    match = ROOT.fullmatch(line)
    place = int(match[1], 16) - address if match and address else -1
    return f"{line}: {texts[place // 8]}" if place >= 0 and place % 8 == 0 and place // 8 < len(texts) else line
