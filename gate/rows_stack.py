"""Searches with --skip-dead-stack: words below the stack pointer of a thread, on its own stack, are no roots.

The thread has its stack at [0x10000, 0x11000), as its record at fs_base says, and is in a system call: what is below rsp is dead.
All places below 0x10800 are 256, of which the block at 0x10100 has 4. `dead` counts those that would have been root words.
"""

from case import by_plans, one, two, why
from cores import ONE_BLOCK, auxiliary, core, notes, rbx, read_only, registers, status_entry, words
from rows_why import directly, told
from texts import all_marked, held, lost, report

DEAD = "--other-heap --skip-dead-stack"
RECORD = ((0x10F10, 0x10000), (0x10F18, 0x1000))
NO_CALL = 0xFFFFFFFFFFFFFFFF  # orig_rax of a thread that is in no system call
LOW = (0x10008, 0x10100)  # a word at the stack's far end that leads to the block


def stack(*set_words, record=RECORD, **given):
    """A core whose thread has rsp, fs_base and the record of its stack, with these words."""
    return core(registers(**{"rsp": 0x10800, "fs_base": 0x10F00, **given}), words(*record, *set_words))


def second(**given):
    """A second thread with these registers, at 532 in the file."""
    def change(image):
        notes(712)(image)
        image[532:532 + 356] = status_entry()
        registers(at=532, **given)(image)
    return change


def two_threads(place):
    """Two threads whose stacks lie one within the other's mapping, and a word that leads to the block."""
    return core(registers(rsp=0x10800, fs_base=0x10F00), second(rsp=0x10400, fs_base=0x10600),
                words((0x10F10, 0x10700), (0x10F18, 0x900), (0x10610, 0x10200), (0x10618, 0x500), (place, 0x10100)))


def random_at(address):
    """A core without a record, whose first stack is told by the address of AT_RANDOM."""
    return core(registers(rsp=0x10800), auxiliary((25, address)), words(LOW))


def frame(place, flags=1):
    """A thread on a signal's stack within its own: the frame at 0x10400 says that rsp was 0x10200."""
    return stack((0x10400, 0x10280), (0x10408, flags), (0x10410, 0x300), (0x10490, 0x10200), (place, 0x10100), rsp=0x10300)


def left_out():
    """Words that are dead: the block leaks. Name, core, and how many places are left out."""
    return [
        ("the far end", stack(LOW), 252),
        ("just below rsp", stack((0x107F8, 0x10100)), 252),
        ("below the red zone", stack((0x10778, 0x10100), orig_rax=NO_CALL), 236),
        ("the first stack", random_at(0x10FF0), 252),
        ("a second thread", two_threads(0x10208), 96),
        ("the first of two threads", two_threads(0x10708), 96),
        ("below a signal's frame", frame(0x10008), 44),
        ("a frame with other flags", frame(0x10188, flags=3), 92),
        ("a frame that disarms its stack", frame(0x10008, flags=0x80000001), 44),
        ("a frame with other bytes after its flags", frame(0x10008, flags=0xDEADBEEF00000001), 44),
    ]


def counted():
    """Words that are not, and why: the block is held. The places that are left out all the same come last."""
    no_call = {"orig_rax": NO_CALL}
    return [
        ("at rsp", "the stack begins there", stack((0x10800, 0x10100)), 252),
        ("just below rsp, in no call", "a function that calls none may keep it there", stack((0x107F8, 0x10100), **no_call), 236),
        ("the end of the red zone", "it has 128 bytes", stack((0x10780, 0x10100), **no_call), 236),
        ("half above rsp", "its 8 bytes are not all below", stack((0x10000, 0x10100), rsp=0x10004), 0),
        ("no record", "nobody knows where the stack begins", stack(LOW, record=()), 0),
        ("two records", "one of them is false", stack(LOW, (0x10F20, 0x10000), (0x10F28, 0x1000)), 0),
        ("fs_base below rsp", "that is no thread's stack", stack(LOW, fs_base=0x10700), 0),
        ("a record that ends at fs_base", "fs_base lies on the stack's memory",
         stack(LOW, record=((0x10F10, 0x10000), (0x10F18, 0xF00))), 0),
        ("a record past all addresses", "sums are of whole numbers",
         stack(LOW, record=((0x10F10, 0x10000), (0x10F18, 0xFFFFFFFFFFFFF000))), 0),
        ("AT_RANDOM elsewhere", "the segment is not the first stack", random_at(0x20000), 0),
        ("AT_RANDOM below rsp", "it lies above what the first stack has in use", random_at(0x10400), 0),
        ("between two stacks", "it is above the one's rsp and below the other's begin", two_threads(0x10500), 96),
        ("before both stacks", "no record has it", two_threads(0x10008), 96),
        ("within a signal's frame", "the frame below the signal's stack is live", frame(0x10188), 44),
        ("a register beside it", "registers stay roots",
         core(registers(rsp=0x10800, fs_base=0x10F00), words(*RECORD, LOW), rbx(0x10100)), 252),
    ]


def others():
    """Words of blocks, memory that can't be written, freed memory, and notes that are cut short."""
    in_block = core(registers(rsp=0x10800, fs_base=0x10F00), words(*RECORD, (0x10108, 0x10200)), rbx(0x10100))
    unwritable = core(registers(rsp=0x10800, fs_base=0x10F00), words(*RECORD, LOW), read_only())
    freed = "+ 0x10200 0x10\n- 0x10200\n" + ONE_BLOCK
    in_freed = stack((0x10200, 0x10100))
    leaked = report((1, 32), (0, 0), (1, 32), 1, "caller 1 32 1 ./a.out:[0x401136]",
                    "leak 0x10100 32 3 head ./a.out:[0x401136]", freed=2, dead=250)
    cut = core(registers(rsp=0x10800), auxiliary((25, 0x10FF0), cut=8), words(LOW))
    return [
        one("stack: a word of a block", "words of blocks lead as ever", in_block, "+ 0x10100 0x20\n+ 0x10200 0x10\n",
            all_marked(2, 48, dead=250), DEAD),
        one("stack: read-only, with all memory", "the stack is left out wherever it is", unwritable, ONE_BLOCK, lost(dead=252),
            f"{DEAD} --all-memory"),
        one("stack: read-only", "it holds no root word anyway", unwritable, ONE_BLOCK, lost(dead=0), DEAD),
        one("stack: and freed memory", "what is freed is taken out first", in_freed, freed, leaked, f"{DEAD} --skip-freed"),
        one("stack: half a pair", "a pair of two words is cut short", cut, ONE_BLOCK, held(dead=0), DEAD),
    ]


def of_two():
    """Two cores: each goes by its own threads."""
    plain, dead = core(words(LOW)), stack(LOW)
    new = "+ 0x10100 0x20\n+ 0x10300 0x8\n"
    both = report((2, 40), (1, 8), (1, 32), 1, "caller 1 32 1 ?", "leak 0x10100 32 1 head ?", new=(1, 8), reread=0, dead=251)
    return [
        two("stack: in the first core alone", "it is not kept, and core 2's word holds it", (dead, ONE_BLOCK), (plain, ONE_BLOCK),
            held(new=(0, 0), reread=0, dead=0), DEAD),
        two("stack: in the second core alone", "it was held then, and so is kept", (plain, ONE_BLOCK), (dead, ONE_BLOCK),
            held(new=(0, 0), reread=4, dead=252), DEAD),
        two("stack: in both cores", "only the new block is held", (dead, "+ 0x10100 0x20\n"), (dead, new), both, DEAD),
    ]


def questions():
    """What holds the block, with the option and without."""
    asked = "0x10100 32 1 ./a.out:[0x401136]"
    return [
        why("stack: why, without the option", "the word counts", stack(LOW), ONE_BLOCK, "0x10100", directly(asked, "0x10008", 0x10100)),
        why("stack: why, with it", "the word is dead", stack(LOW), ONE_BLOCK, "0x10100", told(asked, "leaked"), "--skip-dead-stack"),
        why("stack: why, at rsp", "the word is not dead", stack((0x10800, 0x10100)), ONE_BLOCK, "0x10100",
            directly(asked, "0x10800", 0x10100), "--skip-dead-stack"),
    ]


def cases():
    """All searches with --skip-dead-stack, each by several plans, the same without it, and what holds a block."""
    found = []
    for name, of_core, dead in left_out():
        found.append(one(f"stack: {name}", "all 8 bytes are below what is in use", of_core, ONE_BLOCK, lost(dead=dead), DEAD))
        found.append(one(f"stack counted: {name}", "without the option the word counts", of_core, ONE_BLOCK, held()))
    for name, reason, of_core, dead in counted():
        found.append(one(f"no dead stack: {name}", reason, of_core, ONE_BLOCK, held(dead=dead), DEAD))
    return by_plans(found + others() + of_two()) + questions()
