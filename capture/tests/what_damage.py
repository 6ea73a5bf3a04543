"""what_damage.py LEAK_WHAT CORE LOG REPORT: damages each of the files in many ways, and says which statuses came of
it."""
import random
import subprocess
import sys

TRIES = 60


def damaged(data, chance):
    """The bytes with some changed, cut out or doubled."""
    data = bytearray(data)
    for _ in range(chance.randrange(1, 8)):
        place = chance.randrange(len(data))
        kind = chance.randrange(4)
        if kind == 0:
            data[place] = chance.randrange(256)
        elif kind == 1:
            data[place:place + 8] = chance.choice((0, 1, 2**31, 2**47, 2**63, 2**64 - 1)).to_bytes(8, "little")
        elif kind == 2:
            del data[place:place + chance.choice((1, 8, 4096))]
        else:
            data[place:place] = data[place:place + chance.choice((1, 64, 4096))]
        if not data:
            return b"\n"
    return bytes(data)


def damaged_head(data, chance):
    """The bytes of a core with some changed among its first ones and its program headers, which leak_core writes
    last."""
    data = bytearray(data)
    for _ in range(chance.randrange(1, 5)):
        place = chance.choice((chance.randrange(min(len(data), 4096)), max(0, len(data) - 1 - chance.randrange(4096))))
        data[place:place + 1] = bytes([chance.randrange(256)])
    return bytes(data)


def main(program, *paths):
    """Runs the program over damaged files."""
    chance, statuses = random.Random(61), set()
    for number in range(TRIES):
        words = list(paths)
        which = number % 3
        with open(paths[which], "rb") as file:
            data = file.read()
        words[which] = f"damaged.{which}"
        with open(words[which], "wb") as file:
            file.write((damaged_head if which == 0 and number % 2 else damaged)(data, chance))
        run = subprocess.run([program, *words], stdout=subprocess.DEVNULL, stderr=subprocess.PIPE, timeout=300,
                             check=False)
        statuses.add(run.returncode)
        if run.returncode not in (0, 2):
            print(number, run.returncode, run.stderr)
    print("status 0 or 2" if statuses <= {0, 2} and len(statuses) == 2 else f"statuses {sorted(statuses)}")


main(*sys.argv[1:])
