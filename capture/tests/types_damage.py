"""types_damage.py LEAK_WHAT CORE LOG FILE ROOT: puts FILE with damaged debug information below ROOT, in many ways, and
says what came of it: the statuses, and whether each log is the given one but for the texts of its blocks."""
import os
import random
import re
import subprocess
import sys

TRIES = 40
TEXT = re.compile(rb"^@ .* \+ (0x[0-9a-f]+ 0x[0-9a-f]+)$", re.MULTILINE)


def places(path):
    """Where the file has debug information: an offset and a size of each section."""
    lines = subprocess.run(["readelf", "-SW", path], capture_output=True, check=True, text=True).stdout.splitlines()
    found = [re.search(r"\.debug_\w+ +\w+ +[0-9a-f]+ ([0-9a-f]+) ([0-9a-f]+)", line) for line in lines]
    return [(int(it[1], 16), int(it[2], 16)) for it in found if it]


def damaged(data, sections, chance):
    """The bytes with some of the debug information changed: few or many, or a stretch of zeros or ones."""
    data = bytearray(data)
    for _ in range(chance.choice((1, 3, 30, 300))):
        start, size = chance.choice(sections)
        place = start + chance.randrange(size)
        if chance.randrange(8):
            data[place] = chance.choice((0, 1, 0x7F, 0x80, 0xFF, chance.randrange(256)))
        else:
            count = min(chance.randrange(1, 64), start + size - place)
            data[place:place + count] = chance.choice((b"\0", b"\xff", b"\x80")) * count
    return bytes(data)


def without_texts(log):
    """The log without remarks of types and without texts of blocks."""
    return TEXT.sub(rb"\1", log.replace(b"= leak_what types\n", b""))


def main(program, core, log, path, root):
    """Runs the program over damaged files."""
    chance, statuses, same, sections = random.Random(61), set(), True, places(path)
    place = root + os.path.realpath(path)
    os.makedirs(os.path.dirname(place), exist_ok=True)
    with open(path, "rb") as file:
        data = file.read()
    with open(log, "rb") as file:
        wanted = without_texts(file.read())
    for number in range(TRIES):
        with open(place, "wb") as file:
            file.write(damaged(data, sections, chance))
        words = [program, "--types", "--root", root, core, log]
        run = subprocess.run(words, capture_output=True, timeout=300, check=False)
        statuses.add(run.returncode)
        same = same and without_texts(run.stdout) == wanted
        if run.returncode or not same:
            print(number, run.returncode, run.stderr)
    print(f"statuses {sorted(statuses)}, {'the same log' if same else 'another log'}")


main(*sys.argv[1:])
