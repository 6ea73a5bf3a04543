"""all_lost.py LOG: a report which says that all live blocks of a log by leak_walk are lost, so that leak_what tells of
them all."""
import sys


def read_live(path):
    """By address, the size of each live block."""
    live = {}
    with open(path, encoding="utf-8", errors="replace") as file:
        for line in file:
            words = line.split()
            if len(words) > 2 and words[-3] == "+":
                live[words[-2]] = int(words[-1], 16)
            elif len(words) > 1 and words[-2] == "-":
                live.pop(words[-1], None)
    return live


for address, size in read_live(sys.argv[1]).items():
    print(f"leak {address} {size} 1 head ?")
