"""The functions and source lines of callers, by addr2line."""
import re
import subprocess
from collections import defaultdict

FRAME = re.compile(r"(.*):\[0x([0-9a-f]+)\]$")


def lines_of_frames(frames, *options):
    """By frame, the functions and source lines there, the innermost first."""
    found, by_path = {}, defaultdict(list)
    for frame in frames:
        match = FRAME.match(frame)
        if match:
            by_path[match[1]].append((frame, int(match[2], 16) - 1))
    for path, places in by_path.items():
        run = subprocess.run(["addr2line", "-a", "-f", "-i", *options, "-e", path], capture_output=True, text=True,
                             check=False,
                             input="\n".join(f"{at:#x}" for _, at in places))
        lines, of_place = run.stdout.split("\n"), []
        for number, line in enumerate(lines):
            if line.startswith("0x"):
                of_place.append([])
            elif of_place and len(of_place[-1]) < 9 and number + 1 < len(lines) and re.search(r":[0-9?]+",
                                                                                              lines[number + 1]):
                of_place[-1].append((line, re.sub(r" \(disc.*", "", lines[number + 1])))
        found.update((frame, of_it) for (frame, _), of_it in zip(places, of_place))
    return found
