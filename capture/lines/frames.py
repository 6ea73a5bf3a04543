"""A caller's text in its frames, and their names: lines by debug information, or symbols that have the address."""
import re
from functools import lru_cache
from typing import NamedTuple

from lines import debug_files, demangle, elf, places, progress, sources, tools

ADDRESS = re.compile("[0-9a-f]{1,16}]")


class Frame(NamedTuple):
    """A frame as the log has it: path:(name+1c)[0x12]. The path is empty where it is no place in a file."""
    text: str
    path: str
    name: str
    address: int

    @property
    def call(self):
        """An address in the call: the frame's own is that of the instruction after it."""
        return max(self.address - 1, 0)


@lru_cache(maxsize=None)
def frame_of(text):
    """The parts of a frame: path:(name+1c)[0x12], of which path and name may be missing."""
    begin, bracket, end = text.rpartition("[0x")
    if not bracket or not ADDRESS.fullmatch(end):
        return Frame(text, "", "", 0)
    path, parenthesis, name = begin.removesuffix(")").rpartition("(")
    if not parenthesis or not begin.endswith(")") or ")" in name:
        path, name = begin, ""
    return Frame(text, path.removesuffix(":"), name, int(end[:-1], 16))


def parts_of(text):
    """The texts of the frames of a caller's text, the innermost first."""
    return text.split(" < ")


def frames_of_all(texts):
    """The frames of these texts of callers, each once: callers share most of them."""
    return [frame_of(part) for part in dict.fromkeys(part for text in texts for part in parts_of(text))]


def is_in_file(frame):
    """Whether the address is an offset in the file. A glibc before 2.34 gives the address itself beside the name."""
    return frame.path != "" and not (frame.name and frame.call > 0xFFFFFFFF)


def has_line(where):
    """Whether addr2line knows the line. Where it does not, the function may be the nearest symbol before."""
    return not where.startswith("??") and not where.endswith((":?", ":0"))


def is_of(symbol, function):
    """Whether the symbol is that of the function, or of a part of it that the compiler put elsewhere (f.cold)."""
    return symbol == function or symbol.startswith((f"{function}.", f"{function} [clone ."))


class Names:
    """What the tools know of frames. Each file is asked once for all its frames."""

    def __init__(self, frames, files=None):
        """Asks for all these frames the files that these sources have."""
        self.lines, self.symbols, self.problems, self.segments, self.known = {}, {}, {}, {}, {}
        self.files = files or sources.Sources()
        frames_by_path = {}
        for frame in filter(is_in_file, frames):
            frames_by_path.setdefault(frame.path, []).append(frame)
        for path, of_path in frames_by_path.items():
            progress.SHOWN.begin(f"asks for names of {path}", len(of_path))
            self.ask(path, of_path)

    def ask(self, path, frames):
        """Asks for the frames of a file."""
        found = self.files.find(path)
        if found.file is None:
            self.problems[path] = found.problem
            return
        with found.file as file, debug_files.DebugFiles(file, self.files.roots) as further:
            if self.files.has_offsets(path):
                self.segments[path] = elf.segments(file)
            frames = [self.placed(frame) for frame in frames]
            calls = sorted({frame.call for frame in frames})
            answers = self.lines[path] = tools.ask_lines(further.separate or file, calls)
            if not all(call in answers and has_line(answers[call][-1][1]) for call in calls):
                self.symbols[path] = tools.ask_symbols(file, further.all(), calls,
                                                       sorted({frame.address for frame in frames}))

    def placed(self, frame):
        """The frame with its address in the ELF file. Where the log knew no program headers it has the offset in the
        file."""
        for offset, size, address in self.segments.get(frame.path, ()):
            if offset <= frame.call < offset + size:
                return frame._replace(address=frame.address - offset + address)
        return frame

    def by_symbol(self, frame, function):
        """The function that was told, if a symbol of it has the address; else the object that has it, or another
        function, or "".

        Where no line is known the tools tell the nearest symbol before, of data too."""
        symbols = self.symbols.get(frame.path)
        if symbols is None:
            return ""
        frame = self.placed(frame)
        around = symbols.around.get(frame.call, [""])
        if any(is_of(symbol, tools.plain(function)) for symbol in around):
            return function
        return symbols.objects.get(frame.address) or around[-1]

    def place(self, frame, function, where, is_inlined):
        """The place of a pair of addr2line's. What is inlined is known by debug information, whether its line is or
        not."""
        name = function
        if places.is_unknown(function) or not (is_inlined or has_line(where)):
            name = self.by_symbol(frame, function)
            where = where if has_line(where) or name == function else "??"  # its file is that of the nearest symbol
        name = demangle.SHARED.of(name).removeprefix("vtable for ")
        place = places.of(frame, name, where, self.problems.get(frame.path, ""))
        return places.inlined(place) if is_inlined else place

    def named(self, frame):
        """The places of the frame: first what was inlined, last the function itself."""
        answers = self.lines.get(frame.path, {}).get(self.placed(frame).call, []) if is_in_file(frame) else []
        answers = answers or [("??", "??")]
        return [self.place(frame, *answer, number + 1 < len(answers)) for number, answer in enumerate(answers)]

    def places(self, frame):
        """Function and file:line of the frame, and before it those that were inlined there, with a ^."""
        return [place.cells for place in self.named(frame)]

    def learn(self, part):
        """The places of a frame by its text, which are remembered."""
        return self.known.setdefault(part, self.named(frame_of(part)))

    def places_of(self, text):
        """The places of a caller's text."""
        return [place for part in parts_of(text) for place in self.known.get(part) or self.learn(part)]
