"""How far the work is, said on a terminal where it takes long."""
import sys
import threading

from lines import shown

CLEAR = "\r\x1b[K"


class Progress:
    """What is done at present, and how much of it. For as long as the block of its `with` runs a thread says so."""

    def __init__(self, stream=sys.stderr, delay=2.0, step=0.5):
        """Nothing is said in the first `delay` seconds, nor where the stream is no terminal."""
        self.stream, self.delay, self.step = stream, delay, step
        self.task, self.done, self.total = "reads", 0, 0
        self.ended, self.thread = threading.Event(), None

    def begin(self, task, total=0):
        """A further task, of so many parts, or of 0 where they are not counted."""
        self.task, self.done, self.total = task, 0, total

    def text(self):
        """What is said."""
        return f"leak_lines: {shown.escaped(self.task)}" + (f": {self.done} of {self.total}" if self.total else "")

    def talk(self):
        """Says it again and again until the end, and clears the line then."""
        if self.ended.wait(self.delay):
            return
        while True:
            self.stream.write(CLEAR + self.text())
            self.stream.flush()
            if self.ended.wait(self.step):
                break
        self.stream.write(CLEAR)
        self.stream.flush()

    def __enter__(self):
        """Starts."""
        if self.stream.isatty():
            self.thread = threading.Thread(target=self.talk, daemon=True)
            self.thread.start()
        return self

    def __exit__(self, *_):
        """Ends."""
        self.ended.set()
        if self.thread is not None:
            self.thread.join()


SHOWN = Progress()
