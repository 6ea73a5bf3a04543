"""What leak_report tells of a run beside its files: in the file ABOUT, a line for each fact, of a word and a text."""
from typing import NamedTuple

from lines import inputs, shown

TWO_MOMENTS = ("after", "attach", "grow")


class Run(NamedTuple):
    """A run of leak_report."""
    process: str = ""  # the number of a living process
    core: str = ""  # the core that was given, as it is shown
    way: str = ""  # "after", "attach" or "grow"
    seconds: int = 0  # between two moments
    kept: str = ""  # the folder in which the files stay
    has_list: bool = False  # whether blocks are listed
    parts: tuple = ()  # what a page has beside what was lost: "grow" and "holders", reports beside that one
    said: tuple = ()  # what the programs said

    @property
    def target(self):
        """What leak_report is asked of."""
        return self.process or self.core

    @property
    def has_two_moments(self):
        """Whether the process was dumped twice."""
        return self.way in TWO_MOMENTS


def read(path):
    """The run that the file tells of."""
    run = Run()
    for line in inputs.read_lines(path):
        word, _, text = line.partition(" ")
        if word == "said":
            run = run._replace(said=run.said + (text,))
        elif word == "part":
            run = run._replace(parts=run.parts + (text,))
        elif word == "list":
            run = run._replace(has_list=True)
        elif word in ("process", "core", "way", "kept"):
            run = run._replace(**{word: shown.visible(text)})
        elif word == "seconds" and text.isdecimal():
            run = run._replace(seconds=int(text))
    return run
