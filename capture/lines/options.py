"""The words of the command line."""
import re
from typing import NamedTuple

USAGE = "usage: leak_lines [OPTION..] [REPORT] | leak_lines [OPTION..] --since OLD [NEW]"
HELP = USAGE + """
Copies a report of leak_find, with its rows as a table by function, file and line.

  REPORT           the report [standard input]
  -n N             shows the first N rows
  --suppress FILE  leaves out rows that a suppression in the file matches; with --what, also what only they lead to
  --exit-code      status 1 if leaks are left, 2 if the report is incomplete
  --since OLD      compares with an older report
  --no-lines       with --since: compares functions, not lines, which move when a source changes
  --folded         prints stacks for flame graphs
  --json           prints JSON
  --html FILE      writes a page
  --what FILE      adds what the leaked blocks are, from the file that leak_what wrote
  --structures     with --what: a row for each kind of lost structure, not for each caller
  --why N          shows the paths to blocks that the lost ones in the first N rows look like, or to the first N holders
  --plain ABOUT    prints a report of leaks for a person; leak_report calls it so, and writes the file ABOUT
  --core CORE      the core that leak_find why was asked about: explains words that only the kernel holds
  --log LOG        the log that was searched, with the build of each file [NAME.log beside NAME.report]
  --root DIR       looks for files below DIR first, as a process with that root would
  --pid PID        then looks at the files of the process, while it lives
  --unchecked      also takes names from files without a build-id, whose build is unknown
  --copy-files DIR with --pid and --log: only copies the files that the log names into the new folder DIR
  --version        prints the version

status: 0, or 1 as above; 2 if there is no answer, with a line on standard error"""
HELP_WORDS = ("-h", "--help")
VALUED = ("--suppress", "--since", "--html", "--what", "--why", "--plain", "--core", "--log", "--root", "--pid",
          "--copy-files")
FORMS = {"--folded": "folded", "--json": "json"}
FLAGS = {"--exit-code": {"is_judged": True}, "--no-lines": {"has_lines": False},
         "--structures": {"by_structures": True},
         "--unchecked": {"is_lenient": True}}
OTHER_NAMES = {"--copy-files": "copies", "--plain": "about"}
NUMBER = re.compile("[1-9][0-9]{0,17}")


class Refused(Exception):
    """What keeps the command from its work."""


class Options(NamedTuple):
    """What is asked for. A path of None is standard input's."""
    path: str = None
    most: int = None  # rows of a table, None for all
    suppress: tuple = ()  # files of suppressions
    is_judged: bool = False  # whether the status says that something leaked
    form: str = "table"
    page: str = None  # the file of a page of HTML
    since: str = None  # the older report
    has_lines: bool = True  # whether lines of sources are compared too
    what: str = None  # the file with what lost blocks are
    by_structures: bool = False  # whether rows are of structures
    about: str = None  # what leak_report tells of a run, for a report in plain words
    core: str = None  # which says what words are that only the kernel holds
    why: int = 0  # for how many rows a chain is shown
    log: str = None  # that was searched
    roots: tuple = ()  # folders that stand for the process's root
    is_lenient: bool = False  # whether files count whose build nobody can tell
    pid: str = None  # of the process, while it lives
    copies: str = None  # the folder into which its files are copied, and nothing else is done


def valued(word, words):
    """The name of an option and its value, which follows a = or is the next word."""
    if word.startswith("-n"):
        return "-n", word[2:] or (words.pop(0) if words else "")
    name, equals, value = word.partition("=")
    if not equals and name in VALUED:
        value = words.pop(0) if words else ""
    if bool(value) != (name in VALUED) or bool(equals) and name not in VALUED:
        raise Refused(USAGE)
    return name, value


def with_option(options, name, value):
    """The options with one more."""
    if name == "-n" and NUMBER.fullmatch(value):
        return options._replace(most=int(value))
    if name == "--suppress":
        return options._replace(suppress=options.suppress + (value,), is_judged=True)
    if name == "--root":
        return options._replace(roots=options.roots + (value,))
    if name == "--pid" and NUMBER.fullmatch(value):
        return options._replace(pid=value)
    if name in OTHER_NAMES:
        return options._replace(**{OTHER_NAMES[name]: value})
    if name in ("--since", "--log", "--what", "--core"):
        return options._replace(**{name[2:]: value})
    if name == "--why" and NUMBER.fullmatch(value):
        return options._replace(why=int(value))
    if name == "--html" and options.form in ("table", "html"):
        return options._replace(form="html", page=value)
    if name in FORMS and options.form in ("table", FORMS[name]):
        return options._replace(form=FORMS[name])
    if name in FLAGS:
        return options._replace(**FLAGS[name])
    raise Refused(USAGE)


def read(words):
    """The options of the words."""
    words, options = list(words), Options()
    while words and words[0].startswith("-") and words[0] != "-":
        word = words.pop(0)
        if word == "--":
            break
        if word in HELP_WORDS:
            raise Refused(HELP)
        options = with_option(options, *valued(word, words))
    if options.what is None and options.by_structures or options.what is not None and options.since is not None:
        raise Refused(USAGE)
    if options.about is not None and (options.is_judged or options.since is not None or
                                      options.form not in ("table", "html") or not words):
        raise Refused(USAGE)
    if len(words) > 1 or (options.form != "table" if options.since is not None else not options.has_lines):
        raise Refused(USAGE)
    return options._replace(path=words[0] if words and words[0] != "-" else None)
