"""Completions: each command and subcommand is offered its options, all of them and no other, and the files and
processes it takes."""
import os
import re
import subprocess
import tempfile
import unittest

import options_of

BASH = os.path.join(options_of.KIT, "completion", "leak_find.bash")
CASES = {"leak_find": ["leak_find"], **{name: ["leak_find", name] for name in options_of.SUBCOMMANDS},
         **{name: [name] for name in options_of.SOURCES}}


def offered(*words, folder=None):
    """What bash offers for the last of these words."""
    script = ('. "$1"; shift; COMP_WORDS=("$@"); COMP_CWORD=$(($# - 1)); _leak_complete; '
              'printf "%s\\n" "${COMPREPLY[@]}"')
    command = ["bash", "-c", script, "bash", os.path.abspath(BASH), *words]
    done = subprocess.run(command, cwd=folder, capture_output=True, text=True, check=True)
    assert not done.stderr, done.stderr
    return {word for word in done.stdout.split("\n") if word}


def wanted(name):
    """The options of a command, by its man page, or of a subcommand, by its help."""
    if name == "leak_find":
        return {"-h", "--help", "-V", "--version"}
    return options_of.of_help(name)[0] if name in options_of.SUBCOMMANDS else options_of.of_page(name)


def of_zsh(name):
    """The options of a branch of the completion for zsh, with those of the lists that it names."""
    text = options_of.text_of("completion", "_leak_find")
    lists = dict(re.findall(r"^_leak_([a-z_]+)=(\((?:\n(?:.*\n)*?\)|.*\)$)|'.*'$)", text, re.MULTILINE))
    specs = re.search(rf"^ *{name}\)(?:.*\n)*?.*;;$", text, re.MULTILINE)[0]
    for _ in range(2):  # a list may name another
        specs = re.sub(r"\$_leak_([a-z_]+)", lambda match: lists[match[1]], specs)
    found = set(re.findall(r"'\*?(--?[a-z][a-z-]*)=?\[", specs))
    return found | ({"-h", "--help"} if "{-h,--help}" in specs else set())


class Bash(unittest.TestCase):
    """The completion for bash, as bash calls it."""

    def test_options(self):
        for name, words in CASES.items():
            with self.subTest(name):
                self.assertEqual(offered(*words, "-"), wanted(name))

    def test_commands(self):
        names = re.search(r"^complete -F _leak_complete (.*)$", options_of.text_of("completion", "leak_find.bash"),
                          re.MULTILINE)[1]
        self.assertEqual(set(names.split()), {"leak_find", *options_of.SOURCES})

    def test_begun_options(self):
        self.assertEqual(offered("leak_find", "one", "core", "log", "--skip-f"), {"--skip-freed"})
        self.assertEqual(offered("/opt/bin/leak_lines", "--s"), {"--since", "--structures", "--suppress"})

    def test_subcommands(self):
        self.assertEqual(offered("leak_find", ""), {*options_of.SUBCOMMANDS, "help"})
        self.assertEqual(offered("leak_find", "h"), {"holders", "help"})
        self.assertEqual(offered("leak_find", "help", "g"), {"grow"})

    def test_files(self):
        with tempfile.TemporaryDirectory() as folder:
            os.mkdir(os.path.join(folder, "kept"))
            open(os.path.join(folder, "two words.core"), "w", encoding="utf-8").close()
            both = {"kept", "two words.core"}
            self.assertEqual(offered("leak_find", "one", "--strict", "", folder=folder), both)
            self.assertEqual(offered("leak_find", "one", "--workers", "", folder=folder), set())
            self.assertEqual(offered("leak_find", "why", "a", "b", "", folder=folder), set())
            self.assertEqual(offered("leak_lines", "--since", "=", "two", folder=folder), {"two words.core"})
            self.assertEqual(offered("leak_lines", "-n", "3", "", folder=folder), both)
            self.assertEqual(offered("leak_report", "--keep", "", folder=folder), {"kept"})
            self.assertEqual(offered("leak_trace", "ls", "-", folder=folder), set())

    def test_processes_and_programs(self):
        self.assertIn(str(os.getpid()), offered("leak_dump", "--after", "d1", ""))
        self.assertIn(str(os.getpid()), offered("leak_report", str(os.getpid())[:1]))
        self.assertIn("bash", offered("leak_trace", "-d", "8", "bas"))


class Zsh(unittest.TestCase):
    """The text of the completion for zsh."""

    def test_options(self):
        for name in (*options_of.SUBCOMMANDS, *options_of.SOURCES):
            with self.subTest(name):
                self.assertEqual(of_zsh(name), wanted(name))

    def test_commands(self):
        first = options_of.text_of("completion", "_leak_find").split("\n", 1)[0].split()
        self.assertEqual((first[0], set(first[1:])), ("#compdef", {"leak_find", *options_of.SOURCES}))


unittest.main()
