"""Man pages: each has the options that its program has, and no other."""
import os
import re
import subprocess
import unittest

import options_of


class Pages(unittest.TestCase):
    """The pages of all commands."""

    def test_each_command_has_a_page(self):
        pages = {name.removesuffix(".1") for name in os.listdir(os.path.join(options_of.KIT, "man"))}
        self.assertEqual(pages, set(options_of.SOURCES) | {"leak_find"})

    def test_a_page_has_the_options_of_its_program(self):
        for name in options_of.SOURCES:
            with self.subTest(name):
                self.assertEqual(options_of.of_page(name), options_of.of_program(name))

    def test_a_help_tells_of_each_option(self):
        for name in [*options_of.SOURCES, "leak_core"]:
            for word in ("--help", "-h"):
                with self.subTest(f"{name} {word}"):
                    found = subprocess.run([os.path.join(options_of.KIT, name), word], capture_output=True, text=True)
                    self.assertEqual((found.returncode, found.stdout), (2, ""))
                    self.assertTrue(found.stderr.startswith(f"usage: {name} "))
                    told = set(re.findall(r"^  (--?[a-z][a-z-]*)", found.stderr, re.MULTILINE))
                    self.assertEqual(told, options_of.of_usage(found.stderr))

    def test_each_command_has_the_version_of_the_repository(self):
        with open(os.path.join(options_of.KIT, "..", "VERSION"), encoding="utf-8") as file:
            version = file.read()
        for name in [*options_of.SOURCES, "leak_core", "leak_tables"]:
            with self.subTest(name):
                found = subprocess.run([os.path.join(options_of.KIT, name), "--version"], capture_output=True,
                                       text=True)
                self.assertEqual((found.returncode, found.stdout, found.stderr), (0, f"{name} {version}", ""))
        with open(os.path.join(options_of.KIT, "..", "crates/leak_request/src/command_line.rt"),
                  encoding="utf-8") as file:
            self.assertIn(f'const VERSION: &str = "{version.strip()}";', file.read())

    def test_the_page_of_leak_find_has_the_options_of_its_help(self):
        helps = [options_of.of_help(name)[0] for name in (*options_of.SUBCOMMANDS, "program")]
        self.assertEqual(options_of.of_page("leak_find"), set().union(*helps))

    def test_the_page_of_leak_find_has_the_subcommands_of_its_help(self):
        helped = [*options_of.SUBCOMMANDS, "help"]
        text = options_of.text_of("man", "leak_find.1")
        self.assertEqual(re.findall(r"^\.B leak_find ([a-z]+)$", text, re.MULTILINE), helped)
        part = text.split(".SH SUBCOMMANDS")[1].split(".SH ")[0]
        self.assertEqual(re.findall(r"^\.TP\n\\fB([a-z]+)\\fR$", part, re.MULTILINE), helped)

    def test_the_options_that_only_some_subcommands_take(self):
        text = options_of.text_of("man", "leak_find.1").split(".SH OPTIONS")[1].split(".SH ")[0]
        listed = set(re.findall(r"^\.TP\n\\fB(--[a-z-]+)", text, re.MULTILINE))
        told = {}
        for names, how, options in re.findall(r"(\\fB[a-z]+\\fR[^.]*?) takes? (all options|only)([^.]*)\.",
                                              text.replace("\n", " ")):
            named = set(re.findall(r"--[a-z-]+", options))
            told.update((name, named if how == "only" else listed - named) for name in re.findall(r"\\fB([a-z]+)",
                                                                                                  names))
        self.assertEqual(told, {name: options_of.of_help(name)[0] - {"-h", "--help"}
                                for name in options_of.SUBCOMMANDS})


unittest.main()
