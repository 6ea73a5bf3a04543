"""The documents: a link leads to a page that is there and to a heading of it, and lines have at most 120 columns."""
import os
import re
import unittest

COLUMNS = 120
ROOT = os.path.realpath(os.path.join(os.path.dirname(os.path.realpath(__file__)), "..", ".."))
FENCE = re.compile(r"^```.*?^```$", re.MULTILINE | re.DOTALL)
CODE = re.compile(r"`[^`]*`")
LINK = re.compile(r"\]\(([^)\s]+)\)")


def pages():
    """The pages of the repository, by their paths in it."""
    docs = [os.path.join("docs", name) for name in sorted(os.listdir(os.path.join(ROOT, "docs")))
            if name.endswith(".md")]
    return ["README.md", os.path.join("capture", "README.md"), *docs]


def manuals():
    """The man pages, by their paths in the repository."""
    folder = os.path.join("capture", "man")
    return [os.path.join(folder, name) for name in sorted(os.listdir(os.path.join(ROOT, folder)))]


def text_of(page):
    """The text of a page."""
    with open(os.path.join(ROOT, page), encoding="utf-8") as file:
        return file.read()


def anchors_of(page):
    """The names of a page's headings in links, as GitHub makes them."""
    headings = re.findall(r"^#+ (.*)$", FENCE.sub("", text_of(page)), re.MULTILINE)
    return {re.sub(r"[^\w -]", "", heading.lower()).replace(" ", "-") for heading in headings}


def links_of(page):
    """The links of a page that stay in the repository: each as it is written."""
    text = CODE.sub("", FENCE.sub("", text_of(page)))
    return [link for link in LINK.findall(text) if "://" not in link]


class Documents(unittest.TestCase):
    """All pages."""

    def test_links_lead_to_pages_and_headings(self):
        for page in pages():
            for link in links_of(page):
                with self.subTest(page=page, link=link):
                    path, _, anchor = link.partition("#")
                    target = os.path.normpath(os.path.join(os.path.dirname(page), path)) if path else page
                    self.assertTrue(os.path.exists(os.path.join(ROOT, target)))
                    if anchor:
                        self.assertIn(anchor, anchors_of(target))

    def test_lines_fit(self):
        for page in [*pages(), *manuals()]:
            with self.subTest(page=page):
                wide = [number for number, line in enumerate(text_of(page).split("\n"), 1) if len(line) > COLUMNS]
                self.assertEqual(wide, [])

    def test_there_are_links(self):
        self.assertTrue(all(links_of(page) for page in ("README.md", "docs/USING.md", "docs/REFERENCE.md")))


unittest.main()
