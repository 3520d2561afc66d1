"""The pages against the repository: links and their anchors lead somewhere, the reading guide has every file of specs/ and names only
edits that there are, and the README's table has every crate."""

import re
import unittest
from pathlib import Path

ROOT = Path(__file__).resolve().parent.parent
PAGES = [ROOT / "README.md"] + sorted(
    page for folder in ("docs", "examples", "rust") for page in (ROOT / folder).rglob("*.md") if "target" not in page.parts
)
README = (ROOT / "README.md").read_text()
READING = (ROOT / "docs" / "READING.md").read_text()


def prose(page):
    """The lines of a page outside fenced code, each with its number."""
    fenced = False
    for number, line in enumerate(page.read_text().splitlines(), 1):
        if line.startswith("```"):
            fenced = not fenced
        elif not fenced:
            yield number, line


def anchors(page):
    """The anchors of a page's headings: small letters, hyphens for blanks, no other punctuation."""
    headings = (re.match(r"#+ (.*)", line) for _, line in prose(page))
    return {re.sub(r"[^\w\- ]", "", heading[1].lower()).replace(" ", "-") for heading in headings if heading}


def links(page):
    """Each link of a page to a place in the repository: its line, the file or folder, and the anchor or nothing."""
    for number, line in prose(page):
        for link in re.findall(r"\]\(([^()\s]+)\)", line):
            if not re.match(r"[a-z]+:", link):
                path, _, anchor = link.partition("#")
                yield number, page.parent / path if path else page, anchor


def leads_nowhere(place, anchor):
    return not place.exists() or anchor != "" and (place.suffix != ".md" or anchor not in anchors(place))


class Links(unittest.TestCase):
    def test_links_lead_somewhere(self):
        lost = [
            f"{page.relative_to(ROOT)}:{number} {place.name}#{anchor}"
            for page in PAGES
            for number, place, anchor in links(page)
            if leads_nowhere(place, anchor)
        ]
        self.assertEqual(lost, [])

    def test_there_are_links(self):
        self.assertGreater(sum(1 for page in PAGES for _ in links(page)), 100)


class Specs(unittest.TestCase):
    def test_every_file_of_specs_is_listed_once(self):
        _, sections = READING.split("\n## ", 1)
        listed = re.findall(r"\]\(\.\./(crates/[^()\s]*\.antt)\)", sections)
        there = [str(file.relative_to(ROOT)) for file in ROOT.glob("crates/*/specs/**/*.antt")]
        self.assertEqual(sorted(listed), sorted(there))


class Crates(unittest.TestCase):
    def test_every_crate_is_in_the_table(self):
        crates = re.findall(r"^(\w+)(?: \w+)*:", (ROOT / "crates.txt").read_text(), re.M)
        places = [row.split("|")[1] for row in README.splitlines() if row.startswith("| ")]
        self.assertEqual(sorted(re.findall(r"`crates/(\w+)`", " ".join(places))), sorted(crates))


class Edits(unittest.TestCase):
    def test_edits_that_are_named_are_there(self):
        marked = re.findall(r"`([^`\n]+)`", READING)
        named = [name for name in marked if re.fullmatch(r"\w+/must-fail(/[\w*]+)?", name)]
        self.assertTrue(named)
        for name in named:
            edits = f"crates/{name}.edit" if name.count("/") == 2 else f"crates/{name}/*.edit"
            self.assertTrue(list(ROOT.glob(edits)), name)
        # A name alone is an edit of some crate.
        for name in marked:
            if re.fullmatch(r"code_[\w*]+", name):
                self.assertTrue(list(ROOT.glob(f"crates/*/must-fail/{name}.edit")), name)


if __name__ == "__main__":
    unittest.main()
