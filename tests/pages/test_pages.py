"""Holds the pages to the repository: names, edits and files that README.md and docs/ speak of are there, and no call of the public face has a condition.

    python3 -m unittest discover tests/pages

What a sentence says of a name is not tested. Assumes Python 3.9 or newer and its standard library.
"""

import re
import unittest
from pathlib import Path

ROOT = Path(__file__).resolve().parent.parent.parent
PAGES = [ROOT / "README.md"] + sorted((ROOT / "docs").glob("*.md"))
FOLDERS = ("crates/", "docs/", "reference/", "tests/", "tools/", "bench/", "examples/", "include/", ".ci/")
DECLARED = re.compile(r"^\s*(?:unfoldable |abbrev )?(?:pub )?(?:record |data )?([^\s:({]+)(?=[ :({])", re.M)
RUST = re.compile(r"\b(?:fn|struct|enum|const|mod) (\w+)")
# what the pages name of other programs
PEERS = {"proj_trans", "proj_factors"}
PUBLIC = re.compile(r"pub (?:extern \"C\" )?fn (\w+)")


def words(page):
    """What stands between single backquotes."""
    text = re.sub(r"```.*?```", "", page.read_text(), flags=re.S)
    return [word for line in text.split("\n") for word in re.findall(r"`([^`]+)`", line)]


def sources(ending):
    """The crates' own files; what `rt` makes of them lies in a crate's out/."""
    return sorted(path for path in (ROOT / "crates").glob("*/**/*." + ending) if path.relative_to(ROOT).parts[2] != "out")


def rows(page, heading):
    """The cells of each row of the first table under a heading."""
    part = page.read_text().split("\n## " + heading + "\n", 1)[1].split("\n## ", 1)[0]
    table = [line for line in part.split("\n") if line.startswith("|")][2:]
    return [[cell.strip() for cell in line.strip("|").split("|")] for line in table]


def conditional(path):
    """The public functions of a file that have a `requires`: it stands between the signature and the body."""
    text = re.sub(r"//[^\n]*", "", path.read_text())
    found = [(match.group(1), match.start()) for match in PUBLIC.finditer(text)]
    heads = [(name, re.split(r"\n\s*\{\n|\)[^\n]*\{\n", text[start:], maxsplit=1)[0]) for name, start in found]
    return [name for name, head in heads if re.search(r"\brequires\b", head)]


class Pages(unittest.TestCase):
    def test_files_are_there(self):
        missing = [(page.name, word) for page in PAGES for word in words(page) if word.startswith(FOLDERS) and not list(ROOT.glob(word.split(" ")[0].rstrip("/")))]
        self.assertEqual(missing, [])

    def test_names_are_declared(self):
        names = {name for path in sources("antt") for name in DECLARED.findall(path.read_text())}
        names |= {name for path in sources("rt") for name in RUST.findall(path.read_text())}
        names |= {path.stem for ending in ("rt", "edit") for path in sources(ending)} | {path.name for path in (ROOT / "crates").iterdir()}
        names |= set(re.findall(r"lib[\w+-]+", (ROOT / "bench" / "run").read_text())) | PEERS
        made = re.compile(r"[A-Za-z0-9']+(?:[_-][A-Za-z0-9']+)+|[A-Z][a-z0-9]+(?:[A-Z][A-Za-z0-9]*)+")
        missing = [(page.name, word) for page in PAGES for word in words(page) if made.fullmatch(word) and word not in names]
        self.assertEqual(missing, [])

    def test_edits_are_there(self):
        edits = {path.stem for path in sources("edit")} | {path.name for path in (ROOT / "crates").iterdir()}
        promises = ROOT / "docs" / "PROMISES.md"
        cells = [row[-1] for heading in ("The C interface (`crates/terminal`, `include/misgwalor.h`)", "The library") for row in rows(promises, heading)]
        self.assertGreater(len(cells), 15)
        self.assertEqual([word for cell in cells for word in re.findall(r"`(\w+)`", cell) if word not in edits], [])
        self.assertEqual([cell for cell in cells if len(re.findall(r"`\w+`", cell)) < 2], [])


class Face(unittest.TestCase):
    def test_no_condition(self):
        face = [ROOT / row[0].strip("`") for row in rows(ROOT / "docs" / "PROMISES.md", "The public face, and inner parts")]
        self.assertGreater(len(face), 5)
        self.assertEqual([(path.parent.parent.name, conditional(path)) for path in face if conditional(path)], [])

    def test_other_conditions_are_inner(self):
        text = (ROOT / "docs" / "PROMISES.md").read_text().split("\n## The public face, and inner parts\n", 1)[1].split("\n## ", 1)[0]
        inner = [path.relative_to(ROOT) for path in sources("rt") if conditional(path)]
        named = [str(path) for path in inner if "`%s" % path.parts[1] in text]
        self.assertEqual([str(path) for path in inner if str(path) not in named], [])


if __name__ == "__main__":
    unittest.main()
