"""The documents and what refers to them: each citation, link and path leads to what is there, and the documents stay short."""

import functools
import pathlib
import re
import unittest
import urllib.parse

TOP = pathlib.Path(__file__).resolve().parent.parent
MOST_WORDS = 22_000
SOURCES = (".rt", ".antt", ".edit", ".py", ".sh", ".h", ".c", ".cpp", ".rs", ".run", ".md", "")
FOLDERS = ("crates", "docs", "examples", "recorder", "release", "tests", "tools")
# what begins a further line of a comment: a citation may go on there
GOES_ON = re.compile(r"\n[ \t]*(?://[/!]?|--|#|\*|>)?[ \t]*")
CITATION = re.compile(r'docs/(\w+\.md)((?:,? (?:and )?"[^"\n]+")*)')
LINK = re.compile(r"\]\(([^)\s]+)\)")
CODE = re.compile(r"^```.*?^```$", re.M | re.S)
PATH = re.compile(r"(?<![\w./-])((?:%s)/[\w./-]*\w)" % "|".join(FOLDERS))
CRATE = re.compile(r"`(gr_\w+)`")
FILES_OF_CRATE = re.compile(r"`(gr_\w+)` \(([^()]*)\)")
FILE_OF_CRATE = re.compile(r"`(\w+\.(?:rt|antt))`")


def files_of(folder):
    return (path for path in sorted((TOP / folder).rglob("*")) if path.is_file() and path.suffix in SOURCES and "out" not in path.parts)


def written_documents():
    """README.md and docs/*.md, whose words count."""
    return [TOP / "README.md"] + sorted((TOP / "docs").glob("*.md"))


def all_documents():
    return written_documents() + [path for folder in ("examples", "recorder", "tests", "tools") for path in files_of(folder) if path.suffix == ".md"]


@functools.lru_cache(maxsize=None)
def headings(path):
    """The headings of a document, as they are written."""
    return [line.lstrip("#").strip() for line in CODE.sub("", path.read_text()).splitlines() if line.startswith("#")]


def anchor(heading):
    """What a heading is called at the end of a link."""
    return re.sub(r"[^\w\- ]", "", heading.lower()).replace(" ", "-")


def citations_in(text):
    """The citations of documents in a text: the document, and the headings that are named after it."""
    for match in CITATION.finditer(GOES_ON.sub(" ", text)):
        yield match[1], re.findall(r'"([^"]+)"', match[2])


def words_of(text):
    """How many words a text has; what has no letter and no digit, as the bars of a table, is none."""
    return sum(bool(re.search(r"\w", word)) for word in text.split())


def faults_of_citations(path, text):
    for document, sections in citations_in(text):
        cited = TOP / "docs" / document
        if not cited.is_file():
            yield f"{path}: there is no docs/{document}"
            continue
        for section in sections:
            if section not in headings(cited):
                yield f'{path}: docs/{document} has no heading "{section}"'


def faults_of_links(path, text):
    for target in LINK.findall(CODE.sub("", text)):
        if re.match(r"\w+:", target):
            continue
        name, _, heading = urllib.parse.unquote(target).partition("#")
        cited = path.parent / name if name else path
        if not cited.exists():
            yield f"{path}: {target} leads nowhere"
        elif heading and heading not in map(anchor, headings(cited)):
            yield f"{path}: {target} names no heading"


def files_of_crates(text):
    """The files that a text names after their crates, as in `gr_lanes` (`kinds.rt`, `group.rt`)."""
    return [(crate, file) for crate, files in FILES_OF_CRATE.findall(text) for file in FILE_OF_CRATE.findall(files)]


def has_file(crate, file):
    return any((TOP / "crates" / crate / folder / file).is_file() for folder in ("src", "specs"))


class Citations(unittest.TestCase):
    def assert_none(self, faults):
        self.assertEqual([fault.replace(f"{TOP}/", "") for fault in faults], [])

    def test_a_citation_names_a_document_and_a_heading_that_are_there(self):
        files = [path for folder in FOLDERS for path in files_of(folder)] + [TOP / "README.md", TOP / "CHANGELOG.md"]
        cited = [(path, path.read_text(errors="replace")) for path in files if path.name != "citations.py"]
        self.assertGreater(sum("docs/" in text for _, text in cited), 100)
        self.assert_none(fault for path, text in cited for fault in faults_of_citations(path, text))

    def test_a_link_leads_to_a_file_and_a_heading_that_are_there(self):
        self.assert_none(fault for path in all_documents() for fault in faults_of_links(path, path.read_text()))

    def test_a_path_that_a_document_names_is_there(self):
        named = [(document, path) for document in written_documents() for path in PATH.findall(document.read_text())]
        self.assertGreater(len(named), 100)
        self.assert_none(f"{document}: there is no {path}" for document, path in named if not (TOP / path).exists())

    def test_a_file_that_is_named_after_its_crate_is_there(self):
        named = [(document, *it) for document in written_documents() for it in files_of_crates(document.read_text())]
        self.assertGreater(len(named), 20)
        self.assert_none(f"{document}: {crate} has no {file}" for document, crate, file in named if not has_file(crate, file))

    def test_a_crate_that_a_document_names_is_there_and_the_architecture_names_all(self):
        crates = {line.split()[0].rstrip(":") for line in (TOP / "crates.txt").read_text().splitlines() if line and not line.startswith("#")}
        named = {document: set(CRATE.findall(document.read_text())) for document in written_documents()}
        self.assert_none(f"{document}: there is no crate {name}" for document, names in named.items() for name in sorted(names - crates))
        self.assert_none(f"docs/ARCHITECTURE.md does not name {name}" for name in sorted(crates - named[TOP / "docs" / "ARCHITECTURE.md"] - {"refusing"}))

    def test_the_documents_are_short(self):
        words = {document.name: words_of(document.read_text()) for document in written_documents()}
        self.assertLessEqual(sum(words.values()), MOST_WORDS, words)

    def test_what_is_not_there_is_found(self):
        source = '/// docs/MODEL.md,\n    /// "Clocks" and "Nothing"; docs/NONE.md.'
        self.assertEqual(list(faults_of_citations("x", source)), ['x: docs/MODEL.md has no heading "Nothing"', "x: there is no docs/NONE.md"])
        links = list(faults_of_links(TOP / "README.md", "[a](docs/MODEL.md#clocks) [b](docs/MODEL.md#none) [c](none.md) [d](https://e.f)"))
        self.assertEqual([link.split(": ")[1] for link in links], ["docs/MODEL.md#none names no heading", "none.md leads nowhere"])
