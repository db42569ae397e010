#!/usr/bin/env python3
"""map_names.py [DOCUMENT-01 [DOCUMENT-02]]: every name that the pages of docs cite exists, each row of the map cites something, each name in the
column of its kind, and each open point of docs/DECISIONS.md cites what says it. Last line: 'N passed, M failed'.

`CRATE/File.name`          a definition of crates/CRATE/specs or a law of crates/CRATE/proofs
`CRATE::name`              a public function of crates/CRATE/src, also `CRATE::Type::name`
`CRATE/src/FILE.rt::name`  a function of that file, public or not
`CRATE/must-fail/name`     an edit, of crates/CRATE/must-fail or of tests/wrong/CRATE
`CRATE/specs/..`, `CRATE/proofs/..`, `CRATE/src/..`, `CRATE/File`
                           a file or a folder of that crate, {A,B} for several; .antt may be left out
`FILE.rs::name`            a test of tests/oracle/tests/FILE.rs or tests/boundary/tests/FILE.rs; the first words of its name are enough
`docs/FILE.md#Heading`     a section of a page; `docs/..`, `tests/..`, `crates/..`, `tools/..` a file

What an open point cites stands in brackets at its end, by its bare name: definitions of `written` or of the crates that it cites. A crate and a
file before them, as in [`scan` Scan: `tilde`], say that they stand there.

The map's rows carry the documents' words (map_rows.py). The documents are no part of this repository. Given their paths, the rows are compared with
them: the headings, each sentence once and in its order, no words without a row; the seal that is printed then stands in that part of docs/MAP.md.
Without them the seals show that those words are the ones that were compared.

Each request of document 02 says that it is "Not landed.", and its rows then cite nothing, or "Landed: `docs/landings/NOTE.md`.", by a note of its own, and
each of its rows then cites something. A row whose words a request has replaced is marked "(replaced by request N)", once that request has landed."""
import re
import sys
from pathlib import Path

sys.dont_write_bytecode = True  # nothing is written into the tree
from map_rows import NOT_LANDED, UNITS, compare, seal, sealed, sections  # noqa: E402

ROOT = Path(__file__).resolve().parent.parent
MAP = "docs/MAP.md"
DECISIONS = "docs/DECISIONS.md"
PAGES = (MAP, "docs/STATEMENTS.md", DECISIONS, "docs/PROOFS.md")
PAGES_IF_THERE = ("docs/CRATES.md", "docs/TOUR.md")
PROMISES = ("written", "scan", "draw", "words", "reader")  # the crates whose specs define what is promised
COLUMNS = {
    "definition": {"definition"},
    "contract": {"function", "source"},
    "law": {"definition", "law"},
    "edit": {"edit"},
    "test": {"test", "edit", "file"},
}


# ---- what is cited


def text(paths):
    return "\n".join(p.read_text() for p in paths if p.is_file())


def declared(crate, file, name):
    for kind, folder in (("definition", "specs"), ("law", "proofs")):
        source = text([ROOT / "crates" / crate / folder / f"{file}.antt"])
        if re.search(r"(?m)^\s*(abbrev |unfoldable )?pub (record |data )?%s[ \n]" % re.escape(name), source):
            return kind
    return None


def function(crate, path):
    source = text((ROOT / "crates" / crate / "src").glob("*.rt"))
    *types, name = path.split("::")
    for holder in types:
        source = "\n".join(re.findall(r"(?ms)^impl(?:<[^>]*>)? %s\b.*?^}" % re.escape(holder), source))
    found = re.search(r'(?m)^ *pub (extern "C" )?fn %s[<(]' % re.escape(name), source)
    return "function" if found else None


def code(crate, file, name):
    source = text([ROOT / "crates" / crate / "src" / f"{file}.rt"])
    return "source" if re.search(r'(?m)^ *(pub )?(extern "C" )?fn %s[<(]' % re.escape(name), source) else None


def edit(crate, name):
    homes = (ROOT / "crates" / crate / "must-fail", ROOT / "tests/wrong" / crate)
    return "edit" if any((home / f"{name}.edit").is_file() for home in homes) else None


def test(file, name):
    homes = [ROOT / "tests" / package / "tests" / f"{file}.rs" for package in ("oracle", "boundary")]
    return "test" if re.search(r"#\[test\]\nfn %s(_\w+)?\(" % re.escape(name), text(homes)) else None


def standing(path, heading):
    page = ROOT / path
    if not page.exists():
        return None
    return "file" if not heading or re.search(r"(?m)^#+ %s$" % re.escape(heading), text([page])) else None


def inside(crate, path):
    """A file or a folder of a crate; where several are named, each of them."""
    home = ROOT / "crates" / crate
    several = re.fullmatch(r"(.*)\{(.*)\}(.*)", path)
    paths = [several[1] + part + several[3] for part in several[2].split(",")] if several else [path]
    return "file" if all((home / one).exists() or (home / f"{one}.antt").exists() for one in paths) else None


def module(crate, file):
    return inside(crate, f"specs/{file}") or inside(crate, f"proofs/{file}")


LOOKS = (
    (r"((?:docs|tests|tools|crates(?=/[a-z]))/[^#]+)(?:#(\S+))?", standing),
    (r"(\w+)/must-fail/(\w+)", edit),
    (r"(\w+)/src/(\w+)\.rt::(\w+)", code),
    (r"(\w+)\.rs::(\w+)", test),
    (r"(\w+)/((?:specs|proofs|src)(?:/\S+)?)", inside),
    (r"([a-z]\w*)/([A-Z]\w*)", module),
    (r"(\w+)/(\w+)\.(\S+)", declared),
    (r"([a-z]\w*)::(\S+)", function),
)


def cited(page):
    return re.findall(r"`([^`\s]+)`", page)


def kind_of(name):
    """Its kind; None where it is missing, "" where it is no citation."""
    for pattern, look in LOOKS:
        found = re.fullmatch(pattern, name)
        if found:
            return look(*found.groups())
    return ""


# ---- the rows of the map


def faults_of(row):
    """What is wrong with the row of something that has landed."""
    kinds = [(column, name, kind_of(name)) for column, cell in zip(row.columns[1:], row.cells[1:]) for name in cited(cell)]
    faults = [f"{name} is no citation" for _, name, kind in kinds if kind == ""]
    faults += [f"{name} is no {column}" for column, name, kind in kinds if kind and kind not in COLUMNS.get(column, {kind})]
    return faults if any(kind for *_, kind in kinds) else faults + ["cites nothing"]


def faults_of_mark(row, states):
    """What is wrong with the requests that are said to have replaced a row's words."""
    faults = [f"there is no request {number}" for number in row.replaced_by() if number not in states]
    faults += [f"request {number} has not landed" for number in row.replaced_by() if number in states and not states[number]]
    return faults + (["its mark is not '(replaced by request N)'"] if "(replaced" in row.words() else [])


def faults_of_row(section, row, states):
    if len(row.cells) != len(row.columns):
        return ["has not as many cells as columns"]
    if section.request() and not section.note():
        return (["it has not landed, and its row is filled in"] if any(row.cells[1:]) else []) + faults_of_mark(row, states)
    return faults_of(row) + faults_of_mark(row, states)


def faults_of_request(section, notes):
    """Whether it is told once that a request has landed or has not, and if so in a note of its own."""
    if len(section.states()) != 1 or not (section.note() or section.states() == [NOT_LANDED]):
        return [f"not one line '{NOT_LANDED}' or 'Landed: `docs/landings/NOTE.md`.'"]
    if section.note():
        return [f"{section.note()} is the note of another request too"] if notes.count(section.note()) > 1 else []
    words = " ".join(line for line in section.lines if not line.startswith("|"))
    return [f"it has not landed, and cites {name}" for name in cited(words) if kind_of(name) != ""]


def faults_of_map(page):
    """How many rows and requests are as they are to be, and what is wrong with the others."""
    requests = [section for section in sections(page) if section.request()]
    states = {section.request(): section.note() for section in requests}
    judged = [(section.heading, faults_of_request(section, [other.note() for other in requests])) for section in requests]
    judged += [(row.cells[0], faults_of_row(section, row, states)) for section in sections(page) for row in section.rows()]
    return sum(not wrong for _, wrong in judged), [f"{MAP}: {fault}: {words}" for words, wrong in judged for fault in wrong]


def faults_of_names(pages):
    """How many of the names cited are there, and which are missing."""
    kinds = [(page, name, kind_of(name)) for page in pages for name in cited((ROOT / page).read_text())]
    return sum(1 for *_, kind in kinds if kind), [f"{page}: {name} is missing" for page, name, kind in kinds if kind is None]


# ---- the open points


def points(page):
    """The number and the words of each."""
    section = re.search(r"(?ms)^## Open points.*?(?=^## )", page).group()
    return re.findall(r"(?ms)^(\d+)\. (.*?)(?=^\d+\. |^\S|^$)", section)


def defines(crates, file, name):
    """Whether one of the crates has such a definition, in that file if one is named."""
    files = [(crate, path.stem) for crate in crates for path in (ROOT / "crates" / crate / "specs").glob(f"{file or '*'}.antt")]
    return any(declared(crate, stem, name) == "definition" for crate, stem in files)


def faults_of_point(words):
    brackets = re.search(r"\[(?:`(\w+)` (\w+)(?:: )?)?([^\[\]]*)\]\s*$", words)
    if not brackets:
        return ["cites nothing"]
    crate, file, names = brackets.groups()
    if crate and not module(crate, file):
        return [f"{crate} has no {file}"]
    missing = [name for name in cited(names) if not defines([crate] if crate else PROMISES, file, name)]
    return [f"{name} is no definition" for name in missing] if crate or cited(names) else ["cites nothing"]


def faults_of_points(page):
    judged = [(number, faults_of_point(words)) for number, words in points(page)]
    return sum(not wrong for _, wrong in judged), [f"{DECISIONS}: point {number}: {fault}" for number, wrong in judged for fault in wrong]


# ----


def main():
    page = (ROOT / MAP).read_text()
    judged = [faults_of_names(PAGES + tuple(name for name in PAGES_IF_THERE if (ROOT / name).exists()))]
    judged += [faults_of_map(page), faults_of_points((ROOT / DECISIONS).read_text())]
    passed, faults = sum(many for many, _ in judged), [fault for _, wrong in judged for fault in wrong]
    for part, path in zip(UNITS, sys.argv[1:]):
        faults += compare(page, part, Path(path).read_text())
        print(f"{part}: the seal of its sentences is {seal(page, part)}")
    faults += [f"{MAP}: the sentences of {part} are not those that were compared with it" for part in UNITS if not sealed(page, part)]
    print("\n".join(faults + [f"{passed} passed, {len(faults)} failed"]))
    return 1 if faults or not passed else 0


if __name__ == "__main__":
    sys.exit(main())
