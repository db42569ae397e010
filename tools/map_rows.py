"""The sections and rows of docs/MAP.md, their seals, and the documents that they are compared with, as map_names.py reads them.

A part for each document (`# Document 01`), in it a section for each heading or request of the document, in that a table. The rows whose first column is
"sentence" carry the document's words, " .. " where some are left out, and then, where a request has replaced them, the mark `(replaced by request N)`."""
import hashlib
import re
from typing import NamedTuple

SCOPE, REQUESTS = "Document 01", "Document 02"
MARK = r" \(replaced by request (\d+)\)"
NOT_LANDED = "Not landed."
LANDED = r"Landed: `(docs/landings/[^`\s]+\.md)`\."


class Row(NamedTuple):
    columns: list
    cells: list

    def words(self):
        """The document's words alone."""
        return re.sub(f"({MARK})+$", "", self.cells[0])

    def replaced_by(self):
        """The requests that have replaced its words."""
        return re.findall(MARK, self.cells[0].removeprefix(self.words()))


class Section(NamedTuple):
    part: str
    heading: str  # '' for what stands before a part's first section
    lines: list

    def rows(self):
        columns = None
        for line in self.lines:
            cells = [cell.strip() for cell in line.strip("|").split("|")]
            if not line.startswith("|"):
                columns = None
            elif columns is None:
                columns = cells
            elif set(line) - set("|-"):
                yield Row(columns, cells)

    def sentences(self):
        return [row.words() for row in self.rows() if row.columns[0] == "sentence"]

    def request(self):
        """The number of the request that it is about, if it is about one."""
        found = re.match(r"Request (\d+): ", self.heading) if self.part == REQUESTS else None
        return found and found[1]

    def states(self):
        """The lines that say whether its request has landed; there is to be one."""
        return [line for line in self.lines if re.match("(Not l|L)anded", line)]

    def note(self):
        """The note of its request's landing; nothing where that has not landed."""
        found = [re.fullmatch(LANDED, line) for line in self.states()]
        return found[0][1] if len(found) == 1 and found[0] else None


def sections(page):
    found = [Section("", "", [])]
    for line in page.splitlines():
        if line.startswith("# "):
            found.append(Section(line[2:].strip(), "", []))
        elif line.startswith("## "):
            found.append(Section(found[-1].part, line[3:].strip(), []))
        else:
            found[-1].lines.append(line)
    return found


def of_part(page, part):
    """The sections of one part."""
    return [section for section in sections(page) if section.part == part]


def seal(page, part):
    """It changes with any of the part's sentences, their order and their headings."""
    lines = [f"{section.heading}\t{words}" for section in of_part(page, part) for words in section.sentences()]
    return hashlib.sha256("\n".join(lines).encode()).hexdigest()[:16]


def sealed(page, part):
    """Whether the part says its own seal."""
    return any(f"seal {seal(page, part)}" in line for section in of_part(page, part) for line in section.lines)


# ---- the documents


def units_of_scope(scope):
    """Its paragraphs, points and table rows under their headings; neither what is quoted as input and output nor the forms of later requests."""
    heading, found = "", []
    plain = re.sub(r"(?ms)^```.*?^```$", "", scope)
    plain = re.sub(r"(?m)^\|.*\n\|[-|]+\n", "", plain)
    for line in plain.splitlines():
        if line.startswith("#"):
            heading = line.lstrip("# ")
        elif line.startswith("|"):
            found.append((heading, " .. ".join(cell.strip() for cell in line.strip("|").split("|"))))
        elif line.strip() and not re.match(r'- ".*" \(02\):', line):
            found.append((heading, re.sub(r"^(- |\d+\. )", "", line.strip())))
    return found


def units_of_requests(requests):
    """Its paragraphs under their headings; a request's heading is its number and its title."""
    heading, found = "", []
    for line in requests.splitlines():
        begins = re.fullmatch(r"\[(\d+)\] \*\*(.+?)\.\*\* (.*)", line)
        if line.startswith("#"):
            heading = line.lstrip("# ")
        elif begins:
            heading = f"Request {begins[1]}: {begins[2]}"
            found.append((heading, begins[3]))
        elif line.strip():
            found.append((heading, line.strip()))
    return found


UNITS = {SCOPE: units_of_scope, REQUESTS: units_of_requests}


def unmapped(heading, words):
    words = words.strip(" .,:;\n")
    return [] if words in ("", "and") else [f"{heading}: no row for: {words}"]


def compare_section(heading, rest, rows):
    """Words of one section of a document that no row carries, and rows that are not its words in their place."""
    faults, cut = [], False
    for words in rows:
        for place, part in enumerate(words.removesuffix(" ..").split(" .. ")):
            before, found, after = rest.partition(part)
            if not found:
                faults.append(f"{heading}: not the document's words after the row before: {words}")
                break
            faults += [] if place or cut else unmapped(heading, before)
            rest = after
        cut = words.endswith(" ..")
    return faults + ([] if cut else unmapped(heading, rest))


def compare(page, part, document):
    """How the sentences of a part differ from those of its document."""
    units, rows = UNITS[part](document), {}
    for section in of_part(page, part):
        if section.sentences():
            rows.setdefault(section.heading, []).extend(section.sentences())
    headings = list(dict.fromkeys(heading for heading, _ in units))
    faults = [] if list(rows) == headings else [f"{part}: the headings are not the document's, in its order"]
    for heading in headings:
        faults += compare_section(heading, "\n".join(unit for under, unit in units if under == heading), rows.get(heading, []))
    return faults
