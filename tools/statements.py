"""The tables of docs/STATEMENTS.md, as edits.py and publics.py read them."""
import re
from pathlib import Path

ROOT = Path(__file__).resolve().parent.parent
CRATES = {path.name for path in (ROOT / "crates").iterdir()}


def rows():
    """Each row of a table with its section, its cells by their heads; of a line outside the tables the head is ''."""
    section, heads = "", None
    for line in (ROOT / "docs/STATEMENTS.md").read_text().splitlines():
        if line.startswith("## "):
            section = line[3:]
        if not line.startswith("|"):
            heads = None
            yield section, {"": line}
            continue
        cells = [cell.strip() for cell in line.strip("|").split("|")]
        if heads is None:
            heads = cells
        elif set(line) != set("|-"):
            yield section, dict(zip(heads, cells))


def functions(section, row):
    """The functions that a row is about, each as CRATE::name or CRATE::Type::name."""
    named = re.findall(r"`([\w:]+)[^`]*`", row.get("function", ""))
    return [name if re.match(r"[a-z]\w*::", name) else f"{section}::{name}" for name in named]
