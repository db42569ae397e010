#!/usr/bin/env python3
"""index.py [--check]: writes the section "Index of laws" of docs/PROOFS.md anew, or only sees that it is up to date. Last line: 'N files'.

One row for each file that has laws: those of crates/CRATE/proofs, and those of crates/CRATE/specs that show something, by crates.txt and by the
order of the folder's Lib.antt. A file's words are its first line, a comment of whole sentences; "Assumes nothing." is left out."""
import re
import sys
from pathlib import Path

ROOT = Path(__file__).resolve().parent.parent
PAGE = ROOT / "docs/PROOFS.md"
HEADING = "## Index of laws\n"
INTRODUCTION = """One row a file: of the crate's `proofs`, or of its `specs` where that stands before it. The words are the file's first line, put here by
`tools/index.py`: after a change of that line, run it. Within a crate the files go from the bottom up.
"""
SHOWN = re.compile(r"(?m)^pub (?!record\b|mod\b)\S+ :")  # a definition is `unfoldable`, an `abbrev` or a record
LONGEST = 160


def crates():
    listed = [ROOT / "crates" / name for name in re.findall(r"(?m)^(\w+):", (ROOT / "crates.txt").read_text())]
    missing = [crate.name for crate in listed if not crate.is_dir()]
    if missing:
        sys.exit(f"crates.txt lists what is not there: {', '.join(missing)}")
    return listed


def modules(folder):
    """The files of a folder in the order of its Lib.antt, which names each of them."""
    files = {path.stem: path for path in folder.glob("*.antt")}
    lib = files.pop("Lib", None)
    named = re.findall(r"(?m)^(?:pub )?mod (\w+)", lib.read_text()) if lib else []
    if not set(files) <= set(named):
        sys.exit(f"{folder.relative_to(ROOT)}: Lib.antt does not name {', '.join(sorted(set(files) - set(named)))}")
    return [files[name] for name in named if name in files]


def words(path):
    """What a file's first line says of it."""
    first = path.read_text().partition("\n")[0]
    if not re.fullmatch(r"-- \S.*\.", first) or len(first) > LONGEST:
        sys.exit(f"{path.relative_to(ROOT)}: its first line is no comment of whole sentences in {LONGEST} characters")
    return first[3:].removesuffix(" Assumes nothing.").replace("|", "\\|")


def section():
    """The section's lines, heading included, and how many files it lists."""
    text, count = HEADING + INTRODUCTION, 0
    for crate in crates():
        shown = [path for path in modules(crate / "specs") if SHOWN.search(path.read_text())]
        rows = [(f"specs/{path.stem}", path) for path in shown] + [(path.stem, path) for path in modules(crate / "proofs")]
        if rows:
            text += f"\n### {crate.name}\n| file | what |\n|---|---|\n"
            text += "".join(f"| {name} | {words(path)} |\n" for name, path in rows)
        count += len(rows)
    return text, count


def first_difference(page, made):
    """The first line of the page that is not as it is to be."""
    pairs = zip(page.splitlines() + [""], made.splitlines() + [""])
    return next((f"'{stands}' is to be '{due}'" for stands, due in pairs if stands != due), "a line is missing, or one too many")


def main():
    if sys.argv[1:] not in ([], ["--check"]):
        sys.exit("usage: index.py [--check]")
    page = PAGE.read_text()
    if page.count("\n" + HEADING) != 1:
        sys.exit(f"docs/PROOFS.md: the heading '{HEADING.strip()}' does not stand there once")
    before, rest = page.split("\n" + HEADING)
    _, mark, after = rest.partition("\n## ")
    text, count = section()
    if count == 0:
        sys.exit("no file with laws was found")
    made = before + "\n" + text + mark + after
    if sys.argv[1:] == ["--check"] and made != page:
        sys.exit(f"docs/PROOFS.md: {first_difference(page, made)}: run tools/index.py")
    if made != page:
        PAGE.write_text(made)
    print(f"{count} files")


if __name__ == "__main__":
    main()
