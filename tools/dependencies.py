#!/usr/bin/env python3
"""dependencies.py [--write]: crates.txt lists for each crate what its code, definitions and proofs name, and no more. Last line: 'N dependencies'.

Named is a crate by NAME:: in code and by Rattle.NAME anywhere. Of the kit's libraries the crates name std alone, which is never listed. With --write the lists are put
right, each in the order of crates.txt."""
import re
import sys
from pathlib import Path

ROOT = Path(__file__).resolve().parent.parent
LISTS = ROOT / "crates.txt"
LINE = re.compile(r"(?m)^(\w+)((?: staticlib)?):([^#\n]*)")


def texts(crate, *ends):
    """The crate's files of these kinds, without the comments of code."""
    for path in sorted((ROOT / "crates" / crate).rglob("*")):
        if path.suffix in ends and path.relative_to(ROOT / "crates" / crate).parts[0] in ("src", "specs", "proofs"):
            yield re.sub(r"//.*", "", path.read_text()) if path.suffix == ".rt" else path.read_text()


def named(crate, crates):
    """What the crate names, in the order of crates.txt."""
    code, all_text = "\n".join(texts(crate, ".rt")), "\n".join(texts(crate, ".rt", ".antt"))
    found = set(re.findall(r"(?<![\w:.])(\w+)::", code)) | set(re.findall(r"\bRattle\.(\w+)", all_text))
    return [name for name in crates if name in found and name != crate]


def lists():
    """What crates.txt lists for each crate."""
    return {crate: names for crate, _, names in LINE.findall(LISTS.read_text())}


def main():
    listed = lists()
    right = {crate: named(crate, listed) for crate in listed}
    if sys.argv[1:] == ["--write"]:
        LISTS.write_text(LINE.sub(lambda line: " ".join([f"{line[1]}{line[2]}:", *right[line[1]]]), LISTS.read_text()))
        listed = lists()
    wrong = [f"{crate}: listed is {names.strip()}, named is {' '.join(right[crate])}" for crate, names in listed.items() if names.split() != right[crate]]
    print("\n".join(wrong + [f"{sum(map(len, right.values()))} dependencies"]))
    return 1 if wrong or not listed else 0


if __name__ == "__main__":
    sys.exit(main())
