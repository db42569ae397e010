#!/usr/bin/env python3
"""axioms.py: what each program and each static library assumes beside the logic, by the words of `rt check`, is what docs/STATEMENTS.md says. Last line: 'N crates'.

Of a library a check counts nothing: it assumes nothing of its own, since rt ci refuses declarations of C functions, and what it reaches is counted with those that
stand on it."""
import re
import subprocess
import sys
from pathlib import Path

ROOT = Path(__file__).resolve().parent.parent


def listed():
    """The axioms of the table "What the proofs rest on", by crate; a crate that it does not name has none."""
    section = (ROOT / "docs/STATEMENTS.md").read_text().split("## What the proofs rest on\n")[1].split("\n## ")[0]
    rows = re.findall(r"(?m)^\| `(\w+)` \| (\d+) \| (.*) \|$", section)
    return {crate: (int(count), sorted(re.findall(r"\w+(?:::\w+)+", which))) for crate, count, which in rows}


def whole():
    """The programs and the static libraries."""
    lines = re.findall(r"(?m)^(\w+)( staticlib)?:", (ROOT / "crates.txt").read_text())
    return [crate for crate, is_static in lines if is_static or (ROOT / "crates" / crate / "src/main.rt").is_file()]


def told(crate):
    """What the check of a crate says: how many axioms, and which."""
    log = subprocess.run(["rt", "check"], cwd=ROOT / "crates" / crate, capture_output=True, text=True, errors="replace").stdout
    if not re.search(r"(?m)^logic=proved ", log):
        sys.exit(f"{crate}: rt check does not say that it is proved")
    names = [name for line in re.findall(r"(?m)^axioms \w+: (?!none )(.*) \(", log) for name in line.split(", ")]
    count = re.findall(r"(?m)^logic=proved .*\baxioms=(\d+)", log)
    foreign = re.findall(r"(?m)^logic=proved .*\bforeign=(\S+)", log)
    return (int(count[-1]) if count else 0, sorted(names + foreign))


def main():
    crates, says = whole(), listed()
    tells = {crate: told(crate) for crate in crates}
    wrong = [f"{crate}: {told}, and docs/STATEMENTS.md says {says.get(crate, (0, []))}" for crate, told in tells.items() if told != says.get(crate, (0, []))]
    wrong += [f"{crate}: docs/STATEMENTS.md names it, and it is no program and no static library" for crate in says if crate not in crates]
    print("\n".join(wrong + [f"{len(crates)} crates"]))
    return 1 if wrong or not crates else 0


if __name__ == "__main__":
    sys.exit(main())
