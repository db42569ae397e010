#!/usr/bin/env python3
"""edits.py: every must-fail edit can be applied and is cited, and every edit that is cited exists. Last line: 'N edits'.

It stands under crates/CRATE/must-fail or under tests/wrong/CRATE, and a name once in its crate. It can be applied where each `file:` is one of its crate, and each
`old:` stands there once, the pairs before it applied, and is not its `new:`. It is cited in docs/STATEMENTS.md, by its name, under its crate or in the row of a
function of its crate, or there or in docs/MAP.md as CRATE/must-fail/NAME, wherever it stands. From nothing, under crates, are tried those that the first two tables of
docs/STATEMENTS.md cite, one at least of each exported call, by its row there, and all of the definitions in `written` and `machine`."""
import re
import sys

sys.dont_write_bytecode = True  # nothing is written into the tree
from statements import CRATES, ROOT, functions, rows  # noqa: E402
from wrong_versions import OVER_A_CHECK, applied, edits  # noqa: E402

NAMED_IN_DOCUMENT = ("The wrong versions that document 01 names", "Errors that look right")


def edits_named(crate, words):
    """The edits in backquotes: facts stand in brackets or belong to a function (`next`'s `returns`), and a crate's name means all of its edits."""
    names = re.findall(r"(?<!'s )`([a-z]\w*)`(?!'s)", re.sub(r"\([^()]*\)", "", words))
    return [f"{crate}/must-fail/{name}" for name in names if name not in CRATES]


def cited():
    """Every edit that the documents cite."""
    found = []
    for page in ("docs/MAP.md", "docs/STATEMENTS.md"):
        found += re.findall(r"`(\w+/must-fail/\w+)`", (ROOT / page).read_text())
    for section, row in rows():
        crate = (functions(section, row) or [section])[0].split("::")[0]
        if crate in CRATES:
            for head, words in row.items():
                found += edits_named(crate, words) if re.search(r"^$|edit|wrong versions", head) else []
    return set(found)


def row_cites(section, row):
    """The edits that a row cites, by their names or as CRATE/must-fail/NAME."""
    crate = (functions(section, row) or [section])[0].split("::")[0]
    words = " ".join(cell for head, cell in row.items() if re.search(r"edit|wrong versions", head))
    return set(edits_named(crate, words) + re.findall(r"`(\w+/must-fail/\w+)`", words))


def exported():
    """Every function that is exported, as CRATE::name of the library that it belongs to."""
    return {f"{path.parts[-3].removesuffix('_c')}::{name}" for path in ROOT.glob("crates/*/src/*.rt") for name in re.findall(r'extern "C" fn (\w+)', path.read_text())}


def to_be_moved(over_a_check):
    """What of the edits that are tried over a check has to be tried from nothing, and why."""
    calls = exported()
    found = [f"{name}: the definitions' edits are tried from nothing" for name in sorted(over_a_check) if name.split("/")[0] in ("written", "machine")]
    for section, row in rows():
        cites = row_cites(section, row)
        if section in NAMED_IN_DOCUMENT:
            found += [f"{name}: document 01 names it, so it is tried from nothing" for name in sorted(cites & over_a_check)]
        for call in sorted(calls & set(functions(section, row))):
            calls.discard(call)
            found += [f"{call}: none of its edits is tried from nothing"] if cites <= over_a_check else []
    return found + [f"{call}: exported, and no row says which edits are its own" for call in sorted(calls)]


def main():
    every = edits()
    names = [f"{edit.crate}/must-fail/{edit.name}" for edit in every]
    wrong = [f"{edit}: {fault}" for edit in every for fault in applied(edit)[1]]
    wrong += [f"{name}: it stands twice" for name in sorted({name for name in names if names.count(name) > 1})]
    wrong += [f"{path.relative_to(ROOT)}: no edit of a crate" for path in sorted(ROOT.glob("tests/wrong/**/*.*")) if path not in {edit.path for edit in every}]
    wrong += [f"{name}: no document cites it" for name in sorted(set(names) - cited())]
    wrong += [f"{name}: it is cited, and there is no such edit" for name in sorted(cited() - set(names))]
    wrong += to_be_moved({f"{edit.crate}/must-fail/{edit.name}" for edit in every if edit.tried == OVER_A_CHECK})
    print("\n".join(wrong + [f"{len(every)} edits"]))
    return 1 if wrong or not every else 0


if __name__ == "__main__":
    sys.exit(main())
