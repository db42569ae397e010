"""The wrong versions that the prover must refuse: where their edits stand, what each puts where, and what rt said of it.

rt ci tries those under crates/CRATE/must-fail, tools/wrong those under tests/wrong/CRATE. Both have one form: a `file:` line, then pairs of `old:` and `new:`; lines
of no key are passed over."""
import re
from pathlib import Path
from typing import NamedTuple

ROOT = Path(__file__).resolve().parent.parent
FROM_NOTHING, OVER_A_CHECK = "must-fail", "wrong"
SAID = {FROM_NOTHING: ROOT / "target/said/ci", OVER_A_CHECK: ROOT / "target/said/wrong"}  # what rt ci and what tools/wrong said
REFUSED = "refused, as it must be: "
SHAPE = (
    r"has no (field )?`|is not in scope|is not a constructor of|can be named from here|too many arguments|is not a function|is a reserved word|unexpected"
    r"|not determined by the signature|no occurrence of the path's left endpoint|no equation of the list has an instance|was not admitted"
    r"|expected type `\w+`, but this has type `\w+`"
)


class Edit(NamedTuple):
    crate: str
    name: str
    tried: str  # FROM_NOTHING or OVER_A_CHECK
    path: Path

    def __str__(self):
        return f"{self.crate}/{self.name}"


def edits():
    """Every edit, in the order of its crate's and its own name."""
    first = [Edit(path.parts[-3], path.stem, FROM_NOTHING, path) for path in ROOT.glob("crates/*/must-fail/*.edit")]
    return sorted(first + [Edit(path.parts[-2], path.stem, OVER_A_CHECK, path) for path in ROOT.glob("tests/wrong/*/*.edit")])


def applied(edit):
    """The files that an edit changes, under its crate, with their new texts, and why it cannot be applied, if so."""
    lines = re.findall(r"(?m)^(file: |old: |new: ?)(.*)$", edit.path.read_text())
    if not re.fullmatch(r"(f(on)+)+", "".join(key[0] for key, _ in lines)):
        return {}, ["its lines are not a file, then pairs of old and new"]
    texts, found = {}, []
    for key, words in lines:
        if key == "file: ":
            name, file = words, ROOT / "crates" / edit.crate / words
            if not file.is_file() or not re.match(r"(src|specs|proofs)/(?!.*\.\.)", words):
                return {}, found + [f"its crate has no {words}"]
            texts.setdefault(name, file.read_text())
        elif key == "old: ":
            old = words
        else:
            times = texts[name].count(old)
            found += [f"{times} times in {name}: {old}"] if times != 1 else []
            found += [f"old and new are the same: {old}"] if old == words else []
            texts[name] = texts[name].replace(old, words)
    return texts, found


def told(log):
    """What rt said of each edit in a log, by CRATE/NAME."""
    return dict(re.findall(r"(?m)^rt: must-fail (\w+/\w+)\.edit: (.*)$", log))


def not_at_a_fact(words):
    """Why what rt said of an edit is no refusal at a fact; nothing where it is one."""
    if not words.startswith(REFUSED):
        return words or "it was not tried"
    return f"for its shape: {words.removeprefix(REFUSED)}" if re.search(SHAPE, words) else ""
