#!/usr/bin/env python3
"""refusals.py: every edit was refused at a fact, by rt's own words in target/said/ci and target/said/wrong, and not for its shape. Last line: 'N refusals'.

An edit that does not fit its proof or its definition (a field, a goal or a name that is not there, an argument too many, a value of another type, nothing for an
`rw` or a `simp` to rewrite) would be refused whatever it says."""
import sys

sys.dont_write_bytecode = True  # nothing is written into the tree
from wrong_versions import SAID, edits, not_at_a_fact, told  # noqa: E402


def main():
    every = edits()
    said = {tried: told(log.read_text()) if log.is_file() else {} for tried, log in SAID.items()}
    faults = {edit: not_at_a_fact(said[edit.tried].get(str(edit), "")) for edit in every}
    wrong = [f"{edit}: {why}" for edit, why in faults.items() if why]
    print("\n".join(wrong + [f"{len(every)} refusals"]))
    return 1 if wrong or not every else 0


if __name__ == "__main__":
    sys.exit(main())
