#!/usr/bin/env python3
"""Respells the repository's own names as today's Rattle writes them: words in snake case, a dash between two names only.

usage: tools/respell.py [FOLDER]    once, after port.py, over crates/; the table is respelled.tsv beside this file
"""
import os
import re
import sys

HERE = os.path.dirname(os.path.realpath(__file__))
TOKEN = re.compile(r"[^\s(){}.;,@\"«»\[\]\\`⌜⌝]+")


def table():
    with open(os.path.join(HERE, "respelled.tsv"), encoding="utf-8") as lines:
        return dict(line.rstrip("\n").split("\t") for line in lines)


def texts(top):
    for part in ("crates",):
        for folder, folders, files in os.walk(os.path.join(top, part)):
            folders[:] = sorted(it for it in folders if it != "out")
            yield from (os.path.join(folder, it) for it in sorted(files) if it.endswith((".rt", ".antt")))


def main():
    top = sys.argv[1] if len(sys.argv) > 1 else os.path.dirname(HERE)
    names, changed = table(), 0
    # a word that was a lemma's and is a definition's now stays where it is a function or the step of a call
    told = {old: new for old, new in names.items() if not (new.endswith("_lem") and re.fullmatch(r"[a-z_]+", old))}
    for path in texts(top):
        with open(path, encoding="utf-8") as text:
            before = text.read()
        used = told if path.endswith(("/Proof.antt", ".rt")) else names
        after = TOKEN.sub(lambda it: used.get(it[0], it[0]), before)
        if after != before:
            with open(path, "w", encoding="utf-8") as text:
                text.write(after)
            changed += 1
    print(f"respelled: {changed} files, by {len(names)} names")


if __name__ == "__main__":
    main()
