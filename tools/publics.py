#!/usr/bin/env python3
"""publics.py: the functions of crates/*/src are as docs/STATEMENTS.md has them, and short. Last line: 'N functions'.

Every public function is named there, and every one that is named exists. Those that ask something there have a `requires`, and no other public
one has. A theorem of `settled` stands by each, but for those that leave their outcome open. No body, public or not, is over 40 lines.

An export stands in a crate NAME_c, and is the function of its name in the library NAME, in the same file: it has the same parameters, result and clauses, whose names are
imported from the same places, and its body is that function's call. So a statement about the library's function is one about the export."""
import re
import sys

sys.dont_write_bytecode = True  # nothing is written into the tree
from statements import ROOT, functions, rows  # noqa: E402

MOST_LINES = 40
LEFT_OPEN = {"reading_lines::draft", "numbering::draft", "reading_draft::draft", "standard_input::read_input", "standard_input::failure", "standard_input::tell", "program::run"}  # docs/STATEMENTS.md, "Exceptions"
HEAD = r'^(?P<indent> *)(?P<public>pub )?(?P<export>extern "C" )?fn (?P<name>\w+)'
FUNCTION = re.compile(HEAD + r"(?P<contract>.*?)\{\n(?P<body>.*?)^(?P=indent)\}$", re.M | re.S)


def functions_of(source):
    """Each function of a file, with its whole name."""
    text, crate = re.sub(r"(?ms)^(?:pub )?trait \w+ \{.*?^\}\n", "", source.read_text()), source.parts[-3]  # what a trait declares has no body
    found = list(FUNCTION.finditer(text))
    if len(found) != len(re.findall(HEAD, text, re.M)):
        sys.exit(f"{source}: a function is not laid out as rt fmt lays it out")
    for function in found:
        types = re.findall(r"(?m)^impl\S* (\w+)", text[: function.start()]) if function["indent"] else []
        yield "::".join([crate] + types[-1:] + [function["name"]]), function


def imported(source):
    """The names that a file's clauses import, each with its place."""
    lines = re.findall(r"(?m)^ghost use (\S+)\.\{([^}]*)\};$", source.read_text())
    return {(place, name.strip()) for place, names in lines for name in names.split(",")}


def fault_of(name, export, source, public):
    """What is wrong with an export, if something is."""
    crate, library = source.parts[-3], source.parts[-3].removesuffix("_c")
    low = f"{library}::{name}"
    if library == crate or low not in public:
        return "it is exported, and no library has it"
    same = ROOT / "crates" / library / "src" / source.name
    if public[low]["contract"] != export["contract"] or not imported(source) <= imported(same):
        return f"it does not say what {low} says"
    words = [word.split(":")[0].strip() for word in re.match(r"\((.*?)\) ->", export["contract"], re.S)[1].split(",")]
    module = "" if source.stem == "lib" else f"{source.stem}::"
    call = f"{library}::{module}{name}({','.join(word for word in words if word)})"
    return "" if re.sub(r"\s+|,\s*(?=\))", "", export["body"]) == call else f"its body is not {call}"


def differences(have, listed, too_many, too_few):
    return [f"{name}: {too_many}" for name in sorted(have - listed)] + [f"{name}: {too_few}" for name in sorted(listed - have)]


def main():
    found = [(source, *pair) for source in sorted(ROOT.glob("crates/*/src/**/*.rt")) for pair in functions_of(source)]
    here = [pair for _, *pair in found]
    public = {name: function for name, function in here if function["public"] and not function["export"]}
    asking = {name for name, function in public.items() if re.search(r"\brequires (\w+ )?\{", function["contract"])}
    listed = [(name, row.get("asks", "nothing")) for section, row in rows() for name in functions(section, row)]
    may_ask = {name for name, asks in listed if asks != "nothing"}
    wrong = differences(public.keys(), {name for name, _ in listed}, "no statement names it", "a statement names it, and it is not there")
    wrong += differences(asking, may_ask, "it has a requires, and its statement asks nothing", "its statement asks something, and it has no requires")
    exports = {name: fault_of(function["name"], function, source, public) for source, name, function in found if function["export"]}
    wrong += [f"{name}: {fault}" for name, fault in exports.items() if fault]
    for section, row in rows():
        names = [name for name in functions(section, row) if name not in LEFT_OPEN]
        if len(re.findall(r"`settled/\w+\.[\w-]+[-_]settled`", row.get("settled by", ""))) != len(names):
            wrong.append(f"{', '.join(names)}: not one theorem of settled for each")
    lines = [(name, function["body"].count("\n")) for name, function in here]
    wrong += [f"{name}: {many} lines" for name, many in lines if many > MOST_LINES]
    print("\n".join(wrong + [f"{len(here)} functions"]))
    return 1 if wrong or not here else 0


if __name__ == "__main__":
    sys.exit(main())
