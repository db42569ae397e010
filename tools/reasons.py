#!/usr/bin/env python3
"""reasons.py: the reasons of include/reasons.txt are those of the header, README.md, the Rust wrapper, the independent program and the code, each by its
number, its name and its words where they are there. Last line: 'N reasons'.

What a place says beyond the words stands after them, behind a full stop, a colon or a semicolon. A reason that stands in one place alone is told too."""
import re
import sys
from pathlib import Path

ROOT = Path(__file__).resolve().parent.parent
LIST = "include/reasons.txt"
HEADER = "include/ngiyarumba.h"
WRAPPER = "rust/src/error.rs"
ORACLE = "tests/oracle/src/reasons.rs"
ENUM = "crates/written/src/lib.rt"
NUMBERS = "crates/reasons/src/lib.rt"


def read(name):
    return (ROOT / name).read_text()


def part(name, begin, end):
    """What stands between two marks of a file, of which the first is there once."""
    before, found, rest = read(name).partition(begin)
    inside, ended, _ = rest.partition(end)
    if not found or not ended or begin in rest:
        sys.exit(f"{name}: '{begin.strip()}' up to '{end.strip()}' does not stand there once")
    return inside


def entries(name, text, pattern):
    """The matches of a pattern, which must be all that the text holds."""
    left = re.sub(pattern, "", text, flags=re.M).strip()
    if left:
        sys.exit(f"{name}: not in the form that is read here: {left.splitlines()[0]}")
    return [found.groupdict() for found in re.finditer(pattern, text, re.M)]


def words_of(text):
    return re.split(r"[.:;]", text)[0]


def camel(name):
    return name.title().replace("_", "")


def listed():
    lines = "".join(line for line in read(LIST).splitlines(True) if not line.startswith("#"))
    reasons = entries(LIST, lines, r"^(?P<number>[1-9]\d*)\t(?P<name>[A-Z]+(?:_[A-Z]+)*)\t(?P<words>[^\t\n.:;|\"]+)\n")
    numbers = [int(reason["number"]) for reason in reasons]
    if not numbers or numbers != sorted(set(numbers)):
        sys.exit(f"{LIST}: no reason, or not in the order of their numbers")
    return reasons


def in_header():
    body = part(HEADER, "enum {\n    NGI_NO_REASON = 0,\n", "};\n")
    found = entries(HEADER, body, r"^    NGI_(?P<name>\w+) = (?P<number>\d+),? +/\* (?P<words>.*) \*/\n")
    return [dict(entry, words=words_of(entry["words"])) for entry in found]


def in_readme():
    table = part("README.md", "| reason | means | line |\n|---|---|---|\n", "\n\n")
    found = entries("README.md", table + "\n", r"^\| (?P<number>\d+) \| (?P<words>[^|]*) \|[^|]*\|\n")
    return [dict(entry, words=words_of(entry["words"])) for entry in found]


def in_wrapper_enum():
    body = part(WRAPPER, "pub enum Reason {\n", "\n}\n") + "\n"
    entry = r"^    /// (?P<told>\d+): (?P<words>[^\n]*\n(?:    /// [^\n]*\n)*)    (?P<camel>\w+) = (?P<number>\d+),\n"
    found = entries(WRAPPER, body, entry)
    return [dict(entry, words=words_of(re.sub(r"\n *(/// )?", " ", entry["words"]))) for entry in found]


def in_wrapper_words():
    body = part(WRAPPER, "-> &'static str {\n        match self {\n", "\n        }\n") + "\n"
    return entries(WRAPPER, body, r"^            Reason::(?P<camel>\w+) => (?:\{\s*)?\"(?P<words>[^\"]*)\"(?:\s*\}|,)\n")


def in_wrapper_order():
    return entries(WRAPPER, part(WRAPPER, "= [\n", "    ];\n"), r"^        Reason::(?P<camel>\w+),\n")


def in_oracle():
    constants = "".join(re.findall(r"(?m)^.*const .*\n", read(ORACLE)))
    found = entries(ORACLE, constants, r"^pub const (?P<name>\w+): u64 = (?P<number>\d+);\n")
    return [entry for entry in found if entry != {"name": "NONE", "number": "0"}]


def in_enum():
    """By their names: there a reason stands where it came, whatever its number."""
    found = entries(ENUM, part(ENUM, "pub enum Reason {\n", "}\n"), r"^    (?P<camel>\w+),\n")
    order = {camel(reason["name"]): place for place, reason in enumerate(listed())}
    return sorted(found, key=lambda entry: order.get(entry["camel"], len(order)))


def in_numbers():
    return entries(NUMBERS, part(NUMBERS, "    match reason {\n", "    }\n"), r"^        Reason::(?P<camel>\w+) => (?P<number>\d+),\n")


PLACES = {
    f"{HEADER}, the enum": in_header,
    "README.md, the table": in_readme,
    f"{WRAPPER}, the enum": in_wrapper_enum,
    f"{WRAPPER}, ALL": in_wrapper_order,
    f"{WRAPPER}, words()": in_wrapper_words,
    ORACLE: in_oracle,
    f"{ENUM}, the enum": in_enum,
    NUMBERS: in_numbers,
}


def numbered(found, numbers):
    """The entries of a place, by its order where it has no numbers."""
    by_order = numbers + [f"after {numbers[-1]}"] * len(found)
    return [dict({"number": number}, **entry) for entry, number in zip(found, by_order)]


def differences(place, found, reasons):
    """What a place says otherwise than the list."""
    wanted = {reason["number"]: dict(reason, camel=camel(reason["name"]), told=reason["number"]) for reason in reasons}
    here = numbered(found, list(wanted))
    order = [entry["number"] for entry in here]
    wrong = [f"{place}: reason {number} is missing" for number in wanted if number not in order]
    wrong += [f"{place}: reason {number} is not in {LIST}" for number in order if number not in wanted]
    if not wrong and order != list(wanted):
        wrong.append(f"{place}: not each reason once, in the order of their numbers")
    for entry in here:
        reason = wanted.get(entry["number"], entry)
        wrong += [f"{place}: reason {entry['number']} has '{said}', not '{reason[key]}'" for key, said in entry.items() if said != reason[key]]
    return wrong


def main():
    reasons = listed()
    wrong = [line for place, find in PLACES.items() for line in differences(place, find(), reasons)]
    print("\n".join(wrong + [f"{len(reasons)} reasons"]))
    return 1 if wrong else 0


if __name__ == "__main__":
    sys.exit(main())
