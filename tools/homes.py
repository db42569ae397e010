#!/usr/bin/env python3
"""homes.py [NAMES:HOMES...]: how many slots a new name meets, in the mean, for so many names in so many homes, the search going upwards.
For each pair two rows, of the home that the code takes and of the plain remainder: the mean over families of names, the worst family, and each family's own mean."""
import random
import sys
from itertools import count as numbers_from

HOMES = {
    "name % 1000003 * 617 % homes": lambda name, homes: name % 1000003 * 617 % homes,
    "name % homes": lambda name, homes: name % homes,
}


def in_letters(number):
    word = ""
    while number >= 0:
        word = chr(ord("a") + number % 26) + word
        number = number // 26 - 1
    return word


def benchmark_name(term):
    length = 1 if term < 93 else 3 + term // 16 % 6 if term % 16 == 0 else 2
    return "".join(chr(33 + (term % 93 if at == 0 else term // 93 * at % 93)) for at in range(length))


def random_words(many, length):
    draw = random.Random(1)
    words = set()
    while len(words) < many:
        words.add("".join(draw.choice("abcdefghijklmnopqrstuvwxyz") for _ in range(length)))
    return sorted(words)


def least_side(many, power):
    """The least number whose power is not below `many`."""
    return next(side for side in numbers_from(1) if side**power >= many)


def in_bytes(number, length):
    """A number as so many bytes of a name, the first fastest."""
    return "".join(chr(33 + number // 93**at % 93) for at in range(length))


def families(many):
    numbers = range(many)
    side, edge, length = least_side(many, 2), least_side(many, 3), 2 if many <= 93**2 else 3
    pairs = [(n // side, n % side) for n in numbers]
    every = {
        "1": [f"{n + 1}" for n in numbers],
        "x1": [f"x{n}" for n in numbers],
        "t00001": [f"t{n:05}" for n in numbers],
        "0000001": [f"{n:07}" for n in numbers],
        "7ff": [f"{n:x}" for n in numbers],
        "a1-h255": [f"{in_letters(n // 256)}{n % 256}" for n in numbers],
        "3.14": [f"{a}.{b}" for a, b in pairs],
        "003.014": [f"{a:03}.{b:03}" for a, b in pairs],
        "v3_14": [f"v{a}_{b}" for a, b in pairs],
        "1.2.3": [f"{n // edge**2}.{n // edge % edge}.{n % edge}" for n in numbers],
        "a-bzz": [in_letters(n) for n in numbers],
        "four letters": random_words(many, 4),
        "eight letters": random_words(many, 8),
        "few bytes, first fastest": [in_bytes(n, length) for n in numbers],
        "few bytes, last fastest": [in_bytes(n, length)[::-1] for n in numbers],
        "the benchmark's": [benchmark_name(n) for n in numbers],
    }
    return {family: names for family, names in every.items() if len(set(names)) == many and max(map(len, names)) <= 8}


def slots_met(names, home, homes):
    taken, met = set(), 0
    for name in names:
        slot = home(int.from_bytes(name.encode(), "little"), homes)
        met += 1
        while slot in taken:
            slot, met = slot + 1, met + 1
        taken.add(slot)
    return met / len(names)


def main():
    for many, homes in (map(int, pair.split(":")) for pair in sys.argv[1:] or ["2048:6067"]):
        for words, home in HOMES.items():
            means = {family: slots_met(names, home, homes) for family, names in families(many).items()}
            print(f"{many} names, {homes} homes, {words}: mean {sum(means.values()) / len(means):.2f}, worst {max(means.values()):.2f}")
            print("   " + ", ".join(f"{family} {mean:.2f}" for family, mean in means.items()))


if __name__ == "__main__":
    main()
