#!/usr/bin/env python3
"""Prints names of bodies, in rising order, a line for each. The same options give the same names anywhere.

A name has some parts, each "/", a word and a number, as /axle3/pump55/panel9. Run from the repository's root:

    tools/names.py --count 50000 > names.txt
"""
import argparse
import random

WORDS = ["axle", "bolt", "door", "frame", "gear", "nut", "panel", "plate", "pump", "rib"]


def names(count, parts=(2, 4), words=len(WORDS), numbers=60, filling=0, seed=1):
    """So many names, each of as many parts as the pair allows.

    Of the words the first so many are taken, each made longer by so many letters, and of the numbers those below `numbers`.
    """
    chance = random.Random(seed)

    def below(end):
        # not randrange: what that one draws may change with Python's version
        return int(chance.random() * end)

    least, most = parts
    made = set()
    while len(made) < count:
        name = b""
        for _ in range(least + below(most - least + 1)):
            word = WORDS[below(words)]
            word += (word * filling)[:filling]
            name += b"/%s%d" % (word.encode(), below(numbers))
        made.add(name)
    return sorted(made)


def repeated(parents, children):
    """Names of the same children under each of so many parents."""
    behind = names(children, parts=(1, 3))
    return sorted(front + name for front in names(parents, parts=(1, 1)) for name in behind)


def wide(width):
    """All names of two bytes out of so many, so that a node has so many transitions."""
    letters = range(256 - width, 256)
    return [bytes((first, second)) for first in letters for second in letters]


def beside(length, width):
    """One name, and beside each of its beginnings so many others: the first group of each node is as long as it can be."""
    stem, others = b" " * length, range(255 - width, 255)
    return sorted([stem] + [stem[:depth] + bytes((last,)) for depth in range(length) for last in others])


def main():
    options = argparse.ArgumentParser(description=__doc__.splitlines()[0])
    options.add_argument("--count", type=int, default=50000)
    options.add_argument("--parts", type=int, nargs=2, default=(2, 4), metavar=("LEAST", "MOST"))
    options.add_argument("--words", type=int, default=len(WORDS))
    options.add_argument("--numbers", type=int, default=60)
    options.add_argument("--filling", type=int, default=0, help="letters added to each word")
    options.add_argument("--seed", type=int, default=1)
    for name in names(**vars(options.parse_args())):
        print(name.decode())


if __name__ == "__main__":
    main()
