#!/usr/bin/env python3
"""Writes the lists of crates/list_questions (its file stdin) and what the program has to print for them (its file stdout).

The answers come from a model that follows the rule of docs/FORMATS.md, "The list of names", and shares no code with the
crates. Some lists are drawn at random, the same in each run. Run from the repository's root:

    tools/list_model.py
"""
import random

WORD = 2**64 - 1
BEHIND = 20
FAR_POSITIONS = [254, 255, 256, 65535, 65536, 2**32 - 1, 2**64 - 1]
FAR_NODES = [0x00FFFF00, 0x00FFFFFF, 0x01000000, 0x7FFFFFFF, 0x80000000, 0xFFFFFF00, 0xFFFFFFFF]


# the rule


class List:
    """The nodes of a list of names: for each its final output or None, and its transitions as (byte, output, target)."""

    def __init__(self, names):
        self.names, self.nodes = names, {}
        lowest, longer = {}, {}
        for i, name in enumerate(names):
            for d in range(len(name) + 1):
                lowest.setdefault(name[:d], i)
        number = {prefix: 256 * i + len(prefix) for prefix, i in lowest.items()}
        for prefix in number:
            if prefix:
                longer.setdefault(prefix[:-1], []).append(prefix)
        whole = {name: i for i, name in enumerate(names)}
        for prefix, node in number.items():
            ways = [(p[-1], 0, number[p]) for p in sorted(longer.get(prefix, []))]
            self.nodes[node] = (whole.get(prefix), ways)


# the questions


class Answers:
    """How many answers, and their digest."""

    def __init__(self):
        self.count, self.value = 0, 0xCBF29CE484222325

    def add(self, *words):
        self.count += 1
        self.put(words)

    def put(self, words):
        value = self.value
        for word in words:
            value = (value ^ word) * 0x100000001B3 & WORD
        self.value = value

    def part(self, part):
        self.count += part.count
        self.put([part.value])


def answers_at(final_output, ways):
    answers = Answers()
    answers.add(len(ways))
    answers.add(0 if final_output is None else 1)
    answers.add(final_output or 0)
    for position in list(range(len(ways) + BEHIND)) + FAR_POSITIONS:
        if position < len(ways):
            answers.add(1, *ways[position])
        else:
            answers.add(0)
    positions = {byte: position for position, (byte, _, _) in enumerate(ways)}
    for byte in range(256):
        if byte in positions:
            answers.add(1, positions[byte])
        else:
            answers.add(0)
    return answers


NO_NODE = answers_at(None, [])


class Asked:
    def __init__(self, names):
        self.list, self.names = List(names), names
        self.nodes = self.finals = self.transitions = 0
        self.answers = Answers()
        longest = max(len(name) for name in names)
        for word in (len(names), 0, 0):
            self.answers.add(word)
        for i in range(len(names) + 1):
            self.name(i)
            for d in list(range(min(longest + 1, 254) + 1)) + [255]:
                self.at(256 * i + d)
        for node in FAR_NODES:
            self.at(node)
        self.name(2**64 - 1)

    def name(self, i):
        if i < len(self.names):
            self.answers.add(1, len(self.names[i]), *self.names[i])
        else:
            self.answers.add(0)

    def at(self, node):
        if node not in self.list.nodes:
            self.answers.part(NO_NODE)
            return
        final_output, ways = self.list.nodes[node]
        self.nodes += 1
        self.finals += final_output is not None
        self.transitions += len(ways)
        self.answers.part(answers_at(final_output, ways))

    def line(self, title):
        found = f"nodes {self.nodes}, final {self.finals}, transitions {self.transitions}"
        answers = f"answers {self.answers.count}: {self.answers.value:016x}"
        return f"{title}: names {len(self.names)}, {found}, {answers}, given back\n"


# the lists


class Chance:
    def __init__(self, seed):
        self.chance = random.Random(seed)

    def below(self, end):
        # not randrange: what that one draws may change with Python's version
        return int(self.chance.random() * end)

    def one(self, items):
        return items[self.below(len(items))]

    def word(self, letters, least, most):
        return bytes(self.one(letters) for _ in range(least + self.below(most - least + 1)))

    def letters(self, count):
        """So many bytes, rising."""
        drawn = set()
        while len(drawn) < count:
            drawn.add(self.below(256))
        return sorted(drawn)


CHANCE = Chance(4)
ALL_BYTES = range(256)
WIDTHS = [1, 2, 3, 15, 16, 17, 18, 31, 32, 33, 34, 40, 48, 49, 64, 65]


def rising(names):
    return sorted(set(names))


def group(front, size):
    """So many names that begin with `front`, which is one of them or not, some of them beneath one another."""
    names = {front} if CHANCE.below(2) or size == 1 else set()
    while len(names) < size:
        names.add(CHANCE.one([front, front, *sorted(names)]) + bytes([CHANCE.below(256)]))
    return names


def wide(front, sizes, letters=None):
    """A node with as many transitions as there are sizes, and so many names behind each."""
    names = set()
    for letter, size in zip(letters or CHANCE.letters(len(sizes)), sizes):
        names |= group(front + bytes([letter]), size)
    return names


def mixed(width):
    return [CHANCE.one([1, 1, 1, 2, 3, 7]) for _ in range(width)]


SHAPES = {
    "one name each": lambda width: [1] * width,
    "two names each": lambda width: [2] * width,
    "three names each": lambda width: [3] * width,
    "groups of mixed sizes": mixed,
    "a large first group": lambda width: [12] + [1] * (width - 1),
    "a small first group": lambda width: [1] + [2] * (width - 1),
    "a large second group": lambda width: ([1, 12] + [1] * width)[:width],
}


def settled():
    """Small lists, the example of docs/FORMATS.md first."""
    yield [b"", b"a", b"ab", b"b"]
    yield [b""]
    yield [b"a"]
    yield [b"\x00"]
    yield [b"\xff"]
    yield [b"", b"\x00"]
    yield [b"\x00", b"\x00\x00", b"\x00\xff", b"\xff", b"\xff\x00", b"\xff\xff"]
    yield [b"a", b"aaa", b"aab", b"ab", b"abab", b"abba", b"b", b"baba", b"bb"]
    yield [b"aaaa", b"aaab", b"aabb", b"abbb", b"bbbb"]
    yield [b"abc", b"abd", b"b"]


def wide_lists():
    for width in WIDTHS:
        yield f"{width} transitions at the root", wide(b"", [1] * width)
        yield f"{width} transitions at the root, which is final", {b""} | wide(b"", [1] * width)
    for title, sizes in SHAPES.items():
        letters = CHANCE.letters(len(WIDTHS))
        names = set()
        for letter, width in zip(letters, WIDTHS):
            front = bytes([letter])
            names |= wide(front, sizes(width)) | ({front} if CHANCE.below(2) else set())
        yield f"nodes of all widths, {title}", names
    yield "255 transitions, one name each", wide(b"", [1] * 255)
    yield "256 transitions, one name each", wide(b"", [1] * 256)
    yield "256 transitions at a final root, one name each", {b""} | wide(b"", [1] * 256)
    yield "255 transitions between others, one name each", {b"a", b"c"} | wide(b"b", [1] * 255)
    yield "256 transitions between others, one name each", {b"a", b"b", b"c"} | wide(b"b", [1] * 256)
    yield "256 transitions, groups of mixed sizes", wide(b"", mixed(256))
    yield "256 transitions, a large first group", wide(b"", [20] + [1] * 255)
    yield "255 transitions, a small first group", wide(b"", [1] + [2] * 254)
    names = set()
    for depth in range(8):
        names |= wide(b"mnopqrst"[:depth], mixed(CHANCE.one([17, 18, 33, 40])))
    yield "wide nodes beneath wide nodes", names
    names = set()
    for letter in CHANCE.letters(40):
        for second in CHANCE.letters(CHANCE.one([1, 1, 2])):
            names |= {bytes((letter, second, third)) for third in ALL_BYTES}
        names |= wide(bytes([letter]), [1] * CHANCE.below(4))
    yield "groups of more than 256 names", names
    yield "65536 names, the most", {b"a" + bytes((b, c)) for b in ALL_BYTES for c in ALL_BYTES} - {b"a\xff\xff"} | {b"b"}


def ends(front, sides):
    """A first group of `front`, with so many groups on the way to its end at each depth, and some groups behind it."""
    names = set()
    for depth, side in enumerate(sides):
        inner = front + b"a" * (depth + 1)
        names |= {inner + bytes([98 + i]) for i in range(side)}
    return names | {front + b"a" * (len(sides) + 1)} | {front + bytes([98 + i]) for i in range(3)}


def long_lists():
    names = set()
    for width in range(61, 69):
        names |= ends(bytes([width]), [width])
    yield "first groups of 61 to 68 inner groups", names
    names = set()
    for front, sides in enumerate([[40, 40], [33, 0, 33], [12] * 6, [5, 0, 70, 3], [8] * 9, [4] * 20, [2] * 33, [1] * 70]):
        names |= ends(b"b%d" % front, sides)
    yield "first groups with inner groups at several depths", names
    yield "two wide levels beneath a first group", {b"a" + bytes((b, c)) for b in range(80, 98) for c in range(90, 110)} | {b"b"}
    first = wide(b"aa", [2] * 70) | wide(b"ab", [1] * 70)
    yield "long first groups beneath one another", first | wide(b"b", [3, 70, 70]) | {b"c"} | wide(b"ca", [1] * 66)
    comb = {b"a" * k + b"b" for k in range(255)} | {b"a" * k for k in range(256)}
    yield "all prefixes of a name of 255 bytes, each with a branch", comb
    yield "branches at all depths, no name a prefix of another", {b"a" * k + b"b" for k in range(0, 200)}


def strings(letters, most):
    """All strings of at most so many letters, the empty one too."""
    names = last = {b""}
    for _ in range(most):
        last = {name + bytes([letter]) for name in last for letter in letters}
        names = names | last
    return names


def prefix_lists():
    for letters, most in ((b"\x00\xff", 6), (b"abc", 4), (ALL_BYTES[:16], 2), (ALL_BYTES[-17:], 2), (ALL_BYTES[65:98], 2)):
        names = strings(letters, most)
        yield f"all strings of up to {most} of {len(letters)} bytes", names
        if len(names) < 400:
            yield f"all strings of 1 to {most} of {len(letters)} bytes", names - {b""}
            yield f"some strings of up to {most} of {len(letters)} bytes", {name for name in sorted(names) if CHANCE.below(3)}
    yield "all prefixes of a name of 255 bytes", {b"\xff" * k for k in range(256)}
    yield "all but the empty prefix of a name of 255 bytes", {b"\x00" * k for k in range(1, 256)}
    yield "a node with 40 transitions to names of 255 bytes", wide(b"z" * 254, [1] * 40)
    ways = {front + b"z" * 252 + bytes([byte]) for front in (b"ab", b"ac", b"bb") for byte in range(0, 256, 15)}
    yield "names of 254 and 255 bytes", ways | {b"ab" + b"z" * 252, b"b", b"bb" + b"z" * 251}


def drawn(letters, count, most):
    return {CHANCE.word(letters, 0, most) for _ in range(count)}


def grown(letters, count, most):
    """Names, each drawn by cutting another and lengthening it."""
    names = [b""]
    for _ in range(count):
        name = CHANCE.one(names)
        name = name[: CHANCE.below(len(name) + 1)] if CHANCE.below(2) else name
        names.append((name + CHANCE.word(letters, 1, 3))[:most])
    return names[1:]


def drawn_lists():
    for letters in (b"ab", b"abc", b"abcd", b"\x00\x01\xfe\xff"):
        yield f"drawn from {len(letters)} letters, names of up to 12 bytes", drawn(letters, 220, 12)
        yield f"drawn from {len(letters)} letters, names of up to 6 bytes", drawn(letters, 400, 6)
        yield f"grown by {len(letters)} letters", grown(letters, 350, 12)
    for most in (2, 3):
        yield f"drawn from all bytes, names of up to {most}", drawn(ALL_BYTES, 500, most)
    yield "grown by all bytes", grown(ALL_BYTES, 350, 12)
    yield "drawn from 20 letters, names of up to 3 bytes", {CHANCE.word(ALL_BYTES[50:70], 1, 3) for _ in range(600)}


def lists():
    for number, names in enumerate(settled(), 1):
        yield f"settled {number}", names
    for some in (wide_lists(), long_lists(), prefix_lists(), drawn_lists()):
        for title, names in some:
            yield title, rising(names)


def written(name):
    """Bytes in hex, in parts between `_`, each with `*` and a number where it is repeated; parts may be empty."""
    parts, at = [""], 0
    while at < len(name):
        rest = name[at:]
        run = len(rest) - len(rest.lstrip(rest[:1]))
        if run > 4:
            parts += [f"{name[at]:02x}*{run}", ""]
        else:
            parts[-1] += rest[:run].hex()
        at += run
    text = "_".join(part for part in parts if part)
    # no lone byte: two digits by themselves read like a number
    return text if len(text) > 2 else text + "_"


def lines(names):
    """A line for each name, and one with `?` for 256 names of which each has another last byte."""
    at = 0
    while at < len(names):
        front = names[at][:-1]
        if names[at : at + 256] == [front + bytes([byte]) for byte in ALL_BYTES]:
            yield written(front) + "?"
            at += 256
        else:
            yield written(names[at])
            at += 1


def main():
    with open("crates/list_questions/stdin", "w") as asked, open("crates/list_questions/stdout", "w") as answered:
        for title, names in lists():
            asked.write(f"> {title}\n" + "".join(line + "\n" for line in lines(names)) + "\n")
            answered.write(Asked(names).line(title))


if __name__ == "__main__":
    main()
