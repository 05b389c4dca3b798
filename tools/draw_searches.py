#!/usr/bin/env python3
"""Draws cases for the original, in the notation of recorded/README.md: the cases of recorded/drawn.txt, without answers.

Filters up to three deep over names and tables, most of them with rows, most of the tables as a list has them: no output but
the final ones, and each name's number as its final output. Run from the repository's root; each run draws the same.
"""
import random

from replay import matches, nothing, read_filter, to_hex, trie

draw = random.Random(20261127)
BYTES = [b"\x00", b"/", b"a", b"b", b"\xff"]


def some_bytes(least, most):
    return b"".join(draw.choice(BYTES) for _ in range(draw.randint(least, most)))


def some_names(count, longest):
    return sorted({some_bytes(0, longest) for _ in range(count)})


def some_filter(depth):
    """A filter exactly so deep."""
    if depth == 0:
        return draw.choice([f"str:{to_hex(some_bytes(0, 3))}", f"sub:{to_hex(some_bytes(0, 2))}", "all"])
    kind = draw.choice(["sw", "or", "and", "not", "closed"])
    inner = some_filter(depth - 1)
    if kind not in ("or", "and"):
        return f"{kind}({inner})"
    other = some_filter(draw.randint(0, depth - 1))
    return f"{kind}({inner},{other})" if draw.random() < 0.5 else f"{kind}({other},{inner})"


def some_bounds(names):
    """Up to three bounds, at names, beside them and elsewhere."""
    bounds = []
    for _ in range(draw.choice([0, 1, 1, 1, 2, 2, 3])):
        near = draw.choice(names) if draw.random() < 0.7 else some_bytes(0, 3)
        key = draw.choice([near, near[:-1], near + draw.choice(BYTES)])
        bounds.append(draw.choice(["ge", "gt", "le", "lt"]) + ":" + to_hex(key))
    return ",".join(bounds) or "-"


def table(nodes):
    def node(final, transitions):
        steps = "".join(f"/{byte:02x}>{target}+{output}" for byte, target, output in transitions)
        return ("N" if final is None else f"F{final}") + steps

    return ";".join(node(*parts) for parts in nodes)


def as_list(names):
    return table(trie([(name, number) for number, name in enumerate(names)], nothing))


def with_totals(names):
    top = draw.choice([10, 2**32, 2**64 - 1])
    return ",".join(f"{to_hex(name)}={draw.randint(0, top)}" for name in names)


def numbered(names):
    return ",".join(f"{to_hex(name)}={number}" for number, name in enumerate(names))


def case(verb, graph, bounds, term):
    print(verb, graph, bounds, term)


# lists with their rows, filters of each depth and most of them three deep
for number in range(300):
    names = some_names(draw.randint(1, 12), 4)
    case("trows", as_list(names), some_bounds(names), some_filter([1, 2, 3, 3, 3][number % 5]))

# names with any totals and their rows
for _ in range(120):
    names = some_names(draw.randint(1, 12), 4)
    case("rows", with_totals(names), some_bounds(names), some_filter(3))

# the empty key under filters that give an end state, through a list and through a catalogue with other totals; the end state
# changes the verdict in most of them
for number in range(80):
    names = [b""] + [name for name in some_names(draw.randint(1, 6), 3) if name]
    bounds = draw.choice(["-", "-", "ge:_", "le:61", "lt:6162", "le:_", "gt:_", "lt:_", "ge:_,le:ff", "gt:61,ge:_"])
    inner = some_filter(number % 3)
    while number % 5 and (matches(read_filter(inner)[0], b"") == matches(read_filter(inner)[0], b"/")):
        inner = some_filter(number % 3)
    graph = ("trows", as_list(names)) if number % 2 else ("rows", with_totals(names))
    case(*graph, bounds, f"closed({inner})")

# every byte behind another, and names of 255 bytes
every = [b"a" + bytes([byte]) for byte in range(256)]
long = sorted([b"a" * 255, b"a" * 254 + b"b", b"a" * 100, b"\x00" * 255, b"\xff" * 255, b"/" * 255, b""])
for names in (every, long):
    for bounds, term in (
        ("ge:" + to_hex(names[0]), "all"),
        ("gt:" + to_hex(names[3]), "not(sub:61)"),
        ("le:" + to_hex(names[-2]), "closed(str:2f2f)"),
        ("lt:" + to_hex(names[-1]), "sw(str:61)"),
        ("ge:" + to_hex(b"a" * 254), "and(not(str:61),sub:61)"),
    ):
        case("search", numbered(names), bounds, term)
case("trows", as_list(long), "gt:" + to_hex(b"a" * 100), "sub:62")
case("rows", with_totals(long), "-", "sw(sub:2f2f)")
