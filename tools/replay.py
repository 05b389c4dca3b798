#!/usr/bin/env python3
"""Writes the input and the expected account of crates/replay (its files stdin and stdout).

The cases and their answers, and what filters answer at single states, come from recorded/, the answers of the original. This
script writes each case's graph as a catalogue, by docs/FORMATS.md, and as names where a list of them has the same totals,
and each filter word by word. Which cases are to differ by the rule of the empty key it works out from the meaning of filters
(docs/SEARCH.md), and how often areas grow by the model of the search in search_model.py, which has to list what the original
lists. It shares no code with the crates. Run from the repository's root.
"""
import re

from catalogue_model import export, keys_below
import search_model as model

RECORDS = ["recorded/settled.txt", "recorded/listing.txt", "recorded/searches.txt", "recorded/drawn.txt"]


def unhex(text):
    return b"" if text == "_" else bytes.fromhex(text)


def to_hex(data):
    return data.hex() or "_"


# a node is its final output or None, and its transitions: byte, target, output; the root is the last node


def trie(names, share):
    """The nodes of a trie, each after those that it leads to; share is what the keys after a transition give it."""
    nodes = []

    def node(part, depth, carried):
        final = None
        if part and len(part[0][0]) == depth:
            final = part[0][1] - carried
            part = part[1:]
        transitions = []
        while part:
            byte = part[0][0][depth]
            group = [name for name in part if name[0][depth] == byte]
            part = part[len(group) :]
            total = share(group, carried)
            transitions.append((byte, node(group, depth + 1, total), total - carried))
        nodes.append((final, transitions))
        return len(nodes) - 1

    node(names, 0, 0)
    return nodes


def least(group, carried):
    """As much as all keys share: so the original's builder has it."""
    return min(total for _, total in group)


def nothing(group, carried):
    """Nothing: so a list has it."""
    return carried


def read_names(text):
    if text == "-":
        return []
    return [(unhex(name), int(total)) for name, total in (part.split("=") for part in text.split(","))]


def read_table(text):
    nodes = []
    for node in text.split(";"):
        final, *transitions = node.split("/")
        parts = [re.fullmatch(r"(..)>(\d+)\+(\d+)", transition).groups() for transition in transitions]
        nodes.append((None if final == "N" else int(final[1:]), [(int(b, 16), int(t), int(o)) for b, t, o in parts]))
    return nodes


def is_numbered(names):
    return names != [] and [total for _, total in names] == list(range(len(names)))


def packed(data):
    """Hex in parts between `_`, zeros in a row as `00*` and their number."""
    parts = re.findall(rb"\0{2,}|(?:(?!\0\0).)+", data, re.S)
    return "_".join(f"00*{len(part)}" if part[:2] == b"\0\0" else part.hex() for part in parts)


def graph_of(verb, text):
    """The nodes, and the names if a list of them answers the same: with rows, only if it also has the same outputs."""
    if verb in ("search", "rows"):
        names = read_names(text)
        nodes = trie(names, least)
    else:
        nodes = read_table(text)
        names = list(keys_below(nodes, len(nodes) - 1, b"", 0)) if len(nodes) < 1000 else []
    if is_numbered(names) and (verb == "search" or nodes == trie(names, nothing)):
        return nodes, [name for name, _ in names]
    return nodes, None


# a filter is its kind, and its bytes or the filters that it holds


def read_filter(text):
    kind, rest = re.match(r"(\w+)(.*)", text).groups()
    if kind in ("str", "sub"):
        data, rest = re.match(r":(\w+)(.*)", rest).groups()
        return (kind, unhex(data)), rest
    held = []
    while kind != "all" and rest[0] != ")":
        inner, rest = read_filter(rest[1:])
        held.append(inner)
    return (kind, *held), rest if kind == "all" else rest[1:]


def words(term):
    kind, *held = term
    if kind in ("str", "sub"):
        return f"{kind}:{to_hex(held[0])}"
    return " ".join([kind] + [words(inner) for inner in held])


def matches(term, key):
    """Whether the filter matches the key, its end state not asked."""
    kind, *held = term
    if kind == "str":
        return key == held[0]
    if kind == "sub":
        rest = iter(key)
        return all(byte in rest for byte in held[0])
    if kind == "all":
        return True
    if kind == "sw":
        return any(matches(held[0], key[:end]) for end in range(len(key) + 1))
    if kind == "or":
        return any(matches(inner, key) for inner in held)
    if kind == "and":
        return all(matches(inner, key) for inner in held)
    if kind == "not":
        return not matches(held[0], key)
    return matches(held[0], key)


def accepts(term, key):
    return matches(term[1], key + b"/") if term[0] == "closed" else matches(term, key)


def read_bounds(bounds):
    """The last lower and the last upper bound, each with its bytes."""
    sides = {"g": None, "l": None}
    for bound in bounds.split(",") if bounds != "-" else []:
        kind, data = bound.split(":")
        sides[kind[0]] = (kind, unhex(data))
    return sides["g"], sides["l"]


def lets_empty_key_in(bounds):
    lower, upper = read_bounds(bounds)
    return lower in (None, ("ge", b"")) and upper != ("lt", b"")


def differs_by_rule(nodes, bounds, term):
    """The original asks for no end state of the empty key: here that changes the verdict, and the key is due."""
    return nodes[-1][0] is not None and lets_empty_key_in(bounds) and matches(term, b"") != accepts(term, b"")


# how areas of one row and no byte grow, by the model of the search


def model_filter(term):
    kind, *held = term
    if kind == "all":
        return model.AlwaysMatch()
    if kind in ("str", "sub"):
        return (model.Str if kind == "str" else model.Subsequence)(held[0])
    inner = [model_filter(filter) for filter in held]
    if kind in ("or", "and"):
        return model.Pair(any if kind == "or" else all, *inner)
    return {"sw": model.StartsWith, "not": model.Complement, "closed": model.Closed}[kind](*inner)


def model_graph(nodes):
    ways = [(final, [(byte, output, target) for byte, target, output in steps]) for final, steps in nodes]
    return model.Graph(len(nodes) - 1, dict(enumerate(ways)))


def listed_while_growing(nodes, bounds, term):
    """The keys with their totals, and how many rows and bytes were added for them."""
    graph, filter, (lower, upper) = model_graph(nodes), model_filter(term), read_bounds(bounds)
    rows, area, listed = [None], [], []

    def grown(call):
        while True:
            try:
                return call()
            except model.Refused as refused:
                {14: rows, 15: area}[refused.number].append(0)

    search = grown(lambda: model.Search(graph, filter, lower, upper, rows, area))
    while (item := grown(lambda: search.next(rows, area))) is not None:
        listed.append((bytes(search.key(rows, area)), item[1]))
    return listed, len(rows) - 1, len(area)


def recorded_keys(answers):
    lines = [line.removeprefix("next ").split(" ") for line in answers if line[:4] not in ("open", "end ")]
    return [(unhex(line[0]), int(line[1])) for line in lines if line[0] != "end"]


def cases():
    """The lines of each case, and its parts."""
    for path in RECORDS:
        lines = []
        for line in open(path):
            lines.append(line)
            if line.startswith("end "):
                yield lines[0][2:-1].split(" "), lines[1:]
                lines = []
        assert lines == [], path


def questions():
    """The keys, and for each filter its marks and its text."""
    keys, *lines = open("recorded/answers.txt").read().splitlines()
    return keys, [line.split(" ") for line in lines]


COMPARED = """\
compared: the key, the total and the state of each answer, the end, two calls after it, and the count
compared where the record has rows, after the opening and after each answer: the depth, the key bytes, a waiting total,
  and the position, the total and the state of each row
the depth is seen by the fewest rows that `key` takes, a waiting total by a second search without an upper bound
not compared: the nodes of rows, which the record does not have
each case runs with 256 rows and 255 bytes, and again with one row and no byte, to which each 14 adds a row and each 15 a byte
"""


def write_part(file, title, number, with_rows, by_rule, rows_added, bytes_added):
    file.write(f"{title}: {number} cases, {with_rows} with rows\n  {number - by_rule} agree\n")
    file.write(f"  {by_rule} differ by the rule of the empty key\n  0 unexplained\n")
    file.write(f"  refused and tried again: 14 {rows_added}, 15 {bytes_added}\n")


def main():
    # cases, those with rows, those that differ by the rule, rows and bytes added
    counts = {"catalogue": [0] * 5, "list": [0] * 5}
    with open("crates/replay/stdin", "w") as file:
        for (verb, graph, bounds, filter_text), answers in cases():
            nodes, names = graph_of(verb, graph)
            term, rest = read_filter(filter_text)
            assert rest == ""
            kind = "rows" if verb in ("rows", "trows") else "search"
            listed = "-" if names is None else ",".join(to_hex(name) for name in names)
            file.write(f"> {kind} {packed(export(nodes))} {listed} {bounds} {words(term)}\n")
            file.writelines(answers)
            by_rule = differs_by_rule(nodes, bounds, term)
            keys, *added = listed_while_growing(nodes, bounds, term)
            assert by_rule or keys == recorded_keys(answers)
            # a list has the paths of the catalogue, so its areas grow alike
            for graph_kind in ["catalogue"] + ["list"] * (names is not None):
                parts = [1, kind == "rows", by_rule, *added]
                counts[graph_kind] = [count + part for count, part in zip(counts[graph_kind], parts)]
        keys, asked = questions()
        for marks, filter_text in asked:
            file.write(f"? {keys} {marks} {words(read_filter(filter_text)[0])}\n")
    with open("crates/replay/stdout", "w") as file:
        file.write(COMPARED)
        for graph_kind, (*parts, rows_added, bytes_added) in counts.items():
            write_part(file, f"through a {graph_kind}", *parts, 0, 0)
            write_part(file, f"through a {graph_kind}, areas growing", *parts, rows_added, bytes_added)
        file.write(f"filters asked whether states match, can match, always will\n  {len(asked)} agree\n  0 unexplained\n")
        file.write("unexplained 0\n")


if __name__ == "__main__":
    main()
