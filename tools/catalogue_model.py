#!/usr/bin/env python3
"""What the program `opening` has to print, computed from the rules of the catalogue's format alone.

It shares no code with the crates: it writes the good files by an exporter of its own, damages them
as the program does, and judges each file by the rules. Run from the repository's root:

    tools/catalogue_model.py > crates/opening/stdout
"""
import struct

LARGEST = 2**64 - 1
VALUES = [0x00, 0x01, 0x02, 0x62, 0xFF]
TWOS = [
    (0, 0, 4, 0),
    (4, 37, 10, 2),
    (10, 2, 20, 37),
    (10, 2, 24, 3),
    (20, 37, 24, 3),
    (11, 1, 12, 0),
    (24, 3, 25, 1),
    (49, 97, 50, 1),
    (37, 1, 49, 97),
    (36, 99, 37, 1),
    (19, 255, 48, 255),
]
counts = [0] * 9


class Refused(Exception):
    """A refusal by its number and the node that it carries."""

    def __init__(self, number, node):
        super().__init__(number, node)
        self.number = number
        self.node = node


def number_at(file, place, width):
    return int.from_bytes(file[place : place + width], "little")


def parse(file):
    """The nodes of a file: for each its final output or None, and its transitions. Or its first refusal."""
    if len(file) < 4:
        raise Refused(1, 0)
    total = number_at(file, 0, 4)
    if not 1 <= total <= 65535:
        raise Refused(2, 0)
    if len(file) < 4 + 16 * total:
        raise Refused(3, 0)
    nodes = []
    expected = 4 + 16 * total
    for node in range(total):
        entry = file[4 + 16 * node : 20 + 16 * node]
        place, count, flag, padding, final_output = struct.unpack("<IHBBQ", entry)
        if place != expected:
            raise Refused(4, node)
        if count > 256 or flag not in (0, 1) or padding or (not flag and final_output):
            raise Refused(5, node)
        expected = place + 13 * count
        if expected > len(file):
            raise Refused(6, node)
        transitions = []
        for at in range(place, expected, 13):
            byte, target, output = struct.unpack("<BIQ", file[at : at + 13])
            if transitions and byte <= transitions[-1][0]:
                raise Refused(7, node)
            if target >= node:
                raise Refused(8, node)
            transitions.append((byte, target, output))
        nodes.append((final_output if flag else None, transitions))
    return nodes


def keys_below(nodes, node, key, total):
    final_output, transitions = nodes[node]
    if final_output is not None:
        yield key, total + final_output
    for byte, target, output in transitions:
        yield from keys_below(nodes, target, key + bytes([byte]), total + output)


def account(file):
    try:
        nodes = parse(bytes(file))
    except Refused as refused:
        counts[refused.number] += 1
        return f"refused {refused.number} node {refused.node}"
    counts[0] += 1
    words = ["accepted"]
    for key, total in keys_below(nodes, len(nodes) - 1, b"", 0):
        words.append(f"<{key.hex()}>={total if total <= LARGEST else 'above'}")
    return " ".join(words)


def export(nodes):
    """A file of nodes given as (final output or None, transitions)."""
    file = bytearray(struct.pack("<I", len(nodes)))
    place = 4 + 16 * len(nodes)
    for final_output, transitions in nodes:
        file += struct.pack("<IHBBQ", place, len(transitions), final_output is not None, 0, final_output or 0)
        place += 13 * len(transitions)
    for _, transitions in nodes:
        for byte, target, output in transitions:
            file += struct.pack("<BIQ", byte, target, output)
    return bytes(file)


def whole(name, file):
    print(name, file.hex())
    print(account(file))


def questions(name, file):
    nodes = parse(file)
    print(name, "has the root", len(nodes) - 1)
    for node in (0, 1, 2, 3, 2**32 - 1):
        final_output, transitions = nodes[node] if node < len(nodes) else (None, [])
        line = f"node {node}: {len(transitions)} transitions"
        if final_output is not None:
            line += f", final with {final_output}"
        for position, (byte, _, _) in enumerate(transitions):
            line += f", {byte:02x} at {position}"
        print(line)
    print(f"{name} gives its bytes back")


def cuts(name, file):
    print(name, "cut off")
    for length in range(len(file)):
        print(f"{length} bytes: {account(file[:length])}")


def changes(name, file):
    print(name, "with one byte changed")
    for at in range(len(file)):
        line = f"{at}:"
        for value in VALUES:
            damaged = bytearray(file)
            damaged[at] = value
            line += f" {value:02x} {account(damaged)};"
        print(line)


def double_changes(name, file):
    print(name, "with two bytes changed")
    for at, value, other, second in TWOS:
        damaged = bytearray(file)
        damaged[at] = value
        damaged[other] = second
        print(f"{at} {value:02x} and {other} {second:02x}: {account(damaged)}")


def limits():
    print("limits")
    for total in (1, 65535, 65536):
        print(f"{total} nodes: {account(export([(None, [])] * total))}")
    for count in (255, 256, 257):
        transitions = [(byte % 256, 0, 0) for byte in range(count)]
        print(f"{count} transitions: {account(export([(None, []), (None, transitions)]))}")


def main():
    leaf = export([(7, [])])
    pair = export([(5, []), (None, [(97, 0, 7), (98, 0, 513)])])
    fork = export([(0, []), (3, [(98, 0, 20)]), (2, [(97, 0, 100), (98, 1, 200)])]) + b"zz"
    for name, file in (("leaf", leaf), ("pair", pair), ("fork", fork)):
        whole(name, file)
    questions("fork", fork)
    for name, file in (("leaf", leaf), ("pair", pair), ("fork", fork)):
        cuts(name, file)
    changes("pair", pair)
    changes("fork", fork)
    double_changes("pair", pair)
    limits()
    print(f"accepted {counts[0]} times")
    for number in range(1, 9):
        print(f"refused by {number} {counts[number]} times")


if __name__ == "__main__":
    main()
