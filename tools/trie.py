#!/usr/bin/env python3
"""Writes the catalogue of a list of names: its nodes are the prefixes of the names, and no two share one.

Name number i has the total i, counted from 0. Names are read a line each, in rising order, and the first of them are
taken, as many as a catalogue's nodes hold. The catalogue goes to standard output:

    tools/names.py | tools/trie.py > names.catalogue
"""
import sys

from catalogue_model import export

MOST_NODES = 65535


def shared(name, other):
    """How many first bytes two names have in common."""
    count = 0
    for byte, others in zip(name, other):
        if byte != others:
            break
        count += 1
    return count


def held(names, most=MOST_NODES):
    """The first of the names, as many as so many nodes hold: one node for each of their prefixes, the empty one among them."""
    before, count = b"", 1
    for i, name in enumerate(names):
        count += len(name) - shared(before, name)
        if count > most:
            return names[:i]
        before = name
    return names


def nodes_of(names):
    """The nodes, each as its final output or none, and its transitions; the children of a node stand before it.

    A transition's output is what the lowest total beneath it exceeds the lowest at its node by, so final outputs are 0.
    """
    nodes, open_nodes = [], [[0, None, []]]

    def close(depth, name):
        """Closes the nodes of the last name that are longer than so many bytes, the longest first."""
        while len(open_nodes) > depth + 1:
            least, final, transitions = open_nodes.pop()
            nodes.append((final, transitions))
            above = open_nodes[-1]
            above[2].append((name[len(open_nodes) - 1], len(nodes) - 1, least - above[0]))

    before = b""
    for total, name in enumerate(names):
        depth = shared(before, name)
        close(depth, before)
        for _ in name[depth:]:
            open_nodes.append([total, None, []])
        open_nodes[-1][1] = total - open_nodes[-1][0]
        before = name
    close(0, before)
    nodes.append((open_nodes[0][1], open_nodes[0][2]))
    return nodes


def catalogue(names):
    """The catalogue's bytes."""
    return export(nodes_of(names))


def main():
    sys.stdout.buffer.write(catalogue(held(sys.stdin.buffer.read().splitlines())))


if __name__ == "__main__":
    main()
