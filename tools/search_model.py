#!/usr/bin/env python3
"""What the program `hostile` has to print, computed by a model of the search that follows docs/SEARCH.md.

It shares no code with the crates. The graphs are given by their keys' paths, the filters by their questions, and the search
by its steps; what is drawn at random is drawn as the program draws it. Run from the repository's root:

    tools/search_model.py > crates/hostile/stdout
"""

WORD = 2**64 - 1
ROUNDS = 40_000
SEED = 0x9E3779B97F4A7C15
LETTERS = b"abababc/"


class Refused(Exception):
    """A refusal by its number."""

    def __init__(self, number):
        super().__init__(number)
        self.number = number


# graphs: a root, a first total, and for each node its final output or None and its transitions


class Graph:
    def __init__(self, root, nodes, first_total=0):
        self.root, self.nodes, self.first_total = root, nodes, first_total

    def transitions(self, node):
        return self.nodes.get(node, (None, []))[1]

    def final_output(self, node):
        return self.nodes.get(node, (None, []))[0]


def list_of(names):
    """A node for each prefix: 256 times the number of the lowest name that begins with it, and its length."""
    lowest = {}
    for i, name in enumerate(names):
        for d in range(len(name) + 1):
            lowest.setdefault(name[:d], i)
    number = {prefix: 256 * i + len(prefix) for prefix, i in lowest.items()}
    nodes = {}
    for prefix, node in number.items():
        longer = sorted(p for p in number if len(p) == len(prefix) + 1 and p.startswith(prefix))
        final = names.index(prefix) if prefix in names else None
        nodes[node] = (final, [(p[-1], 0, number[p]) for p in longer])
    return Graph(0, nodes)


A, B, C = b"abc"
FORK = {0: (0, []), 1: (3, [(B, 20, 0)]), 2: (2, [(A, 100, 0), (B, 200, 1)])}
LARGE = {
    0: (1, []),
    1: (2**63, [(A, 2**63, 0), (B, 5, 0)]),
    2: (None, [(A, 3, 1), (B, 2**63, 1)]),
    3: (0, [(A, 7, 2), (B, WORD, 0), (C, 0, 1)]),
}
GRAPHS = [
    list_of([b"", b"a", b"ab", b"b"]),
    list_of([b"a", b"aaa", b"aab", b"ab", b"abab", b"abba", b"b", b"baba", b"bb"]),
    Graph(2, FORK, WORD - 150),
    Graph(2, FORK),
    Graph(3, LARGE),
]


# filters: their questions, how a state is drawn, and the words of a state in a digest


class AlwaysMatch:
    start = ()

    def is_match(self, s):
        return True

    def can_match(self, s):
        return True

    def will_always_match(self, s):
        return True

    def accept(self, s, b):
        return ()

    def end_state(self, s):
        return None

    def draw(self, dice):
        return ()

    def words(self, s):
        return [0]


class Str:
    """The state is ("at", position), or "lost"."""

    start = ("at", 0)

    def __init__(self, t):
        self.t = t

    def is_match(self, s):
        return s == ("at", len(self.t))

    def can_match(self, s):
        return s != "lost"

    def will_always_match(self, s):
        return False

    def accept(self, s, b):
        if s != "lost" and s[1] < len(self.t) and self.t[s[1]] == b:
            return ("at", s[1] + 1)
        return "lost"

    def end_state(self, s):
        return None

    def draw(self, dice):
        return "lost" if dice.once_in(4) else ("at", dice.number())

    def words(self, s):
        return [1] if s == "lost" else [2, s[1]]


class Subsequence:
    start = 0

    def __init__(self, t):
        self.t = t

    def is_match(self, s):
        return s == len(self.t)

    def can_match(self, s):
        return True

    def will_always_match(self, s):
        return s == len(self.t)

    def accept(self, s, b):
        return s + 1 if s < len(self.t) and self.t[s] == b else s

    def end_state(self, s):
        return None

    def draw(self, dice):
        return dice.number()

    def words(self, s):
        return [s]


class StartsWith:
    """The state is ("running", inner state), or "done"."""

    def __init__(self, f):
        self.f = f
        self.start = self.after(f.start)

    def after(self, s):
        return "done" if self.f.is_match(s) else ("running", s)

    def is_match(self, s):
        return s == "done"

    def can_match(self, s):
        return s == "done" or self.f.can_match(s[1])

    def will_always_match(self, s):
        return s == "done"

    def accept(self, s, b):
        return "done" if s == "done" else self.after(self.f.accept(s[1], b))

    def end_state(self, s):
        return None

    def draw(self, dice):
        return "done" if dice.once_in(3) else ("running", self.f.draw(dice))

    def words(self, s):
        return [1] if s == "done" else [2] + self.f.words(s[1])


class Pair:
    def __init__(self, join, f, g):
        self.join, self.f, self.g = join, f, g
        self.start = (f.start, g.start)

    def is_match(self, s):
        return self.join([self.f.is_match(s[0]), self.g.is_match(s[1])])

    def can_match(self, s):
        return self.join([self.f.can_match(s[0]), self.g.can_match(s[1])])

    def will_always_match(self, s):
        return self.join([self.f.will_always_match(s[0]), self.g.will_always_match(s[1])])

    def accept(self, s, b):
        return (self.f.accept(s[0], b), self.g.accept(s[1], b))

    def end_state(self, s):
        return None

    def draw(self, dice):
        left = self.f.draw(dice)
        return (left, self.g.draw(dice))

    def words(self, s):
        return self.f.words(s[0]) + self.g.words(s[1])


class Complement:
    def __init__(self, f):
        self.f, self.start = f, f.start
        self.accept, self.draw, self.words = f.accept, f.draw, f.words

    def is_match(self, s):
        return not self.f.is_match(s)

    def can_match(self, s):
        return not self.f.will_always_match(s)

    def will_always_match(self, s):
        return not self.f.can_match(s)

    def end_state(self, s):
        return None


class Closed:
    def __init__(self, f):
        self.f, self.start = f, f.start
        self.accept, self.draw, self.words = f.accept, f.draw, f.words
        self.is_match, self.can_match, self.will_always_match = f.is_match, f.can_match, f.will_always_match

    def end_state(self, s):
        return ("end", self.f.accept(s, b"/"[0]))


FILTERS = [
    AlwaysMatch(),
    Str(b"ab"),
    Subsequence(b"bb"),
    StartsWith(Str(b"a")),
    Closed(Str(b"ab/")),
    Pair(any, Str(b"a"), Subsequence(b"bb")),
    Complement(Subsequence(b"bb")),
    Pair(all, Complement(Subsequence(b"bb")), Subsequence(b"a")),
]


def is_accepted(f, s):
    end = f.end_state(s)
    return f.is_match(s if end is None else end[1])


# the search; a row is [node, position, total, state]


class Search:
    def __init__(self, graph, filter, lower, upper, rows, area):
        self.graph, self.filter, self.upper = graph, filter, upper
        self.waiting, self.standing, self.count = None, False, 0
        bound = lower[1] if lower else b""
        if len(rows) < len(bound) + 1:
            raise Refused(14)
        if len(area) < len(bound):
            raise Refused(15)
        root = [graph.root, 0, graph.first_total, filter.start]
        if bound:
            self.depth = self.seek(root, lower[0] == "ge", bound, rows, area)
        else:
            self.depth = self.begin(root, not lower or lower[0] == "ge", rows)

    def begin(self, root, lets_in, rows):
        rows[0] = root
        output = self.graph.final_output(self.graph.root)
        if lets_in and output is not None:
            if root[2] + output > WORD:
                raise Refused(16)
            self.waiting = root[2] + output
        return 1

    def seek(self, row, included, bound, rows, area):
        """A row and a byte for each byte of the bound, as far as the graph has them."""
        for d, byte in enumerate(bound):
            node, _, total, state = row
            ways = self.graph.transitions(node)
            found = [p for p, way in enumerate(ways) if way[0] == byte]
            if not found:
                above = len([way for way in ways if way[0] < byte])
                rows[d] = [node, above, total, state]
                return d + 1
            _, output, target = ways[found[0]]
            if total + output > WORD:
                raise Refused(16)
            rows[d] = [node, found[0] + 1, total, state]
            area[d] = byte
            row = [target, 0, total + output, self.filter.accept(state, byte)]
        if included:
            rows[len(bound) - 1][1] -= 1
            return len(bound)
        rows[len(bound)] = row
        return len(bound) + 1

    def is_too_short(self, rows, area):
        return self.depth > len(rows) or max(self.depth - 1, 0) > len(area)

    def is_above(self, key):
        if not self.upper:
            return False
        kind, bound = self.upper
        return key > bound or (kind == "lt" and key == bound)

    def hand_out(self, length, total, state):
        self.standing = True
        self.count += 1
        return length, total, state

    def end(self):
        self.depth = 0
        return None

    def next(self, rows, area):
        self.standing = False
        if self.is_too_short(rows, area):
            raise Refused(13)
        if self.waiting is not None:
            total, self.waiting = self.waiting, None
            if self.is_above(b""):
                return self.end()
            if is_accepted(self.filter, self.filter.start):
                return self.hand_out(0, total, self.filter.start)
        while self.depth > 0:
            top = rows[self.depth - 1]
            ways = self.graph.transitions(top[0])
            if top[1] >= len(ways) or not self.filter.can_match(top[3]):
                self.depth -= 1
                continue
            row, key, due = self.beneath(top, ways[top[1]], rows, area)
            top[1] += 1
            rows[self.depth] = row
            area[self.depth - 1] = key[-1]
            self.depth += 1
            if self.is_above(key):
                return self.end()
            if due is not None:
                return self.hand_out(len(key), due, row[3])
        return None

    def beneath(self, top, way, rows, area):
        """The row beneath, its key, and the key's total if it is due; all refusals come before anything is written."""
        byte, output, target = way
        if len(rows) <= self.depth:
            raise Refused(14)
        if len(area) < self.depth:
            raise Refused(15)
        total = top[2] + output
        if total > WORD:
            raise Refused(16)
        state = self.filter.accept(top[3], byte)
        key = bytes(area[: self.depth - 1]) + bytes([byte])
        final_output = self.graph.final_output(target)
        due = None
        if not self.is_above(key) and final_output is not None and is_accepted(self.filter, state):
            due = total + final_output
            if due > WORD:
                raise Refused(16)
        return [target, 0, total, state], key, due

    def key(self, rows, area):
        if self.is_too_short(rows, area):
            raise Refused(13)
        if not self.standing:
            raise Refused(18)
        return area[: self.depth - 1]


# the run: what is drawn, called and counted


class Dice:
    def __init__(self):
        self.state = SEED

    def below(self, limit):
        x = self.state
        x ^= x << 13 & WORD
        x ^= x >> 7
        x ^= x << 17 & WORD
        self.state = x
        return (x >> 11) % limit

    def once_in(self, times):
        return self.below(times) == 0

    def number(self):
        small = self.below(5)
        return WORD - small if self.once_in(8) else small

    def byte(self):
        return LETTERS[self.below(8)]

    def bytes(self, limit):
        return [self.byte() for _ in range(self.below(limit))]


class Digest:
    def __init__(self):
        self.value = 0xCBF29CE484222325

    def put(self, words):
        for word in words:
            self.value = (self.value ^ word) * 0x100000001B3 & WORD


class Part(list):
    """The first items of an area, `length` of them, written through to the area."""

    def __init__(self, area, length):
        super().__init__(area[:length])
        self.area = area

    def __setitem__(self, at, value):
        super().__setitem__(at, value)
        self.area[at] = value


class Run:
    def __init__(self):
        self.dice = Dice()
        self.counts = {call: {} for call in ("open", "next", "key")}
        self.answers, self.areas = Digest(), Digest()

    def draw_node(self):
        dice = self.dice
        kind = dice.below(8)
        if kind == 0:
            return dice.below(2**32)
        if kind == 1:
            return 2**32 - 1 - dice.below(5)
        if kind <= 4:
            name = dice.below(10)
            return 256 * name + dice.below(5)
        return dice.below(6)

    def draw_row(self, filter):
        dice = self.dice
        node = self.draw_node()
        position = dice.number()
        total = dice.number()
        return [node, position, total, filter.draw(dice)]

    def draw_areas(self, filter):
        dice = self.dice
        count = 0 if dice.once_in(4) else 4
        rows = [self.draw_row(filter) for _ in range(dice.below(5) + count)]
        return rows, dice.bytes(3 if dice.once_in(4) else 9)

    def lengthen(self, filter, rows, area):
        for _ in range(6):
            rows.append(self.draw_row(filter))
            area.append(self.dice.byte())

    def damage(self, filter, rows, area):
        at = self.dice.below(6)
        row = self.draw_row(filter)
        if at < len(rows):
            rows[at] = row
        at = self.dice.below(6)
        byte = self.dice.byte()
        if at < len(area):
            area[at] = byte

    def draw_bounds(self):
        lower, upper = bytes(self.dice.bytes(6)), bytes(self.dice.bytes(4))
        low = [None, ("ge", lower), ("gt", lower)][self.dice.below(3)]
        up = {0: ("le", upper), 1: ("lt", upper)}.get(self.dice.below(8))
        return low, up

    def cut(self, length):
        return min(length, self.dice.below(8)) if self.dice.once_in(5) else length

    def answered(self, call, what, words):
        self.counts[call][what] = self.counts[call].get(what, 0) + 1
        self.answers.put(words)

    def left(self, filter, rows, area):
        digest = Digest()
        for node, position, total, state in rows:
            digest.put([node, position, total] + filter.words(state))
        digest.put(area)
        self.areas.put([digest.value])

    def round(self, graph, filter):
        rows, area = self.draw_areas(filter)
        bounds = self.draw_bounds()
        search = self.open(graph, filter, bounds, rows, area)
        if search is None:
            self.lengthen(filter, rows, area)
            search = self.open(graph, filter, bounds, rows, area)
        if search is not None:
            self.calls(search, filter, rows, area)

    def open(self, graph, filter, bounds, rows, area):
        try:
            search = Search(graph, filter, *bounds, rows, area)
            self.answered("open", "searches", [1])
        except Refused as refused:
            search = None
            self.answered("open", refused.number, [refused.number])
        self.left(filter, rows, area)
        return search

    def calls(self, search, filter, rows, area):
        for _ in range(self.dice.below(16)):
            if self.dice.once_in(2):
                self.damage(filter, rows, area)
            count = self.cut(len(rows))
            part, bytes_part = Part(rows, count), Part(area, self.cut(len(area)))
            ended = self.call(search, filter, part, bytes_part)
            self.left(filter, rows, area)
            if ended and self.dice.once_in(2):
                break

    def call(self, search, filter, rows, area):
        """A call of `next` or `key`, and whether the search has ended."""
        kind = self.dice.below(8)
        call = "key" if kind < 2 else "next"
        search.filter = Complement(filter) if kind == 2 else filter
        try:
            if call == "key":
                key = search.key(rows, area)
                self.answered(call, "keys", [4] + key)
            else:
                item = search.next(rows, area)
                if item is None:
                    self.answered(call, "ends", [3])
                else:
                    self.answered(call, "keys", [2, item[0], item[1]] + filter.words(item[2]))
        except Refused as refused:
            self.answered(call, refused.number, [refused.number])
        return search.depth == 0

    def print(self):
        for call, words in (("open", ["searches"]), ("next", ["keys", "ends"]), ("key", ["keys"])):
            counts = self.counts[call]
            line = ", ".join(f"{word} {counts.get(word, 0)}" for word in words)
            refusals = " ".join(f"{number}: {counts.get(number, 0)}" for number in range(13, 19))
            print(f"{call}: {line}, refused {refusals}")
        calls = sum(sum(counts.values()) for counts in self.counts.values())
        print(f"calls {calls}")
        print(f"answers and refusals together {calls}")
        print("unexplained 0")
        print(f"answers {self.answers.value:016x}")
        print(f"areas {self.areas.value:016x}")


def main():
    run = Run()
    for _ in range(ROUNDS):
        graph = GRAPHS[run.dice.below(5)]
        run.round(graph, FILTERS[run.dice.below(8)])
    run.print()


if __name__ == "__main__":
    main()
