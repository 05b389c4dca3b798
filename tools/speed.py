#!/usr/bin/env python3
"""Measures the program `bench` beside the original crate: both built for release, on the same names, in turns.

The original is a folder with the package `fst`, version 0.4.7. Run from the repository's root:

    tools/speed.py ORIGINAL                 over 50,000 made-up names
    tools/speed.py ORIGINAL --names FILE    over the names of a file, a line each, in rising order
    tools/speed.py ORIGINAL --growth        over names that grow in number, length, parts, likeness and width
    tools/speed.py ORIGINAL --example       writes the input of crates/bench, and the original's answers to it

Each program is run several times, the two in turns, and times each search several times; the shortest time counts. A look
is one look at the top row of the stack; both programs take the same number of them, which is tested, as are the keys, their
lengths and their totals.
"""
import argparse
import dataclasses
import os
import pathlib
import subprocess
import tempfile

from names import beside, names, repeated, wide
from trie import MOST_NODES, catalogue, held

ROOT = pathlib.Path(__file__).resolve().parent.parent
CRATE = ROOT / "crates" / "bench"
SEARCHES = ["all", "prefix", "subsequence", "both", "openings"]
PACKAGE = """[package]
name = "original"
version = "0.1.0"
edition = "2021"

[dependencies]
fst = { path = "%s", features = ["levenshtein"] }

[profile.release]
codegen-units = 1
lto = true
"""


@dataclasses.dataclass
class Case:
    """A graph of names, and what is looked for in it."""

    kind: str
    names: list
    prefix: str = ""
    subsequence: str = ""
    openings: int = 500

    def task(self, rounds, graph):
        """A task of the programs. Openings are asked at missing names: some of the names, with one byte more."""
        lines = [b"%s %d %d" % (self.kind.encode(), rounds, len(graph))]
        lines += [b"P" + self.prefix.encode(), b"S" + self.subsequence.encode()]
        lines += [b"G%s!" % name for name in self.names[:: max(1, len(self.names) // self.openings)]]
        return b"\n".join(lines) + b"\n\n" + graph

    def tasks(self, rounds):
        """The task of `bench`, and that of the original, which has the names themselves."""
        text = b"".join(name + b"\n" for name in self.names)
        graph = catalogue(self.names) if self.kind == "catalogue" else text
        return self.task(rounds, graph), self.task(rounds, text)


def build_original(package, folder):
    """The program over the original crate, built in a folder."""
    (folder / "src").mkdir()
    (folder / "Cargo.toml").write_text(PACKAGE % package.resolve())
    source = ROOT / "tools" / "original" / "src" / "main.rs"
    (folder / "src" / "main.rs").write_bytes(source.read_bytes())
    # for the processors that rt builds programs for; the warnings are the original's own
    flags = {**os.environ, "RUSTFLAGS": "-C target-cpu=x86-64-v2 -A warnings"}
    subprocess.run(["cargo", "build", "--release", "--quiet"], cwd=folder, env=flags, check=True)
    return folder / "target" / "release" / "original"


def build_bench():
    """The program `bench`, proved and built as a program is that is handed out: by LLVM, optimized."""
    with open(CRATE / "stdin", "rb") as given:
        quiet = {"stdout": subprocess.DEVNULL, "stderr": subprocess.DEVNULL}
        subprocess.run(["rt", "run"], cwd=CRATE, stdin=given, check=True, **quiet)
    return CRATE / "out" / "bench"


def answers(program, given):
    """The lines of a program by their first word, each a dict of its numbers."""
    out = subprocess.run([program], input=given, check=True, capture_output=True).stdout.decode()
    table = {}
    # the first line is the kind of graph
    for line in out.splitlines()[1:]:
        name, *words = line.split(" ")
        table[name] = {word: int(number) for word, number in zip(words[::2], words[1::2])}
    return table


def measure(programs, case, runs, rounds):
    """The shortest times of both programs, which are run in turns; they have to find the same."""
    best = [{}, {}]
    tasks = case.tasks(rounds)
    for _ in range(runs):
        for times, program, given in zip(best, programs, tasks):
            for name, numbers in answers(program, given).items():
                if name not in times or numbers["ns"] < times[name]["ns"]:
                    times[name] = numbers
    for name in SEARCHES:
        ours, theirs = ({**times[name], "ns": 0} for times in best)
        if ours != theirs:
            raise SystemExit(f"{case.kind}, {name}: {ours} is not {theirs}")
    return best


def example(original):
    """Writes the input of crates/bench, a list and a catalogue with no times, and what the original answers."""
    chosen = names(80, numbers=6)
    cases = [Case(kind, chosen, "/p", "l3", 10) for kind in ("list", "catalogue")]
    ours, theirs = (b"".join(tasks) for tasks in zip(*(case.tasks(0) for case in cases)))
    (CRATE / "stdin").write_bytes(ours)
    (CRATE / "stdout").write_bytes(subprocess.run([original], input=theirs, check=True, capture_output=True).stdout)


def row(*cells):
    print("| " + " | ".join(str(cell) for cell in cells) + " |", flush=True)


def head(*cells):
    row(*cells)
    row(*("---" for _ in cells))


def costs(times, name, per):
    """The time for each look, key or opening of both programs, and their ratio."""
    ours, theirs = (numbers[name]["ns"] / max(1, numbers[name][per]) for numbers in times)
    return f"{ours:.1f}", f"{theirs:.1f}", f"{ours / theirs:.2f}"


def searches(programs, case, runs, rounds):
    """A line for each search, and one for the openings, whose steps are the openings themselves."""
    times = measure(programs, case, runs, rounds)
    for name in SEARCHES:
        numbers = times[0][name]
        per = "bounds" if name == "openings" else "looks"
        row(case.kind, name, numbers["keys"], numbers[per], *costs(times, name, per), *costs(times, name, "keys")[:2])


def growing():
    """Names that grow, three sizes for each way, with what they are called."""
    for part, count in (("a quarter", 12500), ("half", 25000), ("all", 50000)):
        yield f"number: {part}", names(count)
    for filling in (0, 8, 24):
        yield f"length: {filling} letters more in a word", names(12500, filling=filling)
    # as long as each other: names of more parts branch more often, and less at once
    for parts, words, numbers, filling in ((2, 10, 60, 17), (4, 5, 4, 6), (8, 2, 2, 0)):
        yield f"parts: {parts} in a name", names(12500, (parts, parts), words, numbers, filling)
    for children in (10, 50, 250):
        yield f"likeness: the same {children} names under each of 50", repeated(50, children)
    for width in (16, 64, 224):
        yield f"width: {width} transitions a node", wide(width)
    yield "first groups: 222 names beside each beginning of one of 240 bytes", beside(240, 222)


def growth(programs, runs, rounds):
    """A line for each: the unfiltered search and the openings. A catalogue's share grows with the names."""
    for kind in ("list", "catalogue"):
        for label, chosen in growing():
            if kind == "catalogue":
                chosen = held(chosen, MOST_NODES * len(chosen) // 50000 if "number" in label else MOST_NODES)
            length = sum(len(name) for name in chosen) / len(chosen)
            times = measure(programs, Case(kind, chosen), runs, rounds)
            looks = times[0]["all"]["looks"]
            row(kind, label, len(chosen), f"{length:.0f}", looks, *costs(times, "all", "looks"), *costs(times, "openings", "bounds"))


def main():
    options = argparse.ArgumentParser(description=__doc__, formatter_class=argparse.RawDescriptionHelpFormatter)
    options.add_argument("original", type=pathlib.Path, help="the folder of the package fst")
    options.add_argument("--names", type=pathlib.Path, help="a file of names, in place of made-up ones")
    options.add_argument("--prefix", default="/axle1")
    options.add_argument("--subsequence", default="p5")
    options.add_argument("--growth", action="store_true")
    options.add_argument("--example", action="store_true")
    options.add_argument("--bench", type=pathlib.Path, help="the program bench, where it is built already")
    options.add_argument("--runs", type=int, default=5, help="how often each program is run")
    options.add_argument("--rounds", type=int, default=9, help="how often a run times each search")
    given = options.parse_args()
    with tempfile.TemporaryDirectory() as folder:
        original = build_original(given.original, pathlib.Path(folder))
        if given.example:
            example(original)
            return
        programs = (given.bench or build_bench(), original)
        units = ["here", "original", "ratio"]
        if given.growth:
            head("graph", "grows", "names", "bytes each", "looks", *(f"ns a look, {u}" for u in units), *(f"ns an opening, {u}" for u in units))
            growth(programs, given.runs, given.rounds)
            return
        chosen = given.names.read_bytes().splitlines() if given.names else names(50000)
        head("graph", "search", "keys", "looks", *(f"ns a look, {u}" for u in units), *(f"ns a key, {u}" for u in units[:2]))
        for kind, part in (("list", chosen), ("catalogue", held(chosen))):
            searches(programs, Case(kind, part, given.prefix, given.subsequence), given.runs, given.rounds)


if __name__ == "__main__":
    main()
