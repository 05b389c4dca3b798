#!/usr/bin/env python3
"""Asks filters of the original at single states, and writes recorded/answers.txt.

ORIGINAL is a folder with the original's package `fst`, version 0.4.7, over which tools/original/src/answers.rs is built.
Run from the repository's root:

    tools/answers.py ORIGINAL
"""
import itertools
import pathlib
import subprocess
import sys
import tempfile

PACKAGE = """[package]
name = "answers"
version = "0.1.0"
edition = "2021"

[[bin]]
name = "answers"
path = "%s"

[dependencies]
fst = { path = "%s", features = ["levenshtein"] }
"""

# of "a", "b": before, at and after the match of each filter, and where it can match no more
KEYS = ["_", "61", "62", "6162", "6261", "616262"]
SIMPLE = ["str:_", "str:61", "str:6162", "sub:_", "sub:61", "sub:6162", "all"]
DEEPER = ["sw(str:61)", "sw(sub:6162)", "not(str:6162)", "not(sub:61)", "not(all)"]


def over_one(filters):
    return [f"{kind}({inner})" for kind in ("sw", "not") for inner in filters]


def over_two(pairs):
    return [f"{kind}({left},{right})" for left, right in pairs for kind in ("or", "and")]


def filters():
    """Each kind over each simple filter, each kind over one over those, and pairs of deeper ones."""
    nested = over_one(SIMPLE) + over_two(itertools.product(SIMPLE, repeat=2))
    return SIMPLE + nested + over_one(nested) + over_two(itertools.permutations(DEEPER, 2))


def ask(package, folder):
    """What the original answers."""
    source = pathlib.Path("tools/original/src/answers.rs").resolve()
    (folder / "Cargo.toml").write_text(PACKAGE % (source, package.resolve()))
    subprocess.run(["cargo", "build", "--release", "--quiet"], cwd=folder, check=True)
    lines = "\n".join([",".join(KEYS), *filters(), ""])
    return subprocess.run([folder / "target/release/answers"], input=lines, check=True, capture_output=True, text=True).stdout


def main():
    with tempfile.TemporaryDirectory() as folder:
        answers = ask(pathlib.Path(sys.argv[1]), pathlib.Path(folder))
    pathlib.Path("recorded/answers.txt").write_text(",".join(KEYS) + "\n" + answers)


if __name__ == "__main__":
    main()
