#!/usr/bin/env python3
"""Brings the names of this repository's definitions and lemmas to the spelling of the toolchain.

usage: python3 tools/respell.py      at the top of a checkout that port.py of the toolchain has just turned

Words are in snake case, types and facts in camel case; the crate `bytes`, whose name a library of the toolchain
bears, is called `byte_strings`. Functions of src/, strings, inputs and outputs keep their names. Where two names
would fall together, it changes nothing and says which.
"""
import os
import re
import sys

NAME = re.compile(r"[^\s(){};,.|\[\]«»`\"]+")
LIBRARY = re.compile(r"^(?:ghost )?use (?:Rattle\.std|Rattle\.core|native|mathlib|lib|denote|borrow|logic|Prim)\b[^{\n]*\{([^}]*)\}", re.M)
OWN_CRATE = (("bytes", "byte_strings"),)
# the plain respelling would be the name of a type of src/
OTHERWISE = {"Starts-with": "StartingWith"}


def files(suffix):
    for folder, inside, names in os.walk("crates"):
        inside[:] = sorted(d for d in inside if d != "out")
        for name in sorted(names):
            if name.endswith(suffix):
                yield os.path.join(folder, name)


def read(path):
    with open(path, encoding="utf-8") as f:
        return f.read()


def is_dashed(word):
    return re.search(r"[A-Za-z0-9'_≡≢≤]-[A-Za-z0-9]", word) is not None


def respelled(word):
    if word in OTHERWISE:
        return OTHERWISE[word]
    if word[0].isupper():
        return "".join(part[:1].upper() + part[1:] for part in word.split("-"))
    return word.replace("-", "_")


def is_answers(path):
    return os.path.basename(path) in ("Answers.antt", "Invariants.antt", "Proof.antt")


def imported(text):
    return {w.split(" as ")[0].strip() for m in LIBRARY.finditer(text) for w in m.group(1).split(",")}


def code_parts(line, comment):
    """The line in parts, each with whether it is code: no comment, no string."""
    at = 0
    for m in re.finditer(r'"(?:\\.|[^"\\])*"|' + re.escape(comment) + r".*", line):
        yield line[at : m.start()], True
        yield m.group(0), False
        at = m.end()
    yield line[at:], True


def tokens(text, comment):
    for line in text.split("\n"):
        for part, is_code in code_parts(line, comment):
            if is_code:
                yield from NAME.findall(part)


def turned(text, comment, names):
    def one(m):
        return names.get(m.group(0), m.group(0))

    return "\n".join("".join(NAME.sub(one, part) if is_code else part for part, is_code in code_parts(line, comment)) for line in text.split("\n"))


def own_names():
    """Every dashed name that a file of definitions or lemmas makes, and those without a dash that stand there."""
    dashed, plain = set(), set()
    for path in files(".antt"):
        if is_answers(path):
            continue
        text = read(path)
        library = imported(text)
        for word in tokens(text, "--"):
            if is_dashed(word):
                if word not in library:
                    dashed.add(word)
            else:
                plain.add(word)
    return dashed, plain


def main():
    dashed, plain = own_names()
    # a module may be called as the one type that it is about
    plain -= {os.path.basename(p)[: -len(".antt")] for p in files(".antt")}
    names = {w: respelled(w) for w in sorted(dashed)}
    taken = {}
    clashes = []
    for old, new in names.items():
        if new in plain or new in taken:
            clashes.append(f"{old} -> {new}, which is {taken.get(new, 'there')}")
        taken[new] = old
    for line in clashes:
        print("same:", line)
    if clashes and "--anyway" not in sys.argv:
        return 1
    for path in list(files(".antt")) + list(files(".rt")):
        text = read(path)
        library = imported(text)
        comment = "--" if path.endswith(".antt") else "//"
        new = turned(text, comment, {k: v for k, v in names.items() if k not in library})
        for old, to in OWN_CRATE:
            new = re.sub(rf"\bRattle\.{old}\b", f"Rattle.{to}", new)
            if path.endswith(".rt"):
                new = re.sub(rf"\buse {old}::", f"use {to}::", new)
        if new != text:
            with open(path, "w", encoding="utf-8") as f:
                f.write(new)
    for old, to in OWN_CRATE:
        if os.path.isdir(f"crates/{old}"):
            os.rename(f"crates/{old}", f"crates/{to}")
        text = read("crates.txt")
        with open("crates.txt", "w", encoding="utf-8") as f:
            f.write("\n".join(re.sub(rf"\b{old}\b", to, line) if not line.startswith("#") else line for line in text.split("\n")))
    return 0


if __name__ == "__main__":
    sys.exit(main())
