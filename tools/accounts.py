#!/usr/bin/env python3
"""Writes the inputs and the expected accounts of crates/accounts (its files stdin and stdout).

The expected accounts come from recorded/listing.txt, the answers of the original, or from the model below, which follows
docs/FORMATS.md and docs/REFUSALS.md and shares no code with the crates. Run from the repository's root.
"""
import re
import zlib

MOST = 2**64 - 1
KINDS = b"GgLlPSB+"


def refused(number):
    return b"refused %d\n" % number


def lines_of(data):
    parts = data.split(b"\n")
    return parts[:-1] if parts[-1] == b"" else parts


def is_subsequence(want, name):
    rest = iter(name)
    return all(byte in rest for byte in want)


def account(data):
    """What listing prints for these bytes."""
    if len(data) > 65535:
        return refused(20)
    last, names = {}, []
    for line in lines_of(data):
        kind, rest = line[:1], line[1:]
        if not line or kind not in [bytes([k]) for k in KINDS]:
            return refused(19)
        if kind == b"B" and (not re.fullmatch(rb"[0-9]{1,20}", rest) or int(rest) > MOST):
            return refused(19)
        if kind == b"+":
            names.append(rest)
        else:
            side = {b"G": "lower", b"g": "lower", b"L": "upper", b"l": "upper"}.get(kind, kind)
            last[side] = (kind, rest)
    if len(names) > 1024:
        return refused(20)
    if not names:
        return refused(9)
    for i, name in enumerate(names):
        if len(name) > 255:
            return refused(10)
        if i > 0 and name <= names[i - 1]:
            return refused(11)
    lower, upper = last.get("lower"), last.get("upper")
    if lower and len(lower[1]) > 255:
        return refused(14)
    shift = int(last[b"B"][1]) if b"B" in last else 0
    prefix = last[b"P"][1] if b"P" in last else b""
    want = last[b"S"][1] if b"S" in last else b""
    out, count = b"", 0
    for i, name in enumerate(names):
        if lower and (name < lower[1] or (name == lower[1] and lower[0] == b"g")):
            continue
        if upper and (name > upper[1] or (name == upper[1] and upper[0] == b"l")):
            continue
        if not name.startswith(prefix) or not is_subsequence(want, name):
            continue
        if shift + i > MOST:
            return out + refused(16)
        out += b"%d %s\n" % (shift + i, name)
        count += 1
    return out + b"end %d\n" % count


def names(*values):
    return b"".join(b"+" + v + b"\n" for v in values)


def numbered(n):
    return names(*[b"%05d" % i for i in range(n)])


def long_input(size):
    """An input of exactly that many bytes: names of 200 bytes and a subsequence that fills up."""
    data = b"".join(b"+%03d" % i + b"x" * 197 + b"\n" for i in range(300))
    return data + b"S" + b"x" * (size - len(data) - 2) + b"\n"


A255, A256 = b"a" * 255, b"a" * 256
TABLE = [
    # the sample, with and without its last line feed
    b"B100\nP/a\nSb\n+/a/bolt\n+/a/nut\n+/b/bolt\n",
    b"B100\nP/a\nSb\n+/a/bolt\n+/a/nut\n+/b/bolt",
    # lines: none, an empty one, a bad first character, a second line feed at the end
    b"", b"\n", b"+a\n\n", b"+a\n\n+b\n", b"x\n", b"+a\nx", b" +a\n", b"+a\r\n",
    # one name; the empty name; empty bounds
    b"+a", b"+", b"+\n", b"+\n+a\n", b"G\n+\n+a\n", b"g\n+\n+a\n", b"L\n+\n+a\n", b"l\n+\n+a\n",
    # bounds, included and excluded, replaced, crossed
    b"Gb\n" + names(b"a", b"b", b"c"), b"gb\n" + names(b"a", b"b", b"c"),
    b"Lb\n" + names(b"a", b"b", b"c"), b"lb\n" + names(b"a", b"b", b"c"),
    b"Gb\nga\n" + names(b"a", b"b", b"c"), b"lb\nLc\n" + names(b"a", b"b", b"c"),
    b"Gc\nLa\n" + names(b"a", b"b", b"c"), b"Gaa\n" + names(b"", b"a", b"ab", b"b"),
    names(b"a", b"b", b"c") + b"gb\n",
    # prefix and subsequence: empty, replaced, longer than a name
    b"P\nS\n+a\n", b"Pb\nPa\n" + names(b"ab", b"b"), b"Sb\nSa\n" + names(b"a", b"b"), b"Pabc\n+ab\n", b"Sabc\n+ab\n",
    b"Sab\n" + names(b"ab", b"acb", b"ba", b"bab"), b"Saa\n" + names(b"a", b"aa", b"aba"),
    # bytes 00 and FF
    names(b"\x00", b"\x00\x00", b"\x01", b"\xff", b"\xff\x00", b"\xff\xff"),
    b"P\xff\n" + names(b"\x00", b"\xff", b"\xff\x00"), b"S\x00\n" + names(b"\x00", b"\xff", b"\xff\x00"),
    b"G\xff\n" + names(b"\x00", b"\xff", b"\xff\x00"), b"\x00\n", b"\xff\n",
    # shifts: digits, leading zeros, their number, 2^64 - 1 and beyond, replaced
    b"B\n+a\n", b"B0\n+a\n", b"B00000000000000000007\n+a\n", b"B000000000000000000007\n+a\n", b"B12a\n+a\n", b"B-1\n+a\n",
    b"B+1\n+a\n", b"B 1\n+a\n", b"B1:\n+a\n", b"B/\n+a\n", b"B18446744073709551615\n+a\n", b"B18446744073709551616\n+a\n",
    b"B99999999999999999999\n+a\n", b"B5\nB6\n+a\n", b"Bx\nB6\n+a\n", b"B6\nBx\n+a\n",
    b"B18446744073709551615\n" + names(b"a", b"b"), b"B18446744073709551614\n" + names(b"a", b"b", b"c"),
    b"B18446744073709551615\nPa\n" + names(b"a", b"b"), b"B18446744073709551615\ngb\n" + names(b"a", b"b"),
    b"B18446744073709551615\ngc\n" + names(b"a", b"b"),
    # names: none, not rising, equal, too long; which of two faults comes first
    b"Pa\n", names(b"b", b"a"), names(b"a", b"a"), names(b"a", b""), names(A255), names(A256), names(A255, A255 + b"b"),
    names(b"b", A256), names(A256, b"a"), names(b"b", b"a", A256), names(b"a", A256, b"a"), b"+" + A256 + b"\nx\n",
    # bounds of 255 and 256 bytes
    b"G" + A255 + b"\n" + names(b"a", b"b"), b"g" + A255 + b"\n" + names(b"a", A255, b"b"), b"G" + A256 + b"\n" + names(b"a", b"b"),
    b"g" + A256 + b"\n" + names(b"a"), b"L" + A256 + b"\n" + names(b"a", b"b"), b"l" + b"a" * 300 + b"\n" + names(b"a", b"b"),
    b"G" + A256 + b"\nGb\n" + names(b"a", b"b"), b"G" + A256 + b"\n" + names(b"b", b"a"), b"G" + A256 + b"\n",
    b"P" + A256 + b"\n+a\n", b"S" + A256 + b"\n+a\n",
    # 1,024 and 1,025 names, with a bad line behind them, and not rising
    numbered(1024), b"S9\n" + numbered(1024), numbered(1025), numbered(1025) + b"x\n", numbered(1025) + b"+0\n", numbered(1024) + b"+0\n",
    # 65,535 and 65,536 bytes, the longer one with a bad line
    long_input(65535), long_input(65536), b"x" * 65535, b"x" * 65536, b"+" * 65535, b"+" * 65536, b"\n" * 65536,
]


def unhex(text):
    return b"" if text == "_" else bytes.fromhex(text)


def recorded(path):
    """Inputs and accounts from the original's answers."""
    cases = []
    for line in open(path):
        line = line.rstrip("\n")
        if line.startswith("> "):
            _, graph, bounds, term = line[2:].split(" ")
            prefix, want = re.fullmatch(r"and\(sw\(str:(\w+)\),sub:(\w+)\)", term).groups()
            data = b""
            for bound in [] if bounds == "-" else bounds.split(","):
                call, key = bound.split(":")
                data += {"ge": b"G", "gt": b"g", "le": b"L", "lt": b"l"}[call] + unhex(key) + b"\n"
            data += b"P" + unhex(prefix) + b"\nS" + unhex(want) + b"\n"
            data += names(*[unhex(x.split("=")[0]) for x in graph.split(",")])
            cases.append([data, b""])
        elif line.startswith("end "):
            cases[-1][1] += line.encode() + b"\n"
        else:
            key, total, _ = line.split(" ")
            cases[-1][1] += total.encode() + b" " + unhex(key) + b"\n"
    return cases


def packed(data):
    """Hex, a run of one byte as HEX*TIMES."""
    items = [m.group(0) for m in re.finditer(rb"(.)\1{15,}|(?:(?!(.)\2{15}).)+", data, re.S)]
    return " ".join("%02x*%d" % (i[0], len(i)) if len(i) > 15 and len(set(i)) == 1 else i.hex() for i in items)


def shown(data):
    text = "".join(chr(b) if 0x20 <= b < 0x7F and b != 0x5C or b == 10 else "\\x%02x" % b for b in data)
    if len(data) <= 2000:
        return text
    rows = text.split("\n")
    return rows[0] + "\n..\n" + rows[-2] + "\n%d bytes, adler %d\n" % (len(data), zlib.adler32(data))


cases = [[data, account(data)] for data in TABLE] + recorded("recorded/listing.txt")
with open("crates/accounts/stdin", "w") as file:
    file.writelines(packed(data) + "\n" for data, _ in cases)
with open("crates/accounts/stdout", "w") as file:
    for number, (_, out) in enumerate(cases):
        file.write("%d:\n%s" % (number, shown(out)))
    file.write("%d inputs\n" % len(cases))
