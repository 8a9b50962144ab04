#!/usr/bin/env python3
"""What the programs character_vectors and character_readings must write, made from the manual's own tables.

expected.py MANUAL vectors|readings

MANUAL is the text of the SerialLite II manual. Its Tables 2-27 and 2-28 give each code group in both columns; nothing else is
taken from anywhere: the disparity after a code group is counted from its ones, and what a character is at a disparity is looked up in
the columns. Neither the lists of blocks nor the programs' table is used here.
"""
import re
import sys

ROW = re.compile(r"^([DK])(\d+)\.(\d)\t([0-9A-F]{2})\t[01]{3} [01]{5}\t([01]{6} [01]{4})\t([01]{6} [01]{4})", re.M)


def groups(text):
    """name -> (octet, {-1: bits, +1: bits}), in the manual's order"""
    rows = {}
    for kind, x, y, octet, minus, plus in ROW.findall(text):
        rows[f"{kind}{x}.{y}"] = (int(octet, 16), {-1: minus, 1: plus})
    assert len(rows) == 268, len(rows)
    return rows


def after(disparity, bits):
    """a code group with more ones than zeros ends at +1, with fewer at -1; one with as many keeps the disparity"""
    ones = bits.count("1")
    return 1 if ones > 5 else -1 if ones < 5 else disparity


def signed(d):
    return "+1" if d == 1 else "-1"


def read(rows, c, d):
    """(word, name, disparity after) of the character with number c"""
    bits = format(c, "010b")
    bits = bits[:6] + " " + bits[6:]
    for word, column in (("clean", d), ("wrong", -d)):
        for name, (_, columns) in rows.items():
            if columns[column] == bits:
                return word, name, after(column, bits)
    return "invalid", None, d


def show(result):
    word, name, d = result
    return f"{word} {name} {signed(d)}" if name else f"{word} {signed(d)}"


def vectors(rows):
    for name, (octet, columns) in rows.items():
        back = "refused 3" if name == "K28.7" else name
        yield f"{name} {octet} {columns[-1]} {columns[1]} {back} {back}"
    control = {octet for name, (octet, _) in rows.items() if name[0] == "K" and name != "K28.7"}
    for byte in range(256):
        yield f"control {byte} " + ("written" if byte in control else "refused 3")
    for _ in (0, 2, -2, -(2**31), 2**31 - 1):
        yield "disparity refused 1 refused 1"


def packed(rows, c, d):
    """a packed result as docs/CONTRACTS.md gives it, for the three results that the last lines show"""
    word, name, e = read(rows, c, d)
    number = rows[name][0] + 256 * (name[0] == "K") if name else 0
    return number + 512 * {"clean": 0, "invalid": 1, "wrong": 2}[word] + 2048 * (e == 1), e


def readings(rows):
    for d in (-1, 1):
        for c in range(1024):
            yield f"{c} " + show(read(rows, c, d))
    d, lines = -1, []
    for c in range(1024):
        result = read(rows, c, d)
        lines.append(show(result))
        d = result[2]
    yield f"run {signed(d)}"
    yield from lines
    for number in (6, 1, 1):
        yield f"run refused {number}"
        yield "7 8 9"
    d, results = 1, []
    for c in (0, 1):
        number, d = packed(rows, c, d)
        results.append(number)
    yield f"run {signed(d)}"
    yield f"{results[0]} {results[1]} 9"
    for c in (1024, 4294967295, 0, 0, 0, 1023, 1024):
        yield f"{c} refused 1"


if __name__ == "__main__":
    with open(sys.argv[1], encoding="utf-8") as manual:
        table = groups(manual.read())
    for line in {"vectors": vectors, "readings": readings}[sys.argv[2]](table):
        print(line)
