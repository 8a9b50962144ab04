#!/usr/bin/env python3
# Captures from a seed, and the examples. Symbols are written with the blocks of reference.py, at the disparity that follows from the ones before.
# `generate.py FOLDER` writes the examples, each capture with its listing.
import os
import random
import sys

from reference import (ALN, CDP, COM, CPP, EBP, EGP, IDL, K28_7, SDP, SLP, SPP, SUP, SYMBOLS, WRITTEN, crc, listing)


def data(*numbers):
    return [(False, n) for n in numbers]


def control(*numbers):
    return [(True, n) for n in numbers]


def packet(start, opening, body, bad=False, own=None):
    """A packet; the body is a list of symbols, and its own bytes are the data symbols among them unless they are given."""
    own = [b for c, b in body if not c] if own is None else own
    return control(start) + data(opening) + body + control(EBP if bad else EGP) + data(opening, *crc(own))


def lmp(first, second, check=None):
    return control(SLP) + data(first, second, first ^ second if check is None else check)


def write(symbols, disparity=-1):
    line = []
    for symbol in symbols:
        bits, disparity = WRITTEN[symbol, disparity]
        line.append(bits)
    return "".join(line)


def closing(symbols, disparity=-1):
    for symbol in symbols:
        disparity = WRITTEN[symbol, disparity][1]
    return disparity


def pack(line):
    line += "0" * (-len(line) % 8)
    return bytes(int(line[i:i + 8], 2) for i in range(0, len(line), 8))


def damaged(random, line, count):
    line = list(line)
    for _ in range(count):
        if line:
            i = random.randrange(len(line))
            line[i] = "10"[int(line[i])]
    return "".join(line)


# ---- a random line, legal or nearly so


def filler(random):
    reply = lmp(0x20 + random.randrange(2), random.randrange(16))
    stranger = lmp(random.randrange(256), random.randrange(256))
    return random.choice([control(IDL), control(COM, IDL, IDL, IDL), reply, reply, stranger])


def body(random, most, among):
    symbols, own = [], []
    for _ in range(random.randint(1, most)):
        while random.random() < 0.2:
            symbols += among(random)
        own.append(random.choice([0, random.randrange(256)]))
        symbols += data(own[-1])
    while random.random() < 0.2:
        symbols += among(random)
    return symbols, own


def priority(random):
    symbols, own = body(random, 8, filler)
    return packet(SPP, random.randrange(256), symbols, random.random() < 0.3, own)


def within(random):
    return priority(random) if random.random() < 0.4 else filler(random)


def whole(random):
    symbols, own = body(random, random.choice([1, 3, 20]), within)
    return packet(SDP, random.randrange(256), symbols, random.random() < 0.3, own)


def legal_part(random):
    return random.choice([whole, whole, priority, filler, lambda r: data(0)])(random)


def spoiled(random, symbols):
    """One symbol is another, is missing or comes twice."""
    i = random.randrange(len(symbols))
    some = random.choice([SYMBOLS, [(True, b) for b in (COM, IDL, SPP, SDP, CPP, CDP, ALN, SLP, SUP, EGP, EBP, K28_7)], [(False, 0)]])
    middle = random.choice([[random.choice(some)], [], [symbols[i], symbols[i]], [random.choice(some), symbols[i]]])
    return symbols[:i] + middle + symbols[i + 1:]


def symbols_for(random, count):
    symbols = []
    while len(symbols) < count:
        part = legal_part(random)
        symbols += spoiled(random, part) if random.random() < 0.35 else part
    return symbols[:count]


def capture(random, count):
    if random.random() < 0.1:
        return pack("".join(random.choice("01") for _ in range(10 * count)))
    line = write(symbols_for(random, count))
    if random.random() < 0.5:
        line = damaged(random, line, random.choice([1, 2, 1 + count // 50]))
    return pack(line)


def refusable(random, made):
    """Mostly as it is; else another length, or bits set in the last byte."""
    if made and random.random() < 0.1:
        return random.choice([made[:-1], made + b"\0", made[:-1] + bytes([made[-1] | 1 << random.randrange(8)])])
    return made


def captures(seed, count):
    """Every small length, the edges of the greatest, and so many more."""
    source = random.Random(seed)
    for length in range(0, 12):
        yield bytes(length)
        yield bytes([255] * length)
    for length in (65533, 65534, 65535, 65536, 65537, 70000):
        yield bytes(length)
    full = write((control(SDP) + data(1) + control(EGP)) * 17476)
    yield pack(full)
    yield pack(write(symbols_for(source, 52428)))
    yield pack(write((lmp(0x21, 15) * 13107)))
    for _ in range(count):
        size = source.choice([1, 5, 20, 60, 64, 65, 128, 200, 200, 700, 700, 2500])
        yield refusable(source, capture(source, size))


# ---- the examples


def examples():
    inner = packet(SPP, 16 * 3 + 2, data(1, 2, 3))
    good = packet(SDP, 5, data(*b"hello"))
    yield "document", bytes([0x3D, 0x2A, 0xA0]), "the paper's example: a data byte outside packets"
    yield "empty", b"", "nothing"
    yield "data-packet", pack(write(good)), "a data packet on channel 5"
    yield "bad-mark", pack(write(packet(SDP, 5, data(*b"hello"), True))), "the same with the mark bad"
    yield "priority-packet", pack(write(packet(SPP, 16 * 3 + 2, data(1, 2, 3)))), "a priority packet: segment 3, channel 2"
    yield "nested", pack(write(packet(SDP, 200, data(1) + inner + lmp(0x20, 7) + control(COM, IDL, IDL, IDL) + data(2), False, [1, 2]))), "a priority packet, a reply and COM with its IDL inside a data packet"
    yield "replies", pack(write(lmp(0x20, 0) + lmp(0x21, 15) + lmp(0x30, 0) + lmp(0x20, 16) + lmp(0x20, 3))), "ACK and NACK; an LMP of another type and one with a nonzero reserved field are dropped"
    for number, symbols in enumerate(violations(), 1):
        yield "violation-%02d" % number, symbols, VIOLATIONS[number - 1]
    yield "refused-length", bytes(6), "refused: six bytes hold no whole number of characters as it is written"
    yield "refused-closing-bit", bytes([0x3D, 0x2A, 0xA1]), "refused: a bit is set after the last character"
    yield "every-event", pack(write(good + lmp(0x21, 9) + packet(SDP, 5, data(9), True) + inner + data(0, 7))), "each word of the listing"


VIOLATIONS = [
    "invalid: ten bits that are no character, inside a packet", "wrong disparity", "K28.7", "a symbol out of place: ALN", "the closing channel byte differs",
    "the CRC", "an LMP's check byte; the data packet about it goes on", "an end with no byte", "data other than D0.0 outside packets", "byte nine of a priority packet"]


def violations():
    good = packet(SDP, 5, data(*b"hello"))
    line = write(good)
    yield pack(line[:40] + "1111111111" + line[50:])
    yield pack(write(good) + write(good, -closing(good)))
    yield pack(write(control(K28_7) + good))
    yield pack(write(control(SDP) + data(5, 1) + control(ALN) + good))
    yield pack(write(control(SDP) + data(5, 1) + control(EGP) + data(6) + good))
    yield pack(write(good[:-1] + data(good[-1][1] ^ 1) + good))
    yield pack(write(packet(SDP, 5, data(1) + lmp(0x20, 1, 0) + data(2), False, [1, 2])))
    yield pack(write(control(SDP) + data(5) + control(EGP) + good))
    yield pack(write(data(0, 7) + good))
    yield pack(write(packet(SPP, 1, data(*range(9)))))


def main(folder):
    os.makedirs(folder, exist_ok=True)
    rows = []
    for name, made, shows in examples():
        with open(os.path.join(folder, name + ".capture"), "wb") as file:
            file.write(made)
        with open(os.path.join(folder, name + ".listing"), "w") as file:
            file.write(listing(made))
        rows.append("| `%s.capture` | %s |" % (name, shows))
    with open(os.path.join(folder, "README.md"), "w") as file:
        file.write("# Captures\n\n`./list.sh < examples/captures/NAME.capture` prints `NAME.listing`. All of it is made by `tests/listing/generate.py`, not by the program.\n\n| capture | shows |\n|---|---|\n" + "\n".join(rows) + "\n")


if __name__ == "__main__":
    main(sys.argv[1])
