#!/usr/bin/env python3
# The lines that crates/capture_vectors must write, made from the document's sentences over strings of bits, with nothing of the crates.
# `expected.py > crates/capture_vectors/stdout`; tests/capture/run compares.


def bits(numbers, width):
    return "".join(format(n, "0%db" % width) for n in numbers)


def groups(line, width, count):
    return [int(line[width * i:width * (i + 1)], 2) for i in range(count)]


def legal(capture):
    count = 8 * len(capture) // 10
    return len(capture) <= 65535 and len(capture) % 5 != 1 and "1" not in bits(capture, 8)[10 * count:]


def count(capture):
    return ("number", 8 * len(capture) // 10) if legal(capture) else ("refused", 8)


def pack(characters, out):
    line = bits([min(c, 1023) for c in characters], 10)
    line += "0" * (-len(line) % 8)
    size = len(line) // 8
    if size > 65535:
        return ("refused", 8), out
    if any(c > 1023 for c in characters):
        return ("refused", 1), out
    if len(out) < size:
        return ("refused", 6), out
    return ("number", size), groups(line, 8, size) + out[size:]


def unpack(capture, out):
    if not legal(capture):
        return ("refused", 8), out
    n = 8 * len(capture) // 10
    if len(out) < n:
        return ("refused", 6), out
    return ("number", n), groups(bits(capture, 8), 10, n) + out[n:]


def character(capture, place):
    if not legal(capture):
        return ("refused", 8)
    if place >= 8 * len(capture) // 10:
        return ("refused", 1)
    return ("number", int(bits(capture, 8)[10 * place:10 * place + 10], 2))


def check(capture, place):
    if not legal(capture):
        return 8
    return 1 if place > 8 * len(capture) // 10 else 0


def place_in(capture, place):
    refusal = check(capture, place)
    return ("refused", refusal) if refusal else ("number", place)


def move(capture, place, step):
    refusal = check(capture, place)
    target = place + step
    if refusal == 0 and 0 <= target <= 8 * len(capture) // 10:
        return " %d moved 0" % target
    return " %d stays %d" % (place, refusal)


def shown(answer):
    return " %d" % answer[1] if answer[0] == "number" else " refused %d" % answer[1]


def hexes(s):
    return "".join(" %02x" % b for b in s)


def decimals(s):
    return "".join(" %d" % c for c in s)


def pack_case(characters, out):
    answer, left = pack(characters, out)
    print("pack%s into %d:%s leaves%s" % (decimals(characters), len(out), shown(answer), hexes(left)))
    return left


def unpack_case(capture, out):
    answer, left = unpack(capture, out)
    print("unpack%s into %d:%s leaves%s" % (hexes(capture), len(out), shown(answer), decimals(left)))


def length_case(n):
    cases = [bytes(n)] + [bytes(n - 1) + bytes([1 << b]) for b in range(8) if n > 0]
    print("length %d:%s" % (n, ",".join(shown(count(c)) for c in cases)))


def many_case(characters, room):
    print("many %d %d:%s" % (len(characters), room, shown(pack(characters, [0] * room)[0])))


def place_case(capture, place):
    print("place %d:%s,%s, forward%s, back%s" % (
        place, shown(place_in(capture, place)), shown(character(capture, place)), move(capture, place, 1), move(capture, place, -1)))


BENCH = [0b0011111010, 0b1010101010]
pack_case(BENCH, [0xEE] * 5)
for n in range(10):
    left = pack_case([(i * 397 + n * 61 + 5) % 1024 for i in range(n)], [0xEE] * 16)
    unpack_case(left[:(10 * n + 7) // 8], [4444] * 12)
pack_case(BENCH, [0xEE] * 2)
pack_case(BENCH, [0xEE] * 3)
pack_case([1023, 1024], [0xEE] * 5)
pack_case([1024, 1023], [])
unpack_case([0x3E, 0xAA, 0xA0], [4444] * 1)
unpack_case([0x3E, 0xAA, 0xA0], [4444] * 2)
unpack_case([0x3E, 0xAA, 0xA8], [4444] * 2)
unpack_case([0x3E], [])
for n in list(range(12)) + list(range(65532, 65538)):
    length_case(n)
many_case([0] * 52428, 65534)
many_case([0] * 52428, 65535)
many_case([0] * 52429, 65535)
many_case([1024] + [0] * 52427, 65534)
many_case([1024] + [0] * 52428, 65534)
for place in range(4):
    place_case([0x3E, 0xAA, 0xA0], place)
place_case([0x3E, 0xAA, 0xA1], 0)
place_case([], 0)
print("first:%s,%s" % (shown(character([0x3E, 0xAA, 0xA0], 0)), shown(character([], 0))))
