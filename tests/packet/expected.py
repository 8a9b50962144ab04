#!/usr/bin/env python3
"""A script for the program packet_vectors, and what it must write: every symbol in every phase of the packet reader.

expected.py script > crates/packet_vectors/stdin
expected.py events > crates/packet_vectors/stdout

Written from document 01, "Packets on one lane", alone. It keeps the bytes of open packets and divides them as polynomials; it has no table and no
register, and shares nothing with the program.
"""
import sys

COM, IDL, SPP, SDP, CPP, CDP, ALN, SLP, SUP, EGP, EBP = 0xBC, 0x1C, 0x3C, 0x5C, 0x9C, 0xDC, 0x7C, 0xF7, 0xFB, 0xFD, 0xFE
K28_7 = 0xFC
TWELVE = {COM, IDL, SPP, SDP, CPP, CDP, ALN, SLP, SUP, EGP, EBP, K28_7}
NEVER = {ALN, SUP, CDP, CPP}


def crc(message):
    """the two check bytes: bits least significant first, start all ones, complemented, X15 first on the line"""
    bits = [byte >> i & 1 for byte in message for i in range(8)]
    work = bits + [0] * 16
    for i in range(16):
        work[i] ^= 1
    for i in range(len(bits)):
        if work[i]:
            for power in (16, 12, 5, 0):
                work[i + 16 - power] ^= 1
    rest = [1 - bit for bit in work[len(bits):]]
    return [sum(rest[8 * k + i] << i for i in range(8)) for k in (0, 1)]


class Packet:
    def __init__(self, kind, opening):
        self.kind, self.opening, self.bytes = kind, opening, []


class Reader:
    def __init__(self, size):
        self.size, self.open, self.due, self.dropping = size, [], None, False

    def step(self, quality, control=False, byte=0):
        if quality == "refused" or (quality != "invalid" and control and byte not in TWELVE):
            return "refused 1"
        if self.dropping:
            if quality == "clean" and control and byte in (SDP, SPP, SLP):
                self.dropping = False
                self.begin(byte)
            return "nothing"
        number = min(self.violations(quality, control, byte), default=0)
        if number == 0:
            return self.legal(control, byte)
        if number == 6:
            self.open.pop()
            self.due = None
        elif number == 7:
            self.due = None
        else:
            self.open, self.due, self.dropping = [], None, True
        return f"violation {number}"

    def begin(self, byte):
        self.due = {SDP: ("channel",), SPP: ("opening",), SLP: ("type",)}[byte]

    def violations(self, quality, control, byte):
        found = set()
        if quality == "invalid":
            return {1}
        if quality == "wrong":
            found.add(2)
        if control and byte == K28_7:
            found.add(3)
        inside = self.open[-1] if self.open else None
        if self.due:
            place = self.due[0]
            if place == "idl":
                if not (control and byte == IDL):
                    found.add(4)
            elif control:
                found.add(4)
            elif place == "closing" and byte != inside.opening:
                found.add(5)
            elif place == "second crc" and [self.due[2], byte] != crc(inside.bytes):
                found.add(6)
            elif place == "check" and byte != self.due[1] ^ self.due[2]:
                found.add(7)
            return found
        if control:
            kinds = [packet.kind for packet in self.open]
            if byte in NEVER or (byte == SDP and kinds) or (byte == SPP and "priority" in kinds):
                found.add(4)
            if byte in (EGP, EBP):
                if not inside:
                    found.add(4)
                elif not inside.bytes:
                    found.add(8)
        elif not inside:
            if byte:
                found.add(9)
        elif inside.kind == "priority" and len(inside.bytes) == self.size:
            found.add(10)
        return found

    def legal(self, control, byte):
        if self.due:
            return self.due_byte(byte)
        if control:
            if byte == COM:
                self.due = ("idl", 3)
            elif byte in (SDP, SPP, SLP):
                self.begin(byte)
            elif byte in (EGP, EBP):
                self.due = ("closing", byte == EBP)
            return "nothing"
        if not self.open:
            return "nothing"
        self.open[-1].bytes.append(byte)
        return f"byte {byte}"

    def due_byte(self, byte):
        place, *rest = self.due
        self.due = None
        if place == "idl":
            self.due = ("idl", rest[0] - 1) if rest[0] > 1 else None
        elif place == "channel":
            self.open.append(Packet("data", byte))
            return f"start data {byte}"
        elif place == "opening":
            self.open.append(Packet("priority", byte))
            return f"start priority {byte & 15} {byte >> 4}"
        elif place == "closing":
            self.due = ("first crc", rest[0])
        elif place == "first crc":
            self.due = ("second crc", rest[0], byte)
        elif place == "second crc":
            self.open.pop()
            return f"end {int(rest[0])}"
        elif place == "type":
            self.due = ("number", byte)
        elif place == "number":
            self.due = ("check", rest[0], byte)
        elif place == "check":
            kind, parameter, reserved, segment = rest[0] >> 4, rest[0] & 15, rest[1] >> 4, rest[1] & 15
            if kind == 2 and parameter < 2 and reserved == 0:
                return f"lmp {parameter} {segment}"
        return "nothing"


def K(byte):
    return ("clean", True, byte)


def D(*data):
    return [("clean", False, byte) for byte in data]


# ---- every phase: the symbols that lead there from fresh, with S = 8

def contexts():
    """outside, and in packets with and without a byte, full, nested"""
    data = [K(SDP)] + D(200)
    yield "outside", []
    yield "data, no byte", data
    yield "data", data + D(1, 2)
    priority = [K(SPP)] + D(0xC5)
    yield "priority, no byte", priority
    yield "priority", priority + D(7)
    yield "priority, full", priority + D(1, 2, 3, 4, 5, 6, 7, 8)
    yield "nested, no byte", data + D(1) + priority
    yield "nested", data + D(1) + priority + D(9)


def phases():
    for name, lead in contexts():
        yield lead
        yield lead + [K(COM)]
        yield lead + [K(COM), K(IDL)]
        yield lead + [K(COM), K(IDL), K(IDL)]
        yield lead + [K(SLP)]
        yield lead + [K(SLP)] + D(0x20)
        yield lead + [K(SLP)] + D(0x21, 0x0B)
        if name in ("outside",):
            yield lead + [K(SDP)]
        if name in ("outside", "data, no byte", "data"):
            yield lead + [K(SPP)]
        if "no byte" not in name and name != "outside":
            opening, own = (200, [1, 2]) if name == "data" else (0xC5, {"priority": [7], "nested": [9]}.get(name, list(range(1, 9))))
            first, _ = crc(own)
            for end in (EGP, EBP):
                yield lead + [K(end)]
                yield lead + [K(end)] + D(opening)
                yield lead + [K(end)] + D(opening, first)
                yield lead + [K(end)] + D(opening, first ^ 1)
    yield [("invalid",)]


def symbols():
    """every control symbol, data bytes that are right somewhere and wrong elsewhere, and results that are not clean"""
    for byte in sorted(TWELVE):
        yield K(byte)
    right = {byte for own in ([1, 2], [7], [9], list(range(1, 9))) for byte in crc(own)}
    for byte in sorted({0, 1, 200, 0xC5, 0x20, 0x0B, 0x2A, 0x21 ^ 0x0B, 0xFF} | right):
        yield D(byte)[0]
    yield ("wrong", False, 0)
    yield ("wrong", True, SDP)
    yield ("wrong", True, K28_7)
    yield ("invalid",)
    yield K(0x00)
    yield ("wrong", True, 0xFF)
    yield ("refused",)


CALLS = {("clean", False): 0, ("clean", True): 1, ("wrong", False): 2, ("wrong", True): 3}


def calls():
    """(two bytes of the script, what the program writes)"""
    for size in (1, 2, 3, 128, 129):
        yield bytes([6, size]), "fresh" if size in (1, 2, 128) else "not fresh 2"
    for lead in phases():
        for symbol in symbols():
            reader = Reader(8)
            yield bytes([6, 1]), "fresh"
            # after the symbol, D0.0 and an opening symbol show where it led
            for step in lead + [symbol] + D(0) + [K(SLP)]:
                said = reader.step(*step)
                if step[0] == "invalid":
                    yield bytes([4, 0]), said
                elif step[0] == "refused":
                    yield bytes([5, 0]), said
                else:
                    yield bytes([CALLS[step[:2]], step[2]]), said


if __name__ == "__main__":
    made = list(calls())
    assert 2 * len(made) < 65536, len(made)
    if sys.argv[1] == "script":
        sys.stdout.buffer.write(b"".join(two for two, _ in made))
    else:
        print("\n".join(said for _, said in made))
