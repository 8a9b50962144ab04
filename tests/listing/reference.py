#!/usr/bin/env python3
# The listing of a capture, from the sentences of the documents alone: blocks of bits as text, packets as lists of bytes, the CRC by
# long division. It shares nothing with the crates. `reference.py < capture` prints the listing.
import sys

SIX = """100111 011101 101101 110001 110101 101001 011001 111000 111001 100101 010101 110100 001101 101100 011100 010111
011011 100011 010011 110010 001011 101010 011010 111010 110011 100110 010110 110110 001110 101110 011110 101011""".split()
FOUR = "1011 1001 0101 1100 1101 1010 0110 1110".split()
FOUR_CONTROL = "1011 0110 1010 1100 1101 0101 1001 0111".split()
CONTROLS = {28 + 32 * y for y in range(8)} | {32 * 7 + x for x in (23, 27, 29, 30)}
COM, IDL, SPP, SDP, CPP, CDP, ALN = 0xBC, 0x1C, 0x3C, 0x5C, 0x9C, 0xDC, 0x7C
SLP, SUP, EGP, EBP, K28_7 = 0xF7, 0xFB, 0xFD, 0xFE, 0xFC
MOST = 65535


def other(block):
    return "".join("10"[int(bit)] for bit in block)


def balanced(block):
    return 2 * block.count("1") == len(block)


def blocks(control, x, y, disparity):
    """The six-bit and the four-bit block, each chosen at the disparity in force when it begins, and the disparity after them."""
    six = "001111" if control and x == 28 else SIX[x]
    if disparity > 0 and (control or not balanced(six) or x == 7):
        six = other(six)
    middle = disparity if balanced(six) else -disparity
    four = FOUR_CONTROL[y] if control else FOUR[y]
    if middle > 0 and (control or not balanced(four) or y == 3):
        four = other(four)
    if not control and y == 7:
        if middle < 0 and x in (17, 18, 20):
            four = "0111"
        if middle > 0 and x in (11, 13, 14):
            four = "1000"
    return six + four, middle if balanced(four) else -middle


SYMBOLS = [(False, b) for b in range(256)] + [(True, b) for b in sorted(CONTROLS)]
WRITTEN = {(s, d): blocks(s[0], s[1] % 32, s[1] // 32, d) for s in SYMBOLS for d in (-1, 1)}
READ = {(WRITTEN[s, d][0], d): (s, WRITTEN[s, d][1]) for s in SYMBOLS for d in (-1, 1)}


def read(bits, disparity):
    """The result of ten bits: clean, wrong or invalid; the symbol; the new disparity."""
    if (bits, disparity) in READ:
        return ("clean",) + READ[bits, disparity]
    if (bits, -disparity) in READ:
        return ("wrong",) + READ[bits, -disparity]
    return "invalid", None, disparity


def crc(data):
    """Two bytes: bits least significant first, start all ones, complemented; the coefficient of X15 goes first on the line."""
    register = [1] * 16
    for byte in data:
        for k in range(8):
            out = register[0] ^ (byte >> k & 1)
            register = register[1:] + [0]
            if out:
                for power in (12, 5, 0):
                    register[15 - power] ^= 1
    line = [1 - bit for bit in register]
    return [sum(bit << k for k, bit in enumerate(line[8 * n:8 * n + 8])) for n in (0, 1)]


class Packet:
    def __init__(self, opening):
        self.opening, self.bytes = opening, []


class Reader:
    def __init__(self, size):
        self.size, self.data, self.priority, self.dropping, self.due = size, None, None, False, []

    def violation(self, number):
        self.due = []
        if number == 6:
            if self.priority:
                self.priority = None
            else:
                self.data = None
        elif number != 7:
            self.data = self.priority = None
            self.dropping = True
        return "violation %d" % number

    def opens(self, byte):
        self.due = [{SDP: "channel", SPP: "opening", SLP: "lmp"}[byte]]

    def step(self, how, symbol):
        control, byte = symbol if symbol else (None, None)
        if self.dropping:
            if how == "clean" and control and byte in (SDP, SPP, SLP):
                self.dropping = False
                self.opens(byte)
            return None
        if how == "invalid":
            return self.violation(1)
        if how == "wrong":
            return self.violation(2)
        if control and byte == K28_7:
            return self.violation(3)
        if self.due:
            return self.sequence(control, byte)
        return self.control(byte) if control else self.user(byte)

    def user(self, byte):
        packet = self.priority or self.data
        if packet is None:
            return self.violation(9) if byte else None
        if packet is self.priority and len(packet.bytes) == self.size:
            return self.violation(10)
        packet.bytes.append(byte)
        return None

    def control(self, byte):
        if byte == IDL:
            return None
        if byte == COM:
            self.due = ["idl"] * 3
            return None
        if byte == SLP or (byte == SPP and not self.priority) or (byte == SDP and not self.priority and not self.data):
            self.opens(byte)
            return None
        packet = self.priority or self.data
        if byte in (EGP, EBP) and packet is not None:
            if not packet.bytes:
                return self.violation(8)
            self.bad = byte == EBP
            self.due = ["closing", "crc", "crc"]
            self.check = []
            return None
        return self.violation(4)

    def sequence(self, control, byte):
        due = self.due.pop(0)
        if due == "idl":
            return None if control and byte == IDL else self.violation(4)
        if control:
            return self.violation(4)
        packet = self.priority or self.data
        if due == "channel":
            self.data = Packet(byte)
            return "start data %d" % byte
        if due == "opening":
            self.priority = Packet(byte)
            return "start priority %d" % (byte % 16)
        if due == "closing":
            return None if byte == packet.opening else self.violation(5)
        if due == "crc":
            self.check.append(byte)
            return self.ends(packet) if len(self.check) == 2 else None
        self.lmp = self.lmp + [byte] if due == "lmp more" else [byte]
        if len(self.lmp) < 3:
            self.due = ["lmp more"]
            return None
        return self.managed(*self.lmp)

    def ends(self, packet):
        if self.check != crc(packet.bytes):
            return self.violation(6)
        if packet is self.priority:
            self.priority = None
        else:
            self.data = None
        return "end bad" if self.bad else "end good"

    def managed(self, kind, number, check):
        if check != kind ^ number:
            return self.violation(7)
        if kind in (0x20, 0x21) and number < 16:
            return "lmp %s %d" % (("ACK", "NACK")[kind - 0x20], number)
        return None


def bits_of(capture):
    return "".join(format(byte, "08b") for byte in capture)


def is_legal(capture):
    closing = 8 * len(capture) % 10
    return len(capture) <= MOST and len(capture) % 5 != 1 and "1" not in bits_of(capture)[8 * len(capture) - closing:]


def listing(capture):
    if not is_legal(capture):
        return "refused 8\n"
    line, count = bits_of(capture), 8 * len(capture) // 10
    reader, disparity, lines = Reader(8), -1, ["place event detail"]
    for place in range(count):
        how, symbol, disparity = read(line[10 * place:10 * place + 10], disparity)
        event = reader.step(how, symbol)
        if event:
            lines.append("%d %s" % (place, event))
    lines.append("end %d %d" % (count, len(lines) - 1))
    return "\n".join(lines) + "\n"


if __name__ == "__main__":
    sys.stdout.write(listing(sys.stdin.buffer.read()))
