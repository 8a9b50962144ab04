#!/usr/bin/env python3
"""The check bytes that crates/crc_vectors has to print, by another method than the code's: long division of the whole message, as one
polynomial over two elements held in an integer, by x^16 + x^12 + x^5 + 1. No register, no table, no byte step."""

DIVISOR = (1 << 16) | (1 << 12) | (1 << 5) | 1


def remainder(dividend, divisor):
    """What the long division of one polynomial by another leaves."""
    width = divisor.bit_length()
    place = dividend.bit_length() - width
    while place >= 0:
        if dividend >> (place + width - 1) & 1:
            dividend ^= divisor << place
        place -= 1
    return dividend


def remainder_of_bits(bits):
    """The same, digit by digit from the front, as on paper: fit for long messages."""
    left = 0
    for bit in bits:
        left = left << 1 | int(bit)
        if left >> 16:
            left ^= DIVISOR
    return left


def check_bytes(message):
    # the line: the least significant bit of each byte first
    line = "".join(format(byte, "08b")[::-1] for byte in message)
    # a start of all ones is the same as turning over the first sixteen bits of the message with sixteen zeros behind it
    padded = line + "0" * 16
    turned = "".join("10"[int(bit)] for bit in padded[:16]) + padded[16:]
    if len(turned) < 2000:
        left = remainder(int(turned, 2), DIVISOR)
        assert left == remainder_of_bits(turned)
    else:
        left = remainder_of_bits(turned)
    # complemented, X15 first on the line, and each byte's first bit on the line is its least significant
    sent = "".join("10"[int(bit)] for bit in format(left, "016b"))
    return int(sent[:8][::-1], 2), int(sent[8:][::-1], 2)


def message(n):
    return [(i % 251 * 7 + i // 7 % 1000 + n % 1000 * 31) % 256 for i in range(n)]


def main():
    messages = [list(b"123456789")]
    messages += [[byte] for byte in range(256)]
    messages += [message(n) for n in range(601)]
    messages += [message(n) for n in (1024, 4099, 20000, 65536)]
    for m in messages:
        print("%02X%02X" % check_bytes(m))


main()
