#!/usr/bin/env python3
"""Makes the script of calls that `retry_vectors` runs, and what it must print: make.py SCRIPT EXPECTED [SEED CALLS]

The bench's rows come first, then long mixed scripts of calls. Each call is 16 bytes (see `call`). The expected lines come from model.py alone.
"""
import random
import sys

import model

FRESH_SENDER, OFFER, SEND, REPLY, DAMAGED_REPLY, TICK, RESET, SET_SENDER, FRESH_RECEIVER, ARRIVAL, DAMAGED_ARRIVAL, SET_RECEIVER = range(12)
COUNTERS = ("oldest", "stored", "outstanding", "point", "released", "timer", "expiries", "columns", "size", "link")


def call(what, a=0, b=0, c=0, flags=0, seed=0):
    return bytes((what, flags, seed, 0)) + b"".join(n.to_bytes(4, "little") for n in (a, b, c))


def bench():
    """Document 01, "On the bench", and the rows beside it."""
    def received(n):
        return [call(FRESH_RECEIVER, b=8)] + [call(ARRIVAL, k % 16, 3, 2 + 65536 * 8, 2, k) for k in range(n)]

    def arrives(k):
        return [call(ARRIVAL, k, 3, 2 + 65536 * 8, 2, 7)]

    def sent(n):
        return [call(FRESH_SENDER, 100, 8)] + [call(OFFER, 3, 2, 64, 0, k) for k in range(n)] + [call(SEND, 0, 8, 64)] * n

    rows = []
    rows += received(0) + arrives(12)                                   # fresh receiver, segment 12: NACK 0
    rows += received(3) + arrives(11) + arrives(2)                      # three received, segment 11: NACK 3; segment 2: ACK 2
    rows += received(10) + arrives(2) + arrives(1)                      # ten received: 2 gives ACK 2, 1 gives NACK 10
    rows += sent(3) + [call(REPLY, 0, flags=1), call(REPLY, 0)]         # 0 to 2 sent, NACK, then ACK 0: oldest 1, send point 1
    rows += sent(3) + [call(REPLY, 2)]                                  # ACK 2 covers no earlier segment
    rows += sent(3) + [call(REPLY, 12)]                                 # ACK 12 is none of the really released
    rows += [call(FRESH_SENDER, 100, 8)] + [call(OFFER, 3, 2, 64, 0, k) for k in range(9)]   # eight accepted, the ninth is 5
    rows += [call(FRESH_SENDER, 1, n) for n in (8, 4, 12, 1024, 2048, 0)] + [call(FRESH_RECEIVER, b=n) for n in (8, 4, 12, 1024, 2048, 65544)]
    rows += [call(FRESH_SENDER, n, 8) for n in (0, 1, 65535, 65536, 65537)]
    return rows


class Mixed:
    """A random mix of calls, chosen with an eye on the state so that all windows, expiries and wraps come about."""

    def __init__(self, seed):
        self.r = random.Random(seed)

    def one(self, s, rec):
        r = self.r
        size = s.size if s.size in (8, 16, 32, 64, 128) else 8
        lent = 8 * size if r.random() < 0.95 else r.choice((0, 8 * size - 1, 8 * size + 1, 64, 1024))
        length = r.choice((1, size, r.randint(1, size), r.randint(1, size), r.randint(1, size), 0, size + 1)) if r.random() < 0.5 else r.randint(1, size)
        channel = r.randint(0, 15) if r.random() < 0.93 else r.choice((16, 255, 256, 259, 65539, 2**32 - 1))
        flags, seed, pick = r.randint(0, 3), r.randint(0, 255), r.random()
        if s.link == model.DOWN and r.random() < 0.3:
            return call(RESET, r.choice((1, 2, 3, 5, 9)), r.choice((8, 16, 32)))
        if not model.sender_keeps_rule(s) and r.random() < 0.2:
            return call(FRESH_SENDER, r.choice((1, 2, 3, 5, 9)), r.choice((8, 16, 32)))
        if not model.receiver_keeps_rule(rec) and r.random() < 0.1:
            return call(FRESH_RECEIVER, b=r.choice((8, 16, 32)))
        if pick < 0.20:
            return call(OFFER, channel, length, lent, flags, seed)
        if pick < 0.40:
            k = s.lengths[(s.oldest + s.point) % 8]
            room = r.choice((k, k + 1, max(k - 1, 0), 0, 128)) if r.random() < 0.4 else 128
            return call(SEND, 0, room, lent)
        if pick < 0.55:
            near = (s.oldest + r.choice((0, 0, 0, 0, 0, -1, -1, 1, -8, -9, 7, 8))) % 16
            number = near if r.random() < 0.9 else r.choice((r.randint(0, 15), 16, 255, 256, 272, 2**31))
            return call(REPLY, number, flags=1 if r.random() < 0.3 else 0)
        if pick < 0.57:
            return call(DAMAGED_REPLY)
        if pick < 0.75:
            return call(TICK)
        if pick < 0.752:
            return call(RESET, r.choice((0, 1, 2, 3, 4, 7, 65535, 65536)), r.choice((8, 16, 32, 64, 128, 4, 12, 2048)))
        if pick < 0.762:
            which = r.randint(0, 11)
            return call(SET_SENDER, r.randint(0, 8), r.choice((0, 1, 2, 3, 4, 7, 8, 9, 12, 15, 16, 255, 1024)), seed=which)
        if pick < 0.96:
            near = (rec.expected + r.choice((0, 0, 0, 0, 0, -1, -1, 1, -8, -9, 7))) % 16
            number = near if r.random() < 0.95 else r.choice((r.randint(0, 15), 16, 17, 256, 2**32 - 1))
            size = rec.size if rec.size in (8, 16, 32, 64, 128) else 8
            length = r.randint(1, size) if r.random() < 0.9 else r.choice((0, size, size + 1))
            room = r.choice((length, length + 1, max(length - 1, 0), 0)) if r.random() < 0.2 else 128
            return call(ARRIVAL, number, channel, length + 65536 * min(room, 128), (flags & 1) | (2 if r.random() < 0.85 else 0), seed)
        if pick < 0.975:
            return call(DAMAGED_ARRIVAL)
        if pick < 0.98:
            return call(FRESH_RECEIVER, b=r.choice((8, 16, 32, 128, 4, 12)))
        if pick > 0.99:
            return call(TICK)
        return call(SET_RECEIVER, b=r.choice((0, 1, 5, 7, 8, 9, 15, 16, 24, 32)), seed=r.randint(0, 2))


class Run:
    """The same machine as `retry_vectors`: the ends, 1,024 bytes for the buffers, 128 for the output."""

    def __init__(self):
        self.s = model.fresh_sender(1, 8)[1]
        self.r = model.fresh_receiver(8)[1]
        self.memory = bytearray(b"\xaa" * 1024)
        self.output = bytearray(b"\x55" * 128)
        self.lines = []

    def step(self, c, script):
        what, flags, seed = c[0], c[1], c[2]
        a, b, d = (int.from_bytes(c[i:i + 4], "little") for i in (4, 8, 12))
        first_flag, second_flag = bool(flags & 1), bool(flags & 2)
        part = lambda n: script[min(8 * seed, len(script)):][:n]
        if what == FRESH_SENDER:
            no, self.s = model.fresh_sender(a, b)
            said = ("fresh-sender", no)
        elif what == OFFER:
            no, number, self.s = model.offer(self.s, self.memory, min(d, 1024), a, first_flag, part(b))
            said = ("offer", no, number)
        elif what == SEND:
            answer, self.s = model.send(self.s, self.memory, min(d, 1024), self.output, min(b, 128))
            said = ("send",) + answer
        elif what == REPLY:
            no, self.s = model.reply(self.s, first_flag, a)
            said = ("reply", no)
        elif what == DAMAGED_REPLY:
            no, self.s = model.damaged_reply(self.s)
            said = ("damaged-reply", no)
        elif what == TICK:
            no, fell, self.s = model.tick(self.s)
            said = ("tick", no, fell)
        elif what == RESET:
            no, self.s = model.reset(self.s, a, b)
            said = ("reset", no)
        elif what == SET_SENDER:
            self.s = self.set_sender(seed, min(a, 8), b)
            said = ("set-sender",)
        elif what == FRESH_RECEIVER:
            no, self.r = model.fresh_receiver(b)
            said = ("fresh-receiver", no)
        elif what == ARRIVAL:
            answer, self.r = model.arrival(self.r, a, b, first_flag, part(d % 65536), second_flag, self.output, min(d // 65536, 128))
            said = ("arrival",) + answer
        elif what == DAMAGED_ARRIVAL:
            answer, self.r = model.damaged_arrival(self.r)
            said = ("damaged-arrival",) + answer
        else:
            self.r = self.set_receiver(seed, b)
            said = ("set-receiver",)
        state = self.s.fields() if what < FRESH_RECEIVER else self.r.fields()
        shown = said + ("|",) + state + ("|", self.sum(self.memory), self.sum(self.output))
        self.lines.append(" ".join(x if isinstance(x, str) else str(int(x)) for x in shown))

    def set_sender(self, which, at, to):
        s = model.copy.deepcopy(self.s)
        if which < 10:
            setattr(s, COUNTERS[which], to % (65536 if COUNTERS[which] in ("timer", "columns", "size") else 256))
        elif at < 8:
            if which == 10:
                s.channels[at] = to % 256
            else:
                s.lengths[at] = to % 65536
        return s

    def set_receiver(self, which, to):
        r = model.copy.deepcopy(self.r)
        if which == 0:
            r.expected = to % 256
        elif which == 1:
            r.received = to % 256
        else:
            r.size = to % 65536
        return r

    @staticmethod
    def sum(data):
        total = 0
        for x in data:
            total = (total * 31 + x) % 65521
        return total


def make(seed, calls):
    """The mix is chosen against a run whose segments' contents do not matter; the lines come from a second run over the whole script."""
    chosen, plan, mixed = bench(), Run(), Mixed(seed)
    for c in chosen:
        plan.step(c, bytes(4096))
    while len(chosen) < calls:
        c = mixed.one(plan.s, plan.r)
        plan.step(c, bytes(4096))
        chosen.append(c)
    script = b"".join(chosen)
    run = Run()
    for c in chosen:
        run.step(c, script)
    return script, "".join(line + "\n" for line in run.lines)


if __name__ == "__main__":
    script, expected = make(*(int(x) for x in (sys.argv[3:5] or ("1", "2500"))))
    open(sys.argv[1], "wb").write(script)
    open(sys.argv[2], "w").write(expected)
