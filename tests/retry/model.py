"""Both ends of the retry, from document 01's *Retry* and *Numbered refusals*, for comparison with the proved ones.

Written from the document's sentences: numbers are kept as sets and lists where the product counts with remainders. A state is a plain object with the same
fields as the product's, so that a script can hand over any state, broken ones too. Every call answers a dictionary and hands back a state; a refused call hands
back the one it was given.
"""
import copy

SIZES = (8, 16, 32, 64, 128, 256, 512, 1024)
UP, DOWN = 1, 2


class Sender:
    def __init__(self, link=0, columns=0, size=0):
        self.oldest = self.stored = self.outstanding = self.point = self.released = self.expiries = 0
        self.timer = self.columns = columns
        self.size = size
        self.link = link
        self.lengths, self.channels, self.bad = [0] * 8, [0] * 8, [False] * 8

    def fields(self):
        return (self.oldest, self.stored, self.outstanding, self.point, self.released, self.timer, self.expiries, self.columns, self.size, self.link)


class Receiver:
    def __init__(self, size=0):
        self.expected = self.received = 0
        self.size = size

    def fields(self):
        return self.expected, self.received, self.size


def last_numbers(number, count):
    """The numbers of the last `count` segments before the one with this number."""
    found, n = [], number
    for _ in range(count):
        n = 15 if n == 0 else n - 1
        found.append(n)
    return found


def count_fits(number, count):
    """From fresh the number goes 0, 1, 2 .. and round, and the count with it up to eight: the pairs that can come about."""
    reached, n, c = set(), 0, 0
    for _ in range(40):
        reached.add((n, c))
        n, c = (n + 1) % 16, min(8, c + 1)
    return (number, count) in reached


def slot(s, i):
    """Segment number k lies in buffer k mod 8."""
    return (s.oldest + i) % 16 % 8


def sender_keeps_rule(s):
    if s.size not in SIZES or not 1 <= s.columns <= 65535 or not 1 <= s.timer <= s.columns:
        return False
    if not count_fits(s.oldest, s.released):
        return False
    if not 0 <= s.point <= s.outstanding <= s.stored <= 8:
        return False
    at_start = s.timer == s.columns
    if s.link == UP:
        if s.expiries > 2 or (s.outstanding == 0 and not (at_start and s.expiries == 0)):
            return False
    elif s.link == DOWN:
        if s.expiries != 3 or not at_start or s.outstanding == 0:
            return False
    else:
        return False
    return all(1 <= s.lengths[slot(s, i)] <= s.size and s.channels[slot(s, i)] <= 15 for i in range(s.stored))


def receiver_keeps_rule(r):
    return r.size in SIZES and count_fits(r.expected, r.received)


def first(refusals):
    """Order: 7 first, then 8, then 1 to 6."""
    for n in (7, 8, 1, 2, 3, 4, 5, 6):
        if n in refusals:
            return n
    return 0


# ---- the sender


def fresh_refusals(columns, size):
    found = []
    if not 1 <= columns <= 65535:
        found.append(1)
    if size not in SIZES:
        found.append(2)
    return found


def fresh_sender(columns, size):
    no = first(fresh_refusals(columns, size))
    return no, Sender() if no else Sender(UP, columns, size)


def reset(s, columns, size):
    found = fresh_refusals(columns, size)
    if not sender_keeps_rule(s):
        found.append(1)
    no = first(found)
    return no, s if no else Sender(UP, columns, size)


def sender_refusals(s):
    found = []
    if s.link == DOWN:
        found.append(7)
    if not sender_keeps_rule(s):
        found.append(1)
    return found


def offer(s, buffers, lent, channel, bad, data):
    """`buffers` is altered in place; only its first `lent` bytes are lent."""
    found = sender_refusals(s)
    if lent != 8 * s.size or channel > 15:
        found.append(1)
    if len(data) > s.size:
        found.append(2)
    if not data:
        found.append(4)
    if s.stored == 8:
        found.append(5)
    no = first(found)
    if no:
        return no, 0, s
    t = copy.deepcopy(s)
    k = slot(s, s.stored)
    buffers[k * s.size:k * s.size + len(data)] = data
    t.lengths[k], t.channels[k], t.bad[k] = len(data), channel, bad
    t.stored += 1
    return 0, (s.oldest + s.stored) % 16, t


def send(s, buffers, lent, output, room):
    """`output` is altered in place; only its first `room` bytes are lent. Answers refusal, sent, number, channel, bad, length."""
    found = sender_refusals(s)
    if lent != 8 * s.size:
        found.append(1)
    due = s.point < s.stored
    k = slot(s, s.point)
    if due and room < s.lengths[k]:
        found.append(6)
    no = first(found)
    if no or not due:
        return (no, False, 0, 0, False, 0), s
    t = copy.deepcopy(s)
    n = s.lengths[k]
    output[0:n] = buffers[k * s.size:k * s.size + n]
    t.point += 1
    if s.point == s.outstanding:
        t.outstanding += 1
    return (0, True, (s.oldest + s.point) % 16, s.channels[k], s.bad[k], n), t


def reply(s, nack, number):
    found = sender_refusals(s)
    if number > 15:
        found.append(1)
    no = first(found)
    if no or s.outstanding == 0:
        return no, s
    t = copy.deepcopy(s)
    of_oldest = number == s.oldest
    if of_oldest:
        t.timer, t.expiries = t.columns, 0
    if nack:
        t.point = 0
    elif of_oldest:
        t.oldest = (s.oldest + 1) % 16
        t.stored -= 1
        t.outstanding -= 1
        t.released = min(8, s.released + 1)
        if t.point:
            t.point -= 1
    elif number not in last_numbers(s.oldest, s.released):
        t.point = 0
    return 0, t


def damaged_reply(s):
    return first(sender_refusals(s)), s


def tick(s):
    """Answers refusal, whether this tick took the link down."""
    no = first(sender_refusals(s))
    if no or s.outstanding == 0:
        return no, False, s
    t = copy.deepcopy(s)
    t.timer -= 1
    if t.timer:
        return 0, False, t
    t.timer = t.columns
    t.expiries += 1
    if t.expiries == 3:
        t.link = DOWN
        return 0, True, t
    t.point = 0
    return 0, False, t


# ---- the receiver


def fresh_receiver(size):
    no = 0 if size in SIZES else 2
    return no, Receiver() if no else Receiver(size)


def arrival(r, number, channel, bad, data, room_mark, output, room):
    """`output` is altered in place; only its first `room` bytes are lent. Answers refusal, delivered, nack, number, channel, bad, length."""
    found = []
    if not receiver_keeps_rule(r) or number > 15 or channel > 15:
        found.append(1)
    if len(data) > r.size:
        found.append(2)
    if not data:
        found.append(4)
    deliver = number == r.expected and room_mark
    if deliver and room < len(data):
        found.append(6)
    no = first(found)
    if no:
        return (no, False, False, 0, 0, False, 0), r
    if deliver:
        output[0:len(data)] = data
        t = copy.deepcopy(r)
        t.expected = (r.expected + 1) % 16
        t.received = min(8, r.received + 1)
        return (0, True, False, number, channel, bad, len(data)), t
    if number != r.expected and number in last_numbers(r.expected, r.received):
        return (0, False, False, number, 0, False, 0), r
    return (0, False, True, r.expected, 0, False, 0), r


def damaged_arrival(r):
    if not receiver_keeps_rule(r):
        return (1, False, False, 0, 0, False, 0), r
    return (0, False, True, r.expected, 0, False, 0), r
