#!/usr/bin/env python3
"""Document 02's log of NAKs heard and ranges resent (C-13), byte by byte, written a second time and held against the port's answers:

    owed.py list SEED COUNT             prints so many `owed` commands, the same for the same seed
    owed.py check COMMANDS ANSWERS      checks the answers, refusals, offsets and ranges
    owed.py limits                      prints the commands of LIMITS; `owed.py wanted` how each must end
    owed.py ended < ANSWERS             how each answer ends, in the same words
    owed.py entries < LOG               prints what the program nakowed prints of a log

What is owed is a set of bytes here, and its ranges are read off that set. So offsets of a log lie within some thousand bytes of each
other: at 0, beside 2^32, or up to 2^64 - 1. A pair that a damaged log makes longer is cut down to the places where something changes.
The last line gives the figures; ends with 1 if anything differs.
"""
import sys

from document01 import number
from document02 import Refused, bytes_of, refuse_if
from naks import check, listed, nak, read, rising

HEARD, RESENT = 1, 2
MOST_RANGES = 256
MOST_BYTES = 20000


# The model


def refuse_disorder(pairs, at):
    last = 0
    for start, end in pairs:
        refuse_if(not (start < end and last <= start), 18, at)
        last = end


class Bytes:
    """A set of bytes. Most are few, and kept one by one; where a pair is long, stretches between edges stand for their bytes."""

    def __init__(self, logged):
        """Of all pairs that a log has: the places where something may change."""
        edges = sorted({n for pair in logged for n in pair})
        few = not edges or edges[-1] - edges[0] <= MOST_BYTES
        self.places = list(range(edges[0], edges[-1] + 1)) if edges and few else edges
        self.owed = set()

    def between(self, start, end):
        return {place for place in self.places if start <= place < end}

    def ranges(self):
        found = []
        for place, after in zip(self.places, self.places[1:]):
            if place not in self.owed:
                continue
            if found and found[-1][1] == place:
                found[-1] = (found[-1][0], after)
            else:
                found.append((place, after))
        return found


def entry(b, at):
    """Where the next begins, its tag and its contents; or 26."""
    refuse_if(len(b) < at + 3, 26, at)
    following = at + 3 + number(b, at + 1, 2)
    refuse_if(len(b) < following, 26, at)
    refuse_if(b[at] not in (HEARD, RESENT), 26, at)
    refuse_if(b[at] == RESENT and following != at + 19, 26, at)
    return following, b[at], b[at + 3 : following]


def asked(contents, at, first):
    """The pairs of a NAK, the metadata pair left out, and its transaction; or a refusal."""
    transaction, pairs = read(contents)
    if pairs[:1] == [(0, 0)]:
        pairs = pairs[1:]
    refuse_disorder(pairs, at)
    refuse_if(first not in (None, transaction), 19)
    return transaction, pairs


def logged(b):
    """All pairs of a log, as far as it is read."""
    at, found = 0, []
    try:
        while at < len(b):
            following, tag, contents = entry(b, at)
            found += read(contents)[1] if tag == HEARD else [(number(contents, 0, 8), number(contents, 8, 8))]
            at = following
    except Refused:
        pass
    return found


def steps(b):
    """After each entry its offset and the ranges owed; last the offset where the run stands, its ranges, and the refusal."""
    owed, first, at = Bytes(logged(b)), None, 0
    while at < len(b):
        before, known = set(owed.owed), first
        try:
            following, tag, contents = entry(b, at)
            if tag == HEARD:
                first, pairs = asked(contents, at, first)
                for start, end in pairs:
                    owed.owed |= owed.between(start, end)
            else:
                start, end = number(contents, 0, 8), number(contents, 8, 8)
                refuse_disorder([(start, end)], at)
                owed.owed -= owed.between(start, end)
            refuse_if(len(owed.ranges()) > MOST_RANGES, 27)
        except Refused as refusal:
            owed.owed = before
            yield at, owed.ranges(), refusal.args
            return
        yield at, owed.ranges(), None
        at = following
    yield at, owed.ranges(), ()


def answer(log):
    """Of a command's word."""
    *_, (at, ranges, refused) = steps(bytes_of(log))
    words = ["refused", *refused] if refused else ["ok"]
    return " ".join(map(str, [*words, "at", at, "ranges", *(n for pair in ranges for n in pair)]))


def entries(b):
    for at, ranges, refused in steps(b):
        if refused is None:
            yield f"at {at}"
            yield from (f"owed {start} {end}" for start, end in ranges)
        elif refused:
            yield " ".join(map(str, ["refused", *refused, "at", at]))
        else:
            yield f"end {at}"


# The list


def field(tag, contents):
    return bytes([tag]) + len(contents).to_bytes(2, "big") + contents


def resent(start, end):
    return field(RESENT, start.to_bytes(8, "big") + end.to_bytes(8, "big"))


def many(chance, base, count):
    """A NAK's worth of single bytes, apart, so that a log comes near 256 ranges."""
    gaps = [chance.choice((2, 2, 3)) for _ in range(count)]
    starts = [base + sum(gaps[:i]) for i in range(count)]
    return [(start, start + 1) for start in starts]


def crowded(chance, base, large, transaction):
    """A log that owes 255, 256 or 257 ranges, gives some up, and owes others: in one entry, or in one after another."""
    count = chance.choice((254, 255, 256, 257))
    pairs = many(chance, base, count)
    cut = chance.choice((0, 100, 200))
    log = [nak(chance, part, large, transaction) for part in (pairs[:cut], pairs[cut:]) if part]
    entries = [field(HEARD, pdu) for pdu in log]
    far = pairs[-1][1] + 2
    for _ in range(chance.randrange(4)):
        start, end = chance.choice(pairs)
        other = chance.choice(((start, end), (start, end + 2), (far, far + 1), (base, far + 9)))
        if chance.randrange(2):
            entries.append(resent(*chance.choice(((start, end), (start, chance.choice(pairs)[1] + 1), (base, far)))))
        else:
            entries.append(field(HEARD, nak(chance, [other], large, transaction)))
    return entries


def ordinary(chance, base, large, transaction):
    entries = []
    for _ in range(chance.randrange(9)):
        if chance.random() < 0.55:
            most = chance.choice((1, 3, 8))
            pairs = rising(chance, base + chance.choice((0, 0, chance.randrange(300))), base + 300, most, 0.04)
            if chance.random() < 0.15:
                pairs = [(0, 0)] + pairs
            own = transaction if chance.random() < 0.97 else (transaction[0], (transaction[1] + 1) % 200)
            pdu = nak(chance, pairs, large, own)
            entries.append(field(HEARD, damaged(chance, pdu, 0.03) + chance.randbytes(chance.choice((0, 0, 0, 3)))))
        else:
            start = base + chance.randrange(300)
            end = start + chance.choice((1, 1, 2, 5, 20, 100))
            entries.append(resent(start, end) if chance.random() < 0.98 else resent(end, chance.choice((start, end))))
    return entries


def damaged(chance, b, often):
    """At times cut, or with a bit turned."""
    kind = chance.random()
    if not b or kind > often:
        return b
    at = chance.randrange(len(b))
    return b[:at] if kind < often / 2 else b[:at] + bytes([b[at] ^ 1 << chance.randrange(8)]) + b[at + 1 :]


def command(chance):
    base = chance.choice((0, 0, 0, 2**32 - 301, 2**32 - 100, 2**64 - 1001))
    large = 1 if base + 2000 >= 2**32 else chance.randrange(2)
    transaction = chance.randrange(200), chance.randrange(200)
    make = crowded if chance.random() < 0.03 else ordinary
    entries = make(chance, base, large, transaction)
    if chance.random() < 0.03:
        odd = field(chance.choice((0, 3, 255)), b"") if chance.randrange(2) else field(RESENT, bytes(chance.choice((0, 15, 17))))
        entries.insert(chance.randrange(len(entries) + 1), odd)
    if chance.random() < 0.02:
        entries.insert(chance.randrange(len(entries) + 1), field(HEARD, b""))
    log = damaged(chance, b"".join(entries), 0.08)
    return f"owed {log.hex() or '-'}"


# The limits: logs that come to 256 ranges, and how each must end, written from the document by hand


def plain(*pairs, sequence=2):
    data = b"\x08" + bytes(8) + b"".join(n.to_bytes(4, "big") for pair in pairs for n in pair)
    return field(HEARD, b"\x28" + len(data).to_bytes(2, "big") + bytes([0, 1, sequence, 3]) + data)


def apart(count):
    """So many ranges of three bytes, one byte apart, from 100 on."""
    return [(100 + 4 * i, 103 + 4 * i) for i in range(count)]


FULL = plain(*apart(256))
LIMITS = (
    (plain(*apart(255)), "ok 255"),
    (FULL, "ok 256"),
    (plain(*apart(257)), "refused 27 0"),
    (plain(*apart(100)) + plain(*apart(256)[100:]), "ok 256"),
    (plain(*apart(100)) + plain(*apart(257)[100:]), "refused 27 100"),
    # one more; one that touches; one that joins two
    (FULL + plain((0, 1)), "refused 27 256"),
    (FULL + plain((99, 100)), "ok 256"),
    (FULL + plain((103, 104)), "ok 255"),
    # 257 on the way: a new range in front, and then one that joins two
    (FULL + plain((0, 1), (103, 104)), "ok 256"),
    (FULL + plain((0, 1), (5, 6), (103, 104)), "refused 27 256"),
    (FULL + plain(*((i, i + 1) for i in range(0, 90, 2)), (95, 5000)), "ok 46"),
    # room given up is used again
    (FULL + resent(104, 107) + plain((0, 1)), "ok 256"),
    (FULL + resent(104, 107) + plain((0, 1), (5, 6)), "refused 27 255"),
    (FULL + resent(104, 107) + plain((0, 1)) + resent(0, 1) + plain((104, 107)), "ok 256"),
    # a resent range that splits one; that takes an end of two; that splits one where there is room
    (FULL + resent(105, 106), "refused 27 256"),
    (FULL + resent(106, 109), "ok 256"),
    (plain(*apart(255)) + resent(105, 106), "ok 256"),
    # 300 pairs that touch are one range; as many of which each second is owed already
    (plain(*((i, i + 1) for i in range(300))), "ok 1"),
    (FULL + plain(*((103 + 4 * i, 104 + 4 * i) for i in range(255))), "ok 1"),
    # 18 and 19 before 27
    (FULL + plain((1, 0)), "refused 18 256"),
    (FULL + plain((0, 1), sequence=9), "refused 19 256"),
)


def ended(said):
    """An answer's first word, a refusal's number, and how many ranges."""
    words = said.split()
    return " ".join(words[: 2 if words[0] == "refused" else 1] + [str((len(words) - words.index("ranges")) // 2)])


def full(wanted):
    if len(wanted.split(" ranges ")[-1].split()) == 2 * MOST_RANGES:
        yield "with 256 ranges"


if __name__ == "__main__":
    if sys.argv[1:2] == ["list"]:
        listed(command, *map(int, sys.argv[2:]))
    elif sys.argv[1:2] == ["limits"]:
        print(*(f"owed {log.hex()}" for log, _ in LIMITS), sep="\n")
    elif sys.argv[1:2] == ["wanted"]:
        print(*(wanted for _, wanted in LIMITS), sep="\n")
    elif sys.argv[1:2] == ["ended"]:
        print(*map(ended, sys.stdin), sep="\n")
    elif sys.argv[1:2] == ["entries"]:
        print(*entries(sys.stdin.buffer.read()), sep="\n")
    else:
        sys.exit(check("owed", answer, *sys.argv[2:], kinds=full))
