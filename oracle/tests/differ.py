#!/usr/bin/env python3
"""Document 02's comparison of two NAKs (C-03), byte by byte, written a second time and held against the port's answers:

    differ.py list SEED COUNT           prints so many `differ` commands, the same for the same seed
    differ.py check COMMANDS ANSWERS    checks the answers; refusals and all lent numbers too

A byte's side is asked of each byte between the least start and the greatest end, so offsets of a list lie within some 200 bytes of
each other: at 0, beside 2^32, or up to 2^64 - 1. The last line gives the figures; ends with 1 if anything differs.
"""
import sys

from document02 import Refused, bytes_of, refuse_if
from naks import check, listed, nak, read, rising

LENT = 7
MOST_BYTES = 4096


# The model


def in_order(file, pairs):
    """Whether there is a metadata pair, and the others; or the first that is out of order."""
    metadata = pairs[:1] == [(0, 0)]
    last = 0
    for place, (start, end) in enumerate(pairs, 1):
        if metadata and place == 1:
            continue
        refuse_if(not (start < end and last <= start), 18, file, place)
        last = end
    return metadata, pairs[1:] if metadata else pairs


def places(pairs):
    """Every byte from the least start to the greatest end; where a damaged pair makes them too many, the starts and ends alone."""
    edges = sorted({n for pair in pairs for n in pair})
    if not edges or edges[-1] - edges[0] > MOST_BYTES:
        return edges
    return range(edges[0], edges[-1] + 1)


def asks(pairs, byte):
    return any(start <= byte < end for start, end in pairs)


def ranges(one, two):
    """The longest ranges of bytes that only one side asks for."""
    found, at = [], places(one + two)
    for byte, after in zip(at, at[1:]):
        first, second = asks(one, byte), asks(two, byte)
        if first == second:
            continue
        side = 1 if first else 2
        if found and found[-1][1:] == [byte, side]:
            found[-1][1] = after
        else:
            found.append([byte, after, side])
    return found


def compared(one, two, lent):
    (transaction1, pairs1), (transaction2, pairs2) = read(one), read(two)
    metadata1, others1 = in_order(1, pairs1)
    metadata2, others2 = in_order(2, pairs2)
    refuse_if(transaction1 != transaction2, 19)
    found = ranges(others1, others2)
    refuse_if(3 * len(found) > lent, 20)
    return f"ok metadata {int(metadata1)} {int(metadata2)} ranges {len(found)}", [n for r in found for n in r]


def answer(one, two, room):
    """Of a command's words."""
    lent = int(room)
    try:
        text, numbers = compared(bytes_of(one), bytes_of(two), lent)
    except Refused as refusal:
        text, numbers = " ".join(map(str, ("refused", *refusal.args))), []
    numbers += [LENT] * (lent - len(numbers))
    return f"{text} lent {','.join(map(str, numbers)) or '-'}"


# The list


def damaged(chance, pdu):
    """At times cut, with a bit turned, or with bytes behind it."""
    kind = chance.random()
    if kind < 0.03:
        return pdu[: chance.randrange(len(pdu))]
    if kind < 0.06:
        at = chance.randrange(len(pdu))
        return pdu[:at] + bytes([pdu[at] ^ 1 << chance.randrange(8)]) + pdu[at + 1 :]
    return pdu + chance.randbytes(chance.choice((0, 0, 3)))


def command(chance):
    base = chance.choice((0, 0, 0, 2**32 - 201, 2**32 - 100, 2**64 - 201))
    most = chance.choice((1, 3, 8, 20))
    one = rising(chance, base, base + 200, most, 0.1)
    two = list(one) if chance.random() < 0.15 else rising(chance, base, base + 200, most, 0.1)
    wide = base + 200 >= 2**32
    transaction = chance.randrange(200), chance.randrange(200)
    pdus = []
    for pairs in (one, two):
        if chance.random() < 0.3:
            pairs = [(0, 0)] + pairs
        own = transaction if chance.random() < 0.95 else (transaction[0], (transaction[1] + 1) % 200)
        pdus.append(damaged(chance, nak(chance, pairs, wide or chance.randrange(2), own)))
    lent = chance.choice((0, 2, 3, 5, 6 * most, 6 * most, 3 * (len(one) + len(two)), 200))
    return f"differ {pdus[0].hex() or '-'} {pdus[1].hex() or '-'} {lent}"


if __name__ == "__main__":
    if sys.argv[1:2] == ["list"]:
        listed(command, *map(int, sys.argv[2:]))
    else:
        sys.exit(check("differ", answer, *sys.argv[2:]))
