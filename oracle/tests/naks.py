"""What the models of two NAKs compared (differ.py) and of a log (owed.py) share: a NAK read, one made by chance, and answers checked.

Reading is that of document02.py, and the checksum Python's own.
"""
import collections
import random

from document01 import checksum, number
from document02 import directive, refuse_if

NAK = 8


def read(b):
    """Source and sequence number, and the pairs; or a refusal."""
    h, data_end, width, rec = directive(b, NAK)
    area_start = h + 1 + 2 * width
    refuse_if(data_end < area_start, 6, data_end, area_start)
    whole = (data_end - area_start) // (2 * width)
    starts = [area_start + 2 * width * i for i in range(whole)]
    words = rec.split()
    return (words[9], words[11]), [(number(b, at, width), number(b, at + width, width)) for at in starts]


def nak(chance, pairs, large, transaction):
    """The NAK's bytes, its header and scope by chance."""
    size = 8 if large else 4
    entity, sequence = chance.choice((1, 2, 4, 8)), chance.choice((1, 2, 4, 8))
    crc = chance.randrange(2)
    ids = transaction[0].to_bytes(entity, "big") + transaction[1].to_bytes(sequence, "big") + chance.randbytes(entity)
    data = b"\x08" + chance.randbytes(2 * size) + b"".join(n.to_bytes(size, "big") for pair in pairs for n in pair)
    data += chance.randbytes(chance.choice((0, 0, 0, 1, size, 2 * size - 1)))
    flags = 0x20 | chance.randrange(4) << 2 | crc << 1 | large
    widths = chance.randrange(2) << 7 | entity - 1 << 4 | chance.randrange(2) << 3 | sequence - 1
    pdu = bytes([flags]) + (len(data) + 2 * crc).to_bytes(2, "big") + bytes([widths]) + ids + data
    return pdu + checksum(pdu).to_bytes(2, "big") if crc else pdu


def rising(chance, at, stop, most, often):
    """Pairs in order from `at` up to `stop`, often touching; as often as said one is damaged."""
    pairs = []
    for _ in range(chance.randrange(most + 1)):
        at += chance.choice((0, 0, 1, 2, 5, 9))
        end = at + chance.choice((1, 1, 2, 3, 7, 12))
        if end > stop:
            break
        pairs.append((at, end))
        at = end
    if pairs and chance.random() < often:
        i = chance.randrange(len(pairs))
        start, end = pairs[i]
        pairs[i] = chance.choice(((end, start), (start, start), (0, 0), (max(0, start - 3), end)))
    return pairs


def listed(command, seed, count):
    """Prints so many commands, the same for the same seed."""
    chance = random.Random(seed)
    for _ in range(count):
        print(command(chance))


def check(name, answer, commands, answers, kinds=lambda wanted: ()):
    """Holds the port's answers to the commands of that name against `answer` of their words; counts them, and their further kinds."""
    checked, differ, given = 0, 0, collections.Counter()
    for line, said in zip(open(commands), open(answers), strict=True):
        words = line.split()
        if not words or words[0] != name:
            continue
        wanted = answer(*words[1:])
        checked += 1
        given[" ".join(wanted.split()[: 2 if wanted.startswith("refused") else 1])] += 1
        given.update(kinds(wanted))
        if said.strip() != wanted:
            differ += 1
            if differ <= 20:
                print(f"{line.strip()}\nthe document: {wanted}\nthe port:     {said.strip()}")
    for what, count in sorted(given.items()):
        print(f"{what}: {count}")
    print(f"{checked} checked, {differ} differ")
    return 1 if differ or not checked else 0
