#!/usr/bin/env python3
"""Prints commands that have several faults at once, so that the order of the refusals shows: faults.py COUNT SEED, COUNT of each command."""
import random
import sys

from document01 import checksum

WIDTHS = (1, 2, 4, 8)


def often(usual, *others, most=3):
    """The usual thing, but for one time in so many."""
    return usual if random.randrange(most) else random.choice(others)


def value(width):
    """A number that fits, at times just not."""
    return often(random.randrange(256 ** min(width, 8)), 256 ** min(width, 7), 2**64 - 1, most=12)


def rec():
    e, s = often(random.choice(WIDTHS), 0, 3, 9, most=12), often(random.choice(WIDTHS), 0, 5, 16, most=12)
    flags = [often(0, 1, most=8)] + [random.randrange(2) for _ in range(6)]
    fields = [e, value(e), s, value(s), often(e, 1, 2, most=12), value(e)]
    return " ".join(map(str, flags + [random.randrange(40)] + fields))


def offset():
    return often(random.randrange(2**32), 2**32, 2**64 - 1)


def numbers():
    kind = random.choice("nl")
    if random.randrange(20) == 0:
        return f"{kind}:{random.choice((4094, 4095, 8190, 8191))}*1,2"
    return random.choice(("none", kind + ":" + ",".join(str(random.randrange(100)) for _ in range(random.randrange(6)))))


def room():
    return f"{random.choice((0, 5, 20, 40, 100))}*EE"


def fault():
    width = often(random.choice(WIDTHS), 3, 9)
    return random.choice(("-", f"{width}:{value(width)}"))


def fields(*heads):
    """A field behind each head: a length, often true, and so many bytes."""
    values = [bytes(random.choice((0, 1, 5))) for _ in heads]
    return b"".join(head + bytes([often(len(body), 200, most=8)]) + body for head, body in zip(heads, values))


def options():
    return fields(*random.choice(((), (), (b"\2",), (b"\6", b"\x63"))))


def name():
    return often(random.choice(("-", "61", "622e62")), "255*61", "256*61")


def pdu(code):
    """A PDU with any of the faults that a reader knows, in a buffer that may be cut."""
    e, s, crc = often(random.choice(WIDTHS), 3, 5, most=12), often(random.choice(WIDTHS), 6, 7, most=12), random.randrange(2)
    first = often(1, 0, 2, most=12) * 32 + often(0, 1, most=8) * 16 + random.randrange(4) * 4 + crc * 2 + random.randrange(2)
    data = bytes([often(code, 4, 5, 6, 7, 8, 10)]) + random.randbytes(random.choice((0, 1, 2, 8, 9, 10, 13, 16, 20, 33)))
    if code == 4 and random.randrange(2):
        width = often(random.choice(WIDTHS), 3)
        data = data[:10].ljust(10, b"\0") + bytes([often(6, 5), width]) + bytes(often(width, width + 1))
    if code == 7 and random.randrange(4):
        data = bytes([data[0], often(random.choice((0, 1, 67, 15)), 4, 142)]) + bytes(random.choice((4, 8))) + fields(b"", b"") + options()
    data = data[: random.choice((len(data), len(data), len(data), random.randrange(len(data) + 1), 1, 0))]
    message = bytes([first]) + (len(data) + 2 * crc).to_bytes(2, "big") + bytes([(e - 1) * 16 + s - 1]) + random.randbytes(2 * e + s) + data
    if crc:
        message += (checksum(message) + often(0, 1)).to_bytes(3, "big")[1:]
    message += bytes(random.choice((0, 0, 4)))
    return message[: often(len(message), random.randrange(len(message) + 1))].hex() or "-"


COMMANDS = (
    lambda: f"header {pdu(8)}",
    lambda: f"read {pdu(8)}",
    lambda: f"eof {pdu(4)}",
    lambda: f"ack {pdu(6)}",
    lambda: f"build {rec()}",
    lambda: f"wheader {rec()} {room()}",
    lambda: f"verify {rec()} {pdu(8)}",
    lambda: f"write {rec()} {offset()} {offset()} {numbers()} {room()}",
    lambda: f"reserve {rec()} {often(1, 4095, 8191)} {room()}",
    lambda: f"finish {rec()} {often(1, 4095, 8191)} {offset()} {offset()} {room()}",
    lambda: f"max {rec()} {random.choice((5, 20, 30, 1000))}",
    lambda: f"compare {pdu(8)} {rec()} {offset()} {offset()} {numbers()}",
    lambda: f"weof {rec()} {random.randrange(18)} 7 {offset()} {fault()} {room()}",
    lambda: f"metadata {pdu(7)}",
    lambda: f"wmetadata {rec()} {random.randrange(2)} {often(3, 4, 14, 16, 255)} {offset()} {name()} {name()} "
    f"{often(options().hex() or '-', '65530*00', '65000*00')} {room()}",
    lambda: f"wack {rec()} {often(4, 5, 6, 16)} {random.randrange(18)} {random.randrange(4)} {room()}",
)

random.seed(int(sys.argv[2]))
for command in COMMANDS:
    for _ in range(int(sys.argv[1])):
        print(command())
