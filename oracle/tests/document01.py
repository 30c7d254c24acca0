#!/usr/bin/env python3
"""Document 01's rules for checksum, header and NAK reading, written a second time and held against
the Rust's answers to a list of commands, except where document 02's C-05 gives file data refusal 21:

    document01.py COMMANDS ANSWERS

Each `crc`, `header` and `read` is checked, with the word for the domain. A refusal must be the
Rust's error that README.md puts beside its number. 1 and 6 are one error there; that they can be
told apart (1 exactly when the length found is the buffer's) is counted here too. The checksum is
Python's own. The last line gives the figures; ends with 1 if anything differs.
"""
import binascii
import collections
import sys

ERRORS = {
    1: "err FromSliceTooSmall {} {}",
    2: "err CfdpVersionMissmatch {}",
    3: "err InvalidEntityLen {}",
    4: "err InvalidTransactionSeqNumLen {}",
    5: "err Checksum {}",
    6: "err FromSliceTooSmall {} {}",
    7: "err InvalidDirectiveType {} expected Nak",
    8: "err WrongDirectiveType {} expected Ack",
}


def number(b, at, width):
    return int.from_bytes(b[at:at + width], "big")


def checksum(b):
    return binascii.crc_hqx(b, 0xFFFF)


def header(b):
    """(refusal, None), or (None, the header's h, d, flags and REC)."""
    if len(b) < 4:
        return (1, len(b), 4), None
    if b[0] >> 5 != 1:
        return (2, b[0] >> 5), None
    e, s = (b[3] >> 4) % 8 + 1, b[3] % 8 + 1
    if e not in (1, 2, 4, 8):
        return (3, e), None
    if s not in (1, 2, 4, 8):
        return (4, s), None
    h = 4 + 2 * e + s
    if len(b) < h:
        return (1, len(b), h), None
    d = number(b, 1, 2)
    bits = [b[0] >> k & 1 for k in (4, 3, 2, 1, 0)] + [b[3] >> k & 1 for k in (7, 3)]
    fields = [e, number(b, 4, e), s, number(b, 4 + e, s), e, number(b, 4 + e + s, e)]
    rec = " ".join(map(str, bits + [d] + fields))
    return None, (h, d, bits[3], bits[4], rec)


def file_data(b):
    return b[0] >> 4 & 1 == 1


def reading(b):
    """(whether the two are compared, refusal or None, text if accepted)."""
    refused, parts = header(b)
    if refused:
        return True, refused, None
    h, d, crc, large, rec = parts
    p, f = h + d, 16 if large else 8
    if len(b) < p:
        return True, (1, len(b), p), None
    if crc and checksum(b[:p]) != 0:
        return True, (5, number(b, p - 2, 2)), None
    data_end = p - 2 * crc
    compared = data_end < 9 or not file_data(b) and h + 1 + f <= data_end
    for refusal, holds in [
        ((1, len(b), 9), len(b) < 9),
        ((6, data_end, 9), data_end < 9),
        ((6, data_end, h + 1), data_end < h + 1),
        ((7, b[h] if h < len(b) else 0), h < len(b) and b[h] not in (4, 5, 6, 7, 8, 9, 12)),
        ((8, b[h] if h < len(b) else 0), h < len(b) and b[h] != 8),
        ((6, data_end, h + 1 + f), data_end < h + 1 + f),
    ]:
        if holds:
            return compared, refusal, None
    area_start, count = h + 1 + f, (data_end - h - 1 - f) // f
    numbers = [number(b, area_start + k * f // 2, f // 2) for k in range(2 * count)]
    shown = ["none"] if area_start == data_end else numbers
    scope = f"{number(b, h + 1, f // 2)} {number(b, h + 1 + f // 2, f // 2)}"
    text = f"ok {rec} scope {scope} count {count} end {data_end} requests"
    return compared, None, " ".join([text] + [str(n) for n in shown])


def error(refusal):
    return ERRORS[refusal[0]].format(*refusal[1:])


def expected(name, b):
    if name == "crc":
        return True, None, f"ok {checksum(b)}"
    if name == "header":
        refused, parts = header(b)
        return True, refused, None if refused else f"ok {parts[4]} length {parts[0]}"
    return reading(b)


def main():
    count = collections.Counter()
    with open(sys.argv[1]) as commands, open(sys.argv[2]) as answers:
        for line, answer in zip(commands, answers, strict=True):
            name, _, rest = line.strip().partition(" ")
            if name not in ("crc", "header", "read"):
                continue
            b = bytes.fromhex("" if rest == "-" else rest)
            word, _, seen = answer.strip().partition(" ")
            compared, refused, text = expected(name, b)
            if not compared:
                count["outside"] += 1
                count["accepted outside"] += seen.startswith("ok") and not file_data(b)
                count["differ"] += word != "out"
                continue
            count["inside"] += 1
            told = refused is None or refused[0] not in (1, 6) or (refused[0] == 1) == (refused[1] == len(b))
            count["not told apart"] += not told
            count["differ"] += word != "in" or seen != (error(refused) if refused else text)
            count[f"refusal {refused[0]}" if refused else "accepted"] += 1
    figures = ", ".join(f"{n} {what}" for what, n in sorted(count.items()) if n)
    print(figures)
    bad = ["differ", "not told apart", "accepted outside"]
    print(", ".join(f"{count[what]} {what}" for what in bad))
    return 1 if any(count[what] for what in bad) else 0


if __name__ == "__main__":
    sys.exit(main())
