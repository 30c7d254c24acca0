#!/usr/bin/env python3
"""Document 02's rules for reading and writing an EOF, an ACK (C-01) and a Metadata PDU (C-11), written a second time and held
against the port's answers to a list of commands, refusals and the buffer after the call too:

    document02.py COMMANDS ANSWERS

Header and checksum are those of document01.py. What document 02 leaves open is as docs/DECISIONS.md says.
The last line gives the figures; ends with 1 if anything differs.
"""
import collections
import sys

from document01 import checksum, file_data, header, number

WIDTHS = (1, 2, 4, 8)
KNOWN_DIRECTIVES = (4, 5, 6, 7, 8, 9, 12)
RESERVED_CONDITIONS = (12, 13)
EOF, FINISHED, ACK, METADATA = 4, 5, 6, 7
ENTITY_ID = 6
CHECKSUM_TYPES = (0, 1, 2, 3, 15)


class Refused(Exception):
    """A refusal's number and its values."""


class NotMade(Exception):
    """The port's types hold no such value."""


def refuse_if(holds, *numbers):
    if holds:
        raise Refused(*numbers)


# Reading


def directive(b, own):
    """What stands before a reader's own tests: (h, E, file sizes' width, REC)."""
    refused, parts = header(b)
    if refused:
        raise Refused(*refused)
    h, d, crc, large, rec = parts
    p = h + d
    refuse_if(len(b) < p, 1, len(b), p)
    refuse_if(crc and checksum(b[:p]) != 0, 5, number(b, p - 2, 2))
    data_end = p - 2 * crc
    refuse_if(len(b) < 9, 1, len(b), 9)
    refuse_if(data_end < 9, 6, data_end, 9)
    refuse_if(file_data(b), 21)
    refuse_if(data_end < h + 1, 6, data_end, h + 1)
    refuse_if(b[h] not in KNOWN_DIRECTIVES, 7, b[h])
    refuse_if(b[h] != own, 8, b[h])
    return h, data_end, 8 if large else 4, rec


def eof(b):
    h, data_end, width, rec = directive(b, EOF)
    least = h + 6 + width
    refuse_if(data_end < least, 6, data_end, least)
    condition = b[h + 1] >> 4
    refuse_if(condition in RESERVED_CONDITIONS, 16)
    field = b[least:data_end]
    fault = "-"
    if field:
        good = len(field) > 2 and field[0] == ENTITY_ID and field[1] in WIDTHS
        refuse_if(not good or len(field) != 2 + field[1], 28)
        fault = f"{field[1]}:{number(field, 2, field[1])}"
    sum_, size = number(b, h + 2, 4), number(b, h + 6, width)
    return f"{rec} code {condition} sum {sum_} size {size} fault {fault}"


def ack(b):
    h, data_end, _, rec = directive(b, ACK)
    refuse_if(data_end < h + 3, 6, data_end, h + 3)
    of, condition, status = b[h + 1] >> 4, b[h + 2] >> 4, b[h + 2] % 4
    refuse_if(condition in RESERVED_CONDITIONS, 16)
    refuse_if(of not in (EOF, FINISHED), 17)
    return f"{rec} of {of} code {condition} status {status}"


def field_end(b, at, head, data_end):
    """Where the field at a place ends, `head` bytes before its value, the last of them its length; 25 where it runs
    past `data_end`."""
    refuse_if(at + head > data_end or at + head + b[at + head - 1] > data_end, 25, at)
    return at + head + b[at + head - 1]


def walked(b, at, data_end):
    """Type and value of each option."""
    options = []
    while at < data_end:
        end = field_end(b, at, 2, data_end)
        options.append((b[at], b[at + 2:end]))
        at = end
    return options


def hexed(b):
    return b.hex() or "-"


def metadata(b):
    h, data_end, width, rec = directive(b, METADATA)
    first = h + 2 + width
    refuse_if(data_end < first, 6, data_end, first)
    checksum_type = b[h + 1] % 16
    refuse_if(checksum_type not in CHECKSUM_TYPES, 30)
    second = field_end(b, first, 1, data_end)
    area_start = field_end(b, second, 1, data_end)
    shown = "".join(f" {tag}:{hexed(value)}" for tag, value in walked(b, area_start, data_end))
    names = f"{hexed(b[first + 1:second])} {hexed(b[second + 1:area_start])}"
    closure, size = b[h + 1] >> 6 & 1, number(b, h + 2, width)
    return f"{rec} closure {closure} type {checksum_type} size {size} names {names} options {hexed(b[area_start:data_end])} walked{shown}"


# Writing


class Record:
    """A header record from the 14 numbers of REC."""

    def __init__(self, words):
        n = [int(word) for word in words]
        self.flags, self.fields = n[:7], [(n[8], n[9]), (n[10], n[11]), (n[12], n[13])]
        self.crc, self.size_width = n[3], 8 if n[4] else 4
        if any(width > 255 for width, _ in self.fields):
            raise NotMade

    def judge(self):
        (e, _), (s, _), (other, _) = self.fields
        refuse_if(e != other, 13, e, other)
        refuse_if(e not in WIDTHS, 3, e)
        refuse_if(s not in WIDTHS, 4, s)
        for width, value in self.fields:
            refuse_if(value >= 256**width, 14, value, width)
        refuse_if(self.flags[0] == 1, 21)

    def written(self, direction, data, buf):
        """The answer, and the buffer with the PDU at its front."""
        (e, _), (s, _), _ = self.fields
        d = len(data) + 2 * self.crc
        pdu_type, _, mode, crc, large, control, segment_metadata = self.flags
        pdu = bytes([32 + 16 * pdu_type + 8 * direction + 4 * mode + 2 * crc + large])
        pdu += d.to_bytes(2, "big")
        pdu += bytes([128 * control + 16 * (e - 1) + 8 * segment_metadata + s - 1])
        pdu += b"".join(value.to_bytes(width, "big") for width, value in self.fields) + data
        if crc:
            pdu += checksum(pdu).to_bytes(2, "big")
        refuse_if(len(buf) < len(pdu), 11, len(buf), len(pdu))
        rec = [pdu_type, direction, mode, crc, large, control, segment_metadata, d]
        rec += [number for field in self.fields for number in field]
        text = " ".join(str(number) for number in rec)
        return f"{text} written {len(pdu)}", pdu + buf[len(pdu):]


def in_byte(word):
    n = int(word)
    if n > 255:
        raise NotMade
    return n


def judge_condition(condition):
    refuse_if(condition > 15 or condition in RESERVED_CONDITIONS, 16)


def write_eof(words, buf):
    record, condition = Record(words[:14]), in_byte(words[14])
    sum_, size = int(words[15]), int(words[16])
    fault = None
    if words[17] != "-":
        width, value = words[17].split(":")
        fault = in_byte(width), int(value)
    record.judge()
    judge_condition(condition)
    refuse_if(size >= 256**record.size_width, 29)
    data = bytes([EOF, condition << 4]) + sum_.to_bytes(4, "big")
    data += size.to_bytes(record.size_width, "big")
    if fault:
        width, value = fault
        refuse_if(width not in WIDTHS, 3, width)
        refuse_if(value >= 256**width, 14, value, width)
        data += bytes([ENTITY_ID, width]) + value.to_bytes(width, "big")
    return record.written(0, data, buf)


def write_ack(words, buf):
    record, of, condition = Record(words[:14]), in_byte(words[14]), in_byte(words[15])
    status = int(words[16])
    if status > 3:
        raise NotMade
    record.judge()
    judge_condition(condition)
    refuse_if(of not in (EOF, FINISHED), 17)
    subtype = 1 if of == FINISHED else 0
    data = bytes([ACK, of << 4 | subtype, condition << 4 | status])
    return record.written(1 if of == EOF else 0, data, buf)


def write_metadata(words, buf):
    record, closure, checksum_type, size = Record(words[:14]), int(words[14]), int(words[15]), int(words[16])
    source, destination, options = [bytes_of(word) for word in words[17:20]]
    record.judge()
    refuse_if(checksum_type not in CHECKSUM_TYPES, 30)
    refuse_if(size >= 256**record.size_width, 29)
    for name in source, destination:
        refuse_if(len(name) > 255, 31)
    walked(options, 0, len(options))
    data = bytes([METADATA, closure << 6 | checksum_type]) + size.to_bytes(record.size_width, "big")
    for name in source, destination:
        data += bytes([len(name)]) + name
    data += options
    refuse_if(len(data) + 2 * record.crc > 65535, 32)
    return record.written(0, data, buf)


# Commands and answers

READERS = {"eof": eof, "ack": ack, "metadata": metadata}
WRITERS = {"weof": write_eof, "wack": write_ack, "wmetadata": write_metadata}


def bytes_of(word):
    if word == "-":
        return b""
    count, star, fill = word.partition("*")
    return bytes.fromhex(fill) * int(count) if star else bytes.fromhex(word)


def expected(name, words):
    """The port's answer, and what kind of answer it is."""
    reading = name in READERS
    before = bytes_of("".join(words) if reading else words[-1])
    after = before
    try:
        if reading:
            text = READERS[name](before)
        else:
            text, after = WRITERS[name](words[:-1], before)
        kind, text = "accepted", f"ok {text}"
    except Refused as refusal:
        kind, text = f"refusal {refusal.args[0]}", "refused " + " ".join(map(str, refusal.args))
    except NotMade:
        kind = text = "not made"
    return kind, text if reading else f"{text} buf {after.hex() or '-'}"


def main():
    count = collections.Counter()
    with open(sys.argv[1]) as commands, open(sys.argv[2]) as answers:
        for line, answer in zip(commands, answers, strict=True):
            name, *words = line.split() or [""]
            if name not in READERS and name not in WRITERS:
                continue
            kind, text = expected(name, words)
            count["checked"] += 1
            count[kind] += 1
            if text != answer.strip():
                count["differ"] += 1
                if count["differ"] <= 10:
                    print(line.strip(), text, answer.strip(), sep="\n  ")
    print(", ".join(f"{n} {what}" for what, n in sorted(count.items()) if n))
    print(f"{count['checked']} checked, {count['differ']} differ")
    return 1 if count["differ"] or not count["checked"] else 0


if __name__ == "__main__":
    sys.exit(main())
