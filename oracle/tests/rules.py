#!/usr/bin/env python3
"""docs/RULES.md held against the port's answers to a list of commands:

    rules.py COMMANDS ANSWERS [PAGE]

The order of the refusals, and the lengths that they need, are read from its tables; what each number means is written here from its
words. Which refusal is given and with which values, or that none is, and that a refused call leaves its buffer as it was. Commands that it
has no row for, or the port no answer, are passed over. The last line gives the figures; ends with 1 if anything differs.
"""
import collections
import os
import re
import sys

from document01 import checksum, number
from document02 import NotMade, bytes_of, in_byte

PAGE = os.path.join(os.path.dirname(os.path.abspath(__file__)), "../../docs/RULES.md")
WIDTHS = (1, 2, 4, 8)
KNOWN = (4, 5, 6, 7, 8, 9, 12)
RESERVED = (12, 13)
TYPES = (0, 1, 2, 3, 15)
READERS = {"read": ("NAK", 8), "eof": ("EOF", 4), "ack": ("ACK", 6), "metadata": ("Metadata", 7)}


class Page:
    """The tables of RULES.md: a function's refusals in order, and the readers' stages."""

    def __init__(self, text):
        self.functions, self.header, self.code, self.own = {}, [], [], {}
        part = None
        for line in text.split("\n"):
            cells = [cell.strip() for cell in line.split("|")[1:-1]]
            if len(cells) == 3:
                self.functions |= {name: cells[1] for name in re.findall(r"`(cfdp_\w+)`", cells[0])}
            if len(cells) != 2:
                part = None
            elif cells[0] == "Refused with":
                part = self.header
            elif "the header" in cells[1] and part is self.header:
                part = self.code
            elif "the code." in cells[1] and part is self.code:
                part = self.own
            elif part is self.own:
                self.own[re.match(r"\w+", cells[1]).group()] = steps(cells[0])
            elif part is not None and "-" not in cells[0]:
                part += steps(cells[0])


def steps(cell):
    """Numbers in their order, each with the length that it needs, or whose it is; '3 and 14 of X' are two."""
    found = []
    for item in re.split(r"[,;] ", cell):
        needs = re.search(r"\(needs ([^)]*)\)", item)
        whose = re.search(r" of (.*)", item)
        for word in re.findall(r"\b\d+\b", re.sub(r"\(.*\)", "", item)):
            found.append((int(word), needs.group(1) if needs else None, whose.group(1) if whose else None))
    return found




def first(given, order):
    """The first refusal of the order that holds, with its values, or none."""
    for no, needs, whose in order:
        values = given.holds(no, needs, whose)
        if values is not None:
            return [no, *values]
    return None


def cut_option(b, at):
    """Where the first option starts that runs past the end of the bytes, if one does; they are walked from a place on."""
    while at < len(b):
        if at + 2 > len(b) or at + 2 + b[at + 1] > len(b):
            return [at]
        at += 2 + b[at + 1]
    return None


class Reading:
    """A directive PDU in bytes, as far as they reach."""

    def __init__(self, b, own):
        self.b, self.own = b, own
        if len(b) >= 4:
            self.e, self.s, self.d = b[3] // 16 % 8 + 1, b[3] % 8 + 1, number(b, 1, 2)
            self.crc, self.w = b[0] // 2 % 2, 8 if b[0] % 2 else 4
            self.h = 4 + 2 * self.e + self.s
            self.p = self.h + self.d
            self.data_end = self.p - 2 * self.crc

    def length(self, needs):
        names = {} if len(self.b) < 4 else {"h": self.h, "P": self.p, "w": self.w, "F": 2 * self.w}
        return eval(needs, {"__builtins__": {}}, names)

    def fault_location(self):
        """Whether what follows the file size is nothing or one entity identifier field."""
        rest = self.b[self.h + 6 + self.w : self.data_end]
        return not rest or (len(rest) > 2 and rest[0] == 6 and rest[1] in WIDTHS and len(rest) == 2 + rest[1])

    def cut(self):
        """Where the first name or option starts that runs past E."""
        at = self.h + 2 + self.w
        for _ in range(2):
            if at >= self.data_end or at + 1 + self.b[at] > self.data_end:
                return [at]
            at += 1 + self.b[at]
        return cut_option(self.b[: self.data_end], at)

    def holds(self, no, needs, whose):
        b = self.b
        if no == 25:
            return self.cut()
        if no in (1, 6):
            there, needed = len(b) if no == 1 else self.data_end, self.length(needs)
            return [there, needed] if there < needed else None
        condition = b[self.h + (2 if self.own == 6 else 1)] // 16 if no == 16 else None
        tests = {
            2: lambda: (b[0] // 32 != 1, b[0] // 32),
            3: lambda: (self.e not in WIDTHS, self.e),
            4: lambda: (self.s not in WIDTHS, self.s),
            5: lambda: (self.crc and checksum(b[: self.p]) != 0, number(b, self.p - 2, 2)),
            21: lambda: (b[0] // 16 % 2 == 1,),
            7: lambda: (b[self.h] not in KNOWN, b[self.h]),
            8: lambda: (b[self.h] != self.own, b[self.h]),
            16: lambda: (condition in RESERVED,),
            17: lambda: (b[self.h + 1] // 16 not in (4, 5),),
            28: lambda: (not self.fault_location(),),
            30: lambda: (b[self.h + 1] % 16 not in TYPES,),
        }
        wrong, *values = tests[no]()
        return values if wrong else None


class Writing:
    """A header as numbers, and what a PDU to be written has beside it."""

    def __init__(self, words, **given):
        n = [int(word) for word in words]
        self.kind, self.crc, self.large = n[0], n[3], n[4]
        self.d, self.fields = n[7], [(n[8], n[9]), (n[10], n[11]), (n[12], n[13])]
        if any(width > 255 for width, _ in self.fields):
            raise NotMade
        self.h = 4 + 2 * n[8] + n[10]
        self.given = given

    def pair(self):
        return 16 if self.large else 8

    def holds(self, no, needs, whose):
        g = self.given
        (e, _), (s, _), (other, _) = self.fields
        if whose == "the fault location":
            if g["fault"] is None:
                return None
            width, value = g["fault"]
            return ([width] if width not in WIDTHS else None) if no == 3 else ([value, width] if value >= 256**width else None)
        if no == 25:
            return cut_option(g["options"], 0)
        if no == 14:
            return next(([value, width] for width, value in self.fields if value >= 256**width), None)
        most = 4094 if self.large else 8190
        tests = {
            13: lambda: (e != other, e, other),
            3: lambda: (e not in WIDTHS, e),
            4: lambda: (s not in WIDTHS, s),
            21: lambda: (self.kind == 1,),
            1: lambda: (len(g["bytes"]) < self.h + self.d, len(g["bytes"]), self.h + self.d),
            5: lambda: (self.crc and checksum(g["bytes"][: self.h + self.d]) != 0, number(g["bytes"], self.h + self.d - 2, 2)),
            12: lambda: (g["count"] % 2 == 1, g["count"]),
            9: lambda: (not self.large and max(g["scope"]) >= 2**32, *g["scope"]),
            10: lambda: (g["count"] // 2 > most, g["count"] // 2, most),
            11: lambda: (g["room"] < self.needed(), g["room"], self.needed()),
            15: lambda: (g["size"] < self.h + 1 + self.pair() + 2 * self.crc,),
            16: lambda: (g["condition"] > 15 or g["condition"] in RESERVED,),
            17: lambda: (g["directive"] not in (4, 5),),
            29: lambda: (not self.large and g["file_size"] >= 2**32,),
            30: lambda: (g["type"] not in TYPES,),
            31: lambda: (max(map(len, g["names"])) > 255,),
            32: lambda: (g["data"] + 2 * self.crc > 65535,),
        }
        wrong, *values = tests[no]()
        return values if wrong else None

    def needed(self):
        """The bytes that are to be written: h, or P."""
        g = self.given
        if "data" in g:
            return self.h + g["data"] + 2 * self.crc
        if "count" in g:
            return self.h + 1 + self.pair() + g["count"] // 2 * self.pair() + 2 * self.crc
        return self.h


def numbers_in(word):
    """How many numbers a LIST has, its kind aside."""
    count, star, _ = word[2:].partition("*")
    return 2 * int(count) if star else len(word[2:].split(",")) if word[2:] else 0


def nak(rec, words, **given):
    """The NAK of a header, a scope and a LIST, and the end of the functions' names for it."""
    w = Writing(rec, scope=(int(words[0]), int(words[1])), count=0 if words[2] == "none" else numbers_in(words[2]), **given)
    if words[2] != "none":
        w.large = int(words[2][0] == "l")
    return w, {"none": "", "n:": "_normal", "l:": "_large"}[words[2] if words[2] == "none" else words[2][:2]]


def eof(words, room):
    size = 8 if int(words[4]) else 4
    fault = None if words[17] == "-" else (in_byte(words[17].split(":")[0]), int(words[17].split(":")[1]))
    return Writing(words[:14], room=room, condition=in_byte(words[14]), file_size=int(words[16]), fault=fault, data=6 + size + (2 + fault[0] if fault else 0))


def ack(words, room):
    if int(words[16]) > 3:
        raise NotMade
    return Writing(words[:14], room=room, directive=in_byte(words[14]), condition=in_byte(words[15]), data=3)


def metadata(words, room):
    size, names, options = 8 if int(words[4]) else 4, [bytes_of(word) for word in words[17:19]], bytes_of(words[19])
    data = 2 + size + sum(1 + len(name) for name in names) + len(options)
    return Writing(words[:14], room=room, type=in_byte(words[15]), file_size=int(words[16]), names=names, options=options, data=data)


def refusal(page, name, words):
    """What the page says of a command: the refusal and its values, or none."""
    order = lambda function: steps(page.functions[function])
    if name in READERS or name == "header":
        kind, own = READERS.get(name, (None, None))
        stages = page.header + (page.code + page.own[kind] if kind else [])
        return first(Reading(bytes_of("".join(words)), own), stages)
    room = len(bytes_of(words[-1])) if name not in ("build", "max", "compare") else 0
    if name == "build":
        return first(Writing(words), order("cfdp_header_build"))
    if name == "wheader":
        return first(Writing(words[:14], room=room), order("cfdp_header_write"))
    if name == "verify":
        return first(Writing(words[:14], bytes=bytes_of(words[14])), order("cfdp_header_verify"))
    if name == "max":
        return first(Writing(words[:14], size=int(words[14])), order("cfdp_nak_most"))
    if name == "write":
        w, form = nak(words[:14], words[14:17], room=room)
        return first(w, order("cfdp_nak_write" + form))
    if name in ("reserve", "finish"):
        scope = (int(words[15]), int(words[16])) if name == "finish" else None
        return first(Writing(words[:14], count=2 * int(words[14]), scope=scope, room=room), order("cfdp_nak_" + name))
    if name == "compare":
        w, form = nak(words[1:15], words[15:18])
        read = first(Reading(bytes_of(words[0]), 8), page.header + page.code + page.own["NAK"])
        return read or first(w, [step for step in order("cfdp_nak_write" + form) if step[0] != 11])
    if name == "weof":
        return first(eof(words, room), order("cfdp_eof_write"))
    if name == "wmetadata":
        return first(metadata(words, room), order("cfdp_metadata_write"))
    return first(ack(words, room), order("cfdp_ack_write"))


ASKED = ("header", "build", "wheader", "verify", "max", "write", "reserve", "finish", "compare", "weof", "wack", "wmetadata", *READERS)


def expected(page, name, words):
    """How the answer begins, and the buffer where it must be as it was."""
    try:
        refused = refusal(page, name, words)
    except NotMade:
        return "not made", None
    lent = name in ("wheader", "write", "reserve", "finish", "weof", "wack", "wmetadata")
    text = "refused " + " ".join(map(str, refused)) if refused else "ok"
    return text, bytes_of(words[-1]).hex() or "-" if refused and lent else None


def main():
    page, count = Page(open(sys.argv[3] if len(sys.argv) > 3 else PAGE).read()), collections.Counter()
    with open(sys.argv[1]) as commands, open(sys.argv[2]) as answers:
        for line, answer in zip(commands, answers, strict=True):
            name, *words = line.split() or ["#"]
            if name not in ASKED or "the port has no such command" in answer:
                count["passed over"] += 1
                continue
            text, buffer = expected(page, name, words)
            said, _, after = re.sub(r"^(in|out) ", "", answer.rstrip("\n")).partition(" buf ")
            good = (said + " ").startswith(text + " ") if text == "ok" else said == text
            count["compared"] += 1
            count[text.split()[1] if text.startswith("refused") else text] += 1
            if not good or (buffer is not None and after != buffer):
                count["differ"] += 1
                if count["differ"] <= 20:
                    print(f"{line.strip()[:200]}\n  the page says {text}, the port {answer.strip()[:200]}")
    print("refusals:", *(f"{no} ({count[str(no)]})" for no in range(33) if count[str(no)]))
    print(f"rules: {count['compared']} compared, {count['ok']} accepted, {count['passed over']} passed over, {count['differ']} differ")
    return 1 if count["differ"] or not count["compared"] else 0


if __name__ == "__main__":
    sys.exit(main())
