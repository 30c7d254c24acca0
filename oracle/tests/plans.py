#!/usr/bin/env python3
"""Document 02's rules for plans of NAKs (C-09, with C-08's count), written a second time and held against the port's answers:

    plans.py make SEED COUNT         a list of commands: tasks by chance, plans of them that are good, and spoilt ones
    plans.py judge COMMANDS ANSWERS  each answer against these rules, the lent numbers after the call too
    plans.py text TASK               what the program nakplan must print for the text of a task

A byte's fate is asked byte by byte: between two neighbouring edges of ranges all bytes fare alike, so one of them stands for all.
The last line of `judge` gives the figures; it ends with 1 if anything differs, or if too few of the list were of one kind.
"""
import collections
import random
import sys

WIDTHS = (1, 2, 4, 8)
MOST = {0: 8190, 1: 4094}
LARGEST = 2**64 - 1
LENT = 7


class Refused(Exception):
    """A refusal's number and its values."""


class NotMade(Exception):
    """The port's types hold no such value."""


def refuse_if(holds, *numbers):
    if holds:
        raise Refused(*numbers)


# The rules


def most_requests(rec, size):
    """C-08: how many requests a packet of that size holds."""
    kind, _, _, crc, large, _, _, _, source_width, source, width, sequence, destination_width, destination = rec
    if max(source_width, width, destination_width) > 255:
        raise NotMade
    refuse_if(source_width != destination_width, 13, source_width, destination_width)
    refuse_if(source_width not in WIDTHS, 3, source_width)
    refuse_if(width not in WIDTHS, 4, width)
    for value, of in ((source, source_width), (sequence, width), (destination, source_width)):
        refuse_if(value >= 256**of, 14, value, of)
    refuse_if(kind == 1, 21)
    pair = 16 if large else 8
    least = 4 + 2 * source_width + width + 1 + pair + 2 * crc
    refuse_if(size < least, 15)
    return min((size - least) // pair, MOST[large])


def pairs(numbers):
    return list(zip(numbers[::2], numbers[1::2]))


def apart(ranges):
    """'each start below its end, each next start above the end before'"""
    return all(a < b for a, b in ranges) and all(p[1] < q[0] for p, q in zip(ranges, ranges[1:]))


def judged(rec, size, start, end, received, requests):
    most = most_requests(rec, size)
    refuse_if(len(received) % 2, 12, len(received))
    refuse_if(requests % 2, 12, requests)
    refuse_if(not apart(pairs(received)) or start > end, 23)
    refuse_if(not rec[4] and max(start, end) >= 2**32, 9, start, end)
    return most


def covers(ranges, edges):
    """Of each stretch between two edges, whether a range has its bytes."""
    counts = collections.Counter()
    for a, b in ranges:
        if a < b:
            counts[a] += 1
            counts[b] -= 1
    had, open_ = [], 0
    for edge in edges:
        open_ += counts[edge]
        had.append(open_ > 0)
    return had


def stretches(received, start, end, requests=()):
    """The edges, and of each stretch behind one whether its bytes are missing, and whether they are asked for."""
    edges = sorted({0, start, end, *(n for p in received for n in p), *(n for p in requests for n in p)})
    have, asked = covers(received, edges), covers(requests, edges)
    missing = [start <= edge < end and not h for edge, h in zip(edges, have)]
    return edges, missing, asked


def missing_ranges(received, start, end):
    edges, missing, _ = stretches(received, start, end)
    ranges = []
    for edge, behind, lacks in zip(edges, edges[1:] + [LARGEST + 1], missing):
        if not lacks:
            continue
        if ranges and ranges[-1][1] == edge:
            ranges[-1][1] = behind
        else:
            ranges.append([edge, behind])
    return [tuple(r) for r in ranges]


def accepted(most, received, start, end, requests, naks):
    if len(naks) % 3:
        return False
    threes = list(zip(naks[::3], naks[1::3], naks[2::3]))
    asked = pairs(requests)
    _, missing, has = stretches(pairs(received), start, end, asked)
    if missing != has or not apart(asked):
        return False
    if sum(count for _, _, count in threes) != len(asked):
        return False
    at, joint = 0, start
    for first, last, count in threes:
        own = asked[at : at + count]
        at += count
        if count > most or first != joint or first > last or any(a < first or b > last for a, b in own):
            return False
        joint = last
    return joint == end if threes else not any(missing)


def planned(most, received, start, end, requests, naks):
    """The requests and the NAKs of our own planner, with room for so many numbers."""
    ranges = missing_ranges(pairs(received), start, end)
    refuse_if(ranges and most == 0, 24)
    groups = [ranges[i : i + most] for i in range(0, len(ranges), most)] if ranges else []
    refuse_if(len(ranges) > requests // 2 or len(groups) > naks // 3, 20)
    threes, scope_start = [], start
    for group in groups:
        scope_end = end if group is groups[-1] else group[-1][1]
        threes.append((scope_start, scope_end, len(group)))
        scope_start = scope_end
    return ranges, threes


def flat(tuples):
    return [n for t in tuples for n in t]


def word(numbers):
    return ",".join(map(str, numbers)) or "-"


def numbers_of(text):
    return [] if text == "-" else [int(n) for n in text.split(",")]


def answer(command):
    """What the port must answer, and of what kind that is."""
    words = command.split()
    rec = tuple(map(int, words[1:15]))
    size, start, end = map(int, words[15:18])
    received = numbers_of(words[18])
    if words[0] == "check":
        requests, naks = numbers_of(words[19]), numbers_of(words[20])
        try:
            most = judged(rec, size, start, end, received, len(requests))
            said = "accepted" if accepted(most, received, start, end, requests, naks) else "not accepted"
            return f"ok {said}", f"check {said}"
        except Refused as refusal:
            return refused(refusal), f"check refused {refusal.args[0]}"
        except NotMade:
            return "not made", "check not made"
    lent = [[LENT] * int(words[19]), [LENT] * int(words[20])]
    try:
        most = judged(rec, size, start, end, received, len(lent[0]))
        ranges, threes = planned(most, received, start, end, len(lent[0]), len(lent[1]))
        lent[0][: 2 * len(ranges)], lent[1][: 3 * len(threes)] = flat(ranges), flat(threes)
        said, kind = f"ok requests {len(ranges)} naks {len(threes)}", "plan made"
    except Refused as refusal:
        said, kind = refused(refusal), f"plan refused {refusal.args[0]}"
    except NotMade:
        said, kind = "not made", "plan not made"
    return f"{said} lent {word(lent[0])} {word(lent[1])}", kind


def refused(refusal):
    return "refused " + " ".join(map(str, refusal.args))


# Tasks by chance


def record(chance):
    width, own = chance.choice(WIDTHS), chance.choice(WIDTHS)
    rec = [0] + [chance.randrange(2) for _ in range(6)] + [chance.randrange(65536)]
    for w in (width, own, width):
        rec += [w, chance.randrange(256**w)]
    if chance.random() < 0.03:
        rec[0] = 1
    if chance.random() < 0.06:
        for k in chance.choice(((8,), (10,), (12,), (8, 12), (8, 12))):
            rec[k] = chance.choice((0, 3, 5, 16, 255, 256)) if k != 12 or rec[8] in WIDTHS else rec[8]
    if chance.random() < 0.03:
        rec[chance.choice((9, 11, 13))] = chance.choice((256, 2**32, LARGEST))
    return rec


def least_of(rec):
    return 5 + 2 * rec[8] + rec[10] + (16 if rec[4] else 8) + 2 * rec[3]


def task(chance):
    rec = record(chance)
    top = chance.choice((12, 40, 200, 2**32 - 1, 2**32, 2**33, LARGEST))
    near = lambda: min(top, max(0, chance.choice((chance.randrange(top + 1), top - chance.randrange(20), chance.randrange(20)))))
    start, end = sorted((near(), near()))
    edges = sorted({near() for _ in range(chance.randrange(0, 16))})
    received = edges[: len(edges) // 2 * 2]
    pair = 16 if rec[4] else 8
    size = least_of(rec) + pair * chance.randrange(5) + chance.randrange(pair)
    chance_of = chance.random()
    if chance_of < 0.03:
        size = least_of(rec) - 1 - chance.randrange(3)
    elif chance_of < 0.05:
        size = chance.choice((0, 100000, 2**63, LARGEST))
    elif chance_of < 0.08:
        start, end = end, start
    elif chance_of < 0.12 and received:
        k = chance.randrange(len(received))
        received[k] = min(LARGEST, max(0, received[k] + chance.choice((-3, -1, 1, 3))))
    elif chance_of < 0.14:
        received = received[:-1] if chance.random() < 0.5 else received + [LARGEST]
    return rec, size, start, end, received


def spoil(chance, start, end, requests, naks):
    """One thing about a plan changed."""
    change = lambda numbers, k, by: numbers.__setitem__(k, min(LARGEST, max(0, numbers[k] + by)))
    kind = chance.randrange(14)
    if kind < 4 and requests:
        change(requests, chance.randrange(len(requests)), chance.choice((-2, -1, 1, 2)))
    elif kind < 7 and naks:
        change(naks, chance.randrange(len(naks)), chance.choice((-1, 1, 2)))
    elif kind == 7 and len(naks) > 3:
        del naks[-3:]
    elif kind == 8 and len(requests) > 1:
        k = chance.randrange(len(requests) // 2) * 2
        del requests[k : k + 2]
    elif kind == 9 and len(requests) > 1:
        k = chance.randrange(len(requests) // 2) * 2
        a, b = requests[k : k + 2]
        if b - a > 1:
            m = a + (b - a) // 2
            requests[k : k + 2] = [a, m, m, b]
            if naks:
                naks[-1] += 1
    elif kind == 10 and len(naks) > 5:
        k = chance.randrange(len(naks) // 3 - 1) * 3
        naks[k + 1] = naks[k + 3] = chance.choice((start, end, naks[k + 1] + 1 if naks[k + 1] < LARGEST else end))
    elif kind == 11:
        (requests if chance.random() < 0.3 else naks).append(chance.randrange(9))
    elif kind == 12:
        naks[:] = []
    else:
        naks += [end, end, 0]


def check_line(rec, size, start, end, received, requests, naks):
    return f"check {' '.join(map(str, rec))} {size} {start} {end} {word(received)} {word(requests)} {word(naks)}"


def plan_line(rec, size, start, end, received, requests, naks):
    return f"plan {' '.join(map(str, rec))} {size} {start} {end} {word(received)} {requests} {naks}"


GOOD = [0, 1, 0, 0, 0, 0, 0, 0, 1, 1, 1, 2, 1, 3]
LARGE = [0, 1, 0, 0, 1, 0, 0, 0, 1, 1, 1, 2, 1, 3]


def edges():
    """What chance would not come upon: 8,190 and 8,191 gaps, the largest offsets, an empty scope, ranges beyond the scope."""
    for gaps in (8189, 8190, 8191):
        received = flat((4 * i + 2, 4 * i + 4) for i in range(gaps - 1))
        end = 4 * gaps - 2
        for size in (100000, 65536, 65535, 16 + 8 * 100, 24, 23):
            yield plan_line(GOOD, size, 0, end, received, 2 * gaps, 3 * gaps)
        yield plan_line(GOOD, 65536, 0, end, received, 2 * gaps - 2, 30)
        yield plan_line(GOOD, 65536, 0, end, received, 2 * gaps, 3)
        yield plan_line(LARGE, 10**6, 0, end, received, 2 * gaps, 6)
        for rec, size in ((GOOD, 65536), (GOOD, 24), (LARGE, 10**6)):
            ranges, threes = planned(most_requests(rec, size), received, 0, end, 2 * gaps, 3 * gaps)
            yield check_line(rec, size, 0, end, received, flat(ranges), flat(threes))
            yield check_line(rec, size, 0, end, received, flat(ranges), flat(threes)[:-3])
            yield check_line(rec, size, 0, end, received, flat(ranges[:-1]), flat(threes))
        yield check_line(GOOD, 65536, 0, end, received, flat((4 * i, 4 * i + 2) for i in range(gaps)), [0, end, gaps])
    for start, end in ((0, 0), (7, 7), (LARGEST, LARGEST), (0, LARGEST), (LARGEST - 1, LARGEST)):
        for received in ([], [0, 3], [0, LARGEST], [5, 9], [LARGEST - 1, LARGEST], [3, 4, LARGEST - 3, LARGEST - 2]):
            yield plan_line(LARGE, 40, start, end, received, 8, 9)
            ranges, threes = planned(1, received, start, end, 99, 99)
            for naks in (flat(threes), [], [start, end, 0], [start, end, len(ranges)], [end, start, 0]):
                yield check_line(LARGE, 40, start, end, received, flat(ranges), naks)


def make(seed, count):
    yield from edges()
    chance = random.Random(seed)
    made = 0
    while made < count:
        rec, size, start, end, received = task(chance)
        room = [chance.choice((40, 40, 40, 2, 6, 5)), chance.choice((60, 60, 60, 3, 7))]
        yield plan_line(rec, size, start, end, received, *room)
        made += 1
        try:
            most = judged(rec, size, start, end, received, 0)
            ranges, threes = planned(max(most, 1), received, start, end, 10**6, 10**6)
        except (Refused, NotMade):
            ranges, threes = [], []
        requests, naks = flat(ranges), flat(threes)
        yield check_line(rec, size, start, end, received, requests, naks)
        for _ in range(2):
            r, n = list(requests), list(naks)
            spoil(chance, start, end, r, n)
            if chance.random() < 0.2:
                spoil(chance, start, end, r, n)
            yield check_line(rec, size, start, end, received, r, n)
        made += 3


# The program's text


def text(lines):
    """What nakplan prints for a task that is well formed."""
    received, requests, naks, given = [], [], [], False
    for line in lines:
        name, *numbers = line.split() or [""]
        numbers = list(map(int, numbers))
        if name == "header":
            rec = tuple(numbers)
        elif name == "packet":
            (size,) = numbers
        elif name == "scope":
            start, end = numbers
        elif name == "received":
            received += numbers
        elif name == "nak":
            naks += numbers + [0]
        elif name == "request":
            requests += numbers
            naks[-1] += 1
        given = given or name in ("nak", "end")
    try:
        most = judged(rec, size, start, end, received, len(requests))
        if given:
            return ["accepted" if accepted(most, received, start, end, requests, naks) else "not accepted"]
        ranges, threes = planned(most, received, start, end, 2 * 8190, 3 * 1024)
    except Refused as refusal:
        return [refused(refusal)]
    said = []
    for first, last, count in threes:
        said.append(f"nak {first} {last}")
        said += [f"request {a} {b}" for a, b in ranges[:count]]
        ranges = ranges[count:]
    return said + [f"end {len(threes)} {sum(t[2] for t in threes)}"]


# Of a list of 100,000 and more, at least so many are of each of these kinds.
AT_LEAST = {"check accepted": 10000, "check not accepted": 30000, "plan made": 10000}
AT_LEAST |= {f"{asked} refused {n}": 20 for asked in ("check", "plan") for n in (3, 4, 9, 12, 13, 14, 15, 21, 23)}
AT_LEAST |= {"plan refused 24": 20, "plan refused 20": 20}


def judge(commands, answers):
    kinds, differ, checked = collections.Counter(), 0, 0
    for command, said in zip(commands, answers, strict=True):
        expected, kind = answer(command)
        kinds[kind] += 1
        checked += 1
        if said.rstrip("\n") != expected:
            differ += 1
            if differ <= 20:
                print(f"{command.strip()[:300]}\n  expected {expected[:300]}\n  seen     {said.strip()[:300]}")
    few = [kind for kind, n in AT_LEAST.items() if kinds[kind] < n] if checked >= 100000 else []
    for kind in few:
        print(f"too few: {kind}, {kinds[kind]}")
    print(f"{checked} checked, {differ} differ")
    return 1 if differ or few else 0


def main():
    if sys.argv[1] == "make":
        for line in make(int(sys.argv[2]), int(sys.argv[3])):
            print(line)
    elif sys.argv[1] == "judge":
        with open(sys.argv[2]) as commands, open(sys.argv[3]) as answers:
            sys.exit(judge(commands, answers))
    else:
        with open(sys.argv[2]) as lines:
            print("\n".join(text(lines)))


if __name__ == "__main__":
    main()
