#!/usr/bin/env python3
"""What crates/schedule_cases is given and must print, worked out from 01 alone: records are a list, and every rule is a sentence of 01.

  python3 checks/schedule.py stdin | cmp - crates/schedule_cases/stdin
  python3 checks/schedule.py | diff - crates/schedule_cases/stdout
"""
import sys
from itertools import combinations

from schedule_reading import read


def line(data):
    refusal, s = read(data)
    if refusal:
        return refusal
    (n, pi, _, delay, skew), links, d = s["plan"], s["links"], s["d"]
    bound = pi * delay + d * delay + skew
    words = ["plan", *s["plan"], "links", len(links)] + [x for l in links + [(0, 0)] * (12 - len(links)) for x in l]
    words += ["d", d, bound, bound + skew, "faults", *s["faults"], "offsets"] + s["offsets"] + [0] * (8 - n) + ["end", s["end"], "starts", len(s["starts"])]
    for start in s["starts"]:
        words += start
    fates = sorted(((k * 12 + link) * 2 + direction, late) for (k, link, direction), late in s["fates"].items())
    words += ["delays"] + [x for fate in fates if fate[1] != 1 for x in fate]
    return " ".join(map(str, words))


# ---- the cases

TRIANGLE = ((0, 1), (0, 2), (1, 2))
HALT, PUBLISH = bytes((2, 0, 0, 0, 7)), bytes((1, 0, 0, 1, 2, 50))


def field(tag, *value):
    return bytes((tag, len(value) // 256, len(value) % 256, *value))


def start(tick, host, order):
    return field(21, tick // 256, tick % 256, host, *order)


def case(plan=(3, 1, 0, 10, 3), links=TRIANGLE, faults=(1, 0, 0), offsets=(0, 0, 2), end=40, starts=None, fates=((0, 0, 0, 10), (0, 1, 0, 0), (0, 2, 0, 10))):
    """01's own case, or one that differs from it as said; records."""
    starts = [start(5, 0, HALT)] if starts is None else starts
    return [field(16, *plan), *(field(17, *link) for link in links), field(18, *faults), field(19, *offsets),
            field(20, end // 256, end % 256), *starts, *(field(22, *fate) for fate in fates)]


def swapped(rs, i, j):
    rs = list(rs)
    rs[i], rs[j] = rs[j], rs[i]
    return rs


PATH = tuple((i, i + 1) for i in range(7))
CUBE = tuple((a, a | 1 << k) for a in range(8) for k in range(3) if not a >> k & 1)
ALL = tuple(combinations(range(6), 2))
EVERY = [(s, l, d, 1) for s in range(16) for l in range(12) for d in range(2)]


def shapes():
    """31, each cause, with what stands beside it."""
    good = case()
    yield []
    yield [b"\x10"]
    yield [field(15, 1)] + good
    yield good + [field(23, 0)]
    yield good + [field(22)]
    yield good[:-1] + [good[-1] + b"\x00"]
    yield good[:-1] + [good[-1][:-1]]
    for i in (0, 4, 5, 6):
        yield good[:i] + good[i + 1:]
        yield good[:i] + [good[i]] + good[i:]
    for i in range(len(good) - 1):
        yield swapped(good, i, i + 1)
    yield case(plan=(3, 1, 0, 10))
    yield case(plan=(3, 1, 0, 10, 3, 0))
    yield case(links=((0, 1), (0, 2), (1, 2, 0)))
    yield case(faults=(1, 0))
    yield case(offsets=(0, 0))
    yield case(offsets=(0, 0, 2, 0))
    yield swapped(good, 6, 6)[:6] + [field(20, 40)] + good[7:]
    for order in (HALT, PUBLISH, HALT + b"\x01", PUBLISH[:5], bytes((0, 0, 0, 0, 7)), bytes((3, 0, 0, 0, 7)), bytes((4, 255, 255, 255, 255)), bytes((5, 0, 0, 0, 7)),
                  PUBLISH[:5] + b"\x00", PUBLISH[:5] + b"\x01", PUBLISH[:5] + b"\x64", PUBLISH[:5] + b"\x65", b"", b"\x02"):
        yield case(starts=[start(5, 0, order)])
    yield case(starts=[start(5, 2, HALT)])
    yield case(starts=[start(5, 3, HALT)])
    yield case(starts=[field(21, 0, 5)], fates=())
    for fate in ((0, 0, 2, 5), (1, 0, 0, 5), (0, 3, 0, 5), (0, 2, 1, 5), (0, 2, 1), (0, 2, 1, 5, 0)):
        yield case(fates=(fate,))
    yield case(starts=[])
    yield case(starts=[], fates=())
    yield case(plan=(6, 1, 0, 10, 3), links=ALL[:12], offsets=(0,) * 6)
    yield case(plan=(6, 1, 0, 10, 3), links=ALL[:13], offsets=(0,) * 6)
    yield case(starts=[start(5, 0, HALT)] * 16)
    yield case(starts=[start(5, 0, HALT)] * 17)


def plans():
    """1, 2 and 3, and the shape before them."""
    yield case(plan=(9, 1, 0, 10, 3), offsets=(0,) * 9, starts=[start(5, 8, HALT)])
    yield case(plan=(9, 1, 0, 10, 3))
    yield case(plan=(0, 0, 0, 10, 3), offsets=(), starts=[], fates=())
    yield case(plan=(1, 255, 0, 10, 3), offsets=(0,))
    yield case(links=(), fates=())
    yield case(links=())
    for plan in ((3, 2, 0, 10, 3), (3, 1, 13, 10, 3), (3, 1, 0, 0, 3), (3, 1, 0, 64, 3), (3, 1, 0, 65, 3), (3, 1, 0, 10, 0), (3, 1, 0, 10, 64), (3, 1, 0, 10, 65)):
        yield case(plan=plan)
    yield case(links=((0, 1), (0, 2), (1, 3)))
    yield case(links=((0, 1), (0, 2), (2, 1)))
    yield case(links=((0, 1), (0, 2), (1, 1)))
    yield case(links=((0, 1), (0, 2), (0, 1)))
    yield case(links=((0, 1), (0, 2), (9, 1)), fates=((0, 3, 0, 1),))
    yield case(plan=(3, 1, 1, 10, 3))
    yield case(plan=(3, 0, 1, 10, 3), faults=(0, 0, 0), fates=())
    yield case(plan=(3, 0, 12, 10, 3), faults=(0, 0, 0), fates=())
    yield case(plan=(8, 0, 0, 64, 64), links=PATH, faults=(0, 0, 0), offsets=(63,) * 8, fates=())
    yield case(plan=(8, 0, 0, 10, 3), links=CUBE, faults=(0, 0, 0), offsets=(0,) * 8, fates=())


def rules():
    """32, each rule, with what stands beside it."""
    for faults in ((0, 0, 0), (2, 0, 0), (3, 0, 0), (4, 0, 0), (8, 0, 0), (1, 0, 1), (1, 16, 0)):
        yield case(faults=faults, fates=())
    wide = dict(plan=(3, 0, 1, 10, 3), fates=())
    for faults in ((0, 0, 1), (0, 0, 4), (0, 0, 8), (0, 1, 0), (0, 16, 0), (0, 128, 0), (0, 0, 3), (1, 0, 1)):
        yield case(faults=faults, **wide)
    for offsets in ((2, 2, 2), (3, 0, 0), (0, 3, 0), (0, 0, 3), (255, 0, 0)):
        yield case(offsets=offsets)
    for end in (0, 4, 5, 4096, 4097, 65535):
        yield case(end=end)
    yield case(end=0, starts=[start(0, 0, HALT)])
    yield case(end=4096, starts=[start(4096, 0, HALT)])
    yield case(end=4097, starts=[start(4098, 0, HALT)])
    for ticks in ((5, 5, 6), (5, 4, 6), (6, 40, 39), (39, 40, 41), (41, 3, 3), (5, 256, 3)):
        yield case(starts=[start(t, 1, HALT) for t in ticks], fates=((0, 1, 1, 0), (2, 0, 0, 1)))
    for fates in (((0, 0, 0, 11),), ((0, 2, 1, 10),), ((0, 2, 1, 11),), ((0, 2, 1, 0),), ((0, 0, 1, 0),), ((0, 1, 1, 0),), ((0, 0, 0, 255),),
                  ((0, 0, 0, 5), (0, 0, 0, 5)), ((0, 0, 1, 5), (0, 0, 0, 5)), ((0, 1, 0, 5), (0, 0, 1, 5)), ((0, 0, 0, 1), (0, 0, 1, 1), (0, 1, 0, 1), (0, 2, 1, 1))):
        yield case(fates=fates)
    two = [start(5, 0, HALT), start(5, 1, PUBLISH)]
    for fates in (((0, 2, 1, 5), (1, 0, 0, 5)), ((1, 0, 0, 5), (0, 2, 1, 5)), ((1, 2, 1, 9), (1, 2, 1, 8)), ((0, 0, 0, 12), (1, 2, 1, 0))):
        yield case(starts=two, fates=fates)
    lossy = dict(plan=(3, 0, 1, 10, 3), faults=(0, 0, 2))
    for fates in (((0, 1, 0, 0), (0, 1, 1, 0)), ((0, 0, 0, 0),), ((0, 2, 0, 0),)):
        yield case(fates=fates, **lossy)
    yield case(faults=(4, 0, 0), end=4097, offsets=(9, 9, 9), fates=((0, 0, 0, 0),))
    yield case(plan=(6, 4, 0, 64, 3), links=ALL[:12], offsets=(0,) * 6, faults=(15, 0, 0), fates=[(0, l, d, 64) for l in range(12) for d in range(2)])


def long():
    """Files of 8,192 and 8,193 bytes: fates fill them up, so a file that long has fates that do not rise."""
    full = case(plan=(6, 1, 0, 10, 3), links=ALL[:12], offsets=(0,) * 6, starts=[start(5, 0, HALT)] * 16, fates=EVERY)
    yield full
    short = case(plan=(6, 1, 0, 10, 3), links=ALL[:12], offsets=(0,) * 6, starts=[start(5, 0, HALT)] * 16, fates=[])
    room = 8192 - sum(map(len, short))
    filled = short + [field(22, 15, 11, 1, 1)] * (room // 7)
    left = 8192 - sum(map(len, filled))
    while left:
        i = next(i for i, r in enumerate(filled) if r[0] == 21 and len(r) == 11)
        filled[i], left = start(5, 0, PUBLISH), left - 1
    yield filled
    yield filled[:-1] + [field(22, 15, 11, 1, 0)]
    i = next(i for i, r in enumerate(filled) if r[0] == 21 and len(r) == 11)
    yield filled[:i] + [start(5, 0, PUBLISH)] + filled[i + 1:]


class Draw:
    def __init__(self, seed):
        self.state = seed

    def below(self, n):
        self.state = (self.state * 6364136223846793005 + 1442695040888963407) % 2**64
        return (self.state >> 33) % n


def drawn(count):
    """01's case with a byte or two of it changed."""
    draw, good = Draw(7), b"".join(case(starts=[start(5, 0, HALT), start(9, 1, PUBLISH)]))
    for _ in range(count):
        data = bytearray(good)
        for _ in range(1 + draw.below(2)):
            at = draw.below(len(data))
            data[at] = draw.below(256) if draw.below(2) else (data[at] + 255 + 2 * draw.below(2)) % 256
        yield [bytes(data)]


def cases():
    yield case()
    for group in (shapes(), plans(), rules(), long(), drawn(240)):
        yield from group


if __name__ == "__main__":
    for parts in cases():
        data = b"".join(parts)
        if sys.argv[1:] == ["stdin"]:
            sys.stdout.buffer.write(len(data).to_bytes(2, "big") + data)
        else:
            print(line(data))
