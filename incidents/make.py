#!/usr/bin/env python3
"""Writes each incident, NAME.schedule, and the text that it must give, NAME.txt, by the reading of the build paper in checks/replay.py.
Writes all of them, in the alphabetical order of the files, to crates/replay_cases too: stdin and stdout.

  python3 incidents/make.py
"""
import sys
from itertools import combinations
from pathlib import Path

HERE = Path(__file__).parent
sys.path.insert(0, str(HERE.parent / "checks"))
from replay import report  # noqa: E402

KINDS = ("publish", "halt", "resume", "withdraw")
LOST = 0


def field(tag, *value):
    return bytes((tag, len(value) // 256, len(value) % 256, *value))


def mask(bits):
    return sum(1 << i for i in bits)


def start(tick, host, words):
    """A start, its order as it is written in a report: halt 7, publish 7 25."""
    kind, image, *share = words.split()
    return field(21, *divmod(tick, 256), host, KINDS.index(kind) + 1, *int(image).to_bytes(4, "big"), *map(int, share))


def fate(links, k, sender, receiver, delay):
    """The fate of start k's copy from one host to another."""
    link = links.index((min(sender, receiver), max(sender, receiver)))
    return field(22, k, link, int(sender > receiver), delay)


def schedule(hosts, links, dark=(), cut=(), pi=0, big_l=0, delay=10, skew=3, offsets=None, end=40, starts=(), fates=()):
    """The records of a schedule: dark are the faulty hosts, cut the faulty links by their number, a fate is (start, sender, receiver, delay)."""
    links = list(links)
    return [
        field(16, hosts, pi, big_l, delay, skew),
        *(field(17, *link) for link in links),
        field(18, mask(dark), *divmod(mask(cut), 256)),
        field(19, *([0] * hosts if offsets is None else offsets)),
        field(20, *divmod(end, 256)),
        *(start(*one) for one in starts),
        *sorted(fate(links, *one) for one in fates),
    ]


def both_ways(links):
    return [way for a, b in links for way in ((a, b), (b, a))]


TRIANGLE = [(0, 1), (0, 2), (1, 2)]
RING = [(0, 1), (1, 2), (2, 3), (0, 3)]
REGIONS = [(0, 1), (0, 2), (0, 4), (1, 3), (1, 5), (2, 3), (2, 4), (3, 5), (4, 5)]
CUBE = [(a, a | 1 << k) for a in range(8) for k in range(3) if not a >> k & 1]
SIX = list(combinations(range(6), 2))

CASE = dict(hosts=3, links=TRIANGLE, dark=[0], pi=1, offsets=[0, 0, 2], starts=[(5, 0, "halt 7")], fates=[(0, 0, 1, 10), (0, 0, 2, LOST), (0, 1, 2, 10)])


def case(**changes):
    return schedule(**dict(CASE, **changes))


def lone(**changes):
    """The case without fates."""
    return case(fates=[], **changes)


def put(records, index, *instead):
    return records[:index] + list(instead) + records[index + 1:]


def storm():
    """Three regions of two hosts. Host 0 goes dark after two of its three sends of the halt, and the lines are slow."""
    halt = [(1, 0, 1, 10), (1, 0, 2, 10), (1, 0, 4, LOST), (1, 1, 3, 10), (1, 1, 5, 10), (1, 2, 3, 10), (1, 2, 4, 10), (1, 4, 0, LOST)]
    dark = [(2, to, 0, LOST) for to in (1, 2, 4)]
    return schedule(hosts=6, links=REGIONS, dark=[0], pi=1, offsets=[0, 1, 2, 0, 1, 2], end=160, fates=halt + dark,
                    starts=[(0, 3, "publish 7 25"), (50, 0, "halt 7"), (100, 5, "withdraw 7")])


def order(k):
    """The four kinds in turn, with images at both ends of their range."""
    words = ("publish {big} {share}", "halt {k}", "resume {k}", "withdraw {big}")
    return words[k % 4].format(k=k, big=2**32 - 1 - k, share=100 - k)


def largest():
    """Host 3 and the link 2-6 are faulty; every copy has a fate, and every third start's is lost where it may be."""
    starts = [(250 * k, 5 * k % 8, order(k)) for k in range(15)] + [(4096, 7, "halt 4294967295")]
    may_lose = [way for way in both_ways(CUBE) if 3 in way or set(way) == {2, 6}]
    fates = [(k, a, b, LOST if k % 3 == 2 and (a, b) in may_lose else 1 + (11 * k + 7 * a + 5 * b) % 64) for k in range(16) for a, b in both_ways(CUBE)]
    return schedule(hosts=8, links=CUBE, dark=[3], pi=1, cut=[CUBE.index((2, 6))], big_l=1, delay=64, skew=64,
                    offsets=[0, 63, 5, 62, 1, 31, 32, 63], end=4096, starts=starts, fates=fates)


def filled(size):
    """So many bytes: every place that a file may have is used, and fates that do not rise fill it up."""
    records = schedule(hosts=6, links=SIX[:12], end=40, starts=[(5, 0, "halt 7")] * 16)
    room = size - sum(map(len, records))
    for i in range(room % 7):
        records[-1 - i] = start(5, 0, "publish 7 1")
    return records + [field(22, 15, 11, 1, 1)] * (room // 7)


def runs():
    yield "case", case()
    yield "storm", storm()
    yield "cube", schedule(hosts=8, links=CUBE, end=60, starts=[(10, 0, "publish 7 10"), (11, 7, "halt 7"), (11, 3, "resume 7")])
    yield "source-goes-dark-halfway", schedule(
        hosts=4, links=RING, dark=[0], pi=1, offsets=[2, 0, 1, 2], end=60, starts=[(5, 0, "halt 7")],
        fates=[(0, 0, 1, 10), (0, 0, 3, LOST), (0, 1, 2, 10), (0, 2, 3, 10), (0, 3, 0, LOST)])
    yield "source-never-heard", schedule(hosts=3, links=TRIANGLE, dark=[0], pi=1, starts=[(5, 0, "halt 7")], fates=[(0, 0, 1, LOST), (0, 0, 2, LOST)])
    yield "every-copy-late", schedule(
        hosts=4, links=RING, pi=1, offsets=[0, 2, 0, 2], end=60, starts=[(5, 0, "publish 7 100"), (6, 2, "halt 7")],
        fates=[(k, a, b, 10) for k in (0, 1) for a, b in both_ways(RING)])
    yield "line-cut", schedule(
        hosts=3, links=TRIANGLE, cut=[0], big_l=1, offsets=[2, 0, 1], starts=[(5, 0, "halt 7")], fates=[(0, 0, 1, LOST), (0, 1, 0, LOST), (0, 0, 2, 10), (0, 2, 1, 10)])
    yield "five-starts-in-a-window", lone(dark=[], end=80, starts=[(t, 1, f"publish {t} 50") for t in (5, 6, 7, 8, 30, 30, 31)])
    yield "two-starts-in-a-tick", lone(dark=[], starts=[(5, 0, "halt 7"), (5, 0, "resume 7"), (5, 1, "withdraw 7"), (6, 0, "resume 7")])
    yield "offsets-at-the-extreme", schedule(
        hosts=3, links=TRIANGLE, dark=[0], pi=1, delay=64, skew=64, offsets=[0, 63, 0], end=255, starts=[(0, 0, "halt 7"), (0, 1, "resume 7"), (63, 2, "withdraw 7")],
        fates=[(0, 0, 1, 64), (0, 0, 2, LOST), (0, 1, 2, 64)])
    yield "largest", largest()
    yield "end-at-tick-0", lone(end=0, starts=[(0, 0, "halt 7"), (0, 2, "resume 7")])
    yield "end-at-tick-4096", lone(end=4096, starts=[(4073, 0, "halt 7"), (4074, 1, "resume 7"), (4095, 2, "withdraw 8"), (4096, 0, "publish 9 1")])
    yield "no-start", lone(starts=[])
    yield "unsent-fates", case(fates=CASE["fates"] + [(0, 1, 0, 10), (0, 2, 0, LOST)])


def shapes():
    good = case()
    yield "31-empty", []
    yield "31-wrong-tag", good + [field(23, 0)]
    yield "31-wrong-length", put(good, 6, field(20, 40))
    yield "31-wrong-order-of-tags", put(put(good, 5, good[6]), 6, good[5])
    for index, name in ((0, "plan"), (4, "faults"), (5, "offsets"), (6, "end")):
        yield f"31-no-{name}", put(good, index)
        yield f"31-{name}-twice", put(good, index, good[index], good[index])
    yield "31-direction", put(good, 8, field(22, 0, 0, 2, 10))
    yield "31-kind", put(good, 7, field(21, 0, 5, 0, 5, 0, 0, 0, 7))
    yield "31-share-0", lone(starts=[(5, 0, "publish 7 0")])
    yield "31-share-101", lone(starts=[(5, 0, "publish 7 101")])
    yield "31-start-on-no-host", lone(starts=[(5, 3, "halt 7")])
    yield "31-fate-of-no-link", put(good, 8, field(22, 0, 3, 0, 10))
    yield "31-fate-of-no-start", put(good, 8, field(22, 1, 0, 0, 10))
    yield "31-thirteen-links", schedule(hosts=6, links=SIX[:13])
    yield "31-seventeen-starts", lone(starts=[(5, 0, "halt 7")] * 17)
    yield "31-too-long", filled(8193)
    yield "31-cut-short", put(good, 10, good[10][:-1])
    yield "31-before-1", put(case(delay=0), 8, field(22, 0, 0, 2, 10))


def plans():
    yield "1-nine-hosts", lone(hosts=9, offsets=[0] * 9)
    yield "1-one-host", lone(hosts=1, offsets=[0])
    yield "1-no-link", lone(links=[])
    yield "1-too-many-faulty-hosts", lone(pi=2)
    yield "1-too-many-faulty-links", lone(big_l=13)
    yield "1-delay-0", lone(delay=0)
    yield "1-delay-65", lone(delay=65)
    yield "1-skew-0", lone(skew=0)
    yield "1-skew-65", lone(skew=65)
    yield "1-before-2", lone(skew=0, links=[(0, 1), (0, 1)])
    yield "2-link-to-no-host", lone(links=[(0, 1), (0, 2), (1, 3)])
    yield "2-link-turned-round", lone(links=[(0, 1), (0, 2), (2, 1)])
    yield "2-link-twice", lone(links=[(0, 1), (0, 2), (0, 1)])
    yield "3-parted-by-a-host", lone(links=[(0, 1), (0, 2)])
    yield "3-parted-by-a-link", lone(dark=[], pi=0, big_l=2)
    yield "3-before-32", lone(links=[(0, 1), (0, 2)], end=4097)


def rules():
    yield "32-longest-file", filled(8192)
    yield "32-too-many-hosts-dark", case(dark=[0, 1])
    yield "32-too-many-links-cut", schedule(hosts=3, links=TRIANGLE, big_l=1, cut=[0, 1])
    yield "32-dark-host-not-there", case(dark=[3])
    yield "32-cut-link-not-there", schedule(hosts=3, links=TRIANGLE, big_l=1, cut=[3])
    yield "32-offset-of-skew", case(offsets=[0, 0, 3])
    yield "32-end-4097", case(end=4097)
    yield "32-start-past-the-end", case(starts=[(41, 0, "halt 7")])
    yield "32-starts-falling", case(starts=[(5, 0, "halt 7"), (4, 1, "halt 7")])
    yield "32-fates-falling", put(put(case(), 8, case()[9]), 9, case()[8])
    yield "32-fate-twice", case(fates=[(0, 0, 1, 10), (0, 0, 1, 10)])
    yield "32-lost-between-faultless", case(fates=[(0, 0, 1, 10), (0, 1, 2, LOST)])
    yield "32-delay-above-planned", case(fates=[(0, 1, 2, 11)])
    yield "32-delay-above-planned-of-the-dark", case(fates=[(0, 0, 1, 10), (0, 0, 2, 11)])
    yield "32-first-of-two", case(offsets=[3, 0, 0], end=4097, fates=[(0, 1, 2, LOST)])


def cases(made):
    """The input of the program replay_cases, each schedule after its length, and what it must write, each text after a line with its number."""
    crate = HERE.parent / "crates" / "replay_cases"
    both = [made[name] for name in sorted(made)]
    (crate / "stdin").write_bytes(b"".join(len(data).to_bytes(2, "big") + data for data, _ in both))
    (crate / "stdout").write_text("".join(f"incident {k}\n{text}" for k, (_, text) in enumerate(both)))


if __name__ == "__main__":
    made = {}
    for group in (runs(), shapes(), plans(), rules()):
        for name, records in group:
            data = b"".join(records)
            text = report(data)
            made[f"{name}.schedule"] = data, text
            (HERE / f"{name}.schedule").write_bytes(data)
            (HERE / f"{name}.txt").write_text(text)
    cases(made)
