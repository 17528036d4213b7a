#!/usr/bin/env python3
"""The report of a schedule, worked out from 01 alone: its bytes on standard input, its text on standard output.

  python3 checks/replay.py < incidents/case.schedule | diff - incidents/case.txt
"""
import sys

from schedule_reading import read

NAMES = {1: "publish", 2: "halt", 3: "resume", 4: "withdraw"}


class Host:
    """A host under the first rules: what it holds by (stamp, source), and the readings of its starts."""

    def __init__(self, number, links, bound, window):
        self.number, self.bound, self.window = number, bound, window
        self.own = [k for k, ends in enumerate(links) if number in ends]
        self.last, self.starts, self.held = 0, [], {}

    def tick(self, at):
        """All that is due leaves the history, in rising stamp and source."""
        due = sorted(name for name in self.held if name[0] + self.bound <= at)
        self.last = at
        return [(name, self.held.pop(name)) for name in due]

    def start(self, at, order):
        """The refusal, and the links to send on."""
        tests = (
            (11, at < self.last),
            (12, self.starts and at == self.starts[-1]),
            (13, len(self.starts) >= 4 and at < self.starts[-4] + self.window),
            (14, len(self.held) >= 32),
        )
        for refusal, holds in tests:
            if holds:
                return refusal, []
        self.starts.append(at)
        self.held[at, self.number] = order
        self.last = at
        return 0, self.own

    def receive(self, at, link, name, order):
        """The refusal, and the links to send on."""
        tests = (
            (15, link not in self.own),
            (11, at < self.last),
            (18, at >= name[0] + self.bound),
            (19, self.held.get(name) == order),
            (20, name in self.held),
            (21, name[1] == self.number),
            (14, len(self.held) >= 32),
        )
        for refusal, holds in tests:
            if holds:
                return refusal, []
        self.held[name] = order
        self.last = at
        return 0, [k for k in self.own if k != link]


class Run:
    """A run of an accepted schedule, tick after tick."""

    def __init__(self, s):
        n, pi, _, delay, skew = s["plan"]
        self.schedule, self.links = s, s["links"]
        self.bound = pi * delay + s["d"] * delay + skew
        self.hosts = [Host(i, s["links"], self.bound, self.bound + skew) for i in range(n)]
        self.way, self.copies = {}, 0
        self.refused, self.delivered = {}, [[] for _ in range(n)]
        for now in range(s["end"] + 1):
            self.step(now)

    def reading(self, host, now):
        return now + self.schedule["offsets"][host]

    def step(self, now):
        """All hosts tick, then copies arrive by start, link, direction, then starts."""
        for i, host in enumerate(self.hosts):
            at = self.reading(i, now)
            self.delivered[i] += [(at, name, order) for name, order in host.tick(at)]
        for (k, link, direction), copy in sorted(self.way.pop(now, {}).items()):
            to = self.links[link][1 - direction]
            refusal, on = self.hosts[to].receive(self.reading(to, now), link, *copy)
            assert refusal in (0, 18, 19), "none of 14, 20, 21 occurs"
            self.send(now, k, to, on, copy)
        for k, (tick, i, *order) in enumerate(self.schedule["starts"]):
            if tick == now:
                at = self.reading(i, now)
                refusal, on = self.hosts[i].start(at, order)
                if refusal:
                    self.refused[k] = refusal
                self.send(now, k, i, on, ((at, i), order))

    def send(self, now, k, sender, on, copy):
        """Each copy is counted; one with a fate takes that delay or is lost, any other takes 1 tick."""
        for link in on:
            direction = 0 if self.links[link][0] == sender else 1
            late = self.schedule["fates"].get((k, link, direction), 1)
            self.copies += 1
            if late:
                arriving = self.way.setdefault(now + late, {})
                assert (k, link, direction) not in arriving, "a copy arrives once"
                arriving[k, link, direction] = copy


def report(data):
    refusal, s = read(data)
    if refusal:
        return refusal + "\n"
    run = Run(s)
    lines = [f"delta {run.bound}"]
    lines += [f"start {k} refused {r}" for k, r in sorted(run.refused.items())]
    for i, got in enumerate(run.delivered):
        for at, (stamp, source), (kind, image, share) in got:
            lines.append(f"host {i} at {at} stamp {stamp} from {source} {NAMES[kind]} {image}" + (f" {share}" if kind == 1 else ""))
    lines.append(f"copies {run.copies}")
    return "".join(text + "\n" for text in lines)


if __name__ == "__main__":
    sys.stdout.write(report(sys.stdin.buffer.read()))
