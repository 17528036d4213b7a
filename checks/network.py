#!/usr/bin/env python3
"""What crates/network_cases must print, worked out from 01 alone: breadth-first searches over every fault set.

  python3 checks/network.py | diff - crates/network_cases/stdout
"""
from itertools import combinations


def diameter(hosts, links):
    """The largest distance between two of the hosts, or None where some two are not connected."""
    worst = 0
    for start in hosts:
        seen, edge, far = {start}, [start], 0
        while edge:
            edge = sorted({b for a in edge for b in hosts if b not in seen and ((a, b) in links or (b, a) in links)})
            far += bool(edge)
            seen.update(edge)
        if len(seen) < len(hosts):
            return None
        worst = max(worst, far)
    return worst


def parts(n, links, pi, lost):
    """d, or None where some fault set parts the survivors."""
    d = 0
    for k in range(pi + 1):
        for out in combinations(range(n), k):
            hosts = [h for h in range(n) if h not in out]
            for j in range(min(lost, len(links)) + 1):
                for cut in combinations(range(len(links)), j):
                    left = {l for i, l in enumerate(links) if i not in cut and l[0] in hosts and l[1] in hosts}
                    far = diameter(hosts, left)
                    if far is None:
                        return None
                    d = max(d, far)
    return d


def out_of_range(n, pi, m, lost, delay, skew, places):
    return not (2 <= n <= 8 and 1 <= m <= 12 and 0 <= pi <= n - 2 and lost <= 12 and 1 <= delay <= 64 and 1 <= skew <= 64)


def bad_links(n, links):
    return any(a >= n or b >= n or a >= b for a, b in links) or len(set(links)) < len(links)


def answer(n, pi, m, lost, delay, skew, places):
    if out_of_range(n, pi, m, lost, delay, skew, places):
        return "refused 1"
    links = [tuple(l) for l in places[:m]]
    if bad_links(n, links):
        return "refused 2"
    d = parts(n, links, pi, lost)
    if d is None:
        return "refused 3"
    first, second = pi * delay + d * delay + skew, pi * (delay + skew) + d * delay + skew
    return f"d {d}, {first} {first + skew}, {second} {second + 8 * skew}"


def triangle(**changes):
    plan = dict(n=3, pi=0, m=3, lost=0, delay=10, skew=3, places=[(0, 1), (0, 2), (1, 2)] + [(0, 0)] * 9)
    at = changes.pop("at", {})
    plan.update(changes)
    for i, link in at.items():
        plan["places"][i] = link
    return answer(**plan)


def edges():
    yield triangle(n=0, pi=255)
    yield triangle(n=1, pi=255)
    yield triangle(n=9)
    for m in (0, 13, 255):
        yield triangle(m=m)
    for size in (0, 1, 64, 65, 255):
        yield triangle(delay=size)
        yield triangle(skew=size)
    yield triangle(pi=2)
    yield triangle(pi=1)
    for lost in (1, 2, 12, 13):
        yield triangle(lost=lost)
    for link in ((0, 3), (3, 4), (2, 0), (1, 1), (0, 1)):
        yield triangle(at={1: link})
    yield triangle(at={1: (0, 1)}, skew=0)
    yield triangle(at={2: (0, 2)}, pi=1)
    yield triangle(at={5: (9, 9)})
    yield triangle(at={5: (9, 9)}, m=2)


def drawn(count):
    seed = 2026
    for _ in range(count):
        draws, s = [], seed
        for _ in range(9):
            draws.append(s)
            s = (s % 2**31 * 1103515245 + 12345) % 2**31
        draw = lambda k, limit: draws[k] // 65536 % limit
        n = 2 + draw(1, 7)
        ring = [(i, i + 1) for i in range(n - 1)] + [(0, n - 1)]
        chords = [tuple(sorted(((i + draw(7, n)) % n, (i + draw(7, n) + 2) % n))) for i in range(n, 12)]
        yield answer(n, draw(2, 4), n - 1 + draw(3, 14 - n), draw(4, 3), 1 + draw(5, 64), 1 + draw(6, 64), ring + chords)
        seed = draws[8]


if __name__ == "__main__":
    print(*edges(), *drawn(400), sep="\n")
