#!/usr/bin/env python3
"""What crates/host_cases must print: the calls of its standard input and the calls that it draws, by the reading of 01 in host_calls.py.

  python3 checks/host.py | diff - crates/host_cases/stdout
"""
from copy import deepcopy
from pathlib import Path

from host_calls import make, receive, start, tick, zero


def network(number):
    plan = dict(n=3, pi=1, m=3, lost=0, delay=10, skew=3, places=[(0, 1), (0, 2), (1, 2)] + [(0, 0)] * 9)
    places = plan["places"]
    if number == 1:
        plan.update(n=2, pi=0, m=1)
    elif number == 2:
        plan.update(n=4, pi=2, m=4)
        places[1:4] = [(1, 2), (2, 3), (0, 3)]
    elif number in (3, 4, 6):
        at, link = {3: (1, (0, 1)), 4: (1, (0, 3)), 6: (7, (3, 9))}[number]
        places[at] = link
    elif number == 5:
        plan["delay"] = 0
    return plan


def order_of(kind, image, share):
    return (kind, image, share if kind == 1 else 0) if 1 <= kind <= 4 else (1, 0, 0)


def changed(h, call, u, hop, stamp, source, order):
    h, at, small = deepcopy(h), source % 4, stamp % 256
    if call == 16:
        for k in range(stamp % 40):
            h = receive(h, 1000, 0, 1, (1000 + k, 0, (2, 7, 0)))[0]
    elif call in (4, 6, 7):
        h[{4: "d", 6: "own", 7: "rules"}[call]] = small
    elif call in (5, 8):
        h[{5: "bound", 8: "last"}[call]] = stamp
    elif call in (9, 10):
        h[{9: "started", 10: "held"}[call]] = stamp % {9: 9, 10: 40}[call]
    elif call == 11:
        h["starts"][at] = stamp
    elif call == 12:
        h["history"][at] = (u, hop, order)
    elif call == 14:
        h["plan"]["skew"] = small
    else:
        h["plan"]["places"][at if call == 13 else 11] = (small, 2) if call == 13 else (0, small)
    return h


def made(h, row):
    call, u, arrival, hop, stamp, source, kind, image, share = row
    order = order_of(kind, image, share)
    if call == 0:
        h, refused = make(network(source), kind, share)
        said = f"{h['d']} {h['bound']}"
    elif call == 1:
        h, refused, said = start(h, u, order)
    elif call == 2:
        h, refused, said = receive(h, u, arrival, hop, (stamp, source, order))
    elif call == 3:
        h, refused, said = tick(h, u, stamp % 601)
        said = said if refused else " ".join([f"{len(said) // 16}:", *map(str, said)])
    else:
        return changed(h, call, u, hop, stamp, source, order)
    if call in (1, 2) and not refused:
        said = f"{said[0]} {said[1]}"
    name = ("make", "start", "receive", "tick")[call]
    print(f"{name} {f'refused {refused}' if refused else said}, {h['held']} {h['started']} {h['last']}")
    return h


def rows():
    text = (Path(__file__).parent.parent / "crates/host_cases/stdin").read_text()
    return [[int(cell) for cell in line.split()] for line in text.splitlines() if not line.startswith("#")]


def after(seed, k):
    for _ in range(k):
        seed = (seed * 25173 + 13849) % 65536
    return seed


def drawn(seed, last, rules):
    draw = lambda k, n: after(seed, k) // 64 % n
    u = last % 1_000_000 + draw(1, 7)
    hop = draw(4, 10)
    stamp = max(0, u + draw(5, 48) - 30) // 8 * 8
    return [1 + draw(2, 3), u, draw(3, 4), hop // 9 if rules == 1 else hop, stamp, draw(6, 4), 1 + draw(7, 4), draw(8, 3), draw(9, 103)]


def many(seed, rules, count):
    h = made(zero(), [0, 0, 0, 0, 0, 0, rules, 0, 1])
    for _ in range(count):
        h = made(h, drawn(seed, h["last"], rules))
        seed = after(seed, 12)


if __name__ == "__main__":
    host = zero()
    for row in rows():
        host = made(host, row)
    many(1, 2, 400)
    many(2, 1, 400)
