"""A host's calls, worked out from 01 alone: each answers the state after it, the refusal or 0, and what it says."""
from network import bad_links, out_of_range, parts

LAST_READING = 2**40 - 1
LAST_STAMP = LAST_READING - 4096
BLANK = (0, 0, (1, 0, 0))


def bound(rules, plan, d):
    cost = plan["delay"] + (plan["skew"] if rules != 1 else 0)
    return plan["pi"] * cost + d * plan["delay"] + plan["skew"]


def window(rules, plan, d):
    return bound(rules, plan, d) + (1 if rules == 1 else 8) * plan["skew"]


def share_fits(order):
    return order[0] != 1 or 1 <= order[2] <= 100


def used(plan):
    return [tuple(l) for l in plan["places"][: plan["m"]]]


def zero():
    plan = dict(n=0, pi=0, m=0, lost=0, delay=0, skew=0, places=[(0, 0)] * 12)
    return dict(plan=plan, rules=0, d=0, bound=0, own=0, last=0, started=0, starts=[0] * 4, held=0, history=[BLANK] * 32)


def make(plan, rules, own):
    d = None
    if out_of_range(**plan):
        return zero(), 1
    if bad_links(plan["n"], used(plan)):
        return zero(), 2
    d = parts(plan["n"], used(plan), plan["pi"], plan["lost"])
    if d is None:
        return zero(), 3
    if rules not in (1, 2):
        return zero(), 23
    if own >= plan["n"]:
        return zero(), 15
    plan = dict(plan, places=used(plan) + [(0, 0)] * (12 - plan["m"]))
    return dict(zero(), plan=plan, rules=rules, d=d, bound=bound(rules, plan, d), own=own), 0


def sound(h):
    plan, held, starts = h["plan"], h["history"][: h["held"]], h["starts"][: h["started"]]
    names = [(t, s) for t, s, _ in held]
    return (
        not out_of_range(**plan)
        and not bad_links(plan["n"], used(plan))
        and 1 <= h["d"] <= 7
        and h["bound"] == bound(h["rules"], plan, h["d"])
        and h["held"] <= 32
        and all(t <= LAST_STAMP and s < plan["n"] and share_fits(o) for t, s, o in held)
        and all(a < b for a, b in zip(names, names[1:]))
        and all(starts and t <= starts[-1] for t, s in names if s == h["own"])
        and h["started"] <= 4
        and all(a < b for a, b in zip(starts, starts[1:]))
        and all(s <= h["last"] for s in starts)
        and h["rules"] in (1, 2)
        and h["own"] < plan["n"]
        and all(tuple(l) == (0, 0) for l in plan["places"][plan["m"] :])
        and not any(h["starts"][h["started"] :])
        and all(e == BLANK for e in h["history"][h["held"] :])
    )


def own_links(h):
    return [i for i, ends in enumerate(used(h["plan"])) if h["own"] in ends]


def with_history(h, u, orders):
    orders = sorted(orders, key=lambda e: e[:2])
    return dict(h, last=u, held=len(orders), history=orders + [BLANK] * (32 - len(orders)))


def links_set(links):
    return sum(1 << i for i in links)


def start(h, u, order):
    starts = h["starts"][: h["started"]]
    tests = [
        (9, lambda: not sound(h)),
        (23, lambda: not share_fits(order)),
        (10, lambda: u > LAST_STAMP),
        (11, lambda: u < h["last"]),
        (12, lambda: starts and u == starts[-1]),
        (13, lambda: len(starts) == 4 and u < starts[0] + window(h["rules"], h["plan"], h["d"])),
        (14, lambda: h["held"] == 32),
    ]
    for number, fails in tests:
        if fails():
            return h, number, None
    starts = (starts + [u])[-4:]
    after = with_history(h, u, h["history"][: h["held"]] + [(u, h["own"], order)])
    after.update(started=len(starts), starts=starts + [0] * (4 - len(starts)))
    return after, 0, (links_set(own_links(h)), 1 if h["rules"] == 2 else 0)


def receive(h, u, link, hop, copy):
    stamp, source, order = copy
    plan, second = h["plan"], h["rules"] == 2
    named = [o for t, s, o in h["history"][: h["held"]] if (t, s) == (stamp, source)]
    tests = [
        (9, lambda: not sound(h)),
        (15, lambda: link not in own_links(h) or source >= plan["n"]),
        (23, lambda: stamp > LAST_STAMP or not share_fits(order) or hop not in (range(1, 9) if second else (0,))),
        (10, lambda: u > LAST_READING),
        (11, lambda: u < h["last"]),
        (16, lambda: second and u + hop * plan["skew"] <= stamp),
        (17, lambda: second and u >= stamp + hop * (plan["delay"] + plan["skew"])),
        (18, lambda: u >= stamp + h["bound"]),
        (19, lambda: order in named),
        (20, lambda: named),
        (21, lambda: source == h["own"]),
        (14, lambda: h["held"] == 32),
    ]
    for number, fails in tests:
        if fails():
            return h, number, None
    after = with_history(h, u, h["history"][: h["held"]] + [copy])
    if hop == 8:
        return after, 0, (0, 0)
    return after, 0, (links_set(i for i in own_links(h) if i != link), hop + 1 if second else 0)


def entry(e):
    stamp, source, (kind, image, share) = e
    return stamp.to_bytes(8, "big") + bytes([source, kind]) + image.to_bytes(4, "big") + bytes([share if kind == 1 else 0, 0])


def tick(h, u, room):
    held = h["history"][: h["held"]]
    due = [e for e in held if e[0] + h["bound"] <= u]
    for number, fails in [(9, not sound(h)), (10, u > LAST_READING), (11, u < h["last"]), (22, room < 16 * len(due))]:
        if fails:
            return h, number, None
    return with_history(h, u, [e for e in held if e not in due]), 0, b"".join(map(entry, due))
