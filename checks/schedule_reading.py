"""A schedule read from bytes, from 01 alone: records are a list, and every rule is a sentence of 01."""
from itertools import combinations


def records(data):
    """The fields as (tag, value), or None where one is cut short."""
    found, at = [], 0
    while at < len(data):
        if at + 3 > len(data):
            return None
        tag, size = data[at], data[at + 1] * 256 + data[at + 2]
        if at + 3 + size > len(data):
            return None
        found.append((tag, data[at + 3:at + 3 + size]))
        at += 3 + size
    return found


def is_order(value):
    kind = value[0] if value else 0
    return len(value) == 6 and kind == 1 and 1 <= value[5] <= 100 or len(value) == 5 and kind in (2, 3, 4)


def shaped(data, found):
    if len(data) > 8192 or found is None:
        return False
    tags = [tag for tag, _ in found]
    if tags != sorted(tags) or not set(tags) <= set(range(16, 23)) or any(tags.count(t) != 1 for t in (16, 18, 19, 20)):
        return False
    m, s = tags.count(17), tags.count(21)
    if m > 12 or s > 16 or len(found[0][1]) != 5:
        return False
    n = found[0][1][0]
    for tag, value in found:
        if tag in (17, 18, 19, 20) and len(value) != {17: 2, 18: 3, 19: n, 20: 2}[tag]:
            return False
        if tag == 21 and (len(value) < 3 or value[2] >= n or not is_order(value[3:])):
            return False
        if tag == 22 and (len(value) != 4 or value[0] >= s or value[1] >= m or value[2] > 1):
            return False
    return True


def diameter(hosts, links):
    """The largest distance over the hosts, or None where they are not connected."""
    worst = 0
    for one in hosts:
        near, k = {one}, 0
        while near != hosts:
            more = near | {b for a, b in links if a in near} | {a for a, b in links if b in near}
            if more == near:
                return None
            near, k = more, k + 1
        worst = max(worst, k)
    return worst


def planning(n, pi, big_l, delay, skew, links):
    """The refusal, or 0 with d."""
    if not (2 <= n <= 8 and 1 <= len(links) <= 12 and pi <= n - 2 and big_l <= 12 and 1 <= delay <= 64 and 1 <= skew <= 64):
        return 1, 0
    if any(a >= n or b >= n or a >= b for a, b in links) or len(set(links)) < len(links):
        return 2, 0
    d = 0
    for out in combinations(range(n), pi):
        hosts = set(range(n)) - set(out)
        left = [(a, b) for a, b in links if a in hosts and b in hosts]
        for gone in combinations(left, min(big_l, len(left))):
            far = diameter(hosts, [link for link in left if link not in gone])
            if far is None:
                return 3, 0
            d = max(d, far)
    return 0, d


def outside(found, plan, links, faults, end):
    """The index of the first record outside the rules, or None."""
    n, pi, big_l, delay, skew = plan
    bad_hosts = {i for i in range(8) if faults[0] >> i & 1}
    bad_links = {i for i in range(16) if faults[1] >> i & 1}
    for k, (tag, value) in enumerate(found):
        before = found[k - 1]
        if tag == 18 and (len(bad_hosts) > pi or len(bad_links) > big_l or any(h >= n for h in bad_hosts) or any(i >= len(links) for i in bad_links)):
            return k
        if tag == 19 and any(x >= skew for x in value):
            return k
        if tag == 20 and end > 4096:
            return k
        if tag == 21 and (value[:2] > end.to_bytes(2, "big") or before[0] == 21 and value[:2] < before[1][:2]):
            return k
        if tag == 22:
            lost_well = value[3] == 0 and value[1] not in bad_links and not set(links[value[1]]) & bad_hosts
            if value[3] > delay or lost_well or before[0] == 22 and value[:3] <= before[1][:3]:
                return k
    return None


def read(data):
    """The line of a refusal and nothing, or nothing and what stands in an accepted schedule."""
    found = records(data)
    if not shaped(data, found):
        return "refused 31", None
    of = {tag: [value for t, value in found if t == tag] for tag in range(16, 23)}
    plan, links = tuple(of[16][0]), [tuple(v) for v in of[17]]
    n, pi, big_l, delay, skew = plan
    refusal, d = planning(n, pi, big_l, delay, skew, links)
    if refusal:
        return f"refused {refusal}", None
    faults = of[18][0][0], of[18][0][1] * 256 + of[18][0][2]
    end = int.from_bytes(of[20][0], "big")
    k = outside(found, plan, links, faults, end)
    if k is not None:
        return f"refused 32 {k}", None
    starts = [(v[0] * 256 + v[1], v[2], v[3], int.from_bytes(v[4:8], "big"), v[8] if v[3] == 1 else 0) for v in of[21]]
    fates = {(v[0], v[1], v[2]): v[3] for v in of[22]}
    return None, dict(plan=plan, links=links, d=d, faults=faults, offsets=list(of[19][0]), end=end, starts=starts, fates=fates)
