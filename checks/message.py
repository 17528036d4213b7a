#!/usr/bin/env python3
"""What crates/message_cases must print, worked out from 01's layout alone.

  python3 checks/message.py | diff - crates/message_cases/stdout
"""

LAST_STAMP = 2**40 - 4096 - 1
SIZES = {1: 6, 2: 5, 3: 5, 4: 5}


def written(rules, stamp, source, hop, order):
    kind, image, share = order
    value = bytes([kind]) + image.to_bytes(4, "big") + (bytes([share]) if kind == 1 else b"")
    fields = [(1, stamp.to_bytes(8, "big")), (2, bytes([source]))]
    if rules == 2:
        fields.append((3, bytes([hop])))
    fields.append((4, value))
    return b"".join(bytes([tag]) + len(v).to_bytes(2, "big") + v for tag, v in fields)


def refused(rules, stamp, source, hop, order, room):
    kind, _, share = order
    if rules not in (1, 2) or stamp > LAST_STAMP or source > 7:
        return 23
    if hop != 0 if rules == 1 else not 1 <= hop <= 8:
        return 23
    if kind == 1 and not 1 <= share <= 100:
        return 23
    return 22 if room < len(written(rules, stamp, source, hop, order)) else 0


def readable(rules, data):
    """The values of a message, or None: every field in turn, with nothing after the last."""
    values = []
    for tag in (1, 2, 3, 4) if rules == 2 else (1, 2, 4):
        if len(data) < 3 or data[0] != tag:
            return None
        size = int.from_bytes(data[1:3], "big")
        value, data = data[3 : 3 + size], data[3 + size :]
        if len(value) != size:
            return None
        values.append(value)
    if data or len(values[0]) != 8 or int.from_bytes(values[0], "big") > LAST_STAMP:
        return None
    if len(values[1]) != 1 or values[1][0] > 7:
        return None
    if rules == 2 and (len(values[2]) != 1 or not 1 <= values[2][0] <= 8):
        return None
    order = values[-1]
    if not order or order[0] not in SIZES or len(order) != SIZES[order[0]]:
        return None
    if order[0] == 1 and not 1 <= order[5] <= 100:
        return None
    return values


def passed(rules, data):
    """What a reader answers for stamp, source and hop: each its fault or 0, its number, and the place that it comes to. Then the order's bytes."""
    at, said = 0, []
    for tag, width, least, most in (1, 8, 0, LAST_STAMP), (2, 1, 0, 7), (3, 1, 1, 8):
        head, size = data[at : at + 3], int.from_bytes(data[at + 1 : at + 3], "big")
        value = data[at + 3 : at + 3 + size]
        number = int.from_bytes(value, "big")
        faults = {33: len(head) < 3 or len(value) < size, 34: head[:1] != bytes([tag]), 35: size != width, 36: not least <= number <= most}
        fault = next((n for n, met in faults.items() if met), 0)
        at += 0 if fault else 3 + size
        said += [fault, 0 if fault else number, at]
    print("reader", *said)
    print((readable(rules, data) or [b""])[-1].hex())


def counted(name, rules, tries):
    good = sum(readable(rules, t) is not None for t in tries)
    print(name, len(tries) - good, good, 0)


def damage(rules, *parts):
    data = written(rules, *parts)
    passed(rules, data)
    counted("damaged", rules, [data[:i] + bytes([b]) + data[i + 1 :] for i in range(len(data)) for b in range(256)])
    counted("cut", rules, [data[:i] for i in range(len(data))])
    counted("longer", rules, [data + bytes([b]) for b in range(256)])


def drawn(x):
    return (x * 1_103_515_245 + 12_345) % 2**31


def summed(data, start):
    for b in data:
        start = (start * 257 + b) % 1_000_003
    return start


def shuffle():
    seed, whole, orders = 20, 0, 0
    for _ in range(1000):
        a = drawn(seed)
        b = drawn(a)
        c = drawn(b)
        d = drawn(c)
        seed = d
        rules = 1 + a // 65_536 % 2
        hop = 1 + d // 65_536 % 8 if rules == 2 else 0
        order = (1 + d // 1_048_576 % 4, a * 2 + b // 65_536 % 2, 1 + b // 1_024 % 100)
        data = written(rules, (b * 4_096 + c // 1_024) % (2**40 - 4096), c // 65_536 % 8, hop, order)
        whole = summed(data, whole)
        orders = summed(readable(rules, data)[-1], orders)
    print("random", 1000, whole, orders)


HALT = (2, 7, 0)
print(written(1, 100, 0, 0, HALT).hex())
damage(1, 100, 0, 0, HALT)
damage(1, LAST_STAMP, 7, 0, (1, 2**32 - 1, 100))
damage(2, 0, 3, 8, (4, 0, 0))
damage(2, 258, 1, 1, (1, 65_536, 1))
TRIES = [
    (0, 0, 0, 0, HALT, 32), (3, 0, 0, 1, HALT, 32), (1, LAST_STAMP + 1, 0, 0, HALT, 32), (1, 0, 8, 0, HALT, 32),
    (1, 0, 0, 1, HALT, 32), (2, 0, 0, 0, HALT, 32), (2, 0, 0, 9, HALT, 32), (1, 0, 0, 0, (1, 7, 0), 32),
    (1, 0, 0, 0, (1, 7, 101), 0), (1, 0, 0, 0, HALT, 22), (2, 0, 0, 1, (1, 7, 1), 27), (2, 0, 0, 1, (1, 7, 1), 28),
]
print("write", *(refused(*t) for t in TRIES))
print("read", 23, 30)
shuffle()
RESUME = written(2, 100, 7, 8, (3, 7, 0))
passed(2, RESUME[:14])
passed(2, RESUME[:11] + bytes([3]) + RESUME[12:])
