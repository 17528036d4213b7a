#!/usr/bin/env python3
"""What crates/board_cases must print, worked out from 01 alone: a board is a dictionary from images to how they stand.

  python3 checks/board.py | diff - crates/board_cases/stdout
"""


def outcome(kind, share, stand):
    if kind == "withdraw":
        return None
    if stand is None:
        return {"publish": ("offered", share), "halt": ("halted", 0), "resume": None}[kind]
    state, old = stand
    if state == "offered":
        return {"publish": ("offered", share), "halt": ("halted", old), "resume": stand}[kind]
    return {"publish": stand, "halt": stand, "resume": ("offered", old) if old else None}[kind]


def sound(board):
    """`board` is a count, and the places that are not zero as (place, image, state, share)."""
    count, places = board
    if count > 16 or any(i >= count for i, *_ in places) or len(places) < count:
        return False
    fit = all((state == "offered" and 1 <= share <= 100) or (state == "halted" and share <= 100) for _, _, state, share in places)
    images = [image for _, image, _, _ in sorted(places)]
    return fit and all(a < b for a, b in zip(images, images[1:]))


def apply(board, kind, image, share):
    """The answer as text, and the board after it."""
    if not sound(board):
        return "refused 9", board
    if kind == "publish" and not 1 <= share <= 100:
        return "refused 23", board
    stands = {i: (state, s) for _, i, state, s in board[1]}
    new = outcome(kind, share, stands.get(image))
    if new is None:
        stands.pop(image, None)
    elif image in stands or len(stands) < 16:
        stands[image] = new
    after = (len(stands), [(k, i, *stands[i]) for k, i in enumerate(sorted(stands))])
    return "board" + "".join(f" {i} {state} {s}" for _, i, state, s in after[1]), after


def only(image, state, share):
    return 1, [(0, image, state, share)]


EMPTY = (0, [])


def lines():
    for start in (EMPTY, only(7, "offered", 30), only(7, "halted", 30), only(7, "halted", 0)):
        for kind in ("publish", "halt", "resume", "withdraw"):
            yield apply(start, kind, 7, 45)[0]
    out = ("publish", 9, 0)
    two = only(5, "offered", 100)[1]
    for board in ((17, []), (1, []), only(0, "offered", 0), only(0, "offered", 101), only(0, "halted", 101),
                  (1, two + [(1, 5, "halted", 100)]), (2, two + [(1, 5, "halted", 100)]), (2, two + [(1, 6, "halted", 100)])):
        yield apply(board, *out)[0]
    good = (2, two + [(1, 6, "halted", 100)])
    for image, share in ((9, 101), (9, 1), (6, 101)):
        yield apply(good, "publish", image, share)[0]
    board = EMPTY
    for image in range(32, 0, -2):
        board = apply(board, "halt", image, 0)[1]
    for kind, image in (("publish", 7), ("halt", 7), ("resume", 7), ("publish", 8)):
        yield apply(board, kind, image, 50)[0]
    board = apply(board, "withdraw", 32, 0)[1]
    yield apply(board, "halt", 1, 0)[0]
    board = apply(board, "resume", 2, 0)[1]
    yield apply(board, "publish", 40, 50)[0]
    board, seed = EMPTY, 2026
    for _ in range(600):
        draws = []
        for _ in range(3):
            draws.append(seed // 65536 % 32768)
            seed = (seed % 2**31 * 1103515245 + 12345) % 2**31
        text, board = apply(board, ("publish", "halt", "resume", "withdraw")[draws[0] % 4], draws[1] % 24, draws[2] % 103)
        yield text


for line in lines():
    print(line)
