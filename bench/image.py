"""Writes the image of a full tree of 65,536 pages, of which 64,619 are in use, to the path that is given."""
import struct
import sys

COUNT, LEAVES, FULL = 65536, 60000, 14


def page(kind, level, count, low, high, right, entries):
    words = [kind * 2**32 + level * 2**16 + count, low, high, right] + entries
    return struct.pack("<32Q", *(words + [0] * (32 - len(words))))


def tree():
    pages, used, roots = [bytes(256)] * COUNT, 1, [1]
    below = []
    for i in range(LEAVES):
        low, last = (0 if i == 0 else FULL * i + 1), i == LEAVES - 1
        rows = [word for key in range(FULL * i + 1, FULL * i + FULL + 1) for word in (key, 10 * key)]
        pages[used] = page(2, 0, FULL, low, 0 if last else FULL * i + FULL + 1, 0 if last else used + 1, rows)
        below.append((low, used))
        used += 1
    while len(below) > 1:
        above = []
        roots.append(used)
        for i in range(0, len(below), FULL):
            children, last = below[i : i + FULL], i + FULL >= len(below)
            entries = [word for child in children for word in child]
            bound = 0 if last else below[i + FULL][0]
            pages[used] = page(3, len(roots) - 1, len(children), children[0][0], bound, 0 if last else used + 1, entries)
            above.append((children[0][0], used))
            used += 1
        below = above
    pages[0] = page(1, 0, len(roots), 0, 0, 0, roots)
    return pages


with open(sys.argv[1], "wb") as out:
    out.write(b"BLNKIDX1" + struct.pack("<II", 1, COUNT) + bytes(16) + b"".join(tree()))
