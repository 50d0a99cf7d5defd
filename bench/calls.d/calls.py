"""The same as calls.c, by the package for Python; and a search by ctypes over libblink.so, if that is named, through one seat
and without a pool: calls.py ROWS ROUNDS [LIBRARY]."""

import ctypes
import itertools
import sys
import time
from array import array

from blink import Map

best = {}


def timed(name, rows, work):
    begin = time.perf_counter_ns()
    work()
    each = (time.perf_counter_ns() - begin) / rows
    best[name] = min(each, best.get(name, each))


def drain(rows):
    """Goes along an iterator without a step of Python for each."""
    assert next(itertools.islice(rows, sys.maxsize - 1, None), None) is None


def one_round(rows):
    m, keys = Map(pages=65536), [n * 7919 % rows * 0x9E3779B97F4A7C15 % 2**64 for n in range(rows)]
    new = [n * 0x9E3779B97F4A7C15 % 2**64 for n in range(rows)]

    def insert():
        for key in new:
            m.insert(key, 5)

    def find():
        for key in keys:
            m[key]

    def put():
        for key in keys:
            m[key] = 6

    timed("insert", rows, insert)
    timed("find", rows, find)
    timed("put", rows, put)
    packed, out = array("Q", keys), array("Q", bytes(8 * rows))
    timed("find_many", rows, lambda: m.get_many(packed, out=out))
    timed("row up", rows, lambda: drain(m.items()))
    timed("row down", rows, lambda: drain(reversed(m.items())))
    assert list(out) == [6] * rows and len(m) == rows


def by_ctypes(rows, path):
    lib, u64 = ctypes.CDLL(path), ctypes.c_uint64
    seat, value = (ctypes.c_void_p * 1)(), u64()
    lib.blink_open.argtypes = [ctypes.c_uint32, ctypes.c_void_p, ctypes.c_size_t]
    lib.blink_insert.argtypes = [ctypes.c_void_p, u64, u64, ctypes.POINTER(u64)]
    lib.blink_find.argtypes = [ctypes.c_void_p, u64, ctypes.POINTER(u64)]
    place, look = ctypes.addressof(seat), lib.blink_find
    assert lib.blink_open(65536, place, 1) == 0
    keys = [n * 7919 % rows * 0x9E3779B97F4A7C15 % 2**64 for n in range(rows)]
    for key in keys:
        assert lib.blink_insert(place, key, 5, value) == 0

    def find():
        for key in keys:
            look(place, key, value)
            value.value

    timed("find by ctypes", rows, find)
    assert lib.blink_close(ctypes.c_void_p(place)) == 0


def main(rows, rounds, path=None):
    for _ in range(int(rounds)):
        one_round(int(rows))
        if path:
            by_ctypes(int(rows), path)
    for name, each in best.items():
        print(f"{name}\t{each:.0f}")


main(*sys.argv[1:])
