"""The package by itself, beside a dict, by threads, and by the mapping tests that Python brings along for its own types."""

import array
import copy
import doctest
import gc
import os
import pathlib
import pickle
import random
import tempfile
import threading
import unittest

import blink
from blink import BadImage, Closed, Map, NoRoom, Unsteady

try:
    from test import mapping_tests
except ImportError:  # Debian has them in libpython3.11-testsuite
    mapping_tests = None
try:
    import numpy
except ImportError:
    numpy = None

TOP = 2**64 - 1
SPREAD = 0x9E3779B97F4A7C15

if mapping_tests:

    class AsPythonsOwn(mapping_tests.BasicTestMappingProtocol):
        """Lib/test/mapping_tests.py of Python, with keys and values that are numbers."""

        type2test = Map

        def _reference(self):
            return {1: 2, 3: 4, 700: 6}

        @unittest.skip("its keys are texts")
        def test_update(self):
            pass

        @unittest.skip("it wants popitem without a place, and this takes one, as SortedDict's does")
        def test_popitem(self):
            pass


class Rows(unittest.TestCase):
    def test_edges(self):
        m = Map(pages=64)
        m[0] = TOP
        m[TOP] = 0
        self.assertEqual(list(m.items()), [(0, TOP), (TOP, 0)])
        self.assertEqual((m.peekitem(0), m.peekitem(-1)), ((0, TOP), (TOP, 0)))
        self.assertEqual(list(reversed(m.items())), [(TOP, 0), (0, TOP)])
        self.assertEqual((list(m.irange(1, TOP - 1)), list(m.irange(5, 4)), list(m.irange(-5, 2**70))), ([], [], [0, TOP]))
        self.assertEqual(list(m.irange(0, TOP, (False, False))), [])
        self.assertEqual((m.snapshot(), m.snapshot(1), m.snapshot(-5, 2**70, (False, False)), m.snapshot(5, 4)), ([(0, TOP), (TOP, 0)], [(TOP, 0)], [(0, TOP), (TOP, 0)], []))
        with self.assertRaises(ValueError):
            m.snapshot(rounds=2**32)
        self.assertEqual((list(m.irange(2**70, 2**71)), list(m.irange(None, -1, reverse=True)), list(m.irange(2**70))), ([], [], []))
        self.assertEqual((m.peekitem(1), m.peekitem(-2)), ((TOP, 0), (0, TOP)))
        for wrong in (2, -3):
            with self.assertRaisesRegex(IndexError, f"no row {wrong}"):
                m.peekitem(wrong)

    def test_no_keys(self):
        m = Map(pages=64)
        for bad in (-1, 2**64):
            self.assertFalse(bad in m)
            self.assertIsNone(m.get(bad))
            self.assertEqual(m.pop(bad, 7), 7)
            for refused in (lambda: m.__setitem__(bad, 1), lambda: m.__setitem__(1, bad), lambda: m.insert(bad, 1), lambda: m.put(1, bad)):
                with self.assertRaisesRegex(OverflowError, f"{bad} is not 0 to"):
                    refused()
            for refused in (lambda: m[bad], lambda: m.__delitem__(bad), lambda: m.pop(bad)):
                with self.assertRaises(KeyError):
                    refused()
        with self.assertRaisesRegex(TypeError, "a key is an integer, not str"):
            m["a"] = 1
        with self.assertRaisesRegex(TypeError, "a key is an integer, not float"):
            m[1.0] = 1
        with self.assertRaisesRegex(OverflowError, "the value -5 is not"):
            m.update([(1, 2), (3, -5)])
        self.assertFalse("a" in m)
        with self.assertRaises(TypeError):
            [] in m
        self.assertEqual(len(m), 0)

    def test_rare_value(self):
        """The value by which the shim says that it is not sure is a value as any other."""
        from blink._shim import lib

        m = Map(pages=16)
        m[5] = lib.SHIM_UNSURE
        self.assertEqual((m[5], m.get(5), 5 in m), (lib.SHIM_UNSURE, lib.SHIM_UNSURE, True))
        with self.assertRaises(KeyError):
            m[6]

    def test_like_a_dict(self):
        for seed in range(5):
            r, m, d = random.Random(seed), Map(pages=4096), {}
            for _ in range(3000):
                self.step(r, m, d)
                self.assertEqual(len(m), len(d))
            self.assertEqual(m, d)
            self.assertEqual(list(m), sorted(d))
            self.assertEqual(list(reversed(m)), sorted(d, reverse=True))
            self.assertEqual(list(reversed(m.values())), [d[k] for k in sorted(d, reverse=True)])

    def step(self, r, m, d):
        k = r.choice([r.randrange(300), r.randrange(300), r.randrange(2**64)])
        v, what = r.randrange(2**64), r.randrange(13)
        if what < 2:
            m[k] = d[k] = v
        elif what == 2:
            self.assertEqual(m.put(k, v), d.get(k))
            d[k] = v
        elif what == 3:
            self.assertEqual(m.pop(k, None), d.pop(k, None))
        elif what == 4:
            self.assertEqual(m.setdefault(k, v), d.setdefault(k, v))
        elif what == 5 and d:
            k = r.choice(list(d))
            old = r.choice([d[k], v])
            self.assertEqual(m.change(k, old, v), d[k] == old)
            if d[k] == old:
                d[k] = v
        elif what == 6:
            self.assertEqual((m.get(k), k in m), (d.get(k), k in d))
        elif what in (7, 8):
            low, high, down, kinds = *sorted((r.randrange(320), r.randrange(320))), what == 8, (r.random() < 0.5, r.random() < 0.5)
            wanted = sorted((k for k in d if (low < k or kinds[0] and low == k) and (k < high or kinds[1] and k == high)), reverse=down)
            self.assertEqual(list(m.irange(low, high, kinds, down)), wanted)
            self.assertEqual(m.snapshot(low, high, kinds), [(k, d[k]) for k in sorted(wanted)])
        elif what == 9:
            self.assertEqual(m.insert(k, v), d.get(k))
            d.setdefault(k, v)
        elif what == 10:
            delta = r.choice([v, -1, 1, 2**64])
            d[k] = (d.get(k, 0) + delta) % 2**64
            self.assertEqual(m.add(k, delta), d[k])
        elif what == 11 and k in d:
            d[k] = d[k] // 2
            self.assertEqual(m.update_value(k, lambda value: value // 2), d[k])
        elif what == 11:
            with self.assertRaises(KeyError):
                m.update_value(k, lambda value: value)
        elif d and r.random() < 0.1:
            self.assertEqual((m.peekitem(0)[0], m.peekitem()[0]), (min(d), max(d)))
            at = r.randrange(-len(d), len(d))
            self.assertEqual(m.peekitem(at)[0], sorted(d)[at])
            if r.random() < 0.5:
                self.assertEqual(m.popitem(at), (k := sorted(d)[at], d.pop(k)))

    def test_add(self):
        m = Map({5: 50}, pages=16)
        self.assertEqual((m.add(5), m.add(5, 9), m.add(6), m.add(6, -2), m.add(7, 0), len(m)), (51, 60, 1, TOP, 0, 3))
        self.assertEqual(m.update_value(5, lambda value: m[6] - value), TOP - 60)
        for refused, error in (
            (lambda: m.add(-1), OverflowError),
            (lambda: m.add("a"), TypeError),
            (lambda: m.add(5, 1.5), TypeError),
            (lambda: m.update_value(8, lambda value: value), KeyError),
            (lambda: m.update_value(6, lambda value: value + 1), OverflowError),
            (lambda: m.update_value(6, lambda value: None), TypeError),
        ):
            self.assertRaises(error, refused)
        self.assertEqual((m[5], m[6]), (TOP - 60, TOP))

    def test_room(self):
        m = Map(pages=8)
        with self.assertRaisesRegex(NoRoom, "no room"):
            for k in range(1000):
                m[k] = k
        n = len(m)
        self.assertEqual(list(m), list(range(n)))
        self.assertGreaterEqual(n, 14)
        with self.assertRaisesRegex(NoRoom, "no room"):
            m.add(n)
        self.assertEqual((len(m), m.add(n - 1)), (n, n))
        with self.assertRaisesRegex(NoRoom, f"no room in 8 pages; {n} pairs were put") as raised:
            Map(pages=8).put_many(array.array("Q", range(1000)), array.array("Q", range(1000)))
        self.assertIsInstance(raised.exception, (MemoryError, blink.Error))

    def test_refused(self):
        for bad in (dict(pages=3), dict(pages=2**28 + 1), dict(seats=0), dict(seats=65), dict(pages=-1), dict(pages=2**32 + 4)):
            with self.assertRaises(ValueError):
                Map(**bad)
        with self.assertRaisesRegex(BadImage, "no sound image"):
            Map.from_image(b"no image")
        with self.assertRaisesRegex(BadImage, "no sound image"):
            Map.from_image(b"")

    def test_closed(self):
        m = Map({1: 2}, pages=16)
        with m:
            self.assertFalse(m.closed)
        m.close()
        self.assertTrue(m.closed)
        for call in (lambda: m[1], lambda: m.get(1), lambda: m.__setitem__(1, 1), lambda: m.pop(1), lambda: list(m), m.peekitem, lambda: m.insert(1, 1), lambda: m.change(1, 1, 1), lambda: m.add(1), lambda: m.update_value(1, abs), lambda: m.peekitem(0), lambda: list(reversed(m)), m.image, lambda: m.get_many(array.array("Q", [1])), lambda: len(m), lambda: bool(m), lambda: m.free_pages):
            with self.assertRaisesRegex(Closed, "the map is closed"):
                call()
        self.assertEqual(repr(m), "<Map, closed>")

    def test_dict_manners(self):
        m = Map({3: 30, 1: 10}, pages=16)
        self.assertEqual(repr(m), "Map({1: 10, 3: 30})")
        self.assertEqual(m | {2: 20}, {1: 10, 2: 20, 3: 30})
        m |= {5: 50}
        self.assertEqual(m.copy(), m)
        self.assertEqual((dict(m), Map.fromkeys([1, 2], 7, pages=16)), ({1: 10, 3: 30, 5: 50}, {1: 7, 2: 7}))
        self.assertEqual((m.keys() & {1, 2}, (1, 10) in m.items(), 50 in m.values()), ({1}, True, True))
        m.clear()
        self.assertEqual((len(m), bool(m)), (0, False))
        with self.assertRaises(KeyError):
            m.popitem()
        with self.assertRaises(TypeError):
            hash(m)


class Images(unittest.TestCase):
    def setUp(self):
        self.folder = tempfile.TemporaryDirectory()
        self.path = pathlib.Path(self.folder.name) / "rows.image"

    def tearDown(self):
        self.folder.cleanup()

    def test_image(self):
        m = Map({k * k: k for k in range(1000)}, pages=512)
        again = Map.from_image(m.image(), seats=2)
        self.assertEqual((list(again.items()), len(again), again.pages), (list(m.items()), 1000, 512))
        self.assertEqual(m[999 * 999], 999)

    def test_image_of_a_large_map(self):
        m = Map({5: 50, 6: 60}, pages=65_537)
        # The anchor and a leaf are in use, and four pages are stored.
        image = m.image()
        self.assertEqual(len(image), 32 + 256 * 4)
        again = Map.from_image(image)
        self.assertEqual((list(again.items()), again.pages), ([(5, 50), (6, 60)], 65_537))
        self.path.write_bytes(image)
        with Map(pages=65_537, path=self.path) as m:
            self.assertEqual((len(m), m.pages), (2, 65_537))

    def test_pickle(self):
        m = Map({1: 10, TOP: 20}, pages=32, seats=3)
        for again in (pickle.loads(pickle.dumps(m)), copy.deepcopy(m), copy.copy(m)):
            again[2] = 5
            self.assertEqual((list(again.items()), again.pages, again.seats), ([(1, 10), (2, 5), (TOP, 20)], 32, 3))
        self.assertEqual(list(m), [1, TOP])

    def test_pages_for_the_rows(self):
        self.assertEqual((Map().pages, Map({1: 1}).pages), (4096, 4096))
        rows = {k * SPREAD % 2**64: k for k in range(100_000)}
        m = Map(rows)
        self.assertEqual((len(m), m.pages), (100_000, 25_000))
        self.assertTrue(0 < m.free_pages < 25_000)
        # Of an iterator it does not know how many rows come: it grows by two. A page has 14 rows at most, and 6 at least in the end.
        m = Map(iter(rows.items()))
        self.assertEqual((len(m), dict(m)), (100_000, rows))
        self.assertIn(m.pages, (8192, 16384, 32768))

    def test_path(self):
        with self.assertRaises(FileNotFoundError):
            Map(pages=512, path=self.path)
        with Map(pages=512, path=self.path, create=True) as m:
            self.assertFalse(self.path.exists())
            m.update((k, k + 1) for k in range(1000))
            m.save()
            m[5] = 7
        self.assertTrue(m.closed)
        with Map.open(self.path) as m:
            self.assertEqual((len(m), m[4], m[5], m.pages), (1000, 5, 7, 512))
        with Map(path=str(self.path), create=True) as m:
            self.assertEqual((len(m), m.pages), (1000, 512))
        with Map({1: 5}, path=self.path, pages=2000) as m:
            self.assertEqual((len(m), m.pages, m[1], m[2]), (1000, 2000, 5, 3))
        with self.assertRaisesRegex(NoRoom, "in 16 pages"):
            Map(path=self.path, pages=16)
        self.assertEqual(os.listdir(self.folder.name), ["rows.image"])
        with self.assertRaises(FileNotFoundError):
            Map.open(self.path.with_name("none"))

    def test_mode_and_link(self):
        link = self.path.with_name("link")
        Map({1: 1}, pages=16).save(self.path)
        self.path.chmod(0o600)
        link.symlink_to(self.path)
        with Map.open(link) as m:
            m[2] = 2
        self.assertTrue(link.is_symlink())
        self.assertEqual(self.path.stat().st_mode & 0o777, 0o600)
        self.assertEqual(len(Map.open(self.path)), 2)

    def test_file_that_cannot_be_written(self):
        m = Map({1: 10}, pages=16, path=self.path.with_name("no") / "such", create=True)
        for name in ("save", "close"):
            with self.assertRaises(FileNotFoundError):
                getattr(m, name)()
            self.assertEqual((m.closed, m[1], len(m)), (False, 10, 1))
        with self.assertWarnsRegex(ResourceWarning, "was not closed"):
            del m
            gc.collect()
        with self.assertRaisesRegex(ValueError, "no path"):
            Map(pages=16).save()
        self.path.write_bytes(b"no image")
        with self.assertRaisesRegex(BadImage, str(self.path)):
            Map(path=self.path)


class Many(unittest.TestCase):
    def test_arrays(self):
        keys = array.array("Q", [k * SPREAD % 2**64 for k in range(10000)])
        m = Map(pages=4096)
        m.put_many(keys, array.array("Q", range(10000)))
        m.put_many(keys, array.array("Q", range(10000)))
        self.assertEqual((list(m.get_many(keys)), len(m)), (list(range(10000)), 10000))
        asked, found = array.array("Q", [keys[5], 1, keys[6]]), bytearray(3)
        self.assertEqual(list(m.get_many(asked, 99, found=found)), [5, 99, 6])
        self.assertEqual(found, b"\1\0\1")
        out = array.array("Q", [7, 7, 7])
        self.assertIs(m.get_many(asked, out=out), out)
        self.assertEqual(list(out), [5, 7, 6])
        self.assertEqual(list(m.get_many(array.array("Q"))), [])

    def test_lists_and_signed(self):
        m = Map(pages=16)
        m.put_many([3, 1, 2], (30, 10, 20))
        m.put_many(array.array("q", [7]), array.array("q", [70]))
        for keys in ([7, 2, 5], (7, 2, 5), array.array("q", [7, 2, 5])):
            self.assertEqual(list(m.get_many(keys)), [70, 20, 0])
        self.assertEqual(list(m), [1, 2, 3, 7])

    def test_refused(self):
        m, keys = Map(pages=16), array.array("Q", [1, 2])
        for wrong in (5, array.array("I", [1]), memoryview(array.array("Q", range(4)))[::2], ["a"]):
            with self.assertRaises(TypeError):
                m.get_many(wrong)
        for wrong in ([-1], array.array("q", [5, -1])):
            with self.assertRaises(OverflowError):
                m.get_many(wrong)
        with self.assertRaisesRegex(ValueError, "out has 1 places, and there are 2 keys"):
            m.get_many(keys, out=array.array("Q", [0]))
        with self.assertRaisesRegex(ValueError, "found has 1 places"):
            m.get_many(keys, found=bytearray(1))
        with self.assertRaisesRegex(ValueError, "values has 1 places"):
            m.put_many(keys, array.array("Q", [1]))
        with self.assertRaises((TypeError, BufferError, ValueError)):
            m.get_many(keys, out=memoryview(array.array("Q", [0, 0])).toreadonly())

    @unittest.skipUnless(numpy, "numpy is not there")
    def test_numpy(self):
        keys = numpy.arange(1000, dtype=numpy.uint64) * numpy.uint64(3)
        m = Map(pages=1024)
        m.put_many(keys, keys + numpy.uint64(1))
        out, found = numpy.zeros(1000, numpy.uint64), numpy.zeros(1000, numpy.bool_)
        asked = numpy.arange(1000, dtype=numpy.uint64)
        m.get_many(asked, out=out, found=found)
        self.assertTrue((found == (asked % 3 == 0)).all())
        self.assertTrue((out[found] == asked[found] + 1).all() and (out[~found] == 0).all())
        self.assertTrue((numpy.asarray(m.get_many(keys)) == keys + numpy.uint64(1)).all())
        self.assertEqual(list(m.get_many(numpy.arange(5))), [1, 0, 0, 4, 0])
        with self.assertRaises(TypeError):
            m.get_many(numpy.arange(5, dtype=numpy.float64))
        self.assertEqual(m[numpy.uint64(3)], 4)


class Threads(unittest.TestCase):
    def together(self, *works):
        failed = []

        def run(work):
            try:
                work()
            except BaseException as error:
                failed.append(error)

        threads = [threading.Thread(target=run, args=(work,)) for work in works]
        for thread in threads:
            thread.start()
        for thread in threads:
            thread.join()
        self.assertEqual(failed, [])

    def test_more_threads_than_seats(self):
        """A counter for each of some keys, and long calls beside short ones."""
        m, threads, times = Map({k: 0 for k in range(5)}, pages=4096, seats=3), 8, 300

        def count():
            for i in range(times):
                while not m.change(i % 5, old := m[i % 5], old + 1):
                    pass
                m.add(i % 5)
                m.update_value(i % 5, lambda value: value + 1)
                m.add(5 + i % 2, 10)

        def load(t):
            first = 10**6 * (t + 1)
            m.put_many(array.array("Q", range(first, first + 1000)), array.array("Q", range(1000)))
            assert list(m.irange(first, first + 999)) == list(range(first, first + 1000))
            assert list(m.irange(first, first + 999, reverse=True)) == list(range(first + 999, first - 1, -1))

        self.together(*[count] * threads, *[lambda t=t: load(t) for t in range(threads)])
        self.assertEqual((sum(m[k] for k in range(5)), m[5] + m[6]), (3 * threads * times, 10 * threads * times))
        self.assertEqual(len(m), 5 + 2 + 1000 * threads)

    def test_grows(self):
        """By each call that enters a row, from one thread and from many, and by those that write images meanwhile."""
        for enter in (Map.__setitem__, Map.put, Map.insert, Map.add):
            m = Map()
            for k in range(40_000):
                enter(m, k * SPREAD % 2**64, k + 1)
            self.assertGreater(m.pages, 4096)
            self.assertEqual((len(m), sum(m.values())), (40_000, 40_000 * 40_001 // 2))
        # Rows that come and go take no more pages than those that are there at a time.
        m = Map()
        for k in range(200_000):
            m[k] = k
            if k >= 5000:
                del m[k - 5000]
        self.assertEqual((len(m), m.pages), (5000, 4096))
        m, threads = Map(seats=3), 6

        def load(t):
            m.put_many(array.array("Q", range(t, 20_000 * threads, threads)), array.array("Q", range(20_000)))
            for k in range(t, 3_000 * threads, threads):
                assert m.pop(k) == k // threads

        def copy_on():
            for _ in range(5):
                found = Map.from_image(m.image())
                assert all(k // threads == v for k, v in found.items())

        self.together(copy_on, *[lambda t=t: load(t) for t in range(threads)])
        self.assertEqual((len(m), list(m)), (17_000 * threads, list(range(3_000 * threads, 20_000 * threads))))
        self.assertGreater(m.pages, 4096)
        self.assertEqual(list(m.copy().items()), list(m.items()))

    def test_shrinks(self):
        """Once most rows have gone; a map with a number of pages keeps it."""
        for pages, least in ((None, 4096), (16384, 16384)):
            m = Map(pages=pages)
            for k in range(60_000):
                m[k] = k + 1
            self.assertGreaterEqual(m.pages, 8192)
            for k in range(59_900):
                self.assertEqual(m.pop(k), k + 1)
            self.assertEqual((m.pages, len(m), list(m.items())), (least, 100, [(k, k + 1) for k in range(59_900, 60_000)]))
            for k in range(60_000, 80_000):
                m[k] = k
            self.assertEqual((len(m), m[59_999], m[79_999]), (20_100, 60_000, 79_999))

    def test_snapshots_add_up(self):
        """Others move amounts by two calls each; what a snapshot lists adds up to what it was, less what is on its way."""
        movers, rows, is_over = 3, 1000, threading.Event()
        m = Map({k: 100 for k in range(rows)}, pages=1024)

        def move(t):
            drawn = random.Random(t)
            while not is_over.is_set():
                m.add(drawn.randrange(rows), -1)
                m.add(drawn.randrange(rows))

        def read():
            try:
                for _ in range(300):
                    try:
                        found = m.snapshot()
                    except Unsteady:
                        continue
                    assert [k for k, _ in found] == list(range(rows))
                    assert 100 * rows - movers <= sum(v for _, v in found) <= 100 * rows, sum(v for _, v in found)
            finally:
                is_over.set()

        self.together(read, *[lambda t=t: move(t) for t in range(movers)])
        self.assertEqual(sum(m.values()), 100 * rows)

    def test_saves_beside_calls(self):
        """What was put before an image is in it, and what is put meanwhile is not lost."""
        with tempfile.TemporaryDirectory() as folder:
            m, path = Map(pages=1024, seats=2), os.path.join(folder, "image")

            def put(t):
                for n in range(300):
                    m[n * 4 + t] = n

            def save():
                for _ in range(20):
                    before = list(m)
                    m.save(path)
                    with Map.open(path, seats=1) as saved:
                        assert set(before) <= set(saved)

            self.together(save, *[lambda t=t: put(t) for t in range(4)])
            self.assertEqual(list(m), list(range(1200)))

    def test_fork(self):
        """The child of a program with one thread reads on; with threads its map is closed."""
        m = Map({1: 2}, pages=16)

        def child():
            pid = os.fork()
            if pid == 0:
                try:
                    os._exit(10 if m[1] == 2 else 12)
                except Closed:
                    try:
                        Map(pages=16)
                    except blink.Error:
                        os._exit(11)
                finally:
                    os._exit(13)
            return os.waitstatus_to_exitcode(os.waitpid(pid, 0)[1])

        stop = threading.Event()
        self.assertEqual(child(), 10)
        thread = threading.Thread(target=stop.wait)
        thread.start()
        try:
            self.assertEqual(child(), 11)
        finally:
            stop.set()
            thread.join()
        self.assertEqual(m[1], 2)


def load_tests(loader, tests, pattern):
    tests.addTests(doctest.DocTestSuite(blink))
    return tests


if __name__ == "__main__":
    unittest.main()
