"""Each command, and what the server makes of a map: test_commands.py."""

import os
import re
import time
import unittest

from server import Error, Server, until

MOST = (1 << 64) - 1
FEW = 128
ALL = [("create",), ("set", 1, 1), ("mset", 1, 1), ("get", 1), ("mget", 1), ("del", 1), ("remrange", 1, 1), ("cas", 1, 1, 1), ("incrby", 1, 1),
       ("range", 1, 1), ("revrange", 1, 1), ("next", 1), ("prev", 1), ("count", 1, 1), ("card",), ("info",)]  # fmt: skip
NAMES = ["blink." + name for name, *_ in ALL]


def flat(rows):
    return [number for row in rows for number in row]


class Commands(unittest.TestCase):
    @classmethod
    def setUpClass(cls):
        cls.server = Server("--notify-keyspace-events", "KEA")
        cls.addClassCleanup(cls.server.remove)
        cls.call = cls.server.client

    @classmethod
    def tearDownClass(cls):
        cls.server.end()

    def setUp(self):
        self.call("FLUSHALL")

    def b(self, name, *words):
        return self.call("BLINK." + name, *words)

    def fill(self, name, rows):
        for at in range(0, len(rows), 1000):
            self.b("MSET", name, *flat(rows[at : at + 1000]))

    def spread(self, count):
        return [(n * 2654435761 % (1 << 32), n) for n in range(count)]

    def refused(self, begin, *words):
        with self.assertRaises(Error) as caught:
            self.call(*words)
        self.assertTrue(str(caught.exception).startswith(begin), str(caught.exception))

    def used(self):
        return int(self.call.info("memory", "used_memory"))

    # ---- Each command. ----

    def test_set_and_get(self):
        self.assertEqual(self.b("SET", "m", 5, 50), "OK")
        self.assertEqual(self.b("GET", "m", 5), "50")
        self.assertIsNone(self.b("GET", "m", 6))
        self.assertIsNone(self.b("GET", "none", 6))
        self.assertIsNone(self.b("SET", "m", 5, 51, "nx"))
        self.assertEqual(self.b("SET", "m", 5, 51, "NX", "GET"), "50")
        self.assertIsNone(self.b("SET", "m", 6, 60, "XX"))
        self.assertIsNone(self.b("SET", "none", 6, 60, "XX"))
        self.assertEqual(self.call("EXISTS", "none"), 0)
        self.assertEqual(self.b("SET", "m", 5, 52, "XX"), "OK")
        self.assertEqual(self.b("SET", "m", 5, MOST, "GET"), "52")
        self.assertIsNone(self.b("SET", "m", MOST, 0, "GET"))
        self.assertEqual(self.b("MGET", "m", 5, 1, MOST), [str(MOST), None, "0"])
        self.assertEqual(self.b("MGET", "none", 5, 1), [None, None])
        self.assertEqual(self.call("TYPE", "m"), "blink-map")
        self.refused("ERR syntax", "BLINK.SET", "m", 1, 2, "NX", "XX")
        self.refused("ERR syntax", "BLINK.SET", "m", 1, 2, "EX")

    def test_what_documents_show(self):
        """Commands with their replies, two spaces or more apart."""
        with open(os.path.join(os.path.dirname(__file__), "../../../docs/EMBEDDING.md"), encoding="utf-8") as file:
            shown = re.findall(r"^    (BLINK\..*?)  +(.*)", file.read(), re.M)
        self.assertGreater(len(shown), 3)
        for command, wanted in shown:
            reply = self.call(*command.split())
            self.assertEqual(" ".join(reply) if isinstance(reply, list) else str(reply), wanted)

    def test_numbers(self):
        for word in ("", "-1", "01", "1 ", "+1", "1.0", "0x1", MOST + 1, "99999999999999999999", "100000000000000000000", "a"):
            self.refused("ERR value is not", "BLINK.SET", "m", word, 1)
            self.refused("ERR value is not", "BLINK.SET", "m", 1, word)
            self.refused("ERR value is not", "BLINK.GET", "m", word)
        self.assertEqual(self.call("EXISTS", "m"), 0)
        self.assertEqual(self.b("MSET", "m", 0, 0, MOST, MOST), 2)
        self.assertEqual(self.b("RANGE", "m", "-", "+"), ["0", "0", str(MOST), str(MOST)])

    def test_del(self):
        self.assertEqual(self.b("DEL", "none", 1), 0)
        self.assertEqual(self.b("MSET", "m", 1, 10, 2, 20, 2, 21, 3, 30), 3)
        self.assertEqual(self.b("MSET", "m", 1, 10, 4, 20), 1)
        self.assertEqual(self.b("DEL", "m", 2, 2, 9), 1)
        self.assertEqual(self.b("CARD", "m"), 3)
        self.assertEqual(self.b("REMRANGE", "m", "(1", "+"), 2)
        self.assertEqual(self.b("REMRANGE", "m", 5, 4), 0)
        self.assertEqual(self.b("DEL", "m", 1), 1)
        self.assertEqual(self.call("EXISTS", "m"), 0)
        self.assertEqual(self.b("CARD", "m"), 0)

    def test_create(self):
        self.assertEqual(self.b("CREATE", "m", "MAXROWS", 3), "OK")
        self.refused("BUSYKEY", "BLINK.CREATE", "m")
        self.assertEqual(self.b("MSET", "m", 1, 1, 2, 2), 2)
        self.refused("MAPFULL", "BLINK.MSET", "m", 3, 3, 4, 4)
        self.assertEqual(self.b("CARD", "m"), 2)
        self.assertEqual(self.b("MSET", "m", 2, 3, 1, 4, 3, 5), 1)
        self.refused("MAPFULL", "BLINK.SET", "m", 4, 4)
        self.refused("MAPFULL", "BLINK.INCRBY", "m", 4, 4)
        self.assertEqual(self.b("SET", "m", 3, 4), "OK")
        self.assertEqual(self.b("DEL", "m", 1, 2, 3), 3)
        self.assertEqual(self.call("EXISTS", "m"), 1)
        info = self.call.pairs("BLINK.INFO", "m")
        self.assertEqual((info["rows"], info["max-rows"], info["kept"], info["parts"]), (0, 3, 1, 0))
        self.refused("ERR value", "BLINK.CREATE", "n", "MAXROWS", 0)
        self.refused("ERR syntax", "BLINK.CREATE", "n", "ROWS", 1)
        self.refused("ERR no such key", "BLINK.INFO", "n")

    def test_cas(self):
        self.assertIsNone(self.b("CAS", "m", 1, 10, 11))
        self.b("SET", "m", 1, 10)
        self.assertIsNone(self.b("CAS", "m", 2, 10, 11))
        self.assertEqual(self.b("CAS", "m", 1, 9, 11), 0)
        self.assertEqual(self.b("CAS", "m", 1, 10, 11), 1)
        self.assertEqual(self.b("GET", "m", 1), "11")

    def test_incrby(self):
        self.assertEqual(self.b("INCRBY", "m", 1, 10), "10")
        self.assertEqual(self.b("INCRBY", "m", 1, -10), "0")
        self.refused("ERR increment", "BLINK.INCRBY", "m", 1, -1)
        self.assertEqual(self.b("INCRBY", "m", 1, MOST), str(MOST))
        self.refused("ERR increment", "BLINK.INCRBY", "m", 1, 1)
        self.refused("ERR increment", "BLINK.INCRBY", "none", 1, -1)
        self.assertEqual(self.call("EXISTS", "none"), 0)

    def test_ranges(self):
        # As an array, and as parts.
        for last in (100, 1000):
            self.call("FLUSHALL")
            rows = [(10 * n, n) for n in range(1, last + 1)]
            self.fill("m", rows)
            rows, down = ([str(it) for it in flat(some)] for some in (rows, rows[::-1]))
            self.assertEqual(self.b("RANGE", "m", "-", "+"), rows)
            self.assertEqual(self.b("REVRANGE", "m", "+", "-"), down)
            self.assertEqual(self.b("RANGE", "m", 10, "(30"), rows[:4])
            self.assertEqual(self.b("RANGE", "m", "(10", 30), rows[2:6])
            self.assertEqual(self.b("RANGE", "m", 15, "+", "COUNT", 2), rows[2:6])
            self.assertEqual(self.b("RANGE", "m", "-", "+", "count", 0), [])
            self.assertEqual(self.b("REVRANGE", "m", "(1000", 0, "COUNT", 1), ["990", "99"])
            self.assertEqual(self.b("RANGE", "m", 30, 10), [])
            self.assertEqual(self.b("RANGE", "m", 31, 39), [])
            self.assertEqual(self.b("RANGE", "m", f"({MOST}", "+"), [])
            self.assertEqual(self.b("REVRANGE", "m", "(0", "-"), [])
            self.assertEqual(self.b("COUNT", "m", "(10", "(50"), 3)
            self.assertEqual(self.b("COUNT", "m", "-", "+"), last)
            self.assertEqual(self.b("COUNT", "m", 50, 10), 0)
            self.assertEqual(self.b("NEXT", "m", 10), ["20", "2"])
            self.assertIsNone(self.b("PREV", "m", 10))
            self.assertEqual(self.b("PREV", "m", MOST), [str(10 * last), str(last)])
            self.assertIsNone(self.b("NEXT", "m", MOST))
            self.assertEqual(self.b("NEXT", "m", 0), ["10", "1"])
            self.assertIsNone(self.b("PREV", "m", 0))
        self.assertEqual(self.b("RANGE", "none", "-", "+"), [])
        self.assertEqual(self.b("COUNT", "none", "-", "+"), 0)
        self.assertIsNone(self.b("NEXT", "none", 0))
        for words in (("RANGE", "m", "a", 1), ("RANGE", "m", 1, "(-"), ("COUNT", "m", "((1", 2), ("REMRANGE", "m", "", 2)):
            self.refused("ERR min or max", "BLINK." + words[0], *words[1:])
        self.refused("ERR syntax", "BLINK.RANGE", "m", 1, 2, "LIMIT", 2)

    def test_remrange(self):
        """Whole parts go at once, and of those at the ends what was asked for."""
        rows = self.spread(30000)
        keys = sorted(key for key, _ in rows)
        self.call("CONFIG", "SET", "blink.part-pages", 64)
        self.addCleanup(self.call, "CONFIG", "SET", "blink.part-pages", 512)
        for low, high in ((0, 10), (5, 29000), (100, 29990), (0, 30000), (29000, 30000), (14000, 14200), (1, 29999)):
            self.fill("m", rows)
            self.call("COPY", "m", "n", "REPLACE")
            self.assertEqual(self.b("REMRANGE", "m", keys[low], keys[high - 1]), high - low)
            left = [str(key) for key in keys[:low] + keys[high:]]
            self.assertEqual(self.b("RANGE", "m", "-", "+")[::2], left)
            self.assertEqual(self.b("CARD", "m"), len(left))
            self.assertEqual(self.b("COUNT", "m", "-", keys[-1]), len(left))
            # The copy is as it was.
            self.assertEqual(self.b("RANGE", "n", "-", "+")[::2], [str(key) for key in keys])

    def test_few_rows(self):
        """A map is an array up to so many rows, and again where most have gone."""
        parts = lambda: self.call.pairs("BLINK.INFO", "m")["parts"]
        for order in (range(FEW), range(FEW - 1, -1, -1)):
            self.call("FLUSHALL")
            for key in order:
                self.b("SET", "m", 2 * key, key)
            self.assertEqual(parts(), 0)
            self.b("SET", "m", 2, 1)
            self.assertEqual(parts(), 0)
            self.b("SET", "m", 3, 1)
            self.assertEqual(parts(), 1)
            self.assertEqual(self.b("RANGE", "m", 0, 6), ["0", "0", "2", "1", "3", "1", "4", "2", "6", "3"])
            for key in range(10, FEW - 1):
                self.b("DEL", "m", 2 * key)
            self.assertEqual(parts(), 0)
            self.assertEqual(self.b("CARD", "m"), 12)
            self.assertEqual(self.b("REMRANGE", "m", 3, 5), 2)
            self.assertEqual(self.b("RANGE", "m", "-", "+")[::2], ["0", "2", *(str(2 * key) for key in range(3, 10)), str(2 * FEW - 2)])

    def test_numbers_of_few_rows(self):
        """Those that are there stay as they are when greater ones come, which take more bytes."""
        numbers = [0, *(256**n - 1 for n in range(1, 9)), *(256**n for n in range(1, 8))]
        for keys, values in ((numbers, numbers), (numbers, numbers[::-1]), (numbers[::-1], numbers)):
            for is_kept in (False, True):
                self.call("FLUSHALL")
                if is_kept:
                    self.b("CREATE", "m", "MAXROWS", len(numbers))
                rows = {}
                for key, value in zip(keys, values):
                    self.b("SET", "m", key, 0)
                    self.b("SET", "m", key, value)
                    rows[key] = value
                    self.assertEqual(self.b("RANGE", "m", "-", "+"), [str(it) for it in flat(sorted(rows.items()))])
                self.call("COPY", "m", "n")
                self.call("RESTORE", "o", 0, self.call.dump("m"))
                digest = self.call.digest("m")
                for name in "mno":
                    self.assertEqual(self.call.digest(name), digest)
                    about = self.call.pairs("BLINK.INFO", name)
                    self.assertEqual((about["rows"], about["kept"], about["max-rows"]), (len(rows), is_kept, len(rows) * is_kept))
                    self.assertEqual(self.b("DEL", name, *keys), len(keys))
                    self.assertEqual(self.call("EXISTS", name), is_kept)
                    self.assertEqual(self.b("CARD", name), 0)

    def test_memory_of_one_row(self):
        """As much as a sorted set of one; with some allocators a little more."""
        taken = {}
        for word in ("BLINK.SET", "ZADD", "BLINK.SET", "ZADD"):
            self.call("FLUSHALL", "SYNC")
            before = int(self.call.info("memory", "used_memory"))
            self.call.many([(word, f"m{n}", 10**12 + n, 10**12 + n) for n in range(1000)])
            taken[word] = int(self.call.info("memory", "used_memory")) - before
        self.assertLess(taken["BLINK.SET"], taken["ZADD"] + 10 * 1000)

    def test_resp3(self):
        client = self.server.connect()
        client("HELLO", 3)
        client("BLINK.MSET", "m", 1, 10, 2, 20)
        self.assertEqual(client("BLINK.RANGE", "m", "-", "+"), [["1", "10"], ["2", "20"]])
        client.send("BLINK.INFO", "m")
        self.assertEqual(client.read()["rows"], 2)
        for words in (("NEXT", "m", 2), ("GET", "m", 3), ("CAS", "m", 3, 1, 1), ("SET", "m", 3, 1, "XX")):
            client.send("BLINK." + words[0], *words[1:])
            self.assertEqual(client.file.readline(), b"_\r\n")

    # ---- What all commands have. ----

    def test_wrong_type_and_arity(self):
        self.call("SET", "s", "text")
        for name, *words in ALL:
            self.refused("WRONGTYPE", "blink." + name, "s", *words)
            for count in range(len(words) + 1):
                self.refused("ERR wrong number of arguments", "blink." + name, *["m", *words][:count])
        for name in ("get", "cas", "card", "next", "count", "incrby", "range", "create"):
            words = next(words for begin, *words in ALL if begin == name)
            self.refused("ERR wrong number of arguments", "blink." + name, "m", *words, "x", "y", "z")
        self.refused("ERR wrong number of arguments", "BLINK.MSET", "m", 1, 2, 3)
        self.b("SET", "m", 1, 1)
        self.refused("WRONGTYPE", "GET", "m")

    def test_documentation_and_keys(self):
        docs = self.call.pairs("COMMAND", "DOCS", *NAMES)
        self.assertEqual(sorted(docs), sorted(NAMES))
        for about in docs.values():
            self.assertLessEqual({"summary", "since", "complexity", "arguments"}, set(about[::2]))
        for name, *words in ALL:
            self.assertEqual(self.call("COMMAND", "GETKEYS", "blink." + name, "m", *words), ["m"])
        for name, about in zip(NAMES, self.call("COMMAND", "INFO", *NAMES)):
            writes = name[6:] in ("create", "set", "mset", "del", "remrange", "cas", "incrby")
            self.assertEqual("write" in about[2], writes)
            self.assertEqual("readonly" in about[2], not writes)
        self.assertEqual(self.call("COMMAND", "GETKEYSANDFLAGS", "blink.get", "m", 1), [["m", ["RO", "access"]]])

    def test_rights(self):
        self.call("ACL", "SETUSER", "reader", "on", ">p", "%R~m*", "-@all", "+blink.get", "+blink.range", "+blink.set")
        client = self.server.connect()
        client("AUTH", "reader", "p")
        self.b("SET", "m", 1, 10)
        self.assertEqual(client("BLINK.GET", "m", 1), "10")
        for words in (("BLINK.GET", "other", 1), ("BLINK.DEL", "m", 1), ("BLINK.SET", "m", 1, 1)):
            with self.assertRaises(Error) as caught:
                client(*words)
            self.assertTrue(str(caught.exception).startswith("NOPERM"))
        # By categories, where the server has them for commands of modules.
        version = tuple(int(it) for it in self.call.info("server", "redis_version").split(".")[:2])
        for category, name, *words in (("read", "get", 1), ("write", "set", 1, 1), ("fast", "next", 1), ("slow", "range", 1, 1)):
            self.call("ACL", "SETUSER", "kind", "reset", "%RW~*", "-@all", "+@" + category)
            answer = self.call("ACL", "DRYRUN", "kind", "blink." + name, "m", *words)
            self.assertEqual(answer == "OK", version >= (7, 2), answer)
        if "blink" in self.call("ACL", "CAT"):
            self.call("ACL", "SETUSER", "kind", "reset", "%RW~*", "-@all", "+@blink")
            for name, *words in ALL:
                self.assertEqual(self.call("ACL", "DRYRUN", "kind", "blink." + name, "m", *words), "OK")

    def test_transactions(self):
        other = self.server.connect()
        self.b("MSET", "a", 1, 100, 2, 0)
        self.call("MULTI")
        self.b("INCRBY", "a", 1, -30)
        self.b("INCRBY", "a", 2, 30)
        self.assertEqual(other("BLINK.MGET", "a", 1, 2), ["100", "0"])
        self.assertEqual(self.call("EXEC"), ["70", "30"])
        # What changes nothing lets a watched key be.
        self.call("WATCH", "a")
        for words in (("GET", 1), ("CAS", 1, 5, 6), ("SET", 1, 5, "NX"), ("DEL", 77), ("REMRANGE", 77, 78)):
            other("BLINK." + words[0], "a", *words[1:])
        self.call("MULTI")
        self.b("CARD", "a")
        self.assertEqual(self.call("EXEC"), [2])
        for words in (("SET", 3, 1), ("DEL", 3), ("CAS", 1, 70, 71), ("INCRBY", 1, 1), ("MSET", 1, 1), ("REMRANGE", 1, 1)):
            self.call("WATCH", "a")
            other("BLINK." + words[0], "a", *words[1:])
            self.call("MULTI")
            self.b("CARD", "a")
            self.assertIsNone(self.call("EXEC"))

    def test_scripts(self):
        text = "local row = redis.call('BLINK.NEXT', KEYS[1], ARGV[1]); redis.call('BLINK.DEL', KEYS[1], row[1]); return row"
        self.b("MSET", "q", 5, 50, 6, 60)
        self.assertEqual(self.call("EVAL", text, 1, "q", 0), ["5", "50"])
        self.assertEqual(self.b("RANGE", "q", "-", "+"), ["6", "60"])

    def test_events(self):
        client = self.server.connect()
        client("PSUBSCRIBE", "__keyspace@0__:m")
        self.b("SET", "m", 1, 1)
        self.b("SET", "m", 1, 1, "NX")
        self.b("DEL", "m", 1)
        self.assertEqual([client.read()[3] for _ in range(3)], ["blink.set", "blink.del", "del"])

    # ---- What the server makes of a map. ----

    def test_keys_of_the_server(self):
        for count in (1, 100, 5000):
            self.call("FLUSHALL")
            self.fill("m", [(7 * n, n) for n in range(count)])
            before = self.call.digest("m")
            self.call("RESTORE", "r", 0, self.call.dump("m"))
            self.assertEqual(self.call.digest("r"), before)
            self.call("RENAME", "r", "s")
            self.call("DEBUG", "RELOAD")
            self.assertEqual(self.call.digest("m"), before)
            self.assertEqual(self.call.digest("s"), before)
            self.assertLess(abs(self.call("MEMORY", "USAGE", "m") - self.call.pairs("BLINK.INFO", "m")["bytes"]), 200)
            self.call("PEXPIRE", "m", 30)
            until(lambda: self.b("CARD", "m") == 0)
            self.assertEqual(self.call("UNLINK", "m", "s"), 1)
            self.assertEqual(self.call("DBSIZE"), 0)

    def test_copies(self):
        """A copy shares parts, and neither sees what is written to the other."""
        for count in (100, 20000):
            self.call("FLUSHALL")
            self.b("CREATE", "m", "MAXROWS", count + 10)
            rows = self.spread(count)
            self.fill("m", rows)
            self.assertEqual(self.call("COPY", "m", "n"), 1)
            self.assertEqual(self.call("COPY", "n", "o"), 1)
            before, info = self.call.digest("m"), self.call.pairs("BLINK.INFO", "m")
            self.assertEqual([self.call.digest("n"), self.call.pairs("BLINK.INFO", "n")], [before, info])
            for key, _ in rows[::50]:
                self.b("INCRBY", "n", key, 1)
                self.b("DEL", "m", key)
            self.assertEqual(self.call.digest("o"), before)
            self.assertEqual(self.b("CARD", "n"), count)
            self.assertEqual(self.b("MGET", "n", rows[0][0], rows[50][0]), ["1", "51"])
            self.assertEqual(self.b("CARD", "m"), count - len(rows[::50]))
            self.call("DEL", "n")
            self.call("UNLINK", "m")
            self.assertEqual(self.call.digest("o"), before)
            self.fill("o", [(key, value + 1) for key, value in rows])
            self.assertEqual(self.b("MGET", "o", rows[7][0], rows[50][0]), ["8", "51"])

    def test_bad_dumps(self):
        """What is read as a map is one: its keys rise, and a map without rows is one that is kept."""
        self.call("DEBUG", "SET-SKIP-CHECKSUM-VALIDATION", 1)
        self.addCleanup(self.call, "DEBUG", "SET-SKIP-CHECKSUM-VALIDATION", 0)
        self.b("CREATE", "kept")
        self.b("MSET", "few", *range(2, 8))
        self.fill("m", [(7 * n, n) for n in range(300)])
        refused = 0
        for name, step in (("kept", 1), ("few", 1), ("m", 3)):
            data = self.call.dump(name)
            for at in range(9, len(data) - 10, step):
                for byte in (data[at] ^ 0x40, 0):
                    bad = data[:at] + bytes([byte]) + data[at + 1 :]
                    try:
                        self.call("RESTORE", "r", 0, bad, "REPLACE")
                    except Error as error:
                        refused += 1
                        self.assertTrue(str(error).startswith("ERR Bad data format"), str(error))
                        continue
                    keys = [int(key) for key in self.b("RANGE", "r", "-", "+")[::2]]
                    self.assertEqual(keys, sorted(set(keys)))
                    self.assertEqual(len(keys), self.b("CARD", "r"))
                    self.assertTrue(keys or self.call.pairs("BLINK.INFO", "r")["kept"])
        self.assertGreater(refused, 50)

    def test_memory(self):
        """What a map takes is counted, and comes back, whatever takes the map away."""
        rows = self.spread(40000)
        self.fill("m", rows)
        self.call("DEL", "m")
        time.sleep(0.1)
        before = self.used()
        self.fill("m", rows)
        self.assertLess(abs(self.used() - before - self.call("MEMORY", "USAGE", "m")), 300000)
        self.call("UNLINK", "m")
        until(lambda: self.used() - before < 300000)
        self.call("CONFIG", "SET", "blink.part-pages", 64)
        self.addCleanup(self.call, "CONFIG", "SET", "blink.part-pages", 512)
        for words in (("DEL", "m"), ("FLUSHALL", "ASYNC"), ("FLUSHALL", "SYNC"), ("PEXPIRE", "m", 1), ("SET", "m", "text"),
                      ("BLINK.REMRANGE", "m", "-", "+")):  # fmt: skip
            self.fill("m", rows)
            self.assertGreater(self.call.pairs("BLINK.INFO", "m")["parts"], 64)
            self.call(*words)
            until(lambda: self.used() - before < 300000)
            self.call("FLUSHALL")
        self.fill("m", rows)
        self.assertEqual(self.b("REMRANGE", "m", "-", 1 << 31) + self.b("CARD", "m"), 40000)
        self.b("REMRANGE", "m", "-", (1 << 32) - (1 << 24))
        self.assertLess(self.call("MEMORY", "USAGE", "m"), 60000)

    def test_memory_that_is_scarce(self):
        """No map grows beyond the server's bound; what takes rows away goes on; and no more maps are evicted than need be."""
        self.fill("m", self.spread(30000))
        self.addCleanup(self.call, "CONFIG", "SET", "maxmemory", 0)
        self.call("CONFIG", "SET", "maxmemory", self.used() - 100000)
        for words in (("SET", "m", 5, 1), ("MSET", "m", 5, 1), ("INCRBY", "m", 5, 1), ("CREATE", "n")):
            self.refused("OOM", "BLINK." + words[0], *words[1:])
        self.assertEqual(self.b("CAS", "m", 0, 0, 1), 1)
        self.assertEqual(self.b("DEL", "m", 0), 1)
        self.call("CONFIG", "SET", "maxmemory", 0)
        self.call("CONFIG", "SET", "maxmemory-policy", "allkeys-random")
        self.addCleanup(self.call, "CONFIG", "SET", "maxmemory-policy", "noeviction")
        self.call("CONFIG", "SET", "lazyfree-lazy-eviction", "no")
        # Of so many parts that else a thread would free them.
        self.call("FLUSHALL")
        self.call("CONFIG", "SET", "blink.part-pages", 64)
        self.addCleanup(self.call, "CONFIG", "SET", "blink.part-pages", 512)
        for name in "mnopqrst":
            self.fill(name, self.spread(40000))
            self.assertGreater(self.call.pairs("BLINK.INFO", name)["parts"], 64)
        self.call("CONFIG", "SET", "maxmemory", self.used() - 100000)
        until(lambda: self.call("DBSIZE") < 8)
        self.call("SET", "x", 1)
        self.assertGreaterEqual(self.call("DBSIZE"), 7)


if __name__ == "__main__":
    unittest.main()
