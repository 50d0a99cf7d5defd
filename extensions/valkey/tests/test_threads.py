"""Long ranges by a thread, beside writers, savers, and maps and clients that go away: test_threads.py."""

import os
import threading
import time
import unittest

from server import Client, Server

ROWS = 40000
SECONDS = float(os.environ.get("BLINK_TEST_SECONDS", "8"))


class Work(threading.Thread):
    """Does something over and over, until it is stopped, and keeps what went wrong."""

    def __init__(self, work, *words):
        super().__init__()
        self.work, self.words = work, words
        self.is_stopped, self.error, self.times = False, None, 0

    def run(self):
        try:
            while not self.is_stopped:
                self.work(*self.words)
                self.times += 1
        except BaseException as error:  # pylint: disable=broad-except
            self.error = error

    def stop(self):
        self.is_stopped = True
        self.join()
        if self.error:
            raise self.error
        return self.times


class Threads(unittest.TestCase):
    def writes(self, client, state):
        """Keys that end in 0 stay."""
        requests = []
        for _ in range(100):
            state[0] = (state[0] * 6364136223846793005 + 1442695040888963407) % (1 << 64)
            key = (state[0] >> 33) % (10 * ROWS) // 10 * 10 + 1 + (state[0] >> 33) % 9
            requests.append(("BLINK.SET", "m", key, 2) if state[0] & (1 << 20) else ("BLINK.DEL", "m", key))
        client.many(requests)

    def reads(self, client, name, low, high):
        rows = [int(it) for it in client("BLINK." + name, "m", low, high)]
        keys = rows[::2]
        self.assertEqual(keys, sorted(set(keys), reverse=name == "REVRANGE"))
        self.assertEqual([key for key in sorted(keys) if key % 10 == 0], list(range(0, 10 * ROWS, 10)))
        self.assertTrue(all((value == 1) == (key % 10 == 0) for key, value in zip(keys, rows[1::2])))

    def unlinks(self, client, other, seen):
        client("COPY", "m", "n")
        other.send("BLINK.RANGE", "n", "-", "+")
        time.sleep(0.002)
        # One asks, and goes before it is answered.
        gone = Client(client.socket.getpeername()[1])
        gone.send("BLINK.REVRANGE", "n", "+", "-")
        gone.close()
        client(*seen["words"][sum(seen["count"]) % 3])
        # The range came before, and then has all rows, or behind.
        count = len(other.read()) // 2
        self.assertTrue(count == 0 or count >= ROWS, count)
        seen["count"][count > 0] += 1

    def test_ranges_beside_writes(self):
        server = Server("--blink.part-pages", 64, "--blink.thread-rows", 1000)
        self.addCleanup(server.remove)
        call = server.client
        for at in range(0, ROWS, 1000):
            call("BLINK.MSET", "m", *[it for n in range(at, at + 1000) for it in (10 * n, 1)])
        seen = {"count": [0, 0], "words": [("UNLINK", "n"), ("DEL", "n"), ("BLINK.REMRANGE", "n", "-", "+")]}
        ranges = [Work(self.reads, server.connect(), "RANGE", "-", "+"), Work(self.reads, server.connect(), "REVRANGE", "+", "-")]
        others = [Work(self.writes, server.connect(), [seed]) for seed in (1, 2)]
        others.append(Work(self.unlinks, server.connect(), server.connect(), seen))
        for work in (*ranges, *others):
            work.start()
        end = time.monotonic() + SECONDS
        while time.monotonic() < end:
            call.bgsave()
        for work in others:
            work.stop()
        times = sum(work.stop() for work in ranges)
        print(f"{times} ranges by the thread beside writes, {seen['count'][1]} of maps that went meanwhile")
        before = call.digest("m")
        call("DEBUG", "RELOAD")
        self.assertEqual(call.digest("m"), before)
        # Where a command may not wait, the range is answered at once.
        call("MULTI")
        call("BLINK.RANGE", "m", "-", "+")
        self.assertGreaterEqual(len(call("EXEC")[0]), 2 * ROWS)
        self.assertGreaterEqual(len(call("EVAL", "return redis.call('BLINK.RANGE', 'm', '-', '+')", 0)), 2 * ROWS)
        client = server.connect()
        client("HELLO", 3)
        self.assertEqual(client("BLINK.RANGE", "m", "-", "+", "COUNT", 2000)[0], ["0", "1"])
        server.end()


if __name__ == "__main__":
    unittest.main()
