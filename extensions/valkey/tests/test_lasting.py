"""What stays of a map after its server has ended, was killed or is followed by another one: test_lasting.py."""

import threading
import unittest

from server import Error, Server, until

ROWS = 30000


def fill(call):
    for at in range(0, ROWS, 1000):
        call("BLINK.MSET", "m", *[it for n in range(at, at + 1000) for it in (n * 2654435761 % (1 << 64), n)])
    call("BLINK.CREATE", "kept", "MAXROWS", 77)
    call("BLINK.CREATE", "empty")
    call("BLINK.MSET", "few", *range(200))
    call("BLINK.SET", "small", 1, 2)
    call("PEXPIRE", "small", 1000000)


class Lasting(unittest.TestCase):
    def server(self, *options):
        server = Server(*options)
        self.addCleanup(server.remove)
        return server

    def same(self, call, before):
        self.assertEqual(call.digest("m"), before)
        self.assertEqual(call("BLINK.CARD", "m"), ROWS)
        self.assertEqual(call.pairs("BLINK.INFO", "kept")["max-rows"], 77)
        self.assertEqual(call.pairs("BLINK.INFO", "empty")["kept"], 1)
        self.assertEqual(call("BLINK.RANGE", "few", "-", "+"), [str(n) for n in range(200)])
        self.assertEqual(call("BLINK.GET", "small", 1), "2")
        self.assertGreater(call("PTTL", "small"), 0)

    def test_rdb(self):
        server = self.server()
        fill(server.client)
        before = server.client.digest("m")
        server.end("SAVE")
        server.start()
        self.same(server.client, before)
        server.client.bgsave()
        server.kill()
        server.start()
        self.same(server.client, before)

    def aof(self, preamble):
        server = self.server("--appendonly", "yes", "--appendfsync", "always", "--aof-use-rdb-preamble", preamble)
        fill(server.client)
        before = server.client.digest("m")
        server.kill()
        server.start()
        self.same(server.client, before)
        server.client.bgrewriteaof()
        server.client("BLINK.INCRBY", "m", 0, 5)
        before = server.client.digest("m")
        server.kill()
        server.start()
        self.same(server.client, before)

    def test_aof(self):
        self.aof("yes")

    def test_aof_of_commands(self):
        self.aof("no")

    def test_killed_at_any_moment(self):
        """With appendfsync always nothing that was answered is lost, and nothing is there that was not asked for."""
        server = self.server("--appendonly", "yes", "--appendfsync", "always")
        answered, asked = 0, 0
        for _ in range(5):
            client = server.connect()
            timer = threading.Timer(0.3, server.process.kill)
            timer.start()
            try:
                while True:
                    asked += 1
                    client("BLINK.SET", "m", asked, 3 * asked)
                    answered = asked
            except OSError:
                pass
            timer.join()
            server.kill()
            server.start()
            rows = [int(it) for it in server.client("BLINK.RANGE", "m", "-", "+")]
            # The one that was underway may be there or not.
            self.assertIn(rows[::2], [list(range(1, answered + 1)), list(range(1, asked + 1))])
            self.assertEqual(rows[1::2], [3 * key for key in rows[::2]])
            asked = len(rows[::2])
        print("rows that outlived kill -9 with appendfsync always:", asked)

    def follows(self, *options):
        master = self.server("--repl-diskless-sync-delay", 0, "--blink.max-rows", 21000)
        call = master.client
        call("BLINK.MSET", "m", *[it for n in range(20000) for it in (n * 2654435761 % (1 << 64), n)])
        # The replica has another bound and other parts, and does as the master did all the same.
        replica = self.server("--replicaof", f"127.0.0.1 {master.port}", "--blink.max-rows", 100, "--blink.part-pages", 64, *options)
        until(lambda: replica.client.info("replication", "master_link_status") == "up")
        for n in range(500):
            call("BLINK.SET", "m", n, n)
            call("BLINK.INCRBY", "m", n % 50, 3)
            call("BLINK.CAS", "m", n, n, n + 1)
            call("BLINK.DEL", "m", n * 2654435761 % (1 << 64))
        call("BLINK.REMRANGE", "m", 1000, 1 << 40)
        call("BLINK.MSET", "e", 1, 1)
        call("PEXPIRE", "e", 100)
        call("BLINK.MSET", "f", 1, 1)
        call("BLINK.DEL", "f", 1)
        call("COPY", "m", "n")
        call("BLINK.SET", "n", 5, 5)
        call("MULTI")
        call("BLINK.SET", "m", 1, 1)
        call("BLINK.SET", "m", 2, 2)
        call("EXEC")
        call("EVAL", "redis.call('BLINK.SET', KEYS[1], 3, 3); redis.call('BLINK.INCRBY', KEYS[1], 3, 3)", 1, "m")
        self.assertEqual(call("WAIT", 1, 10000), 1)
        for name in "mn":
            self.assertEqual(replica.client.digest(name), call.digest(name))
            self.assertEqual(replica.client("BLINK.CARD", name), call("BLINK.CARD", name))
        self.assertEqual(replica.client("EXISTS", "f"), 0)
        with self.assertRaises(Error) as caught:
            replica.client("BLINK.SET", "m", 1, 1)
        self.assertTrue(str(caught.exception).startswith("READONLY"))
        until(lambda: replica.client("EXISTS", "e") == 0)
        return master, replica

    def test_replica_takes_over(self):
        master, replica = self.follows()
        before, card = replica.client.digest("m"), master.client("BLINK.CARD", "m")
        master.kill()
        replica.client("REPLICAOF", "NO", "ONE")
        self.assertEqual(replica.client.digest("m"), before)
        self.assertEqual(replica.client("BLINK.REMRANGE", "m", "-", "+"), card)
        # A former master follows the new one.
        replica.client("BLINK.MSET", "late", 1, 1)
        master.start()
        master.client("REPLICAOF", "127.0.0.1", replica.port)
        until(lambda: master.client("EXISTS", "late") == 1)
        self.assertEqual(master.client.digest("n"), replica.client.digest("n"))

    def test_replica_that_loads_beside_what_it_has(self):
        master, replica = self.follows("--repl-diskless-load", "swapdb")
        replica.client("REPLICAOF", "NO", "ONE")
        replica.client("BLINK.SET", "m", 1, 7)
        replica.client("REPLICAOF", "127.0.0.1", master.port)
        master.client("SET", "end", 1)
        until(lambda: replica.client("EXISTS", "end") == 1)
        self.assertEqual(replica.client.digest("m"), master.client.digest("m"))


if __name__ == "__main__":
    unittest.main()
