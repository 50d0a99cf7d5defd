"""A cluster of three: a map is in one slot, and one that is to be in many is as many maps, by ranges of keys: test_cluster.py."""

import unittest

from server import Error, Server, until

EDGES = [0, 5461, 10923, 16384]
EACH = 10000


class Cluster(unittest.TestCase):
    def setUp(self):
        self.nodes, self.home = [], {}
        for at in range(3):
            node = Server("--cluster-enabled", "yes", "--cluster-node-timeout", 15000)
            self.addCleanup(node.remove)
            self.nodes.append(node)
            node.client("CLUSTER", "ADDSLOTSRANGE", EDGES[at], EDGES[at + 1] - 1)
            node.client("CLUSTER", "MEET", "127.0.0.1", self.nodes[0].port)
        for node in self.nodes:
            until(lambda: "cluster_state:ok" in node.client("CLUSTER", "INFO") and node.client("CLUSTER", "NODES").count(" connected") == 3)

    def call(self, name, key, *words):
        """Goes where the slot of the key is."""
        node = self.home.get(key, self.nodes[0])
        for _ in range(5):
            try:
                reply = node.client("BLINK." + name, key, *words)
                self.home[key] = node
                return reply
            except Error as error:
                if not str(error).startswith("MOVED"):
                    raise
                node = next(it for it in self.nodes if str(error).endswith(f":{it.port}"))
        raise AssertionError(f"no node has {key}")

    def test_map_in_many_slots(self):
        # Keys below 10,000 are in m:{0}, and so on.
        for at in range(0, 6 * EACH, 100):
            self.call("MSET", f"m:{{{at // EACH}}}", *[it for n in range(at, at + 100) for it in (n, 2 * n)])
        self.assertEqual(sum(self.call("CARD", f"m:{{{part}}}") for part in range(6)), 6 * EACH)
        self.assertEqual(len({node.port for node in self.home.values()}), 3)
        # A range over the edge: two commands.
        rows = self.call("RANGE", "m:{1}", 19990, "+") + self.call("RANGE", "m:{2}", "-", 20009)
        self.assertEqual(rows, [str(it) for n in range(19990, 20010) for it in (n, 2 * n)])

    def test_map_moves(self):
        self.call("MSET", "m", *range(2 * EACH))
        source = self.home["m"]
        target = self.nodes[(self.nodes.index(source) + 1) % 3]
        slot, before = source.client("CLUSTER", "KEYSLOT", "m"), source.client.digest("m")
        ids = {node: node.client("CLUSTER", "MYID") for node in self.nodes}
        target.client("CLUSTER", "SETSLOT", slot, "IMPORTING", ids[source])
        source.client("CLUSTER", "SETSLOT", slot, "MIGRATING", ids[target])
        self.assertEqual(source.client("CLUSTER", "GETKEYSINSLOT", slot, 10), ["m"])
        source.client("MIGRATE", "127.0.0.1", target.port, "m", 0, 5000)
        for node in (target, source, *self.nodes):
            node.client("CLUSTER", "SETSLOT", slot, "NODE", ids[target])
        self.assertEqual(target.client.digest("m"), before)
        self.assertEqual(self.call("CARD", "m"), EACH)
        self.assertIs(self.home["m"], target)


if __name__ == "__main__":
    unittest.main()
