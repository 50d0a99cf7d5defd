"""Random commands beside a model in Python, one reply after the other: random_commands.py [COUNT [SEED]].

There are a large map, a small one that is an array at times, and a copy that is written too. A replica follows. Every few thousand commands
the maps are read back from an RDB or an AOF, or the server is killed and started again, and all rows of all maps are compared.
"""

import bisect
import random
import sys

from server import Error, Server, until

MOST = (1 << 64) - 1


class Model:
    def __init__(self, rows=()):
        self.rows = dict(rows)
        self.keys = sorted(self.rows)

    def put(self, key, value):
        if key not in self.rows:
            bisect.insort(self.keys, key)
        self.rows[key] = value

    def take(self, key):
        if key not in self.rows:
            return 0
        del self.rows[key]
        del self.keys[bisect.bisect_left(self.keys, key)]
        return 1

    def between(self, low, high):
        return self.keys[bisect.bisect_left(self.keys, low) : bisect.bisect_right(self.keys, high)] if low <= high else []

    def flat(self, keys):
        return [str(number) for key in keys for number in (key, self.rows[key])]


class Draws:
    """Commands with the replies that they want."""

    def __init__(self, seed):
        self.random = random.Random(seed)
        self.models = {"m": Model(), "s": Model(), "n": Model()}
        self.rising = 1 << 40

    def key(self, name):
        draw = self.random.random()
        if name == "s":
            return self.random.randrange(400)
        if draw < 0.35:
            return self.random.randrange(20000)
        if draw < 0.5:
            self.rising += self.random.randrange(1, 5)
            return self.rising
        if draw < 0.6 and self.models[name].keys:
            return self.random.choice(self.models[name].keys)
        return self.random.choice([0, MOST, self.random.getrandbits(64), self.random.getrandbits(32)])

    def value(self):
        return self.random.choice([0, 1, MOST, self.random.getrandbits(64), self.random.randrange(100)])

    def bound(self, name, is_least):
        """The word, and the number that it stands for: below 0 or above the most where it leaves no key."""
        draw = self.random.random()
        if draw < 0.1:
            return ("-", 0) if self.random.random() < 0.7 else ("+", MOST)
        key = self.key(name)
        return (f"({key}", key + (1 if is_least else -1)) if draw < 0.4 else (key, key)

    def next(self, grows):
        """A command, and its reply."""
        name = self.random.choices("msn", [70, 20, 10])[0]
        kinds = {"set": 20, "mset": 12 if grows else 2, "delete": 6 if grows else 40, "cas": 6, "incrby": 8, "get": 8, "mget": 4, "range": 10,
                 "nearest": 10, "count": 5, "card": 2, "remrange": 1 if grows else 3, "bad": 1, "whole": 0.05}  # fmt: skip
        kind = self.random.choices(list(kinds), list(kinds.values()))[0]
        if kind == "whole":
            return self.whole()
        words, reply = getattr(self, kind)(name, self.models[name], grows)
        return ("BLINK." + words[0], name, *words[1:]), reply

    def whole(self):
        """COPY and UNLINK."""
        if self.random.random() < 0.3:
            had, self.models["n"] = bool(self.models["n"].keys), Model()
            return (self.random.choice(["UNLINK", "DEL"]), "n"), int(had)
        if self.models["m"].keys:
            self.models["n"] = Model(self.models["m"].rows)
        return ("COPY", "m", "n", "REPLACE"), int(bool(self.models["m"].keys))

    def set(self, name, model, _):
        key, value = self.key(name), self.value()
        old = model.rows.get(key)
        words = [it for it in (self.random.choice(["", "", "NX", "xx"]), self.random.choice(["", "GET"])) if it]
        is_done = not ("NX" in words and old is not None or "xx" in words and old is None)
        if is_done:
            model.put(key, value)
        return ("SET", key, value, *words), (None if old is None else str(old)) if "GET" in words else "OK" if is_done else None

    def mset(self, name, model, grows):
        pairs = [(self.key(name), self.value()) for _ in range(self.random.randrange(1, 40 if grows else 3))]
        fresh = len({key for key, _ in pairs if key not in model.rows})
        for key, value in pairs:
            model.put(key, value)
        return ("MSET", *[it for pair in pairs for it in pair]), fresh

    def delete(self, name, model, _):
        low = self.random.randrange(len(model.keys) + 1)
        some = model.keys[low : low + self.random.randrange(1, 60)]
        keys = some if some and self.random.random() < 0.5 else [self.key(name)]
        return ("DEL", *keys), sum(model.take(key) for key in keys)

    def cas(self, name, model, _):
        key, value = self.key(name), self.value()
        old = model.rows.get(key)
        guess = old if old is not None and self.random.random() < 0.7 else self.value()
        if old is not None and guess == old:
            model.put(key, value)
        return ("CAS", key, guess, value), None if old is None else int(guess == old)

    def incrby(self, name, model, _):
        key, step = self.key(name), self.random.choice([1, -1, self.random.randrange(-100, 100), self.random.getrandbits(64), -self.random.getrandbits(63)])
        made = model.rows.get(key, 0) + step
        if not 0 <= made <= MOST:
            return ("INCRBY", key, step), "ERR increment"
        model.put(key, made)
        return ("INCRBY", key, step), str(made)

    def get(self, name, model, _):
        key = self.key(name)
        return ("GET", key), str(model.rows[key]) if key in model.rows else None

    def mget(self, name, model, _):
        keys = [self.key(name) for _ in range(self.random.randrange(1, 150))]
        return ("MGET", *keys), [str(model.rows[key]) if key in model.rows else None for key in keys]

    def range(self, name, model, _):
        (least, low), (greatest, high) = self.bound(name, True), self.bound(name, False)
        if self.random.random() < 0.7 and low <= MOST:
            greatest = high = min(MOST, low + self.random.choice([10, 1000, 1 << 20]))
        keys, words = model.between(low, high), ["RANGE", least, greatest]
        if self.random.random() < 0.5:
            keys, words = keys[::-1], ["REVRANGE", greatest, least]
        if self.random.random() < 0.5 or len(keys) > 3000:
            count = self.random.choice([0, 1, 5, 14, 300])
            keys, words = keys[:count], [*words, "COUNT", count]
        return tuple(words), model.flat(keys)

    def nearest(self, name, model, _):
        key = self.key(name)
        if self.random.random() < 0.5:
            at = bisect.bisect_right(model.keys, key)
            return ("NEXT", key), model.flat(model.keys[at : at + 1]) or None
        at = bisect.bisect_left(model.keys, key)
        return ("PREV", key), model.flat(model.keys[at - 1 : at]) if at > 0 else None

    def count(self, name, model, _):
        (least, low), (greatest, high) = self.bound(name, True), self.bound(name, False)
        return ("COUNT", least, greatest), len(model.between(low, high))

    def remrange(self, name, model, grows):
        (least, low), (greatest, high) = self.bound(name, True), self.bound(name, False)
        if (grows or self.random.random() < 0.98) and low <= MOST and model.keys:
            # Not too many rows, or the map stays small.
            behind = bisect.bisect_left(model.keys, low) + self.random.randrange(30 if grows else 1500)
            greatest = high = model.keys[min(behind, len(model.keys) - 1)]
        keys = model.between(low, high)
        for key in keys:
            model.take(key)
        return ("REMRANGE", least, greatest), len(keys)

    def card(self, _, model, __):
        return ("CARD",), len(model.keys)

    def bad(self, *_):
        return (self.random.choice(["GET", "DEL", "NEXT"]), self.random.choice(["-1", "01", MOST + 1, "x"])), "ERR value"


def is_answered(reply, wanted):
    if isinstance(reply, Error):
        return isinstance(wanted, str) and str(reply).startswith(wanted)
    return reply == wanted


def turn(server, way):
    """What comes between two thousand commands and the next."""
    if way == "reload":
        server.client("DEBUG", "RELOAD")
    elif way == "rewrite":
        server.client.bgrewriteaof()
        server.client("DEBUG", "LOADAOF")
    elif way == "save":
        server.client.bgsave()
    else:
        server.kill()
        server.start()


def compare(client, draws, when):
    for name, model in draws.models.items():
        if client("BLINK.RANGE", name, "-", "+") != model.flat(model.keys) or client("BLINK.CARD", name) != len(model.keys):
            raise AssertionError(f"{when} the rows of {name} are others")


def run(server, replica, count, seed):
    draws = Draws(seed)
    done, most, parts, ways = 0, 0, 0, {}
    while done < count:
        some = [draws.next(done // 10000 % 3 != 2) for _ in range(200)]
        for (words, wanted), reply in zip(some, server.client.many([words for words, _ in some])):
            if not is_answered(reply, wanted):
                raise AssertionError(f"seed {seed}: {words!r:.200} answers {reply!r:.200}, and not {wanted!r:.200}")
        done += len(some)
        most = max(most, len(draws.models["m"].keys))
        if done % 1000 == 0 and draws.models["m"].keys:
            parts = max(parts, server.client.pairs("BLINK.INFO", "m")["parts"])
        if done % 2000 == 0:
            way = draws.random.choice(["reload", "rewrite", "save", "kill"])
            ways[way] = ways.get(way, 0) + 1
            turn(server, way)
            # The thread answers ranges from now on, or does not.
            server.client("CONFIG", "SET", "blink.thread-rows", draws.random.choice([0, 1]))
            compare(server.client, draws, f"seed {seed}: behind {way}")
    server.client("SET", "end", 1)
    until(lambda: replica.client("EXISTS", "end") == 1, 60)
    compare(replica.client, draws, "in the replica")
    said = ", ".join(f"{way} {times}" for way, times in sorted(ways.items()))
    return f"{done} random commands as the model has them, seed {seed}; at most {most} rows in {parts} parts; {said}; the replica has the same rows"


def main():
    count = int(sys.argv[1]) if len(sys.argv) > 1 else 100000
    seed = int(sys.argv[2]) if len(sys.argv) > 2 else 1
    lasting = ["--appendonly", "yes", "--appendfsync", "always", "--aof-use-rdb-preamble", "no", "--repl-diskless-sync-delay", 0]
    server = Server("--blink.part-pages", 64, *lasting)
    replica = Server("--replicaof", f"127.0.0.1 {server.port}")
    try:
        said = run(server, replica, count, seed)
        replica.end()
        server.end()
        print(said)
    finally:
        replica.remove()
        server.remove()


main()
