"""A server process with the module, on a port of 127.0.0.1 and in a folder of its own, and a client of its protocol.

The program is $BLINK_SERVER, behind the words of $BLINK_UNDER where there are any, as `valgrind -q`; the module is $BLINK_MODULE.
"""

import os
import random
import shutil
import signal
import socket
import subprocess
import tempfile
import time

SLOW = float(os.environ.get("BLINK_SLOW", "1"))


class Error(Exception):
    pass


def until(what, seconds=30):
    """Waits for something to come to pass; longer where the server runs under a tool that makes it slow."""
    end = time.monotonic() + seconds * SLOW
    while not what():
        if time.monotonic() > end:
            raise AssertionError("it did not come to pass")
        time.sleep(0.02)


def request(*words):
    parts = [b"*%d\r\n" % len(words)]
    for word in words:
        text = word if isinstance(word, bytes) else str(word).encode()
        parts.append(b"$%d\r\n%s\r\n" % (len(text), text))
    return b"".join(parts)


class Client:
    def __init__(self, port):
        self.socket = socket.create_connection(("127.0.0.1", port), 120 * SLOW)
        self.socket.setsockopt(socket.IPPROTO_TCP, socket.TCP_NODELAY, 1)
        self.file = self.socket.makefile("rb")

    def send(self, *words):
        self.socket.sendall(request(*words))

    def read_bytes(self, length):
        return self.file.read(length + 2)[:-2]

    def read(self):
        line = self.file.readline()
        if not line.endswith(b"\r\n"):
            raise ConnectionError("the server has gone")
        kind, rest = line[:1], line[1:-2]
        if kind == b"+":
            return rest.decode()
        if kind == b"-":
            return Error(rest.decode())
        if kind == b":":
            return int(rest)
        if kind == b"_" or rest == b"-1":
            return None
        if kind in b"#,":
            return rest.decode()
        if kind in b"$=":
            return self.read_bytes(int(rest)).decode("utf-8", "replace")
        if kind in b"*~>":
            return [self.read() for _ in range(int(rest))]
        if kind == b"%":
            return {self.read(): self.read() for _ in range(int(rest))}
        raise ConnectionError(f"what is {line!r}?")

    def many(self, requests):
        """Sends all requests, and answers all replies, errors among them."""
        self.socket.sendall(b"".join(request(*words) for words in requests))
        return [self.read() for _ in requests]

    def __call__(self, *words):
        answer = self.many([words])[0]
        if isinstance(answer, Error):
            raise answer
        return answer

    def dump(self, key):
        """What DUMP answers, as bytes."""
        self.send("DUMP", key)
        return self.read_bytes(int(self.file.readline()[1:]))

    def pairs(self, *words):
        """An answer of names and what they stand for."""
        answer = self(*words)
        return answer if isinstance(answer, dict) else dict(zip(answer[::2], answer[1::2]))

    def info(self, part, name):
        return next(line.split(":")[1] for line in self("INFO", part).splitlines() if line.startswith(name + ":"))

    def digest(self, key):
        return self("DEBUG", "DIGEST-VALUE", key)[0]

    def saved(self, word, begun, status):
        """BGSAVE or BGREWRITEAOF, to its end. The server may be saving already: for a replica, or by its own rules."""

        def has_ended():
            return all(self.info("persistence", it) == "0" for it in begun)

        until(has_ended, 60)
        self(word)
        until(has_ended, 60)
        if self.info("persistence", status) != "ok":
            raise AssertionError(f"{word} has failed")

    def bgsave(self):
        self.saved("BGSAVE", ["rdb_bgsave_in_progress"], "rdb_last_bgsave_status")

    def bgrewriteaof(self):
        self.saved("BGREWRITEAOF", ["aof_rewrite_in_progress", "aof_rewrite_scheduled"], "aof_last_bgrewrite_status")

    def close(self):
        self.file.close()
        self.socket.close()


def free_port():
    """One whose bus port, 10,000 above it, is free too."""
    while True:
        port = random.randrange(12000, 32000)
        try:
            with socket.socket() as one, socket.socket() as other:
                one.bind(("127.0.0.1", port))
                other.bind(("127.0.0.1", port + 10000))
                return port
        except OSError:
            pass


class Server:
    def __init__(self, *options):
        self.folder = tempfile.mkdtemp(prefix="blink-server.")
        self.port = free_port()
        self.options = options
        self.clients = []
        self.start()

    def start(self):
        words = [*os.environ.get("BLINK_UNDER", "").split(), os.environ["BLINK_SERVER"], "--port", self.port, "--bind", "127.0.0.1",
                 "--dir", self.folder, "--save", "", "--daemonize", "no", "--logfile", f"{self.folder}/log", "--enable-debug-command",
                 "yes", *self.options, "--loadmodule", os.environ["BLINK_MODULE"]]  # fmt: skip
        with open(f"{self.folder}/errors", "a", encoding="utf-8") as errors:
            self.process = subprocess.Popen([str(it) for it in words], stdin=subprocess.DEVNULL, stdout=errors, stderr=errors)
        until(self.answers, 30)
        until(lambda: self.client.info("persistence", "loading") == "0", 120)

    def answers(self):
        if self.process.poll() is not None:
            raise AssertionError("the server has ended: " + self.said())
        try:
            self.client = self.connect()
            self.client("PING")
            return True
        except Error as error:
            return str(error).startswith("LOADING")
        except OSError:
            return False

    def connect(self):
        client = Client(self.port)
        self.clients.append(client)
        return client

    def said(self):
        text = ""
        for name in ("log", "errors"):
            if os.path.exists(f"{self.folder}/{name}"):
                with open(f"{self.folder}/{name}", encoding="utf-8", errors="replace") as file:
                    text += file.read()[-20000:]
        return text

    def gone(self):
        for client in self.clients:
            client.close()
        self.clients = []

    def kill(self):
        self.process.send_signal(signal.SIGKILL)
        self.process.wait()
        self.gone()

    def end(self, how="NOSAVE"):
        """Ends it well: what a tool says at the end counts too."""
        self.client.send("SHUTDOWN", how)
        status = self.process.wait(120 * SLOW)
        self.gone()
        with open(f"{self.folder}/errors", encoding="utf-8", errors="replace") as file:
            errors = file.read()
        if status or "ERROR: " in errors:
            raise AssertionError(f"the server ended with status {status}: {self.said()}")

    def remove(self):
        if self.process.poll() is None:
            self.kill()
        self.gone()
        shutil.rmtree(self.folder, ignore_errors=True)
