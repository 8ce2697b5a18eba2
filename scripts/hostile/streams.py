"""Bytes that are nearly requests, and peers that go."""
import collections
import json
import os
import subprocess
import sys

from harness import HERE, PROGRAM, same, start, test
from hostile.nearly import KEYS
from tcp import Server, request, totals

MUTATING_CLIENTS = 4
MUTATED_BYTES = 100_000_000
WATCHERS = 2


class Watcher:
    """A connection on which all is right, with a key of its own: it has to be answered as if nobody else were there."""

    def __init__(self, server, number):
        self.client, self.key, self.count = server.connect(), f"watched:{number}", 0

    def look(self):
        self.count += 1
        same(self.client.ask("ZADD", self.key, self.count, f"m{self.count % 100}"), b":%d\r\n" % (self.count <= 100))
        same(self.client.ask("ZSCORE", self.key, f"m{self.count % 100}"), b"$%d\r\n%d\r\n" % (len(str(self.count)), self.count))
        same(self.client.ask("ZCOUNT", self.key, self.count - 9, "+inf"), b":%d\r\n" % min(self.count, 10))
        same(self.client.ask("ZRANGEBYSCORE", self.key, f"({self.count - 1}", "inf"), [b"$%d\r\nm%d\r\n" % (
            len(f"m{self.count % 100}"), self.count % 100)])


def begin_mutating(server, seed):
    """A process of its own, so that the clients have more than one processor."""
    words = [PROGRAM, server.port, seed, MUTATED_BYTES // MUTATING_CLIENTS]
    env = {**os.environ, "PYTHONPATH": HERE, "PYTHONDONTWRITEBYTECODE": "1"}
    return start([sys.executable, "-m", "hostile.mutating", *map(str, words)], env=env,
                 stdout=subprocess.PIPE, stderr=subprocess.PIPE)


def finish_mutating(processes):
    """What they counted together; what one found wrong is raised here."""
    counted = collections.Counter()
    for process in processes:
        out, lines = process.communicate()
        if process.returncode != 0:
            raise AssertionError(lines.decode()[-2_000:])
        counted.update(json.loads(out))
    return counted


@test
def a_hundred_million_bytes_that_are_nearly_requests():
    with Server("--workers", MUTATING_CLIENTS + WATCHERS) as server:
        watchers = [Watcher(server, it) for it in range(WATCHERS)]
        processes = [begin_mutating(server, it) for it in range(MUTATING_CLIENTS)]
        while any(it.poll() is None for it in processes):
            for watcher in watchers:
                watcher.look()
            try:
                processes[0].wait(0.01)
            except subprocess.TimeoutExpired:
                pass
        counted = finish_mutating(processes)
        same(counted["bytes"] >= MUTATED_BYTES, True)
        client = watchers[0].client
        for key in KEYS:
            same(client.ask("ZCARD", key), b":%d\r\n" % len(client.ask("ZRANGEBYSCORE", key, "-inf", "+inf")))
            same(client.ask("ZCARD", key), client.ask("ZCOUNT", key, "-inf", "+inf"))
        same((server.process.poll(), all(it.count > 10 for it in watchers)), (None, True))
    print(f"nearly requests: {counted['bytes']} bytes of {counted['requests']} requests answered, {counted['refused']} of them "
          f"refused, over {counted['connections']} connections, {counted['torn']} torn, {counted['faulty']} ended by a fault, "
          f"{counted['flipped']} with a byte that is another", flush=True)


@test
def peers_that_are_gone_raise_no_signal():
    with Server("--workers", 2, "--connections", 101) as server:
        client = server.connect()
        client.send(b"".join(request("ZADD", "k", it, f"member:{it}") for it in range(5_000)))
        for _ in range(5_000):
            same(client.reply(), b":1\r\n")
        for _ in range(100):
            gone = server.connect()
            gone.send(request("ZRANGEBYSCORE", "k", "-inf", "+inf") * 5)
            gone.reset()
        same(client.ask("ZCARD", "k"), b":5000\r\n")
        same(client.finish(), b"")
        same(server.ends(), (0, totals(101, 1, 5_000, 5_000, 0, 5_000), b""))
