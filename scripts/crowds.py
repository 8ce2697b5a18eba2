"""A part of client_test: a thousand clients of redis-benchmark, and a pool of python3-redis under many threads."""
import shutil

from clients import at, python_with_redis, shell, skip
from harness import same
from tcp import Server, has_descriptors, totals

WORKERS = 4
MOST_CLIENTS = 1_100
# Clients, and the requests that each sends at once.
BENCHMARKS = [(clients, at_once) for clients in (50, 200, 1_000) for at_once in (1, 16)]
ROUNDS = 10
# Even the fewest requests leave out more than a tenth of these once in billions of runs.
MEMBERS = 100


def count_by_benchmark(server, clients, at_once):
    """Each request counts one up of a key's members, so that all scores together are the requests."""
    key, count = f"{clients}:{at_once}", ROUNDS * clients * at_once
    options = ("-c", clients, "-P", at_once, "-n", count, "-r", MEMBERS, "-q")
    words = ("ZADD", key, "INCR", 1, "member:__rand_int__")
    status, out = shell("redis-benchmark", *at(server), *options, *words)
    same((key, status, b"requests per second" in out), (key, 0, True))
    client = server.connect()
    members = int(client.ask("ZCARD", key)[1:])
    same((key, members, MEMBERS * 9 // 10 <= members <= MEMBERS), (key, members, True))
    listed = client.ask("ZRANGEBYSCORE", key, "-inf", "+inf", "WITHSCORES")
    same((key, sum(int(score.split(b"\r\n")[1]) for score in listed[1::2])), (key, count))
    client.close()


def run_benchmarks():
    if not shutil.which("redis-benchmark"):
        return skip("redis-tools")
    if not has_descriptors():
        return
    with Server("--workers", WORKERS, "--max-clients", MOST_CLIENTS) as server:
        for clients, at_once in BENCHMARKS:
            count_by_benchmark(server, clients, at_once)


POOL = """
import sys
from concurrent.futures import ThreadPoolExecutor
from threading import Barrier
import redis

CLIENTS, TURNS = 200, 5
pool = redis.ConnectionPool(host="127.0.0.1", port=int(sys.argv[1]), max_connections=CLIENTS)
client = redis.Redis(connection_pool=pool)
all_connected, connections = Barrier(CLIENTS), set()

def turns(asked, number, first):
    sums = []
    for turn in range(first, first + TURNS):
        sums.append(asked.zadd("shared", {"sum": number}, incr=True))
        assert asked.zadd("shared", {f"by {number}": 1}, incr=True) == turn + 1
        assert asked.zadd(f"own:{number}", {f"{number}:{turn}": turn}) == 1
        assert asked.zcard(f"own:{number}") == turn + 1
    return sums

def work(number):
    # a connection of the pool for itself, which it gives back once each thread has had one at the same time
    with client.client() as held:
        assert held.ping()
        connections.add(held.connection)
        all_connected.wait()
        sums = turns(held, number, 0)
    sums += turns(client, number, TURNS)
    assert client.zrem(f"own:{number}", f"{number}:0") == 1
    assert client.zremrangebyscore(f"own:{number}", 1, 4) == 4
    return sums

numbers = range(1, CLIENTS + 1)
with ThreadPoolExecutor(CLIENTS) as threads:
    sums = sum(threads.map(work, numbers), [])
print(len(connections), client.zcard("shared"), client.zcount("shared", 10, 10))
# each of them added more than 0, so that no two sums are alike
print(len(set(sums)), max(sums), client.zscore("shared", "sum"))
for number in numbers:
    kept = [(f"{number}:{turn}".encode(), turn) for turn in range(5, 10)]
    assert client.zrangebyscore(f"own:{number}", "-inf", "+inf", withscores=True) == kept
"""
POOL_SAYS = b"200 201 200\n2000 201000.0 201000.0\n"


def run_pool():
    python = python_with_redis()
    if not python:
        return skip("python3-redis")
    # it ends by itself behind so many connections, and not behind fewer
    with Server("--workers", WORKERS, "--connections", 200) as server:
        same(shell(python, "-c", POOL, server.port), (0, POOL_SAYS))
        same(server.ends(), (0, totals(200, 201, 201 + 200 * 5, 201 + 200 * 10, 200 * 5, 200 * (3 * 10 + 2)), b""))
