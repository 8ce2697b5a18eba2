"""A part of serve_test: workers that have one client each. They wait in the reads of one that asks again and again."""
import time

from harness import SECONDS, same, test
from many_clients import PONG, connected
from tcp import Server, request

# Behind so many requests in a row a worker waits in its client's next read.
OFTEN = 50
# What a worker may have a client wait for that is new, or that asks beside a deaf one, in seconds.
SOON = 0.5


def ask_often(client):
    for _ in range(OFTEN):
        same(client.ask("PING"), PONG)


def seconds_to_ask(client):
    begun = time.monotonic()
    same(client.ask("PING"), PONG)
    return time.monotonic() - begun


@test
def each_worker_has_one_of_as_many_clients():
    with Server("--workers", 4) as server:
        for _ in range(10):
            gone = server.connect()
            same(gone.ask("PING"), PONG)
            same(gone.finish(), b"")
            time.sleep(0.1)  # so that its worker has told that it is gone
            with connected(server, 4) as clients:
                same([client.ask("PING") for client in clients], [PONG] * 4)
                before = server.waits()
                for _ in range(OFTEN):
                    for client in clients:
                        same(client.ask("PING"), PONG)
                after = server.waits()
                same(sum(after[thread] - before[thread] > OFTEN // 2 for thread in after), 4)


@test
def a_new_client_comes_beside_one_that_asks_often():
    with Server("--workers", 1) as server, connected(server, 1) as (often,):
        slowest = 0
        for _ in range(20):
            ask_often(often)
            with connected(server, 1) as (new,):
                slowest = max(slowest, seconds_to_ask(new))
                ask_often(often)
                slowest = max(slowest, seconds_to_ask(new))
        same((slowest, slowest < SOON), (slowest, True))


@test
def who_asked_often_and_rests_takes_no_processor_time():
    with Server("--workers", 4) as server, connected(server, 4) as clients:
        for client in clients:
            ask_often(client)
        time.sleep(0.2)
        time_before, before = server.processor_time(), server.waits()
        time.sleep(1)
        after = server.waits()
        same(server.processor_time() - time_before < 0.05, True)
        same([after[thread] - before[thread] for thread in after if after[thread] - before[thread] > 2], [])
        for client in clients:
            ask_often(client)
            same(client.finish(), b"")


@test
def who_asked_often_may_ask_slowly():
    with Server("--workers", 1) as server, connected(server, 1) as (client,):
        ask_often(client)
        for byte in request("ZADD", "k", 1, "a"):
            time.sleep(0.02)
            client.send(bytes([byte]))
        same(client.reply(), b":1\r\n")
        for _ in range(OFTEN):
            time.sleep(0.01)
            same(client.ask("ZSCORE", "k", "a"), b"$1\r\n1\r\n")


@test
def who_asked_often_and_takes_nothing_keeps_nobody_waiting():
    members = 1_000
    listing = b"*%d\r\n" % members + b"".join(b"$1000\r\n%s\r\n" % (b"%0999d:" % it) for it in range(members))
    with Server("--workers", 1) as server, connected(server, 1) as (deaf,):
        for it in range(members):
            same(deaf.ask("ZADD", "k", it, b"%0999d:" % it), b":1\r\n")
        deaf.send(request("ZRANGEBYSCORE", "k", "-inf", "+inf") * 20)
        slowest = 0
        with connected(server, 1) as (other,):
            for _ in range(20):
                slowest = max(slowest, seconds_to_ask(other))
                same(deaf.file.read(1_000), listing[:1_000])
                same(deaf.file.read(len(listing) - 1_000), listing[1_000:])
        same((slowest, slowest < SOON), (slowest, True))
        ask_often(deaf)


@test
def who_asked_often_is_ended_by_the_timeout():
    with Server("--workers", 2, "--timeout", 1) as server, connected(server, 2) as (silent, lively):
        ask_often(silent)
        begun = time.monotonic()
        while time.monotonic() - begun < 3:
            ask_often(lively)
            time.sleep(0.1)
        silent.socket.settimeout(SECONDS)
        same(silent.file.read(), b"")
        ask_often(lively)
