"""A part of serve_test: each option of a server reaches the place that it is for, at values that tell."""
import re
import socket
import time

from harness import SECONDS, read, same, test, write
from tcp import Server, read_reply, request, soon, totals, traced

PONG = b"+PONG\r\n"
SILENT = 0.3
# More than a server takes that counts its connections, or a session its requests, in a way of its own.
MANY_CONNECTIONS = 20_100
MANY_REQUESTS = 1_100_000
# An argument's most bytes, and a request's most words.
LONGEST, MOST_WORDS = 65_536, 1_027


def is_silent(client):
    """Whether nothing comes for a moment."""
    client.socket.settimeout(SILENT)
    try:
        got = client.socket.recv(1)
    except TimeoutError:
        got = None
    client.socket.settimeout(SECONDS)
    return got is None


def threads(server):
    """How many threads a server has, once a client was answered."""
    client = server.connect()
    same((client.ask("PING"), client.finish()), (PONG, b""))
    with open(f"/proc/{server.process.pid}/status") as file:
        return int(re.search(r"Threads:\s+(\d+)", file.read())[1])


@test
def workers_are_so_many_threads():
    for workers in (1, 16, 64):
        with Server("--workers", workers) as server:
            same(threads(server), 1 + workers)


@test
def places_take_so_many_keys():
    for places in (1, 1_100, 4_096):
        with Server("--places", places) as server:
            client = server.connect()
            client.send(b"".join(request("ZADD", f"key:{it}", 1, "a") for it in range(places)))
            same([client.reply() for _ in range(places)], [b":1\r\n"] * places)
            same(client.ask("ZADD", "another", 1, "a"), b"-ERR 11 no place left for a key\r\n")
            same(client.ask("ZCARD", f"key:{places - 1}"), b":1\r\n")
            client.close()


@test
def records_are_counted_with_and_without_a_file():
    for words in ((), ("--file", "kept")):
        with Server("--max-records", 3, "--connections", 1, *words) as server:
            client = server.connect()
            same([client.ask("ZADD", "k", it, it) for it in (1, 2)], [b":1\r\n"] * 2)
            same(client.ask("ZREM", "k", 1), b":1\r\n")
            same(client.ask("ZADD", "k", 4, "4"), b"-ERR 15 append file is full\r\n")
            same(client.ask("ZREM", "k", 2), b"-ERR 15 append file is full\r\n")
            same((client.ask("ZCARD", "k"), client.finish()), (b":1\r\n", b""))
            same(server.ends(), (0, totals(1, 1, 1, 2, 1, 3), b""))


@test
def more_than_a_million_records_are_taken():
    count = 1_050_000
    with Server("--connections", 1) as server:
        client = server.connect()
        turn = request("ZADD", "k", 1, "a") + request("ZREM", "k", "a")
        rounds = count // 2
        same(client.flood(turn, rounds, b":1\r\n:1\r\n"), rounds)
        client.close()
        same(server.ends(), (0, totals(1, 0, 0, rounds, rounds, count), b""))


@test
def a_server_ends_after_so_many_connections():
    with Server("--connections", 3, "--workers", 2) as server:
        for _ in range(3):
            client = server.connect()
            same((client.ask("PING"), client.finish()), (PONG, b""))
        same(server.ends(), (0, totals(3, 0, 0, 0, 0, 0), b""))


@test
def many_short_connections_are_served_by_one_worker():
    with Server("--connections", MANY_CONNECTIONS, "--workers", 1) as server:
        for number in range(MANY_CONNECTIONS):
            client = server.connect()
            same((number, client.ask("PING")), (number, PONG))
            if number % 10 == 0:
                same((number, client.finish()), (number, b""))
            else:
                client.reset()  # so that its port is free at once
        same(server.ends(), (0, totals(MANY_CONNECTIONS, 0, 0, 0, 0, 0), b""))


@test
def a_timeout_is_as_long_as_it_says():
    with Server("--timeout", 3) as server, Server() as patient:
        client, silent = server.connect(), patient.connect()
        same((client.ask("PING"), silent.ask("PING")), (PONG, PONG))
        time.sleep(1.5)
        same(client.ask("PING"), PONG)
        begun = time.monotonic()
        same(client.file.read(), b"")
        ended = time.monotonic() - begun
        same((ended, 2.9 < ended < 5), (ended, True))
        same(silent.ask("PING"), PONG)
        for it in (client, silent):
            it.close()


@test
def a_server_listens_on_its_address_alone():
    with Server() as server:
        same(server.connect().ask("PING"), PONG)
        try:
            socket.create_connection(("127.0.0.2", server.port), timeout=SECONDS).close()
        except ConnectionRefusedError:
            return
        raise AssertionError("it answers on 127.0.0.2")


@test
def a_torn_end_is_told_before_a_server_ends():
    write("kept", request("ZADD", "k", 1, "a") + b"*3\r\n$4")
    with Server("--file", "kept") as server:
        same(soon(server.process.stderr), b"zcrackd: torn end of 6 bytes\n")
        same(server.connect().ask("ZCARD", "k"), b":1\r\n")


@test
def a_connection_is_set_up_and_read_in_long_pieces():
    with Server("--connections", 3, "--workers", 1) as server:
        # every other call to accept says that a connection was aborted before; the next one gives a client's
        tracer = traced(server, "-e", "trace=accept4,setsockopt,recvfrom", "-e", "inject=accept4:error=ECONNABORTED:when=1+2")
        if tracer is None:
            return
        for _ in range(3):
            client = server.connect()
            same((client.ask("PING"), client.finish()), (PONG, b""))
        same(server.ends(), (0, totals(3, 0, 0, 0, 0, 0), b""))
        tracer.communicate(timeout=SECONDS)
    trace = read("trace").decode()
    same(set(re.findall(r"recvfrom\(.*, (\d+), 0, NULL, NULL\)", trace)), {"16384"})
    same(("ECONNABORTED" in trace, trace.count("TCP_NODELAY, [1]"), trace.count("SO_KEEPALIVE, [1]")), (True, 3, 3))


# What a connection may be sent

@test
def the_longest_requests_are_answered_by_each_worker():
    key, member = b"k" * LONGEST, b"m" * LONGEST
    pairs = [it for number in range(512) for it in (number, b"%d " % number + member[:1_000])]
    with Server("--connections", 3, "--workers", 3) as server:
        first, second, third = (server.connect() for _ in range(3))
        same(first.ask("ZADD", key, 7, member), b":1\r\n")
        same(second.ask("ZSCORE", key, member), b"$1\r\n7\r\n")
        same(third.ask("ZRANGEBYSCORE", key, 7, 7), [b"$65536\r\n" + member + b"\r\n"])
        same(len(("ZADD", key, "CH", *pairs)), MOST_WORDS)
        same(second.ask("ZADD", key, "CH", *pairs), b":512\r\n")
        same(third.ask("ZREM", key, *pairs[1::2], *range(MOST_WORDS - 514)), b":512\r\n")
        same((first.ask("ZREM", key, member), first.ask("ZCARD", key)), (b":1\r\n", b":0\r\n"))
        same([client.finish() for client in (first, second, third)], [b""] * 3)
        same(server.ends(), (0, totals(3, 0, 0, 513, 513, 4), b""))


@test
def long_keys_that_differ_in_their_last_byte_have_sets_of_their_own():
    with Server("--connections", 2, "--workers", 2) as server:
        first, second = server.connect(), server.connect()
        for length in (1_000, 1_001, LONGEST - 1, LONGEST):
            start = b"k" * (length - 1)
            one, other = start + b"a", start + b"b"
            same(first.ask("ZADD", one, 1, start + b"m", 2, "y"), b":2\r\n")
            same(first.ask("ZADD", other, 3, "z"), b":1\r\n")
            same((second.ask("ZCARD", one), second.ask("ZCOUNT", one, 2, 9)), (b":2\r\n", b":1\r\n"))
            same(second.ask("ZSCORE", one, start + b"m"), b"$1\r\n1\r\n")
            same(second.ask("ZSCORE", other, "z"), b"$1\r\n3\r\n")
        same((first.finish(), second.finish()), (b"", b""))
        same(server.ends(), (0, totals(2, 8, 12, 12, 0, 8), b""))


@test
def a_connection_has_more_than_a_million_requests():
    with Server("--workers", 1) as server:
        client = server.connect()
        same(client.flood(request("PING"), MANY_REQUESTS, PONG), MANY_REQUESTS)
        same((client.ask("ZADD", "k", 1, "a"), client.finish()), (b":1\r\n", b""))


@test
def long_input_is_read_in_long_pieces():
    data = request("PING", *[b"x" * LONGEST] * (MOST_WORDS - 1))
    with Server("--workers", 1) as server:
        client = server.connect()
        same(client.ask("PING"), PONG)
        before = server.processor_time()
        client.send(data)
        same(read_reply(client.file)[:5], b"-ERR ")
        spent = server.processor_time() - before
        # a read for each byte takes a minute
        same((spent, spent < 5), (spent, True))
        client.close()
