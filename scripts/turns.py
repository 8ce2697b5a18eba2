"""A part of serve_test: whose turn it is among the clients of a worker, and when it yields its processor."""
import select
import signal
import time

from harness import SECONDS, read, same, test
from many_clients import PONG, connected
from tcp import Server, flat, request, totals, traced


def answered_before(server, quiet, busy, data, reply):
    """How many busy clients, whose requests are there first, are sent replies before a quiet one has three of its own, one
    behind the other."""
    server.process.send_signal(signal.SIGSTOP)
    for client in busy:
        client.send(data)
    quiet.send(request("PING"))
    server.process.send_signal(signal.SIGCONT)
    same([quiet.reply(), quiet.ask("PING"), quiet.ask("PING")], [PONG] * 3)
    answered = len(select.select([client.socket for client in busy], [], [], 0)[0])
    same([client.file.read(len(reply)) == reply for client in busy], [True] * len(busy))
    return answered


def answered_before_new(server, busy, data, reply):
    """How many busy clients are sent replies before one that was just accepted has its own."""
    with connected(server, 1) as (new,):
        time.sleep(0.05)
        return answered_before(server, new, busy, data, reply)


# one such request reads all 40,000 members of one score, so it takes longer than a part of a turn, and than a PING of
# this script
LONG, LONG_REPLY = request("ZRANGEBYSCORE", "k", 1, 1, "LIMIT", 39_999, 1), flat([b"$5\r\n79999\r\n"])


def load(client):
    for first in range(40_000, 80_000, 500):
        members = range(first, first + 500)
        same(client.ask("ZADD", "k", *(word for member in members for word in (1, member))), b":500\r\n")


@test
def a_quiet_client_does_not_wait_for_each_busy_one():
    data, reply = LONG * 6, LONG_REPLY * 6
    with Server("--workers", 1) as server, connected(server, 1) as (quiet,):
        load(quiet)
        # who asked much is quiet again behind a request alone
        same((quiet.flood(request("PING"), 10, PONG), quiet.ask("PING")), (10, PONG))
        with connected(server, 40) as busy:
            # behind its first requests it is known that a client is busy
            answered = [answered_before(server, quiet, busy, data, reply) for _ in range(7)]
            same(min(answered[1:]) < 10, True)
            # one that was just accepted is no busy one
            same(min(answered_before_new(server, busy, data, reply) for _ in range(6)) < 10, True)
        # of the others nobody asked before: they were just accepted, or it was seen already that nothing had come of them
        for seconds in (0, 0.05):
            newcomers = []
            for _ in range(6):
                with connected(server, 40) as busy:
                    time.sleep(seconds)
                    newcomers.append(answered_before(server, quiet, busy, data, reply))
            same((seconds, min(newcomers) < 10), (seconds, True))


def most_served_behind_a_look(rounds):
    """How many of eight clients, which send 40 requests at once so many times, a server's only worker serves at most before it
    looks again who else is ready; None where that can't be traced."""
    with Server("--connections", 8, "--workers", 1) as server, connected(server, 8) as clients:
        tracer = traced(server, "-e", "trace=epoll_wait,sendto")
        if tracer is None:
            return None
        for _ in range(rounds):
            server.process.send_signal(signal.SIGSTOP)
            for client in clients:
                client.send(request("PING") * 40)
            server.process.send_signal(signal.SIGCONT)
            same([client.file.read(len(PONG) * 40) for client in clients], [PONG * 40] * 8)
        for client in clients:
            same(client.finish(), b"")
        same(server.ends(), (0, totals(8, 0, 0, 0, 0, 0), b""))
        tracer.communicate(timeout=SECONDS)
    return max(text.count(b"sendto(") for text in read("trace").split(b"epoll_wait("))


@test
def a_worker_looks_who_is_ready_before_each_new_or_busy_client():
    same([most_served_behind_a_look(rounds) in (None, 1) for rounds in (1, 10)], [True, True])


def looks_and_sends(requests):
    """How often a server's only worker looks who is ready, and how often it sends, while two clients send so many long requests
    at once; None where that can't be traced."""
    with Server("--connections", 2, "--workers", 1) as server, connected(server, 2) as clients:
        load(clients[0])
        tracer = traced(server, "-e", "trace=epoll_wait,sendto")
        if tracer is None:
            return None
        for client in clients:
            client.send(LONG * requests)
        same([client.file.read(len(LONG_REPLY) * requests) for client in clients], [LONG_REPLY * requests] * 2)
        for client in clients:
            same(client.finish(), b"")
        same(server.ends(), (0, totals(2, 1, 40_000, 40_000, 0, 80), b""))
        tracer.communicate(timeout=SECONDS)
    text = read("trace")
    return text.count(b"epoll_wait("), text.count(b"sendto(")


@test
def a_worker_looks_who_is_ready_behind_each_long_request_of_a_turn():
    counts = looks_and_sends(40)
    if counts is not None:
        looks, sends = counts
        # a turn has five of them and sends once
        same((looks >= 80, 16 <= sends <= 32), (True, True))


def yields_beside(at_once):
    """How often a server's only worker yields its processor while two clients send so many requests at once, again and again;
    None where that can't be traced."""
    with Server("--connections", 2, "--workers", 1) as server, connected(server, 2) as clients:
        tracer = traced(server, "-e", "trace=sched_yield")
        if tracer is None:
            return None
        for client in clients * 50:
            client.send(request("PING") * at_once)
            same(client.file.read(len(PONG) * at_once), PONG * at_once)
        for client in clients:
            same(client.finish(), b"")
        same(server.ends(), (0, totals(2, 0, 0, 0, 0, 0), b""))
        tracer.communicate(timeout=SECONDS)
    return read("trace").count(b"sched_yield()")


@test
def a_worker_yields_its_processor_beside_busy_clients_alone():
    yields = [yields_beside(at_once) for at_once in (1, 4, 40)]
    if None not in yields:
        same((yields[:2], yields[2] > 0), ([0, 0], True))
