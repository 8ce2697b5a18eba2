"""A part of serve_test: many clients at once, well-behaved and not, and how a server stops accepting."""
import resource
import selectors
import socket
import threading
import time
from contextlib import ExitStack, contextmanager

from harness import SECONDS, same, test
from tcp import Server, flat, has_descriptors, raise_limit, request, soon, totals, traced

PONG = b"+PONG\r\n"
CLIENTS = 1_000


@contextmanager
def connected(server, count):
    with ExitStack() as stack:
        clients = []
        for _ in range(count):
            clients.append(server.connect())
            stack.callback(clients[-1].close)
        yield clients


def is_refused(server):
    """Whether a new client is turned away by the system."""
    try:
        server.connect().close()
    except ConnectionError:
        return True
    return False


def is_refused_soon(server):
    """Whether a new client is turned away within a second: the accepting thread may still be on its way to close."""
    for _ in range(50):
        if is_refused(server):
            return True
        time.sleep(0.02)
    return False


def ask_all(clients, rounds):
    """Each client has one request under way at any time, on a member of its own whose score counts them."""
    selector = selectors.DefaultSelector()
    for number, client in enumerate(clients):
        client.done = 0
        client.number = number
        client.socket.setblocking(False)
        client.next = lambda client=client: client.socket.send(
            request("ZADD", f"key:{client.number % 64}", "INCR", 1, f"m{client.number}"))
        client.next()
        selector.register(client.socket, selectors.EVENT_READ, client)
    left = len(clients)
    while left:
        events = selector.select(SECONDS)
        same((left, bool(events)), (left, True))
        for key, _ in events:
            client = key.data
            client.done += 1
            wanted = b"%d" % client.done
            same(client.socket.recv(4096), b"$%d\r\n%s\r\n" % (len(wanted), wanted))
            if client.done < rounds:
                client.next()
            else:
                selector.unregister(client.socket)
                client.socket.setblocking(True)
                client.socket.settimeout(SECONDS)
                left -= 1


@test
def a_thousand_clients_are_served_by_four_workers():
    if not has_descriptors():
        return
    with Server("--workers", 4, "--max-clients", CLIENTS, "--connections", CLIENTS) as server:
        with connected(server, CLIENTS) as clients:
            ask_all(clients, 10)
            same(is_refused(server), True)
            for client in clients:
                client.close()
        same(server.ends(), (0, totals(CLIENTS, 64, CLIENTS, CLIENTS, 0, 10 * CLIENTS), b""))


def send_without_end(client, stop):
    """Pipelines requests, and takes their replies, until it is told to stop."""
    data = request("ZCOUNT", "k", "-inf", "+inf") * 100
    client.socket.settimeout(SECONDS)
    reader = threading.Thread(target=take_all, args=(client,))
    reader.start()
    while not stop.is_set():
        client.send(data)
    client.socket.shutdown(socket.SHUT_WR)
    reader.join()


def take_all(client):
    while client.socket.recv(1 << 16):
        pass


def be_deaf(client, count):
    """Asks for far more than the system holds for it, and takes nothing."""
    data = request("ZRANGEBYSCORE", "k", "-inf", "+inf") * count
    client.socket.setblocking(False)
    try:
        client.socket.send(data)
    except BlockingIOError:
        pass


@test
def clients_that_misbehave_cost_the_others_little():
    if not has_descriptors():
        return
    with Server("--workers", 4, "--max-clients", CLIENTS + 50, preexec_fn=raise_limit) as server, \
            connected(server, CLIENTS) as clients:
        for number in range(2_000):
            clients[0].send(request("ZADD", "k", number, f"member:{number}"))
        same([clients[0].reply() for _ in range(2_000)], [b":1\r\n"] * 2_000)
        silent, halved, deaf, endless, gone, others = (
            clients[:600], clients[600:700], clients[700:720], clients[720:724], clients[724:800], clients[800:])
        for client in halved:
            client.send(request("PING")[:9])
        for client in deaf:
            be_deaf(client, 1_000)
        stop = threading.Event()
        senders = [threading.Thread(target=send_without_end, args=(client, stop)) for client in endless]
        for sender in senders:
            sender.start()
        for client in gone:
            client.send(request("ZCARD", "k") * 100)
            client.reset()
        slowest = 0
        for _ in range(5):
            for client in others:
                begun = time.monotonic()
                same(client.ask("PING"), PONG)
                slowest = max(slowest, time.monotonic() - begun)
        same((slowest, slowest < 1), (slowest, True))
        stop.set()
        for sender in senders:
            sender.join()
        same([client.ask("PING") for client in silent[:5]], [PONG] * 5)
        for client in halved[:5]:
            client.send(request("PING")[9:])
            same(client.reply(), PONG)


@test
def so_many_clients_are_served_at_once():
    for most, workers in ((1, 4), (3, 1), (3, 4), (64, 64)):
        with Server("--max-clients", most, "--workers", workers) as server, connected(server, most) as clients:
            same([client.ask("PING") for client in clients], [PONG] * most)
            with connected(server, 1) as (waiting,):
                waiting.send(request("PING", "next"))
                waiting.socket.settimeout(0.3)
                try:
                    got = waiting.socket.recv(1)
                except TimeoutError:
                    got = None
                same((most, workers, got), (most, workers, None))
                waiting.socket.settimeout(SECONDS)
                same(clients[0].finish(), b"")
                same(waiting.reply(), b"$4\r\nnext\r\n")


def with_few_descriptors():
    resource.setrlimit(resource.RLIMIT_NOFILE, (60, 60))


@test
def fewer_descriptors_serve_fewer_clients():
    with Server("--explain", preexec_fn=with_few_descriptors) as server:
        line = b"zcrackd: 20 clients at once, not 900: no more than 60 files may be open\n"
        same(soon(server.process.stderr), line)
        with connected(server, 20) as clients:
            same([client.ask("PING") for client in clients], [PONG] * 20)
            with connected(server, 10) as others:
                for client in others:
                    client.send(request("PING"))
                for client in clients:
                    same(client.finish(), b"")
                same([client.reply() for client in others], [PONG] * 10)
    with Server(preexec_fn=with_few_descriptors) as server:
        same(server.connect().ask("PING"), PONG)
        server.process.terminate()
        same(server.process.communicate(timeout=SECONDS), (b"", b""))


def all_end(server, clients, told):
    """The clients end, without a further reply, and the server behind them, with these totals."""
    same([client.finish() for client in clients], [b""] * len(clients))
    same(server.ends(), (0, told, b""))


@test
def one_worker_serves_many_at_once():
    with Server("--connections", 200, "--workers", 1) as server, connected(server, 200) as clients:
        for _ in range(3):
            same([client.ask("PING") for client in clients], [PONG] * 200)
        all_end(server, clients, totals(200, 0, 0, 0, 0, 0))


@test
def nobody_waits_behind_the_last_connection():
    with Server("--connections", 2, "--workers", 1) as server, connected(server, 2) as clients:
        same([client.ask("PING") for client in clients], [PONG] * 2)
        same(is_refused_soon(server), True)
        same([client.ask("ZADD", "k", 1, "a") for client in clients], [b":1\r\n", b":0\r\n"])
        all_end(server, clients, totals(2, 1, 1, 1, 0, 1))


@test
def those_that_only_connect_cost_nothing():
    with Server("--workers", 1, "--max-clients", 100) as server, connected(server, 40) as idle:
        same([client.ask("PING") for client in idle], [PONG] * 40)
        for _ in range(1_000):
            server.connect().close()
        same([client.ask("PING") for client in idle], [PONG] * 40)
        same(server.connect().ask("PING"), PONG)


@test
def idle_clients_take_no_processor_time():
    with Server("--workers", 2) as server, connected(server, 500) as idle:
        same([client.ask("PING") for client in idle], [PONG] * 500)
        before = server.processor_time()
        time.sleep(1)
        same(server.processor_time() - before < 0.05, True)


def memory_of_each(count, requests):
    """The bytes that a server takes for each of so many clients that send so many requests at once, and then nothing."""
    ping = request("PING")
    with Server("--workers", 2) as server, connected(server, 8) as warm:
        # what all clients share is there already, and theirs stays theirs
        same([client.flood(ping, 5_000, PONG) for client in warm], [5_000] * len(warm))
        before = server.memory()
        with connected(server, count) as idle:
            same([client.flood(ping, requests, PONG) for client in idle], [requests] * count)
            # the last one is served, so all are held
            with connected(server, 1) as (last,):
                same(last.ask("PING"), PONG)
                return (server.memory() - before) / count


@test
def idle_clients_take_little_memory():
    if has_descriptors():
        for of_all, most in [((400, 0), 1_024), ((400, 1), 1_024), ((100, 5_000), 32_768)]:
            each = memory_of_each(*of_all)
            same((of_all, each, 256 < each < most), (of_all, each, True))


# As many bytes of replies wait for a client before no more of its requests are run, and so many are read at once.
MOST_HELD, MOST_READ = 65_536, 16_384
DEAF = 20


def deaf_client(server, data):
    """A socket with room for few replies, which sends this and takes nothing."""
    deaf = socket.socket()
    deaf.setsockopt(socket.SOL_SOCKET, socket.SO_RCVBUF, 4_096)
    deaf.settimeout(SECONDS)
    deaf.connect((server.address, server.port))
    deaf.sendall(data)
    return deaf


def most_memory(server, others):
    """The most memory that a server has in use until it stays the same for half a second, while others are answered."""
    found = [server.memory()]
    while len(found) < 50 or len(set(found[-50:])) > 1:
        same([client.ask("PING") for client in others], [PONG] * len(others))
        found.append(server.memory())
        time.sleep(0.01)
    return max(found)


@test
def clients_that_take_nothing_hold_few_replies():
    listing = request("ZRANGEBYSCORE", "k", "-inf", "+inf", "WITHSCORES")
    with Server("--workers", 2) as server, connected(server, 4) as others, ExitStack() as stack:
        for score in range(16):
            same(others[0].ask("ZADD", "k", score, "x" * 500 + f"{score}"), b":1\r\n")
        others[0].send(listing)
        reply = flat(others[0].reply())
        # what the clients of a worker share is as long as it gets
        same([client.flood(listing, 100, reply) for client in others], [100] * len(others))
        before = server.memory()
        # replies of 8 MB to each, far more than the system holds for it
        deaf = [stack.enter_context(deaf_client(server, listing * 1_000)) for _ in range(DEAF)]
        each = (most_memory(server, others) - before) / DEAF
        # the last 16 KiB are for what memory is rounded up to
        most = MOST_HELD + len(reply) + MOST_READ + 16_384
        same((each, 32_768 < each < most), (each, True))
        with deaf[0].makefile("rb") as file:
            same(file.read(len(reply) * 1_000) == reply * 1_000, True)


@test
def fifty_silent_clients_are_ended_by_the_timeout():
    with Server("--workers", 2, "--timeout", 1) as server, connected(server, 51) as clients:
        *silent, lively = clients
        begun = time.monotonic()
        while time.monotonic() - begun < 3:
            same(lively.ask("PING"), PONG)
            time.sleep(0.2)
        same([client.file.read() for client in silent], [b""] * 50)
        same(lively.ask("PING"), PONG)


@test
def who_sends_no_more_is_sent_all_replies():
    members = 2_000
    with Server("--workers", 1) as server, connected(server, 1) as (client,):
        client.send(b"".join(request("ZADD", "k", it, b"%d:" % it + b"x" * 990) for it in range(members)))
        same([client.reply() for _ in range(members)], [b":1\r\n"] * members)
        client.send(request("ZRANGEBYSCORE", "k", "-inf", "+inf") * 10)
        client.socket.shutdown(socket.SHUT_WR)
        got = 0
        while data := client.socket.recv(1 << 16):
            got += len(data)
            time.sleep(0.0005)
        listing = sum(len(b"$%d\r\n\r\n" % (990 + len(b"%d:" % it))) + 990 + len(b"%d:" % it) for it in range(members))
        same(got, 10 * (listing + len(b"*2000\r\n")))


@test
def errors_of_the_network_and_want_end_nothing():
    for error in ("EPROTO", "ENETDOWN", "EHOSTUNREACH", "EMFILE", "ENFILE", "ENOBUFS", "ENOMEM"):
        with Server("--connections", 2, "--workers", 1) as server:
            if traced(server, "-e", "trace=accept4", "-e", f"inject=accept4:error={error}:when=1+2") is None:
                return
            for _ in range(2):
                client = server.connect()
                same((error, client.ask("PING"), client.finish()), (error, PONG, b""))
            same(server.ends(), (0, totals(2, 0, 0, 0, 0, 0), b""))


@test
def an_accept_fault_is_told_at_once():
    with Server("--workers", 1) as server, connected(server, 1) as (client,):
        same(client.ask("PING"), PONG)
        if traced(server, "-e", "trace=accept4", "-e", "inject=accept4:error=EINVAL") is None:
            return
        is_refused(server)  # a tracer ends a wait, so that accepting may have failed before
        same(soon(server.process.stderr), b"zcrackd: accept fault\n")
        same(is_refused(server), True)
        same(client.ask("ZADD", "k", 1, "a"), b":1\r\n")
        same(client.finish(), b"")
        same(server.ends(), (1, totals(1, 1, 1, 1, 0, 1), b""))


@test
def a_connection_that_can_not_be_watched_is_closed_alone():
    for error in ("ENOSPC", "ENOMEM"):
        with Server("--workers", 1, "--max-clients", 5, "--connections", 6) as server, connected(server, 2) as clients:
            same([client.ask("PING") for client in clients], [PONG] * 2)
            # of the next registrations the second one is refused
            if traced(server, "-e", "trace=epoll_ctl", "-e", f"inject=epoll_ctl:error={error}:when=2") is None:
                return
            with connected(server, 2) as (third, refused):
                same((error, refused.file.read()), (error, b""))
                # its seat is free for the last one
                with connected(server, 2) as last:
                    others = [*clients, third, *last]
                    same([client.ask("PING") for client in others * 2], [PONG] * 10)
                    all_end(server, others, totals(6, 0, 0, 0, 0, 0))
