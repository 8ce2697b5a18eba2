"""A server that wants memory: once, at each of its allocations in turn, and for good."""
import os
import resource
import subprocess
import time

from harness import PROGRAM, SECONDS, read, same, start, test, write
from tcp import HEADER, LISTENING, LOOPBACK, Client, Server, request, totals
from wanting import EVERYTHING, NO_MEMORY, Sets, each_refused_allocation, follow

CONNECTIONS = 2
PLACES = 2
# Connections that are tried in all, since one that finds no memory is dropped and does not count.
MOST_TRIES = 9

# How a server that wants memory once may end: it went on and served its connections, or it began with none.
ENDS = {(0, b""), (4, b"zcrackd: out of memory\n"), (4, b"zcrackd: cannot start workers\n")}

# Both keys have a place then, the second by a claim of the running server's, and a third one finds none.
ASKED = [
    ("ZADD", "first", 2, "b", 3, "c"), ("ZADD", "second", 5, "x", 6, "y"), ("ZCARD", "first"), ("ZREM", "first", "c"),
    ("ZREM", "second", "y", "nobody"), ("ZREMRANGEBYSCORE", "first", 2, 2), ("ZADD", "second", 7, "z", 8, "zz"),
    ("ZADD", "first", 9, "d"), ("ZREMRANGEBYSCORE", "second", 5, 7), ("ZREM", "second", "zz"), ("ZADD", "second", 1, "v"),
    ("ZADD", "third", 1, "a"), ("PING",),
]
LISTINGS = [("ZRANGEBYSCORE", key, *EVERYTHING) for key in ("first", "second", "third")]


class Talk:
    """What a server is asked, one request at a time: over one connection, and the next where that ends too early. The
    sets are listed over the last one."""

    def __init__(self, port):
        self.port, self.left, self.asked = port, [*ASKED], []

    def go_on(self, server):
        """Makes connections until the server ends."""
        for number in range(MOST_TRIES):
            if server.poll() is not None:
                return
            if number == 1:
                self.left += LISTINGS
            self.connect()
            if number >= 1 and not self.left and has_ended(server):
                return

    def connect(self):
        """Asks what is left over a connection, until it ends."""
        try:
            client = Client(("127.0.0.1", self.port))
        except OSError:
            return time.sleep(0.01)  # the server ends
        try:
            while self.left:
                self.asked.append((self.left[0], None))
                self.asked[-1] = self.left[0], client.ask(*self.left[0])
                self.left.pop(0)
            client.finish()
        except ConnectionError:
            client.close()


def has_ended(server):
    try:
        server.wait(0.2)
    except subprocess.TimeoutExpired:
        return False
    return True


def begin(env, *words):
    """Starts a server of one worker in which an allocation is refused; gives it and its port, 0 where it has none."""
    words = [PROGRAM, "serve", *LOOPBACK, "--workers", "1", "--places", str(PLACES), *words]
    server = start(words, stdout=subprocess.PIPE, stderr=subprocess.PIPE, env=env)
    line = server.stdout.readline()
    return server, int(line.rsplit(b":", 1)[1]) if line.startswith(LISTENING) else 0


def serve_refused(env, words):
    """Serves connections with an allocation refused; gives what was asked with the replies, and how the server ended."""
    server, port = begin(env, "--connections", str(CONNECTIONS), *words)
    with server:
        talk = Talk(port)
        if talk.port:
            talk.go_on(server)
        out, lines = server.communicate(timeout=SECONDS)
    return talk, server.returncode, out, lines


def judge_end(worlds, talk, status, out, lines):
    """Which sets may stand, by how the server ended: where it served all was answered, but listings where the last
    connection ended too early, and its totals are those of what was answered."""
    same(((status, lines) in ENDS, status, lines), (True, status, lines))
    if status == 4:
        same(out, b"")
        return worlds
    same([it for it in talk.left if it not in LISTINGS], [])
    left = [it for it in worlds if out == totals(CONNECTIONS, *it.numbers())]
    same((out, [it.numbers() for it in worlds] if not left else []), (out, []))
    return left


def with_a_file(room, env):
    """One run of a server on a file that has a record of the first key; its records are those of what was answered."""
    before = request("ZADD", "first", 1, "a")
    write(f"{room}/kept", before)
    world = Sets(PLACES)
    world.ask("ZADD", "first", 1, "a")
    world.restart()
    talk, *ended = serve_refused(env, ["--file", f"{room}/kept"])
    left = judge_end(follow([world], talk.asked), talk, *ended)
    same(read(f"{room}/kept") in [before, *(HEADER + before + b"".join(it.log) for it in left)], True)
    return talk, *ended


def without_a_file(_room, env):
    talk, *ended = serve_refused(env, [])
    judge_end(follow([Sets(PLACES)], talk.asked), talk, *ended)
    return talk, *ended


def judge_sweep(given):
    """In the run without a refusal each request was asked once, and answered as with ample memory. There were many others, in
    some of which the server ended, and in some the key that came while it ran was refused its place."""
    talk, *ended = given[-1]
    same(([words for words, _ in talk.asked], ended[0], ended[2]), (ASKED + LISTINGS, 0, b""))
    refused = [words for talk, *_ in given for words, reply in talk.asked if reply == NO_MEMORY]
    same((ASKED[1] in refused, NO_MEMORY in [reply for _, reply in talk.asked]), (True, False))
    same((len(given) > 100, 4 in [status for _, status, *_ in given]), (True, True))


@test
def each_refused_allocation_of_a_server_is_told():
    judge_sweep(each_refused_allocation("a server", with_a_file))


@test
def each_refused_allocation_of_a_server_without_a_file_is_told():
    judge_sweep(each_refused_allocation("a server without a file", without_a_file))


# What a client asks that is held beside others, and the reply.
OF_NEIGHBOUR, NOBODY = ("ZCARD", "third"), b":0\r\n"


def answered_client(port):
    """A client that was answered. It comes again where it was refused memory itself; None where the server ended."""
    for _ in range(2):
        try:
            client = Client(("127.0.0.1", port))
            if client.ask(*OF_NEIGHBOUR) == NOBODY:
                return client
            client.close()
        except OSError:
            pass
    return None


def ask_beside(neighbour, port):
    """Others ask while a client is held that was answered before, and is answered behind them. Gives their replies."""
    talk = Talk(port)
    talk.left += LISTINGS
    for _ in range(2):
        talk.connect()
    # one of the two was ended at most
    same(talk.left, [])
    follow([Sets(PLACES)], talk.asked)
    # what it asked before it asks without further memory
    same([neighbour.ask(*OF_NEIGHBOUR) for _ in range(2)], [NOBODY] * 2)
    same(neighbour.finish(), b"")
    return [reply for _, reply in talk.asked]


def beside_a_neighbour(_room, env):
    """One run of a server with a client that is held meanwhile; no replies where the server did not begin."""
    server, port = begin(env)
    with server:
        try:
            neighbour = answered_client(port)
            if neighbour is not None:
                return ask_beside(neighbour, port)
            same((server.wait(SECONDS), server.stderr.read()) in ENDS, True)
            return []
        finally:
            server.kill()


@test
def each_refused_allocation_of_a_connection_spares_its_neighbour():
    given = each_refused_allocation("a server with a neighbour", beside_a_neighbour)
    ended, refused = [it for it in given if None in it], [it for it in given if NO_MEMORY in it]
    same((len(ended) > 0, len(refused) > 20, [] in given), (True, True, True))
    same((len(given[-1]), given[-1] in ended + refused), (len(ASKED + LISTINGS), False))


class Filling:
    """What is filled with members until it refuses more, asked one request at a time."""

    def fill(self, length, sets):
        """Adds members of so many bytes to sets in turn until ten additions in a row were refused; gives their keys,
        scores and names."""
        added, refused = [], 0
        while refused < 10:
            key, score = f"k{len(added) % sets}", len(added)
            name = f"{score}:{refused}:".ljust(length, ".")
            if self.ask("ZADD", key, score, name) == b":1\r\n":
                added.append((key, score, name))
                refused = 0
            else:
                refused += 1
        return added

    def remove(self, key, score, name):
        """By its name or by its score, which is its own."""
        if score % 2:
            return self.ask("ZREM", key, name)
        return self.ask("ZREMRANGEBYSCORE", key, score, score)

    def fill_and_remove(self, length, sets):
        """Each removal is answered, and then there is room for more. Gives how many members there were."""
        added = self.fill(length, sets)
        for key, score, name in added:
            same((length, sets, score, self.remove(key, score, name)), (length, sets, score, b":1\r\n"))
        same(self.ask("ZADD", "k0", 1, "a".ljust(length, ".")), b":1\r\n")
        return len(added)


def limit_memory(size):
    return lambda: resource.setrlimit(resource.RLIMIT_AS, (size, size))


class Session(Filling):
    """`zcrackd stdio` with an address space of so many bytes."""

    def __init__(self, size):
        streams = {it: subprocess.PIPE for it in ("stdin", "stdout", "stderr")}
        self.process = start([PROGRAM, "stdio"], preexec_fn=limit_memory(size), **streams)

    def ask(self, *words):
        self.process.stdin.write(request(*words))
        self.process.stdin.flush()
        return self.process.stdout.readline()

    def end(self):
        out, lines = self.process.communicate(timeout=SECONDS)
        same((self.process.returncode, out, lines), (0, b"", b""))


@test
def members_leave_where_memory_is_exhausted():
    for length, sets in [(8, 1), (200, 1), (20_000, 1), (200, 200), (2_000, 200)]:
        session = Session(32 << 20)
        session.fill_and_remove(length, sets)
        session.end()


class Served(Filling):
    """A server of one worker with an address space of so many bytes, and a connection to it. Its threads share one heap,
    since another one would take 64 MB of addresses at once."""

    def __init__(self, size):
        env = {**os.environ, "MALLOC_ARENA_MAX": "1"}
        self.server = Server("--workers", 1, "--connections", 1, env=env, preexec_fn=limit_memory(size))
        self.client = self.server.connect()

    def ask(self, *words):
        return self.client.ask(*words)

    def end(self, count):
        same(self.client.finish(), b"")
        same(self.server.ends(), (0, totals(1, 1, 1, count + 1, count, 2 * count + 1), b""))


@test
def members_leave_a_server_where_memory_is_exhausted():
    for length, sets in [(200, 1), (200, 200)]:
        served = Served(40 << 20)
        served.end(served.fill_and_remove(length, sets))


@test
def a_session_that_can_not_read_tells_that_it_ends():
    """It ends at whichever request it had no memory to read, an addition or a removal; else each removal by name is answered.
    A range may want memory for its bounds, where a thousand were asked for before and memory is in small pieces."""
    session = Session(32 << 20)
    try:
        for key, _, name in session.fill(2_000, 1):
            reply = session.ask("ZREM", key, name)
            if reply == b"":
                raise BrokenPipeError
            same(reply, b":1\r\n")
    except BrokenPipeError:
        same((session.process.wait(SECONDS), session.process.stderr.read()), (4, b"zcrackd: out of memory\n"))
        return
    session.end()
