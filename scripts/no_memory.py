"""A part of program_test: sessions and rewrites that want memory once, at each of their allocations in turn."""
import io
import os

from harness import read, run, same, test, write
from tcp import HEADER, flat, read_reply, request
from wanting import EVERYTHING, Sets, each_refused_allocation, follow, run_on

NO_MEMORY = b"zcrackd: out of memory\n"
# ZADD k 1 a, ZADD k 2 b, ZREM k a: records of 35, 35 and 28 bytes.
RECORDS = (
    b"*4\r\n$4\r\nZADD\r\n$1\r\nk\r\n$1\r\n1\r\n$1\r\na\r\n"
    b"*4\r\n$4\r\nZADD\r\n$1\r\nk\r\n$1\r\n2\r\n$1\r\nb\r\n"
    b"*3\r\n$4\r\nZREM\r\n$1\r\nk\r\n$1\r\na\r\n"
)
ASKED = [
    ("ZADD", "k", 3, "c", 4, "d"), ("ZADD", "other", 1, "x", 2, "y"), ("ZREM", "k", "d", "nobody"), ("ZCARD", "k"),
    ("ZREMRANGEBYSCORE", "other", 2, 9), ("ZADD", "other", 3, "z"), ("ZREM", "other", "x"), ("PING",),
    ("ZREMRANGEBYSCORE", "k", 3, 3), ("ZADD", "k", 5, "e"), ("ZRANGEBYSCORE", "k", *EVERYTHING),
    ("ZRANGEBYSCORE", "other", *EVERYTHING),
]


def replies_of(out):
    """The whole replies among the first bytes of replies."""
    file, replies = io.BytesIO(out), []
    try:
        while file.tell() < len(out):
            replies.append(read_reply(file))
    except ConnectionError:
        pass
    return replies


def session_with_a_refusal(env, world, *words):
    """A session that is sent all at once and in which an allocation is refused: it goes on, or its end is told, and then
    replies that it held back may be lost. Gives the sets that may stand, and its status with how many requests were refused."""
    status, out, lines = run("stdio", *words, given=b"".join(request(*it) for it in ASKED), env=env)
    same((status, lines) in [(0, b""), (4, NO_MEMORY)], True)
    replies = replies_of(out)
    left = follow([world], list(zip(ASKED, replies)))
    ended = status, left[0].refused
    if status == 0:
        same((len(replies), out), (len(ASKED), b"".join(map(flat, replies))))
        return left, ended
    return run_on(left, ASKED[len(replies) :]), ended


def judge_sweep(given):
    """There were many runs; some ended for want of memory, in some an addition was refused, and the last one met no refusal."""
    same((len(given) > 20, (4, 0) in given, (0, 1) in given, given[-1]), (True, True, True, (0, 0)))


@test
def each_refused_allocation_of_a_session_is_told():
    def attempt(_room, env):
        return session_with_a_refusal(env, Sets())[1]

    judge_sweep(each_refused_allocation("a session", attempt))


def session_with_a_file(room, env, before, renewed, world):
    """The same over a file of these records, which make those sets, or over a new one. It is renewed, with these records in
    their place, and behind them is what was answered."""
    if before:
        write(f"{room}/kept", before)
    left, ended = session_with_a_refusal(env, world, "--file", f"{room}/kept")
    kept = read(f"{room}/kept") if os.path.exists(f"{room}/kept") else b""
    same(kept in [before, *(HEADER + renewed + b"".join(it.log) for it in left)], True)
    return ended


@test
def each_refused_allocation_of_a_session_with_a_new_file_is_told():
    judge_sweep(each_refused_allocation("a session with a new file", lambda room, env: session_with_a_file(room, env, b"", b"", Sets())))


@test
def each_refused_allocation_of_a_session_with_a_file_is_told():
    def attempt(room, env):
        world = Sets()
        world.ask("ZADD", "k", 2, "b")
        world.restart()
        return session_with_a_file(room, env, RECORDS, RECORDS[35:70], world)

    judge_sweep(each_refused_allocation("a session with a file", attempt))


@test
def each_refused_allocation_of_a_rewrite_leaves_no_new_file():
    def attempt(room, env):
        write(f"{room}/old", RECORDS)
        ended = run("rewrite", f"{room}/old", f"{room}/new", env=env)
        new = read(f"{room}/new") if os.path.exists(f"{room}/new") else None
        whole = HEADER + RECORDS[35:70]
        done = (ended, new) == ((0, b"records 1\n", b""), whole)
        same(done or (ended, new) in [((4, b"", NO_MEMORY), whole), ((4, b"", NO_MEMORY), None)], True)
        same((read(f"{room}/old"), os.path.exists(f"{room}/new.new")), (RECORDS, False))
        return ended[0]

    statuses = each_refused_allocation("a rewrite", attempt)
    same((len(statuses) > 20, 4 in statuses, statuses[-1]), (True, True, 0))
