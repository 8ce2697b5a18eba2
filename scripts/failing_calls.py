"""A part of program_test: sessions whose calls fail, one in each run, and move few bytes: reads of the standard input, writes
to the standard output, and calls on the append file."""
import tempfile

from harness import read, run, same, test, write
from tcp import HEADER, request
from wanting import each_refused, kept_in

# Each has a reply of one line, of four bytes.
COMMANDS = [
    "ZADD k 5 a 6 b",
    "ZREM k a",
    "ZADD j -1 x",
    "ZADD k XX CH 9 b",
    "ZCOUNT k -inf (9",
    "ZADD k 7 c",
    "ZADD k GT CH 8 b 8 c",
    "ZREMRANGEBYSCORE k (8 +inf",
]
REQUESTS = [request(*words.split()) for words in COMMANDS]
ALL = b"".join(REQUESTS)
SIZES = " ".join(str(len(it)) for it in REQUESTS)
LISTINGS = [f"ZRANGEBYSCORE {key} -inf +inf WITHSCORES" for key in ("k", "j")]
LISTED = b"".join(request(*words.split()) for words in LISTINGS)

# How many bytes a call moves, and how many writes and reads there then are. The requests have 357 bytes, and a last read
# finds their end. Each of the eight replies has 4 bytes, and goes out before the next request is read.
CALLS = [(1, 32, 358), (3, 16, 120), (7, 8, 52)]

# An addition and a range of one score, of 35 and 45 bytes, come in reads of 35, 35, 10 and no bytes. Each read of them fails,
# and then none: how the session ends, what it writes, and what the listings of both sets then are.
TWO_REQUESTS = request(*"ZADD k 5 a".split()) + request(*"ZRANGEBYSCORE k 5 5".split())
READ_FAULT, SERVED = (1, b"zcrackd: read fault\n"), (0, b"")
NO_SETS, ONE_SET = b"*0\r\n*0\r\n", b"*2\r\n$1\r\na\r\n$1\r\n5\r\n*0\r\n"
ONE_REPLY, BOTH_REPLIES = b":1\r\n", b":1\r\n*1\r\n$1\r\na\r\n"
SOURCES = [
    (READ_FAULT, b"", NO_SETS),
    (READ_FAULT, ONE_REPLY, ONE_SET),
    (READ_FAULT, ONE_REPLY, ONE_SET),
    (READ_FAULT, BOTH_REPLIES, ONE_SET),
    (SERVED, BOTH_REPLIES, ONE_SET),
]

# The first and the last command alone change the set.
TALK = ["ZADD k 1 a", "ZADD k 1 a", "ZCARD k", "ZREM k z", "ZREM k a"]
TALKED = b":1\r\n:0\r\n:1\r\n:0\r\n:1\r\n"


def after(requests):
    """The replies to requests, what a new file has behind them, and the listings of both sets by a session on that file."""
    path = tempfile.mktemp(dir=".")
    status, replies, lines = run("stdio", "--file", path, given=b"".join(requests))
    same((status, lines), (0, b""))
    kept = read(path)
    return replies, kept, run("stdio", "--file", path, given=LISTED)[1]


def with_memory():
    """The replies to the commands, and what a file has after none of them, after the first, and so on. It lists the sets that
    a session lists which ran these commands."""
    found = [after(REQUESTS[:count]) for count in range(len(COMMANDS) + 1)]
    for count, (replies, _, listed) in enumerate(found):
        same(run("stdio", given=b"".join(REQUESTS[:count]) + LISTED), (0, replies + listed, b""))
    replies = found[-1][0]
    same([it for it, *_ in found], [replies[: 4 * count] for count in range(len(found))])
    return replies, [kept for _, kept, _ in found]


def serve(given, with_file, room, env):
    """How a session ends, what it writes, and what its file has behind it, if there is one."""
    path = f"{room}/kept"
    status, out, lines = run("stdio", *(["--file", path] if with_file else []), given=given, env=env)
    return (status, lines), out, kept_in(path) if with_file else None


def each_failing(kind, most, with_file):
    """What comes of the commands with each call of a kind failing in turn, and then none, where calls move so many bytes."""
    return each_refused(kind, lambda room, env: serve(ALL, with_file, room, {**env, **most}))


@test
def each_failing_write_leaves_what_was_run():
    """What went out are the bytes of the writes before; the request whose reply is cut was run, and none behind it."""
    replies, kept = with_memory()
    for most, writes, _ in CALLS:
        of_a_reply = -(-4 // most)
        for with_file in (False, True):
            *found, last = each_failing("FAILING_OUTPUT", {"MOST_INPUT": SIZES, "MOST_OUTPUT": str(most)}, with_file)
            same((most, len(found)), (most, writes))
            for before, came in enumerate(found):
                whole, more = divmod(before, of_a_reply)
                out = 4 * whole + more * most
                wanted = (1, b"zcrackd: write fault after %d bytes\n" % out), replies[:out], kept[whole + 1] if with_file else None
                same((most, before, came), (most, before, wanted))
            same(last, (SERVED, replies, kept[-1] if with_file else None))


@test
def each_failing_read_leaves_what_was_run():
    """All requests that were read whole are replied to."""
    replies, kept = with_memory()
    ends = [sum(map(len, REQUESTS[: count + 1])) for count in range(len(REQUESTS))]
    for most, _, reads in CALLS:
        for with_file in (False, True):
            *found, last = each_failing("FAILING_INPUT", {"MOST_INPUT": str(most)}, with_file)
            same((most, len(found)), (most, reads))
            for before, came in enumerate(found):
                whole = sum(end <= before * most for end in ends)
                wanted = READ_FAULT, replies[: 4 * whole], kept[whole] if with_file else None
                same((most, before, came), (most, before, wanted))
            same(last, (SERVED, replies, kept[-1] if with_file else None))


@test
def a_read_fails_in_turn():
    def attempt(room, env):
        ended, out, _ = serve(TWO_REQUESTS, True, room, {**env, "MOST_INPUT": "35"})
        return ended, out, run("stdio", "--file", f"{room}/kept", given=LISTED)[1]

    same(each_refused("FAILING_INPUT", attempt), SOURCES)
    found = each_refused("FAILING_INPUT", lambda room, env: serve(TWO_REQUESTS, False, room, {**env, "MOST_INPUT": "35"}))
    same(found, [(end, out, None) for end, out, _ in SOURCES])


@test
def each_change_is_synced_alone():
    """A file that is there is synced as it is opened. Then each change has a write and a sync, and nothing else is called."""
    def attempt(room, env):
        write(f"{room}/kept", HEADER)
        given = b"".join(request(*words.split()) for words in TALK)
        return run("stdio", "--file", f"{room}/kept", given=given, env=env), read(f"{room}/kept")

    found = each_refused("FAILING_FILE", attempt)
    same((len(found) - 1, found[-1][0]), (1 + 2 * 2, (0, TALKED, b"")))
    same(found[-1][1], HEADER + request(*TALK[0].split()) + request(*TALK[-1].split()))
