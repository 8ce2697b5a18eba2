"""A part of program_test: worked sessions with each allocation of each refused in turn, in one piece and byte by byte."""
import tempfile

from harness import read, run, same, test
from tcp import flat, request
from no_memory import replies_of
from wanting import NO_MEMORY, each_refused, kept_in

OUT_OF_MEMORY = (4, b"zcrackd: out of memory\n")
LISTING = "ZRANGEBYSCORE k -inf +inf WITHSCORES"
IN_ONE_PIECE, BYTE_BY_BYTE = 65_536, 1
WHOLE, ENDED = "answered as with memory", "ended"


def asked(*texts):
    return b"".join(request(*text.split()) for text in texts)


class Script:
    """Requests of a session, and behind them its end, or bytes that begin no request with their error reply; how it ends; and
    the numbers of the requests that are refused where memory is wanted: each that takes memory, but no removal."""

    def __init__(self, *texts, refused, behind=b"", error=b"", end=(0, b"")):
        self.texts, self.refused, self.error, self.end = texts, refused, error, end
        self.given = asked(*texts) + behind

    def work_out(self):
        """Each way in which it may go: the replies to its first requests, and to all but one, which is refused; with each what
        a file has then."""
        everything = range(len(self.texts))
        self.cut = [with_memory(self.texts[:count]) for count in range(len(self.texts) + 1)]
        self.one_refused = []
        for refused in everything:
            replies, kept = with_memory([self.texts[it] for it in everything if it != refused])
            replies.insert(refused, NO_MEMORY)
            self.one_refused.append((b"".join(replies) + self.error, kept))

    def outcome(self, most, ended, out, kept):
        """What came of a session in pieces of so many bytes, or an AssertionError: it was WHOLE, or ENDED for want of memory, or
        the number of its request that was refused. Its file has `kept`, which is None where it has no file."""
        if ended == OUT_OF_MEMORY:
            whole = [b"".join(replies) for replies, _ in self.cut].index(out)
            # One request more may have been run; or several, whose replies are held back until the next read.
            last = whole + 2 if most == BYTE_BY_BYTE else len(self.cut)
            same((out, kept in [None, *(it for _, it in self.cut[whole:last])]), (out, True))
            return ENDED
        same(ended, self.end)
        replies, kept_last = self.cut[-1]
        ways = {WHOLE: (b"".join(replies) + self.error, kept_last), **dict(enumerate(self.one_refused))}
        found = [it for it, (written, has) in ways.items() if out == written and kept in (None, has)]
        same((out, kept, found != []), (out, kept, True))
        return found[0]


def with_memory(texts):
    """The replies to requests, and what a new file has then: a session on it lists the set that the requests made."""
    path = tempfile.mktemp(dir=".")
    ended, kept = run("stdio", "--file", path, given=asked(*texts)), read(path)
    listed = run("stdio", "--file", path, given=asked(LISTING))[1]
    same(run("stdio", given=asked(*texts, LISTING)), (0, ended[1] + listed, b""))
    same((ended[0], ended[2]), (0, b""))
    return [flat(it) for it in replies_of(ended[1])], kept


NOTHING = Script(refused=set())
A_REMOVAL = Script(
    "ZADD k 5 a-member-that-takes-memory",
    "ZRANGEBYSCORE k 5 5",
    "ZREMRANGEBYSCORE k (3 5",
    "PING a-text-that-takes-memory",
    refused={0, 1, 3},
)
LISTINGS = Script(
    "ZADD k 5 a-member-that-takes-memory",
    "ZRANGEBYSCORE k 5 5",
    "ZADD k 1 b 1 a-member-that-takes-memory 1 B",
    LISTING,
    refused={0, 1, 2, 3},
)
A_FAULT = Script(
    "ZADD k 5 a-member-that-takes-memory",
    "ZADD k INCR 1.0 a-member-that-takes-memory",
    refused={0, 1},
    behind=b"*0\r\nPING\r\n",
    error=b"-ERR protocol 2 not an array\r\n",
    end=(1, b"zcrackd: protocol fault 2\n"),
)
A_CHANGE_AND_A_READING = Script("ZADD k 5 a", "ZRANGEBYSCORE k 5 5", refused={0, 1})


def each_refused_of(script, most, serve):
    """Refuses each allocation of a session in pieces of so many bytes, which `serve` runs. It ends, or one request is refused;
    gives how many were answered as with memory all the same."""
    script.work_out()

    def attempt(room, env):
        ended, out, listed = serve(script.given, room, {**env, "MOST_INPUT": str(most)})
        return script.outcome(most, ended, out, listed)

    *found, last = each_refused("REFUSED_ALLOCATION", attempt)
    same((script.texts, last), (script.texts, WHOLE))
    same((script.texts, {*found} - {WHOLE}), (script.texts, {ENDED, *script.refused}))
    return found.count(WHOLE)


def serve(given, _room, env):
    """A session without a file: how it ends, and what is written."""
    status, out, lines = run("stdio", given=given, env=env)
    return (status, lines), out, None


def serve_with_file(given, room, env):
    """A session with a new file: the same, and what the file has."""
    status, out, lines = run("stdio", "--file", f"{room}/kept", given=given, env=env)
    return (status, lines), out, kept_in(f"{room}/kept")


@test
def each_refused_allocation_of_worked_sessions_is_told():
    # The program reads its command line without some of the memory that it asks for.
    spared = each_refused_of(NOTHING, IN_ONE_PIECE, serve)
    for script in (A_REMOVAL, LISTINGS, A_FAULT):
        for most in (IN_ONE_PIECE, BYTE_BY_BYTE):
            same(each_refused_of(script, most, serve), spared)


@test
def each_refused_allocation_leaves_the_set_of_what_was_answered():
    spared = each_refused_of(NOTHING, IN_ONE_PIECE, serve_with_file)
    for script in (LISTINGS, A_FAULT):
        same(each_refused_of(script, BYTE_BY_BYTE, serve_with_file), spared)
    # A removal's record takes memory that was kept back for it.
    same(each_refused_of(A_REMOVAL, BYTE_BY_BYTE, serve_with_file) > spared, True)
    for most in (IN_ONE_PIECE, BYTE_BY_BYTE):
        same(each_refused_of(A_CHANGE_AND_A_READING, most, serve_with_file), spared)
