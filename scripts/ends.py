"""A part of serve_test: how a server ends, where all goes well, where it can't accept, and where its totals can't be printed."""
import os

from harness import refusing, same, test
from tcp import Server, request, totals

WRONG = b"*01"
FAULT = b"-ERR protocol 3 bad number\r\n"
ADD_AND_LIST = request(*"ZADD k 5 a".split()) + request(*"ZRANGEBYSCORE k 5 5".split())
ADDED_AND_LISTED = b":1\r\n*1\r\n$1\r\na\r\n"
# The first and the last command alone change the set.
TALK = b"".join(request(*words.split()) for words in ("ZADD k 1 a", "ZADD k 1 a", "ZCARD k", "ZREM k z", "ZREM k a"))
TALKED = b":1\r\n:0\r\n:1\r\n:0\r\n:1\r\n"


def told(server, given):
    """What a connection is told that sends these bytes and nothing more."""
    client = server.connect()
    client.send(given)
    return client.finish()


def failing(**which):
    """The environment of a server of which these calls fail."""
    return {"LD_PRELOAD": refusing(), "REFUSED_MARK": os.path.abspath("mark"), **{it: str(which[it]) for it in which}}


@test
def totals_are_told():
    for workers in (1, 4):
        with Server("--workers", workers, "--connections", 1) as server:
            same(told(server, ADD_AND_LIST), ADDED_AND_LISTED)
            same(server.ends(), (0, totals(1, 1, 1, 1, 0, 1), b""))
        # A connection that begins no request ends alone.
        with Server("--workers", workers, "--connections", 2) as server:
            same((told(server, WRONG), told(server, ADD_AND_LIST)), (FAULT, ADDED_AND_LISTED))
            same(server.ends(), (0, totals(2, 1, 1, 1, 0, 1), b""))


@test
def records_are_counted_that_no_file_keeps():
    with Server("--connections", 1) as server:
        same(told(server, TALK), TALKED)
        same(server.ends(), (0, totals(1, 0, 0, 1, 1, 2), b""))


@test
def an_accept_fault_is_told():
    for workers in (1, 4):
        with Server("--workers", workers, env=failing(FAILING_ACCEPT=3)) as server:
            same([told(server, WRONG) for _ in range(2)], [FAULT] * 2)
            server.connect()
            same(server.ends(), (1, totals(2, 0, 0, 0, 0, 0), b"zcrackd: accept fault\n"))


@test
def totals_that_cannot_be_printed_are_told_behind_an_accept_fault():
    # The line with the port is the first that is written.
    with Server(env=failing(FAILING_ACCEPT=1, FAILING_OUTPUT=2)) as server:
        server.connect()
        same(server.ends(), (1, b"", b"zcrackd: accept fault\nzcrackd: write fault\n"))
