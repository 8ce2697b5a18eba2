"""A part of serve_test: the table of sets over a file each of whose calls fails once, and changes of several sets that share a
sync. refusing.c counts the calls: a file that is there is opened by one sync, and the others are those of the changes."""
import functools
import os
import signal
import tempfile
import time
from contextlib import contextmanager

from harness import read, refusing, run, same, test, write
from tables import all_pinged, asked, in_turn
from tcp import HEADER, Server, flat, read_reply, totals
from wanting import each_refused

FAILED, FAILED_EARLIER = b"-ERR 16 append file failed\r\n", b"-ERR 14 append file failed earlier\r\n"

OPENED = ["ZADD i 3 z"]
# Changes of three sets, one of which changes nothing, and a reading between them: seven records.
CHANGES = [
    "ZADD k 5 a 6 b",
    "ZREM k a",
    "ZCARD k",
    "ZADD j -1 x",
    "ZADD k XX CH 9 b",
    "ZADD k XX CH 9 b",
    "ZADD k INCR -3 c",
    "ZREM i z",
    "ZREMRANGEBYSCORE k 7 +inf",
]
LISTINGS = [f"ZRANGEBYSCORE {key} -inf +inf WITHSCORES" for key in "ijk"]
# How many sets are not empty, how many members there are, and how many were added and removed, once so many were accepted.
COUNTS = [
    (1, 1, 0, 0),
    (2, 3, 2, 0),
    (2, 2, 2, 1),
    (3, 3, 3, 1),
    (3, 3, 3, 1),
    (3, 4, 4, 1),
    (2, 3, 4, 2),
    (2, 2, 4, 3),
]
# How many bytes a call takes, and how many calls there are: those that write the bytes of seven records, and seven syncs.
CALLS = [(1, 270), (3, 97), (7, 47)]

# Of these changes of three sets one changes nothing, so there are five records. A busy server may go on to the next client
# behind the fourth request.
OF_ONE_SET = ["ZADD k 1 a", "ZADD k 2 b", "ZADD k 2 b", "ZREM k a"]
OF_TWO_SETS = ["ZADD j 1 a", "ZADD i 1 a"]
# Behind the opening's sync five records are written; the next call settles them all; then one more is written and synced.
SYNC_OF_ALL, LAST_SYNC = 7, 9
TOLD = [b":1\r\n:1\r\n:0\r\n:1\r\n", b":1\r\n:1\r\n"]


def calls_behind(env):
    """How many calls of a kind were made behind the one that failed; None where that was not made."""
    return len(read(env["REFUSED_MARK"])) if os.path.exists(env["REFUSED_MARK"]) else None


def all_told(client, texts):
    """The replies to requests that are sent together, in turn."""
    client.send(asked(*texts))
    return [flat(client.reply()) for _ in texts]


class Day:
    """Two clients of a worker each, of which one changes the sets and then the other lists them, over a file that has one."""

    def __init__(self, most, room, env):
        path = f"{room}/kept"
        write(path, HEADER + asked(*OPENED))
        env = {**env, "FAILING_FILE": str(int(env["FAILING_FILE"]) + 1), "MOST_FILE": str(most)}
        words = "--places", 4, "--workers", 2, "--connections", 2, "--file", path
        with Server(*words, env=env) as server:
            clients = server.connect(), server.connect()
            all_pinged(clients)
            self.replies = all_told(clients[0], CHANGES) + all_told(clients[1], LISTINGS)
            same([client.finish() for client in clients], [b""] * 2)
            self.ended = server.ends()
        self.records = read(path).removeprefix(HEADER + asked(*OPENED))
        self.calls_behind = calls_behind(env)
        self.reloaded = run("stdio", "--file", path, given=asked(*LISTINGS))


@functools.cache
def replies_to(texts):
    """The replies of a session with the set of the opening to requests."""
    path = tempfile.mktemp(dir=".")
    write(path, HEADER + asked(*OPENED))
    status, out, lines = run("stdio", "--file", path, given=asked(*texts))
    same((status, lines), (0, b""))
    write(path, out)
    with open(path, "rb") as file:
        return [flat(read_reply(file)) for _ in texts]


def judge_replies(replies, is_broken):
    """One is refused where the log fails, and behind it all that would change a set then. The others are those of a session of
    the accepted commands alone."""
    refusals = [it for it in replies if it in (FAILED, FAILED_EARLIER)]
    same(refusals, ([FAILED] + [FAILED_EARLIER] * (len(refusals) - 1)) if is_broken else [])
    accepted = [(text, it) for text, it in zip(CHANGES + LISTINGS, replies) if it not in (FAILED, FAILED_EARLIER)]
    same([it for _, it in accepted], replies_to(tuple(text for text, _ in accepted)))


class Failure:
    """A call of the log that fails: how many records were accepted before, and what the file then has of them and of this one.
    None fails where all were accepted."""

    def __init__(self, records, accepted, at=0):
        of_next = records[accepted][:at] if accepted < len(records) else b""
        self.accepted, self.kept = accepted, b"".join(records[:accepted]) + of_next
        self.is_whole = of_next in records
        self.torn = 0 if self.is_whole else len(of_next)


def failures(records, most):
    for number, record in enumerate(records):
        for at in [*range(0, len(record), most), len(record)]:
            yield Failure(records, number, at)


def judge_reload(reloaded, failure):
    """A session has the records of the file that are whole, and tells how much is torn."""
    status, listings, lines = reloaded
    members = [int(it.split(b"\r\n")[0]) // 2 for it in listings.split(b"*")[1:]]
    line = b"zcrackd: torn end of %d bytes\n" % failure.torn if failure.torn else b""
    same((status, lines, len(members)), (0, line, len(LISTINGS)))
    same((len(members) - members.count(0), sum(members)), COUNTS[failure.accepted + failure.is_whole][:2])


def is_as_accepted(day, failure, behind):
    """Replies, totals and the file are those of the accepted commands, and so many calls were made behind the one that failed."""
    judge_replies(day.replies, behind is not None)
    same(day.ended, (0, totals(2, *COUNTS[failure.accepted], failure.accepted), b""))
    same((day.records, day.calls_behind), (failure.kept, behind))
    judge_reload(day.reloaded, failure)


@test
def each_failing_call_leaves_the_accepted_commands():
    for most, calls in CALLS:
        *found, last = each_refused("FAILING_FILE", functools.partial(Day, most))
        records = [b"*" + it for it in last.records.split(b"*")[1:]]
        wanted = [*failures(records, most)]
        same((most, len(records), len(found), len(wanted)), (most, 7, calls, calls))
        is_as_accepted(last, Failure(records, len(records)), None)
        for day, failure in zip(found, wanted):
            is_as_accepted(day, failure, 0)


@test
def a_file_that_fails_at_once_leaves_the_totals():
    """What changes nothing is answered, and nothing was changed."""
    write("kept", HEADER)
    env = {"LD_PRELOAD": refusing(), "FAILING_FILE": "2", "MOST_FILE": "64", "REFUSED_MARK": os.path.abspath("mark")}
    with Server("--places", 4, "--workers", 2, "--connections", 1, "--file", "kept", env=env) as server:
        client = server.connect()
        told = in_turn(client, ["ZADD a 1 x", "ZADD b 1 x", "ZADD b XX 1 x", "ZCARD a"])
        same((told, client.finish()), ([FAILED, FAILED_EARLIER, b":0\r\n", b":0\r\n"], b""))
        same(server.ends(), (0, totals(1, 0, 0, 0, 0, 0), b""))
    same((read("kept"), calls_behind(env)), (HEADER, 0))


@contextmanager
def stopped(server):
    """What a server is sent meanwhile, it finds when it goes on."""
    server.process.send_signal(signal.SIGSTOP)
    tasks = f"/proc/{server.process.pid}/task"
    while {read(f"{tasks}/{it}/stat").rsplit(b")", 1)[1].split()[0] for it in os.listdir(tasks)} != {b"T"}:
        time.sleep(0.001)
    yield
    server.process.send_signal(signal.SIGCONT)


def changes_of_three_sets(failing, later):
    """Two clients of one worker change sets at once, where a call on the file fails. Gives what they are told, what others are
    told then that ask for so much each, how the server ends, and how many calls were made behind the one that failed."""
    write("kept", HEADER)
    env = {"LD_PRELOAD": refusing(), "FAILING_FILE": str(failing), "REFUSED_MARK": os.path.abspath(f"mark-{failing}")}
    words = "--workers", 1, "--connections", 2 + len(later), "--file", "kept", "--sync", "group"
    with Server(*words, env=env) as server:
        clients = server.connect(), server.connect()
        all_pinged(clients)
        with stopped(server):
            for client, texts in zip(clients, (OF_ONE_SET, OF_TWO_SETS)):
                client.send(asked(*texts))
        told = [client.file.read(len(wanted)) for client, wanted in zip(clients, TOLD)]
        others = []
        for text in later:
            other = server.connect()
            other.send(asked(text))
            others.append(other.finish())
        for client in clients:
            client.close()
        return told, others, server.ends(), calls_behind(env)


@test
def one_sync_settles_the_changes_of_all_sets():
    five, six = totals(4, 3, 3, 4, 1, 5), totals(3, 3, 4, 5, 1, 6)
    # Behind a sync that failed changes are refused, those of its own sets without a reply.
    same(changes_of_three_sets(SYNC_OF_ALL, ["ZADD l 7 c", "ZADD k 7 c"]), ([b"", b""], [FAILED_EARLIER, b""], (0, five, b""), 0))
    same(changes_of_three_sets(LAST_SYNC, ["ZADD k 7 c"]), (TOLD, [b""], (0, six, b""), 0))
    same(changes_of_three_sets(LAST_SYNC + 1, ["ZADD k 7 c"]), (TOLD, [b":1\r\n"], (0, six, b""), None))


# Changes of three sets, each of which adds a member whatever became of the others, and how many sets have some behind so
# many of them.
ADDITIONS = ["ZADD k 1 a", "ZADD j 2 b", "ZADD k 3 c", "ZADD i 4 d"]
SETS_BEHIND = [0, 1, 2, 2, 3]


def additions_whose_write_fails(number):
    """Makes additions one at a time whose records are settled later, where the write of one fails: the calls on the file are
    the opening's sync, and for each addition a write and a sync. Gives what the clients are told, and how the server ends."""
    write("kept", HEADER)
    mark = os.path.abspath(f"unwritten-{number}")
    env = {"LD_PRELOAD": refusing(), "FAILING_FILE": str(2 + 2 * number), "REFUSED_MARK": mark}
    words = "--workers", 2, "--connections", 2, "--file", "kept", "--sync", "group"
    with Server(*words, env=env) as server:
        clients = server.connect(), server.connect()
        all_pinged(clients)
        told = in_turn(clients[0], ADDITIONS)
        listed = in_turn(clients[1], LISTINGS)
        same([client.finish() for client in clients], [b""] * 2)
        return told, listed, server.ends(), calls_behind(env)


@test
def a_record_that_is_not_written_refuses_its_change_though_syncs_are_shared():
    """The changes before are answered, settled and kept; the later ones are refused; reading goes on."""
    for number in range(len(ADDITIONS)):
        told, listed, ended, behind = additions_whose_write_fails(number)
        same(told, [b":1\r\n"] * number + [FAILED] + [FAILED_EARLIER] * (len(ADDITIONS) - number - 1))
        same((ended, behind), ((0, totals(2, SETS_BEHIND[number], number, number, 0, number), b""), 0))
        same(read("kept"), HEADER + asked(*ADDITIONS[:number]))
        same(run("stdio", "--file", "kept", given=asked(*LISTINGS)), (0, b"".join(listed), b""))
        same(b"".join(listed).count(b"\r\n$"), 2 * number)
