"""A server whose calls fail, one in each run, and move few bytes: those of a connection, which ends alone, and those on its
append file, behind which no change is made."""
import functools
import os
import socket
import tempfile

from harness import read, refusing, run, same, test, write
from tcp import HEADER, Server, request, totals
from wanting import each_refused

# Each has a reply of one line, the seventh a refusal.
COMMANDS = [
    "ZADD k 5 a 6 b",
    "ZREM k a",
    "ZADD j -1 x",
    "ZADD k XX CH 9 b",
    "ZCOUNT k -inf (9",
    "ZADD k 7 c",
    "ZADD k INCR 9223372036854775807 c",
    "ZADD k GT CH 8 b 8 c",
    "ZREMRANGEBYSCORE k (8 +inf",
]
# How many sets are not empty, how many members were added and removed, and how many records written, after the first so many.
COUNTS = [
    (0, 0, 0, 0),
    (1, 2, 0, 1),
    (1, 2, 1, 2),
    (2, 3, 1, 3),
    (2, 3, 1, 4),
    (2, 3, 1, 4),
    (2, 4, 1, 5),
    (2, 4, 1, 5),
    (2, 4, 1, 6),
    (2, 4, 2, 7),
]
# How many bytes a call moves, and how many then send the replies, and write and sync the records: a record is written by so
# many calls as its bytes take, and synced by one.
CALLS = [(1, 60, 277), (3, 26, 100), (7, 12, 47)]
FAILED, FAILED_EARLIER = b"-ERR 16 append file failed\r\n", b"-ERR 14 append file failed earlier\r\n"
# Three records of 35 bytes, and the request of another connection.
THREE, ANOTHER = ["ZADD k 1 a", "ZADD k 1 b", "ZADD k 1 c"], "ZADD k 1 z"
# So many connections are at both of two workers, and so often asks one of them to show which it has.
MANY, OFTEN = 16, 20


def asked(*texts):
    return b"".join(request(*text.split()) for text in texts)


LISTINGS = asked("ZRANGEBYSCORE k -inf +inf WITHSCORES", "ZRANGEBYSCORE j -inf +inf WITHSCORES")


def with_memory(commands):
    """The replies to commands, each of one line, and the listings of both sets after none of them, the first, and so on."""
    def session(count):
        status, out, lines = run("stdio", given=asked(*commands[:count]) + LISTINGS)
        same((status, lines), (0, b""))
        return out.split(b"\r\n", count)

    counts = range(len(commands) + 1)
    return [line + b"\r\n" for line in session(len(commands))[:-1]], [session(count)[-1] for count in counts]


def totals_after(count):
    """The totals of two connections, the first of which had so many of the commands run."""
    sets, added, removed, records = COUNTS[count]
    return totals(2, sets, added - removed, added, removed, records)


def totals_of_additions(connections, added):
    return totals(connections, min(added, 1), added, added, 0, added)


def send_no_more(client):
    try:
        client.socket.shutdown(socket.SHUT_WR)
    except OSError:
        pass  # the server ended the connection before


def received(client):
    """All that comes until the server ends the connection, by whatever call."""
    came = []
    try:
        while not came or came[-1]:
            came.append(client.socket.recv(4096))
    except ConnectionError:
        pass
    client.close()
    return b"".join(came)


def at_once(requests):
    """Sends requests together, and then nothing more; gives all that comes."""
    def use(client):
        client.send(requests)
        send_no_more(client)
        return received(client)

    return use


def in_turn(commands, replies):
    """Sends each command once the one before is answered whole; gives all that comes."""
    def use(client):
        came = b""
        for words, reply in zip(commands, replies):
            client.send(asked(words))
            line = client.file.readline()
            came += line
            if line != reply:
                break
        send_no_more(client)
        return came + received(client)

    return use


def served(env, first, second):
    """What two connections are told by one worker, one after the other, and how the server ends; None where no call of the
    first connection failed that should have."""
    with Server("--workers", 1, "--connections", 2, env=env) as server:
        one = first(server.connect())
        if "REFUSED_MARK" in env and not os.path.exists(env["REFUSED_MARK"]):
            return None
        return one, at_once(second)(server.connect()), server.ends()


def each_failing(kind, most, first, second):
    """What comes of a server with each such call of its first connection failing in turn, and then none."""
    def attempt(_room, env):
        env = {**env, **most}
        return served(env, first, second) or served({it: env[it] for it in env if it != "REFUSED_MARK"}, first, second)

    return each_refused(kind, attempt)


def ends_of(commands):
    """How many bytes the first command has, the first two, and so on."""
    return [len(asked(*commands[: count + 1])) for count in range(len(commands))]


@test
def each_failing_read_ends_one_connection():
    """The first connection is told what was read whole, and the next one finds the sets of that."""
    replies, listed = with_memory(COMMANDS)
    ends = ends_of(COMMANDS)
    for most, _, _ in CALLS:
        *found, last = each_failing("FAILING_RECV", {"MOST_RECV": str(most)}, at_once(asked(*COMMANDS)), LISTINGS)
        # All bytes are read, and then the end.
        same((most, len(found)), (most, -(-ends[-1] // most) + 1))
        for before, came in enumerate([*found, last]):
            whole = sum(end <= before * most for end in ends)
            wanted = b"".join(replies[:whole]), listed[whole], (0, totals_after(whole), b"")
            same((most, before, came), (most, before, wanted))


@test
def each_failing_write_ends_one_connection():
    """Its last reply is cut, or does not come. Its request was run, and the next connection finds the sets of that."""
    replies, listed = with_memory(COMMANDS)
    for most, sends, _ in CALLS:
        *found, last = each_failing("FAILING_SEND", {"MOST_SEND": str(most)}, in_turn(COMMANDS, replies), LISTINGS)
        same((most, len(found)), (most, sends))
        # What each number of calls had sent, and how many replies they had begun.
        sent = [(b"".join(replies[:whole]) + reply[:at], whole + 1)
                for whole, reply in enumerate(replies) for at in range(0, len(reply), most)]
        for before, came in enumerate(found):
            out, run_so_far = sent[before]
            wanted = out, listed[run_so_far], (0, totals_after(run_so_far), b"")
            same((most, before, came), (most, before, wanted))
        same(last, (b"".join(replies), listed[-1], (0, totals_after(len(COMMANDS)), b"")))


@test
def each_failing_call_of_a_connection_counts_what_was_run():
    """Its additions count that were run, three at most, and that of the next connection."""
    def judge(found, calls, counts):
        same((len(found) - 1, [ended for _, _, ended in found]), (calls, [(0, totals_of_additions(2, it), b"") for it in counts]))

    # Each request takes five reads of seven bytes, and its reply two writes of three bytes at most.
    found = each_failing("FAILING_RECV", {"MOST_RECV": "7"}, at_once(asked(*THREE)), asked(ANOTHER))
    judge(found, 16, [min(before // 5, 3) + 1 for before in range(17)])
    found = each_failing("FAILING_SEND", {"MOST_SEND": "3"}, in_turn(THREE, [b":1\r\n"] * 3), asked(ANOTHER))
    judge(found, 6, [min(before // 2 + 1, 3) + 1 for before in range(7)])


class Day:
    """Two connections to two workers, one of which asks once the other was told all, over a file that is opened by one sync, so
    that the log's calls are those behind it."""

    def __init__(self, room, env, first, second):
        path = f"{room}/kept"
        write(path, HEADER)
        env = {**env, "FAILING_FILE": str(int(env["FAILING_FILE"]) + 1)}
        with Server("--workers", 2, "--connections", 2, "--file", path, env=env) as server:
            one, other = server.connect(), server.connect()
            self.one, self.other = at_once(first)(one), at_once(second)(other)
            self.ended = server.ends()
        self.kept = read(path)


def worker_of(server, client):
    """The thread that serves a client: it waits for each of its requests, or for most of them on a busy machine."""
    for _ in range(OFTEN):
        before = server.waits()
        for _ in range(OFTEN):
            same(client.ask("PING"), b"+PONG\r\n")
        waited = {thread: waits - before.get(thread, waits) for thread, waits in server.waits().items()}
        worker = max(waited, key=waited.get)
        if waited[worker] > OFTEN // 2:
            return worker
    raise AssertionError("no thread waits for the requests of a client")


def of_two_workers(server, connections):
    """A client of each of two workers, out of so many, the others of which go."""
    clients = [server.connect() for _ in range(connections)]
    workers = {worker_of(server, client): client for client in clients}
    same(len(workers), 2)
    for client in clients:
        if client not in workers.values():
            client.close()
    return workers.values()


@test
def a_failed_log_is_told_to_both_workers():
    """What changes nothing is answered."""
    write("kept", HEADER)
    # The file is opened by one sync.
    env = {"LD_PRELOAD": refusing(), "FAILING_FILE": "2", "REFUSED_MARK": os.path.abspath("mark")}
    with Server("--workers", 2, "--connections", MANY, "--file", "kept", env=env) as server:
        one, other = of_two_workers(server, MANY)
        unchanged = b":0\r\n" * 2
        told = at_once(asked("ZADD a 1 x", "ZADD a 1 x", "ZREM a x", "ZCARD a"))(one)
        same(told, FAILED + FAILED_EARLIER + unchanged)
        same(at_once(asked("ZADD b 1 x", "ZADD b XX 1 x", "ZCARD a"))(other), FAILED_EARLIER + unchanged)
        same(server.ends(), (0, totals(MANY, 0, 0, 0, 0, 0), b""))
    same(read("kept"), HEADER)


def whole_records(data):
    """The records behind a file's header, each of a change of a set."""
    found = data.removeprefix(HEADER).split(b"*")[1:]
    return [b"*" + it for it in found]


class Failure:
    """A call of the log that fails: the command of its record, what the file has then, and whether it is the sync."""

    def __init__(self, record, before, written, size):
        # The command of the first record is the one behind which there is one, and so on.
        self.command = [records for *_, records in COUNTS].index(record + 1) - 1
        self.kept = HEADER + before + written
        self.torn = len(written) if len(written) < size else 0
        self.is_sync = len(written) == size


def failures(records, most):
    """The log's calls where each moves so many bytes."""
    for number, record in enumerate(records):
        for at in [*range(0, len(record), most), len(record)]:
            yield Failure(number, b"".join(records[:number]), record[:at], len(record))


@functools.cache
def replies_to(commands):
    return with_memory(commands)[0]


@functools.cache
def reloaded(kept):
    """What a session on a file with these bytes lists, and its line."""
    path = tempfile.mktemp(dir=".")
    write(path, kept)
    return run("stdio", "--file", path, given=LISTINGS)


def judge_replies(told, command):
    """Those before the log failed, its refusal of the command, and behind it those of what changes nothing then."""
    replies = [it + b"\r\n" for it in told.split(b"\r\n")[:-1]]
    same((len(replies), replies.index(FAILED)), (len(COMMANDS), command))
    answered = [place for place, reply in enumerate(replies) if reply not in (FAILED, FAILED_EARLIER)]
    same([replies.count(FAILED), *answered[:command]], [1, *range(command)])
    same([replies[it] for it in answered], replies_to(tuple(COMMANDS[it] for it in answered)))


@test
def each_failing_call_of_the_log_refuses_one_change():
    """It stays refused, and so is each change behind it. The file has the records before, and where its sync failed the one of
    that change."""
    replies, listed = with_memory(COMMANDS)
    for most, _, calls in CALLS:
        def attempt(room, env):
            day = Day(room, {**env, "MOST_FILE": str(most)}, asked(*COMMANDS), LISTINGS)
            return day, reloaded(day.kept)

        *found, (last, _) = each_refused("FAILING_FILE", attempt)
        same((last.one, last.other, last.ended), (b"".join(replies), listed[-1], (0, totals_after(len(COMMANDS)), b"")))
        wanted = [*failures(whole_records(last.kept), most)]
        same((most, len(found), len(wanted)), (most, calls, calls))
        for (day, again), failure in zip(found, wanted):
            before = failure.command
            judge_replies(day.one, before)
            same((day.other, day.ended, day.kept), (listed[before], (0, totals_after(before), b""), failure.kept))
            line = b"zcrackd: torn end of %d bytes\n" % failure.torn if failure.torn else b""
            same(again, (0, listed[before + failure.is_sync], line))


@test
def each_failing_call_of_the_log_counts_what_was_added():
    """Each of three records takes five writes of seven bytes, and a sync."""
    found = each_refused("FAILING_FILE", lambda room, env: Day(room, {**env, "MOST_FILE": "7"}, asked(*THREE), b"").ended)
    same(found, [(0, totals_of_additions(2, min(before // 6, 3)), b"") for before in range(19)])
