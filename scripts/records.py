"""A part of program_test: what commands append to a file, and when it is synced; what they are told where a write or a sync
fails, of a rewrite too; and calls that a signal interrupts."""
import functools
import os
import resource
import signal
import tempfile

from harness import read, refusing, run, same, test, write
from tcp import HEADER, request
from wanting import each_refused
from worked import READ_FAULT, bytes_of

WHOLE = 65_536
FAILED, FAILED_EARLIER = "-ERR 16 append file failed~", "-ERR 14 append file failed earlier~"
LISTING = "ZRANGEBYSCORE k -inf +inf WITHSCORES"


def asked(*texts):
    return b"".join(request(*text.split()) for text in texts)


RECORD = asked("ZADD k 1 a")


class Case:
    """Commands over a file that has a header: how many bytes a call on it moves, which call behind its opening fails, 0 for
    none, the replies, how many calls there are in all, and what the file has behind the header."""

    def __init__(self, commands, replies, calls, kept, most=WHOLE, fails_at=0):
        self.commands, self.replies, self.calls, self.kept = commands, replies, calls, kept
        self.most, self.fails_at = most, fails_at

    def goes_so(self):
        write("kept", HEADER)
        # The file is opened by one sync.
        failing = {"FAILING_FILE": str(self.fails_at + 1), "REFUSED_MARK": os.path.abspath("mark")} if self.fails_at else {}
        env = {"LD_PRELOAD": refusing(), "MOST_FILE": str(self.most), "CALLS": "calls", **failing}
        ended = run("stdio", "--file", "kept", given=asked(*self.commands), env=env)
        same((self.commands, ended), (self.commands, (0, bytes_of(self.replies), b"")))
        calls = [it for it in read("calls") if it in b"ws"]
        os.remove("calls")
        same((self.commands, len(calls), read("kept")), (self.commands, 1 + self.calls, HEADER + self.kept))


FAILING = {
    # A prefix of a record stands in the file, the sets stay, and no change is made any more.
    "the second write fails": Case(
        ["ZADD k 1 a", "ZCARD k", "ZADD k 1 a", "ZREM k z"], FAILED + ":0~" + FAILED_EARLIER + ":0~", 2, b"*4\r\n$4\r", 7, 2
    ),
    # The refused record stands there whole.
    "the sync fails": Case(["ZADD k 1 a", "ZCARD k"], FAILED + ":0~", 2, RECORD, fails_at=2),
    # A removal whose record is not appended is not made, and one that removes nothing needs none.
    "a removal is refused": Case(
        ["ZADD k 1 a", "ZREMRANGEBYSCORE k 1 1", "ZCARD k", "ZREMRANGEBYSCORE k 2 2"],
        ":1~" + FAILED + ":1~:0~", 3, RECORD, fails_at=3,
    ),
}

# A record is what a command changed, whatever it asked for.
EFFECTS = {
    "a removal is recorded as it was asked for, and one that removes nothing is not": Case(
        ["ZADD k 1 a 2 b 3 c", "ZREMRANGEBYSCORE k 4 +inf", "ZREMRANGEBYSCORE k (1 2"],
        ":3~:0~:1~", 4, asked("ZADD k 1 a 2 b 3 c", "ZREMRANGEBYSCORE k (1 2"),
    ),
    "a record is what a command changed": Case(
        [
            "ZADD k CH 1 a 2 a", "ZADD k INCR 5 a", "ZADD k +1.0 b", "ZADD k 3 a 7 a", "ZADD k 9 a 8 c 1 b", "ZREM k a a x",
            "ZREMRANGEBYSCORE k 8 +inf",
        ],
        ":2~$1~7~:1~:0~:1~:1~:1~", 12,
        asked("ZADD k 2 a", "ZADD k 7 a", "ZADD k 1 b", "ZADD k 9 a 8 c", "ZREM k a", "ZREMRANGEBYSCORE k 8 +inf"),
    ),
    "a pair that GT stops is the first mention of its member": Case(
        ["zadd k 5 a 1 b", "ZADD k GT 1 a 5 b 9 a"], ":2~:0~", 4, asked("ZADD k 5 a 1 b", "ZADD k 9 a 5 b")
    ),
    "a member that is moved back did not move": Case(
        ["ZADD k 1 a 2 b", "ZADD k 5 a 6 b 1 a"], ":2~:0~", 4, asked("ZADD k 1 a 2 b", "ZADD k 6 b")
    ),
    "members that a command may not add or change, and those that are not there": Case(
        ["ZADD k 1 a", "ZADD k NX 2 a 3 b", "ZADD k XX 4 a 5 c", "ZREM k z b z"],
        ":1~:1~:0~:1~", 8, asked("ZADD k 1 a", "ZADD k 3 b", "ZADD k 4 a", "ZREM k b"),
    ),
    "what changes nothing has no record": Case(
        ["ZADD k XX 1 a", "ZREM k a", "ZREMRANGEBYSCORE k 0 9", "ZADD k LT INCR 1 a", "ZADD k LT INCR 1 a"],
        ":0~:0~:0~$1~1~$-1~", 2, asked("ZADD k 1 a"),
    ),
}

# Commands in turn, and the record of each. A member that is named again is recorded once, with its last score, in the order of
# the first mention. Each key begins an example of its own.
MOVES = [
    ("ZADD plain CH 1 a 2 a", "ZADD plain 2 a"), ("ZADD plain INCR 5 a", "ZADD plain 7 a"),
    ("ZADD plain +1.0 b", "ZADD plain 1 b"), ("ZADD plain 3 a 7 a", ""), ("ZADD plain 9 a 8 c 1 b", "ZADD plain 9 a 8 c"),
    ("ZREM plain a a x", "ZREM plain a"), ("ZREM plain x", ""),
    # the order is not that of the first score that is taken
    ("ZADD gt 5 a 1 b", "ZADD gt 5 a 1 b"), ("ZADD gt GT 1 a 5 b 9 a", "ZADD gt 9 a 5 b"), ("ZADD gt GT 9 a 4 b", ""),
    ("ZADD gt LT 10 b 9 c 3 b", "ZADD gt 3 b 9 c"),
    # one comes back to the score that it had, and others move
    ("ZADD back 1 a 2 b", "ZADD back 1 a 2 b"), ("ZADD back 5 a 3 b 1 a", "ZADD back 3 b"),
    ("ZADD back 7 a 1 d 1 a 2 d", "ZADD back 2 d"), ("ZREM back d b d", "ZREM back d b"),
    # new members before, between and behind one that was there
    ("ZADD mixed 1 a", "ZADD mixed 1 a"), ("ZADD mixed 1 b 2 a 3 b 4 c 2 a", "ZADD mixed 3 b 2 a 4 c"),
    ("ZADD mixed 2 a 1 e 1 f 5 e", "ZADD mixed 5 e 1 f"),
    ("ZADD nx 1 a", "ZADD nx 1 a"), ("ZADD nx NX 2 a 3 b 4 b", "ZADD nx 3 b"), ("ZADD nx XX 5 c 6 a", "ZADD nx 6 a"),
    ("ZADD nx XX CH 5 c 6 b 6 a", "ZADD nx 6 b"), ("ZADD nx NX INCR 1 a", ""), ("ZADD nx XX INCR 1 c", ""),
    ("ZADD nx INCR 0 a", ""), ("ZADD nx INCR -1 d", "ZADD nx -1 d"), ("ZADD none XX 1 a", ""),
]
# The most pairs of a command, which are added, and then each get another score.
MOST_PAIRS = ["ZADD many " + " ".join(f"{number + more} m{number}" for number in range(512)) for more in (0, 1)]


@test
def records_have_the_members_that_move():
    write("kept", HEADER)
    status, _, lines = run("stdio", "--file", "kept", given=asked(*(command for command, _ in MOVES), *MOST_PAIRS))
    same((status, lines), (0, b""))
    same(read("kept"), HEADER + asked(*(record for _, record in MOVES if record), *MOST_PAIRS))


# The replies to two changes, each of one record, where a call fails, and how many bytes are written then. Five writes of 7
# bytes and a sync make the record of 35 bytes.
REFUSED_TWICE = FAILED + FAILED_EARLIER
FAILING_CALLS = [
    (1, REFUSED_TWICE, 0),
    (2, REFUSED_TWICE, 7),
    (3, REFUSED_TWICE, 14),
    (4, REFUSED_TWICE, 21),
    (5, REFUSED_TWICE, 28),
    (6, REFUSED_TWICE, 35),
    (7, ":1~" + FAILED, 35),
]


@test
def records_are_appended_as_told():
    for case in [*FAILING.values(), *EFFECTS.values()]:
        case.goes_so()
    for fails_at, replies, size in FAILING_CALLS:
        Case(["ZADD k 1 a", "ZADD k 2 b"], replies, fails_at, RECORD[:size], 7, fails_at).goes_so()


# Changes of two sets, readings between them, and the listings of both at the end. The commands of these numbers have records.
COMMANDS = [
    "ZADD k 5 a 6 b",
    "ZREM k a",
    "ZCARD k",
    "ZADD j -1 x",
    "ZADD k XX CH 9 b",
    "ZADD k XX CH 9 b",
    "ZADD k INCR -3 c",
    "ZREMRANGEBYSCORE k 7 +inf",
]
LISTINGS = [LISTING, "ZRANGEBYSCORE j -inf +inf WITHSCORES"]
RECORDED = [0, 1, 3, 4, 6, 7]
# How many bytes a call moves, and how many calls there are where none fails: 235 bytes of six records, and six syncs.
LOG_CALLS = [(1, 241), (3, 86), (7, 42)]
# The records of two sets, of 36 and 63 bytes. With the header of 24 bytes, they are written so, and synced.
TWO_SETS = asked("ZADD j -3 x", "ZADD k 1 B 1 a 1 b")
REWRITE_CALLS = [(1, 124), (3, 42), (7, 20)]


def parted(out, count):
    """So many first replies, each of one line but for that to INCR, of two; and the listings behind them."""
    found, rest = [], out
    while len(found) < count:
        size = rest.index(b"\r\n") + 2
        if rest[:1] == b"$":
            size = rest.index(b"\r\n", size) + 2
        found.append(rest[:size])
        rest = rest[size:]
    return found, rest


@functools.cache
def without_a_file(*commands):
    """What a session without a file is told of these commands and the listings of both sets."""
    status, out, lines = run("stdio", given=asked(*commands, *LISTINGS))
    same((status, lines), (0, b""))
    return out


@functools.cache
def listed_in(kept):
    """What a session on a file with these bytes lists, and its line."""
    path = tempfile.mktemp(dir=".")
    write(path, kept)
    return run("stdio", "--file", path, given=asked(*LISTINGS))


def are_of_the_accepted(out):
    """The first refusal is that of the call that failed, each behind it that of a broken log, and each reply that is no
    refusal that of a session which was sent the accepted commands alone. Gives the number of the command that is refused
    first, None where none is."""
    replies, listed = parted(out, len(COMMANDS))
    refused = [it for it in replies if it in (bytes_of(FAILED), bytes_of(FAILED_EARLIER))]
    same(refused, [bytes_of(FAILED)][: len(refused)] + [bytes_of(FAILED_EARLIER)] * (len(refused) - 1))
    accepted = [words for words, reply in zip(COMMANDS, replies) if reply not in refused]
    same(b"".join(it for it in replies if it not in refused) + listed, without_a_file(*accepted))
    return replies.index(refused[0]) if refused else None


class Failure:
    """A call on the file that fails: the number of the command whose record it is of, what is written, and what is torn."""

    def __init__(self, records, number, written):
        self.command = RECORDED[number]
        self.kept = HEADER + b"".join(records[:number]) + records[number][:written]
        self.is_sync = written == len(records[number])
        self.torn = b"" if self.is_sync or not written else b"zcrackd: torn end of %d bytes\n" % written


@test
def each_failing_call_of_a_session_leaves_what_came_before():
    """Its change is refused, and so is each one behind it. What the file has leads to the sets, but that a record whose sync
    fails stands there whole."""
    for most, calls in LOG_CALLS:
        def attempt(room, env):
            write(f"{room}/kept", HEADER)
            # The file is opened by one sync.
            env = {**env, "FAILING_FILE": str(int(env["FAILING_FILE"]) + 1), "MOST_FILE": str(most)}
            ended = run("stdio", "--file", f"{room}/kept", given=asked(*COMMANDS, *LISTINGS), env=env)
            kept = read(f"{room}/kept")
            return ended, kept, listed_in(kept)

        *found, (ended, whole, again) = each_refused("FAILING_FILE", attempt)
        same((ended, are_of_the_accepted(ended[1])), ((0, without_a_file(*COMMANDS), b""), None))
        same(again, (0, parted(ended[1], len(COMMANDS))[1], b""))
        records = [b"*" + it for it in whole.removeprefix(HEADER).split(b"*")[1:]]
        failures = [Failure(records, number, at) for number, record in enumerate(records)
                    for at in [*range(0, len(record), most), len(record)]]
        same((most, len(found), len(failures), len(whole) - len(HEADER)), (most, calls, calls, 235))
        for (ended, kept, again), failure in zip(found, failures):
            same((ended[::2], are_of_the_accepted(ended[1]), kept), ((0, b""), failure.command, failure.kept))
            before = COMMANDS[: failure.command + failure.is_sync]
            same(again, (0, parted(without_a_file(*before), len(before))[1], failure.torn))


@test
def each_failing_call_of_a_rewrite_leaves_no_new_file():
    for most, calls in REWRITE_CALLS:
        def attempt(room, env):
            write(f"{room}/old", TWO_SETS)
            ended = run("rewrite", f"{room}/old", f"{room}/new", env={**env, "MOST_FILE": str(most)})
            return ended, {it: read(f"{room}/{it}") for it in os.listdir(room) if it != "mark"}

        *found, last = each_refused("FAILING_FILE", attempt)
        same((most, found), (most, [((1, b"", b"zcrackd: write fault\n"), {"old": TWO_SETS})] * calls))
        same(last, ((0, b"records 2\n", b""), {"old": TWO_SETS, "new": HEADER + TWO_SETS}))


# A change, a reading, a change after it, one that changes nothing, and the listing; and the replies on a full device.
ON_A_FULL_DEVICE = ["ZADD k 2 a 5 b", "ZCARD k", "ZREM k a", "ZADD k 1 a", LISTING]
TOLD = FAILED + ":1~" + FAILED_EARLIER + ":0~*2~$1~a~$1~1~"


@test
def a_full_device_refuses_all_changes():
    def limited():
        signal.signal(signal.SIGXFSZ, signal.SIG_IGN)
        resource.setrlimit(resource.RLIMIT_FSIZE, (59, 59))

    # There is no room in the file, or none on the device.
    for how in {"preexec_fn": limited}, {"env": {"LD_PRELOAD": refusing(), "FAILING_KIND": "write"}}:
        write("kept", HEADER + RECORD)
        same(run("stdio", "--file", "kept", given=asked(*ON_A_FULL_DEVICE), **how), (0, bytes_of(TOLD), b""))
        same(read("kept"), HEADER + RECORD)


# How often a signal interrupts a call, and whether it is made then: the hundredth call is the last.
ANSWERS = [(0, True), (1, True), (2, True), (99, True), (100, False)]


def interrupted(kind, often):
    """How a session with one change ends each of whose calls of a kind is interrupted so often, its calls, and its file."""
    write("kept", HEADER)
    env = {"LD_PRELOAD": refusing(), f"INTERRUPTED_{kind}": str(often), "CALLS": "calls"}
    ended = run("stdio", "--file", "kept", given=RECORD, env=env)
    calls = read("calls")
    os.remove("calls")
    return ended, calls, read("kept")


@test
def an_interrupted_read_or_append_is_made_again():
    """The read of a session, and the write of a record. The standard library itself makes other calls again."""
    for often, is_made in ANSWERS:
        # The file is read and synced, then a request is read, its record written and synced, the reply written.
        wait = b"!" * often
        done = (0, b":1\r\n", b""), HEADER + RECORD
        ended, calls, kept = interrupted("INPUT", often)
        same((often, ended, kept), (often, *done) if is_made else (often, (1, b"", READ_FAULT), HEADER))
        same((often, calls), (often, b"rrs" + wait + (b"iwso" + wait + b"i" if is_made else b"")))
        ended, calls, kept = interrupted("FILE", often)
        same((often, ended, kept), (often, *done) if is_made else (often, (0, bytes_of(FAILED), b""), HEADER))
        same((often, calls), (often, b"rr" + wait + b"si" + wait + (b"w" + wait + b"s" if is_made else b"") + b"oi"))


# Changes, each of which makes a record of 35 bytes.
CHANGES = [f"ZADD k {score} {member}" for member in "ab" for score in range(1, 7)]


@test
def a_file_is_synced_before_each_answer():
    """A read gives one change. Then its record is written whole and synced, and only then its reply is written."""
    same([len(asked(it)) for it in CHANGES], [35] * 12)
    for often in (0, 1, 99):
        write("kept", HEADER)
        env = {"LD_PRELOAD": refusing(), "MOST_INPUT": "35", "INTERRUPTED_FILE": str(often), "CALLS": "calls"}
        # A pipe may give less than there is room for.
        with tempfile.TemporaryFile() as given:
            given.write(asked(*CHANGES))
            given.seek(0)
            ended = run("stdio", "--file", "kept", given=None, stdin=given, env=env)
        same((often, ended), (often, (0, b"".join(b":%d\r\n" % (it.split()[2] == "1") for it in CHANGES), b"")))
        wait = b"!" * often
        same((often, read("calls")), (often, b"rr" + wait + b"s" + (b"i" + wait + b"w" + wait + b"so") * 12 + b"i"))
        same(read("kept"), HEADER + asked(*CHANGES))
        os.remove("calls")
