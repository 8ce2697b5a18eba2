"""A part of program_test: worked examples of commands with each allocation of each refused in turn. A command is answered as
with memory, or refused for want of it, and then the set stays and the command is answered once there is some.

An example is a session of its own, in which a read gives one request. Only what is allocated between the read of the
command and the next one is refused. Where that is memory to read it or to write its reply the session ends.
"""
import tempfile

from harness import refusing, run, same, test
from tcp import request
from wanting import NO_MEMORY, each_refused

LISTING = "ZRANGEBYSCORE k -inf +inf WITHSCORES"
NO_MORE = (4, b"zcrackd: out of memory\n")
# What a read has room for.
ROOM = 16_384
MADE, REFUSED, ENDED = "made", "refused", "ended"

# Commands that set up a set, and one behind them. Thirty bytes take a block that map and column share.
CHANGES = [
    ([], "ZADD k CH 1 a 2 a"),
    (["ZADD k 1 a"], "ZADD k INCR 1.0 a"),
    (["ZADD k 2 a"], "ZADD k XX CH 7 a 8 b"),
    (["ZADD k 1 a", "ZCOUNT k 0 2", "ZREM k a"], "ZADD k 1 b"),
    (["ZADD k 1 a"], "ZADD k NX CH 7 a 8 b"),
    (["ZADD k 5 a"], "ZADD k GT CH 6 a 1 b"),
    (["ZADD k 6 a 1 b"], "ZADD k LT INCR -1 a"),
    (["ZADD k 5 a"], "ZADD k LT LT CH 4 a"),
    ([], "ZADD k 5 a-member-of-just-thirty-bytes!"),
    (["ZADD k 5 a-member-of-just-thirty-bytes!"], "ZADD k XX CH 6 a-member-of-just-thirty-bytes!"),
]
READINGS = [
    (["ZADD k 1 b 1 a 1 B"], LISTING),
    (["ZADD k 9223372036854775807 a"], "ZCOUNT k (9223372036854775806 +inf"),
    (["ZADD k 5 a"], "ZCOUNT k -inf inf"),
    (["ZADD k 1 a 2 b 3 c 4 d"], "ZCOUNT k (1 (4"),
    (
        [
            "ZADD k 1 m1 2 m2 3 m3 4 m4 5 m5 6 m6 7 m7 8 m8 9 m9 10 m10",
            "ZCOUNT k 3 6",
            "ZADD k 1 x 5 y 9 z",
            "ZREM k y",
        ],
        "ZRANGEBYSCORE k 0 10",
    ),
    (["ZADD k 1 a 5 b 9 c", "ZCOUNT k 4 6", "ZADD k CH 8 a"], "ZRANGEBYSCORE k (7 +inf WITHSCORES"),
    (["ZADD k 1 a 2 b 3 c 4 d"], "ZRANGEBYSCORE k -inf +inf LIMIT 1 2"),
    (["ZADD k 1 a 2 b 3 c 4 d"], "ZRANGEBYSCORE k -inf +inf limit 3 9 withscores"),
    (["ZADD k 5 a-member-of-just-thirty-bytes!"], "ZRANGEBYSCORE k 5 5"),
]
# Requests that are refused once memory was taken for them.
REFUSALS = [
    (["ZADD k 1 a"], "ZADD k 1 a x b"),
    (["ZADD k 1 a"], "ZADD k XX CH 7 a inf b"),
    ([], "ZADD k 9223372036854775808 a"),
]
# Removals take what was kept back.
REMOVALS = [
    (["ZADD k 1 a 2 b"], "ZREM k a a x"),
    (["ZADD k 1 a 2 b 3 c"], "ZREMRANGEBYSCORE k (1 2"),
    (["ZADD k 5 a-member-of-just-thirty-bytes!"], "ZREM k a-member-of-just-thirty-bytes!"),
]
# What is answered or refused without memory.
WITHOUT_MEMORY = [
    (["ZADD k 1 a"], "ZCARD k"),
    (["ZADD k 5 a"], "ZCOUNT k (5 (5"),
    (["ZADD k 1 a 5 b 9 c", "ZCOUNT k 4 6", "ZADD k CH 8 a"], "ZCOUNT k -inf (4"),
    (["ZADD k 1 a"], "ZADD k INCR 9223372036854775807 a"),
    (["ZADD k 5 a"], "ZADD k GT INCR 9223372036854775807 a"),
    ([], "FOO"),
    ([], "ZADD k 1"),
    ([], "PING a b"),
    ([], "ZADD k NX XX GT 1 a"),
    ([], "ZADD k INCR 1 a 2 b"),
    ([], "ZCOUNT k 1.5 2"),
    (["ZADD k 1 a"], "ZRANGEBYSCORE k 1 2 LIMIT y 0"),
]
# The least number of allocations of all examples of one kind.
LEAST, LEAST_OF_REMOVALS = [(CHANGES, 60), (READINGS, 29), (REFUSALS, 3)], 4

# A set with rows that stand in pieces, and changes that wait.
SETUP = [
    "ZADD k 5 a-member-that-takes-memory 6 b 7 c 7 another-member-that-takes-memory 9 e 12 f",
    "ZCOUNT k 6 9",
    "ZADD k 8 g -1 h 6 a-member-that-takes-memory",
    "ZREM k another-member-that-takes-memory",
    "ZADD j 1 x",
]
# Commands on that set, and how often each is refused at the least.
COMMANDS = [
    ("PING a-text-that-takes-memory", 1),
    ("ZADD k 1 i 2 j 3 k 4 l 5 m 6 n 7 o 8 p", 6),
    ("ZADD new 1 a", 8),
    ("ZADD k XX CH 3 a-member-that-takes-memory 9 nobody", 3),
    ("ZADD k INCR 4 b", 3),
    ("ZADD k GT CH 9 b 1 z", 3),
    ("ZSCORE k a-member-that-takes-memory", 0),
    ("ZCOUNT k (6 +inf", 1),
    ("ZCOUNT k (5 (8", 1),
    ("ZRANGEBYSCORE k -inf 8 WITHSCORES", 4),
    ("ZRANGEBYSCORE k 0 +inf LIMIT 1 3", 3),
]
REMOVED = ["ZREM k a-member-that-takes-memory b nobody", "ZREMRANGEBYSCORE k (6 8"]


def addition(first):
    """500 pairs from a number on, each with its number as its score and a member that takes memory."""
    return "ZADD k" + "".join(f" {it} member-of-a-long-set-{it}" for it in range(first, first + 500))


# 2,500 members, a count that merges them, and the removal of one.
LONG_SETUP = [*map(addition, range(0, 2_500, 500)), "ZCOUNT k -inf +inf", "ZREM k member-of-a-long-set-1234"]
# Readings of that set, and how often each is refused and is made all the same at the least.
LONG_READINGS = [("ZCOUNT k -inf +inf", 0, 1), ("ZRANGEBYSCORE k -inf +inf LIMIT 700 3", 4, 1)]


def reads(commands):
    """How many bytes each read gives where none gives more than one request, or than there is room for."""
    lengths = [len(request(*words.split(" "))) for words in commands]
    return [min(ROOM, length - at) for length in lengths for at in range(0, length, ROOM)]


def session(commands, env):
    """What a session comes to whose reads are such."""
    env = {**env, "MOST_INPUT": " ".join(map(str, reads(commands)))}
    # A pipe may give less than there is room for.
    with tempfile.TemporaryFile() as given:
        given.write(b"".join(request(*words.split(" ")) for words in commands))
        given.seek(0)
        return run("stdio", given=None, stdin=given, env=env)


def answered(*commands):
    """The replies of a session where memory is ample."""
    status, out, lines = session(commands, {"LD_PRELOAD": refusing()})
    same((status, lines), (0, b""))
    return out


def outcomes(setup, words):
    """What comes of a command with each of its allocations refused in turn, none of which it had in the run behind the last."""
    # The set is listed behind it, and behind it once more.
    asked = [*setup, words, LISTING, words, LISTING]
    before, whole = answered(*setup), answered(*asked)
    # Refused it left the set, and was answered when it was asked again.
    refused = before + NO_MEMORY + answered(*setup, LISTING, words, LISTING)[len(before) :]
    behind = str(len(reads([*setup, words])))
    known = {(0, whole, b""): MADE, (0, refused, b""): REFUSED, (4, before, NO_MORE[1]): ENDED}

    def attempt(_room, env):
        found = session(asked, {**env, "REFUSED_BEHIND_INPUT": behind})
        same((words, found in known, found), (words, True, found))
        return known[found]

    *found, last = each_refused("REFUSED_ALLOCATION", attempt)
    same((words, last), (words, MADE))
    return found


def counts(setup, words):
    """How many of a command's allocations were refused to it, and without how many it was made all the same."""
    found = outcomes(setup, words)
    return found.count(REFUSED), found.count(MADE)


@test
def each_example_is_refused_or_answered():
    for examples, least in LEAST:
        found = [counts(*example) for example in examples]
        same([words for (_, words), (refused, _) in zip(examples, found) if refused == 0], [])
        same(sum(map(sum, found)) >= least, True)


@test
def each_example_of_a_removal_is_made_whichever_allocation_is_refused():
    found = [counts(*example) for example in REMOVALS]
    same([(refused, made >= 1) for refused, made in found], [(0, True)] * len(REMOVALS))
    same(sum(made for _, made in found) >= LEAST_OF_REMOVALS, True)


@test
def some_examples_take_no_memory():
    """But what is taken to read them: without that the session ends."""
    found = [outcomes(*example) for example in WITHOUT_MEMORY]
    same({it for came in found for it in came}, {ENDED})


@test
def each_command_is_refused_or_answered():
    for words, least in COMMANDS:
        same((words, counts(SETUP, words)[0] >= least), (words, True))


@test
def a_removal_is_made_whichever_allocation_is_refused():
    for words in REMOVED:
        refused, made = counts(SETUP, words)
        same((words, refused, made >= 1), (words, 0, True))


@test
def a_long_set_is_read_without_inner_pivots():
    """The removed row is searched for in a long piece, which is parted first, as is the one around a window. An inner pivot
    for which there is no memory is done without."""
    for words, least_refused, least_made in LONG_READINGS:
        refused, made = counts(LONG_SETUP, words)
        same((words, refused >= least_refused, made >= least_made), (words, True, True))
