"""A part of program_test: what commands reply in a session: requests that are refused, texts of scores, and commands,
members and sets as large as they may be.

There is memory here, so none is refused for want of it.
"""
from harness import run, same, test
from tcp import request
from worked import bytes_of

# Replies, and requests that get them. Single blanks part a request's words, so the second of them has one empty word.
REFUSED = {
    "-ERR 2 unknown command~": [
        "FOO",
        "",
        "ZREMRANGEBYRANK k 1 2",
    ],
    "-ERR 3 wrong number of arguments~": [
        "ZADD k 1",
        "ZADD",
        "PING a b",
        "ZREM k",
        "ZREMRANGEBYSCORE k 1",
        "ZREMRANGEBYSCORE k 1 2 3",
        "ZREMRANGEBYSCORE",
        "ZSCORE k",
        "ZSCORE k a b",
        "ZCARD",
        "ZCARD k a",
        "ZCOUNT k 1",
        "ZCOUNT k 1 2 3",
        "ZRANGEBYSCORE k 1",
    ],
    "-ERR 4 syntax error~": [
        "ZADD k NX 1",
        "ZADD k NX XX",
        "ZADD k 1 a 2",
        "ZADD k GT 1",
        "ZADD k INCR 1 a 2",
        "ZRANGEBYSCORE k 1 2 LIMIT 0",
        "ZRANGEBYSCORE k 1 2 LIMIT",
        "ZRANGEBYSCORE k x 2 WITHSCORE",
        "ZRANGEBYSCORE k 1 2 WITHSCORES LIMIT 0 1 0",
        "ZADD k GT LT",
        "ZADD k NX GT 1 a 2",
        "ZADD k GTX 1 a",
    ],
    "-ERR 5 NX and XX exclude each other~": [
        "ZADD k NX XX 1 a",
        "ZADD k xx ch nx x a",
        "ZADD k NX XX INCR 1 a 2 b",
        "ZADD k NX XX GT 1 a",
        "ZADD k LT XX GT NX 1 a",
    ],
    "-ERR 6 GT, LT and NX exclude each other~": [
        "ZADD k GT LT 1 a",
        "ZADD k NX GT 1 a",
        "ZADD k lt ch nx 1 a",
        "ZADD k XX GT LT 1 a",
        "ZADD k GT LT INCR 1 a 2 b",
        "ZADD k GT GT LT x a",
    ],
    "-ERR 7 INCR takes one pair~": [
        "ZADD k INCR 1 a 2 b",
        "ZADD k incr x a 2 b",
        "ZADD k LT INCR 1 a 2 b",
        "ZADD k GT incr x a 2 b",
    ],
    "-ERR 8 score is not a whole number of 64 bits~": [
        "ZADD k 1 a x b",
        "ZADD k 9223372036854775808 a",
        "ZADD k 1 NX 2 a NX b",
        "ZADD k INCR inf a",
        "ZADD k (1 a",
        "ZADD k LT LT x a",
        "ZADD k 1 GT 2 a LT b",
    ],
    "-ERR 9 min or max is not a score bound~": [
        "ZREMRANGEBYSCORE k x 2",
        "ZREMRANGEBYSCORE k 1 ((2",
        "ZCOUNT k ( 5",
        "ZCOUNT k 1.5 2",
        "ZCOUNT k 1 ((2",
        "ZRANGEBYSCORE k x 2 LIMIT y 0",
    ],
    "-ERR 10 LIMIT takes two whole numbers~": [
        "ZRANGEBYSCORE k 1 2 LIMIT y 0",
        "ZRANGEBYSCORE k 1 2 LIMIT 0 1.0",
        "ZRANGEBYSCORE k 1 2 LIMIT y 0 LIMIT 3 1",
    ],
}
# No command has a name as long as a word may be.
LONG_NAME = "P" * 65_536

# Texts of scores and the numbers that they spell, None where they spell none.
SCORES = [
    (b"+007", 7),
    (b"-0", 0),
    (b"1.0", 1),
    (b"9223372036854775807", 9223372036854775807),
    (b"9223372036854775807.00", 9223372036854775807),
    (b"-9223372036854775808", -9223372036854775808),
    (b"-9223372036854775808.00", -9223372036854775808),
    (b"9223372036854775808", None),
    (b"9223372036854775808.00", None),
    (b"-9223372036854775809", None),
    (b"1.", None),
    (b".0", None),
    (b"--1", None),
    (b"1e3", None),
    (b"", None),
    (b"+", None),
    (b"-", None),
    (b".", None),
    (b"1.0.0", None),
    (b"1.5", None),
    (b" 1", None),
    (b"1 ", None),
    (b"inf", None),
    (b"\xff", None),
    # A long text of zeros with `7` behind it spells 7, with a point behind that nothing, and with `0` behind the point 7 again.
    (b"0" * 1_000 + b"7", 7),
    (b"0" * 1_000 + b"7.", None),
    (b"0" * 1_000 + b"7.0", 7),
    # Numbers as they are printed.
    (b"-3", -3),
    (b"0", 0),
    (b"42", 42),
]
BAD_SCORE = "-ERR 8 score is not a whole number of 64 bits~"

# The most pairs of one ZADD, the most members of one ZREM, and the most bytes of a member.
PAIRS, NAMES, MEMBER = 512, 1_025, 65_536

# Commands on 120,000 members, with their replies.
OF_A_LARGE_SET = [
    ("ZCARD k", ":120000~"),
    ("ZCOUNT k 1000 (2000", ":1000~"),
    ("ZADD k 1500 x", ":1~"),
    ("ZREM k m1501", ":1~"),
    ("ZADD k INCR 1 m99999", "$6~100000~"),
    ("ZRANGEBYSCORE k 1499 1502", "*4~$5~m1499~$5~m1500~$1~x~$5~m1502~"),
    ("ZRANGEBYSCORE k -inf +inf LIMIT 119999 5", "*1~$7~m119999~"),
    ("ZSCORE k m119998", "$6~119998~"),
    ("ZCOUNT k -inf +inf", ":120000~"),
]
# The same, where great ranges of them go.
GREAT_RANGES = [
    ("ZREMRANGEBYSCORE k 1000 (101000", ":100000~"),
    ("ZCARD k", ":20000~"),
    ("ZSCORE k m1000", "$-1~"),
    ("ZSCORE k m101000", "$6~101000~"),
    ("ZRANGEBYSCORE k 999 101000", "*2~$4~m999~$7~m101000~"),
    ("ZADD k 50000 x", ":1~"),
    ("ZREMRANGEBYSCORE k -inf +inf", ":20001~"),
    ("ZCOUNT k -inf +inf", ":0~"),
]


def replied(asked):
    """A session gives these replies to these requests in turn. A request is bytes, or a text of words."""
    given = b"".join(it if isinstance(it, bytes) else request(*it.split(" ")) for it, _ in asked)
    status, out, lines = run("stdio", given=given)
    same((status, lines), (0, b""))
    for text, reply in asked:
        wanted = bytes_of(reply)
        same((text[:100], out[: len(wanted)]), (text[:100], wanted))
        out = out[len(wanted) :]
    same(out, b"")


def addition(first, count):
    """So many members are added, from a number on: each is `m` and its number, which is its score."""
    return "ZADD k" + "".join(f" {it} m{it}" for it in range(first, first + count)), f":{count}~"


def removal(names, members):
    """A removal of so many names, from `m0` on, takes so many members out."""
    return "ZREM k" + "".join(f" m{it}" for it in range(names)), f":{members}~"


def filled(times):
    """A set of so many times 500 members."""
    return [addition(500 * turn, 500) for turn in range(times)]


@test
def requests_are_refused():
    asked = [(text, reply) for reply, texts in REFUSED.items() for text in texts]
    same(len(asked), 60)
    replied([*asked, (LONG_NAME, "-ERR 2 unknown command~"), ("ZCARD k", ":0~")])


@test
def scores_are_read_and_printed():
    asked = []
    for number, (text, score) in enumerate(SCORES):
        asked.append((request("ZADD", "k", text, f"m{number}"), BAD_SCORE if score is None else ":1~"))
        asked.append((f"ZSCORE k m{number}", "$-1~" if score is None else f"${len(str(score))}~{score}~"))
    same(len(asked), 2 * 30)
    replied(asked)


@test
def the_longest_commands_are_answered():
    """Words that name a missing member, that add members, and that take them and more out again."""
    none = "ZREM missing" + " x" * NAMES, ":0~"
    replied([none, addition(0, PAIRS), ("ZCOUNT k 100 199", ":100~"), removal(NAMES, PAIRS), ("ZCARD k", ":0~")])


@test
def the_longest_member_is_kept():
    member = "m" * MEMBER
    added, listed = ("ZADD k 5 " + member, ":1~"), ("ZRANGEBYSCORE k 5 5", f"*1~$65536~{member}~")
    replied([added, listed, ("ZREM k " + member, ":1~"), ("ZRANGEBYSCORE k 5 5", "*0~")])


@test
def members_of_each_length_are_kept():
    """Up to 299 bytes, each with its length as its score."""
    members = ["m" * count for count in range(300)]
    listed = "*600~" + "".join(f"${count}~{it}~${len(str(count))}~{count}~" for count, it in enumerate(members))
    asked = [(f"ZADD k {count} {it}", ":1~") for count, it in enumerate(members)]
    replied([*asked, ("ZCARD k", ":300~"), ("ZRANGEBYSCORE k -inf +inf WITHSCORES", listed)])


@test
def removals_of_each_number_of_names_are_answered():
    """As many members are added as a removal of so many names takes out again: of few names, and of the most."""
    asked = []
    for names in [*range(1, 100), *range(1_005, 1_026)]:
        pairs = min(names, PAIRS)
        asked += [addition(0, pairs), removal(names, pairs)]
    replied([*asked, ("ZCARD k", ":0~")])


@test
def large_sets_are_answered():
    replied([*filled(240), *OF_A_LARGE_SET])


@test
def a_great_range_is_removed():
    replied([*filled(240), *GREAT_RANGES])
