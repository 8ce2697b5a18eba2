"""A part of program_test: worked exchanges of a session, each served in one piece and byte by byte, and all in one session;
input that is cut after each byte, and bytes that begin no request."""
import os
from concurrent.futures import ThreadPoolExecutor

from harness import AT_ONCE, refusing, run, same, test
from tcp import request

WHOLE = 65_536
READ_FAULT = b"zcrackd: read fault\n"

# Each request by its words, which single blanks part, and its reply, with `~` for the end of a line.
SESSIONS = {
    "a listing": [
        ("ZADD k 1 b 1 a 1 B", ":3~"),
        ("ZRANGEBYSCORE k -inf +inf WITHSCORES", "*6~$1~B~$1~1~$1~a~$1~1~$1~b~$1~1~"),
    ],
    "twice in one command": [
        ("ZADD k CH 1 a 2 a", ":2~"),
        ("ZCARD k", ":1~"),
        ("ZSCORE k a", "$1~2~"),
        ("ZADD j 1 a 2 a", ":1~"),
    ],
    "ends of the type": [
        ("ZADD k 9223372036854775807 a", ":1~"),
        ("ZCOUNT k (9223372036854775807 +inf", ":0~"),
        ("ZCOUNT k (9223372036854775806 +inf", ":1~"),
        ("ZCOUNT k 9223372036854775807 9223372036854775807", ":1~"),
        ("ZCOUNT k -inf (-9223372036854775808", ":0~"),
    ],
    "bounds": [
        ("ZADD k 5 a", ":1~"),
        ("ZCOUNT k 5 1", ":0~"),
        ("ZCOUNT k (5 (5", ":0~"),
        ("ZCOUNT k 5 (5", ":0~"),
        ("ZCOUNT k (inf +INF", ":0~"),
        ("ZCOUNT k 5 5", ":1~"),
        ("ZCOUNT k -inf inf", ":1~"),
        ("ZCOUNT k ( 5", "-ERR 9 min or max is not a score bound~"),
        ("ZCOUNT k 1.5 2", "-ERR 9 min or max is not a score bound~"),
    ],
    "refusals": [
        ("FOO", "-ERR 2 unknown command~"),
        ("ZADD k 1", "-ERR 3 wrong number of arguments~"),
        ("PING a b", "-ERR 3 wrong number of arguments~"),
        ("ZADD k NX 1", "-ERR 4 syntax error~"),
        ("ZADD k NX XX 1 a", "-ERR 5 NX and XX exclude each other~"),
        ("ZADD k NX XX GT 1 a", "-ERR 5 NX and XX exclude each other~"),
        ("ZADD k GT LT 1 a", "-ERR 6 GT, LT and NX exclude each other~"),
        ("ZADD k NX GT 1 a", "-ERR 6 GT, LT and NX exclude each other~"),
        ("ZADD k GT LT INCR 1 a 2 b", "-ERR 6 GT, LT and NX exclude each other~"),
        ("ZADD k INCR 1 a 2 b", "-ERR 7 INCR takes one pair~"),
        ("ZADD k 1 a x b", "-ERR 8 score is not a whole number of 64 bits~"),
        ("ZADD k 9223372036854775808 a", "-ERR 8 score is not a whole number of 64 bits~"),
        ("ZRANGEBYSCORE k 1 2 LIMIT 0", "-ERR 4 syntax error~"),
        ("ZRANGEBYSCORE k x 2 LIMIT y 0", "-ERR 9 min or max is not a score bound~"),
        ("ZRANGEBYSCORE k 1 2 LIMIT y 0", "-ERR 10 LIMIT takes two whole numbers~"),
        ("ZCARD k", ":0~"),
    ],
    "sums": [
        ("ZADD k 1 a", ":1~"),
        ("ZADD k INCR 9223372036854775807 a", "-ERR 13 score out of range~"),
        ("ZSCORE k a", "$1~1~"),
        ("ZADD k NX INCR 9223372036854775807 a", "$-1~"),
        ("ZADD k XX INCR 5 b", "$-1~"),
        ("ZADD k INCR 1.0 a", "$1~2~"),
        ("ZADD k XX CH 7 a 8 b", ":1~"),
    ],
    "greater or less": [
        ("ZADD k 5 a", ":1~"),
        ("ZADD k GT CH 5 a", ":0~"),
        ("ZADD k GT CH 6 a 1 b", ":2~"),
        ("ZADD k LT 7 a", ":0~"),
        ("ZADD k LT INCR -1 a", "$1~5~"),
        ("ZADD k GT INCR -1 a", "$-1~"),
        ("ZADD k GT INCR 0 a", "$-1~"),
        ("ZADD k LT INCR 0 a", "$-1~"),
        ("ZADD k GT INCR 9223372036854775807 a", "-ERR 13 score out of range~"),
        ("ZADD k LT INCR 9223372036854775807 a", "-ERR 13 score out of range~"),
        ("ZADD k XX GT 9 c", ":0~"),
        ("ZADD k LT LT CH 4 a", ":1~"),
        ("ZADD k LT CH 4 a", ":0~"),
        ("ZADD k gt INCR 7 c", "$1~7~"),
        ("ZADD k LT INCR 8 d", "$1~8~"),
        ("ZRANGEBYSCORE k -inf +inf WITHSCORES", "*8~$1~b~$1~1~$1~a~$1~4~$1~c~$1~7~$1~d~$1~8~"),
    ],
    "one stream": [
        ("ZADD k 5 a", ":1~"),
        ("ZRANGEBYSCORE k 5 5", "*1~$1~a~"),
        ("ZADD k 1 b 1 a 1 B", ":2~"),
        ("ZRANGEBYSCORE k -inf +inf WITHSCORES", "*6~$1~B~$1~1~$1~a~$1~1~$1~b~$1~1~"),
    ],
    "limits": [
        ("ZADD k 1 a 2 b 3 c 4 d", ":4~"),
        ("ZRANGEBYSCORE k -inf +inf LIMIT 1 2", "*2~$1~b~$1~c~"),
        ("ZRANGEBYSCORE k -inf +inf LIMIT 2 -1", "*2~$1~c~$1~d~"),
        ("ZRANGEBYSCORE k -inf +inf LIMIT -1 2", "*0~"),
        ("ZRANGEBYSCORE k -inf +inf LIMIT 0 0", "*0~"),
        ("ZRANGEBYSCORE k -inf +inf limit 3 9 withscores", "*2~$1~d~$1~4~"),
        ("ZRANGEBYSCORE k -inf +inf LIMIT 0 1 LIMIT 3 1", "*1~$1~d~"),
    ],
    # The last word of the request that adds 3 is the empty member.
    "removals": [
        ("ZADD k 1 a 2 b", ":2~"),
        ("ZREM k a a x", ":1~"),
        ("ZADD k 3 ", ":1~"),
        ("ZRANGEBYSCORE k 3 3", "*1~$0~~"),
        ("ZSCORE k a", "$-1~"),
    ],
    "removed ranges": [
        ("ZADD k 1 a 2 b 3 c 4 d", ":4~"),
        ("ZREMRANGEBYSCORE k (1 (4", ":2~"),
        ("ZRANGEBYSCORE k -inf +inf", "*2~$1~a~$1~d~"),
        ("ZREMRANGEBYSCORE k 4 1", ":0~"),
        ("ZADD k 2 d 3 e", ":1~"),
        ("ZREMRANGEBYSCORE k 2 2", ":1~"),
        ("ZREMRANGEBYSCORE k -inf +inf", ":2~"),
        ("ZCARD k", ":0~"),
    ],
    "a missing key": [
        ("ZCARD k", ":0~"),
        ("ZREMRANGEBYSCORE k -inf +inf", ":0~"),
    ],
    "pings": [
        ("PING", "+PONG~"),
        ("PING hi", "$2~hi~"),
        ("ping", "+PONG~"),
        ("zadd k -3 a", ":1~"),
        ("ZADD k 4 a", ":0~"),
        ("ZRANGEBYSCORE k 4 4", "*1~$1~a~"),
    ],
}

# An addition and a range of one score, of 35 and 45 bytes, and their replies.
TWO_REQUESTS = request(*"ZADD k 5 a".split()) + request(*"ZRANGEBYSCORE k 5 5".split())
TWO_REPLIES = [b":1\r\n", b"*1\r\n$1\r\na\r\n"]

NOT_AN_ARRAY, BAD_NUMBER = (2, b"not an array"), (3, b"bad number")
TOO_MANY_ARGUMENTS, TOO_LONG, BAD_BULK = (4, b"too many arguments"), (5, b"argument too long"), (6, b"bad bulk string")
# Texts whose last byte is the first that no request may have at its place, and the faults.
FAULTS = [
    (b"*0\r\n*-1\r\nP", NOT_AN_ARRAY),
    (b"*01", BAD_NUMBER),
    (b"*1\rx", BAD_NUMBER),
    (b"*-2", BAD_NUMBER),
    (b"*-1x", BAD_NUMBER),
    (b"*-11", BAD_NUMBER),
    (b"*-1\rx", BAD_NUMBER),
    (b"*1028", TOO_MANY_ARGUMENTS),
    (b"*1\r\n$65537", TOO_LONG),
    (b"*1\r\n$-", BAD_NUMBER),
    (b"*1\r\n$1\n", BAD_NUMBER),
    (b"*1\r\n$1\r\r", BAD_NUMBER),
    (b"*1\r\n+", BAD_BULK),
    (b"*1\r\n$1\r\nab", BAD_BULK),
    (b"*1\r\n$1\r\na\rx", BAD_BULK),
]


def bytes_of(text):
    return text.encode().replace(b"~", b"\r\n")


def in_pieces(most, given, failing=0):
    """What a session on these bytes comes to of which a read gives so many at most, and the one of a number fails."""
    env = {"LD_PRELOAD": refusing(), "MOST_INPUT": str(most), "FAILING_INPUT": str(failing), "REFUSED_MARK": os.path.abspath("mark")}
    return run("stdio", given=given, env=env)


def ends_in_pieces(most, given, replies):
    """A session ends well with these replies. It has a read for each piece and one for the end, as shows where that fails."""
    same((most, given, in_pieces(most, given)), (most, given, (0, replies, b"")))
    last = -(-len(given) // most) + 1
    same((most, given, in_pieces(most, given, last)), (most, given, (1, replies, READ_FAULT)))


@test
def exchanges_go_as_worked():
    for exchanges in SESSIONS.values():
        given = b"".join(request(*words.split(" ")) for words, _ in exchanges)
        for most in (WHOLE, 1):
            ends_in_pieces(most, given, b"".join(bytes_of(reply) for _, reply in exchanges))


@test
def exchanges_on_keys_of_their_own_go_in_one_session():
    asked = []
    for number, exchanges in enumerate(SESSIONS.values()):
        for words, reply in exchanges:
            name, *rest = words.split(" ")
            asked.append((request(name, *([f"key:{number}", *rest[1:]] if rest[:1] == ["k"] else rest)), bytes_of(reply)))
    given, replies = map(b"".join, zip(*asked))
    same(run("stdio", given=given), (0, replies, b""))


@test
def input_is_cut_after_each_byte():
    """The requests that are whole are replied to, and the rest is not told."""
    same((len(TWO_REQUESTS), TWO_REQUESTS.index(b"*4", 1)), (80, 35))
    refusing()
    with ThreadPoolExecutor(AT_ONCE) as pool:
        cuts = [(most, TWO_REQUESTS[:cut], (cut >= 35) + (cut == 80)) for most in (1, 3, 7) for cut in range(81)]
        list(pool.map(lambda it: ends_in_pieces(*it[:2], b"".join(TWO_REPLIES[: it[2]])), cuts))


@test
def a_fault_is_told_at_its_byte_and_not_before():
    for text, (number, told) in FAULTS:
        same((text, in_pieces(1, text[:-1])), (text, (0, b"", b"")))
        wanted = 1, b"-ERR protocol %d %s\r\n" % (number, told), b"zcrackd: protocol fault %d\n" % number
        same((text, in_pieces(1, text)), (text, wanted))
        # The read of the last byte tells it, and no later one.
        same((text, in_pieces(1, text, len(text))), (text, (1, b"", READ_FAULT)))
        same((text, in_pieces(1, text, len(text) + 1)), (text, wanted))
