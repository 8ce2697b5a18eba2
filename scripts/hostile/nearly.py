"""Bytes that are nearly requests. Most of what is wrong leaves the stream in order: the request gets its refusal, and the
next one is read. What is no request at all ends a connection, so such bytes stand at its end alone.

Each request comes with how its reply may begin (`ARRAY` for an array), as docs/FORMATS.md has it.
"""
from tcp import request

ARRAY = b"*"
INTEGER, BULK = (b":",), (b"$",)
KEYS = (b"k", b"key:2", b"\x00\xff\r\n*1")
NAMES = (b"PING", b"ZADD", b"ZREM", b"ZREMRANGEBYSCORE", b"ZSCORE", b"ZCARD", b"ZCOUNT", b"ZRANGEBYSCORE")
# How many words a command may not have, its name included.
WRONG_COUNTS = {
    b"PING": (3, 4, 50, 1_027), b"ZADD": (1, 2, 3), b"ZREM": (1, 2), b"ZREMRANGEBYSCORE": (1, 2, 3, 5, 400),
    b"ZSCORE": (1, 2, 4, 5), b"ZCARD": (1, 3, 1_000), b"ZCOUNT": (1, 2, 3, 5, 6), b"ZRANGEBYSCORE": (1, 2, 3),
}
LESSER_OPTIONS = ((), (), (b"NX",), (b"XX",), (b"GT",), (b"lt",), (b"CH",), (b"gt", b"XX", b"ch"), (b"NX", b"nx", b"CH"))
NO_SCORES = (
    b"", b"1.5", b"x", b"1e5", b"nan", b"inf", b"-inf", b"(1", b"9223372036854775808", b"-9223372036854775809", b" 1", b"1 ",
    b"+", b"-", b"--1", b"+-1", b"1.", b".0", b".", b"0x3", b"1.0.0", b"1\r\n", b"\xd9\xa1", b"9" * 300,
)
NO_BOUNDS = (b"", b"(", b"((1", b"infinity", b"1.5", b"(x", b"--inf", b"[1", b"+", b"1)", b"inf ", b"(9223372036854775808")
NO_INTEGERS = (b"", b"x", b"1.0", b"9223372036854775808", b" 1", b"+", b"0x1")
NO_OPTIONS = (
    (b"WITHSCORE",), (b"LIMIT",), (b"LIMIT", b"1"), (b"LIMIT", b"1", b"2", b"3"), (b"WITHSCORES", b"REV"), (b"",), (b"BYLEX",),
)
# Bytes that begin no request, each with the number of its fault.
FAULTS = (
    (b"\x00", 2), (b"PING\r\n", 2), (b"GET / HTTP/1.1\r\n", 2), (b"$4\r\nPING\r\n", 2), (b"*01\r\n", 3), (b"*+1\r\n", 3),
    (b"*-2\r\n", 3), (b"*1\n", 3), (b"*1\r\r", 3), (b"*x", 3), (b"*1028", 4), (b"*99999999999999999999", 4),
    (b"*1\r\n+", 6), (b"*1\r\n:4\r\n", 6), (b"*2\r\n$4\r\nPING\r\n*", 6), (b"*1\r\n$-1\r\n", 3), (b"*1\r\n$04\r\n", 3),
    (b"*1\r\n$ 4", 3), (b"*1\r\n$4\n", 3), (b"*1\r\n$65537", 5), (b"*1\r\n$4294967296", 5), (b"*1\r\n$4\r\nPINGS\r\n", 6),
    (b"*1\r\n$4\r\nPING\n", 6), (b"*1\r\n$4\r\nPING\r\r", 6),
)


def refused(number):
    return (b"-ERR %d " % number,)


def in_some_case(chance, name):
    return name if chance.random() < 0.7 else name.lower() if chance.random() < 0.7 else name.swapcase().title()


def score(chance):
    return chance.choice((b"%d", b"%d", b"%d", b"%d.0", b"%+d", b"%05d")) % chance.randrange(-100, 100)


def member(chance):
    """One of few, mostly; else any bytes."""
    return b"m%d" % chance.randrange(60) if chance.random() < 0.7 else chance.randbytes(chance.randrange(300))


def bounds(chance):
    if chance.random() < 0.3:
        return b"-inf", chance.choice((b"+inf", b"(INF", b"inf"))
    low = chance.randrange(-100, 100)
    return b"%d" % low, chance.choice((b"%d", b"(%d")) % (low + chance.randrange(-5, 30))


def pairs(chance):
    return [it for _ in range(chance.choice((1, 1, 1, 2, 3, 8))) for it in (score(chance), member(chance))]


# Requests that are right

def add(chance):
    return (b"ZADD", chance.choice(KEYS), *chance.choice(LESSER_OPTIONS), *pairs(chance)), INTEGER


def increase(chance):
    return (b"zadd", chance.choice(KEYS), b"INCR", score(chance), member(chance)), BULK + refused(13)


def remove(chance):
    return (b"ZREM", chance.choice(KEYS), *(member(chance) for _ in range(chance.choice((1, 1, 2, 6))))), INTEGER


def remove_range(chance):
    return (b"ZREMRANGEBYSCORE", chance.choice(KEYS), *bounds(chance)), INTEGER


def one_score(chance):
    return (b"ZSCORE", chance.choice(KEYS), member(chance)), BULK


def card(chance):
    return (in_some_case(chance, b"ZCARD"), chance.choice(KEYS)), INTEGER


def count(chance):
    return (b"ZCOUNT", chance.choice(KEYS), *bounds(chance)), INTEGER


def listing(chance):
    options = chance.choice(((), (b"WITHSCORES",), (b"limit", b"1", b"2"), (b"LIMIT", b"-1", b"5"), (b"LIMIT", b"0", b"-1")))
    return (b"ZRANGEBYSCORE", chance.choice(KEYS), *bounds(chance), *options), (ARRAY,)


def ping(chance):
    return (in_some_case(chance, b"PING"),), (b"+PONG\r\n",)


# Requests that are refused, or bear any bytes, and leave the stream in order

def echo(chance):
    text = chance.randbytes(chance.choice((0, 1, 30, 300, chance.randrange(3_000))))
    if chance.random() < 0.002:
        text = chance.randbytes(chance.randrange(3_000, 65_537))
    return (b"PING", text), (b"$%d\r\n%s\r\n" % (len(text), text),)


def any_key(chance):
    key = chance.randbytes(chance.randrange(40))
    if chance.random() < 0.3:
        return (b"ZADD", key, *pairs(chance)), INTEGER + refused(11)
    return (chance.choice((b"ZCARD", b"zcard")), key), INTEGER


def wrong_count(chance):
    name = chance.choice(NAMES)
    most = chance.choice(WRONG_COUNTS[name])
    most = most if most < 10 or chance.random() < 0.02 else max(it for it in WRONG_COUNTS[name] if it < 10)
    return (in_some_case(chance, name), *(score(chance) for _ in range(most - 1))), refused(3)


def unknown_name(chance):
    kind = chance.randrange(3)
    name = chance.choice(NAMES)
    at = chance.randrange(len(name))
    if kind == 0:
        name = chance.randbytes(chance.randrange(40))
    elif kind == 1:
        name = name[:at] + bytes((chance.randrange(256),)) + name[at + 1 :]
    else:
        name = chance.choice((name[:at], name + b"\x00", name + name, b" " + name, b"MULTI", b"CONFIG", b"ZRANGE", b"ZINCRBY"))
    known = name.upper() in NAMES and name.isascii()
    return (b"QUIT" if known else name, *(score(chance) for _ in range(chance.randrange(4)))), refused(2)


def bad_score(chance):
    words = pairs(chance)
    wrong = chance.choice(NO_SCORES) if chance.random() < 0.7 else chance.randbytes(chance.randrange(30)) + b"\xff"
    words[2 * chance.randrange(len(words) // 2)] = wrong
    return (b"ZADD", chance.choice(KEYS), *chance.choice(LESSER_OPTIONS), *words), refused(8)


def bad_options(chance):
    number, options = chance.choice((
        (5, (b"NX", b"XX")), (5, (b"xx", b"CH", b"GT", b"nx")), (6, (b"GT", b"LT")), (6, (b"NX", b"lt")), (6, (b"gt", b"NX")),
        (4, (b"NX", b"1")), (4, (b"INCR", b"CH", b"2")), (7, (b"INCR", b"3", b"m1")), (8, (b"NY", b"m1"))))
    return (b"ZADD", chance.choice(KEYS), *options, *pairs(chance)), refused(number)


def bad_range(chance):
    name = chance.choice((b"ZCOUNT", b"ZREMRANGEBYSCORE", b"ZRANGEBYSCORE"))
    words = [*bounds(chance)]
    words[chance.randrange(2)] = chance.choice(NO_BOUNDS) if chance.random() < 0.8 else chance.randbytes(9) + b"\xff"
    return (name, chance.choice(KEYS), *words), refused(9)


def bad_listing(chance):
    if chance.random() < 0.5:
        return (b"ZRANGEBYSCORE", chance.choice(KEYS), *bounds(chance), *chance.choice(NO_OPTIONS)), refused(4)
    limit = [b"LIMIT", b"1", b"2"]
    limit[chance.randrange(1, 3)] = chance.choice(NO_INTEGERS)
    return (b"zrangebyscore", chance.choice(KEYS), *bounds(chance), *limit), refused(10)


RIGHT = (add, increase, remove, remove_range, one_score, card, count, listing, ping)
WRONG = (echo, any_key, wrong_count, unknown_name, bad_score, bad_options, bad_range, bad_listing)
# three of five are wrong
KINDS = RIGHT + WRONG
WEIGHTS = [40 / len(RIGHT)] * len(RIGHT) + [60 / len(WRONG)] * len(WRONG)


def block(chance, length):
    """Requests in a row: the bytes of each, and how its reply may begin. Before some stand arrays that are skipped."""
    made = []
    for kind in chance.choices(KINDS, WEIGHTS, k=length):
        words, begins = kind(chance)
        data = request(*words)
        if chance.random() < 0.02:
            data = chance.choice((b"*0\r\n", b"*-1\r\n")) * chance.randrange(1, 4) + data
        made.append((data, begins))
    return made


CLEAN, TORN, FAULTY, FLIPPED = "clean", "torn", "faulty", "flipped"


def last_bytes(chance):
    """How a connection ends: the bytes behind its last request, what they are, and how each reply to them may begin."""
    kind = chance.choice((CLEAN, TORN, FAULTY, FLIPPED))
    data = bytearray(request(*chance.choice((add, listing, remove))(chance)[0]))
    if kind == TORN:
        return bytes(data[: chance.randrange(1, len(data))]), kind, []
    if kind == FAULTY:
        wrong, number = chance.choice(FAULTS)
        return wrong + bytes(data) * chance.randrange(2), kind, [(b"-ERR protocol %d " % number,)]
    if kind == FLIPPED:
        # a request still, or a shorter one with bytes behind it that are none
        data[chance.randrange(len(data))] = chance.randrange(256)
        return bytes(data), kind, [INTEGER + (ARRAY, b"-ERR "), (b"-ERR protocol ",)]
    return b"", kind, []
