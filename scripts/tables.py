"""A part of serve_test: the table of sets that workers share: worked examples, places, totals, the greatest table, and clients
at once on the same keys and on keys of their own."""
import threading

from harness import run, same, test, write
from many_clients import PONG, connected
from options import threads
from tcp import HEADER, Server, flat, request, totals

FULL = "-ERR 11 no place left for a key~"
OUT_OF_RANGE = "-ERR 13 score out of range~"

# Each request by its words, which single blanks part, and its reply, with `~` for the end of a line.
EXAMPLES = {
    "a member that is named twice is added once and then changed": [
        ("ZADD k CH 1 a 2 a", ":2~"),
        ("ZCARD k", ":1~"),
        ("ZSCORE k a", "$1~2~"),
    ],
    "a member that is named twice is told once without CH": [
        ("ZADD k 1 a 2 a", ":1~"),
    ],
    "a sum outside the scores is refused and leaves the set": [
        ("ZADD k 1 a", ":1~"),
        ("ZADD k INCR 9223372036854775807 a", OUT_OF_RANGE),
        ("ZSCORE k a", "$1~1~"),
        ("ZADD k NX INCR 9223372036854775807 a", "$-1~"),
        ("ZADD k XX INCR 5 b", "$-1~"),
        ("ZADD k INCR 1.0 a", "$1~2~"),
        ("ZADD k XX CH 7 a 8 b", ":1~"),
    ],
    "the first reading of a range readies the set, the second finds it ready": [
        ("ZADD k 1 a 2 b 3 c", ":3~"),
        ("ZRANGEBYSCORE k 2 +inf", "*2~$1~b~$1~c~"),
        ("ZRANGEBYSCORE k 2 +inf", "*2~$1~b~$1~c~"),
        ("ZREM k b x", ":1~"),
        ("ZRANGEBYSCORE k -inf +inf WITHSCORES", "*4~$1~a~$1~1~$1~c~$1~3~"),
        ("ZCOUNT k (1 3", ":1~"),
    ],
    "a range is removed, and what it leaves is read": [
        ("ZADD k 1 a 2 b 3 c", ":3~"),
        ("ZREMRANGEBYSCORE k (1 2", ":1~"),
        ("ZREMRANGEBYSCORE k (1 2", ":0~"),
        ("ZRANGEBYSCORE k -inf +inf", "*2~$1~a~$1~c~"),
        ("ZREMRANGEBYSCORE k -inf +inf", ":2~"),
        ("ZCARD k", ":0~"),
        ("ZREMRANGEBYSCORE j 1 2", ":0~"),
    ],
    "commands that make no set get the reply of an empty one, and PING its own": [
        ("PING", "+PONG~"),
        ("PING hi", "$2~hi~"),
        ("ZCARD k", ":0~"),
        ("ZADD k XX 1 a", ":0~"),
        ("ZRANGEBYSCORE k 0 1", "*0~"),
        ("ZREM k a", ":0~"),
        ("ZSCORE k a", "$-1~"),
    ],
    "windows are listed by LIMIT": [
        ("ZADD k 1 a 2 b 3 c 4 d", ":4~"),
        ("ZRANGEBYSCORE k -inf +inf LIMIT 1 2", "*2~$1~b~$1~c~"),
        ("ZRANGEBYSCORE k -inf +inf LIMIT 1 2", "*2~$1~b~$1~c~"),
        ("ZRANGEBYSCORE k 2 +inf LIMIT 0 1", "*1~$1~b~"),
        ("ZRANGEBYSCORE k 2 +inf WITHSCORES LIMIT 2 -1", "*2~$1~d~$1~4~"),
        ("ZRANGEBYSCORE k -inf (4 LIMIT 3 1", "*0~"),
        ("ZRANGEBYSCORE k -inf +inf LIMIT -1 2", "*0~"),
        ("ZRANGEBYSCORE j -inf +inf LIMIT 0 2", "*0~"),
    ],
}


class Day:
    """A server on a file: its places, the changes in its file, what clients of two workers ask one after the other, with the
    replies, and the totals behind the number of connections, where they are wanted."""

    def __init__(self, *first, second=(), places=4, opened=(), totals=None):
        self.first, self.second, self.places, self.opened, self.totals = first, second, places, opened, totals


# The walk of a key through the places begins where its hash says. Those of `a` and `c` begin at one place of two, those of
# `Aa`, `BB` and `C#` at one of four.
PLACES = {
    "a and c take both places, and b finds none left": Day(
        ("ZADD a 1 x", ":1~"),
        ("ZADD c 1 x", ":1~"),
        ("ZADD a 1 x", ":0~"),
        ("ZCARD b", ":0~"),
        ("ZADD b 1 x", FULL),
        ("ZADD b XX 1 x", ":0~"),
        ("ZCARD b", ":0~"),
        second=[("ZSCORE a x", "$1~1~")],
        places=2,
    ),
    "three keys of one hash and a fourth are told apart, whose places they keep": Day(
        *[it for key in ("Aa", "BB", "C#", "a") for it in ((f"ZADD {key} 1 x", ":1~"), (f"ZREM {key} x", ":1~"))],
        ("ZADD b 1 x", FULL),
        ("ZCARD b", ":0~"),
        ("ZADD BB 1 x", ":1~"),
        ("ZCARD Aa", ":0~"),
        ("ZCARD C#", ":0~"),
    ),
    "two sets of one hash are opened": Day(
        ("ZSCORE Aa x", "$1~1~"), ("ZSCORE BB x", "$-1~"), ("ZSCORE BB y", "$1~1~"), opened=["ZADD Aa 1 x", "ZADD BB 1 y"]
    ),
    "whichever came first": Day(
        ("ZSCORE Aa x", "$1~1~"), ("ZSCORE BB x", "$-1~"), ("ZSCORE BB y", "$1~1~"), opened=["ZADD BB 1 y", "ZADD Aa 1 x"]
    ),
    "each set is opened at its own key's place": Day(
        ("ZSCORE a x", "$1~1~"), ("ZSCORE b y", "$1~2~"), opened=["ZADD a 1 x", "ZADD b 2 y"]
    ),
}

# Two sets at opening, of which one is emptied, and a third.
A_DAY = Day(
    ("ZADD a 1 x 2 z", ":1~"),
    ("ZADD c 1 m 2 n", ":2~"),
    second=[("ZREM b y", ":1~"), ("ZADD a 2 z", ":0~"), ("ZCARD d", ":0~")],
    opened=["ZADD a 1 x", "ZADD b 2 y"],
    totals=(2, 4, 3, 1, 3),
)


def bytes_of(text):
    return text.encode().replace(b"~", b"\r\n")


def asked(*texts):
    return b"".join(request(*text.split(" ")) for text in texts)


def all_pinged(clients):
    """Each client is answered, so that each of as many workers has one."""
    same([client.ask("PING") for client in clients], [PONG] * len(clients))


def judge(name, day, ask):
    """Both clients are told what is wanted, and the server ends with its totals; `ask(client, words)` gives replies."""
    write("kept", HEADER + asked(*day.opened))
    with Server("--places", day.places, "--workers", 2, "--connections", 2, "--file", "kept") as server:
        clients = server.connect(), server.connect()
        all_pinged(clients)
        for client, rows in zip(clients, (day.first, day.second)):
            same((name, ask(client, [words for words, _ in rows])), (name, [bytes_of(reply) for _, reply in rows]))
        same([client.finish() for client in clients], [b""] * 2)
        status, told, lines = server.ends()
        same((name, status, lines), (name, 0, b""))
        if day.totals:
            same((name, told), (name, totals(2, *day.totals)))


def in_turn(client, texts):
    return [flat(client.ask(*words.split(" "))) for words in texts]


def in_one_piece(client, texts):
    client.send(asked(*texts))
    return [flat(client.reply()) for _ in texts]


@test
def examples_are_answered():
    for name, rows in EXAMPLES.items():
        for ask in (in_turn, in_one_piece):
            judge(name, Day(*rows), ask)
            # The second worker meets a table of which the first asked nothing.
            judge(name, Day(second=rows), ask)


@test
def keys_find_their_places():
    for name, day in PLACES.items():
        for ask in (in_turn, in_one_piece):
            judge(name, day, ask)


@test
def totals_of_a_day():
    for ask in (in_turn, in_one_piece):
        judge("a day", A_DAY, ask)


@test
def the_greatest_table_opens():
    write("kept", HEADER + asked("ZADD a 1 x", "ZADD b 1 x"))
    with Server("--places", 4_096, "--workers", 64, "--connections", 65, "--file", "kept") as server:
        same(threads(server), 1 + 64)
        with connected(server, 64) as clients:
            all_pinged(clients)
            for client in clients:
                same(in_turn(client, ["ZSCORE a x", "ZSCORE b x"]), [b"$1\r\n1\r\n"] * 2)
        same(server.ends(), (0, totals(65, 2, 2, 0, 0, 0), b""))


# Clients at once

def told_at_once(clients, inputs, count):
    """What each client is told of so many requests of its own, where all ask at the same time."""
    told, begin = [None] * len(inputs), threading.Barrier(len(inputs))

    def one(at):
        begin.wait()
        sender = threading.Thread(target=clients[at].send, args=(inputs[at],))
        sender.start()
        told[at] = [flat(clients[at].reply()) for _ in range(count)]
        sender.join()

    asking = [threading.Thread(target=one, args=(at,)) for at in range(len(inputs))]
    for thread in asking:
        thread.start()
    for thread in asking:
        thread.join()
    return told


def two_clients_claim(rounds):
    """One client adds to `a0` and then to `c0`, the other to `c0` and then to `a0`; and so on with further keys, as many as there
    are places. Each key has one place, so that another one finds none left, and both find both members."""
    def additions(member, *letters):
        return asked(*[f"ZADD {letter}{at} 1 {member}" for at in range(rounds) for letter in letters])

    with Server("--places", 2 * rounds, "--workers", 2, "--connections", 2) as server:
        clients = server.connect(), server.connect()
        all_pinged(clients)
        told = told_at_once(clients, [additions("x", "a", "c"), additions("y", "c", "a")], 2 * rounds)
        same(told, [[b":1\r\n"] * 2 * rounds] * 2)
        for client in clients:
            same(in_turn(client, ["ZADD b 1 x", "ZCARD b"]), [bytes_of(FULL), b":0\r\n"])
            cards = in_one_piece(client, [f"ZCARD {letter}{at}" for at in range(rounds) for letter in "ac"])
            same(cards, [b":2\r\n"] * 2 * rounds)
            same(client.finish(), b"")
        same(server.ends(), (0, totals(2, 2 * rounds, 4 * rounds, 4 * rounds, 0, 4 * rounds), b""))


@test
def two_clients_at_once_claim_two_keys():
    for _ in range(20):
        two_clients_claim(1)


@test
def two_clients_at_once_claim_all_places():
    two_clients_claim(2_048)


@test
def two_clients_at_once_add_to_one_key():
    inputs = [asked(*[f"ZADD k {it} m{it}" for it in range(first, first + 1_000)]) for first in (0, 500)]
    with Server("--connections", 3, "--workers", 2, "--file", "kept") as server:
        clients = server.connect(), server.connect()
        all_pinged(clients)
        replies = sum(told_at_once(clients, inputs, 1_000), [])
        same((replies.count(b":1\r\n"), replies.count(b":0\r\n")), (1_500, 500))
        for client in (*clients, server.connect()):
            same(in_turn(client, ["ZSCORE k m750", "ZCARD k"]), [b"$3\r\n750\r\n", b":1500\r\n"])
            same(client.finish(), b"")
        same(server.ends(), (0, totals(3, 1, 1_500, 1_500, 0, 1_500), b""))
    with Server("--connections", 1, "--file", "kept") as server:
        client = server.connect()
        same((client.ask("ZSCORE", "k", "m750"), client.finish()), (b"$3\r\n750\r\n", b""))
        same(server.ends(), (0, totals(1, 1, 1_500, 0, 0, 0), b""))


def turns_on(fourth, *keys):
    """A thousand requests on three keys, of which two may be the same: they change and read them in turns, and the fourth is of
    this kind."""
    turns = ["ZADD {0} {1} {2}", "ZREM {0} {2}", "ZRANGEBYSCORE {0} -inf {1} WITHSCORES", fourth]
    return asked(*[turns[it % 4].format(keys[it % 3], it * 37 % 101, f"m{it % 7}") for it in range(1_000)])


@test
def clients_at_once_with_keys_of_their_own_are_answered_as_alone():
    # A worker that answered from another set than the key's, as great as that, would be told here.
    for fourth, *of_both in (("ZREMRANGEBYSCORE {0} {1} 60", "abb", "cdd"), ("ZSCORE {0} {2}", "abc", "def")):
        inputs = [turns_on(fourth, *keys) for keys in of_both]
        alone = [run("stdio", given=it)[1] for it in inputs]
        with Server("--places", 8, "--workers", 2, "--connections", 2) as server:
            clients = server.connect(), server.connect()
            all_pinged(clients)
            same([b"".join(told) for told in told_at_once(clients, inputs, 1_000)] == alone, True)
            same([client.finish() for client in clients], [b""] * 2)
            same(server.ends()[0], 0)
