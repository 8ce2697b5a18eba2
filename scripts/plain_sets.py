"""A part of program_test: long talks beside a plain set. What the plain set replies, a session and a server reply, however
their set is cracked by what was asked before.

Each listing is asked twice in turn. A server cracks its set for the first one, and answers the second from the set as it
stands.
"""
import io
import threading

from harness import run, same, test
from tcp import Server, flat, read_reply, request

OPTIONS = ("NX", "XX", "GT", "LT", "CH", "INCR")


def bound(text, step):
    """The first score that a bound lets in where the step is 1, or the last one where it is -1."""
    number = text.removeprefix("(")
    score = float(number) if number.lower().endswith("inf") else int(number)
    return score + step if text.startswith("(") else score


def bulk(word):
    return b"$%d\r\n%s\r\n" % (len(str(word)), str(word).encode())


def count_of(number):
    return b":%d\r\n" % number


class Plain:
    """A set as docs/COMMANDS.md has it: the scores of its members, and what it replies to a command."""

    def __init__(self):
        self.scores = {}

    def ask(self, name, _key, *words):
        kind = {"ZADD": self.add, "ZREM": self.remove, "ZREMRANGEBYSCORE": self.remove_range, "ZCARD": self.card,
                "ZCOUNT": self.count, "ZRANGEBYSCORE": self.listing}
        return kind[name](*words)

    def gives(self, options, member, score):
        """Gives a member a score, where the options let it; whether that adds it or changes its score."""
        old = self.scores.get(member)
        if old is None:
            is_barred = "XX" in options
        else:
            is_barred = "NX" in options or ("GT" in options and score <= old) or ("LT" in options and score >= old)
        if not is_barred:
            self.scores[member] = score
        return not is_barred and score != old

    def add(self, *words):
        first = next(place for place, word in enumerate(words) if word not in OPTIONS)
        options, pairs = words[:first], list(zip(words[first + 1 :: 2], map(int, words[first::2])))
        if "INCR" in options:
            # No option comes beside it here, which could bar the sum.
            ((member, more),) = pairs
            self.scores[member] = self.scores.get(member, 0) + more
            return bulk(self.scores[member])
        before = len(self.scores)
        changed = sum(self.gives(options, *pair) for pair in pairs)
        return count_of(changed if "CH" in options else len(self.scores) - before)

    def remove(self, *members):
        return count_of(sum(self.scores.pop(it, None) is not None for it in members))

    def within(self, low, high):
        """The pairs with scores between two bounds, in their order."""
        least, most = bound(low, 1), bound(high, -1)
        return sorted((score, member) for member, score in self.scores.items() if least <= score <= most)

    def remove_range(self, low, high):
        return self.remove(*(member for _, member in self.within(low, high)))

    def card(self):
        return count_of(len(self.scores))

    def count(self, low, high):
        return count_of(len(self.within(low, high)))

    def listing(self, low, high, *options):
        pairs = self.within(low, high)
        if "LIMIT" in options:
            place = options.index("LIMIT")
            offset, count = map(int, options[place + 1 : place + 3])
            pairs = pairs[offset:] if offset >= 0 else []
            pairs = pairs[:count] if count >= 0 else pairs
        words = [it for score, member in pairs for it in ([member, score] if "WITHSCORES" in options else [member])]
        return b"*%d\r\n" % len(words) + b"".join(map(bulk, words))


def replies_from(file, asked):
    """The replies to requests in turn are these."""
    for place, (text, wanted) in enumerate(asked):
        same((place, text, flat(read_reply(file))), (place, text, wanted))


def agree(texts):
    """A session and a server reply to these commands as a plain set does."""
    plain = Plain()
    asked = [(text, plain.ask(*text.split())) for text in texts]
    given = b"".join(request(*text.split()) for text, _ in asked)
    status, out, lines = run("stdio", given=given)
    same((status, lines), (0, b""))
    replies = io.BytesIO(out)
    replies_from(replies, asked)
    same(replies.read(), b"")
    with Server("--workers", 1) as server:
        client = server.connect()
        sender = threading.Thread(target=lambda: client.send(given))
        sender.start()
        replies_from(client.file, asked)
        sender.join()
        same(client.finish(), b"")


def following(number):
    """The next of a row of numbers below 2^31, by the generator of Park and Miller."""
    return number * 48_271 % 2_147_483_647


def listing(low, high, with_scores=False, limit=None):
    """A listing of the scores above `low` and up to `high`."""
    text = f"ZRANGEBYSCORE k ({low} {high}" + (" WITHSCORES" if with_scores else "")
    return text if limit is None else text + " LIMIT {} {}".format(*limit)


def random_change(number, members, scores):
    """A change, by a number, of a set with so many members and scores."""
    member, score = number // 8 % members, number // 128 % scores
    option, other = ("CH", "GT", "LT")[number // 512 % 3], number // 4_096 % members
    return (
        f"ZREM k m{member}",
        f"ZADD k INCR 7 m{member}",
        f"ZADD k XX {score} m{member}",
        f"ZREMRANGEBYSCORE k ({score} {score + 2}",
        f"ZADD k {option} {score} m{member} 3 m{other}",
    )[number % 5]


def random_range(number):
    low = number // 65_536 % 24
    return low, low + 6


def random_listing(number):
    limit = None if number % 2 == 0 else (number // 64 % 9 - 1, number // 1_024 % 9 - 1)
    return listing(*random_range(number), with_scores=number % 3 == 0, limit=limit)


def big_window(number, members):
    """A window of a big set, by a number: the lowest ranks, or some in the middle or behind the last."""
    offset = 0 if number % 2 == 0 else number // 2 % members
    return listing(-1, 1_000_000_000, with_scores=number % 3 == 0, limit=(offset, 10))


def additions(members, scores):
    """Adds so many members with so many scores, one by one."""
    return [f"ZADD k {following(member + 1) % scores} m{member}" for member in range(members)]


@test
def windows_of_twenty_members_are_those_of_a_plain_set():
    """The windows of each offset and count from -2 to 22, however the set is cracked."""
    texts = [f"ZADD k {member * 7 % 10} m{member}" for member in range(20)]
    for crack in ("ZCARD k", "ZCOUNT k 2 4", "ZCOUNT k (6 8"):
        texts.append(crack)
        for offset in range(-2, 23):
            texts += [listing(-1, 9, limit=(offset, count)) for count in range(-2, 23) for _ in range(2)]
    same(len(texts), 20 + 3 * (1 + 2 * 25 * 25))
    agree(texts)


@test
def random_commands_on_few_members_are_answered_as_by_a_plain_set():
    """Twelve members with twenty scores: four times three thousand changes, each with a listing and a count behind it."""
    for first in range(1, 5):
        texts, number = [], first
        for _ in range(3_000):
            number = following(number)
            texts.append(random_change(number, 12, 20))
            number = following(number)
            texts += [random_listing(number)] * 2
            number = following(number)
            texts.append("ZCOUNT k ({} {}".format(*random_range(number)))
        agree(texts)


@test
def windows_of_big_sets_are_those_of_plain_sets():
    """Twelve thousand members with few scores and with many, and a window after each of sixty changes."""
    for scores in (3, 1_000_000):
        texts, number = additions(12_000, scores), 1
        for _ in range(60):
            number = following(number)
            texts.append(random_change(number, 12_000, scores))
            number = following(number)
            texts += [big_window(number, 12_000)] * 2
        agree(texts)


@test
def windows_of_one_score_are_those_of_a_plain_set():
    """A thousand members, and offsets and counts near the pivots of their set and between them."""
    limits = [(0, 1), (0, 10), (7, 3), (0, 125), (124, 1), (0, 126), (500, 10), (995, 10)]
    agree(additions(1_000, 1) + [listing(-1, 0, with_scores=True, limit=it) for it in limits for _ in range(2)])
