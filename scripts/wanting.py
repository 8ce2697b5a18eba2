"""Runs of the program with one allocation refused, and what they may answer.

Where memory is ample the answers are those of `Sets`. Where one allocation was refused, one request may be answered
`out of memory` and changes nothing then; a removal may not, since memory is kept back for it; or the session ends, and the
request that was not answered was run or not. So there are several sets that may stand, and each answer leaves fewer.
"""
import math
import os
import tempfile
from concurrent.futures import ThreadPoolExecutor
from copy import deepcopy

from harness import AT_ONCE, read, refusing
from tcp import HEADER, flat, request

NO_MEMORY = b"-ERR 1 out of memory\r\n"
NO_PLACE = b"-ERR 11 no place left for a key\r\n"
EVERYTHING = ("-inf", "+inf", "WITHSCORES")
MOST_CALLS = 5_000


def bulk(word):
    return b"$%d\r\n%s\r\n" % (len(str(word)), str(word).encode())


def record(words, old, new):
    """What a change of a set is kept as: the members that it moved, each once, in the order in which it names them."""
    names = words[3::2] if words[0] == "ZADD" else words[2:]
    moved = [name for name in dict.fromkeys(names) if old.get(name) != new.get(name)]
    if words[0] == "ZREMRANGEBYSCORE":
        return request(*words)
    return request(*words[:2], *[word for name in moved for word in ([new[name], name] if name in new else [name])])


class Sets:
    """Sets by their keys, and what the changes came to since the start: the numbers of the totals line, and the records."""

    def __init__(self, places=math.inf):
        self.places, self.sets, self.refused = places, {}, 0
        self.restart()

    def restart(self):
        self.added, self.removed, self.log = 0, 0, []

    def ask(self, *words):
        """The reply to a request where memory is ample."""
        kind = {"ZADD": self.add, "ZREM": self.remove, "ZREMRANGEBYSCORE": self.remove_range, "ZCARD": self.card,
                "ZRANGEBYSCORE": self.listing, "PING": lambda: b"+PONG\r\n"}
        before = deepcopy(self.sets)
        reply = kind[words[0]](*words[1:])
        if {key: it for key, it in before.items() if it} != {key: it for key, it in self.sets.items() if it}:
            self.log.append(record(words, before.get(words[1], {}), self.sets[words[1]]))
        return reply

    def add(self, key, *pairs):
        if key not in self.sets and len(self.sets) == self.places:
            return NO_PLACE
        members = self.sets.setdefault(key, {})
        before = len(members)
        members.update(zip(pairs[1::2], pairs[::2]))
        self.added += len(members) - before
        return b":%d\r\n" % (len(members) - before)

    def drop(self, key, leaving):
        members = self.sets.get(key, {})
        gone = [it for it in members if leaving(it, members[it])]
        for it in gone:
            del members[it]
        self.removed += len(gone)
        return b":%d\r\n" % len(gone)

    def remove(self, key, *names):
        return self.drop(key, lambda name, _: name in names)

    def remove_range(self, key, least, most):
        return self.drop(key, lambda _, score: least <= score <= most)

    def card(self, key):
        return b":%d\r\n" % len(self.sets.get(key, {}))

    def listing(self, key, *_everything):
        pairs = sorted((score, name) for name, score in self.sets.get(key, {}).items())
        return b"*%d\r\n" % (2 * len(pairs)) + b"".join(bulk(name) + bulk(score) for score, name in pairs)

    def numbers(self):
        """Those of the totals line, behind the number of connections."""
        members = [len(it) for it in self.sets.values() if it]
        return len(members), sum(members), self.added, self.removed, len(self.log)


def is_removal(words):
    return words[0].startswith("ZREM")


def after(worlds, words, reply):
    """Which sets may stand once a request got this reply, None where the session ended before it did."""
    left = []
    for world in worlds:
        done = deepcopy(world)
        wanted = done.ask(*words)
        if reply is None or flat(reply) == wanted:
            left.append(done)
        if reply is None:
            left.append(world)
        elif reply == NO_MEMORY and not is_removal(words) and not world.refused:
            world.refused += 1
            left.append(world)
    return left


def follow(worlds, asked):
    """The same for requests in turn, each with its reply. An AssertionError where no sets explain the replies."""
    for place, (words, reply) in enumerate(asked):
        worlds = after(worlds, words, reply)
        if not worlds:
            raise AssertionError(f"{words} may not be answered {reply!r} behind {asked[:place]}")
    return worlds


def run_on(worlds, asked):
    """Which sets may stand where the first of these requests were run unanswered, however many."""
    left = [*worlds]
    for words in asked:
        worlds = deepcopy(worlds)
        for world in worlds:
            world.ask(*words)
        left += worlds
    return left


def kept_in(path):
    """The bytes of an append file that may not have been made, or be without its header yet: it has no records then."""
    return (read(path) if os.path.exists(path) else b"") or HEADER


def refused_once(kind, attempt, number):
    """What a run gave with the call of this kind and number refused, and whether it came to it."""
    room = tempfile.mkdtemp(prefix="refused-", dir=".")
    mark = os.path.abspath(f"{room}/mark")
    env = {"LD_PRELOAD": refusing(), kind: str(number), "REFUSED_MARK": mark}
    try:
        return attempt(os.path.abspath(room), env), os.path.exists(mark)
    except Exception as error:
        raise AssertionError(f"{kind} {number}: {type(error).__name__}: {error}") from error


def each_refused(kind, attempt):
    """Makes a run with the first call of a kind refused, which is a variable of refusing.c's, then the second, and so on until
    one meets no refusal, each by `attempt(room, env)` in a folder of its own. Gives what they gave, and last what the run
    without a refusal gave."""
    refusing()
    given = []
    with ThreadPoolExecutor(AT_ONCE) as pool:
        for first in range(1, MOST_CALLS, AT_ONCE):
            numbers = range(first, first + AT_ONCE)
            for result, is_marked in pool.map(lambda number: refused_once(kind, attempt, number), numbers):
                given.append(result)
                if not is_marked:
                    return given
    raise AssertionError(f"there are more than {MOST_CALLS} calls of {kind}")


def each_refused_allocation(what, attempt):
    """The same of each allocation, and tells how many there were."""
    given = each_refused("REFUSED_ALLOCATION", attempt)
    print(f"each refused allocation of {what}: {len(given) - 1} points", flush=True)
    return given
