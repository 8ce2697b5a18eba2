"""Servers that are ended by signals under clients that change sets."""
import itertools
import os
import random
import signal
import threading
import time

from harness import same, test
from tcp import Server, request
from wanting import EVERYTHING

WORKERS = 4
KILLS = 50
CLIENTS = 4
# A kill under many clients takes longer.
FEW_KILLS = 5
MANY_CLIENTS = 200
SHARED = 3
# A file is begun anew after so many rounds, so that a late one takes no longer than an early one.
ROUNDS_OF_A_FILE = 10
MODES = itertools.cycle(("each", "group"))


def changes(chance, members, first):
    """Changes of a set in turn, each of which leaves another set: by the words behind the key, and the set after it."""
    score = first
    while True:
        score += 1
        kind = chance.randrange(8)
        if kind < 5 or not members:
            member = f"m{chance.randrange(200)}" + "." * chance.choice((0, 0, 0, 3_000))
            words = ["ZADD", "{key}", score, member]
            members = {**members, member: score}
        elif kind < 7:
            member = chance.choice(sorted(members))
            words = ["ZREM", "{key}", member]
            members = {it: at for it, at in members.items() if it != member}
        else:
            least = min(members.values())
            words = ["ZREMRANGEBYSCORE", "{key}", least, least]
            members = {it: at for it, at in members.items() if at != least}
        yield words, members


class Changer(threading.Thread):
    """A client that changes sets in a thread of its own until the server is gone."""

    def __init__(self, server):
        super().__init__(daemon=True)
        self.server, self.client = server, server.connect()
        self.begin, self.failure = None, None

    def run(self):
        # to start many threads takes long where the first ones are at work
        self.begin.wait()
        try:
            self.change()
        except ConnectionError as error:
            # a server that ends no client by itself is gone only once it got its signal
            if not self.server.is_ending:
                self.failure = error
        except Exception as error:
            self.failure = error
        finally:
            self.client.close()

    def finish(self):
        """Waits until it has found the server gone; what it found wrong is raised here."""
        self.join()
        if self.failure:
            raise AssertionError(f"a client found: {self.failure!r}") from self.failure


class Owner(Changer):
    """Changes a key of its own, one change under way at a time."""

    def __init__(self, server, key, members, seed):
        super().__init__(server)
        self.key = key
        self.acknowledged = members
        self.under_way = members
        self.count = 0
        self.changes = changes(random.Random(seed), members, max(members.values(), default=0))

    def change(self):
        for words, members in self.changes:
            self.under_way = members
            reply = self.client.ask(*[self.key if word == "{key}" else word for word in words])
            same(reply[:1], b":")
            self.acknowledged = members
            self.count += 1


class Adder(Changer):
    """Adds members to keys that all share, many changes under way."""

    def __init__(self, server, number, round_number):
        super().__init__(server)
        self.names = (f"{round_number}:{number}:{it}" for it in range(1 << 30))
        self.sent, self.acknowledged = set(), set()

    def change(self):
        while True:
            names = [next(self.names) for _ in range(16)]
            words = [(f"shared:{len(name) % SHARED}", name) for name in names]
            self.sent.update(words)
            self.client.send(b"".join(request("ZADD", key, 1, name) for key, name in words))
            for it in words:
                same(self.client.reply(), b":1\r\n")
                self.acknowledged.add(it)


def listed(client, key):
    elements = [it.split(b"\r\n", 1)[1][:-2] for it in client.ask("ZRANGEBYSCORE", key, *EVERYTHING)]
    return {member.decode(): int(score) for member, score in zip(elements[::2], elements[1::2])}


def kept_by(keys):
    """What a server that is started on the file has under these keys; it may tell of a torn end, and no more."""
    with Server("--connections", 1, "--file", "kept") as server:
        client = server.connect()
        found = [listed(client, it) for it in keys]
        client.close()
        status, _, lines = server.ends()
        same((status, lines == b"" or lines.startswith(b"zcrackd: torn end of ")), (0, True))
    return found


def run_and_end(make, number, seconds):
    """A server is ended by a signal after so many seconds, while each of the clients that `make` makes of it goes on. Every
    second server syncs many changes together."""
    with Server("--workers", WORKERS, "--file", "kept", "--sync", next(MODES)) as server:
        clients = make(server)
        begin = threading.Event()
        for client in clients:
            client.begin = begin
            client.start()
        begin.set()
        time.sleep(seconds)
        server.end_by(number)
        for client in clients:
            client.finish()
    return clients


def rounds_on_own_keys(signals, seed, clients=CLIENTS):
    """A server is ended by each of the signals in turn while each of its clients changes a key of its own."""
    keys = [f"own:{it}" for it in range(clients)]
    sets = [{} for _ in keys]
    chance = random.Random(seed)
    told = 0
    for number in signals:
        make = lambda server: [Owner(server, key, at, chance.random()) for key, at in zip(keys, sets)]
        owners = run_and_end(make, number, chance.uniform(0.001, 0.15))
        sets = kept_by(keys)
        for owner, found in zip(owners, sets):
            told += owner.count
            same(found in (owner.acknowledged, owner.under_way), True)
    same(told > len(signals), True)
    return told


def rounds_on_shared_keys(signals, seed, clients=CLIENTS):
    """The same while the clients add members to keys that all share: each that was answered is there, and none else but
    those that were sent."""
    keys = [f"shared:{it}" for it in range(SHARED)]
    chance = random.Random(seed)
    told = 0
    for round_number, number in enumerate(signals):
        if round_number % ROUNDS_OF_A_FILE == 0:
            acknowledged, sent = set(), set()
            if round_number > 0:
                os.remove("kept")
        make = lambda server: [Adder(server, it, round_number) for it in range(clients)]
        for adder in run_and_end(make, number, chance.uniform(0.01, 0.15)):
            acknowledged |= adder.acknowledged
            sent |= adder.sent
            told += len(adder.acknowledged)
        found = {(key, member) for key, members in zip(keys, kept_by(keys)) for member in members}
        same((len(acknowledged - found), len(found - sent)), (0, 0))
    same(told > 2 * len(signals), True)
    return told


def fifty_kills(rounds, seed, what):
    told = rounds([signal.SIGKILL] * KILLS, seed)
    print(f"{KILLS} kills under {what}: {told} were acknowledged and kept", flush=True)


@test
def acknowledged_changes_outlive_fifty_kills():
    fifty_kills(rounds_on_own_keys, 1, "changes of own keys")


@test
def members_added_to_shared_keys_outlive_fifty_kills():
    fifty_kills(rounds_on_shared_keys, 3, "additions to shared keys")


@test
def changes_of_many_clients_outlive_kills():
    for rounds, seed in [(rounds_on_own_keys, 5), (rounds_on_shared_keys, 6)]:
        told = rounds([signal.SIGKILL] * FEW_KILLS, seed, MANY_CLIENTS)
        print(f"{FEW_KILLS} kills under {MANY_CLIENTS} clients: {told} were acknowledged and kept", flush=True)
        os.remove("kept")


@test
def other_signals_leave_the_file_as_a_kill_does():
    for rounds, seed in [(rounds_on_own_keys, 2), (rounds_on_shared_keys, 4)]:
        rounds([signal.SIGTERM, signal.SIGINT] * 5, seed)
        os.remove("kept")
