"""Tests of `--sync group` on the built program, from a recording of its calls: many changes share a sync, and no reply leaves
before a sync that began behind each record that it may tell of; and what a failing sync leaves.

They are left out, and a line says so, where strace is not installed or may not trace.
"""
import os
import random
import re
import subprocess
import threading

from harness import SECONDS, read, run, same, test, write
from syncs import RECORDS, REPLIES, WRITES, calls, can_trace, trace, traced, whole_calls
from tcp import HEADER, Server, flat, read_reply, request, totals

GROUP = ("--file", "kept", "--sync", "group")
# So many changes come in one read.
TOGETHER = [request("ZADD", "k", it, f"m{it}") for it in range(64)]
ANSWERED = b":1\r\n" * len(TOGETHER)
# Every byte of a call is written down, with the peers' ports.
WHOLE = f"-yy -s 70000 {WRITES}"
WRITERS, READERS, ROUNDS = 4, 3, 25
BROKEN = b"-ERR 14 append file failed earlier\r\n"
# So many sets are changed in turn. A worker's sync fails: its first, its second and so on, so many times.
SETS, FAILURES = 3, 5


def changes_of_a_session_share_a_sync():
    words = [traced(WRITES), "stdio", *GROUP]
    session = subprocess.run(words, input=b"".join(TOGETHER), capture_output=True, timeout=SECONDS)
    same(session.stdout, ANSWERED)
    same(calls(), ["record"] * len(TOGETHER) + ["sync", "reply"])
    same(read("kept"), HEADER + b"".join(TOGETHER))


def changes_of_a_client_share_a_sync():
    # records are not traced: a few of them would take a part's half a millisecond then
    few = "--seccomp-bpf -e trace=fsync,fdatasync,sendto"
    with Server(*GROUP, "--connections", 1, "--workers", 1, program=traced(few)) as server:
        client = server.connect()
        client.send(b"".join(TOGETHER))
        same(client.finish(), ANSWERED)
        same(server.ends()[0], 0)
    groups = calls().count("reply")
    same((calls(), groups <= len(TOGETHER) // 8), (["sync", "reply"] * groups, True))
    same(read("kept"), HEADER + b"".join(TOGETHER))


class Call:
    """A call of the trace: what it is, when it began and ended as numbers of lines, its descriptor, bytes and result."""

    def __init__(self, begun, ended, text):
        self.begun, self.ended, self.text = begun, ended, text

    def peer(self):
        """The port of the peer whose socket it is, None for another file."""
        port = re.match(r"\w+\(\d+<TCPv?6?:\[[^]]*->[^]]*:(\d+)\]>", self.text)
        return port and int(port[1])

    def data(self):
        """The bytes that it took."""
        quoted = "".join(re.findall(r'"((?:[^"\\]|\\.)*)"', self.text))
        taken = int(self.text.rsplit("= ", 1)[1].split()[0])
        return quoted.encode().decode("unicode_escape").encode("latin-1")[: max(taken, 0)]


def is_on_file(call, *names):
    return call.text.split("(", 1)[0] in names and "/kept>" in call.text


class Clients:
    """Writers with a member each, on so many keys, and readers of all members: what each connection was told, by its port."""

    def __init__(self, server, keys):
        self.server, self.keys, self.told, self.threads = server, keys, {}, []

    def words(self, number):
        """The key and the member of a writer."""
        return f"key{number % self.keys}", f"m{number}"

    def start(self, use, *given):
        client = self.server.connect()
        told = self.told[client.socket.getsockname()[1]] = []
        thread = threading.Thread(target=use, args=(client, told, *given))
        thread.start()
        self.threads.append((thread, client))

    def write(self, client, told, number):
        """Gives a member scores that rise, some of them sent together. A reply tells of the change that it answers."""
        key, member = self.words(number)
        pipelined = 1 + number
        for score in range(1, ROUNDS * pipelined + 1, pipelined):
            scores = range(score, score + pipelined)
            client.send(b"".join(request("ZADD", key, it, member) for it in scores))
            told += [(member, it, read_reply(client.file)) for it in scores]

    def read(self, client, told, chance):
        """Asks for scores. A reply tells of the change that made the score."""
        for _ in range(ROUNDS * 4):
            key, member = self.words(chance.randrange(WRITERS))
            reply = client.ask("ZSCORE", key, member)
            told.append((member, 0 if reply == b"$-1\r\n" else int(reply.split(b"\r\n")[1]), reply))

    def finish(self):
        for thread, client in self.threads:
            thread.join(SECONDS)
            client.close()


def sent_at(found):
    """For each connection the calls that sent its bytes: how many bytes had left behind each, and when it began."""
    sent = {}
    for call in found:
        if call.peer() is not None and call.text.startswith(("sendto(", "write(", "writev(", "sendmsg(")):
            parts = sent.setdefault(call.peer(), [(0, 0)])
            parts.append((parts[-1][0] + len(call.data()), call.begun))
    return sent


def records_at(found):
    """When each record was written, by its member and score."""
    written = {}
    for call in found:
        words = call.data().split(b"\r\n") if is_on_file(call, "write") else []
        if words[2:3] == [b"ZADD"]:
            written[words[8].decode(), int(words[6])] = call.ended
    return written


def no_reply_leaves_before_what_it_tells_of_is_synced(workers, keys):
    chance = random.Random(workers)
    with Server(*GROUP, "--connections", WRITERS + READERS, "--workers", workers, program=traced(WHOLE)) as server:
        clients = Clients(server, keys)
        for number in range(WRITERS):
            clients.start(clients.write, number)
        for number in range(READERS):
            clients.start(clients.read, random.Random(chance.random()))
        clients.finish()
        same(server.ends()[0], 0)
    found = [Call(*it) for it in whole_calls()]
    syncs = [call for call in found if is_on_file(call, "fdatasync", "fsync") and call.text.endswith("= 0")]
    written, sent = records_at(found), sent_at(found)
    told = 0
    for port, replies in clients.told.items():
        left = 0
        for member, score, reply in replies:
            left += len(reply)
            begun = next(begun for count, begun in sent[port] if count >= left)
            if score:
                told += 1
                if not any(written[member, score] < it.begun and it.ended < begun for it in syncs):
                    raise AssertionError(f"a reply left before the record of {member} with {score} was synced")
    same(told >= WRITERS * ROUNDS, True)


def no_reply_of_one_worker_leaves_before_its_sync():
    for keys in (1, WRITERS):
        no_reply_leaves_before_what_it_tells_of_is_synced(1, keys)


def no_reply_of_four_workers_leaves_before_its_sync():
    for keys in (1, WRITERS):
        no_reply_leaves_before_what_it_tells_of_is_synced(4, keys)


def failing(which):
    """A thread's syncs of these numbers fail. The first of the main thread is the opening's."""
    write("kept", HEADER)
    return f"-P kept -e trace=fdatasync -e inject=fdatasync:error=EIO:when={which}"


def a_failing_sync_ends_those_who_wait_for_it():
    # The worker's first sync is that of key j.
    with Server(*GROUP, "--connections", 4, "--workers", 1, program=traced(failing("2+"))) as server:
        settled, changing, reading, later = [server.connect() for _ in range(4)]
        same(settled.ask("ZADD", "j", 1, "a"), b":1\r\n")
        changing.send(request("ZADD", "k", 1, "a"))
        same(changing.file.read(), b"")
        same(settled.ask("ZCARD", "j"), b":1\r\n")
        same(settled.ask("ZADD", "j", 2, "b"), BROKEN)
        reading.send(request("ZCARD", "k"))
        same(reading.file.read(), b"")
        same(later.ask("PING"), b"+PONG\r\n")
        same(settled.ask("ZSCORE", "j", "a"), b"$1\r\n1\r\n")
        for client in (settled, changing, reading, later):
            client.close()
        same(server.ends()[0], 0)


def each_failing_sync_keeps_its_reply_back():
    for which in range(2, 6):
        words = [traced(failing(which)), "stdio", *GROUP]
        with subprocess.Popen(words, stdin=subprocess.PIPE, stdout=subprocess.PIPE, stderr=subprocess.PIPE, bufsize=0) as session:
            replies = b""
            for record, reply in zip(RECORDS, REPLIES):
                try:
                    session.stdin.write(record)
                except BrokenPipeError:
                    break
                got = session.stdout.read(len(reply))
                if not got:
                    break
                replies += got
            session.stdin.close()
            same(replies, b"".join(REPLIES[: which - 2]))
            same(session.wait(SECONDS), 1)
            lines = session.stderr.read()
        same(lines, b"zcrackd: write fault after %d bytes\n" % len(replies))
        # What was answered is in the file, and what was not may be.
        same(read("kept").startswith(HEADER + b"".join(RECORDS[: which - 2])), True)


def change(number):
    """A change by its number: each set gets a member of its own in turn."""
    return request("ZADD", f"key{number % SETS}", number, f"m{number}")


def asked(key):
    """The words that ask for a whole set."""
    return "ZRANGEBYSCORE", f"key{key}", "-inf", "+inf", "WITHSCORES"


def listing(key, count):
    """The reply that lists a set, where so many changes were made."""
    return request(*[word for it in range(key, count, SETS) for word in (f"m{it}", it)])


def answered_until_a_sync_fails(clients, most):
    """Makes changes, a client for each set, until one of so many has no reply, and gives how many had theirs."""
    for number in range(most):
        client = clients[number % SETS]
        client.send(change(number))
        reply = client.file.read(len(b":1\r\n"))
        if not reply:
            return number
        same(reply, b":1\r\n")
    raise AssertionError(f"each of {most} changes was answered")


def only_settled_sets_are_answered(server, clients, answered):
    """Behind a failed sync: who asks or changes its set is ended, other sets are read as before, and nothing is changed."""
    unsettled = answered % SETS
    for words in (asked(unsettled), ("ZADD", f"key{unsettled}", 0, "late")):
        client = server.connect()
        client.send(request(*words))
        same(client.finish(), b"")
    for key in {*range(SETS)} - {unsettled}:
        for _ in range(2):
            same(flat(clients[key].ask(*asked(key))), listing(key, answered))
            same(clients[key].ask("ZADD", f"key{key}", 0, "late"), BROKEN)
    client = server.connect()
    same((client.ask("ZADD", "new", 0, "late"), client.ask("PING")), (BROKEN, b"+PONG\r\n"))
    client.close()


def answered_before_a_failing_sync(workers, which):
    """Gives how many changes a server answered of which a worker's sync of this number fails, and ends it in good order."""
    # A new file is synced under another name, so that only the workers' syncs count. Each thread counts its own.
    watched = f"-P {os.path.abspath('kept')} -e trace=write,fdatasync -e inject=fdatasync:error=EIO:when={which}"
    with Server(*GROUP, "--connections", SETS + 3, "--workers", workers, program=traced(watched)) as server:
        clients = [server.connect() for _ in range(SETS)]
        answered = answered_until_a_sync_fails(clients, workers * which)
        only_settled_sets_are_answered(server, clients, answered)
        for client in clients:
            client.close()
        made = answered + 1
        same(server.ends(), (0, totals(SETS + 3, min(made, SETS), made, made, 0, made), b""))
    return answered


def lists_what_was_answered(path, answered):
    """A file is loaded: it has the changes that were answered, and of others at most the one whose sync failed."""
    sets = range(SETS)
    status, replies, lines = run("stdio", "--file", path, given=b"".join(request(*asked(it)) for it in sets))
    same((status, lines), (0, b""))
    wanted = [b"".join(listing(it, count) for it in sets) for count in (answered, answered + 1)]
    same(replies in wanted, True)


def each_failing_sync_loses_no_answered_change(workers):
    for which in range(1, FAILURES + 1):
        answered = answered_before_a_failing_sync(workers, which)
        # Each change that was answered had a good sync behind its record, and nothing came behind the one that failed.
        same(calls(), ["record", "sync"] * answered + ["record", "failed sync"])
        threads = [line.split()[0] for line in trace() if "fdatasync(" in line]
        same(threads.count(threads[-1]), which)
        # On the disk are the records that were synced, with or without the last one.
        synced = HEADER + b"".join(change(it) for it in range(answered))
        same(read("kept"), synced + change(answered))
        write("synced", synced)
        for path in ("kept", "synced"):
            lists_what_was_answered(path, answered)
        os.remove("kept")
        os.remove("trace")


def each_failing_sync_of_one_worker_loses_nothing():
    each_failing_sync_loses_no_answered_change(1)


def each_failing_sync_of_four_workers_loses_nothing():
    each_failing_sync_loses_no_answered_change(4)


if can_trace():
    for function in (
        changes_of_a_session_share_a_sync,
        changes_of_a_client_share_a_sync,
        no_reply_of_one_worker_leaves_before_its_sync,
        no_reply_of_four_workers_leaves_before_its_sync,
        a_failing_sync_ends_those_who_wait_for_it,
        each_failing_sync_keeps_its_reply_back,
        each_failing_sync_of_one_worker_loses_nothing,
        each_failing_sync_of_four_workers_loses_nothing,
    ):
        test(function)
else:
    print("strace may not trace: the tests of shared syncs are left out")
