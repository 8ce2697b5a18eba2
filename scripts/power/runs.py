"""What power_loss records: sessions, openings and rewrites, with the changes that they send and what was answered when."""
import contextlib
import io
import os
import signal
import subprocess

from harness import PROGRAM, SECONDS, same, start, write
from power.disk import Disk, events
from tcp import HEADER, read_reply, request

KEYS = ("k", "key:1", "key:2")
LENGTHS = (3, 3, 3, 400, 700, 5_000)


class Sets:
    """Sets as a client knows them: scores by key and member, and which of these a change without an answer may have moved."""

    def __init__(self):
        self.scores, self.open = {}, set()

    def change(self, moved):
        for key, member, score in moved:
            self.scores.pop((key, member), None)
            if score is not None:
                self.scores[key, member] = score

    def copy(self):
        other = Sets()
        other.scores, other.open = dict(self.scores), set(self.open)
        return other


class Change:
    """A request, and the members that it moves, with their scores then, or none."""

    def __init__(self, words, moved):
        self.request, self.moved = request(*words), moved


def changes(chance, sets, count, kinds=6):
    """So many changes in turn, each of which leaves other sets than before; `sets` follow them. With fewer kinds they only
    add members, so that each may be asked for twice."""
    for i in range(count):
        key = chance.choice(KEYS)
        there = sorted(member for at, member in sets.scores if at == key)
        kind = 5 - chance.randrange(kinds)
        if kind == 0 and there:
            gone = chance.sample(there, min(2, len(there)))
            words, moved = ["ZREM", key, *gone], [(key, it, None) for it in gone]
        elif kind == 1 and there:
            least = min(sets.scores[key, it] for it in there)
            words = ["ZREMRANGEBYSCORE", key, "-inf", least]
            moved = [(key, it, None) for it in there if sets.scores[key, it] == least]
        elif kind == 2 and there:
            member = chance.choice(there)
            words, moved = ["ZADD", key, "CH", "INCR", 7, member], [(key, member, sets.scores[key, member] + 7)]
        else:
            pairs = [(i * 10 + j, f"m{i}.{j}".ljust(chance.choice(LENGTHS), "-")) for j in range(chance.choice((1, 1, 3)))]
            words = ["ZADD", key, *[word for pair in pairs for word in pair]]
            moved = [(key, member, score) for score, member in pairs]
        sets.change(moved)
        yield Change(words, moved)


def answered(given):
    """How many whole replies these bytes are."""
    stream, count = io.BytesIO(given), 0
    with contextlib.suppress(ConnectionError, ValueError):
        while stream.tell() < len(given):
            read_reply(stream)
            count += 1
    return count


class Recorded:
    """A folder in which programs run one after another while their calls are recorded, and how its files looked before."""

    def __init__(self, folder, files=(), links=()):
        self.folder, self.links, self.processes = os.path.realpath(folder), dict(links), []
        for path, data in dict(files).items():
            os.makedirs(os.path.dirname(f"{folder}/{path}"), exist_ok=True)
            write(f"{folder}/{path}", data)
        for path, target in self.links.items():
            os.symlink(target, f"{folder}/{path}")
        self.disk = Disk(self.folder)

    def run(self, words, sent=(), killed_at=None, together=True, status=0):
        """Runs the program, which is sent these changes, together or each once the one before was answered, and is killed in
        place of a sync if told so."""
        recording = f"{self.folder}.{len(self.processes)}"
        environment = {**os.environ, "LD_PRELOAD": os.path.abspath("recording.so"), "RECORDING": recording}
        if killed_at is not None:
            environment["KILL_AT_SYNC"] = str(killed_at)
        pipes = {"stdin": subprocess.PIPE, "stdout": subprocess.PIPE, "stderr": subprocess.DEVNULL}
        process = start([PROGRAM, *words], cwd=self.folder, env=environment, bufsize=0 if not together else -1, **pipes)
        if together:
            process.communicate(b"".join(it.request for it in sent), timeout=SECONDS)
        else:
            for change in sent:
                process.stdin.write(change.request)
                read_reply(process.stdout)
            process.stdin.close()
        same(process.wait(SECONDS), -signal.SIGKILL if killed_at is not None else status)
        self.processes.append((recording, list(sent)))

    def rename(self, old, new):
        """Gives a file another name, as an operator does between two runs."""
        os.rename(f"{self.folder}/{old}", f"{self.folder}/{new}")
        both = f"{old}\0{new}".encode()
        write(f"{self.folder}.{len(self.processes)}", b"renamed %d\n%s" % (len(both), both))
        self.processes.append((f"{self.folder}.{len(self.processes)}", []))

    def moments(self, sets):
        """After each event the disk, and the sets as the clients then know them. `sets` are those of before the first run.
        What a process did not answer may be done or not, until a later one is asked for it again and answers."""
        sets, carried = sets.copy(), set()
        for recording, sent in self.processes:
            replies, told = b"", 0
            for what, numbers, data in events(recording):
                self.disk.apply(what, numbers, data)
                replies += data if what == "replied" else b""
                now = answered(replies)
                for change in sent[told:now]:
                    sets.change(change.moved)
                    carried -= moved_by([change])
                told = now
                sets.open = carried | moved_by(sent[told:])
                yield self.disk, sets.copy()
            carried |= moved_by(sent[told:])


def moved_by(sent):
    """The members that these changes move, with their keys."""
    return {(key, member) for change in sent for key, member, _ in change.moved}
