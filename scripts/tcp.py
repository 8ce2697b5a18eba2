"""A server on a port of its own, and clients that speak RESP2 to it over TCP."""
import os
import resource
import select
import socket
import struct
import subprocess
import threading

from harness import PROGRAM, SECONDS, same, start

LOOPBACK = ("--listen", "127.0.0.1:0")
LISTENING = b"listening on "
# What a server of a thousand clients may need, and the script beside it.
DESCRIPTORS = 2_200


def raise_limit():
    """As many descriptors as the system lets this process have."""
    most = resource.getrlimit(resource.RLIMIT_NOFILE)[1]
    resource.setrlimit(resource.RLIMIT_NOFILE, (most, most))
    return most


def has_descriptors():
    if raise_limit() >= DESCRIPTORS:
        return True
    print("skipped: this needs more descriptors than the system gives")
    return False


def request(*words):
    """A request by its arguments, in RESP2."""
    words = [word if isinstance(word, bytes) else str(word).encode() for word in words]
    return b"*%d\r\n" % len(words) + b"".join(b"$%d\r\n%s\r\n" % (len(word), word) for word in words)


# What an append file begins with.
HEADER = request("ZCRACKD", 2)


def read_reply(file):
    """The next reply, by its bytes; an array by those of its elements. A ConnectionError where it doesn't come whole."""
    line = file.readline()
    if line[:1] == b"*" and line[-1:] == b"\n":
        return [read_reply(file) for _ in range(int(line[1:]))]
    if line[:1] == b"$" and line[-1:] == b"\n" and line != b"$-1\r\n":
        line += file.read(int(line[1:]) + 2)
    if line[-1:] != b"\n":
        raise ConnectionError(f"the connection ended behind {line!r}")
    return line


def flat(reply):
    """The bytes of a reply."""
    return reply if isinstance(reply, bytes) else b"*%d\r\n" % len(reply) + b"".join(map(flat, reply))


def soon(file):
    """The next line of a pipe, b"" where none comes within seconds."""
    return file.readline() if select.select([file], [], [], 5)[0] else b""


class Server:
    """A server on a free port of 127.0.0.1, or wherever its words say."""

    def __init__(self, *words, listen=LOOPBACK, program=PROGRAM, **how):
        words = [program, "serve", *listen, *map(str, words)]
        self.process = start(words, stdout=subprocess.PIPE, stderr=subprocess.PIPE, **how)
        self.is_ending = False
        self.line = self.process.stdout.readline()
        same(self.line[: len(LISTENING)], LISTENING)
        self.address, port = self.line[len(LISTENING) :].decode().strip().rsplit(":", 1)
        self.port = int(port)

    def connect(self):
        return Client((self.address.strip("[]"), self.port))

    def ends(self):
        """Waits until it ends; gives its status, what it printed behind its first line, and its lines."""
        try:
            out, lines = self.process.communicate(timeout=SECONDS)
        finally:
            self.process.kill()
        return self.process.returncode, out, lines

    def processor_time(self):
        """The seconds of processor time that it has had."""
        with open(f"/proc/{self.process.pid}/stat") as file:
            user, system = file.read().rsplit(")", 1)[1].split()[11:13]
        return (int(user) + int(system)) / os.sysconf("SC_CLK_TCK")

    def waits(self):
        """How often each of its threads has waited, by its number."""
        waits = {}
        for thread in os.listdir(f"/proc/{self.process.pid}/task"):
            with open(f"/proc/{self.process.pid}/task/{thread}/status") as file:
                waits[thread] = next(int(line.split()[1]) for line in file if line.startswith("voluntary"))
        return waits

    def memory(self):
        """The bytes of its memory that are in use."""
        with open(f"/proc/{self.process.pid}/statm") as file:
            return int(file.read().split()[1]) * os.sysconf("SC_PAGE_SIZE")

    def end_by(self, number):
        """Ends it by a signal, and waits for it. From then on its clients may find it gone."""
        self.is_ending = True
        self.process.send_signal(number)
        self.process.communicate()
        same(self.process.returncode, -number)

    def __enter__(self):
        return self

    def __exit__(self, *_):
        self.process.kill()
        self.process.communicate()


class Client:
    """A connection, with the replies that came on it."""

    def __init__(self, address):
        self.socket = socket.create_connection(address, timeout=SECONDS)
        self.file = self.socket.makefile("rb")

    def send(self, data):
        self.socket.sendall(data)

    def reply(self):
        return read_reply(self.file)

    def ask(self, *words):
        self.send(request(*words))
        return self.reply()

    def flood(self, data, rounds, reply):
        """Sends data so often without waiting for replies; gives how often it was answered so in turn."""
        at_once = 10_000
        many, rest = divmod(rounds, at_once)
        sender = threading.Thread(target=lambda: [self.send(data * count) for count in [at_once] * many + [rest]])
        sender.start()
        done = 0
        for count in [at_once] * many + [rest]:
            done += count if self.file.read(len(reply) * count) == reply * count else 0
        sender.join()
        return done

    def finish(self):
        """Sends no more; gives all that comes until the server ends the connection."""
        self.socket.shutdown(socket.SHUT_WR)
        rest = self.file.read()
        self.close()
        return rest

    def close(self):
        self.file.close()
        self.socket.close()

    def reset(self):
        """Ends the connection so that the peer's next call fails."""
        self.socket.setsockopt(socket.SOL_SOCKET, socket.SO_LINGER, struct.pack("ii", 1, 0))
        self.close()


def totals(connections, sets, members, added, removed, records):
    text = f"connections {connections} sets {sets} members {members} added {added} removed {removed} records {records}\n"
    return text.encode()


def traced(server, *how):
    """Traces a server's calls into the file `trace` until it ends; None where nothing can be traced."""
    tracer = start(["strace", "-f", "-o", "trace", *how, "-p", str(server.process.pid)], stderr=subprocess.PIPE)
    if b" attached" not in soon(tracer.stderr):
        print("skipped: nothing can be traced here")
        return None
    return tracer
