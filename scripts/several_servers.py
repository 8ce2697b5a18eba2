"""Several servers behind nutcracker, with the lines of docs/SEVERAL_SERVERS.md, and many clients of it at once."""
import os
import re
import shutil
import socket
import subprocess
import time

from clients import skip
from harness import HERE, same, start, write
from tcp import Client, Server, request

PAGE = f"{HERE}/../docs/SEVERAL_SERVERS.md"
# Servers, clients, keys; SEVERAL in the environment has other ones.
SIZES = os.environ.get("SEVERAL", "3 60 2000")
WORKERS = 4
PLACES = 4096


def program():
    """The proxy, which Debian has where not everybody's path leads; None where it is not installed."""
    return shutil.which("nutcracker", path=f"{os.environ['PATH']}:/usr/sbin")


def free_port():
    with socket.create_server(("127.0.0.1", 0)) as taken:
        return taken.getsockname()[1]


def page_lines():
    """The configuration that the page shows."""
    with open(PAGE) as page:
        return re.search(r"^```yaml\n(.*?)^```$", page.read(), re.DOTALL | re.MULTILINE)[1].splitlines()


def configuration(port, servers):
    """The page's lines with other ports, and as many of its servers as there are."""
    names = iter(servers)
    for line in page_lines():
        if line.startswith("  listen:"):
            yield f"  listen: 127.0.0.1:{port}"
        elif line.startswith("   - "):
            server = next(names, None)
            if server:
                yield re.sub(r"127\.0\.0\.1:\d+", f"127.0.0.1:{server.port}", line)
        else:
            yield line
    same(list(names), [])


class Proxy:
    """A nutcracker before some servers."""

    def __init__(self, servers):
        self.port = free_port()
        write("nutcracker.yml", "\n".join([*configuration(self.port, servers), ""]).encode())
        words = [program(), "-c", "nutcracker.yml", "-o", "nutcracker.log", "-p", "nutcracker.pid"]
        self.process = start([*words, "-a", "127.0.0.1", "-s", str(free_port())], stderr=subprocess.DEVNULL)
        self.await_it()

    def await_it(self):
        """Waits until it listens; the script's own time bounds that."""
        while self.process.poll() is None:
            try:
                return self.connect().close()
            except ConnectionRefusedError:
                time.sleep(0.01)
        raise AssertionError(f"nutcracker ended with status {self.process.returncode}")

    def connect(self):
        return Client(("127.0.0.1", self.port))


def turn(key, number):
    """What a client asks about a key of its own, with the replies."""
    pair = b"*4\r\n$1\r\na\r\n$%d\r\n%d\r\n$1\r\nb\r\n$%d\r\n%d\r\n"
    score, next_score = str(number).encode(), str(number + 1).encode()
    listed = pair % (len(score), number, len(next_score), number + 1)
    return [
        (request("ZADD", key, number, "a", number, "b", number, "c"), b":3\r\n"),
        (request("ZADD", key, "INCR", 1, "b"), b"$%d\r\n%s\r\n" % (len(next_score), next_score)),
        (request("ZREM", key, "c", "nobody"), b":1\r\n"),
        (request("ZCOUNT", key, f"({number}", "+inf"), b":1\r\n"),
        (request("ZRANGEBYSCORE", key, "-inf", "+inf", "WITHSCORES"), listed),
        (request("ZSCORE", key, "c"), b"$-1\r\n"),
        (request("ZCARD", key), b":2\r\n"),
    ]


def ask_all(clients, turns):
    """Sends each client its requests in one go, then reads all replies and compares each."""
    for client, asked in zip(clients, turns):
        client.send(b"".join(sent for sent, _ in asked))
    for client, asked in zip(clients, turns):
        for _, wanted in asked:
            same(client.file.read(len(wanted)), wanted)


def keys_of(server, keys):
    """The keys of which a server has a set."""
    client = server.connect()
    client.send(b"".join(request("ZCARD", key) for key in keys))
    found = {key for key in keys if client.reply() != b":0\r\n"}
    client.close()
    return found


def run_several_servers():
    if not program():
        return skip("nutcracker")
    server_count, client_count, key_count = map(int, SIZES.split())
    servers = [Server("--workers", WORKERS, "--places", PLACES) for _ in range(server_count)]
    proxy = Proxy(servers)
    clients = [proxy.connect() for _ in range(client_count)]
    keys = [f"user:{number}" for number in range(key_count)]
    begun = time.monotonic()
    for first in range(0, key_count, client_count):
        numbers = range(first, min(first + client_count, key_count))
        ask_all(clients, [turn(keys[number], number) for number in numbers])
    if "SEVERAL" in os.environ:
        print(f"{7 * key_count} requests in {time.monotonic() - begun:.1f} s")
    # What a client changed, another one reads.
    ask_all(clients[::-1], [[(request("ZCARD", key), b":2\r\n")] for key in keys[:client_count]])
    found = [keys_of(server, keys) for server in servers]
    if "SEVERAL" in os.environ:
        print("keys of each server:", *map(len, found))
    same([bool(it) for it in found], [True] * server_count)
    same((sum(map(len, found)), set().union(*found)), (key_count, set(keys)))
    same(clients[0].ask("PING"), b"+PONG\r\n")
    same(clients[0].ask("ZINCRBY", "user:1", 1, "a")[:7], b"-ERR 2 ")
