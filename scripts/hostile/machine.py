"""A server without room on its disk, without descriptors, and beside another process on its file."""
import os
import resource
import signal
import subprocess

from harness import read, run, same, test
from tcp import HEADER, LOOPBACK, Server, request, totals

FULL_BYTES = 64 << 10


def fill_file(path, make_room=lambda: None, **how):
    """A server's file is filled until a change is refused; one that is started once there is room has what was answered."""
    asked = [("ZADD", "k", it, f"{it}:" + "." * 500) for it in range(200)]
    with Server("--connections", 1, "--file", path, **how) as server:
        client = server.connect()
        replies = [client.ask(*words) for words in asked]
        done = replies.count(b":1\r\n")
        same(replies[:done], [b":1\r\n"] * done)
        same((replies[done][:8], {it[:8] for it in replies[done + 1 :]}), (b"-ERR 16 ", {b"-ERR 14 "}))
        same(client.ask("ZCARD", "k"), b":%d\r\n" % done)
        same(client.ask("ZREMRANGEBYSCORE", "k", "-inf", "+inf")[:8], b"-ERR 14 ")
        same(client.finish(), b"")
        same(server.ends(), (0, totals(1, 1, done, done, 0, done), b""))
    records = [HEADER, *(request(*words) for words in asked)]
    kept = read(path)
    same((b"".join(records).startswith(kept), len(kept) >= sum(map(len, records[: done + 1])), done > 0), (True, True, True))
    make_room()
    with Server("--connections", 1, "--file", path) as server:
        client = server.connect()
        same(client.ask("ZCARD", "k"), b":%d\r\n" % done)
        same(client.ask("ZADD", "k", 1_000, "more"), b":1\r\n")
        client.close()
        same(server.ends()[:2], (0, totals(1, 1, done + 1, 1, 0, 1)))


@test
def a_full_file_loses_nothing_that_was_acknowledged():
    def limited():
        signal.signal(signal.SIGXFSZ, signal.SIG_IGN)
        resource.setrlimit(resource.RLIMIT_FSIZE, (FULL_BYTES, FULL_BYTES))

    fill_file("kept", preexec_fn=limited)


@test
def a_full_disk_loses_nothing_that_was_acknowledged():
    os.mkdir("disk")
    mount = ["mount", "-t", "tmpfs", "-o", f"size={FULL_BYTES}", "tmpfs", "disk"]
    if subprocess.run(mount, stderr=subprocess.DEVNULL).returncode != 0:
        return print("skipped: no small file system can be mounted here; a file that is full was tested")
    try:
        fill_file("disk/kept", lambda: subprocess.run(["mount", "-o", "remount,size=1m", "disk"], check=True))
    finally:
        subprocess.run(["umount", "disk"], check=True)


def descriptors(most):
    """Lets the program have so many descriptors."""
    return lambda: resource.setrlimit(resource.RLIMIT_NOFILE, (most, most))


@test
def a_server_with_few_descriptors_serves_fewer_at_once():
    """More clients than there are descriptors are all answered, as the first ones leave; the server ends by its own count."""
    many = 40
    with Server("--connections", many, "--file", "kept", preexec_fn=descriptors(60)) as server:
        clients = [server.connect() for _ in range(many)]
        for number, client in enumerate(clients):
            client.send(request("ZADD", "k", number, f"m{number}"))
        for client in clients:
            same(client.reply(), b":1\r\n")
            client.close()
        same(server.ends(), (0, totals(many, 1, many, many, 0, many), b""))


@test
def a_server_without_descriptors_for_its_workers_ends_and_tells():
    with Server("--workers", 64, "--file", "kept", preexec_fn=descriptors(24)) as server:
        same(server.ends()[::2], (4, b"zcrackd: cannot start workers\n"))


@test
def standard_streams_that_are_closed_are_no_sockets():
    for closed in ([0], [0, 2]):
        with Server("--connections", 1, preexec_fn=lambda: [os.close(it) for it in closed]) as server:
            client = server.connect()
            same(client.ask("ZADD", "k", 1, "a"), b":1\r\n")
            same(client.finish(), b"")
            same(server.ends()[:2], (0, totals(1, 1, 1, 1, 0, 1)))


@test
def a_file_belongs_to_one_process():
    refused = (3, b"", b"zcrackd: cannot use file\n")
    with Server("--connections", 1, "--file", "kept") as server:
        client = server.connect()
        same(client.ask("ZADD", "k", 1, "a"), b":1\r\n")
        before = read("kept")
        same(run("serve", *LOOPBACK, "--file", "kept"), refused)
        same(run("stdio", "--file", "kept", given=request("ZADD", "k", 2, "b")), refused)
        same(read("kept"), before)
        same(client.ask("ZADD", "k", 2, "b"), b":1\r\n")
        client.close()
        same(server.ends(), (0, totals(1, 1, 2, 2, 0, 2), b""))
    same(run("stdio", "--file", "kept", given=request("ZCARD", "k")), (0, b":2\r\n", b""))
