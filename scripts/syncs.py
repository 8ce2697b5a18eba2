"""Tests of the calls that the built program makes on its append file, in their order, as strace tells them: each record
is written and synced before its reply goes out, and a call that a signal interrupts is made again.

They are left out, and a line says so, where strace is not installed or may not trace.
"""
import os
import re
import shutil
import subprocess
import time

from harness import PROGRAM, SECONDS, read, same, start, test, write
from tcp import HEADER, Server, request

CHANGES = 12
# ZADD k 1 a, ZADD k 2 a, and so on: each changes the set, and has a record of 35 bytes.
RECORDS = [request("ZADD", "k", i % 2 + 1, "a") for i in range(CHANGES)]
REPLIES = [b":1\r\n"] + [b":0\r\n"] * (CHANGES - 1)
ONE_BY_ONE = ["record", "sync", "reply"] * CHANGES


def can_trace():
    """Whether strace is there, and may trace."""
    if not shutil.which("strace"):
        return False
    tried = subprocess.run(["strace", "-D", "-o", "/dev/null", "true"], stdin=subprocess.DEVNULL, capture_output=True)
    return tried.returncode == 0


def traced(*options):
    """A program that runs zcrackd, and has its calls written into the file `trace`."""
    words = ["exec strace -D -f -y --quiet=attach,path-resolution -o trace", *options, PROGRAM, '"$@"']
    write("traced", f"#!/bin/sh\n{' '.join(words)}\n".encode())
    os.chmod("traced", 0o755)
    return os.path.abspath("traced")


def trace():
    """The lines of the trace, once the program has ended."""
    end = time.monotonic() + SECONDS
    while b"+++ exited with" not in (read("trace") if os.path.exists("trace") else b""):
        if time.monotonic() > end:
            raise AssertionError("the trace has no end")
        time.sleep(0.01)
    return read("trace").decode(errors="replace").splitlines()


def whole_calls():
    """Each call of the trace, in the order in which they ended: the numbers of the lines where it began and ended, and its
    text. One that another thread's line parts in two is joined."""
    begun = {}
    for number, line in enumerate(trace()):
        thread, text = re.match(r"(\d+) +(.*)", line).groups()
        resumed = re.match(r"<\.\.\. \w+ resumed>(.*)", text)
        if resumed:
            first, part = begun.pop(thread)
            yield first, number, part + resumed[1]
        elif text.endswith("<unfinished ...>"):
            begun[thread] = number, text.removesuffix("<unfinished ...>")
        elif re.match(r"\w+\(", text):
            yield number, number, text


def calls():
    """The calls on the append file and those that send replies, by what they are, in the order in which they ended."""
    found = []
    for _, _, text in whole_calls():
        name = text.split("(", 1)[0]
        if name in ("fdatasync", "fsync") and "/kept>" in text:
            found.append("sync" if text.endswith("= 0") else "failed sync")
        elif name == "write" and "/kept>" in text:
            found.append("record" if re.search(r"= \d+$", text) else "failed write")
        elif name in ("write", "sendto", "writev", "sendmsg") and re.search(r'":[01]\\r\\n', text):
            found.append("reply")
    return found


def talk(reader, writer):
    """Sends each change once the one before is answered."""
    for record, reply in zip(RECORDS, REPLIES):
        writer(record)
        same(reader(len(reply)), reply)


WRITES = "-e trace=write,writev,sendto,sendmsg,fdatasync,fsync"


def session_over(program, path="kept", **how):
    """A session over standard input whose changes go to the append file."""
    return start([program, "stdio", "--file", path], stdin=subprocess.PIPE, stdout=subprocess.PIPE, **how)


def each_record_is_synced_before_its_reply():
    with session_over(traced(WRITES), bufsize=0) as session:
        talk(session.stdout.read, session.stdin.write)
        session.stdin.close()
        same(session.wait(SECONDS), 0)
    same(calls(), ONE_BY_ONE)
    same(read("kept"), HEADER + b"".join(RECORDS))


def each_of_many_records_is_synced_before_the_next():
    replies, _ = session_over(traced(WRITES)).communicate(b"".join(RECORDS), timeout=SECONDS)
    same(replies, b"".join(REPLIES))
    same(calls(), ["record", "sync"] * CHANGES + ["reply"])


def each_record_of_a_server_is_synced_before_its_reply():
    with Server("--file", "kept", "--connections", 1, "--workers", 1, program=traced(WRITES)) as server:
        client = server.connect()
        talk(client.file.read, client.socket.sendall)
        client.close()
        same(server.ends()[0], 0)
    same(calls(), ONE_BY_ONE)
    same(read("kept"), HEADER + b"".join(RECORDS))


def on_the_file(call, which):
    """Only what is asked of the append file is traced, and these calls are interrupted."""
    return f"-P kept -e trace={call} -e inject={call}:error=EINTR:when={which}"


def an_interrupted_call_is_made_again():
    for call, which in [("fdatasync", "2"), ("fdatasync", "4..102"), ("write", "1"), ("write", "2..100")]:
        write("kept", HEADER)
        session = session_over(traced(on_the_file(call, which)))
        replies, _ = session.communicate(b"".join(RECORDS), timeout=SECONDS)
        same((replies, read("kept")), (b"".join(REPLIES), HEADER + b"".join(RECORDS)))
        interrupted = 99 if ".." in which else 1
        # one sync more is made when the file is opened
        same(sum(call in line for line in trace()), CHANGES + interrupted + (call == "fdatasync"))


def a_write_that_is_always_interrupted_fails():
    # Of a sync no such test: std itself makes that again for as long as it is interrupted.
    write("kept", HEADER)
    session = session_over(traced(on_the_file("write", "1+")))
    replies, _ = session.communicate(RECORDS[0], timeout=SECONDS)
    same((replies, read("kept")), (b"-ERR 16 append file failed\r\n", HEADER))
    same(sum("write" in line for line in trace()), 100)


def an_interrupted_reload_reads_on():
    """Of a file of several reads, each of which is interrupted; its torn end alone is cut."""
    whole = HEADER + b"".join(RECORDS) * 100
    write("kept", whole + RECORDS[0][:20])
    session = session_over(traced(on_the_file("read", "1+2")), stderr=subprocess.PIPE)
    replies, lines = session.communicate(request("ZSCORE", "k", "a"), timeout=SECONDS)
    same((replies, lines), (b"$1\r\n2\r\n", b"zcrackd: torn end of 20 bytes\n"))
    same(read("kept"), whole)


FILE_STEPS = "-e trace=write,fdatasync,fsync,rename,link,unlink,ftruncate"


def steps():
    """The calls of a trace that change what is in this folder, each with the path of its file where it has one."""
    found = [re.match(r"\d+ +(\w+)\((?:\d+<([^>]*)>)?", line) for line in trace() if "+++" not in line]
    os.remove("trace")
    here = os.path.realpath(".")
    return [(it[1], it[2] and os.path.relpath(it[2], here)) for it in found if it[2] is None or it[2].startswith(here)]


def opened(path):
    """The steps of a session on a file up to its first change, which is answered by `:1` or `:0`."""
    session = session_over(traced(FILE_STEPS), path, stderr=subprocess.DEVNULL)
    same(session.communicate(RECORDS[0], timeout=SECONDS)[0] in REPLIES, True)
    return steps()


def what_a_file_has_is_synced_before_it_is_answered_from():
    """So are its name and its folder's: of a new file, of one that is there, of one with a torn end, and behind a link."""
    os.mkdir("inner")
    os.symlink("inner/other", "link")
    for path, place, folder in [("kept", "kept", "."), ("inner/kept", "inner/kept", "inner"), ("link", "inner/other", "inner")]:
        renewal = [("write", f"{place}.new"), ("fdatasync", f"{place}.new"), ("rename", None), ("fsync", folder)]
        change = [("write", place), ("fdatasync", place)]
        same(opened(path), renewal + change)
        same(opened(path), [("fdatasync", place), ("fsync", folder)])
        write(path, read(path) + RECORDS[1][:9])
        same(opened(path), [("ftruncate", place), ("fdatasync", place), ("fsync", folder)])


def a_rewrite_is_synced_before_it_is_named_and_told():
    write("kept", b"".join(RECORDS))
    os.mkdir("inner")
    session = start([traced(FILE_STEPS), "rewrite", "kept", "inner/new"], stdout=subprocess.PIPE)
    same(session.communicate(timeout=SECONDS)[0], b"records 1\n")
    draft = [("write", "inner/new.new")] * 2 + [("fdatasync", "inner/new.new")]
    same(steps(), [*draft, ("link", None), ("unlink", None), ("fsync", "inner")])
    same(read("inner/new"), HEADER + RECORDS[-1])


if can_trace():
    for function in (
        each_record_is_synced_before_its_reply,
        each_of_many_records_is_synced_before_the_next,
        each_record_of_a_server_is_synced_before_its_reply,
        an_interrupted_call_is_made_again,
        a_write_that_is_always_interrupted_fails,
        an_interrupted_reload_reads_on,
        what_a_file_has_is_synced_before_it_is_answered_from,
        a_rewrite_is_synced_before_it_is_named_and_told,
    ):
        test(function)
else:
    print("no test of the order of calls: strace is missing, or may not trace")
