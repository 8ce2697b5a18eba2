"""A part of serve_test: what --explain and a terminal are told behind the fixed lines, and while the program runs."""
import fcntl
import os
import re
import resource
import shutil
import signal
import socket
import subprocess
import time

from harness import PROGRAM, SECONDS, on_a_terminal, read, run, same, start, test, with_terminal, write
from tcp import HEADER, LOOPBACK, Server, request, soon, totals

NO_FILE = b"zcrackd: cannot use file\n"
MISSING = b"No such file or directory (os error 2)\n"
FAILED = b"zcrackd: append file failed: %s; changes are refused from now on. Make room, rewrite the file, and restart\n"
TOO_LARGE = FAILED % b"File too large (os error 27)"
NO_SYNC = FAILED % b"Input/output error (os error 5)"
# Two records of 35 bytes, and one of 28.
RECORDS = request("ZADD", "k", 1, "a") + request("ZADD", "k", 2, "b") + request("ZREM", "k", "a")


def told(*words):
    """What is told with --explain, which a terminal is told without it. Without either it is the first line alone."""
    status, out, lines = run(*words, "--explain")
    same((out, on_a_terminal(*words)), (b"", (status, lines)))
    same(run(*words), (status, b"", lines[: lines.index(b"\n") + 1]))
    return status, lines


def limited():
    """Lets the program's files have room for two records of 35 bytes, and not for a third."""
    signal.signal(signal.SIGXFSZ, signal.SIG_IGN)
    resource.setrlimit(resource.RLIMIT_FSIZE, (len(HEADER) + 76, len(HEADER) + 76))


# Why nothing was done

@test
def a_file_that_cannot_be_used_is_named_with_its_cause():
    write("old", RECORDS)
    write("new", b"")
    os.mkdir("folder")
    opened = b"it can't be opened or made: "
    for words, cause in [
        (["serve", *LOOPBACK, "--file", "missing/file"], b"missing/file: " + opened + MISSING),
        (["stdio", "--file", "missing/file"], b"missing/file: " + opened + MISSING),
        (["stdio", "--file", "folder"], b"folder: " + opened + b"Is a directory (os error 21)\n"),
        (["stdio", "--file", "/dev/null"], b"/dev/null: it is no regular file\n"),
        (["rewrite", "missing", "new"], b"missing: " + opened + MISSING),
        (["rewrite", "old", "missing/new"], b"missing/new: " + opened + MISSING),
        (["rewrite", "old", "new"], b"new: it can't be given its name\n"),
    ]:
        same((words, told(*words)), (words, (3, NO_FILE + cause)))


@test
def a_file_in_use_is_told():
    with Server("--file", "kept"):
        same(told("stdio", "--file", "kept"), (3, NO_FILE + b"kept: it is in use\n"))


@test
def a_file_that_is_not_renewed_is_told_by_its_draft():
    write("kept", RECORDS)
    os.mkdir("kept.new")
    cause = b"kept.new: it can't be opened or made: File exists (os error 17)\n"
    same(told("stdio", "--file", "kept"), (3, NO_FILE + cause))
    os.rmdir("kept.new")
    write("kept.new", b"")
    with open("kept.new", "rb") as draft:
        fcntl.flock(draft, fcntl.LOCK_EX)
        same(told("stdio", "--file", "kept"), (3, NO_FILE + b"kept.new: it is in use\n"))
    many = b"".join(request("ZADD", "k", it, it) for it in range(4))
    write("kept", many)
    lines = NO_FILE + b"kept.new: it can't be written\n"
    same(run("stdio", "--file", "kept", "--explain", preexec_fn=limited), (3, b"", lines))
    same(read("kept"), many)


@test
def a_file_of_a_later_version_is_told():
    write("later", request("ZCRACKD", 3))
    lines = b"zcrackd: unknown append file version\nlater: a later zcrackd wrote it, which can read it\n"
    same(told("stdio", "--file", "later"), (3, lines))


@test
def an_address_that_cannot_be_listened_on_is_told_with_its_cause():
    with socket.create_server(("127.0.0.1", 0)) as taken:
        listen = b"127.0.0.1:%d" % taken.getsockname()[1]
        cause = listen + b": Address already in use (os error 98)\n"
        same(told("serve", "--listen", listen), (3, b"zcrackd: cannot listen\n" + cause))


@test
def what_is_wrong_with_a_command_line_is_told():
    status, lines = told("stdio", "--sing")
    same((status, lines[:26]), (2, b"zcrackd: bad command line\n"))
    same((b"--sing" in lines, b"Usage: zcrackd" in lines), (True, True))
    cause = b"--listen here:1: it is no IP address with a port, and no name is looked up\n"
    same(told("serve", "--listen", "here:1"), (2, b"zcrackd: bad command line\n" + cause))


@test
def how_much_stands_behind_a_damaged_byte_is_told():
    damaged = RECORDS[:39] + b"!" + RECORDS[40:]
    rest = b"to do without them, copy it, and on the copy: truncate -s %d COPY\n"
    for data, line, behind in [
        (damaged, b"zcrackd: append file damaged at byte 35\n", b"63 of its 98 bytes stand from byte 35 on; " + rest % 35),
        (RECORDS[:70] + request("PING"), b"zcrackd: append file has no command at byte 70\n",
         b"14 of its 84 bytes stand from byte 70 on; " + rest % 70),
    ]:
        write("file", data)
        for words in (["serve", *LOOPBACK, "--file", "file"], ["stdio", "--file", "file"], ["rewrite", "file", "new"]):
            same(told(*words), (3, line + b"file: " + behind))
    # the remedy
    shutil.copy("file", "COPY")
    os.truncate("COPY", 70)
    same(run("rewrite", "COPY", "new"), (0, b"records 1\n", b""))


@test
def what_is_right_has_no_explanation():
    same(run("stdio", "--explain", given=request("PING")), (0, b"+PONG\r\n", b""))
    write("old", RECORDS)
    same(run("rewrite", "--explain", "old", "new"), (0, b"records 1\n", b""))
    same(run("rewrite", "--", "old", "--explain"), (0, b"records 1\n", b""))
    same(run("rewrite", "--", "old", "--explain"), (3, b"", NO_FILE))


# What is told while the program runs

@test
def a_server_tells_at_once_that_its_file_failed():
    with Server("--connections", 2, "--file", "kept", "--explain", preexec_fn=limited) as server:
        client, other = server.connect(), server.connect()
        replies = [client.ask("ZADD", "k", it, it)[:8] for it in range(4)]
        same(replies, [b":1\r\n", b":1\r\n", b"-ERR 16 ", b"-ERR 14 "])
        same(soon(server.process.stderr), TOO_LARGE)
        same(other.ask("ZADD", "other", 1, "a")[:8], b"-ERR 14 ")
        client.close()
        other.close()
        same(server.ends(), (0, totals(2, 1, 2, 2, 0, 2), b""))


@test
def a_session_tells_at_once_that_its_file_failed():
    given = b"".join(request("ZADD", "k", it, it) for it in range(4))
    status, out, lines = run("stdio", "--file", "kept", "--explain", given=given, preexec_fn=limited)
    same((status, out[:16], lines), (0, b":1\r\n:1\r\n-ERR 16 ", TOO_LARGE))
    os.remove("kept")
    same(run("stdio", "--file", "kept", given=given, preexec_fn=limited), (0, out, b""))


@test
def a_sync_that_failed_is_told():
    trace = ["strace", "-qq", "-o", "trace", "-e", "trace=fdatasync", "-e", "inject=fdatasync:error=EIO:when=3"]
    if subprocess.run([*trace, "true"], capture_output=True).returncode:
        return print("skipped: nothing can be traced here")
    given = b"".join(request("ZADD", "k", it, it) for it in range(4))
    write("kept", HEADER)
    with start([*trace, PROGRAM, "stdio", "--file", "kept", "--explain"], stdin=subprocess.PIPE, stdout=subprocess.PIPE,
               stderr=subprocess.PIPE) as program:
        out, lines = program.communicate(given, timeout=SECONDS)
    same((program.returncode, b"-ERR 16 " in out, b"-ERR 14 " in out, lines), (0, True, True, NO_SYNC))


@test
def a_session_tells_a_torn_end_when_it_opens_the_file():
    write("kept", RECORDS[:80])
    with start([PROGRAM, "stdio", "--file", "kept"], stdin=subprocess.PIPE, stdout=subprocess.PIPE, stderr=subprocess.PIPE) as program:
        same(soon(program.stderr), b"zcrackd: torn end of 10 bytes\n")
        same(program.communicate(request("ZCARD", "k"), timeout=SECONDS), (b":2\r\n", b""))


def place_in(process, path):
    """How many bytes of a file a process has read, 0 where it hasn't opened it."""
    try:
        for number in os.listdir(f"/proc/{process.pid}/fd"):
            if os.path.realpath(f"/proc/{process.pid}/fd/{number}") == os.path.realpath(path):
                with open(f"/proc/{process.pid}/fdinfo/{number}") as file:
                    return int(file.readline().split()[1])
    except OSError:
        pass
    return 0


def stopped_while_it_reads(words, stderr):
    """Runs the program, and stops it for more than a second in the middle of its file; gives what it writes on a pipe."""
    with start([PROGRAM, *words], stdin=subprocess.DEVNULL, stdout=subprocess.DEVNULL, stderr=stderr) as program:
        while place_in(program, "kept") == 0 and program.poll() is None:
            time.sleep(0.001)
        program.send_signal(signal.SIGSTOP)
        same(0 < place_in(program, "kept") < os.path.getsize("kept"), True)
        time.sleep(1.2)
        program.send_signal(signal.SIGCONT)
        _, lines = program.communicate(timeout=SECONDS)
        same(program.returncode, 0)
        return lines


@test
def a_terminal_is_told_how_far_a_long_reading_is():
    write("kept", HEADER + (request("ZADD", "k", 1, "a") + request("ZREM", "k", "a")) * 300_000)
    for words in (["stdio", "--file", "kept"], ["rewrite", "kept", "new"]):
        _, got = with_terminal(lambda terminal: stopped_while_it_reads(words, terminal))
        same(bool(re.fullmatch(rb"(zcrackd: [1-9]?[0-9] % of kept read\n)+", got)), True)
    os.remove("new")
    same(stopped_while_it_reads(["rewrite", "--explain", "kept", "new"], subprocess.PIPE), b"")
