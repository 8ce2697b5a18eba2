"""A part of serve_test: a server whose threads can't be started."""
import os
import resource
import shutil

from harness import PROGRAM, refusing, same, test
from tcp import Server, totals

NO_WORKERS = (4, b"", b"zcrackd: cannot start workers\n")
NOBODY = 65_534


def one_thread():
    """Lets the program have no other thread than its first. Root has no such limit, so it becomes another user before."""
    if os.getuid() == 0:
        os.setgroups([])
        os.setgid(NOBODY)
        os.setuid(NOBODY)
    resource.setrlimit(resource.RLIMIT_NPROC, (1, 1))


@test
def no_thread_can_be_started():
    # a copy that any user may run, named from a folder that any user may enter, wherever that stands
    shutil.copy(PROGRAM, "zcrackd")
    os.chmod("zcrackd", 0o755)
    os.chmod(".", 0o755)
    with Server(program="./zcrackd", preexec_fn=one_thread) as server:
        same(server.ends(), NO_WORKERS)


@test
def each_thread_that_cannot_be_started_is_told():
    library = refusing()
    for number in range(1, 6):
        mark = os.path.abspath(f"mark {number}")
        env = {"LD_PRELOAD": library, "REFUSED_THREAD": str(number), "REFUSED_MARK": mark}
        with Server("--workers", 4, "--connections", 1, env=env) as server:
            if number == 5:  # there are four workers
                same(server.connect().ask("PING"), b"+PONG\r\n")
            same(server.ends(), NO_WORKERS if number < 5 else (0, totals(1, 0, 0, 0, 0, 0), b""))
        same(os.path.exists(mark), number < 5)
