"""A part of program_test: append files that are opened, renewed and written anew where calls of one kind fail, where another
process has the file or its draft, and where one of these loses its name meanwhile."""
import os
import subprocess
import time
from contextlib import contextmanager

from harness import PROGRAM, SECONDS, read, refusing, run, same, start, test, write
from tcp import HEADER, request

# ZADD k 1 a: a file of version 1, and of version 2; and each with a prefix of one record more.
RECORD = request(*"ZADD k 1 a".split())
TORN = RECORD + b"*3"
EFFECT, TORN_EFFECT = HEADER + RECORD, HEADER + TORN
OF_ANOTHER = b"another's"
LISTING = request(*"ZRANGEBYSCORE k -inf +inf WITHSCORES".split())
NOTHING, A_AT_1 = b"*0\r\n", b"*2\r\n$1\r\na\r\n$1\r\n1\r\n"
NO_FILE, READ_FAULT = b"zcrackd: cannot use file\n", b"zcrackd: append file read fault\n"
WRITE_FAULT = b"zcrackd: write fault\n"
NOT_OPENED, MISSING = b"it can't be opened or made", b"it can't be opened or made: No such file or directory (os error 2)"
EXISTS = b"it can't be opened or made: File exists (os error 17)"
IN_USE, NOT_NAMED = b"it is in use", b"it can't be given its name"
NOT_CUT, NOT_SYNCED, NOT_WRITTEN = b"it can't be cut", b"it can't be synced", b"it can't be written"
FOLDER_NOT_SYNCED = b"its folder can't be synced"


def torn_end(size):
    return b"zcrackd: torn end of %d bytes\n" % size if size else b""


def preloaded(how):
    return {"env": {"LD_PRELOAD": refusing(), **how}} if how else {}


def is_opened(path, torn=0, listed=A_AT_1, **how):
    """A session opens a file to append, tells its torn end and lists its set."""
    same(run("stdio", "--file", path, "--explain", given=LISTING, **preloaded(how)), (0, listed, torn_end(torn)))


def is_not_opened(path, cause, named=None, **how):
    """A session does not open it, for this cause, which it tells by the file's name or another one's."""
    line = NO_FILE + (named or path).encode() + b": " + cause + b"\n" if cause != READ_FAULT else READ_FAULT
    same(run("stdio", "--file", path, "--explain", given=LISTING, **preloaded(how)), (3, b"", line))


def is_read(path, torn=0, records=1, data=EFFECT, **how):
    """A rewrite reads a file, and makes another one, of these records."""
    ended = run("rewrite", path, "read", "--explain", **preloaded(how))
    same((ended, read("read")), ((0, b"records %d\n" % records, torn_end(torn)), data))
    os.remove("read")


def is_not_read(path, cause, **how):
    line = NO_FILE + path.encode() + b": " + cause + b"\n" if cause != READ_FAULT else READ_FAULT
    same(run("rewrite", path, "read", "--explain", **preloaded(how)), (3, b"", line))
    same(os.path.exists("read"), False)


def is_written_anew(path, **how):
    """A file of the record's set is made, as a whole. The draft is gone."""
    write("source", RECORD)
    same(run("rewrite", "source", path, "--explain", **preloaded(how)), (0, b"records 1\n", b""))
    same((read(path), os.path.exists(f"{path}.new")), (EFFECT, False))
    os.remove("source")


def is_not_written_anew(path, cause, **how):
    write("source", RECORD)
    wanted = (1, b"", WRITE_FAULT) if cause == WRITE_FAULT else (3, b"", NO_FILE + path.encode() + b": " + cause + b"\n")
    same(run("rewrite", "source", path, "--explain", **preloaded(how)), wanted)
    os.remove("source")


def has(**files):
    """These files are in the folder, with these bytes, and nothing else but folders and the library that makes calls fail."""
    found = {it: read(it) for it in os.listdir() if not os.path.isdir(it) and it != "refusing.so"}
    same(found, {name.replace("_", "."): data for name, data in files.items()})


# Files of version 2

@test
def a_file_is_cut_only_where_it_is_torn():
    write("whole", EFFECT)
    is_opened("whole", FAILING_KIND="ftruncate", CALLS="calls")
    # It is read and synced, and not cut; and then a request is read, and answered.
    same(read("calls"), b"rrsioi")
    os.remove("calls")
    has(whole=EFFECT)


@test
def a_torn_end_that_stays_is_told():
    write("torn", TORN_EFFECT)
    is_not_opened("torn", NOT_CUT, FAILING_KIND="ftruncate")
    is_read("torn", torn=2, FAILING_KIND="ftruncate")
    has(torn=TORN_EFFECT)
    is_opened("torn", torn=2)
    has(torn=EFFECT)


@test
def an_interrupted_call_of_a_file_is_made_again():
    interrupted = {"INTERRUPTED_READ": "1", "INTERRUPTED_FILE": "1", "CALLS": "calls"}
    write("signal", TORN_EFFECT)
    is_opened("signal", torn=2, **interrupted)
    same((read("calls"), read("signal")), (b"!r!rc!sioi", EFFECT))
    os.remove("calls")
    is_written_anew("anew", **interrupted)
    same(read("calls"), b"!r!r!w!w!so")
    os.remove("calls")
    has(signal=EFFECT, anew=EFFECT)


@test
def a_fault_of_opening_is_told():
    write("unread", RECORD)
    is_not_opened("unread", READ_FAULT, FAILING_KIND="read")
    is_not_read("unread", READ_FAULT, FAILING_KIND="read")
    is_not_read("missing", MISSING)
    is_not_opened("no_folder/a", MISSING)
    has(unread=RECORD)


@test
def what_was_read_is_synced_and_its_folder():
    """The header alone, a record, and what was cut."""
    for data, left in [(HEADER, HEADER), (EFFECT, EFFECT), (TORN_EFFECT, EFFECT)]:
        for kind, cause in [("fdatasync", NOT_SYNCED), ("fsync", FOLDER_NOT_SYNCED)]:
            write("needed", data)
            is_not_opened("needed", cause, FAILING_KIND=kind)
            has(needed=left)


# Files that are written anew

@test
def a_failed_rewrite_leaves_nothing():
    causes = {"write": WRITE_FAULT, "fdatasync": WRITE_FAULT, "link": NOT_NAMED, "fsync": FOLDER_NOT_SYNCED}
    for kind, cause in causes.items():
        is_not_written_anew("made", cause, FAILING_KIND=kind)
        has()
    is_written_anew("made")
    has(made=EFFECT)


@test
def a_new_file_is_locked_as_it_gets_its_name():
    is_written_anew("named", LOCKED_NAMES="")


@test
def an_old_draft_is_taken_away():
    """A rewrite that was killed at its end leaves its file under both names."""
    write("both", TORN)
    os.link("both", "both.new")
    is_not_written_anew("both", NOT_NAMED)
    has(both=TORN)


@test
def a_draft_that_lost_its_name_is_anothers():
    """An old draft is another's whole file by the time that it is locked. A draft that was just made is taken for an old one,
    and another's stands in its place."""
    write("old.new", TORN)
    is_not_written_anew("old", IN_USE, REPLACED="draft")
    has(old_new=OF_ANOTHER, old=TORN)
    is_not_written_anew("made", IN_USE, REPLACED="draft")
    has(old_new=OF_ANOTHER, old=TORN, made_new=OF_ANOTHER, made=b"")


# Files of version 1, which are renewed

# Commands with options, a removal of more than one, what stands for no request, and a torn end: 310 bytes. And what it
# becomes.
OLD = b"".join(
    [
        request(*"ZADD k 1 a 2 b".split()),
        b"*0\r\n",
        request(*"zadd k INCR +5 a".split()),
        request(*"ZADD k GT CH 1 b 9 c".split()),
        request(*"ZADD j -1.0 x".split()),
        request(*"ZREM k b z".split()),
        request(*"ZREMRANGEBYSCORE k (6 +inf".split()),
        b"*4\r\n$4\r\nZADD\r\n$1\r\nk\r\n",
    ]
)
OLD_RENEWED = HEADER + request(*"ZADD j -1 x".split()) + request(*"ZADD k 6 a".split())
A_AT_6 = b"*2\r\n$1\r\na\r\n$1\r\n6\r\n"


@test
def a_file_of_commands_is_renewed():
    same(len(OLD), 310)
    for data, torn, listed, left in [
        (b"", 0, NOTHING, HEADER),
        (HEADER[:-1], 23, NOTHING, HEADER),
        (b"*-1\r\n", 0, NOTHING, HEADER),
        (RECORD, 0, A_AT_1, EFFECT),
        (TORN, 2, A_AT_1, EFFECT),
        (OLD, 21, A_AT_6, OLD_RENEWED),
    ]:
        write("old", data)
        is_opened("old", torn, listed)
        has(old=left)
    is_opened("old", listed=A_AT_6)
    has(old=OLD_RENEWED)


@test
def a_made_file_is_read():
    is_opened("made", listed=NOTHING)
    has(made=HEADER)
    is_opened("made", listed=NOTHING)
    is_read("made", records=0, data=HEADER)
    has(made=HEADER)


@test
def a_failed_renewal_leaves_the_file():
    write("kept", TORN)
    for kind, cause in [("write", NOT_WRITTEN), ("fdatasync", NOT_WRITTEN), ("rename", NOT_NAMED)]:
        is_not_opened("kept", cause, "kept.new", FAILING_KIND=kind)
        has(kept=TORN)


@test
def the_folder_is_synced_behind_a_renewal():
    write("unsynced", RECORD)
    is_not_opened("unsynced", FOLDER_NOT_SYNCED, "unsynced.new", FAILING_KIND="fsync")
    has(unsynced=EFFECT)


@test
def what_stands_in_a_drafts_place_is_replaced_or_keeps_the_file_as_it_is():
    write("again", RECORD)
    write("again.new", b"a draft that was left")
    is_opened("again")
    has(again=EFFECT)
    write("again", RECORD)
    os.mkdir("again.new")
    is_not_opened("again", EXISTS, "again.new")
    has(again=RECORD)


@test
def a_renewed_file_has_the_permissions_of_the_old_one():
    write("private", RECORD)
    os.chmod("private", 0o600)
    is_not_opened("private", NOT_OPENED, "private.new", FAILING_KIND="fchmod")
    has(private=RECORD)
    is_opened("private")
    same(os.stat("private").st_mode & 0o777, 0o600)


@test
def a_renewed_file_is_locked_as_it_gets_its_name():
    write("placed", RECORD)
    is_opened("placed", LOCKED_NAMES="")
    has(placed=EFFECT)


@test
def a_file_that_lost_its_name_is_not_read():
    for is_refused in (is_not_opened, is_not_read):
        write("lost", RECORD)
        is_refused("lost", IN_USE, REPLACED="opened")
        has(lost=OF_ANOTHER)


@test
def a_link_leads_to_the_new_file():
    """Nothing but the file is left in the folder."""
    for data, listed, left in [(RECORD, A_AT_1, EFFECT), (None, NOTHING, HEADER)]:
        os.mkdir("linked")
        if data is not None:
            write("linked/true", data)
        os.symlink("linked/true", "link")
        for _ in range(2):
            is_opened("link", listed=listed)
            same((os.path.islink("link"), os.path.islink("linked/true"), read("linked/true")), (True, False, left))
        os.remove("link")
        os.remove("linked/true")
        os.rmdir("linked")


# Files in use

@contextmanager
def held_to_append(path):
    """A session that has opened a file."""
    session = start([PROGRAM, "stdio", "--file", path], stdin=subprocess.PIPE, stdout=subprocess.PIPE)
    session.stdin.write(request("PING"))
    session.stdin.flush()
    same(session.stdout.readline(), b"+PONG\r\n")
    yield
    same((session.communicate(timeout=SECONDS), session.returncode), ((b"", None), 0))


@contextmanager
def held_to_read(path):
    """A rewrite that has read a file, and can't print its number: the pipe is full."""
    reader, writer = os.pipe()
    os.set_blocking(writer, False)
    try:
        while True:
            os.write(writer, b"." * 4096)
    except BlockingIOError:
        os.set_blocking(writer, True)
    rewrite = start([PROGRAM, "rewrite", path, "held"], stdout=writer)
    os.close(writer)
    while not os.path.exists("held"):
        same(rewrite.poll(), None)
        time.sleep(0.001)
    yield
    with open(reader, "rb") as rest:
        same(rest.read().lstrip(b"."), b"records 1\n")
    same(rewrite.wait(SECONDS), 0)


@test
def beside_a_reader_another_one_reads_and_nobody_appends():
    write("shared", RECORD)
    with held_to_read("shared"):
        is_read("shared")
        is_not_opened("shared", IN_USE)
    has(shared=RECORD, held=EFFECT)


@test
def a_draft_in_use_is_left_alone():
    with held_to_append("used.new"):
        is_not_written_anew("used", IN_USE)
        has(used_new=HEADER)


@test
def a_draft_in_use_keeps_a_file_as_it_is():
    write("busy", RECORD)
    with held_to_append("busy.new"):
        is_not_opened("busy", IN_USE, "busy.new")
        has(busy=RECORD, busy_new=HEADER)


@test
def a_renewed_file_is_locked_under_its_name():
    write("locked", RECORD)
    with held_to_append("locked"):
        is_not_opened("locked", IN_USE)
        is_not_read("locked", IN_USE)
    has(locked=EFFECT)
