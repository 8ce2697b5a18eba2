"""A part of program_test: files that are cut after each byte, each of whose bytes is another one, and with what is no record
or no header. They are read in pieces, by reads that fail, and by reads that a signal interrupts.

A session tells what is wrong with a file, or lists its sets. Then a file of version 2 has its whole bytes, and one of
version 1 is renewed. A rewrite makes a file of the same sets, whatever the version.
"""
import os
import tempfile
from concurrent.futures import ThreadPoolExecutor

from harness import AT_ONCE, read, refusing, run, same, test, write
from no_memory import RECORDS
from tcp import HEADER, request
from wanting import each_refused
from worked import bytes_of

WHOLE_READS = 65_536
# How many bytes a read gives at most.
CHUNKS = (1, 3, 7, 98)
ADD = request(*"ZADD k 1 a".split())
EFFECT = HEADER + ADD
ASKED = request(*"ZRANGEBYSCORE k -inf +inf WITHSCORES".split()) + request(*"ZSCORE ! a".split())
READ_FAULT = (3, b"", b"zcrackd: append file read fault\n")

# Listings of k, and scores of `a` under the key `!`.
NOTHING, A_AT_1, B_AT_2 = "*0~", "*2~$1~a~$1~1~", "*2~$1~b~$1~2~"
BOTH = "*4~$1~a~$1~1~$1~b~$1~2~"
NO_SCORE, SCORE_1 = "$-1~", "$1~1~"


def damaged(at):
    return at, b"zcrackd: append file damaged at byte %d\n" % at


def no_command(at):
    return at, b"zcrackd: append file has no command at byte %d\n" % at


UNKNOWN = 0, b"zcrackd: unknown append file version\n"

# A file that is cut: behind how many bytes at least, and before how many, its version, the bytes that are whole then, and the
# listing of k.
CUTS = [
    (RECORDS, 0, 35, 1, 0, NOTHING),
    (RECORDS, 35, 70, 1, 35, A_AT_1),
    (RECORDS, 70, 98, 1, 70, BOTH),
    (RECORDS, 98, 99, 1, 98, B_AT_2),
    (EFFECT, 0, 24, 1, 0, NOTHING),
    (EFFECT, 24, 59, 2, 24, NOTHING),
    (EFFECT, 59, 60, 2, 59, A_AT_1),
]

# A file one of whose bytes is a `!`: from which byte on, and before which one; what it is read as, which is its version, all
# of whose bytes are whole, or a fault; the listing of k, and the score of `a` under the key `!`. These are each byte of the
# first of the three records, and of the header and a record: those of its name, its score, its key and its member make
# another one.
DAMAGES = [
    (RECORDS, 0, 8, damaged(0), NOTHING, NO_SCORE),
    (RECORDS, 8, 12, no_command(0), NOTHING, NO_SCORE),
    (RECORDS, 12, 18, damaged(0), NOTHING, NO_SCORE),
    (RECORDS, 18, 19, 1, B_AT_2, SCORE_1),
    (RECORDS, 19, 25, damaged(0), NOTHING, NO_SCORE),
    (RECORDS, 25, 26, no_command(0), NOTHING, NO_SCORE),
    (RECORDS, 26, 32, damaged(0), NOTHING, NO_SCORE),
    (RECORDS, 32, 33, 1, "*4~$1~!~$1~1~$1~b~$1~2~", NO_SCORE),
    (RECORDS, 33, 35, damaged(0), NOTHING, NO_SCORE),
    # the header: its name or its version
    (EFFECT, 0, 8, damaged(0), NOTHING, NO_SCORE),
    (EFFECT, 8, 15, no_command(0), NOTHING, NO_SCORE),
    (EFFECT, 15, 21, damaged(0), NOTHING, NO_SCORE),
    (EFFECT, 21, 22, UNKNOWN, NOTHING, NO_SCORE),
    (EFFECT, 22, 24, damaged(0), NOTHING, NO_SCORE),
    (EFFECT, 24, 32, damaged(24), NOTHING, NO_SCORE),
    (EFFECT, 32, 36, no_command(24), NOTHING, NO_SCORE),
    (EFFECT, 36, 42, damaged(24), NOTHING, NO_SCORE),
    (EFFECT, 42, 43, 2, NOTHING, SCORE_1),
    (EFFECT, 43, 49, damaged(24), NOTHING, NO_SCORE),
    (EFFECT, 49, 50, no_command(24), NOTHING, NO_SCORE),
    (EFFECT, 50, 56, damaged(24), NOTHING, NO_SCORE),
    (EFFECT, 56, 57, 2, "*2~$1~!~$1~1~", NO_SCORE),
    (EFFECT, 57, 59, damaged(24), NOTHING, NO_SCORE),
]

# What stands for no request: it is no record, and counts among the whole bytes.
SKIPS = b"*0\r\n*-1\r\n"
# ZADD k 1 a 2 b 3 c and ZREMRANGEBYSCORE k (1 2: records of 63 and 49 bytes.
THREE_AND_A_REMOVAL = request(*"ZADD k 1 a 2 b 3 c".split()) + request(*"ZREMRANGEBYSCORE k (1 2".split())
# ZADD j -3 x and ZADD k 1 B 1 a 1 b: records of 36 and 63 bytes, behind the header.
TWO_SETS = request(*"ZADD j -3 x".split()) + request(*"ZADD k 1 B 1 a 1 b".split())
# ZCARD k changes nothing.
CARD = request("ZCARD", "k")
REMOVE, REMOVE_RANGE = RECORDS[70:], request(*"ZREMRANGEBYSCORE k 1 +inf".split())
ADD_IN_SMALL_LETTERS = request(*"zadd k 1 a".split())
ADD_NX, ADD_XX, ADD_GT, ADD_LT, ADD_CH, INCREASE = [
    request(*f"ZADD k {option} 1 a".split()) for option in ("NX", "XX", "GT", "LT", "ch", "INCR")
]
# What is nearly the header.
OF_VERSION_3, OF_VERSION_22, OF_NO_VERSION = [request("ZCRACKD", it) for it in ("3", "22", "")]
OF_THREE_WORDS, OF_ONE_WORD, IN_SMALL_LETTERS = request("ZCRACKD", 2, 2), request("ZCRACKD"), request("zcrackd", 2)

# A file, its version, the bytes that are whole and those of its torn end, and the listing of k.
READ = [
    (RECORDS, 1, 98, 0, B_AT_2),
    (ADD, 1, 35, 0, A_AT_1),
    (THREE_AND_A_REMOVAL, 1, 112, 0, "*4~$1~a~$1~1~$1~c~$1~3~"),
    (HEADER + TWO_SETS, 2, 123, 0, "*6~$1~B~$1~1~$1~a~$1~1~$1~b~$1~1~"),
    (b"*4\r\n$4\r", 1, 0, 7, NOTHING),
    (RECORDS[:80], 1, 70, 10, BOTH),
    (SKIPS, 1, 9, 0, NOTHING),
    (b"", 1, 0, 0, NOTHING),
    (HEADER, 2, 24, 0, NOTHING),
    (EFFECT, 2, 59, 0, A_AT_1),
    (HEADER + ADD_IN_SMALL_LETTERS, 2, 59, 0, A_AT_1),
    (HEADER + ADD + REMOVE, 2, 87, 0, NOTHING),
    (HEADER + ADD + REMOVE_RANGE, 2, 110, 0, NOTHING),
    (HEADER + SKIPS + ADD + SKIPS, 2, 77, 0, A_AT_1),
    (SKIPS + HEADER + ADD, 2, 68, 0, A_AT_1),
    (SKIPS + ADD, 1, 44, 0, A_AT_1),
    (ADD_NX + ADD_CH, 1, 86, 0, A_AT_1),
    (INCREASE + ADD_GT + ADD_LT + ADD_XX, 1, 174, 0, A_AT_1),
]

# A file, the fault, and the listing of k by the records before.
NOT_READ = [
    (RECORDS[:39] + b"!" + RECORDS[40:], damaged(35), A_AT_1),
    (RECORDS[:70] + CARD, no_command(70), BOTH),
    (HEADER + HEADER, no_command(24), NOTHING),
    (HEADER + ADD + HEADER, no_command(59), A_AT_1),
    (ADD + HEADER, no_command(35), A_AT_1),
    (ADD + OF_VERSION_3, no_command(35), A_AT_1),
    (HEADER + OF_VERSION_3, no_command(24), NOTHING),
    (HEADER + CARD, no_command(24), NOTHING),
    (HEADER + ADD_NX, no_command(24), NOTHING),
    (HEADER + ADD_XX, no_command(24), NOTHING),
    (HEADER + ADD + ADD_GT, no_command(59), A_AT_1),
    (HEADER + ADD_LT, no_command(24), NOTHING),
    (HEADER + ADD_CH, no_command(24), NOTHING),
    (HEADER + SKIPS + INCREASE, no_command(33), NOTHING),
    (OF_VERSION_3, UNKNOWN, NOTHING),
    (SKIPS + OF_VERSION_22 + ADD, UNKNOWN, NOTHING),
    (OF_NO_VERSION + b"no record", UNKNOWN, NOTHING),
    (OF_THREE_WORDS + ADD, no_command(0), NOTHING),
    (OF_ONE_WORD, no_command(0), NOTHING),
    (IN_SMALL_LETTERS + ADD, no_command(0), NOTHING),
    (SKIPS + IN_SMALL_LETTERS, no_command(9), NOTHING),
]

# How many bytes a read gives, and how many reads the three records then take. The last one finds the end.
FAILING_READS = [(1, 99), (3, 34), (7, 15), (WHOLE_READS, 2)]
# How often a signal interrupts each read, and whether the file is read then.
INTERRUPTED_READS = [(1, True), (2, True), (99, True), (100, False)]


class File:
    """A file of these bytes, and what it has to be read as: by a version, its whole bytes and the listing of k and the score
    of `a` under `!`, or by a fault and the same of the bytes before."""

    def __init__(self, data, found, whole, listed, score=NO_SCORE):
        self.data, self.found, self.whole, self.listed, self.score = data, found, whole, listed, score
        self.told = b"zcrackd: torn end of %d bytes\n" % (len(data) - whole) if whole < len(data) else b""
        self.answers = bytes_of(listed + score)

    def sets(self):
        """The records of these sets, in the order of a rewrite, and how many there are."""
        words = self.listed.split("~")[2::2]
        pairs = [it for member, score in zip(words[::2], words[1::2]) for it in (score, member)]
        others = [request("ZADD", "!", self.score.split("~")[1], "a")] if self.score != NO_SCORE else []
        j = [TWO_SETS[:36]] if TWO_SETS in self.data else []
        return [*others, *j, *([request("ZADD", "k", *pairs)] if pairs else [])]

    def after(self):
        """What the file has once it was opened for appending."""
        return self.data[: self.whole] if self.found == 2 else HEADER + b"".join(self.sets())

    def is_served(self, path, most):
        """A session reads it in pieces of so many bytes."""
        write(path, self.data)
        before = os.stat(path).st_ino
        env = {"LD_PRELOAD": refusing(), "MOST_READ": str(most)}
        ended, kept = run("stdio", "--file", path, given=ASKED, env=env), read(path)
        # One of version 1 is another file then.
        same((self.data, most, os.stat(path).st_ino != before), (self.data, most, self.found == 1))
        if self.found in (1, 2):
            same((self.data, most, ended, kept), (self.data, most, (0, self.answers, self.told), self.after()))
        else:
            same((self.data, most, ended, kept), (self.data, most, (3, b"", self.found[1]), self.data))

    def is_rewritten(self, path):
        """A rewrite makes a file of its sets, or none, and leaves it."""
        write(path, self.data)
        ended = run("rewrite", path, f"{path}.made")
        if self.found in (1, 2):
            records = self.sets()
            same((self.data, ended), (self.data, (0, b"records %d\n" % len(records), self.told)))
            same((read(f"{path}.made"), read(path)), (HEADER + b"".join(records), self.data))
        else:
            same((self.data, ended, read(path)), (self.data, (3, b"", self.found[1]), self.data))
            # The bytes before the fault are those of a file that is read.
            before = File(self.data[: self.found[0]], 0, self.found[0], self.listed, self.score)
            write(path, before.data)
            same((self.data, run("stdio", "--file", path, given=ASKED)), (self.data, (0, before.answers, b"")))


def are_read(files, chunks):
    """Files are read as they should be, in each of these pieces."""
    refusing()

    def judge(file):
        path = tempfile.mktemp(dir=".")
        for most in chunks:
            file.is_served(path, most)
        file.is_rewritten(path)

    with ThreadPoolExecutor(AT_ONCE) as pool:
        list(pool.map(judge, files))


@test
def a_file_is_cut_after_each_byte():
    are_read([File(data[:size], version, whole, listed)
              for data, least, end, version, whole, listed in CUTS for size in range(least, end)], CHUNKS)


@test
def each_byte_of_a_record_is_damaged():
    found = []
    for data, first, end, what, listed, score in DAMAGES:
        for at in range(first, end):
            found.append(File(data[:at] + b"!" + data[at + 1 :], what, len(data), listed, score))
    same(len(found), 35 + 59)
    are_read(found, CHUNKS)


@test
def files_are_read_as_told():
    for data, _, whole, torn, _ in READ:
        same((data, whole + torn), (data, len(data)))
    are_read([File(data, version, whole, listed) for data, version, whole, _, listed in READ], [WHOLE_READS])
    are_read([File(data, fault, len(data), listed) for data, fault, listed in NOT_READ], [WHOLE_READS])


@test
def a_file_is_left_whichever_read_of_it_fails():
    for most, reads in FAILING_READS:
        def attempt(room, env):
            write(f"{room}/kept", RECORDS)
            ended = run("stdio", "--file", f"{room}/kept", given=ASKED, env={**env, "MOST_READ": str(most)})
            return ended, read(f"{room}/kept")

        *found, last = each_refused("FAILING_READ", attempt)
        same((most, found), (most, [(READ_FAULT, RECORDS)] * reads))
        same((most, last), (most, ((0, bytes_of(B_AT_2 + NO_SCORE), b""), HEADER + RECORDS[35:70])))


@test
def a_reload_reads_on_however_often_it_is_interrupted():
    """A hundred calls are made at most."""
    for often, is_read in INTERRUPTED_READS:
        write("kept", RECORDS)
        env = {"LD_PRELOAD": refusing(), "INTERRUPTED_READ": str(often), "CALLS": f"calls{often}", "MOST_READ": "35"}
        wanted = (0, bytes_of(B_AT_2 + NO_SCORE), b"") if is_read else READ_FAULT
        same((often, run("stdio", "--file", "kept", given=ASKED, env=env)), (often, wanted))
        # The three records come by three reads, and a last one finds the end.
        reads = read(f"calls{often}").split(b"w")[0]
        same((often, reads), (often, (b"!" * often + b"r") * 4 if is_read else b"!" * often))
