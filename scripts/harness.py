"""What the tests of the built program share: they run it, compare what they find with what they want, and end in time.

A script that uses this is run as `SCRIPT [PROGRAM [TEST ..]]`: on the program that was built in crates/zcrackd or on another
one, all its tests or those of these names. PATIENCE in the environment is by how much longer it may run than it says, for
a busy machine: `PATIENCE=3 scripts/serve_test`.
"""
import os
import pty
import select
import shutil
import signal
import subprocess
import sys
import tempfile
import time

HERE = os.path.dirname(os.path.realpath(__file__))
PROGRAM = os.path.realpath(sys.argv[1] if len(sys.argv) > 1 else f"{HERE}/../crates/zcrackd/out/zcrackd")
PATIENCE = float(os.environ.get("PATIENCE", 1))
SECONDS = 20
# What a test may take to clean up once its time is over.
LAST_SECONDS = 5
# So many programs run at once where one of them does not wait for another.
AT_ONCE = os.cpu_count() or 1

tests = []
started = []


class TookTooLong(Exception):
    """The time of a test is over. It is no OSError, which tests take for a peer that is gone."""


def test(function):
    tests.append(function)
    return function


def start(words, **how):
    """Starts a process that ends with the test at the latest."""
    process = subprocess.Popen(words, **how)
    started.append(process)
    return process


def end_started():
    for process in started:
        if process.poll() is None:
            process.kill()
            process.wait()
    started.clear()


def run(*words, given=b"", **how):
    """Runs the program to its end; gives its status, standard output and standard error."""
    how = {"stdin": None if given is None else subprocess.PIPE, "stdout": subprocess.PIPE, "stderr": subprocess.PIPE, **how}
    process = start([PROGRAM, *words], **how)
    with process:
        try:
            out, lines = process.communicate(given, timeout=SECONDS)
        finally:
            process.kill()
    return process.returncode, out, lines


def with_terminal(use):
    """Calls `use` with a terminal's descriptor, for a program's standard error; gives what it gave, and what the terminal got."""
    controller, terminal = pty.openpty()
    given = use(terminal)
    os.close(terminal)
    got = b""
    while select.select([controller], [], [], 1)[0]:
        try:
            more = os.read(controller, 4096)
        except OSError:
            break
        if not more:
            break
        got += more
    os.close(controller)
    return given, got.replace(b"\r\n", b"\n")


def on_a_terminal(*words):
    """Runs the program with a terminal as its standard error; gives its status and what the terminal got."""
    (status, _, _), got = with_terminal(lambda terminal: run(*words, stderr=terminal))
    return status, got


def same(found, wanted):
    if found != wanted:
        raise AssertionError(f"{found!r} in place of {wanted!r}")


def write(path, data):
    with open(path, "wb") as file:
        file.write(data)


def read(path):
    with open(path, "rb") as file:
        return file.read()


def refusing():
    """A library by which calls are refused, fail or move few bytes, as refusing.c says. It is made once in a test's folder."""
    library = os.path.abspath("refusing.so")
    if not os.path.exists(library):
        subprocess.run(["cc", "-shared", "-fPIC", "-o", library, f"{HERE}/refusing.c", "-ldl"], check=True)
    return library


class Run:
    """The tests of a script in turn, each in an empty folder of its own, and how many passed and failed."""

    def __init__(self, seconds, chosen):
        self.begun, self.seconds, self.chosen = time.monotonic(), seconds * PATIENCE, chosen
        self.passed, self.rings, self.room = 0, 0, None

    def left(self):
        return self.begun + self.seconds - time.monotonic()

    def ring(self, _signal, _frame):
        """Ends the test that runs; and the script, where the test did not end by that."""
        self.rings += 1
        if self.rings == 1:
            raise TookTooLong(f"{self.seconds:.0f} seconds for the script are over")
        print("FAILED: a test did not end once its time was over")
        end_started()
        os.chdir("/")
        shutil.rmtree(self.room, ignore_errors=True)
        self.tell()
        sys.stdout.flush()
        os._exit(1)

    def guard(self, function):
        """Runs a test until the script's time is over."""
        self.rings = 0
        try:
            signal.setitimer(signal.ITIMER_REAL, max(self.left(), 0.001), LAST_SECONDS)
            function()
            self.passed += 1
        except Exception as error:
            print(f"FAILED {function.__name__}: {type(error).__name__}: {error}", flush=True)
        finally:
            end_started()
            signal.setitimer(signal.ITIMER_REAL, 0)

    def one(self, function):
        with tempfile.TemporaryDirectory(prefix="program-test-") as self.room:
            os.chdir(self.room)
            begun = time.monotonic()
            self.guard(function)
            os.chdir("/")
        if len(self.chosen) < len(tests):
            print(f"{function.__name__}: {time.monotonic() - begun:.1f} s", flush=True)

    def tell(self):
        print(f"{os.path.basename(sys.argv[0])}: {time.monotonic() - self.begun:.0f} s")
        print(f"{self.passed} passed, {len(self.chosen) - self.passed} failed")


def main(seconds):
    """Runs the tests, for so many seconds at most; the last line is 'N passed, M failed', the one before tells the seconds."""
    # A shell's background job ignores SIGINT, and so would the programs that it starts, which the tests signal.
    signal.signal(signal.SIGINT, signal.default_int_handler)
    names = sys.argv[2:]
    unknown = set(names) - {it.__name__ for it in tests}
    if unknown:
        sys.exit(f"there is no test {', '.join(sorted(unknown))}")
    todo = Run(seconds, [it for it in tests if not names or it.__name__ in names])
    signal.signal(signal.SIGALRM, todo.ring)
    for function in todo.chosen:
        todo.one(function)
    todo.tell()
    return 0 if todo.passed == len(todo.chosen) else 1
