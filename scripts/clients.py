"""What the tests of clients share: how a client is run, and how one that is not there is told."""
import functools
import shutil
import subprocess

from harness import SECONDS


def skip(package):
    print(f"skipped: {package} is not installed")


def shell(*words, given=b"", **how):
    """Runs a client; gives its status and what it printed."""
    if not shutil.which(words[0]):
        return None, b""
    ended = subprocess.run([str(word) for word in words], input=given, capture_output=True, timeout=SECONDS, **how)
    return ended.returncode, ended.stdout


def at(server):
    return ("-h", "127.0.0.1", "-p", server.port)


@functools.cache
def python_with_redis():
    """A python3 that has Debian's redis, where another one stands before it on the path; or None."""
    has_redis = "import importlib.util, sys; sys.exit(importlib.util.find_spec('redis') is None)"
    pythons = (it for it in ("/usr/bin/python3", "python3") if shell(it, "-c", has_redis)[0] == 0)
    return next(pythons, None)
