"""Runs the blocks of docs/RECIPES.md as they stand, each section's against a server of its own.

A line of a block of sh is a command; the lines behind it that begin with `#` are what it prints on a terminal. A block of
Python is a program with those of its section before it; its lines that begin with `#` are what it prints.
"""
import os
import shutil

from clients import python_with_redis, shell, skip
from harness import HERE, same
from tcp import Server

PAGE = f"{HERE}/../docs/RECIPES.md"
# The port that the page's commands name.
PORT = "6380"
FENCE = "```"


def blocks():
    """The page's blocks in order: section, language, lines."""
    section, language, lines = None, None, []
    with open(PAGE) as page:
        for line in page.read().splitlines():
            if language is None and line.startswith("## "):
                section = line[3:]
            elif language is None and line.startswith(FENCE):
                language, lines = line[len(FENCE) :], []
            elif line == FENCE:
                yield section, language, lines
                language = None
            elif language is not None:
                lines.append(line)


def sections():
    """The sections that have blocks, in order."""
    return list(dict.fromkeys(section for section, _, _ in blocks()))


def of_section(wanted, language):
    return [lines for section, its, lines in blocks() if (section, its) == (wanted, language)]


def printed(line):
    """What a line of a block says is printed; or None where it is no such line."""
    return line[2:] if line.startswith("# ") or line == "#" else None


def commands(lines):
    """The commands of a block of sh, each with the lines that it prints."""
    found = []
    for line in lines:
        if printed(line) is None:
            found.append((line, []))
        else:
            found[-1][1].append(printed(line))
    return found


def as_it_stands(text, server):
    """The text with the server's port in place of the page's."""
    return text.replace(PORT, str(server.port))


def by_redis_cli(section, server):
    if not shutil.which("redis-cli"):
        return skip("redis-tools")
    for lines in of_section(section, "sh"):
        for command, wanted in commands(lines):
            # as on a terminal
            status, out = shell("sh", "-c", as_it_stands(command, server), env={**os.environ, "FAKETTY": "1"})
            same((command, status, out.decode().splitlines()), (command, 0, wanted))


def by_python(section, server, further=()):
    """Runs the section's program, and further lines of the same kind behind it."""
    python = python_with_redis()
    if not python:
        return skip("python3-redis")
    lines = [*sum(of_section(section, "python"), []), *further]
    wanted = [printed(line) for line in lines if printed(line) is not None]
    status, out = shell(python, "-c", as_it_stands("\n".join(lines), server))
    same((status, out.decode().splitlines()), (0, wanted))


def run_recipe(section):
    same((bool(of_section(section, "sh")), bool(of_section(section, "python"))), (True, True))
    with Server() as server:
        by_redis_cli(section, server)
        by_python(section, server)


# Four clients at once, which is as many as the server has workers.
JOBS_AT_ONCE = """
from concurrent.futures import ThreadPoolExecutor

client.zadd("jobs", {number: number for number in range(200)})
with ThreadPoolExecutor(4) as workers:
    taken = sum(workers.map(lambda _: list(iter(lambda: take(1000), None)), range(4)), [])
print(len(taken), len(set(taken)), client.zcard("jobs"))
# 200 200 1
"""
CALLS_AT_ONCE = """
from concurrent.futures import ThreadPoolExecutor

with ThreadPoolExecutor(4) as callers:
    allowed = sum(callers.map(lambda now: is_allowed("bob", 10, 60_000, now), range(200)))
print(0 < allowed <= 10, client.zcard("requests:bob") == allowed)
# True True
"""


def run_at_once(section, further):
    with Server() as server:
        by_python(section, server, further.splitlines())
