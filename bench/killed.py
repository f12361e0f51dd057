#!/usr/bin/env python3
"""Kills `celldb replay --db` at random moments, and looks at what its database file then holds.

    bench/killed.py [--program PATH] [--kills 200] [--tasks 120] [--seed 1]

At the top of the repository, after `rt ci` or `rt run` left the program in crates/celldb/out/celldb. The feed is the first
tasks of `celldb gen --number 7`. After each kill `celldb check` opens the file and reads it whole, and the rows of both
tables, as python's sqlite3 reads them, are those that a whole replay of the first n tasks leaves, for some n: that is the
image of the world after a prefix of the journal. A run that ended before its kill is no kill, and is done again.
"""
import argparse
import concurrent.futures
import functools
import hashlib
import pathlib
import random
import signal
import sqlite3
import subprocess
import sys
import tempfile
import time

HERE = pathlib.Path(__file__).resolve().parent
# How many bytes a block's key has.
KEY = 80


def number(text, at, size):
    return int.from_bytes(text[at : at + size], "big"), at + size


def task_end(text, at):
    """Where the task ends that begins here."""
    kind, at = number(text, at, 1)
    at += KEY * {2: 2, 7: 3}.get(kind, 1)
    if kind in (1, 2, 7):
        tops, at = number(text, at, 1)
        size, at = number(text, at + KEY * tops, 4)
        return at + size
    if kind == 4:
        size, at = number(text, at, 1)
        return at + size
    return at + (0 if kind == 3 else 4)


def feed_of(text):
    """The tasks of a feed: a list of phases, each a list of workers, each a list of tasks as bytes."""
    count, at = number(text, 4, 2)
    phases = []
    for _ in range(count):
        workers, at = number(text, at, 2)
        phases.append([])
        for _ in range(workers):
            tasks, at = number(text, at, 2)
            phases[-1].append([])
            for _ in range(tasks):
                end = task_end(text, at)
                phases[-1][-1].append(text[at:end])
                at = end
    return phases


def first(phases, tasks):
    """The text of the feed of the first tasks, by phase, worker and task."""
    text, left = [b"cdf1", len(phases).to_bytes(2, "big")], tasks
    for workers in phases:
        text.append(len(workers).to_bytes(2, "big"))
        for each in workers:
            taken, left = each[:left], max(left - len(each), 0)
            text += [len(taken).to_bytes(2, "big"), *taken]
    return b"".join(text)


def rows_in(path):
    """A sum of all rows of both tables, and the numbers of descriptions and of cells."""
    with sqlite3.connect(path) as database:
        tables = [database.execute(f"select * from {name} order by 1").fetchall() for name in ("descs", "cells")]
    return hashlib.sha256(repr(tables).encode()).hexdigest(), *map(len, tables)


class Prefixes:
    """What whole replays of the first tasks leave."""

    def __init__(self, program, phases, tasks):
        self.program, self.phases = program, phases
        self.totals = [self.replayed(n, [])[1] for n in range(tasks + 1)]

    def replayed(self, tasks, words):
        done = subprocess.run([self.program, "replay", *words], input=first(self.phases, tasks), capture_output=True, check=True)
        return done, tuple(done.stdout.decode().splitlines()[-4:-1])

    @functools.lru_cache(maxsize=None)
    def rows(self, tasks):
        with tempfile.TemporaryDirectory() as folder:
            path = f"{folder}/a.db"
            self.replayed(tasks, ["--db", path])
            return rows_in(path)

    def has(self, totals, rows):
        """Whether the totals and the rows are those after some first tasks; more than one number of tasks may have them."""
        return any(self.rows(n) == rows for n, due in enumerate(self.totals) if due == totals and (n == 0 or self.totals[n - 1] != due))


def killed(prefixes, text, seconds):
    """Kills one replay, and gives whether it was killed, whether the file holds a prefix, and how many blocks it has."""
    with tempfile.TemporaryDirectory() as folder:
        path = f"{folder}/a.db"
        feed = pathlib.Path(folder) / "feed"
        feed.write_bytes(text)
        with feed.open("rb") as source:
            child = subprocess.Popen([prefixes.program, "replay", "--db", path], stdin=source, stdout=subprocess.DEVNULL, stderr=subprocess.DEVNULL)
            try:
                child.wait(seconds)
            except subprocess.TimeoutExpired:
                child.kill()
        if child.wait() != -signal.SIGKILL:
            return False, True, 0
        checked = subprocess.run([prefixes.program, "check", "--db", path], capture_output=True)
        totals = tuple(checked.stdout.decode().splitlines())
        rows = rows_in(path)
        return True, checked.returncode == 0 and prefixes.has(totals, rows), rows[1]


def main():
    words = argparse.ArgumentParser(description=__doc__, formatter_class=argparse.RawDescriptionHelpFormatter)
    words.add_argument("--program", default=str(HERE.parent / "crates/celldb/out/celldb"))
    words.add_argument("--kills", type=int, default=200)
    words.add_argument("--tasks", type=int, default=120)
    words.add_argument("--seed", type=int, default=1)
    given = words.parse_args()
    phases = feed_of(subprocess.run([given.program, "gen", "--number", "7"], capture_output=True, check=True).stdout)
    prefixes = Prefixes(given.program, phases, given.tasks)
    text = first(phases, given.tasks)
    began = time.monotonic()
    prefixes.rows(given.tasks)
    whole = time.monotonic() - began
    chance, kills, wrong, blocks = random.Random(given.seed), 0, 0, set()
    with concurrent.futures.ThreadPoolExecutor(2) as pool:
        while kills < given.kills:
            moments = [chance.uniform(0, whole) for _ in range(given.kills - kills)]
            for was_killed, is_prefix, has in pool.map(lambda seconds: killed(prefixes, text, seconds), moments):
                kills += was_killed
                wrong += not is_prefix
                blocks |= {has} if was_killed else set()
    print(f"killed: {kills} kills, {len(blocks)} numbers of blocks from {min(blocks)} to {max(blocks)}, {wrong} files that hold no prefix")
    return 1 if wrong else 0


if __name__ == "__main__":
    sys.exit(main())
