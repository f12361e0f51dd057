#!/usr/bin/env python3
"""Measures `celldb run` beside `celldb replay`: seconds by the clock, and processor seconds.

    bench/threads.py [--workers N] [--tasks N] [--times N] [--program PATH]

At the top of the repository, after `rt ci` or `rt run` left the program in crates/celldb/out/celldb. Two feeds are done: the
one that `celldb gen --number 7` prints, and one whose time is preparing: a state of 1,023 cells, and then so many workers (4)
with so many blocks over it each (50). Each block's update shows the whole state in both halves and has 10 new cells, so its
bag is read, hashed and paired outside every turn, and little is left to store. Each row is the least of so many runs (5)
in turn of both commands, since what else the machine does only adds; the reports must be the same. It is no part of the gate.
"""
import argparse
import os
import pathlib
import subprocess
import sys
import tempfile
import time

from blocks import text_of
from make_update import LEAVES, State, bag, inner, update_of

TOP = pathlib.Path(__file__).resolve().parent.parent
ZERO, BLOCK = bytes([1]), bytes([2])


def key(seqno, root, file):
    """The key of a block of workchain 0."""
    return (0).to_bytes(4, "big") + (1 << 63).to_bytes(8, "big") + seqno.to_bytes(4, "big") + root + file


def stored(text):
    """No tops, and a bag."""
    return bytes([0]) + len(text).to_bytes(4, "big") + text


def whole_update(state, writer):
    """The state with one leaf written anew; both halves are shown whole."""
    place = writer % LEAVES
    cell = state.leaf(place, writer)
    for row in reversed(state.rows[1:]):
        beside = row[place ^ 1]
        cell = inner(cell, beside) if place % 2 == 0 else inner(beside, cell)
        place //= 2
    return update_of(state.rows[0][0], cell)


def preparing(workers, tasks):
    """A feed of blocks over one state whose time is preparing."""
    state = State(0, 0)
    root = state.rows[0][0]
    first = key(0, root.hash, bytes(32))
    work = []
    for worker in range(workers):
        work.append([])
        for task in range(tasks):
            writer = 1 + worker * tasks + task
            name = key(1, bytes(32), writer.to_bytes(32, "big"))
            work[-1].append(BLOCK + name + first + stored(bag(whole_update(state, writer))))
    return text_of([[[ZERO + first + stored(bag(root))]], work])


def measured(program, command, path):
    """Seconds by the clock, processor seconds, and the report of one run."""
    with open(path, "rb") as source, tempfile.TemporaryFile() as report:
        begin = time.monotonic()
        child = subprocess.Popen([program, command], stdin=source, stdout=report)
        _, status, usage = os.wait4(child.pid, 0)
        seconds = time.monotonic() - begin
        child.returncode = os.waitstatus_to_exitcode(status)
        if child.returncode != 0:
            sys.exit(f"{program} {command} ended with status {child.returncode}")
        report.seek(0)
        return seconds, usage.ru_utime + usage.ru_stime, report.read().decode()


def main():
    words = argparse.ArgumentParser(description=__doc__, formatter_class=argparse.RawDescriptionHelpFormatter)
    words.add_argument("--workers", type=int, default=4)
    words.add_argument("--tasks", type=int, default=50)
    words.add_argument("--times", type=int, default=5)
    words.add_argument("--program", type=pathlib.Path, default=TOP / "crates/celldb/out/celldb")
    given = words.parse_args()
    program = str(given.program.resolve())
    made = subprocess.run([program, "gen", "--number", "7"], stdin=subprocess.DEVNULL, stdout=subprocess.PIPE, check=True).stdout
    print(f"{'feed':12}{'replay s':>10}{'run s':>10}{'times':>8}{'replay cpu':>12}{'run cpu':>10}")
    for name, text in (("gen 7", made), ("preparing", preparing(given.workers, given.tasks))):
        with tempfile.NamedTemporaryFile() as feed:
            feed.write(text)
            feed.flush()
            pairs = [[measured(program, command, feed.name) for command in ("replay", "run")] for _ in range(given.times)]
        reports = {run[2] for pair in pairs for run in pair}
        if len(reports) != 1 or not reports.pop().endswith(" 0 refused\n"):
            sys.exit(f"{name}: the reports differ, or a task was refused")
        (replay, cpu), (run, run_cpu) = ([min(pair[which][what] for pair in pairs) for what in (0, 1)] for which in (0, 1))
        print(f"{name:12}{replay:10.3f}{run:10.3f}{replay / run:8.2f}{cpu:12.3f}{run_cpu:10.3f}", flush=True)


if __name__ == "__main__":
    main()
