#!/usr/bin/env python3
"""Measures `celldb replay` of feeds of several lengths: processor seconds, microseconds a changed cell, and peak memory.

    bench/blocks.py [--blocks N ..] [--number N] [--times N] [--program PATH]

At the top of the repository, after `rt ci` or `rt run` left the program in crates/celldb/out/celldb. A feed of N blocks (50,
200 and 1000 where they aren't given) begins as `celldb gen` prints it, with its reads, slices and expiries; behind its last
block comes the feed of the next number, whose blocks are other ones. It is cut behind the phase that has its last block. The
changed cells are those that the report tells: the cells of each zero state and the new cells of each block. All blocks have
to be stored, and no task refused. Each row is the least of so many runs (3), since what else the machine does only adds. A
peak under some 15 MB is that of Python, which starts the program. It is no part of the gate.
"""
import argparse
import os
import pathlib
import subprocess
import sys
import tempfile

from killed import feed_of

TOP = pathlib.Path(__file__).resolve().parent.parent
BLOCK = 2


def is_block(task):
    return task[0] == BLOCK


def phases_of(program, number, blocks):
    """The phases of as many feeds as it takes, up to the one with the last block; later blocks are left out."""
    phases, left = [], blocks
    while left:
        made = subprocess.run([program, "gen", "--number", str(number)], stdin=subprocess.DEVNULL, stdout=subprocess.PIPE, check=True)
        for phase in feed_of(made.stdout):
            kept = []
            for worker in phase:
                kept.append([])
                for task in worker:
                    if is_block(task) and not left:
                        continue
                    left -= is_block(task)
                    kept[-1].append(task)
            phases.append(kept)
            if not left:
                break
        number += 1
    return phases


def text_of(phases):
    """The bytes of a feed."""
    def count(things):
        return len(things).to_bytes(2, "big")

    return b"cdf1" + count(phases) + b"".join(
        count(phase) + b"".join(count(worker) + b"".join(worker) for worker in phase) for phase in phases)


def measured(program, path):
    """Processor seconds, peak megabytes and the report of one run."""
    with open(path, "rb") as source, tempfile.TemporaryFile() as report:
        child = subprocess.Popen([program, "replay"], stdin=source, stdout=report)
        _, status, usage = os.wait4(child.pid, 0)
        child.returncode = os.waitstatus_to_exitcode(status)
        if child.returncode != 0:
            sys.exit(f"{program} replay ended with status {child.returncode}")
        report.seek(0)
        return usage.ru_utime + usage.ru_stime, usage.ru_maxrss / 1000, report.read().decode().splitlines()


def changed_in(report, blocks):
    """The cells of the zero states and the new cells of the blocks, where none was refused."""
    tasks = [line.split() for line in report if line[0].isdigit()]
    if not report[-1].endswith(" 0 refused") or sum(task[1] == "block" for task in tasks) != blocks:
        sys.exit(f"not all was stored: {report[-1]}")
    return sum(int(task[-1]) for task in tasks if task[1] in ("zero", "block"))


def main():
    words = argparse.ArgumentParser(description=__doc__, formatter_class=argparse.RawDescriptionHelpFormatter)
    words.add_argument("--blocks", type=int, nargs="+", default=[50, 200, 1000])
    words.add_argument("--number", type=int, default=7)
    words.add_argument("--times", type=int, default=3)
    words.add_argument("--program", type=pathlib.Path, default=TOP / "crates/celldb/out/celldb")
    given = words.parse_args()
    if min(given.blocks) < 1 or given.times < 1:
        words.error("a feed has a block at least, and is run once at least")
    program = str(given.program.resolve())
    print(f"{'blocks':>8}{'feed MB':>10}{'changed':>10}{'seconds':>10}{'us/cell':>10}{'peak MB':>10}")
    for blocks in given.blocks:
        with tempfile.NamedTemporaryFile() as feed:
            feed.write(text_of(phases_of(program, given.number, blocks)))
            feed.flush()
            runs = [measured(program, feed.name) for _ in range(given.times)]
            changed = changed_in(runs[0][2], blocks)
            seconds, peak = min(run[0] for run in runs), min(run[1] for run in runs)
            size = os.path.getsize(feed.name) / 1e6
            print(f"{blocks:8}{size:10.2f}{changed:10}{seconds:10.3f}{seconds / changed * 1e6:10.1f}{peak:10.1f}", flush=True)


if __name__ == "__main__":
    main()
