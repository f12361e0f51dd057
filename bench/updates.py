#!/usr/bin/env python3
"""Measures how long the built program `inspect` takes to prepare a Merkle update.

    bench/updates.py [--updates N] [--times N] [--counted N]

At the top of the repository, after `rt ci` or `rt run` left the program in crates/inspect/out. The lines are those of
bench/make_update.py: updates of 191 shown cells over a state of 1,023. Preparing is what `updates` takes beyond `bags`,
which reads the same lines and works out every hash in them; the least of N runs is taken of each
(7 where it isn't given), since what else the machine does only adds. Where valgrind is there, the instructions of both
are counted over fewer updates. It is no part of the gate.
"""
import argparse
import os
import pathlib
import re
import shutil
import subprocess
import sys
import tempfile

TOP = pathlib.Path(__file__).resolve().parent.parent
PROGRAM = str(TOP / "crates/inspect/out/inspect")
# The words of both runs.
READ, PREPARE = ["bags"], ["updates"]


def make(updates):
    """A file of a state and so many updates."""
    lines = tempfile.NamedTemporaryFile()
    subprocess.run([sys.executable, TOP / "bench/make_update.py", str(updates)], stdout=lines, check=True)
    return lines


def check(path, updates):
    """Stops unless each update is prepared."""
    with open(path, "rb") as source:
        run = subprocess.run([PROGRAM, *PREPARE], stdin=source, capture_output=True, check=True, text=True)
    said = run.stdout.splitlines()
    if len(said) != updates + 1 or not all(line.startswith("ok shown 191 new 191 ") for line in said[1:]):
        sys.exit(f"the updates aren't prepared: {said[:2]}")


def seconds(words, path):
    """Processor seconds of one run."""
    with open(path, "rb") as source:
        child = subprocess.Popen([PROGRAM, *words], stdin=source, stdout=subprocess.DEVNULL)
        _, status, usage = os.wait4(child.pid, 0)
        child.returncode = os.waitstatus_to_exitcode(status)
    if child.returncode != 0:
        sys.exit(f"the program ended with status {child.returncode}")
    return usage.ru_utime + usage.ru_stime


def instructions(words, path):
    """Instructions of one run."""
    count = ["valgrind", "--tool=callgrind", "--callgrind-out-file=/dev/null", PROGRAM, *words]
    with open(path, "rb") as source:
        run = subprocess.run(count, stdin=source, stdout=subprocess.DEVNULL, stderr=subprocess.PIPE, check=True, text=True)
    return int(re.search(r"Collected : (\d+)", run.stderr).group(1))


def report(what, unit, read, prepare, updates):
    print(f"{what:14}{read / updates:12.1f}{prepare / updates:12.1f}{(prepare - read) / updates:12.1f}  {unit}", flush=True)


def main():
    words = argparse.ArgumentParser(description=__doc__, formatter_class=argparse.RawDescriptionHelpFormatter)
    words.add_argument("--updates", type=int, default=1000)
    words.add_argument("--times", type=int, default=7)
    words.add_argument("--counted", type=int, default=20)
    given = words.parse_args()
    print(f"{'an update':14}{'read':>12}{'both':>12}{'prepare':>12}")
    with make(given.updates) as lines:
        check(lines.name, given.updates)
        runs = [(seconds(READ, lines.name), seconds(PREPARE, lines.name)) for _ in range(given.times)]
    read, prepare = (1e6 * min(times) for times in zip(*runs))
    report("time", "microseconds of the processor", read, prepare, given.updates)
    if shutil.which("valgrind"):
        with make(given.counted) as lines:
            read, prepare = (instructions(words, lines.name) / 1000 for words in (READ, PREPARE))
        report("instructions", "thousands", read, prepare, given.counted)


main()
