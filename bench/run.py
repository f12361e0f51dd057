#!/usr/bin/env python3
"""Runs the built programs over bags of several sizes, and prints processor seconds, cells a second and peak memory.

    bench/run.py [--cells N ..] [--low BYTES] [--high BYTES] [--times N] [--against FOLDER]

At the top of the repository, after `rt ci` or `rt run` left the programs in crates/*/out. FOLDER has programs of the same
names, as an earlier change built them, and each is run beside the one of this change, in turn. Each row is the least of N runs
(3 where it isn't given), since what else the machine does only adds. A peak under some 15 MB is that of Python, which
starts the programs. It is no part of the gate.
"""
import argparse
import os
import pathlib
import subprocess
import sys
import tempfile

TOP = pathlib.Path(__file__).resolve().parent.parent
WORK = [
    ("read", "inspect", ["bags", "--raw"]),
    ("export", "inspect", ["bags", "--raw", "--export"]),
    ("zero", "celldb", ["zero"]),
]


def measured(program, words, path):
    """Processor seconds and peak kilobytes of one run."""
    with open(path, "rb") as source:
        child = subprocess.Popen([program, *words], stdin=source, stdout=subprocess.DEVNULL)
        _, status, usage = os.wait4(child.pid, 0)
        child.returncode = os.waitstatus_to_exitcode(status)
    if child.returncode != 0:
        sys.exit(f"{program} {' '.join(words)} ended with status {child.returncode}")
    return usage.ru_utime + usage.ru_stime, usage.ru_maxrss


def main():
    words = argparse.ArgumentParser(description=__doc__, formatter_class=argparse.RawDescriptionHelpFormatter)
    words.add_argument("--cells", type=int, nargs="+", default=[1000, 10000, 100000, 1000000])
    words.add_argument("--low", type=int, default=0)
    words.add_argument("--high", type=int, default=60)
    words.add_argument("--times", type=int, default=3)
    words.add_argument("--against", type=pathlib.Path)
    given = words.parse_args()
    print(f"{'work':12}{'cells':>10}{'bytes':>12}{'seconds':>10}{'cells/s':>12}{'peak MB':>10}")
    for cells in given.cells:
        with tempfile.NamedTemporaryFile() as bag:
            make = [sys.executable, TOP / "bench/make_bag.py", str(cells), "--low", str(given.low), "--high", str(given.high)]
            subprocess.run(make, stdout=bag, check=True)
            length = os.path.getsize(bag.name)
            for name, crate, options in WORK:
                programs = {name: TOP / "crates" / crate / "out" / crate}
                if given.against:
                    programs[f"{name} was"] = given.against / crate
                programs = {row: str(program) for row, program in programs.items() if program.is_file()}
                runs = {row: [] for row in programs}
                for _ in range(given.times):
                    for row, program in programs.items():
                        runs[row].append(measured(program, options, bag.name))
                for row in programs:
                    seconds = min(run[0] for run in runs[row])
                    peak = min(run[1] for run in runs[row]) / 1000
                    print(f"{row:12}{cells:10}{length:12}{seconds:10.3f}{cells / max(seconds, 0.001):12.0f}{peak:10.0f}", flush=True)


main()
