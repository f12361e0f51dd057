#!/usr/bin/env python3
"""Measures batches over a database file against the same in C by sqlite3: seconds of the processor and of the clock.

    bench/database.py [--held N] [--batches N] [--rows N] [--bytes N] [--times N] [--program PATH]

At the top of the repository, after `rt ci` or `rt run` (in crates/keeper_script) left `keeper_script` in
crates/keeper_script/out. It builds bench/batches.c with cc and sqlite3's library. Both programs play one script: first they
fill a file with so many records (20000), and then, what is measured, make so many batches (50) of so many records (400) of so
many bytes (150) over a copy of it, half of them under new keys and half under held ones. They run in turn, so many times
(5); of each the least is taken, since what else the machine does only adds. The least of a script without batches, which has
the opening alone, is told apart, and the rest is divided by the batches. Both tables have to be the same in the end. It is no
part of the gate.
"""
import argparse
import os
import pathlib
import random
import shutil
import sqlite3
import subprocess
import sys
import tempfile
import time

TOP = pathlib.Path(__file__).resolve().parent.parent


def script(chance, keys, batches, rows, size):
    """Batches, half over keys that are held."""
    text = []
    for _ in range(batches):
        new = [chance.randbytes(32) for _ in range(rows - rows // 2)]
        for key in new + chance.sample(keys, rows // 2 if keys else 0):
            text.append(f"put {key.hex()} {chance.randbytes(size).hex()}\n")
        keys.extend(new)
        text.append("apply\n")
    return "".join(text)


def play(program, path, text):
    """Processor seconds and seconds of a run."""
    with tempfile.TemporaryFile() as source:
        source.write(text.encode())
        source.seek(0)
        started = time.monotonic()
        child = subprocess.Popen([program, path], stdin=source, stdout=subprocess.DEVNULL)
        _, status, usage = os.wait4(child.pid, 0)
        child.returncode = os.waitstatus_to_exitcode(status)
        if child.returncode != 0:
            sys.exit(f"{program} ended with status {child.returncode}")
        return usage.ru_utime + usage.ru_stime, time.monotonic() - started


def rows_of(path):
    """All rows of the file."""
    base = sqlite3.connect(path)
    try:
        return base.execute("select key, record from cells order by key").fetchall()
    finally:
        base.close()


def least(runs):
    """The least of each number."""
    return tuple(min(column) for column in zip(*runs))


def main():
    words = argparse.ArgumentParser(description=__doc__, formatter_class=argparse.RawDescriptionHelpFormatter)
    for name, value in (("held", 20000), ("batches", 50), ("rows", 400), ("bytes", 150), ("times", 5)):
        words.add_argument(f"--{name}", type=int, default=value)
    words.add_argument("--program", default=str(TOP / "crates/keeper_script/out/keeper_script"))
    given = words.parse_args()
    chance, keys = random.Random(1), []
    filling = script(chance, keys, max(given.held // 400, 1), 400, given.bytes)
    text = script(chance, keys, given.batches, given.rows, given.bytes)
    with tempfile.TemporaryDirectory() as folder:
        there = pathlib.Path(folder)
        subprocess.run(["cc", "-O2", "-o", there / "batches", TOP / "bench/batches.c", "-lsqlite3"], check=True)
        programs = {"keeper_script": given.program, "C": str(there / "batches")}
        play(programs["C"], str(there / "filled.db"), filling)
        seen = {name: {"opening": [], "all": []} for name in programs}
        for _ in range(given.times):
            for name, program in programs.items():
                for kind, played in (("opening", ""), ("all", text)):
                    path = there / f"{name}.db"
                    pathlib.Path(f"{path}-wal").unlink(missing_ok=True)
                    shutil.copy(there / "filled.db", path)
                    seen[name][kind].append(play(program, str(path), played))
        if rows_of(there / "keeper_script.db") != rows_of(there / "C.db"):
            sys.exit("the tables differ")
    each = {}
    for name, runs in seen.items():
        opening, whole = least(runs["opening"]), least(runs["all"])
        each[name] = [(there - before) / given.batches for before, there in zip(opening, whole)]
        print(f"{name:14} opening {opening[0]:.3f} s of the processor; a batch {each[name][0] * 1000:.2f} ms of the processor, {each[name][1] * 1000:.2f} ms in all")
    print(f"keeper_script / C: {each['keeper_script'][0] / each['C'][0]:.2f} of the processor, {each['keeper_script'][1] / each['C'][1]:.2f} in all")
    return 0


if __name__ == "__main__":
    sys.exit(main())
