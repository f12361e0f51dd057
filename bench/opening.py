#!/usr/bin/env python3
"""Measures opening a database file, scanning it, and migrating its records: seconds of the processor, and peak memory.

    bench/opening.py [--cells N] [--times N] [--program NAME=PATH ..]

At the top of the repository, after `rt ci` or `rt run` left `celldb`, `inspect` and `keeper_script` in crates/NAME/out. A bag
of so many cells (100000) is stored by `celldb zero --db`, and read by `inspect bags --raw` for comparison. Then the database
is opened alone (`keeper_script` on an empty script), opened and scanned (`celldb check`), and, with all its records put into
version 1, opened, scanned and migrated (`celldb migrate`), which has to end with the records of before. Each is the least of
so many runs (5), since what else the machine does only adds. It is no part of the gate.
"""
import argparse
import os
import pathlib
import shutil
import sqlite3
import subprocess
import sys
import tempfile

TOP = pathlib.Path(__file__).resolve().parent.parent
BATCH = 4096


def run(words, source, sink=subprocess.DEVNULL):
    """Processor seconds and peak megabytes of a run."""
    with open(source, "rb") as bytes_in:
        child = subprocess.Popen([str(word) for word in words], stdin=bytes_in, stdout=sink)
        _, status, usage = os.wait4(child.pid, 0)
        child.returncode = os.waitstatus_to_exitcode(status)
    if child.returncode != 0:
        sys.exit(f"{' '.join(map(str, words))} ended with status {child.returncode}")
    return usage.ru_utime + usage.ru_stime, usage.ru_maxrss / 1000


def rows_of(path):
    """All records of a file."""
    base = sqlite3.connect(path)
    try:
        return base.execute("select key, record from cells order by key").fetchall()
    finally:
        base.close()


def into_version_1(path):
    """Puts all records into version 1, whose count has 4 bytes."""
    base = sqlite3.connect(path)
    records = base.execute("select key, record from cells").fetchall()
    base.executemany("update cells set record = ? where key = ?", [(b"\1" + record[5:], key) for key, record in records])
    base.commit()
    base.execute("pragma wal_checkpoint(truncate)")
    base.close()


def copied(path, name):
    """A copy of a database file without a log."""
    copy = path.with_name(name)
    for end in ("", "-wal", "-shm"):
        pathlib.Path(f"{copy}{end}").unlink(missing_ok=True)
    shutil.copy(path, copy)
    return copy


def main():
    words = argparse.ArgumentParser(description=__doc__, formatter_class=argparse.RawDescriptionHelpFormatter)
    words.add_argument("--cells", type=int, default=100000)
    words.add_argument("--times", type=int, default=5)
    words.add_argument("--program", action="append", default=[], metavar="NAME=PATH")
    given = words.parse_args()
    programs = {name: TOP / "crates" / name / "out" / name for name in ("celldb", "inspect", "keeper_script")}
    programs.update(pair.split("=", 1) for pair in given.program)
    with tempfile.TemporaryDirectory() as folder:
        there = pathlib.Path(folder)
        with open(there / "bag", "wb") as bag:
            run([sys.executable, TOP / "bench/make_bag.py", given.cells], os.devnull, bag)
        store, old = there / "store.db", there / "old.db"
        run([programs["celldb"], "zero", "--db", store], there / "bag")
        base = sqlite3.connect(store)
        base.execute("pragma wal_checkpoint(truncate)")
        base.close()
        into_version_1(copied(store, old.name))
        work = {
            "reading the bag": lambda: run([programs["inspect"], "bags", "--raw"], there / "bag"),
            "opening": lambda: run([programs["keeper_script"], copied(store, "work.db")], os.devnull),
            "check": lambda: run([programs["celldb"], "check", "--db", copied(store, "work.db")], os.devnull),
            "migrate": lambda: run([programs["celldb"], "migrate", "--db", copied(old, "work.db")], os.devnull),
        }
        seen = {name: [] for name in work}
        for _ in range(given.times):
            for name, call in work.items():
                seen[name].append(call())
        if rows_of(there / "work.db") != rows_of(store):
            sys.exit("the migrated records are others")
        cells = len(rows_of(store))
    least = {name: tuple(min(column) for column in zip(*runs)) for name, runs in seen.items()}
    for name, (seconds, peak) in least.items():
        print(f"{name:16} {seconds:.3f} s of the processor, {peak:.0f} MB")
    scan = least["check"][0] - least["opening"][0]
    batches = -(-cells // BATCH)
    rest = least["migrate"][0] - least["check"][0]
    print(f"scan beyond the opening {scan:.3f} s, {scan / least['reading the bag'][0]:.2f} times reading the bag")
    print(f"migration beyond a check {rest:.3f} s, {rest / batches * 1000:.1f} ms for each of {batches} batches")
    return 0


if __name__ == "__main__":
    sys.exit(main())
