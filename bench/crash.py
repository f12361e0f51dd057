#!/usr/bin/env python3
"""Kills a program that writes batches to a database file, and looks at what the file then holds.

    bench/crash.py [--kills N] [--batches N] [--rows N] [--seed N] [--program PATH]

At the top of the repository, after `rt ci` or `rt run` (in crates/keeper_script) left `keeper_script` in
crates/keeper_script/out. The program is given a script of so many batches (60), each of so many puts and drops (120) by
chance, over a file that is filled from nothing; it says `applied` behind each batch. It is killed (SIGKILL) at a moment by
chance in the time that the whole script takes. Then the file must open, and hold exactly what it should after some whole
batch, which is the last one that was told or the one behind it: as python's sqlite3 reads a copy of the file and its log,
and as the program reads the file itself. The next run goes on from there, over the same file, until all batches are in; then
a new file is begun. So many kills are made (200). The system isn't stopped: what is written stays in its memory, so this
tries no loss of power. It is no part of the gate.
"""
import argparse
import collections
import pathlib
import random
import shutil
import sqlite3
import subprocess
import sys
import tempfile
import time

TOP = pathlib.Path(__file__).resolve().parent.parent
TABLES = (("cells", "record", 32), ("descs", "value", 80))


def changes(chance, held, rows):
    """A batch by chance: each key once, with its new value, or None where it is dropped."""
    batch = {}
    keys = sorted(held)
    for _ in range(rows):
        if keys and chance.random() < 0.4:
            key = chance.choice(keys)
            batch[key] = chance.randbytes(chance.randrange(400)) if chance.random() < 0.5 else None
        else:
            length = 32 if chance.random() < 0.9 else 80
            batch[chance.randbytes(length)] = chance.randbytes(chance.randrange(400))
    return batch


def work(seed, batches, rows):
    """The lines of each batch, and what is held before the first one and after each."""
    chance = random.Random(seed)
    lines, trail = [], [{}]
    for _ in range(batches):
        batch = changes(chance, trail[-1], rows)
        held = dict(trail[-1])
        text = []
        for key, value in batch.items():
            if value is None:
                del held[key]
                text.append(f"drop {key.hex()}\n")
            else:
                held[key] = value
                text.append(f"put {key.hex()} {value.hex()}\n")
        lines.append("".join(text) + "apply\n")
        trail.append(held)
    return lines, trail


def python_reads(path, folder):
    """What python's sqlite3 reads of a copy of the file and its log."""
    copy = pathlib.Path(folder) / "copy.db"
    for end in ("", "-wal"):
        pathlib.Path(f"{copy}{end}").unlink(missing_ok=True)
        if pathlib.Path(f"{path}{end}").exists():
            shutil.copy(f"{path}{end}", f"{copy}{end}")
    base = sqlite3.connect(copy)
    try:
        assert base.execute("pragma integrity_check").fetchone() == ("ok",), "integrity"
        tables = {name for (name,) in base.execute("select name from sqlite_master where type = 'table'")}
        return {key: value for name, column, _ in TABLES if name in tables for key, value in base.execute(f"select key, {column} from {name}")}
    finally:
        base.close()


def program_reads(program, path):
    """What the program reads of the file."""
    seen = subprocess.run([program, path], input="list\n", capture_output=True, text=True, timeout=120)
    if seen.returncode != 0:
        sys.exit(f"the file doesn't open: status {seen.returncode}")
    rows = [line.split(" ") for line in seen.stdout.splitlines()]
    return {bytes.fromhex(key): bytes.fromhex(value) for key, value in rows}


def killed(program, path, script, delay):
    """Starts the program on a script and kills it after so many seconds; how many batches it told."""
    child = subprocess.Popen([program, path], stdin=subprocess.PIPE, stdout=subprocess.PIPE, text=True)
    try:
        child.stdin.write(script)
        child.stdin.close()
    except BrokenPipeError:
        pass
    child.stdin = None
    started = time.monotonic()
    while child.poll() is None and time.monotonic() - started < delay:
        time.sleep(0.0005)
    ended = child.poll() is not None
    child.kill()
    out, _ = child.communicate()
    return out.count("applied\n"), ended


def whole_time(program, lines):
    """How long the whole script takes from the end of the sending on, on a file of its own."""
    with tempfile.TemporaryDirectory() as folder:
        path = str(pathlib.Path(folder) / "store.db")
        started = time.monotonic()
        told, _ = killed(program, path, "".join(lines), 600)
        if told != len(lines):
            sys.exit(f"{told} batches of {len(lines)} without a kill")
        return time.monotonic() - started


def main():
    words = argparse.ArgumentParser(description=__doc__, formatter_class=argparse.RawDescriptionHelpFormatter)
    words.add_argument("--kills", type=int, default=200)
    words.add_argument("--batches", type=int, default=60)
    words.add_argument("--rows", type=int, default=120)
    words.add_argument("--seed", type=int, default=1)
    words.add_argument("--program", default=str(TOP / "crates/keeper_script/out/keeper_script"))
    given = words.parse_args()
    lines, trail = work(given.seed, given.batches, given.rows)
    total = whole_time(given.program, lines)
    chance = random.Random(given.seed + 1)
    seen = collections.Counter()
    while seen["kills"] < given.kills:
        with tempfile.TemporaryDirectory() as folder:
            path, done = str(pathlib.Path(folder) / "store.db"), 0
            seen["files"] += 1
            while done < len(lines) and seen["kills"] < given.kills:
                delay = chance.random() * total / 4
                told, ended = killed(given.program, path, "".join(lines[done:]), delay)
                seen["ended before the kill" if ended else "kills"] += 1
                held = python_reads(path, folder)
                whole = [k for k in (done + told, done + told + 1) if k < len(trail) and trail[k] == held]
                if not whole or program_reads(given.program, path) != held:
                    print(f"WRONG after {done} batches and {told} told: {len(held)} rows are those of no whole batch")
                    return 1
                seen["a batch was in that wasn't told"] += whole[0] > done + told
                seen["no batch came in"] += whole[0] == done
                done = whole[0]
    print(f"crash: {seen['kills']} kills over {seen['files']} files, each left the contents after a whole batch")
    print(", ".join(f"{name}: {count}" for name, count in seen.items()))
    return 0


if __name__ == "__main__":
    sys.exit(main())
