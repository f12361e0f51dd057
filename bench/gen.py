#!/usr/bin/env python3
"""Measures `celldb gen` against the same in C++: processor seconds, and their ratio.

    bench/gen.py [--number N] [--times N] [--program PATH]

At the top of the repository. It builds bench/gen.cpp with clang++ or g++, once with the SHA-256 of OpenSSL, which has the
processor's own instructions where there are any, and once with one in portable code, as `celldb` has. `celldb` is that of
crates/celldb/out, which `./celldb` builds where it isn't built, or PATH, which may need no words. All programs run in turn,
N times each (21 where it isn't given); of each the least time is taken, since what else the machine does only adds. The
texts have to be equal, and that of the feed of 7 to have a SHA-256 that was made by another program. It is no part of the
gate.
"""
import argparse
import hashlib
import os
import pathlib
import shutil
import subprocess
import sys
import tempfile

TOP = pathlib.Path(__file__).resolve().parent.parent
SEVEN = "3195542d3818616541019fe1f1bb0860b306cb570b0430ac297487c0a8b77dd4"


def built(folder):
    """The programs in C++, by what they take SHA-256 from."""
    compiler = shutil.which("clang++") or shutil.which("g++")
    if compiler is None:
        sys.exit("neither clang++ nor g++ is there")
    programs = {}
    for name, flags in (("OpenSSL", ["-lcrypto"]), ("portable", ["-DPLAIN"])):
        program = pathlib.Path(folder) / name
        made = subprocess.run([compiler, "-O2", "-std=c++17", "-o", program, TOP / "bench/gen.cpp", *flags], capture_output=True, text=True)
        if made.returncode == 0:
            programs[name] = program
        else:
            print(f"not built with {name}: {made.stderr[:200]}", file=sys.stderr)
    return programs


def run(words):
    """What a program writes, and its processor seconds."""
    with tempfile.TemporaryFile() as sink:
        child = subprocess.Popen([str(word) for word in words], stdin=subprocess.DEVNULL, stdout=sink)
        _, status, usage = os.wait4(child.pid, 0)
        child.returncode = os.waitstatus_to_exitcode(status)
        if child.returncode != 0:
            sys.exit(f"{words[0]} ended with status {child.returncode}")
        sink.seek(0)
        return sink.read(), usage.ru_utime + usage.ru_stime


def main():
    words = argparse.ArgumentParser(description=__doc__, formatter_class=argparse.RawDescriptionHelpFormatter)
    words.add_argument("--number", type=int, default=7)
    words.add_argument("--times", type=int, default=21)
    words.add_argument("--program", type=pathlib.Path)
    given = words.parse_args()
    program = given.program or TOP / "crates/celldb/out/celldb"
    if not given.program and not program.exists():
        subprocess.run([TOP / "celldb", "--version"], check=True, stdout=subprocess.DEVNULL)
    with tempfile.TemporaryDirectory() as folder:
        others = built(folder)
        calls = {"celldb": [program, "gen", "--number", given.number]}
        calls.update({f"C++, {name}": [other, given.number] for name, other in others.items()})
        texts, least = set(), {name: float("inf") for name in calls}
        for _ in range(given.times):
            for name, call in calls.items():
                text, seconds = run(call)
                texts.add(hashlib.sha256(text).hexdigest())
                least[name] = min(least[name], seconds)
    if len(texts) != 1:
        sys.exit("the texts differ")
    if given.number == 7 and texts != {SEVEN}:
        sys.exit("the text isn't that of the feed of 7")
    for name, seconds in least.items():
        ratio = "" if name == "celldb" else f", to which celldb is as {least['celldb'] / seconds:.2f} to 1"
        print(f"{name}: {seconds:.3f} s{ratio}")


main()
