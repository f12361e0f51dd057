#!/usr/bin/env python3
"""Measures what the gate adds to a call of the core, and how many turns threads get that only pin and unpin.

    bench/turns.py [--threads N] [--pairs N] [--times N]

At the top of the repository. It makes a crate with the program below in a copy of the repository's crates and runs it by
`rt try`, which proves nothing and builds it with checks of indices, sums and memory, so each number is more than that of
a proved build. So many pairs of pin and unpin (50,000) are made on a core alone, by one seat of a shared core, and by so
many threads (16) with a seat each; of so many runs in turn (5) the least time of a call is printed for each of the three.
It is no part of the gate.
"""
import argparse
import pathlib
import shutil
import subprocess
import sys
import tempfile

TOP = pathlib.Path(__file__).resolve().parent.parent
LIBRARIES = "cd_base cd_block cd_boc_read cd_cell cd_core cd_event cd_keeper cd_prepare cd_restart cd_shared"
PROGRAM = """//! Turns that only pin and unpin: on a core alone, by one seat, and by many threads.
#![tactic(auto)]

use cd_base::Hash256;
use cd_block::{BlockId, BlockIds, ShardId};
use cd_boc_read::read_bag;
use cd_cell::{Bag, Prepared, WeakSum};
use cd_core::Core;
use cd_event::{At, Who};
use cd_keeper::SteadyKeeper;
use cd_prepare::prepare_zero;
use cd_restart::open_core;
use cd_shared::{DbSeat, SharedDb};
use std::alloc::Global;
use std::env;
use std::process::ExitCode;
use std::sync::Wait;
use std::thread::{Threads, join};
use std::time::Instant;

type Held = Core<SteadyKeeper, WeakSum>;
type Db = SharedDb<SteadyKeeper, WeakSum>;
type Seat = DbSeat<SteadyKeeper, WeakSum>;

/// A bag of a root of the 8 bits 01.
const ROOT: [u8; 14] = [0xb5, 0xee, 0x9c, 0x72, 1, 1, 1, 1, 0, 3, 0, 0, 2, 1];

const AT: At = At { phase: 0, task: 0 };

fn weak(byte: u8) -> Hash256 {
    let mut hash = Hash256([0; 32]);
    hash.0[31] = byte;
    hash
}

fn block() -> BlockId {
    BlockId {
        shard_id: ShardId {
            workchain: -1,
            shard: 1 << 63,
        },
        seqno: 0,
        root: weak(3),
        file: weak(0),
    }
}

/// A core that holds one block.
fn stored(alloc: Global) -> Option<Held> {
    let bag: Bag<WeakSum> = read_bag(alloc, &ROOT).ok()?;
    let value: Prepared<WeakSum> = prepare_zero(alloc, &bag).ok()?;
    let mut core = match open_core(alloc, SteadyKeeper::new(alloc), 1 << 40) {
        Ok(core) => core,
        Err(_) => return None,
    };
    let who = Who { phase: 0, worker: 0, task: 0 };
    core.zero(who, block(), BlockIds::new(alloc), value).ok()?;
    let (keeper, _) = core.close();
    match open_core(alloc, keeper, 1 << 40) {
        Ok(core) => Some(core),
        Err(_) => None,
    }
}

/// Pins the block and ends the pin, so often, on the core alone.
fn alone(core: &mut Held, pairs: u64) -> Option<()> {
    let who = Who { phase: 0, worker: 0, task: 0 };
    for _ in 0..pairs {
        let pinned = core.pin(who, block()).ok()?;
        core.unpin(who, pinned.pin).ok()?;
    }
    Some(())
}

/// The same by a seat.
fn by_seat<R: Wait>(rt: &R, db: &Db, mut seat: Seat, pairs: u64) -> (Seat, u64) {
    let mut done = 0u64;
    for _ in 0..pairs {
        if let Ok(pinned) = db.pin(rt, &mut seat, AT, block()) {
            if db.unpin(rt, &mut seat, AT, pinned.pin).is_ok() {
                done += 1;
            }
        }
    }
    (seat, done)
}

/// The same by a thread for each number of the seat.
fn by_threads<R: Threads + Wait + Sync>(
    rt: &R,
    db: &Db,
    mut seat: Seat,
    lowest: u16,
    end: u16,
    pairs: u64,
) -> (Seat, u64) {
    if end - lowest == 1 {
        return by_seat(rt, db, seat, pairs);
    }
    let middle = lowest + (end - lowest) / 2;
    let high = db.split(&mut seat, middle);
    let ((mut low, first), (high, second)) = join(
        rt,
        || by_threads(rt, db, seat, lowest, middle, pairs),
        || by_threads(rt, db, high, middle, end, pairs),
    );
    db.join(&mut low, high);
    (low, first + second)
}

/// The same on a shared core. Whether each call was answered and stands in the journal.
fn shared<R: Threads + Wait + Sync>(
    rt: &R,
    alloc: Global,
    core: Held,
    threads: u16,
    pairs: u64,
) -> Option<()> {
    let (db, seat) = match SharedDb::new(alloc, core, threads) {
        Ok(made) => made,
        Err(_) => return None,
    };
    let (seat, done) = by_threads(rt, &db, seat, 0, threads, pairs);
    let core = db.close(seat);
    let all = pairs * u64::from(threads);
    if done == all && core.journal().len() as u64 == 2 * all {
        Some(())
    } else {
        None
    }
}

// Prints the nanoseconds of a call on the core alone, by one seat, and by so many threads.
fn main(rt: HostRuntime) -> ExitCode {
    let alloc = rt.alloc();
    let mut numbers = [0u64; 3];
    let Ok(words) = env::args(&rt) else {
        return ExitCode::from(1);
    };
    for (word, number) in words.skip(1).zip(numbers.iter_mut()) {
        *number = word.as_str().parse().unwrap_or(0);
    }
    let [threads, pairs, times] = numbers;
    for _ in 0..times {
        let mut spent = [0u64; 3];
        for (kind, nanos) in spent.iter_mut().enumerate() {
            let Some(mut core) = stored(alloc) else {
                return ExitCode::from(2);
            };
            let Ok(start) = Instant::now(&rt) else {
                return ExitCode::from(3);
            };
            let done = match kind {
                0 => alone(&mut core, pairs),
                1 => shared(&rt, alloc, core, 1, pairs),
                _ => shared(&rt, alloc, core, threads as u16, pairs / threads),
            };
            if done.is_none() {
                return ExitCode::from(2);
            }
            *nanos = match start.elapsed(&rt) {
                Ok(spent) => spent.as_nanos() as u64 / (2 * pairs),
                Err(_) => return ExitCode::from(3),
            };
        }
        let [core, one, many] = spent;
        let _ = println!(rt; "{core} {one} {many}");
    }
    ExitCode::from(0)
}
"""


def run(numbers):
    """The lines that the program prints: nanoseconds of a call on the core alone, by one seat and by all threads."""
    with tempfile.TemporaryDirectory() as folder:
        crates = pathlib.Path(folder) / "crates"
        shutil.copytree(TOP / "crates", crates, ignore=shutil.ignore_patterns("out", "must-fail"))
        source = crates / "turns/src"
        source.mkdir(parents=True)
        (source / "main.rt").write_text(PROGRAM)
        (crates.parent / "crates.txt").write_text((TOP / "crates.txt").read_text() + f"turns: {LIBRARIES}\n")
        shutil.copy(TOP / "HANDLES", crates.parent)
        subprocess.run(["git", "init", "-q", folder], check=True)
        tried = ["rt", "try", "--seconds", "600", "--", *map(str, numbers)]
        done = subprocess.run(tried, cwd=crates / "turns", stdin=subprocess.DEVNULL, capture_output=True, text=True)
    if done.returncode != 0:
        sys.exit(done.stdout[-1000:] + done.stderr[-2000:])
    return [[int(word) for word in line.split()] for line in done.stdout.splitlines() if line[:1].isdigit()]


def main():
    words = argparse.ArgumentParser(description=__doc__, formatter_class=argparse.RawDescriptionHelpFormatter)
    words.add_argument("--threads", type=int, default=16)
    words.add_argument("--pairs", type=int, default=50000)
    words.add_argument("--times", type=int, default=5)
    given = words.parse_args()
    core, one, many = (min(column) for column in zip(*run([given.threads, given.pairs, given.times])))
    print(f"a call: {core} ns on the core alone, {one} ns by one seat, {many} ns by {given.threads} threads")
    print(f"the gate adds {one - core} ns; {given.threads} threads make {one / many:.2f} of the turns of one")


main()
