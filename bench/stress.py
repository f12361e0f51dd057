#!/usr/bin/env python3
"""Runs threads on a shared core, and checks the closed journal by playing it again on one thread.

    bench/stress.py [--threads N] [--seconds N] [--calls N] [--seed N]

At the top of the repository. It makes a crate with the program below in a copy of the repository's crates and runs it by
`rt try`, which proves nothing and builds it with checks of indices, sums and memory. In each round so many threads (16)
make so many calls each (200) in any order of turns: they pin blocks, look cells up, end pins, store blocks over pinned
parents, and expire. Then the core is closed, its journal is played again on a core of one thread, and
each reply, the pins and what the keeper holds are compared. Rounds go on for so many seconds (60). It is no part of the gate.
"""
import argparse
import pathlib
import shutil
import subprocess
import sys
import tempfile

TOP = pathlib.Path(__file__).resolve().parent.parent
LIBRARIES = (
    "cd_base cd_block cd_boc_read cd_cell cd_core cd_event cd_keeper cd_prepare cd_restart cd_shared cd_update cd_world"
)
PROGRAM = """//! Threads on a shared core, whose journal is played again.
#![tactic(auto)]

use cd_base::Hash256;
use cd_block::{BlockId, BlockIds, ShardId};
use cd_boc_read::read_bag;
use cd_cell::{Bag, ChildInfo, Mask, Prepared, WeakSum};
use cd_core::Core;
use cd_event::{At, Entry, Event, Who};
use cd_keeper::SteadyKeeper;
use cd_prepare::{prepare_update, prepare_zero};
use cd_restart::{open_core, scan};
use cd_shared::{DbSeat, SharedDb};
use cd_update::Update;
use std::alloc::Global;
use std::env;
use std::process::ExitCode;
use std::sync::Wait;
use std::thread::{Threads, join};
use std::time::Instant;

type Held = Core<SteadyKeeper, WeakSum>;
type Db = SharedDb<SteadyKeeper, WeakSum>;
type Seat = DbSeat<SteadyKeeper, WeakSum>;
type Value = Prepared<WeakSum>;

/// A bag of the root of every state, which has the 8 bits 01.
const ROOT: [u8; 14] = [0xb5, 0xee, 0x9c, 0x72, 1, 1, 1, 1, 0, 3, 0, 0, 2, 1];

fn weak(byte: u8) -> Hash256 {
    let mut hash = Hash256([0; 32]);
    hash.0[31] = byte;
    hash
}

/// A block of the masterchain that a worker stores.
fn block(seqno: u32, worker: u16) -> BlockId {
    BlockId {
        shard_id: ShardId {
            workchain: -1,
            shard: 1 << 63,
        },
        seqno,
        root: weak(3),
        file: weak(worker as u8),
    }
}

fn zero_value(alloc: Global) -> Option<Value> {
    let bag: Bag<WeakSum> = read_bag(alloc, &ROOT).ok()?;
    prepare_zero(alloc, &bag).ok()
}

/// A value whose root is that of its parent.
fn next_value(alloc: Global) -> Option<Value> {
    let mut text = [0xb5, 0xee, 0x9c, 0x72, 1, 1, 3, 1, 0, 149, 0, 10, 138, 4].to_vec(alloc).ok()?;
    for _ in 0..2 {
        text.extend_from_slice(&weak(3).0).ok()?;
    }
    text.extend_from_slice(&[0, 0, 0, 0, 1, 2]).ok()?;
    for _ in 0..2 {
        text.extend_from_slice(&[40, 72, 1, 1]).ok()?;
        text.extend_from_slice(&weak(3).0).ok()?;
        text.extend_from_slice(&[0, 0]).ok()?;
    }
    let bag: Bag<WeakSum> = read_bag(alloc, &text).ok()?;
    let update = Update::of(&bag).ok()?;
    let root = ChildInfo {
        mask: Mask::NONE,
        hashes: [weak(3); 4],
        depths: [0; 4],
    };
    prepare_update(alloc, &update, &root, &[]).ok()
}

/// A worker at work: its seat, its numbers by chance, its pins with the blocks' seqnos, and whether all was well.
#[derive(Drop)]
struct Worker {
    seat: Seat,
    worker: u16,
    chance: u64,
    pins: Vec<(u64, u32)>,
    highest: u32,
    well: bool,
}

impl Worker {
    fn below(&mut self, limit: u64) -> u64 {
        self.chance ^= self.chance << 13;
        self.chance ^= self.chance >> 7;
        self.chance ^= self.chance << 17;
        (self.chance >> 11) % limit
    }

    /// A block of some worker, near the highest that this one knows of.
    fn some_block(&mut self, workers: u16) -> BlockId {
        let back = self.below(3) as u32;
        let worker = self.below(u64::from(workers)) as u16;
        block(self.highest.saturating_sub(back), worker)
    }

    fn pin<R: Wait>(&mut self, rt: &R, db: &Db, at: At, workers: u16) {
        let id = self.some_block(workers);
        if let Ok(pinned) = db.pin(rt, &mut self.seat, at, id) {
            self.well &= pinned.root.rep() == weak(3);
            self.highest = self.highest.max(id.seqno);
            self.well &= self.pins.push((pinned.pin, id.seqno)).is_ok();
        }
    }

    fn look<R: Wait>(&mut self, rt: &R, db: &Db, at: At, pin: u64) {
        match db.look(rt, &mut self.seat, at, pin, &[weak(3), weak(9)]) {
            Ok(found) => self.well &= found[0].is_some() && found[1].is_none(),
            Err(_) => self.well = false,
        }
    }

    fn merge<R: Wait>(&mut self, rt: &R, db: &Db, alloc: Global, at: At, place: usize) {
        let (pin, seqno) = self.pins[place];
        let id = block(seqno + 1, self.worker);
        let Some(value) = next_value(alloc) else {
            self.well = false;
            return;
        };
        if db.merge(rt, &mut self.seat, at, pin, None, id, BlockIds::new(alloc), value).is_ok() {
            self.pins.remove(place);
            self.highest = self.highest.max(seqno + 1);
        }
    }

    /// One call by chance.
    fn call<R: Wait>(&mut self, rt: &R, db: &Db, alloc: Global, task: u16, workers: u16) {
        let at = At { phase: 0, task };
        let count = self.pins.len();
        if count == 0 || (count < 8 && self.below(3) == 0) {
            return self.pin(rt, db, at, workers);
        }
        let place = self.below(count as u64) as usize;
        let (pin, _) = self.pins[place];
        match self.below(8) {
            0 | 1 | 2 => self.look(rt, db, at, pin),
            3 | 4 => {
                self.well &= db.unpin(rt, &mut self.seat, at, pin).is_ok();
                self.pins.remove(place);
            }
            5 | 6 => self.merge(rt, db, alloc, at, place),
            _ => {
                let id = self.some_block(workers);
                let _ = db.expire(rt, &mut self.seat, at, id);
            }
        }
    }

    fn work<R: Wait>(mut self, rt: &R, db: &Db, alloc: Global, calls: u16, workers: u16) -> Done {
        for task in 0..calls {
            self.call(rt, db, alloc, task, workers);
        }
        for place in 0..self.pins.len() {
            let at = At { phase: 1, task: 0 };
            let (pin, _) = self.pins[place];
            self.well &= db.unpin(rt, &mut self.seat, at, pin).is_ok();
        }
        Done { seat: self.seat, well: self.well }
    }
}

/// A seat, and whether all that was done with it was well.
#[derive(Drop)]
struct Done {
    seat: Seat,
    well: bool,
}

/// How a round is: its workers, the calls of each, and what its numbers by chance begin with.
#[derive(Clone, Copy)]
struct Round {
    workers: u16,
    calls: u16,
    seed: u64,
}

/// A thread for each number of the seat.
fn spread<R: Threads + Wait + Sync>(
    rt: &R,
    db: &Db,
    alloc: Global,
    mut seat: Seat,
    lowest: u16,
    end: u16,
    round: Round,
) -> Done {
    if end - lowest == 1 {
        let worker = Worker {
            seat,
            worker: lowest,
            chance: round.seed.wrapping_mul(2) + 2 * u64::from(lowest) + 1,
            pins: Vec::new(alloc),
            highest: 0,
            well: true,
        };
        return worker.work(rt, db, alloc, round.calls, round.workers);
    }
    let middle = lowest + (end - lowest) / 2;
    let high = db.split(&mut seat, middle);
    let (mut low, high) = join(
        rt,
        || spread(rt, db, alloc, seat, lowest, middle, round),
        || spread(rt, db, alloc, high, middle, end, round),
    );
    db.join(&mut low.seat, high.seat);
    Done { seat: low.seat, well: low.well && high.well }
}

/// Makes an entry's call again.
fn again(core: &mut Held, who: Who, event: Event<WeakSum>) {
    match event {
        Event::Zero { id, tops, prepared } => {
            let _ = core.zero(who, id, tops, prepared);
        }
        Event::Pin { id } => {
            let _ = core.pin(who, id);
        }
        Event::Look { pin, asked: _ } => {
            let _ = core.look(who, pin, &[weak(3), weak(9)]);
        }
        Event::Merge { pin, other, id, tops, prepared } => {
            let _ = core.merge(who, pin, other, id, tops, prepared);
        }
        Event::Unpin { pin } => {
            let _ = core.unpin(who, pin);
        }
        Event::Expire { id } => {
            let _ = core.expire(who, id);
        }
    }
}

/// Whether the journal, played on one thread, gives the same replies.
fn replays(alloc: Global, core: &mut Held, journal: Vec<Entry<WeakSum>>) -> Option<bool> {
    let mut same = true;
    for entry in journal {
        let Entry { who, event, reply } = entry;
        let due = format!(in alloc; "{reply:?}").ok()?;
        again(core, who, event);
        let last = core.journal().last()?;
        let got = format!(in alloc; "{:?}", last.reply).ok()?;
        same &= got.as_str() == due.as_str();
    }
    Some(same)
}

fn empty(alloc: Global) -> Option<Held> {
    match open_core(alloc, SteadyKeeper::new(alloc), 1 << 40) {
        Ok(core) => Some(core),
        Err(_) => None,
    }
}

/// The entries of a round, if all is well.
fn play<R: Threads + Wait + Sync>(rt: &R, alloc: Global, round: Round) -> Option<u64> {
    let first = zero_value(alloc)?;
    let core = empty(alloc)?;
    let (db, mut seat) = match SharedDb::new(alloc, core, round.workers) {
        Ok(made) => made,
        Err(_) => return None,
    };
    let at = At { phase: 0, task: 0 };
    let stored = db.zero(rt, &mut seat, at, block(0, 0), BlockIds::new(alloc), first).is_ok();
    let done = spread(rt, &db, alloc, seat, 0, round.workers, round);
    let front = done.seat.front();
    let core = db.close(done.seat);
    let pins = core.world().pins.as_slice().len();
    let (mut keeper, journal) = core.close();
    let count = journal.len() as u64;
    let mut single = empty(alloc)?;
    let same = replays(alloc, &mut single, journal)?;
    let left = single.world().pins.as_slice().len();
    let (mut other, _) = single.close();
    let a = scan::<SteadyKeeper, WeakSum>(alloc, &mut keeper).ok()?;
    let b = scan::<SteadyKeeper, WeakSum>(alloc, &mut other).ok()?;
    let held = a.cells == b.cells && a.counts == b.counts && a.blocks.as_slice().len() == b.blocks.as_slice().len();
    let all = stored && done.well && same && held && front == count && pins == 0 && left == 0;
    if all { Some(count) } else { None }
}

fn main(rt: HostRuntime) -> ExitCode {
    let alloc = rt.alloc();
    let mut numbers = [0u64; 4];
    let Ok(words) = env::args(&rt) else {
        return ExitCode::from(1);
    };
    for (word, number) in words.skip(1).zip(numbers.iter_mut()) {
        *number = word.as_str().parse().unwrap_or(0);
    }
    let [workers, seconds, calls, mut seed] = numbers;
    let Ok(start) = Instant::now(&rt) else {
        return ExitCode::from(3);
    };
    let mut rounds = 0u64;
    let mut entries = 0u64;
    for _ in 0..u64::MAX {
        let round = Round { workers: workers as u16, calls: calls as u16, seed };
        let Some(count) = play(&rt, alloc, round) else {
            let _ = println!(rt; "a round with the seed {seed} isn't well");
            return ExitCode::from(2);
        };
        rounds += 1;
        entries += count;
        seed = seed.wrapping_add(1000);
        match start.elapsed(&rt) {
            Ok(spent) if spent.as_secs() < seconds => {}
            _ => break,
        }
    }
    let _ = println!(rt; "{rounds} rounds of {workers} threads, {entries} turns: each journal replays");
    ExitCode::from(0)
}
"""


def main():
    words = argparse.ArgumentParser(description=__doc__, formatter_class=argparse.RawDescriptionHelpFormatter)
    words.add_argument("--threads", type=int, default=16)
    words.add_argument("--seconds", type=int, default=60)
    words.add_argument("--calls", type=int, default=200)
    words.add_argument("--seed", type=int, default=1)
    given = words.parse_args()
    with tempfile.TemporaryDirectory() as folder:
        crates = pathlib.Path(folder) / "crates"
        shutil.copytree(TOP / "crates", crates, ignore=shutil.ignore_patterns("out", "must-fail"))
        source = crates / "stress/src"
        source.mkdir(parents=True)
        (source / "main.rt").write_text(PROGRAM)
        (crates.parent / "crates.txt").write_text((TOP / "crates.txt").read_text() + f"stress: {LIBRARIES}\n")
        shutil.copy(TOP / "HANDLES", crates.parent)
        subprocess.run(["git", "init", "-q", folder], check=True)
        numbers = [given.threads, given.seconds, given.calls, given.seed]
        tried = ["rt", "try", "--seconds", str(given.seconds + 300), "--", *map(str, numbers)]
        run = subprocess.run(tried, cwd=crates / "stress", stdin=subprocess.DEVNULL, capture_output=True, text=True)
    print(run.stdout, end="")
    if run.returncode != 0:
        sys.exit(run.stderr[-2000:])


main()
