#!/usr/bin/env python3
"""Measures how long a merge takes: `Core::merge` of updates of 191 new cells over a store of 100,000 cells in memory.

    bench/merges.py [--updates N] [--times N]

At the top of the repository, as `bench/plans.py`, whose lines and build it has. The store holds one block, the state of
those lines, and a random bag of the other cells. Each update is merged over a pin of that block, so the store grows by its
new cells; a merge is what `merge`, with its pin, takes beyond `prepare`, and the least of N runs is taken of each (7 where
it isn't given). The keeper tells nothing of its tables, so the program has to show nothing of what it merges. It is no part
of the gate.
"""
import argparse
import tempfile

import plans

LIBRARIES = (
    "cd_base cd_block cd_boc_read cd_cell cd_core cd_count cd_event cd_keeper cd_prepare cd_record cd_update"
    " inspect_lines inspect_updates"
)
PROGRAM = """//! Merges updates over a store in memory.
#![tactic(auto)]

mod quiet;

use cd_base::{Hash256, StdSource, read_all};
use cd_block::{BlockId, BlockIds, Descr, ShardId};
use cd_boc_read::read_bag;
use cd_cell::{Bag, Prepared, Sha};
use cd_core::Core;
use cd_count::{Plan, plan_add};
use cd_event::Who;
use cd_keeper::{Batch, Keeper, SteadyKeeper};
use cd_prepare::{prepare_update, prepare_zero};
use cd_record::GREATEST_COUNT;
use cd_update::Update;
use inspect_lines::{bytes_of_line, lines_of};
use inspect_updates::OldState;
use quiet::Quiet;
use std::alloc::Global;
use std::env;
use std::process::ExitCode;

const WHO: Who = Who {
    phase: 0,
    worker: 0,
    task: 0,
};

fn bag_of(alloc: Global, line: &[u8]) -> Option<Bag<Sha>> {
    let bytes = bytes_of_line(alloc, line).ok()??;
    read_bag::<Sha>(alloc, &bytes).ok()
}

/// The batch of a plan alone.
fn batch_of(alloc: Global, plan: Plan) -> Option<Batch> {
    plan.into_batch(alloc, Vec::new(alloc), Vec::new(alloc)).ok()
}

/// Stores a state's cells.
fn store(alloc: Global, keeper: &mut SteadyKeeper, value: &Prepared<Sha>) -> Option<()> {
    let plan = plan_add(alloc, keeper, value, GREATEST_COUNT).ok()?;
    let batch = batch_of(alloc, plan)?;
    keeper.apply(&batch).ok()
}

/// The new cells of an update.
fn prepared(alloc: Global, state: &OldState<Sha>, line: &[u8]) -> Option<Prepared<Sha>> {
    let bag = bag_of(alloc, line)?;
    let update = Update::of(&bag).ok()?;
    let wanted = update.wanted(alloc).ok()?;
    let faces = state.faces(alloc, &wanted).ok()?;
    prepare_update(alloc, &update, state.whole.root(), &faces).ok()
}

/// The block of a value, of this number.
fn block_of(value: &Prepared<Sha>, seqno: u32) -> BlockId {
    BlockId {
        shard_id: ShardId {
            workchain: 0,
            shard: 0x8000_0000_0000_0000,
        },
        seqno,
        root: value.root().rep(),
        file: Hash256([0; 32]),
    }
}

/// A core over the keeper, whose one block is that of a state.
fn core_of(alloc: Global, keeper: SteadyKeeper, value: &Prepared<Sha>) -> Option<Core<Quiet, Sha>> {
    let depth = value.root().height();
    if depth > 1024 {
        return None;
    }
    let mut blocks = Vec::new(alloc);
    blocks
        .push(Descr {
            id: block_of(value, 0),
            parents: BlockIds::new(alloc),
            root: value.root().rep(),
            depth,
            tops: BlockIds::new(alloc),
            leaving: false,
        })
        .ok()?;
    Some(Core::adopt(alloc, Quiet { inner: keeper }, blocks, GREATEST_COUNT))
}

/// Merges a value over the block.
fn merge(alloc: Global, core: &mut Core<Quiet, Sha>, parent: BlockId, value: Prepared<Sha>) -> Option<()> {
    let pin = core.pin(WHO, parent).ok()?.pin;
    let id = block_of(&value, 1);
    core.merge(WHO, pin, None, id, BlockIds::new(alloc), value).ok()?;
    Some(())
}

/// The updates that were prepared and, where that is asked, merged.
fn done(alloc: Global, input: &[u8], merges: bool) -> Option<u64> {
    let lines = lines_of(alloc, input).ok()?;
    let mut keeper = SteadyKeeper::new(alloc);
    let [first, second, updates @ ..] = lines.as_slice() else {
        return None;
    };
    store(alloc, &mut keeper, &prepare_zero(alloc, &bag_of(alloc, first)?).ok()?)?;
    let state = OldState::of(alloc, &bag_of(alloc, second)?).ok()?.ok()?;
    store(alloc, &mut keeper, &state.whole)?;
    let mut core = core_of(alloc, keeper, &state.whole)?;
    let parent = block_of(&state.whole, 0);
    let mut count = 0u64;
    for line in updates {
        let value = prepared(alloc, &state, line)?;
        if merges {
            merge(alloc, &mut core, parent, value)?;
        }
        count = count.saturating_add(1);
    }
    Some(count)
}

fn main(rt: HostRuntime) -> ExitCode {
    let alloc = rt.alloc();
    let merges = match env::args(&rt).ok().and_then(|mut words| words.nth(1)) {
        Some(word) => word.as_str() == "merge",
        None => false,
    };
    let mut input = StdSource::new(rt.reader());
    let Ok(bytes) = read_all(alloc, &mut input, 1_000_000_000) else {
        return ExitCode::from(1);
    };
    match done(alloc, &bytes, merges) {
        Some(_) => ExitCode::from(0),
        None => ExitCode::from(2),
    }
}
"""
QUIET = """//! A keeper that tells nothing.

ghost use Rattle.std.specs.Prelude.{None};

use cd_base::Hash256;
use cd_keeper::{Batch, KeepFault, Keeper, SteadyKeeper};

/// A keeper in memory that tells nothing of its tables.
#[derive(Drop)]
pub struct Quiet {
    pub inner: SteadyKeeper,
}

impl Keeper for Quiet {
    ghost held = { λ _. None };

    ghost trail = { λ _. None };

    ghost batches = { λ keeper. keeper.inner.batches };

    ghost faults = { λ _. 0 };

    ghost reads = { λ keeper. keeper.inner.reads };

    fn get_cell(&mut self, key: &Hash256) -> Result<Option<Vec<u8>>, KeepFault> {
        self.inner.get_cell(key)
    }

    fn next_cell(&mut self, after: Option<Hash256>) -> Result<Option<(Hash256, Vec<u8>)>, KeepFault> {
        self.inner.next_cell(after)
    }

    fn get_desc(&mut self, key: &[u8; 80]) -> Result<Option<Vec<u8>>, KeepFault> {
        self.inner.get_desc(key)
    }

    fn next_desc(&mut self, after: Option<[u8; 80]>) -> Result<Option<([u8; 80], Vec<u8>)>, KeepFault> {
        self.inner.next_desc(after)
    }

    fn apply(&mut self, batch: &Batch) -> Result<(), KeepFault> {
        self.inner.apply(batch)
    }
}
"""


def main():
    words = argparse.ArgumentParser(description=__doc__, formatter_class=argparse.RawDescriptionHelpFormatter)
    words.add_argument("--updates", type=int, default=300)
    words.add_argument("--times", type=int, default=7)
    given = words.parse_args()
    files = plans.files_of("merge_bench", PROGRAM, **{"src/quiet.rt": QUIET})
    with tempfile.TemporaryDirectory() as folder, plans.make(given.updates) as lines:
        program = plans.built(folder, "merge_bench", files, LIBRARIES)
        runs = [[plans.seconds(program, kind, lines.name) for kind in ("prepare", "merge")] for _ in range(given.times)]
    prepare, merge = (1e6 * min(times) / given.updates for times in zip(*runs))
    print(f"a merge of 191 new cells: {merge - prepare:.0f} microseconds of the processor")


if __name__ == "__main__":
    main()
