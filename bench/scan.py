#!/usr/bin/env python3
"""Measures a scan of a store in memory against reading the bag of its cells: seconds of the processor.

    bench/scan.py [--cells N] [--times N] [--scans N] [--program PATH]

At the top of the repository, after `rt ci` or `rt run` left `inspect` in crates/inspect/out (or with its PATH). It makes a
crate with the program below in a copy of the repository's crates, and builds it with `rt run`, which proves what an earlier
run on this machine hasn't. A bag of so many cells (100000), of 0 to 60 bytes each, is stored as a zero state in a keeper in
memory, and scanned so many times (5). A scan is what that takes beyond storing, divided by their number; reading is what
`inspect bags --raw` takes for the same bag. Of each the least of so many runs (7) is taken, since what else the machine does
only adds. It is no part of the gate.
"""
import argparse
import os
import subprocess
import sys
import tempfile

import plans

LIBRARIES = "cd_base cd_block cd_boc_read cd_cell cd_count cd_keeper cd_prepare cd_record cd_restart"
PROGRAM = """//! Scans a store in memory.
#![tactic(auto)]

use cd_base::{Hash256, StdSource, read_all};
use cd_block::{BlockId, ShardId};
use cd_boc_read::read_bag;
use cd_cell::{Prepared, Sha};
use cd_count::{Plan, plan_add};
use cd_keeper::{Batch, Keeper, SteadyKeeper};
use cd_prepare::prepare_zero;
use cd_record::GREATEST_COUNT;
use cd_restart::scan;
use std::alloc::Global;
use std::env;
use std::process::ExitCode;

/// The batch of a plan alone.
fn batch_of(alloc: Global, plan: Plan) -> Option<Batch> {
    plan.into_batch(alloc, Vec::new(alloc), Vec::new(alloc)).ok()
}

/// The description of a zero state: version, not leaving, no parents, root, depth, no tops.
fn description(alloc: Global, root: Hash256, depth: u16) -> Option<Vec<u8>> {
    let mut text = [1, 0, 0].to_vec(alloc).ok()?;
    text.extend_from_slice(&root.0).ok()?;
    text.extend_from_slice(&depth.to_be_bytes()).ok()?;
    text.push(0).ok()?;
    Some(text)
}

/// Stores a state.
fn store(alloc: Global, keeper: &mut SteadyKeeper, value: &Prepared<Sha>) -> Option<()> {
    let plan = plan_add(alloc, keeper, value, GREATEST_COUNT).ok()?;
    let batch = batch_of(alloc, plan)?;
    keeper.apply(&batch).ok()?;
    let root = value.root().rep();
    let id = BlockId {
        shard_id: ShardId {
            workchain: -1,
            shard: 0x8000_0000_0000_0000,
        },
        seqno: 0,
        root,
        file: Hash256([0; 32]),
    };
    let text = description(alloc, root, value.root().height())?;
    keeper.put_raw_desc(id.to_key(), text).ok()
}

/// Stores the state of a bag, and scans it so many times. Gives the number of its cells.
fn done(alloc: Global, bytes: &[u8], scans: usize) -> Option<u64> {
    let mut keeper = SteadyKeeper::new(alloc);
    let bag = read_bag::<Sha>(alloc, bytes).ok()?;
    store(alloc, &mut keeper, &prepare_zero(alloc, &bag).ok()?)?;
    let mut cells = 0;
    for _ in 0..scans {
        cells = scan::<SteadyKeeper, Sha>(alloc, &mut keeper).ok()?.cells;
    }
    Some(cells)
}

fn main(rt: HostRuntime) -> ExitCode {
    let alloc = rt.alloc();
    // So many scans as the word has letters.
    let scans = match env::args(&rt).ok().and_then(|mut words| words.nth(1)) {
        Some(word) => word.len(),
        None => 0,
    };
    let mut input = StdSource::new(rt.reader());
    let Ok(bytes) = read_all(alloc, &mut input, 1_000_000_000) else {
        return ExitCode::from(1);
    };
    match done(alloc, &bytes, scans) {
        Some(_) => ExitCode::from(0),
        None => ExitCode::from(2),
    }
}
"""


def seconds(call, path):
    """Processor seconds of one run."""
    with open(path, "rb") as source:
        child = subprocess.Popen(list(map(str, call)), stdin=source, stdout=subprocess.DEVNULL)
        _, status, usage = os.wait4(child.pid, 0)
        child.returncode = os.waitstatus_to_exitcode(status)
    if child.returncode != 0:
        sys.exit(f"{call[0]} ended with status {child.returncode}")
    return usage.ru_utime + usage.ru_stime


def main():
    words = argparse.ArgumentParser(description=__doc__, formatter_class=argparse.RawDescriptionHelpFormatter)
    words.add_argument("--cells", type=int, default=100_000)
    words.add_argument("--times", type=int, default=7)
    words.add_argument("--scans", type=int, default=5)
    words.add_argument("--program", default=plans.TOP / "crates/inspect/out/inspect")
    given = words.parse_args()
    with tempfile.TemporaryDirectory() as folder, tempfile.NamedTemporaryFile() as bag:
        subprocess.run([sys.executable, plans.TOP / "bench/make_bag.py", str(given.cells)], stdout=bag, check=True)
        program = plans.built(folder, "scan_bench", plans.files_of("scan_bench", PROGRAM), LIBRARIES)
        calls = [[program], [program, "s" * given.scans], [given.program, "bags", "--raw"]]
        runs = [[seconds(call, bag.name) for call in calls] for _ in range(given.times)]
    stored, scanned, read = (min(times) for times in zip(*runs))
    scan = (scanned - stored) / given.scans
    print(f"a scan of {given.cells} cells: {scan:.3f} s of the processor, {scan / read:.2f} times reading their bag ({read:.3f} s)")


if __name__ == "__main__":
    main()
