#!/usr/bin/env python3
"""Measures how long a plan of counts takes, of updates of 191 new cells over a store of 100,000 cells in memory.

    bench/plans.py [--updates N] [--times N]

At the top of the repository. It makes a crate with the program below in a copy of the repository's crates, and builds it
with `rt run`, which proves what an earlier run on this machine hasn't. The lines are those of bench/make_update.py; the
store holds their state and a random bag of the other cells. Planning is what `plan` takes beyond `prepare`, and making the
batch what `batch` takes beyond that; the least of N runs is taken of each (7 where it isn't given). It is no part of the gate.
"""
import argparse
import os
import pathlib
import shutil
import subprocess
import sys
import tempfile

TOP = pathlib.Path(__file__).resolve().parent.parent
STORED, STATE = 100_000, 1_023
LIBRARIES = "cd_base cd_block cd_boc_read cd_cell cd_count cd_keeper cd_prepare cd_record cd_update inspect_lines inspect_updates"
PROGRAM = """//! Plans updates over a store in memory.
#![tactic(auto)]

use cd_base::{StdSource, read_all};
use cd_boc_read::read_bag;
use cd_cell::{Bag, Prepared, Sha};
use cd_count::{Plan, plan_add};
use cd_keeper::{Batch, Keeper, SteadyKeeper};
use cd_prepare::{prepare_update, prepare_zero};
use cd_record::GREATEST_COUNT;
use cd_update::Update;
use inspect_lines::{bytes_of_line, lines_of};
use inspect_updates::OldState;
use std::alloc::Global;
use std::env;
use std::process::ExitCode;

/// What is done of each update.
#[derive(Clone, Copy, PartialEq, Eq)]
enum Work {
    Prepare,
    Plan,
    Batch,
}

fn bag_of(alloc: Global, line: &[u8]) -> Option<Bag<Sha>> {
    let bytes = bytes_of_line(alloc, line).ok()??;
    read_bag::<Sha>(alloc, &bytes).ok()
}

fn planned<'a>(alloc: Global, keeper: &mut SteadyKeeper, value: &'a Prepared<Sha>) -> Option<Plan<'a>> {
    plan_add(alloc, keeper, value, GREATEST_COUNT).ok()
}

/// The batch of a plan alone.
fn batch_of(alloc: Global, plan: Plan) -> Option<Batch> {
    plan.into_batch(alloc, Vec::new(alloc), Vec::new(alloc)).ok()
}

/// Stores a state's cells.
fn store(alloc: Global, keeper: &mut SteadyKeeper, value: &Prepared<Sha>) -> Option<()> {
    let plan = planned(alloc, keeper, value)?;
    let batch = batch_of(alloc, plan)?;
    keeper.apply(&batch).ok()
}

/// The new cells of an update.
fn prepared(alloc: Global, state: &OldState<Sha>, line: &[u8]) -> Option<Prepared<Sha>> {
    let bag = bag_of(alloc, line)?;
    let update = Update::of(&bag).ok()?;
    let wanted = update.wanted(alloc).ok()?;
    let faces = state.faces(alloc, &wanted).ok()?;
    prepare_update(alloc, &update, state.whole.root(), &faces).ok()
}

/// The updates that were done, of which each is planned over the same store.
fn done(alloc: Global, input: &[u8], work: Work) -> Option<u64> {
    let lines = lines_of(alloc, input).ok()?;
    let mut keeper = SteadyKeeper::new(alloc);
    let [first, second, updates @ ..] = lines.as_slice() else {
        return None;
    };
    store(alloc, &mut keeper, &prepare_zero(alloc, &bag_of(alloc, first)?).ok()?)?;
    let state = OldState::of(alloc, &bag_of(alloc, second)?).ok()?.ok()?;
    store(alloc, &mut keeper, &state.whole)?;
    let mut count = 0u64;
    for line in updates {
        let value = prepared(alloc, &state, line)?;
        if work != Work::Prepare {
            let plan = planned(alloc, &mut keeper, &value)?;
            if work == Work::Batch {
                batch_of(alloc, plan)?;
            }
        }
        count = count.saturating_add(1);
    }
    Some(count)
}

fn main(rt: HostRuntime) -> ExitCode {
    let alloc = rt.alloc();
    let work = match env::args(&rt).ok().and_then(|mut words| words.nth(1)) {
        Some(word) if word.as_str() == "plan" => Work::Plan,
        Some(word) if word.as_str() == "batch" => Work::Batch,
        _ => Work::Prepare,
    };
    let mut input = StdSource::new(rt.reader());
    let Ok(bytes) = read_all(alloc, &mut input, 1_000_000_000) else {
        return ExitCode::from(1);
    };
    match done(alloc, &bytes, work) {
        Some(_) => ExitCode::from(0),
        None => ExitCode::from(2),
    }
}
"""
# What `into_batch` asks: no description is named twice, since none is named.
PROOF = """use Rattle.std.proofs.Common.{List, [], map, ◌++◌, sym, subst₂}
use Rattle.std.specs.List.{IsDistinct}
use Rattle.std.specs.Map.{keys_of}
use Rattle.cd_block.specs.declared.block.BlockId.{BlockId}
use Rattle.cd_block.specs.declared.description.Descr.{Descr}
use Rattle.cd_block.specs.Block.{key_of}
use Rattle.cd_keeper.specs.NoKeyTwice.{same_key}
use Rattle.cd_count.specs.PlanRows.{descr_puts}
use Rattle.NAME.proofs.batch_of.Goals as goal

no_keys : IsDistinct same_key []
unfolding IsDistinct
no_keys = tt

pub into_batch-requires-clause-once : goal.into_batch-requires-clause-once
into_batch-requires-clause-once c =
    subst₂ (λ (gone : List BlockId) (come : List Descr). IsDistinct same_key (map key_of gone ++ keys_of (descr_puts come)))
    (sym c.new-2.ensures.items) (sym c.new.ensures.items) no_keys
"""


def files_of(name, program, **others):
    """The files of a program that makes batches by `batch_of`."""
    return {"src/main.rt": program, "proofs/batch_of/Answers.antt": PROOF.replace("NAME", name), **others}


def built(folder, name, files, libraries):
    """A program of these files, built in a copy of the repository."""
    crates = pathlib.Path(folder) / "crates"
    shutil.copytree(TOP / "crates", crates, ignore=shutil.ignore_patterns("out"))
    for file, text in files.items():
        (crates / name / file).parent.mkdir(parents=True, exist_ok=True)
        (crates / name / file).write_text(text)
    (crates.parent / "crates.txt").write_text((TOP / "crates.txt").read_text() + f"{name}: {libraries}\n")
    shutil.copy(TOP / "HANDLES", crates.parent)
    subprocess.run(["git", "init", "-q", folder], check=True)
    run = subprocess.run(["rt", "run"], cwd=crates / name, stdin=subprocess.DEVNULL, capture_output=True, text=True)
    made = crates / name / "out" / name
    if not made.exists():
        sys.exit(f"the program isn't built: {run.stdout[-2000:]}{run.stderr[-2000:]}")
    return str(made)


def make(updates):
    """A file of the random bag and the state that are stored, and so many updates of the state."""
    lines = tempfile.NamedTemporaryFile()
    made = [sys.executable, TOP / "bench/make_bag.py", str(STORED - STATE), "--low", "60", "--high", "60"]
    bag = subprocess.run(made, stdout=subprocess.PIPE, check=True)
    lines.write(bag.stdout.hex().encode() + b"\n")
    lines.flush()
    subprocess.run([sys.executable, TOP / "bench/make_update.py", str(updates)], stdout=lines, check=True)
    return lines


def seconds(program, word, path):
    """Processor seconds of one run."""
    with open(path, "rb") as source:
        child = subprocess.Popen([program, word], stdin=source, stdout=subprocess.DEVNULL)
        _, status, usage = os.wait4(child.pid, 0)
        child.returncode = os.waitstatus_to_exitcode(status)
    if child.returncode != 0:
        sys.exit(f"the program ended with status {child.returncode}")
    return usage.ru_utime + usage.ru_stime


def main():
    words = argparse.ArgumentParser(description=__doc__, formatter_class=argparse.RawDescriptionHelpFormatter)
    words.add_argument("--updates", type=int, default=1000)
    words.add_argument("--times", type=int, default=7)
    given = words.parse_args()
    with tempfile.TemporaryDirectory() as folder, make(given.updates) as lines:
        program = built(folder, "plan_bench", files_of("plan_bench", PROGRAM), LIBRARIES)
        kinds = ("prepare", "plan", "batch")
        runs = [[seconds(program, kind, lines.name) for kind in kinds] for _ in range(given.times)]
    prepare, plan, batch = (1e6 * min(times) / given.updates for times in zip(*runs))
    print(f"a plan of 191 new cells: {plan - prepare:.0f} microseconds of the processor, and its batch {batch - plan:.0f}")


if __name__ == "__main__":
    main()
