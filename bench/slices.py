#!/usr/bin/env python3
"""Slices of exports over many bags, files as clients, and what a plan and slices cost.

    bench/slices.py [--cells N ..] [--times N]

At the top of the repository. It makes a crate with the program below in a copy of the repository's crates, and builds it
with `rt run`, which proves what an earlier run on this machine hasn't. It is no part of the gate. Then

- of each state in tests/bags.jsonl, bags of another program, the slices of 1, 7, 100 and 4,096 bytes have to join to what
  `write_bag` writes;
- two files take the export of each by `fan_out`, in pieces of 100 bytes, and have to have that text;
- over random bags of N cells (10,000 and 100,000 where it isn't given) of 60 bytes, the time of `write_bag`, of a plan, and
  of all slices of 2 MiB and of 4,096 bytes is printed, each the least of N runs (5 where it isn't given).
"""
import argparse
import json
import os
import pathlib
import shutil
import subprocess
import sys
import tempfile

TOP = pathlib.Path(__file__).resolve().parent.parent
LIBRARIES = "cd_base cd_boc_read cd_boc_write cd_cell cd_event cd_fan cd_fan_tests cd_prepare cd_slices inspect_lines"
PROGRAM = """//! Slices of exports of states, which come as bags in hexadecimal, a line each.
#![tactic(auto)]

use cd_base::{StdSource, read_all};
use cd_boc_read::read_bag;
use cd_boc_write::write_bag;
use cd_cell::{ChildInfo, MOST_CELLS, Sha};
use cd_fan::{Client, FileClient, fan_out};
use cd_fan_tests::ListedLook;
use cd_prepare::all_cells;
use cd_slices::Export;
use inspect_lines::{bytes_of_line, lines_of};
use std::alloc::Global;
use std::process::ExitCode;
use std::{env, fs};

/// What is done of each state.
#[derive(Clone, Copy, PartialEq, Eq)]
enum Work {
    Join,
    Serve,
    Read,
    Write,
    Plan,
    Large,
    Small,
}

/// A state: a look at its cells, what its root shows, and its export text where that is wanted.
#[derive(Drop)]
struct State {
    look: ListedLook,
    root: ChildInfo,
    text: Vec<u8>,
}

fn state_of(alloc: Global, line: &[u8], wanted: bool) -> Option<State> {
    let bytes = bytes_of_line(alloc, line).ok()??;
    let bag = read_bag::<Sha>(alloc, &bytes).ok()?;
    let root = *bag.roots().first()?;
    if root as usize >= bag.cells().len() || bag.cells().len() > MOST_CELLS as usize {
        return None;
    }
    let cells = all_cells(alloc, &bag, root).ok()?;
    let text = if wanted {
        write_bag(alloc, &cells).ok()?
    } else {
        Vec::new(alloc)
    };
    Some(State {
        look: ListedLook::of(alloc, &cells).ok()?,
        root: bag.info(root),
        text,
    })
}

/// All slices of this size, one behind the other.
fn joined(alloc: Global, export: &Export, look: &mut ListedLook, size: u32) -> Option<Vec<u8>> {
    let mut text = Vec::new(alloc);
    for _ in 0..export.len() {
        if text.len() as u64 >= export.len() {
            break;
        }
        let piece = export.slice(alloc, look, text.len() as u64, size).ok()?;
        text.extend_from_slice(&piece).ok()?;
    }
    Some(text)
}

fn are_joined(alloc: Global, state: &mut State) -> Option<()> {
    let export = Export::plan(alloc, &mut state.look, &state.root).ok()?;
    for size in [1, 7, 100, 4096] {
        let text = joined(alloc, &export, &mut state.look, size)?;
        if text.as_slice() != state.text.as_slice() {
            return None;
        }
    }
    Some(())
}

fn is_served(rt: &HostRuntime, alloc: Global, state: &mut State) -> Option<()> {
    let export = Export::plan(alloc, &mut state.look, &state.root).ok()?;
    let mut clients: Vec<Client> = Vec::new(alloc);
    let first = FileClient::create(rt, "first").ok()?;
    clients.push(Box::new(alloc, first).ok()?).ok()?;
    let second = FileClient::create(rt, "second").ok()?;
    clients.push(Box::new(alloc, second).ok()?).ok()?;
    fan_out(alloc, &export, &mut state.look, &mut clients, 100).ok()?;
    if clients.len() != 2 {
        return None;
    }
    drop(clients);
    for path in ["first", "second"] {
        let text = fs::read(rt, path).ok()?;
        if text.as_slice() != state.text.as_slice() {
            return None;
        }
    }
    Some(())
}

fn is_done(rt: &HostRuntime, alloc: Global, line: &[u8], work: Work) -> Option<()> {
    let wanted = matches!(work, Work::Join | Work::Serve | Work::Write);
    let mut state = state_of(alloc, line, wanted)?;
    match work {
        Work::Join => are_joined(alloc, &mut state),
        Work::Serve => is_served(rt, alloc, &mut state),
        Work::Read | Work::Write => Some(()),
        Work::Plan => {
            Export::plan(alloc, &mut state.look, &state.root).ok()?;
            Some(())
        }
        Work::Large | Work::Small => {
            let size = if work == Work::Large { 2_097_152 } else { 4096 };
            let export = Export::plan(alloc, &mut state.look, &state.root).ok()?;
            joined(alloc, &export, &mut state.look, size)?;
            Some(())
        }
    }
}

fn work_of(rt: &HostRuntime) -> Option<Work> {
    match env::args(rt).ok()?.nth(1)?.as_str() {
        "join" => Some(Work::Join),
        "serve" => Some(Work::Serve),
        "read" => Some(Work::Read),
        "write" => Some(Work::Write),
        "plan" => Some(Work::Plan),
        "large" => Some(Work::Large),
        "small" => Some(Work::Small),
        _ => None,
    }
}

fn all_done(rt: &HostRuntime, alloc: Global, input: &[u8]) -> Option<()> {
    let work = work_of(rt)?;
    for line in &lines_of(alloc, input).ok()? {
        is_done(rt, alloc, line, work)?;
    }
    Some(())
}

fn main(rt: HostRuntime) -> ExitCode {
    let alloc = rt.alloc();
    let mut input = StdSource::new(rt.reader());
    let Ok(bytes) = read_all(alloc, &mut input, 1_000_000_000) else {
        return ExitCode::from(1);
    };
    match all_done(&rt, alloc, &bytes) {
        Some(()) => ExitCode::from(0),
        None => ExitCode::from(2),
    }
}
"""


def built(folder):
    """The program, built in a copy of the repository."""
    crates = pathlib.Path(folder) / "crates"
    shutil.copytree(TOP / "crates", crates, ignore=shutil.ignore_patterns("out"))
    source = crates / "slice_bench/src"
    source.mkdir(parents=True)
    (source / "main.rt").write_text(PROGRAM)
    (crates.parent / "crates.txt").write_text((TOP / "crates.txt").read_text() + f"slice_bench: {LIBRARIES}\n")
    shutil.copy(TOP / "HANDLES", crates.parent)
    subprocess.run(["git", "init", "-q", folder], check=True)
    run = subprocess.run(["rt", "run"], cwd=crates / "slice_bench", stdin=subprocess.DEVNULL, capture_output=True, text=True)
    program = crates / "slice_bench/out/slice_bench"
    if not program.exists():
        sys.exit(f"the program isn't built: {run.stdout[-2000:]}{run.stderr[-2000:]}")
    return str(program)


def states():
    """The bags of the table that are states, in hexadecimal."""
    rows = map(json.loads, (TOP / "tests/bags.jsonl").read_text().splitlines())
    return [row["hex"] for row in rows if row.get("status", 0) == 0]


def measured(program, word, lines, folder):
    """The status of one run, its processor seconds, and its peak kilobytes."""
    with open(lines, "rb") as source:
        child = subprocess.Popen([program, word], stdin=source, cwd=folder)
        _, status, usage = os.wait4(child.pid, 0)
        child.returncode = os.waitstatus_to_exitcode(status)
    return child.returncode, usage.ru_utime + usage.ru_stime, usage.ru_maxrss


def costs(program, folder, cells, times):
    """Prints what is done of a random bag of so many cells, beyond reading it."""
    lines = pathlib.Path(folder) / "lines"
    made = subprocess.run([sys.executable, TOP / "bench/make_bag.py", str(cells), "--low", "60", "--high", "60"], stdout=subprocess.PIPE, check=True)
    lines.write_text(made.stdout.hex() + "\n")
    kinds = ("read", "write", "plan", "large", "small")
    runs = {kind: [measured(program, kind, lines, folder) for _ in range(times)] for kind in kinds}
    if any(status != 0 for rows in runs.values() for status, _, _ in rows):
        sys.exit("a run failed")
    read, write, plan, large, small = (1000 * min(row[1] for row in runs[kind]) for kind in kinds)
    peaks = {kind: min(row[2] for row in runs[kind]) // 1024 for kind in kinds}
    print(f"{cells} cells: write_bag {write - read:.0f} ms, plan {plan - read:.0f} ms, slices of 2 MiB {large - plan:.0f} ms, of 4,096 bytes {small - plan:.0f} ms; "
          f"peaks: read {peaks['read']} MB, write_bag {peaks['write']} MB, plan {peaks['plan']} MB")


def main():
    words = argparse.ArgumentParser(description=__doc__, formatter_class=argparse.RawDescriptionHelpFormatter)
    words.add_argument("--cells", type=int, nargs="*", default=[10_000, 100_000])
    words.add_argument("--times", type=int, default=5)
    given = words.parse_args()
    wrong = 0
    with tempfile.TemporaryDirectory() as folder:
        program = built(folder)
        lines = pathlib.Path(folder) / "lines"
        for word in ("join", "serve"):
            passed = 0
            for state in states():
                lines.write_text(state + "\n")
                passed += measured(program, word, lines, folder)[0] == 0
            wrong += len(states()) - passed
            print(f"{word}: {passed} of {len(states())} states")
        for cells in given.cells:
            costs(program, folder, cells, given.times)
    return 1 if wrong else 0


sys.exit(main())
