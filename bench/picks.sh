#!/usr/bin/env bash
# Measures the picks of replate: which plates a new job must make, beside an old one. Prints the milliseconds of processor
# time of `Picks::of` where both jobs have the same files, where each file has other bytes from its first on, and those
# of a comparison of the same bytes alone (`==` of two slices): for 128 pages, 16 sites and four inks with 16 files of
# 64 MB each, and then for the largest lawful plan with 131,072 files of 64 bytes. Then `cmp` of 16 such files with copies.
# usage: bench/picks.sh [FOLDER for the program, the plans and 2 GB of files]
set -eu
here=$(cd "$(dirname "$0")" && pwd)
folder=${1:-$(mktemp -d)}
program=$folder/crates/bench_picks
mkdir -p "$program/src" "$program/proofs/files_of"
cp "$here/../HANDLES" "$folder"
lower='pr_base tif_dir tif_packbits tif_plate plan_parts plan_json plan_pages plan_rows'
lower="$lower ring_core ring_rule ring_lanes pr_rack site_agent replate"
: > "$folder/crates.txt"
for crate in $lower; do
    rm -rf "$folder/crates/$crate"
    mkdir "$folder/crates/$crate"
    (cd "$here/../crates/$crate" && tar cf - --exclude=out .) | tar xf - -C "$folder/crates/$crate"
    grep "^$crate:" "$here/../crates.txt" >> "$folder/crates.txt"
done
echo 'bench_picks: replate plan_rows plan_json pr_base anyhow' >> "$folder/crates.txt"
cat > "$program/src/main.rt" <<'CODE'
// Times the picks of two jobs.
#![tactic(auto)]

ghost use Rattle.std.specs.Prelude.{◌≡◌, IfOk, length};
ghost use Rattle.plan_rows.specs.Rows.{rows_of};

use anyhow::{Context, Result};
use plan_json::{Plan, read_plan};
use plan_rows::RowPlan;
use replate::{Inputs, Picks};
use std::alloc::Global;
use std::env;
use std::env::Env;
use std::fs;
use std::rt::Files;
use std::time::{CpuClock, Duration};

fn microseconds(start: Duration, end: Duration) -> u64 {
    match end.checked_sub(start) {
        Some(took) => u64::try_from(took.as_micros()).unwrap_or(0),
        None => 0,
    }
}

/// So many bytes, which a number tells.
fn filled(alloc: Global, size: usize, number: u64) -> Result<Vec<u8>> {
    let mut bytes = Vec::new(alloc);
    bytes.reserve(size)?;
    let mut state = number;
    for _ in 0..size {
        state = state.wrapping_mul(6_364_136_223_846_793_005).wrapping_add(1_442_695_040_888_963_407);
        bytes.push((state >> 56) as u8)?;
    }
    Ok(bytes)
}

/// So many files of a size, from a number on.
fn files_of(alloc: Global, count: usize, size: usize, number: u64) -> Result<Vec<Vec<u8>>>
    ensures { IfOk result (λ files. length files.items ≡ count) }
{
    let mut files = Vec::new(alloc);
    for n in 0..count {
        files.push(filled(alloc, size, number.wrapping_add(n as u64))?)?;
    }
    Ok(files)
}

/// Times the picks, and prints how many old plates are dropped.
fn pick(rt: &(impl CpuClock + Print + AllocGlobal), kind: &str, before: &Inputs<'_>, after: &Inputs<'_>) -> Result<()> {
    let start = rt.process_cpu_time()?;
    let picks = Picks::of(rt.alloc(), before, after)?;
    let took = microseconds(start, rt.process_cpu_time()?);
    println!(rt; "Picks::of, {kind}: {took} microseconds, {} dropped", picks.dropped().len())?;
    Ok(())
}

/// How many files of the one list are those of the other.
fn same(one: &[Vec<u8>], other: &[Vec<u8>]) -> u64 {
    let mut count = 0u64;
    for (a, b) in one.iter().zip(other) {
        if a.as_slice() == b.as_slice() {
            count = count.wrapping_add(1);
        }
    }
    count
}

fn compare(rt: &(impl CpuClock + Print), one: &[Vec<u8>], other: &[Vec<u8>]) -> Result<()> {
    let start = rt.process_cpu_time()?;
    let count = same(one, other);
    let took = microseconds(start, rt.process_cpu_time()?);
    println!(rt; "{count} files compared: {took} microseconds")?;
    Ok(())
}

/// Times the picks of a plan with these old and new files.
fn pick_files(
    rt: &(impl CpuClock + Print + AllocGlobal),
    kind: &str,
    plan: &Plan,
    rows: &RowPlan,
    old: &[Vec<u8>],
    new: &[Vec<u8>],
) -> Result<()>
    requires rows { rows.now ≡ rows_of plan.now }
    requires old { length old.now ≡ length plan.now.files }
    requires new { length new.now ≡ length plan.now.files }
{
    let before = Inputs::new(plan, rows, old);
    let after = Inputs::new(plan, rows, new);
    pick(rt, kind, &before, &after)
}

/// Times them for files of a size: the same ones, and others.
fn times(rt: &(impl CpuClock + Print + AllocGlobal), plan: &Plan, rows: &RowPlan, size: usize) -> Result<()>
    requires rows { rows.now ≡ rows_of plan.now }
{
    let count = plan.files().len();
    let old = files_of(rt.alloc(), count, size, 1)?;
    let same = files_of(rt.alloc(), count, size, 1)?;
    pick_files(rt, "same files", plan, rows, &old, &same)?;
    compare(rt, &old, &same)?;
    drop(same);
    let new = files_of(rt.alloc(), count, size, 1 << 32)?;
    pick_files(rt, "other files", plan, rows, &old, &new)
}

fn rows_and_times(rt: &(impl CpuClock + Print + AllocGlobal), plan: &Plan, size: usize) -> Result<()> {
    let rows = RowPlan::of(rt.alloc(), plan)?;
    times(rt, plan, &rows, size)
}

fn run<R: Files + Env + CpuClock + Print + AllocGlobal>(rt: &R) -> Result<()> {
    let path = env::args(rt)?.nth(1).context("no plan is named")?;
    let size = env::args(rt)?.nth(2).context("no size is told")?;
    let size = size.as_str().parse::<usize>()?;
    let text = fs::read(rt, path.as_str())?;
    let start = rt.process_cpu_time()?;
    let plan = read_plan(rt.alloc(), text.as_slice())?;
    let took = microseconds(start, rt.process_cpu_time()?);
    println!(rt; "read_plan: {took} microseconds, {} files", plan.files().len())?;
    rows_and_times(rt, &plan, size)
}

fn main(rt: HostRuntime) -> Result<()> {
    run(&rt)
}
CODE
cat > "$program/proofs/files_of/Invariants.antt" <<'PROOF'
use Rattle.std.proofs.Common.{◌≡◌, length}
use Rattle.bench_picks.proofs.files_of.Given as goal

abbrev pub invariant-loop-n : goal.invariant-loop-n
invariant-loop-n l = length l.files.items ≡ l.n
PROOF
python3 - "$folder/pages.json" <<'PLAN'
"""128 pages of one image each, out of 16 files, for 16 sites."""
import json
import sys

pages = [
    {"name": f"P{p}", "inks": "CMYK", "layers": [{"kind": "contone", "file": f"{p % 16}.tif"}]} for p in range(128)
]
plan = {
    "plan": 1,
    "edition": "E1",
    "dpi": 1200,
    "page": [16550, 26500],
    "pages": pages,
    "sections": [{"name": "A", "pages": [page["name"] for page in pages]}],
    "sites": [{"name": f"SITE{s}"} for s in range(16)],
}
with open(sys.argv[1], "w") as file:
    json.dump(plan, file)
PLAN
python3 "$here/plan.py" make "$folder/plan.json"
(cd "$program" && rt run -- "$folder/pages.json" 64 > "$folder/log" 2>&1) || { cat "$folder/log"; exit 1; }
for _ in 1 2 3; do
    "$program/out/bench_picks" "$folder/pages.json" 67108864
    "$program/out/bench_picks" "$folder/plan.json" 64
done
mkdir -p "$folder/one" "$folder/other"
for n in $(seq 0 15); do
    head -c 67108864 /dev/urandom > "$folder/one/$n"
    cp "$folder/one/$n" "$folder/other/$n"
done
for _ in 1 2 3; do
    /usr/bin/time -f "cmp of all: %U s, and %S s of the system" sh -c \
        'for n in $(seq 0 15); do cmp "$0/one/$n" "$0/other/$n"; done' "$folder"
done
rm -rf "$folder/one" "$folder/other"
