#!/usr/bin/env bash
# Measures plan_json and plan_rows on the largest lawful plan: 16,777,216 bytes, 2,048 pages of 32 layers each, 8 sections
# of 128 pages, and 16 sites of which no two share a page. Prints the milliseconds of processor time of `read_plan`, the
# nanoseconds of each call of `row_at` and `keeps`, and the peak memory of the program; then the same of json.loads of
# Python; then the peak memory of a text of as many bytes that is a list of 8,388,607 numbers, and so no plan.
# usage: bench/plan.sh [FOLDER for the program and the plan]
set -eu
here=$(cd "$(dirname "$0")" && pwd)
folder=${1:-$(mktemp -d)}
program=$folder/crates/bench_plan
mkdir -p "$program/src"
cp "$here/../HANDLES" "$folder"
: > "$folder/crates.txt"
for crate in pr_base tif_dir tif_packbits tif_plate plan_parts plan_json plan_pages plan_rows; do
    rm -rf "$folder/crates/$crate"
    mkdir "$folder/crates/$crate"
    (cd "$here/../crates/$crate" && tar cf - --exclude=out .) | tar xf - -C "$folder/crates/$crate"
    grep "^$crate:" "$here/../crates.txt" >> "$folder/crates.txt"
done
echo 'bench_plan: plan_rows plan_json pr_base anyhow' >> "$folder/crates.txt"
cat > "$program/src/main.rt" <<'CODE'
// Times the reading of a plan, and its row plan's calls.
#![tactic(auto)]

use anyhow::{Context, Result};
use plan_json::{Plan, read_plan};
use plan_rows::RowPlan;
use std::env;
use std::env::Env;
use std::fs;
use std::rt::Files;
use std::time::{CpuClock, Duration};

/// The number of calls that are timed.
const CALLS: u32 = 20_000_000;

fn nanoseconds(start: Duration, end: Duration) -> u64 {
    match end.checked_sub(start) {
        Some(took) => u64::try_from(took.as_nanos()).unwrap_or(0),
        None => 0,
    }
}

fn plan_of(rt: &(impl CpuClock + Print + AllocGlobal), text: &[u8]) -> Result<Plan> {
    let start = rt.process_cpu_time()?;
    let read = read_plan(rt.alloc(), text);
    let took = nanoseconds(start, rt.process_cpu_time()?) / 1_000_000;
    println!(rt; "read_plan {took} milliseconds")?;
    Ok(read?)
}

/// The row that is asked for after row `n`.
fn after(n: u64, step: u64, total: u64) -> u64 {
    let next = n.wrapping_add(step);
    if next < total { next } else { next.wrapping_sub(total) }
}

/// The sum of some number of the rows, so that no call is left out.
fn places(rows: &RowPlan, step: u64) -> u64 {
    let total = rows.total();
    let mut sum = 0u64;
    let mut n = 0u64;
    for _ in 0..CALLS {
        if n < total {
            let place = rows.row_at(n);
            sum = sum.wrapping_add(u64::from(place.y)).wrapping_add(place.slot as u64);
        }
        n = after(n, step, total);
    }
    sum
}

/// The number of rows among them that site 3 keeps.
fn kept(rows: &RowPlan, step: u64) -> u64 {
    let total = rows.total();
    let mut count = 0u64;
    let mut n = 0u64;
    for _ in 0..CALLS {
        if n < total && rows.keeps(3, n) {
            count = count.wrapping_add(1);
        }
        n = after(n, step, total);
    }
    count
}

fn times(rt: &(impl CpuClock + Print + AllocGlobal), rows: &RowPlan, order: &str, step: u64) -> Result<()> {
    let calls = u64::from(CALLS);
    let start = rt.process_cpu_time()?;
    let sum = places(rows, step);
    let took = nanoseconds(start, rt.process_cpu_time()?) / calls;
    println!(rt; "row_at {order} {took} nanoseconds a call, sum {sum}")?;
    let start = rt.process_cpu_time()?;
    let count = kept(rows, step);
    let took = nanoseconds(start, rt.process_cpu_time()?) / calls;
    println!(rt; "keeps {order} {took} nanoseconds a call, {count} kept")?;
    Ok(())
}

fn rows_of(rt: &(impl CpuClock + Print + AllocGlobal), plan: &Plan) -> Result<RowPlan> {
    let start = rt.process_cpu_time()?;
    let rows = RowPlan::of(rt.alloc(), plan)?;
    let took = nanoseconds(start, rt.process_cpu_time()?) / 1_000;
    println!(rt; "RowPlan::of {took} microseconds")?;
    Ok(rows)
}

fn run<R: Files + Env + CpuClock + Print + AllocGlobal>(rt: &R) -> Result<()> {
    let path = env::args(rt)?.nth(1).context("no file is named")?;
    let text = fs::read(rt, path.as_str())?;
    let plan = plan_of(rt, text.as_slice())?;
    println!(rt; "{} bytes, {} files", text.len(), plan.files().len())?;
    let rows = rows_of(rt, &plan)?;
    println!(rt; "{} groups, {} rows", rows.groups().len(), rows.total())?;
    times(rt, &rows, "in order", 1)?;
    times(rt, &rows, "scattered", 1_234_567_891)
}

fn main(rt: HostRuntime) -> Result<()> {
    run(&rt)
}
CODE
python3 "$here/plan.py" make "$folder/plan.json"
python3 "$here/plan.py" many "$folder/many.json"
(cd "$program" && rt run -- "$folder/plan.json" > "$folder/log" 2>&1) || { cat "$folder/log"; exit 1; }
for _ in 1 2 3; do
    /usr/bin/time -f "%M KiB at most" "$program/out/bench_plan" "$folder/plan.json"
    python3 "$here/plan.py" read "$folder/plan.json"
done
/usr/bin/time -f "%M KiB at most" "$program/out/bench_plan" "$folder/many.json" || true
python3 "$here/plan.py" read "$folder/many.json"
