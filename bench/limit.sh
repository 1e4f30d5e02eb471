#!/usr/bin/env bash
# Measures the ink limit (limit_row of page_tone) beside a plain C loop with three divisions a pixel: rows of 16,000
# pixels under a limit of 612, of which no pixel passes the limit, each does, and each second thousand does. Each program
# prints a line for each row: its name, the million pixels a second of processor time, best of twenty runs of a hundred
# rows, and a sum over the limited values, which has to be the same.
# usage: bench/limit.sh [FOLDER for the two programs]
set -eu
here=$(cd "$(dirname "$0")" && pwd)
folder=${1:-$(mktemp -d)}
program=$folder/crates/bench_limit
mkdir -p "$program/src"
cp "$here/../HANDLES" "$folder"
rm -rf "$folder/crates/page_tone"
mkdir "$folder/crates/page_tone"
(cd "$here/../crates/page_tone" && tar cf - --exclude=out .) | tar xf - -C "$folder/crates/page_tone"
grep '^page_tone:' "$here/../crates.txt" > "$folder/crates.txt"
echo 'bench_limit: page_tone anyhow' >> "$folder/crates.txt"
cat > "$program/src/main.rt" <<'CODE'
// Times the ink limit over rows.
#![tactic(auto)]

ghost use Rattle.std.specs.Prelude.{◌≡◌, length};

use anyhow::{Context, Result};
use page_tone::limit_row;
use std::env;
use std::env::Env;
use std::fs;
use std::rt::Files;
use std::time::{CpuClock, Duration};

const WIDTH: usize = 16_000;

const LIMIT: u16 = 612;

const CALLS: u64 = 100;

const RUNS: u64 = 20;

fn nanoseconds(start: Duration, end: Duration) -> u64 {
    match end.checked_sub(start) {
        Some(took) => u64::try_from(took.as_nanos()).unwrap_or(u64::MAX),
        None => 0,
    }
}

/// Limits a row as it is read, and gives the nanoseconds that the limit takes.
fn once(rt: &impl CpuClock, row: &[u8], work: &mut [u8]) -> Result<u64>
    requires row { length row.now ≡ 64000 }
    requires work { length work.old ≡ 64000 }
{
    work.copy_from_slice(row);
    let (cyan, rest) = work.split_at_mut(WIDTH);
    let (magenta, rest) = rest.split_at_mut(WIDTH);
    let (yellow, black) = rest.split_at_mut(WIDTH);
    let start = rt.process_cpu_time()?;
    limit_row(LIMIT, cyan, magenta, yellow, black);
    Ok(nanoseconds(start, rt.process_cpu_time()?))
}

fn run(rt: &impl CpuClock, row: &[u8], work: &mut [u8]) -> Result<u64>
    requires row { length row.now ≡ 64000 }
    requires work { length work.old ≡ 64000 }
{
    let mut all = 0u64;
    for _ in 0..CALLS {
        all = all.wrapping_add(once(rt, row, work)?);
    }
    Ok(all)
}

fn least(rt: &impl CpuClock, row: &[u8], work: &mut [u8]) -> Result<u64>
    requires row { length row.now ≡ 64000 }
    requires work { length work.old ≡ 64000 }
{
    let mut best = u64::MAX;
    for _ in 0..RUNS {
        best = best.min(run(rt, row, work)?);
    }
    Ok(best)
}

fn sum(values: &[u8]) -> u64 {
    let mut all = 0u64;
    for value in values {
        all = all.wrapping_mul(31).wrapping_add(*value as u64);
    }
    all
}

fn measure(rt: &(impl CpuClock + Print + AllocGlobal), name: &str, row: &[u8]) -> Result<()>
    requires { length row.now ≡ 64000 }
{
    let mut work = Vec::from_slice(rt.alloc(), row)?;
    let took = least(rt, row, &mut work)?;
    let sum = sum(&work);
    let speed = CALLS * 16_000 * 1_000 / took.max(1);
    println!(rt; "{name}: {speed} million pixels a second, sum {sum}")?;
    Ok(())
}

fn all<R: Files + Env + CpuClock + Print + AllocGlobal>(rt: &R) -> Result<()> {
    let path = env::args(rt)?.nth(1).context("no file is named")?;
    let bytes = fs::read(rt, path.as_str())?;
    for (name, row) in ["below", "above", "half above"].iter().zip(bytes.chunks(64_000)) {
        if row.len() == 64_000 {
            measure(rt, name, row)?;
        }
    }
    Ok(())
}

fn main(rt: HostRuntime) -> Result<()> {
    all(&rt)
}
CODE
(cd "$program" && rt run -- /dev/null > "$folder/log" 2>&1) || { cat "$folder/log"; exit 1; }
cc -O3 -march=x86-64-v2 -o "$folder/plain" "$here/limit.c"
"$folder/plain" make "$folder/rows"
for _ in 1 2 3; do
    echo "C:"
    "$folder/plain" limit "$folder/rows"
    echo "page_tone:"
    "$program/out/bench_limit" "$folder/rows"
done
