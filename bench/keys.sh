#!/usr/bin/env bash
# Measures ink_keys beside a plain C loop with the same masks: a packed row of 33,100 pixels is unpacked and its dots
# are added to 32 keys. The rows are a ramp with grain and a flat value, both screened by the Bayer matrix of side 8,
# a blank row and a full one. Each program prints a line for each row: its name, the nanoseconds of processor time that
# a row takes, the least of twenty runs, and a sum over the counts, which has to be the same.
# usage: bench/keys.sh [FOLDER for the two programs]
set -eu
here=$(cd "$(dirname "$0")" && pwd)
folder=${1:-$(mktemp -d)}
program=$folder/crates/bench_keys
mkdir -p "$program/src" "$program/proofs/repeat" "$program/proofs/measure"
cp "$here/../HANDLES" "$folder"
lower='pr_base tif_packbits tif_dir tif_plate plan_parts plan_json plan_pages plan_rows'
lower="$lower ring_core ring_rule ring_lanes ink_keys"
: > "$folder/crates.txt"
for crate in $lower; do
    rm -rf "$folder/crates/$crate"
    mkdir "$folder/crates/$crate"
    (cd "$here/../crates/$crate" && tar cf - --exclude=out .) | tar xf - -C "$folder/crates/$crate"
    grep "^$crate:" "$here/../crates.txt" >> "$folder/crates.txt"
done
echo 'bench_keys: ink_keys ring_lanes plan_rows plan_json tif_packbits pr_base anyhow' >> "$folder/crates.txt"
cat > "$program/src/main.rt" <<'CODE'
// Times the adding of a row's dots to its keys.
#![tactic(auto)]

ghost use Rattle.std.specs.Prelude.{◌≡◌, ◌<◌, ◌≤◌, IfOk, length};
ghost use Rattle.tif_packbits.specs.Frame.{IsFrame, frame_of, framed_row};
ghost use Rattle.plan_rows.specs.Rows.{places_in};
ghost use Rattle.ink_keys.specs.Counts.{IsBounded};

use anyhow::{Context, Result};
use ink_keys::Counts;
use plan_json::read_plan;
use plan_rows::{RowPlace, RowPlan};
use pr_base::{Deal, Ink};
use ring_lanes::{Deck, Held};
use std::alloc::Global;
use std::env;
use std::env::Env;
use std::fs;
use std::rt::Files;
use std::time::{CpuClock, Duration};
use tif_packbits::{frame_len, frame_row};

const KEYS: u32 = 32;

const WIDTH: u32 = 33_100;

/// The bytes of a row.
const BYTES: usize = 4_138;

const CALLS: u64 = 1_000;

const RUNS: u64 = 20;

const PLAN: &[u8] = br#"{"plan": 1, "edition": "E1", "dpi": 1200, "page": [16550, 8],
    "pages": [{"name": "p", "inks": "K", "layers": []}],
    "sections": [{"name": "A", "pages": ["p", "p"]}],
    "sites": [{"name": "OSLO"}]}"#;

/// One row in its frame.
#[derive(Drop)]
struct OneRow<'f> {
    frame: &'f [u8],
}

impl<'f> Deal for OneRow<'f> {
    ghost use Rattle.std.specs.Prelude.{[], ◌∷◌, length};

    ghost rows = { λ d. d.frame.now ∷ [] };

    ghost size = { λ d. length d.frame.now };

    fn total(&self) -> u64 {
        1
    }

    fn row_len(&self) -> usize {
        self.frame.len()
    }
}

fn nanoseconds(start: Duration, end: Duration) -> u64 {
    match end.checked_sub(start) {
        Some(took) => u64::try_from(took.as_nanos()).unwrap_or(u64::MAX),
        None => 0,
    }
}

/// Adds a row as often as there are calls.
fn repeat(counts: &mut Counts, place: RowPlace, held: &Held)
    requires group { place.group < counts.old.groups }
    requires width { counts.old.width ≡ 33100 }
    requires frame { IsFrame held.now.bytes }
    requires size { length (framed_row held.now.bytes) ≡ 4138 }
    requires bounded { IsBounded counts.old 0 }
    ensures { counts.new ≡ record counts.old { numbers = counts.new.numbers } }
{
    for n in 0..CALLS {
        counts.add(place, held);
    }
}

fn sum(numbers: &[u64]) -> u64 {
    let mut all = 0u64;
    for number in numbers {
        all = all.wrapping_mul(31).wrapping_add(*number);
    }
    all
}

/// The nanoseconds of a call, and a sum over the counts of one run.
fn run(rt: &(impl CpuClock + AllocGlobal), rows: &RowPlan, held: &Held) -> Result<(u64, u64)>
    requires frame { IsFrame held.now.bytes }
    requires size { length (framed_row held.now.bytes) ≡ 4138 }
    requires row { 0 < length (places_in rows.now) }
{
    let mut counts = Counts::new(rt.alloc(), rows, WIDTH, KEYS)?;
    let place = rows.row_at(0);
    let start = rt.process_cpu_time()?;
    repeat(&mut counts, place, held);
    let took = nanoseconds(start, rt.process_cpu_time()?) / CALLS;
    Ok((took, sum(counts.of(place.group, Ink::K))))
}

fn least(rt: &(impl CpuClock + AllocGlobal), rows: &RowPlan, held: &Held) -> Result<(u64, u64)>
    requires frame { IsFrame held.now.bytes }
    requires size { length (framed_row held.now.bytes) ≡ 4138 }
    requires row { 0 < length (places_in rows.now) }
{
    let mut best = u64::MAX;
    let mut seen = 0u64;
    for _ in 0..RUNS {
        let (took, sum) = run(rt, rows, held)?;
        best = best.min(took);
        seen = sum;
    }
    Ok((best, seen))
}

fn framed(alloc: Global, row: &[u8]) -> Result<Vec<u8>>
    requires { length row.now ≤ 8192 }
    ensures { IfOk result (λ frame. frame.items ≡ frame_of row.now) }
{
    let mut frame = vec![in alloc; 0u8; frame_len(row.len())]?;
    frame_row(row, &mut frame);
    Ok(frame)
}

fn measure(rt: &(impl CpuClock + AllocGlobal), rows: &RowPlan, row: &[u8]) -> Result<(u64, u64)>
    requires size { length row.now ≡ 4138 }
    requires row { 0 < length (places_in rows.now) }
{
    let frame = framed(rt.alloc(), row)?;
    let deal = OneRow { frame: &frame };
    let mut deck = Deck::open(rt.alloc(), &deal)?;
    deck.put(&frame);
    let held = deck.take();
    least(rt, rows, &held)
}

fn all<R: Files + Env + CpuClock + Print + AllocGlobal>(rt: &R) -> Result<()> {
    let path = env::args(rt)?.nth(1).context("no file is named")?;
    let bytes = fs::read(rt, path.as_str())?;
    let plan = read_plan(rt.alloc(), PLAN)?;
    let rows = RowPlan::of(rt.alloc(), &plan)?;
    for (name, row) in ["ramp with grain", "flat", "blank", "full"].iter().zip(bytes.chunks(BYTES)) {
        if row.len() == BYTES && rows.total() > 0 {
            let (took, sum) = measure(rt, &rows, row)?;
            println!(rt; "{name}: {took} nanoseconds, sum {sum}")?;
        }
    }
    Ok(())
}

fn main(rt: HostRuntime) -> Result<()> {
    all(&rt)
}
CODE
cat > "$program/proofs/repeat/Invariants.antt" <<'PROOF'
use Rattle.std.proofs.Common.{◌≡◌}
use Rattle.ink_keys.specs.Counts.{IsBounded}
use Rattle.bench_keys.proofs.repeat.Given as goal

abbrev pub invariant-loop-n : goal.invariant-loop-n
invariant-loop-n l = record {
  bounded : IsBounded l.counts l.n;
  same : l.counts ≡ record l.fn.counts { numbers = l.counts.numbers };
}
PROOF
cat > "$program/proofs/measure/Answers.antt" <<'PROOF'
use Rattle.std.proofs.Common.{◌≡◌, ℕ, List, length, ap, rules, ◌∙◌, arith}
use Rattle.tif_packbits.specs.Frame.{frame_of, framed_row}
use Rattle.tif_packbits.proofs.Frames.{framed_row-frame_of}
use Rattle.bench_keys.proofs.measure.Goals as goal

pub least-requires-clause-size : goal.least-requires-clause-size
least-requires-clause-size g c =
    let is : c.take-held.result.bytes ≡ frame_of c.args.row.now = search rules in
    ap (λ (bytes : List ℕ). length (framed_row bytes)) is
    ∙ ap length (framed_row-frame_of c.args.row.now (omega arith)) ∙ c.requires.size
PROOF
(cd "$program" && rt run -- /dev/null > "$folder/log" 2>&1) || { cat "$folder/log"; exit 1; }
cc -O3 -march=x86-64-v2 -o "$folder/plain" "$here/keys.c"
"$folder/plain" make "$folder/rows"
for _ in 1 2 3; do
    echo "C:"
    "$folder/plain" count "$folder/rows"
    echo "ink_keys:"
    "$program/out/bench_keys" "$folder/rows"
done
