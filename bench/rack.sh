#!/usr/bin/env bash
# Measures the rows of the machine's rack (pr_rack): 3,000,000 of three packed bytes each, as one plate. Prints the
# nanoseconds of processor time a row. A second clone is measured in turn with it.
# usage: bench/rack.sh [FOLDER for the plate and the programs [CLONE to compare with]]
set -eu
here=$(cd "$(dirname "$0")/.." && pwd)
folder=${1:-$(mktemp -d)}
make_program() {
    program=$2/crates/bench_rack
    mkdir -p "$program/src" "$program/proofs/main"
    cp "$1/HANDLES" "$2"
    for crate in pr_base tif_packbits ring_core ring_rule ring_lanes pr_rack; do
        rm -rf "$2/crates/$crate/src" "$2/crates/$crate/proofs" "$2/crates/$crate/specs"
        mkdir -p "$2/crates/$crate"
        (cd "$1/crates/$crate" && tar cf - --exclude=out .) | tar xf - -C "$2/crates/$crate"
    done
    grep -E '^(pr_base|tif_packbits|ring_core|ring_rule|ring_lanes|pr_rack):' "$1/crates.txt" > "$2/crates.txt"
    echo "bench_rack: pr_rack ring_lanes tif_packbits pr_base anyhow" >> "$2/crates.txt"
    # The deal of one row, as the tests of racks have it.
    sed 's/rack_tests/bench_rack/' "$here/crates/rack_tests/proofs/OneFrame.antt" > "$program/proofs/OneFrame.antt"
    echo "mod OneFrame" > "$program/proofs/Lib.antt"
    mkdir -p "$program/proofs/TwoBytesDeal/row_len" "$program/proofs/put_rows"
    sed 's/rack_tests.proofs.blocks/bench_rack.proofs/; s/rack_tests/bench_rack/' \
        "$here/crates/rack_tests/proofs/blocks/TwoBytesDeal/row_len/Answers.antt" > "$program/proofs/TwoBytesDeal/row_len/Answers.antt"
    sed 's/rack_tests.proofs.blocks/bench_rack.proofs/' \
        "$here/crates/rack_tests/proofs/blocks/put_rows/Invariants.antt" > "$program/proofs/put_rows/Invariants.antt"
    rmdir "$program/proofs/main"
    cat > "$program/src/main.rt" <<'CODE'
// Times the rows of the machine's rack: a plate at PATH.
#![tactic(auto)]

ghost use Rattle.std.specs.Prelude.{◌≡◌, true, OnOk, Some, slice_get};
ghost use Rattle.tif_packbits.specs.Frame.{IsFrame};
ghost use Rattle.pr_rack.specs.Rack.{none_begun};

use anyhow::Result;
use pr_base::Deal;
use pr_rack::{HostRack, Rack, RackFault};
use ring_lanes::{Deck, Held};
use std::env;
use std::time::{CpuClock, Duration};
use tif_packbits::frame_row;

#[derive(Drop)]
struct TwoBytes;

impl Deal for TwoBytes {
    ghost use Rattle.std.specs.Prelude.{[], ◌∷◌};
    ghost use Rattle.tif_packbits.specs.Frame.{frame_of};

    ghost rows = { λ _. frame_of (171 ∷ 0 ∷ []) ∷ [] };

    ghost size = { λ _. 5 };

    fn total(&self) -> u64 {
        1
    }

    fn row_len(&self) -> usize {
        5
    }
}

const HEAD: [u8; 8] = [0x49, 0x49, 0x2A, 0, 0, 0, 0, 0];

const ROWS: u64 = 3_000_000;

fn nanoseconds(start: Duration, end: Duration) -> u64 {
    match end.checked_sub(start) {
        Some(took) => u64::try_from(took.as_nanos()).unwrap_or(0),
        None => 0,
    }
}

fn put_rows(rack: &mut HostRack<HostRuntime>, held: &Held) -> Result<(), RackFault>
    requires begun { slice_get rack.old.begun 0 ≡ Some true }
    requires frame { IsFrame held.now.bytes }
    ensures { OnOk result (rack.new.begun ≡ rack.old.begun) }
{
    for _row in 0..ROWS {
        rack.row(0, held)?;
    }
    Ok(())
}

fn build(mut rack: HostRack<HostRuntime>, held: &Held, path: &str) -> Result<(), RackFault>
    requires empty { rack.begun ≡ none_begun }
    requires frame { IsFrame held.now.bytes }
{
    rack.begin(0, path, &HEAD)?;
    put_rows(&mut rack, held)?;
    rack.finish(0, &[0, 7], 9_000_008)
}

fn timed(rt: &HostRuntime, held: &Held, path: &str) -> Result<u64>
    requires { IsFrame held.now.bytes }
{
    let start = rt.process_cpu_time()?;
    let built = build(HostRack::new(rt.clone()?), held, path).is_ok();
    let took = nanoseconds(start, rt.process_cpu_time()?);
    Ok(if built { took } else { 0 })
}

fn main(rt: HostRuntime) -> Result<()> {
    let words: Vec<String> = env::args(&rt)?.skip(1).collect(rt.alloc())?;
    let mut frame = [0u8; 5];
    frame_row(&[0xAB, 0], &mut frame);
    let deal = TwoBytes;
    let mut deck = Deck::open(rt.alloc(), &deal)?;
    deck.put(&frame);
    let held = deck.take();
    if let [path] = words.as_slice() {
        println!(rt; "{}", timed(&rt, &held, path.as_str())? / ROWS)?;
    }
    deck.give(held);
    Ok(())
}
CODE
    (cd "$program" && rt run > "$2/log" 2>&1) || { cat "$2/log"; exit 1; }
}
mkdir -p "$folder"
make_program "$here" "$folder/this"
[ $# -lt 2 ] || make_program "$2" "$folder/other"
for _ in 1 2 3; do
    for program in "$folder"/*/crates/bench_rack/out/bench_rack; do
        echo "$program: $("$program" "$folder/plate.tif")"
    done
done
