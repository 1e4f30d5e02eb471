#!/usr/bin/env bash
# Measures tif_packbits beside a plain C loop over 100,000,000 packed bytes in four forms: headers that give nothing,
# repeats of 128, and repeats and literals in turn, of 6 and of 2 bytes. Each prints a line for each form: the call, the
# form, the nanoseconds of processor time, and the bytes that were given. skip passes over as many as fill gives.
# usage: bench/packbits.sh [FOLDER for the two programs]
set -eu
here=$(cd "$(dirname "$0")" && pwd)
folder=${1:-$(mktemp -d)}
program=$folder/crates/bench_packbits
mkdir -p "$program/src"
cp "$here/../HANDLES" "$folder"
rm -rf "$folder/crates/tif_packbits"
mkdir "$folder/crates/tif_packbits"
(cd "$here/../crates/tif_packbits" && tar cf - --exclude=out .) | tar xf - -C "$folder/crates/tif_packbits"
cat > "$folder/crates.txt" <<'LIST'
tif_packbits: byteorder thiserror
bench_packbits: tif_packbits anyhow
LIST
cat > "$program/src/main.rt" <<'CODE'
// Times an unpacker over packed bytes of four forms.
#![tactic(auto)]

use anyhow::Result;
use std::time::{CpuClock, Duration};
use tif_packbits::Unpacker;

fn repeat(unit: &[u8], packed: &mut [u8]) {
    for chunk in packed.chunks_mut(unit.len().max(1)) {
        for (byte, is) in chunk.iter_mut().zip(unit) {
            *byte = *is;
        }
    }
}

/// The bytes that stand at the front of `into`, which held zeros.
fn given(into: &[u8]) -> u64 {
    let mut all = 0u64;
    for byte in into {
        if *byte != 0 {
            all = all.wrapping_add(1);
        }
    }
    all
}

fn nanoseconds(start: Duration, end: Duration) -> u64 {
    match end.checked_sub(start) {
        Some(took) => u64::try_from(took.as_nanos()).unwrap_or(0),
        None => 0,
    }
}

fn filled(rt: &impl CpuClock, packed: &[u8], into: &mut [u8]) -> Result<u64> {
    let start = rt.process_cpu_time()?;
    let mut unpacker = Unpacker::new(packed);
    let _ = unpacker.fill(into);
    Ok(nanoseconds(start, rt.process_cpu_time()?))
}

fn skipped(rt: &impl CpuClock, packed: &[u8], most: u64) -> Result<u64> {
    let start = rt.process_cpu_time()?;
    let mut unpacker = Unpacker::new(packed);
    let _ = unpacker.skip(most);
    Ok(nanoseconds(start, rt.process_cpu_time()?))
}

fn form(rt: &(impl CpuClock + Print + AllocGlobal), name: &str, unit: &[u8]) -> Result<()> {
    let mut packed = vec![in rt.alloc(); 0u8; 100_000_000]?;
    let mut into = vec![in rt.alloc(); 0u8; 100_000_000]?;
    repeat(unit, &mut packed);
    // The pages are touched before the clock starts.
    into.fill(1);
    into.fill(0);
    let took = filled(rt, &packed, &mut into)?;
    println!(rt; "fill {name} {took} {}", given(&into))?;
    let took = skipped(rt, &packed, 100_000_000)?;
    println!(rt; "skip {name} {took}")?;
    Ok(())
}

fn main(rt: HostRuntime) -> Result<()> {
    form(&rt, "nothing", &[128])?;
    form(&rt, "repeats-128", &[129, 7])?;
    form(&rt, "packets-6", &[251, 7, 5, 1, 2, 3, 4, 5, 6])?;
    form(&rt, "packets-2", &[255, 7, 1, 1, 2])
}
CODE
(cd "$program" && rt run > "$folder/log" 2>&1) || { cat "$folder/log"; exit 1; }
cc -O3 -march=x86-64-v2 -o "$folder/plain" "$here/packbits.c"
for _ in 1 2 3; do
    echo "C:"
    "$folder/plain"
    echo "tif_packbits:"
    "$program/out/bench_packbits"
done
