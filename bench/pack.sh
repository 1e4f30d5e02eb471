#!/usr/bin/env bash
# Measures tif_packbits' pack_row beside a plain C loop with memcpy, over 1,000 rows of 4,000 bytes in five forms: flat, a
# flat tint of a quarter under the Bayer tile of side 8, a photograph under that tile, noise of which each bit is set once in
# four, and lines of text. Each program prints a line for each form: its name, the nanoseconds of processor time that
# 100,000,000 bytes took, the bytes of their packing, and the sum of the bytes of the packings of all rows.
# usage: bench/pack.sh [FOLDER for the two programs]
set -eu
here=$(cd "$(dirname "$0")" && pwd)
folder=${1:-$(mktemp -d)}
program=$folder/crates/bench_pack
mkdir -p "$program/src"
cp "$here/../HANDLES" "$folder"
rm -rf "$folder/crates/tif_packbits"
mkdir "$folder/crates/tif_packbits"
(cd "$here/../crates/tif_packbits" && tar cf - --exclude=out .) | tar xf - -C "$folder/crates/tif_packbits"
cat > "$folder/crates.txt" <<'LIST'
tif_packbits: byteorder thiserror
bench_pack: tif_packbits anyhow
LIST
cat > "$program/src/main.rt" <<'CODE'
// Times the packing of rows of five forms.
#![tactic(auto)]

use anyhow::Result;
use std::time::{CpuClock, Duration};
use tif_packbits::{pack_bound, pack_row};

const ROW: usize = 4_000;

const THRESHOLDS: [[u8; 8]; 8] = [
    [0, 127, 31, 159, 7, 135, 39, 167],
    [191, 63, 223, 95, 199, 71, 231, 103],
    [47, 175, 15, 143, 55, 183, 23, 151],
    [239, 111, 207, 79, 247, 119, 215, 87],
    [11, 139, 43, 171, 3, 131, 35, 163],
    [203, 75, 235, 107, 195, 67, 227, 99],
    [59, 187, 27, 155, 51, 179, 19, 147],
    [251, 123, 219, 91, 243, 115, 211, 83],
];

fn next(seed: &mut u32) -> u8 {
    *seed = seed.wrapping_mul(1_664_525).wrapping_add(1_013_904_223);
    seed.to_be_bytes()[0]
}

fn tile(value: u8, y: usize) -> u8 {
    let mut byte = 0u8;
    for threshold in &THRESHOLDS[y % 8] {
        byte = byte.wrapping_mul(2) | u8::from(value > *threshold);
    }
    byte
}

fn photo(seed: &mut u32, y: usize, row: &mut [u8]) {
    let mut value = next(seed);
    for byte in row.iter_mut() {
        value = value.saturating_add(next(seed) % 7).saturating_sub(3);
        *byte = tile(value, y);
    }
}

fn noise(seed: &mut u32, row: &mut [u8]) {
    for byte in row.iter_mut() {
        let one = next(seed);
        *byte = one & next(seed);
    }
}

fn text(seed: &mut u32, row: &mut [u8]) {
    let mut kind = 2u8;
    let mut left = 0u8;
    for byte in row.iter_mut() {
        if left == 0 {
            kind = kind.wrapping_add(1) % 3;
            left = match kind {
                0 => 3 + next(seed) % 40,
                1 => 1 + next(seed) % 6,
                _ => 1 + next(seed) % 10,
            };
        }
        *byte = match kind {
            0 => 0,
            1 => next(seed),
            _ => 255,
        };
        left = left.saturating_sub(1);
    }
}

fn made(form: &str, rows: &mut [u8]) {
    let mut seed = 1u32;
    for (y, row) in rows.chunks_mut(ROW).enumerate() {
        match form {
            "flat" => row.fill(0),
            "quarter" => row.fill(tile(64, y)),
            "photo" => photo(&mut seed, y, row),
            "noise" => noise(&mut seed, row),
            _ => text(&mut seed, row),
        }
    }
}

fn packed(row: &[u8], into: &mut [u8]) -> usize {
    if row.len() > 65_535 || pack_bound(row.len()) > into.len() {
        return 0;
    }
    pack_row(row, into)
}

fn all_packed(rows: &[u8], into: &mut [u8]) -> usize {
    let mut all = 0usize;
    for row in rows.chunks(ROW) {
        all = all.wrapping_add(packed(row, into));
    }
    all
}

/// The sum of the bytes of the packings of all rows.
fn sum(rows: &[u8], into: &mut [u8]) -> u64 {
    let mut all = 0u64;
    for row in rows.chunks(ROW) {
        into.fill(0);
        packed(row, into);
        for byte in into.iter() {
            all = all.wrapping_add(u64::from(*byte));
        }
    }
    all
}

fn nanoseconds(start: Duration, end: Duration) -> u64 {
    match end.checked_sub(start) {
        Some(took) => u64::try_from(took.as_nanos()).unwrap_or(0),
        None => 0,
    }
}

fn form(rt: &(impl CpuClock + Print + AllocGlobal), name: &str) -> Result<()> {
    let mut rows = vec![in rt.alloc(); 0u8; 4_000_000]?;
    let mut into = vec![in rt.alloc(); 0u8; 5_000]?;
    made(name, &mut rows);
    let start = rt.process_cpu_time()?;
    let mut all = 0usize;
    for _ in 0..25 {
        all = all.wrapping_add(all_packed(&rows, &mut into));
    }
    let took = nanoseconds(start, rt.process_cpu_time()?);
    println!(rt; "pack {name} {took} {all} {}", sum(&rows, &mut into))?;
    Ok(())
}

fn main(rt: HostRuntime) -> Result<()> {
    form(&rt, "flat")?;
    form(&rt, "quarter")?;
    form(&rt, "photo")?;
    form(&rt, "noise")?;
    form(&rt, "text")
}
CODE
(cd "$program" && rt run > "$folder/log" 2>&1) || { cat "$folder/log"; exit 1; }
cc -O3 -march=x86-64-v2 -o "$folder/plain" "$here/pack.c"
for _ in 1 2 3; do
    echo "C:"
    "$folder/plain"
    echo "tif_packbits:"
    "$program/out/bench_pack"
done
