#!/usr/bin/env bash
# Measures scr_diffuse beside a plain C loop over pages of 33,100 by 4,000 values: flat, a ramp and grain. Both print a
# line for each page: its number, the nanoseconds of processor time, and a sum over all bits, which has to be the same.
# usage: bench/diffuse.sh [FOLDER for the two programs]
set -eu
here=$(cd "$(dirname "$0")" && pwd)
folder=${1:-$(mktemp -d)}
program=$folder/crates/bench_diffuse
mkdir -p "$program/src" "$program/proofs/page"
cp "$here/../HANDLES" "$folder"
for name in pr_base scr_diffuse; do
    rm -rf "$folder/crates/$name"
    mkdir "$folder/crates/$name"
    (cd "$here/../crates/$name" && tar cf - --exclude=out .) | tar xf - -C "$folder/crates/$name"
done
cat > "$folder/crates.txt" <<'END'
pr_base: byteorder thiserror
scr_diffuse: pr_base
bench_diffuse: scr_diffuse pr_base anyhow
END
cat > "$program/src/main.rt" <<'END'
// Times the diffusion of a page of 33,100 by 4,000 values: flat, a ramp, and grain.
#![tactic(auto)]

ghost use Rattle.std.specs.Prelude.{◌≡◌, ◌+◌, ◌*◌, ◌<◌, ◌≤◌, length};

use anyhow::Result;
use scr_diffuse::Diffuser;
use std::time::CpuClock;

fn width() -> u32
    ensures bounded { result < 65536 }
    ensures some { 0 < result }
{
    33_100
}

fn fill(values: &mut [u8], kind: u8, y: u32) {
    let mut seed = y.wrapping_mul(2_654_435_761);
    let mut x = 0u64;
    for value in values.iter_mut() {
        seed = seed.wrapping_mul(1_664_525).wrapping_add(1_013_904_223);
        x = x.wrapping_add(1);
        *value = match kind {
            0 => 100,
            1 => (x / 130 % 256) as u8,
            _ => (seed >> 24) as u8,
        };
    }
}

fn sum(bits: &[u8]) -> u64 {
    let mut all = 0u64;
    for byte in bits {
        all = all.wrapping_mul(31).wrapping_add(u64::from(*byte));
    }
    all
}

fn one(
    rt: &impl CpuClock,
    diffuser: &mut Diffuser,
    values: &[u8],
    bits: &mut [u8],
) -> Result<u64>
    requires width { length values.now ≡ diffuser.old.width }
    requires room { length values.now ≤ 8 * length bits.old }
    ensures same { diffuser.new.width ≡ diffuser.old.width }
{
    let start = rt.process_cpu_time()?;
    diffuser.row(values, bits, 0);
    let end = rt.process_cpu_time()?;
    match end.checked_sub(start) {
        Some(took) => Ok(u64::try_from(took.as_nanos()).unwrap_or(0)),
        None => Ok(0),
    }
}

fn page(
    rt: &impl CpuClock,
    kind: u8,
    diffuser: &mut Diffuser,
    values: &mut [u8],
    bits: &mut [u8],
) -> Result<(u64, u64)>
    requires width { length values.old ≡ diffuser.old.width }
    requires room { length values.old ≤ 8 * length bits.old }
{
    let mut took = 0u64;
    let mut seen = 0u64;
    for y in 0..4_000 {
        fill(values, kind, y);
        took = took.wrapping_add(one(rt, diffuser, values, bits)?);
        seen = seen.wrapping_add(sum(bits));
    }
    Ok((took, seen))
}

fn kind(rt: &(impl CpuClock + Print + AllocGlobal), kind: u8) -> Result<()> {
    let width = width();
    let mut values = vec![in rt.alloc(); 0u8; width as usize]?;
    let mut bits = vec![in rt.alloc(); 0u8; width as usize]?;
    let mut diffuser = Diffuser::new(rt.alloc(), width)?;
    let (took, seen) = page(rt, kind, &mut diffuser, &mut values[..], &mut bits[..])?;
    println!(rt; "{kind} {took} {seen}")?;
    Ok(())
}

fn main(rt: HostRuntime) -> Result<()> {
    kind(&rt, 0)?;
    kind(&rt, 1)?;
    kind(&rt, 2)
}
END
cat > "$program/proofs/page/Invariants.antt" <<'END'
use Rattle.std.proofs.Common.{◌≡◌, length}
use Rattle.bench_diffuse.proofs.page.Given as goal

abbrev pub invariant-loop-y : goal.invariant-loop-y
invariant-loop-y g l = length l.values ≡ l.diffuser.width
END
(cd "$program" && rt run > "$folder/log" 2>&1) || { cat "$folder/log"; exit 1; }
cc -O3 -march=x86-64-v2 -o "$folder/plain" "$here/diffuse.c"
for _ in 1 2 3; do
    echo "C:"
    "$folder/plain"
    echo "scr_diffuse:"
    "$program/out/bench_diffuse"
done
