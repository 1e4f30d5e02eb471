#!/usr/bin/env bash
# Measures the loads of the machine's shelf (pr_ports): a file of 64 bytes, one of 5,000 and one of 100,000,000, each
# many times. Prints for each the nanoseconds of processor time a load. A second clone is measured in turn with it.
# usage: bench/shelf.sh [FOLDER for the files and the programs [CLONE to compare with]]
set -eu
here=$(cd "$(dirname "$0")/.." && pwd)
folder=${1:-$(mktemp -d)}
make_program() {
    mkdir -p "$2/crates/bench_shelf/src"
    cp "$1/HANDLES" "$2"
    for crate in pr_base pr_ports; do
        rm -rf "$2/crates/$crate/src"
        mkdir -p "$2/crates/$crate"
        (cd "$1/crates/$crate" && tar cf - --exclude=out .) | tar xf - -C "$2/crates/$crate"
    done
    cat > "$2/crates.txt" <<'LIST'
pr_base: byteorder thiserror
pr_ports: pr_base thiserror
bench_shelf: pr_ports anyhow
LIST
    cat > "$2/crates/bench_shelf/src/main.rt" <<'CODE'
// Times loads of files by the machine's shelf: PATH and COUNT for each.
#![tactic(auto)]

use anyhow::Result;
use pr_ports::{FileLoader, HostShelf, Shelf};
use std::env;
use std::time::{CpuClock, Duration};

fn nanoseconds(start: Duration, end: Duration) -> u64 {
    match end.checked_sub(start) {
        Some(took) => u64::try_from(took.as_nanos()).unwrap_or(0),
        None => 0,
    }
}

fn load_all<L: FileLoader + Drop>(rt: &HostRuntime, files: L, path: &str, count: u64) -> Result<u64>
    requires { L.may }
{
    let mut shelf = HostShelf::new(files);
    let start = rt.process_cpu_time()?;
    for _turn in 0..count {
        let _ = shelf.load(path, 536_870_912);
    }
    Ok(nanoseconds(start, rt.process_cpu_time()?))
}

fn main(rt: HostRuntime) -> Result<()> {
    let words: Vec<String> = env::args(&rt)?.skip(1).collect(rt.alloc())?;
    for pair in words.as_slice().chunks_exact(2) {
        if let [path, count] = pair {
            let count = count.as_str().parse::<u64>().unwrap_or(1).max(1);
            let took = load_all(&rt, rt.clone()?, path.as_str(), count)?;
            println!(rt; "{path} {}", took / count)?;
        }
    }
    Ok(())
}
CODE
    (cd "$2/crates/bench_shelf" && rt run > "$2/log" 2>&1) || { cat "$2/log"; exit 1; }
}
mkdir -p "$folder"
make_program "$here" "$folder/this"
[ $# -lt 2 ] || make_program "$2" "$folder/other"
for size in 64 5000 100000000; do
    head -c "$size" /dev/zero > "$folder/$size"
done
for _ in 1 2 3; do
    for program in "$folder"/*/crates/bench_shelf/out/bench_shelf; do
        echo "$program:"
        "$program" "$folder/64" 20000 "$folder/5000" 20000 "$folder/100000000" 10
    done
done
