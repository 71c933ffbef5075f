#!/usr/bin/env bash
# Times copies of a tuple of 1,000 members and of one of 1,000,000, and fails where one takes more than twice as long
# as the other. Prints also a `+` of two tuples of 1,000 members, and an index at the end of a text of 100,000 characters.
# The program is made in a temporary folder, over copies of the crates; nine rounds, medians.
set -eu
here=$(cd "$(dirname "$0")/.." && pwd)
work=$(mktemp -d)
trap 'rm -rf "$work"' EXIT
mkdir -p "$work/crates/timings/src"
cp -Rp "$here/crates/pyd_value" "$here/crates/pyd_ops" "$work/crates/"
grep -E '^(pyd_value|pyd_ops):' "$here/crates.txt" >"$work/crates.txt"
echo 'timings: pyd_value pyd_ops anyhow' >>"$work/crates.txt"

cat >"$work/crates/timings/src/main.rt" <<'RT'
//! Prints for each operation its name and how many nanoseconds it took.
#![tactic(auto)]

use anyhow::Result;
use pyd_ops::{binary, index};
use pyd_value::{BinOp, List, NoMemory, Text, Value, try_copy};
use std::alloc::Global;
use std::time::Instant;

const TURNS: u64 = 1_000;

fn tuple(alloc: Global, count: i128) -> Result<Value, NoMemory> {
    let mut members = Vec::new(alloc);
    for n in 0..count {
        members.push(Value::Int(n))?;
    }
    Ok(Value::Tuple(List::from_vec(alloc, members)?))
}

fn text(alloc: Global, character: char, count: u32) -> Result<Value, NoMemory> {
    let mut text = String::new(alloc);
    for _ in 0..count {
        text.push(character)?;
    }
    Ok(Value::Text(Text::from_string(alloc, text)?))
}

fn time_copies(rt: &HostRuntime, name: &str, value: &Value) -> Result<()> {
    let start = Instant::now(rt)?;
    for _ in 0..TURNS {
        drop(try_copy(rt.alloc(), value)?);
    }
    let time = start.elapsed(rt)?;
    println!(rt; "{name} {}", time.as_nanos() / TURNS as u128)?;
    Ok(())
}

fn time_sum(rt: &HostRuntime, name: &str, value: &Value) -> Result<()> {
    let start = Instant::now(rt)?;
    for _ in 0..TURNS {
        drop(binary(rt.alloc(), BinOp::Add, value, value, 1)?);
    }
    let time = start.elapsed(rt)?;
    println!(rt; "{name} {}", time.as_nanos() / TURNS as u128)?;
    Ok(())
}

fn time_index(rt: &HostRuntime, name: &str, value: &Value) -> Result<()> {
    let last = Value::Int(-1);
    let start = Instant::now(rt)?;
    for _ in 0..TURNS {
        drop(index(rt.alloc(), value, &last, 1)?);
    }
    let time = start.elapsed(rt)?;
    println!(rt; "{name} {}", time.as_nanos() / TURNS as u128)?;
    Ok(())
}

fn main(rt: HostRuntime) -> Result<()> {
    let small = tuple(rt.alloc(), 1_000)?;
    let large = tuple(rt.alloc(), 1_000_000)?;
    for _ in 0..9 {
        time_copies(&rt, "copy_1_000", &small)?;
        time_copies(&rt, "copy_1_000_000", &large)?;
        time_sum(&rt, "sum_1_000", &small)?;
        time_index(&rt, "index_ascii_100_000", &text(rt.alloc(), 'a', 100_000)?)?;
        time_index(&rt, "index_wide_100_000", &text(rt.alloc(), '\u{e9}', 100_000)?)?;
    }
    Ok(())
}
RT

(cd "$work/crates/timings" && rt run) >"$work/out" 2>"$work/err" || { cat "$work/err" >&2; exit 1; }
python3 - "$work/out" <<'PY'
import statistics
import sys

rounds = {}
for line in open(sys.argv[1]):
    name, time = line.split()
    rounds.setdefault(name, []).append(int(time))
medians = {name: statistics.median(times) for name, times in rounds.items()}
for name, time in medians.items():
    print(f"{name}: {time} ns")
small, large = medians["copy_1_000"], medians["copy_1_000_000"]
assert max(small, large) <= 2 * min(small, large), "a copy takes longer where the tuple is longer"
PY
