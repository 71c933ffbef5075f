#!/usr/bin/env bash
# Times a trace of a million events, written and read. Five rounds; prints the medians and the peak of memory.
set -eu
here=$(cd "$(dirname "$0")/.." && pwd)
work=$(mktemp -d)
trap 'rm -rf "$work"' EXIT
mkdir -p "$work/crates/trace_times/src"
for crate in pyd_value pyd_tree pyd_board pyd_trace; do
    cp -r "$here/crates/$crate" "$work/crates"
done
cat >"$work/crates/trace_times/src/main.rt" <<'RT'
//! Times a trace of a million events: writes the nanoseconds of writing it, those of reading it, and its bytes.
#![tactic(auto)]

use pyd_board::{Act, Event};
use pyd_trace::{read_trace, trace_text};
use pyd_value::NoMemory;
use std::alloc::Global;
use std::io;
use std::time::Instant;

const EVENTS: u32 = 1_000_000;

// Places, claims, finishes and settles of one node after the other.
fn events(alloc: Global) -> Result<Vec<Event>, NoMemory> {
    let mut events = Vec::new(alloc);
    for number in 0..EVENTS {
        let node = u64::from(number / 4);
        let machine = number % 16;
        let act = match number % 4 {
            0 => Act::Place(node, 1, machine),
            1 => Act::Claim(node, 1, machine),
            2 => Act::Finish(node, 1, machine),
            _ => Act::Settle(node),
        };
        let nth = u64::from(number);
        events.push(Event { by: 1, nth, act })?;
    }
    Ok(events)
}

fn main(rt: HostRuntime) -> io::Result<()> {
    let Ok(events) = events(rt.alloc()) else {
        return Err(io::ErrorKind::OutOfMemory.into());
    };
    let start = Instant::now(&rt)?;
    let Ok(text) = trace_text(rt.alloc(), &events) else {
        return Err(io::ErrorKind::OutOfMemory.into());
    };
    let written = start.elapsed(&rt)?.as_nanos();
    if u32::try_from(text.len()).is_err() {
        return Err(io::ErrorKind::InvalidData.into());
    }
    let start = Instant::now(&rt)?;
    let again = read_trace(rt.alloc(), &text);
    let read = start.elapsed(&rt)?.as_nanos();
    match again {
        Ok(again) if again.as_slice() == events.as_slice() => {}
        _ => return Err(io::ErrorKind::InvalidData.into()),
    }
    println!(rt; "{written} {read} {}", text.len())?;
    Ok(())
}
RT
grep -E '^(pyd_value|pyd_tree|pyd_board|pyd_trace):' "$here/crates.txt" >"$work/crates.txt"
echo 'trace_times: pyd_trace pyd_board pyd_tree pyd_value' >>"$work/crates.txt"
(cd "$work/crates/trace_times" && rt run) >"$work/built" 2>&1 || { cat "$work/built"; exit 1; }

python3 - "$work/crates/trace_times/out/trace_times" <<'PY'
import os
import statistics
import subprocess
import sys

rounds, peak = [], 0
for _ in range(5):
    child = subprocess.Popen(sys.argv[1:], stdout=subprocess.PIPE, text=True)
    line = child.stdout.read()
    _, status, usage = os.wait4(child.pid, 0)
    assert status == 0
    rounds.append([int(word) for word in line.split()])
    peak = max(peak, usage.ru_maxrss)
written, read, length = (statistics.median(column) for column in zip(*rounds))
print(f"{length:.0f} bytes: written in {written / 1e9:.3f} s, read in {read / 1e9:.3f} s; {peak} KiB")
PY
