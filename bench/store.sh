#!/usr/bin/env bash
# Times 100,000 puts, fetches and removes of a store with 1,000, 10,000 and 100,000 entries, with nodes in the order of
# their numbers, as a run makes them, and in no order. Five rounds; prints the medians in nanoseconds a call, and how
# they grow beside the logarithm of the entries. A large store's entries lie outside the processor's caches, so its
# times grow more than its work; where valgrind is on the path, the instructions of a call are counted too.
set -eu
here=$(cd "$(dirname "$0")/.." && pwd)
work=$(mktemp -d)
trap 'rm -rf "$work"' EXIT
mkdir -p "$work/crates/store_times/src"
cp -r "$here/crates/pyd_value" "$here/crates/pyd_store" "$work/crates"
cat >"$work/crates/store_times/src/main.rt" <<'RT'
//! Times the calls of a store: writes, for stores of three sizes, the nanoseconds a put, a fetch and a remove.
#![tactic(auto)]

ghost use Rattle.std.specs.Prelude.{◌<◌};

use pyd_store::Store;
use pyd_value::{NoMemory, Outcome, Value};
use std::io;
use std::time::Instant;

// How many calls of a kind are timed at each size.
const CALLS: u64 = 100_000;

// By what the place of a node is multiplied to give its number: nodes in order, and in no order.
const ORDERS: [(&str, u64); 2] = [("rising", 1), ("scattered", 0x9E37_79B9_7F4A_7C15)];

fn put(store: &mut Store, node: u64) -> Result<(), NoMemory> {
    match store.put(node, Outcome::Ok(Value::Int(0))) {
        Ok(()) => Ok(()),
        Err((outcome, NoMemory)) => {
            drop(outcome);
            Err(NoMemory)
        }
    }
}

fn put_all(store: &mut Store, size: u64, by: u64) -> Result<(), NoMemory> {
    for place in 0..size {
        put(store, place.wrapping_mul(by))?;
    }
    Ok(())
}

fn count_found(store: &Store, size: u64, by: u64) -> u64 {
    let mut found = 0u64;
    for place in 0..size {
        if store.fetch(place.wrapping_mul(by)).is_some() {
            found = found.saturating_add(1);
        }
    }
    found
}

fn remove_all(store: &mut Store, size: u64, by: u64) {
    for place in 0..size {
        store.remove(place.wrapping_mul(by));
    }
}

// Times the calls on stores of this size, with nodes in this order.
fn measure(rt: &HostRuntime, order: &str, by: u64, size: u64) -> io::Result<()>
    requires { 0 < size }
{
    let mut nanos = [0u128; 3];
    for _ in 0..CALLS / size {
        let mut store = Store::new(rt.alloc());
        let start = Instant::now(rt)?;
        if put_all(&mut store, size, by).is_err() {
            return Err(io::ErrorKind::OutOfMemory.into());
        }
        nanos[0] = nanos[0].saturating_add(start.elapsed(rt)?.as_nanos());
        let start = Instant::now(rt)?;
        let found = count_found(&store, size, by);
        nanos[1] = nanos[1].saturating_add(start.elapsed(rt)?.as_nanos());
        let start = Instant::now(rt)?;
        remove_all(&mut store, size, by);
        nanos[2] = nanos[2].saturating_add(start.elapsed(rt)?.as_nanos());
        if found != size || count_found(&store, size, by) != 0 {
            return Err(io::ErrorKind::InvalidData.into());
        }
    }
    let [put, fetch, remove] = nanos.map(|nanos| nanos / u128::from(CALLS));
    println!(rt; "{order} {size} {put} {fetch} {remove}")
}

// A store of the largest size is filled and emptied, so that no timed call waits for the system's memory. What is
// answered lies behind it: as long as it is kept, the memory isn't given back.
fn warm_up(rt: &HostRuntime) -> io::Result<Store> {
    let mut store = Store::new(rt.alloc());
    if put_all(&mut store, CALLS, 1).is_err() {
        return Err(io::ErrorKind::OutOfMemory.into());
    }
    let mut last = Store::new(rt.alloc());
    if put(&mut last, CALLS).is_err() {
        return Err(io::ErrorKind::OutOfMemory.into());
    }
    remove_all(&mut store, CALLS, 1);
    Ok(last)
}

fn main(rt: HostRuntime) -> io::Result<()> {
    let last = warm_up(&rt)?;
    for (order, by) in ORDERS {
        for size in [1_000, 10_000, 100_000] {
            measure(&rt, order, by, size)?;
        }
    }
    if last.fetch(CALLS).is_none() {
        return Err(io::ErrorKind::InvalidData.into());
    }
    Ok(())
}
RT
printf '%s\n' 'pyd_value:' 'pyd_store: pyd_value' 'store_times: pyd_store pyd_value' >"$work/crates.txt"
(cd "$work/crates/store_times" && rt run) >"$work/built" 2>&1 || { cat "$work/built"; exit 1; }

python3 - "$work/crates/store_times/out/store_times" <<'PY'
import math
import statistics
import subprocess
import sys

CALLS = ("put", "fetch", "remove")
rounds = []
for _ in range(5):
    lines = subprocess.run(sys.argv[1:], check=True, capture_output=True, text=True).stdout.splitlines()
    rounds.append([line.split() for line in lines])
rows = [(same[0][0], int(same[0][1]), [statistics.median(int(row[at]) for row in same) for at in (2, 3, 4)])
        for same in zip(*rounds)]
first = {}
for order, size, times in rows:
    least_size, least = first.setdefault(order, (size, times))
    logarithm = math.log(size) / math.log(least_size)
    grown = ", ".join(f"{call} {time:.0f} ns ({time / before:.2f})" for call, time, before in zip(CALLS, times, least))
    print(f"{order}, {size} entries: {grown}; the logarithm {logarithm:.2f}")
PY

command -v valgrind >/dev/null || exit 0
# One dump of counts before each line that is written: the first has the calls of the warm-up too, which are those of
# the third. A fetch is what is left: it has no function of its own.
(cd "$work" && valgrind --tool=callgrind --dump-before=write --callgrind-out-file=counts \
    crates/store_times/out/store_times >lines 2>valgrind_says)
python3 - "$work" <<'PY'
import math
import re
import subprocess
import sys

CALLS, MOST = ("put", "fetch", "remove"), 100_000
work = sys.argv[1]
lines = [line.split()[:2] for line in open(f"{work}/lines")]


def counts(part):
    """The instructions of all puts, fetches and removes of a dump."""
    words = ["callgrind_annotate", "--inclusive=yes", "--threshold=100", "--show-percs=no", f"{work}/counts.{part}"]
    text = subprocess.run(words, check=True, capture_output=True, text=True).stdout
    of = lambda name: int(re.search(rf"([\d,]+) +\S*store_times::{name}\b", text).group(1).replace(",", ""))
    whole = int(re.search(r"(?m)^summary: (\d+)", open(f"{work}/counts.{part}").read()).group(1))
    return [of("put"), whole - of("put") - of("remove_all"), of("remove_all")]


parts = [counts(part + 1) for part in range(len(lines))]
parts[0] = [parts[0][0] - parts[2][0], parts[0][1], parts[0][2] - parts[2][2]]
first = {}
for (order, size), part in zip(lines, parts):
    least_size, least = first.setdefault(order, (int(size), part))
    logarithm = math.log(int(size)) / math.log(least_size)
    grown = ", ".join(f"{call} {all // MOST} instructions ({all / before:.2f})"
                      for call, all, before in zip(CALLS, part, least))
    print(f"{order}, {size} entries: {grown}; the logarithm {logarithm:.2f}")
PY
