#!/usr/bin/env bash
# Tickets a second through a pool's places, on one thread, and in plain Rust through a VecDeque behind std's Mutex:
# pushed and taken by one hand, mailed and taken, and stolen by another hand. Five rounds; prints the medians.
set -eu
here=$(cd "$(dirname "$0")/.." && pwd)
work=$(mktemp -d)
trap 'rm -rf "$work"' EXIT
mkdir -p "$work/crates/bench_pool/src"
cp "$here/HANDLES" "$work"
for crate in pyd_value pyd_tree pyd_board pyd_pool; do
    cp -r "$here/crates/$crate" "$work/crates"
    grep "^$crate[ :]" "$here/crates.txt" >>"$work/crates.txt"
done
echo "bench_pool may_wait=4: pyd_pool pyd_board pyd_value" >>"$work/crates.txt"
cat >"$work/crates/bench_pool/src/main.rt" <<'RT'
//! Times tickets through the places of a pool.
#![tactic(auto)]

use pyd_board::Ticket;
use pyd_pool::{Hand, Pool};
use std::alloc::AllocError;
use std::io;
use std::sync::Wait;
use std::time::Instant;

/// The tickets of each measurement.
const TICKETS: u64 = 400_000;

fn ticket(node: u64) -> Ticket {
    Ticket {
        node,
        attempt: 1,
        machine: 0,
    }
}

/// How many tickets the hand that took them got.
fn pushed<W: Wait>(rt: &W, from: &mut Hand) -> u64 {
    let mut taken: u64 = 0;
    for node in 0..TICKETS {
        if from.push(rt, ticket(node)).is_ok() && from.take(rt).is_some() {
            taken = taken.wrapping_add(1);
        }
    }
    taken
}

fn mailed<W: Wait>(rt: &W, from: &mut Hand) -> u64 {
    let mut taken: u64 = 0;
    for node in 0..TICKETS {
        if from.mail(rt, 0, ticket(node)).is_ok() && from.take(rt).is_some() {
            taken = taken.wrapping_add(1);
        }
    }
    taken
}

fn stolen<W: Wait>(rt: &W, from: &mut Hand, to: &mut Hand) -> u64 {
    let mut taken: u64 = 0;
    for node in 0..TICKETS {
        if from.push(rt, ticket(node)).is_ok() && to.take(rt).is_some() {
            taken = taken.wrapping_add(1);
        }
    }
    taken
}

/// Writes the place, how many tickets were taken, and the nanoseconds that they took.
fn main(rt: HostRuntime) -> io::Result<()> {
    let (_pool, mut hands) = Pool::new(rt.alloc(), 1, 2).map_err(|_| AllocError)?;
    let (Some(mut second), Some(mut first)) = (hands.pop(), hands.pop()) else {
        return Ok(());
    };
    for place in ["push", "mail", "steal"] {
        let start = Instant::now(&rt)?;
        let taken = match place {
            "push" => pushed(&rt, &mut first),
            "mail" => mailed(&rt, &mut first),
            _ => stolen(&rt, &mut first, &mut second),
        };
        let time = start.elapsed(&rt)?.as_nanos();
        println!(rt; "{place} {taken} {time}")?;
    }
    Ok(())
}
RT
cat >"$work/mutex.rs" <<'RS'
//! The same tickets through a queue behind a mutex.
use std::collections::VecDeque;
use std::sync::Mutex;
use std::time::Instant;

const TICKETS: u64 = 400_000;

fn main() {
    for place in ["push", "mail", "steal"] {
        let queue = Mutex::new(VecDeque::new());
        let start = Instant::now();
        let mut taken = 0;
        for node in 0..TICKETS {
            queue.lock().unwrap().push_back((node, 1u64, 0u32));
            taken += u64::from(queue.lock().unwrap().pop_front().is_some());
        }
        println!("{place} {taken} {}", start.elapsed().as_nanos());
    }
}
RS
rustc -O -o "$work/mutex" "$work/mutex.rs"
(cd "$work/crates/bench_pool" && rt run) >"$work/built" 2>&1 || { tail -20 "$work/built"; exit 1; }

python3 - "$work/crates/bench_pool/out/bench_pool" "$work/mutex" <<'PY'
import statistics
import subprocess
import sys


def rates(program):
    """The tickets a second of one run, for each place."""
    lines = subprocess.run([program], capture_output=True, check=True, text=True).stdout
    rows = (line.split() for line in lines.splitlines())
    return {place: int(taken) * 1e9 / int(time) for place, taken, time in rows}


rounds = [[rates(program) for program in sys.argv[1:]] for _ in range(5)]
for place in ("push", "mail", "steal"):
    ours, theirs = (statistics.median(r[i][place] for r in rounds) for i in (0, 1))
    print(f"{place}: pool {ours:,.0f}, Mutex<VecDeque> {theirs:,.0f} tickets a second; ratio {ours / theirs:.3f}")
PY
