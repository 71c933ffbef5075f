#!/usr/bin/env bash
# Turns a second at a TurnLock and, in plain Rust, at std's Mutex, for one, two and four threads.
# Five rounds in turn; prints the medians and their ratio. The lock hands each turn to the seat that
# asked first; a Mutex lets a thread that has just unlocked it take it again.
set -eu
here=$(cd "$(dirname "$0")/.." && pwd)
work=$(mktemp -d)
trap 'rm -rf "$work"' EXIT
crates="pyd_value pyd_tree pyd_board pyd_turn"
mkdir -p "$work/crates/bench_lock/src"
for function in turn one race_of_one race_of_two race_of_four; do
    mkdir -p "$work/crates/bench_lock/proofs/$function"
done
cp "$here/HANDLES" "$work"
for crate in $crates; do
    cp -r "$here/crates/$crate" "$work/crates"
    grep "^$crate[ :]" "$here/crates.txt" >>"$work/crates.txt"
done
echo "bench_lock may_wait=6: pyd_turn pyd_board atomic_table" >>"$work/crates.txt"
cat >"$work/crates/bench_lock/src/main.rt" <<'RT'
//! Times turns at a lock, for one, two and four threads.
#![tactic(auto)]

ghost use Rattle.std.specs.Prelude.{◌≡◌};
ghost use Rattle.pyd_turn.specs.Seats.{IsFree, IsSame, IsSeatOf, joined, made, number};

use pyd_board::{Kept, a_history_extends_itself};
use pyd_turn::{Seat, TurnLock};
use std::alloc::{AllocError, Global};
use std::io;
use std::sync::Wait;
use std::thread::{Threads, join};
use std::time::Instant;

/// The turns of each measurement.
const TURNS: u64 = 400_000;

/// A number that each turn raises. It stands for no run and for no event.
#[derive(Drop)]
struct Counter {
    turns: u64,
}

impl Kept for Counter {
    ghost use Rattle.std.specs.Prelude.{[], None};

    ghost name = { λ _. [] };

    ghost history = { λ _. record { events = []; sink_faults = []; halted = None } };
}

fn turn<W: Wait>(rt: &W, lock: &TurnLock<Counter>, seat: &mut Seat<Counter>)
    requires { IsSeatOf seat.old lock.now × IsFree seat.old }
    ensures { IsSame seat.old seat.new × IsFree seat.new × (made seat.new ≡ made seat.old)
        × (joined seat.new ≡ joined seat.old) }
{
    a_history_extends_itself();
    let counter = lock.take(rt, seat);
    let turns = counter.turns.wrapping_add(1);
    lock.give(seat, Counter { turns });
}

fn one<W: Wait>(
    rt: &W,
    lock: &TurnLock<Counter>,
    mut seat: Seat<Counter>,
    turns: u64,
) -> Seat<Counter>
    requires { IsSeatOf seat lock.now × IsFree seat }
    ensures { IsSame seat result × IsFree result × (made result ≡ made seat)
        × (joined result ≡ joined seat) }
{
    for _ in 0..turns {
        turn(rt, lock, &mut seat);
    }
    seat
}

fn two<R: Threads + Wait + Sync>(
    rt: &R,
    lock: &TurnLock<Counter>,
    a: Seat<Counter>,
    b: Seat<Counter>,
    each: u64,
) -> (Seat<Counter>, Seat<Counter>)
    requires { IsSeatOf a lock.now × IsFree a × IsSeatOf b lock.now × IsFree b }
    ensures { IsSame a result.0 × IsFree result.0 × (made result.0 ≡ made a)
        × (joined result.0 ≡ joined a) × IsSame b result.1 × IsFree result.1 }
{
    join(
        rt,
        || -> Seat<Counter>
            requires { IsSeatOf a lock.now × IsFree a }
            ensures { IsSame a result × IsFree result × (made result ≡ made a)
                × (joined result ≡ joined a) }
        { one(rt, lock, a, each) },
        || -> Seat<Counter>
            requires { IsSeatOf b lock.now × IsFree b }
            ensures { IsSame b result × IsFree result }
        { one(rt, lock, b, each) },
    )
}

fn race_of_one<W: Wait>(rt: &W, alloc: Global) -> Result<Counter, AllocError> {
    let (lock, seat) = TurnLock::new(alloc, Counter { turns: 0 }).map_err(|_| AllocError)?;
    let seat = one(rt, &lock, seat, TURNS);
    Ok(lock.close(seat))
}

fn race_of_two<R: Threads + Wait + Sync>(rt: &R, alloc: Global) -> Result<Counter, AllocError> {
    let (lock, mut a) = TurnLock::new(alloc, Counter { turns: 0 }).map_err(|_| AllocError)?;
    let b = lock.split(&mut a);
    let (mut a, b) = two(rt, &lock, a, b, TURNS / 2);
    lock.join(&mut a, b);
    Ok(lock.close(a))
}

fn race_of_four<R: Threads + Wait + Sync>(rt: &R, alloc: Global) -> Result<Counter, AllocError> {
    let (lock, mut a) = TurnLock::new(alloc, Counter { turns: 0 }).map_err(|_| AllocError)?;
    let b = lock.split(&mut a);
    let c = lock.split(&mut a);
    let d = lock.split(&mut a);
    let ((mut a, b), (c, d)) = join(
        rt,
        || -> (Seat<Counter>, Seat<Counter>)
            requires { IsSeatOf a lock × IsFree a × IsSeatOf b lock × IsFree b }
            ensures { IsSame a result.0 × IsFree result.0 × (made result.0 ≡ made a)
                × (joined result.0 ≡ joined a) × IsSame b result.1 × IsFree result.1 }
        { two(rt, &lock, a, b, TURNS / 4) },
        || -> (Seat<Counter>, Seat<Counter>)
            requires { IsSeatOf c lock × IsFree c × IsSeatOf d lock × IsFree d }
            ensures { IsSame c result.0 × IsFree result.0 × IsSame d result.1 × IsFree result.1 }
        { two(rt, &lock, c, d, TURNS / 4) },
    );
    lock.join(&mut a, b);
    lock.join(&mut a, c);
    lock.join(&mut a, d);
    Ok(lock.close(a))
}

/// Writes the number of threads, of turns, and of nanoseconds that they took.
fn main(rt: HostRuntime) -> io::Result<()> {
    for threads in [1, 2, 4] {
        let start = Instant::now(&rt)?;
        let counter = match threads {
            1 => race_of_one(&rt, rt.alloc())?,
            2 => race_of_two(&rt, rt.alloc())?,
            _ => race_of_four(&rt, rt.alloc())?,
        };
        let time = start.elapsed(&rt)?.as_nanos();
        println!(rt; "{threads} {} {time}", counter.turns)?;
    }
    Ok(())
}
RT
cat >"$work/crates/bench_lock/proofs/turn/Answers.antt" <<'ANTT'
use Rattle.std.proofs.Common.{◌≡◌, sym, subst}
use Rattle.pyd_board.specs.declared.history.History.{History}
use Rattle.pyd_board.specs.Histories.{ExtendsBy}
use Rattle.pyd_turn.specs.Seats.{number, seen}
use Rattle.bench_lock.proofs.turn.Goals as goal

pub give-requires-clause-grown : goal.give-requires-clause-grown
give-requires-clause-grown g c =
    let seat = number c.take-counter.new.seat in
    let saw = seen c.take-counter.new.seat in
    subst (λ (h : History). ExtendsBy seat saw h) c.take-counter.ensures.seen (c.a_history_extends_itself.ensures seat saw)
ANTT
cat >"$work/crates/bench_lock/proofs/one/Invariants.antt" <<'ANTT'
use Rattle.std.proofs.Common.{◌≡◌}
use Rattle.pyd_turn.specs.Seats.{IsFree, IsSame, joined, made}
use Rattle.bench_lock.proofs.one.Given as goal

abbrev pub invariant-loop : goal.invariant-loop
invariant-loop g l = IsSame l.fn.seat l.seat × IsFree l.seat × (made l.seat ≡ made l.fn.seat) × (joined l.seat ≡ joined l.fn.seat)
ANTT
cat >"$work/crates/bench_lock/proofs/race_of_one/Answers.antt" <<'ANTT'
use Rattle.std.proofs.Common.{rules, ◌≡◌, ℕ, sym, subst}
use Rattle.pyd_turn.specs.Seats.{joined, made}
use Rattle.pyd_turn.specs.Views.{AllListed}
use Rattle.pyd_turn.proofs.Listing.{lists_none}
use Rattle.bench_lock.proofs.race_of_one.Goals as goal

pub close-requires-clause-all : goal.close-requires-clause-all
close-requires-clause-all g c =
    let made_is : made c.one-seat.result ≡ 1 = search rules in
    subst (λ (n : ℕ). AllListed n (joined c.one-seat.result)) (sym made_is) (lists_none (joined c.one-seat.result))
ANTT
cat >"$work/crates/bench_lock/proofs/race_of_two/Answers.antt" <<'ANTT'
use Rattle.std.proofs.Common.{rules, ◌≡◌, ℕ, sym, subst}
use Rattle.pyd_turn.specs.Seats.{joined, made, number, tally_of}
use Rattle.pyd_turn.specs.Views.{AllListed}
use Rattle.pyd_turn.proofs.Listing.{lists_next, lists_none}
use Rattle.bench_lock.proofs.race_of_two.Goals as goal

pub close-requires-clause-all : goal.close-requires-clause-all
close-requires-clause-all g c =
    let two = c.two-a.result.1 in
    let number_is : number two ≡ 1 = search rules in
    let made_is : made c.join.new.seat ≡ 2 = search rules in
    let all = lists_next 1 _ _ (tally_of two) (lists_none _) c.join.ensures.listed number_is in
    subst (λ (n : ℕ). AllListed n (joined c.join.new.seat)) (sym made_is) all
ANTT
cat >"$work/crates/bench_lock/proofs/race_of_four/Answers.antt" <<'ANTT'
use Rattle.std.proofs.Common.{rules, ◌≡◌, ℕ, sym, subst}
use Rattle.pyd_turn.specs.Seats.{joined, made, number, tally_of}
use Rattle.pyd_turn.specs.Views.{AllListed}
use Rattle.pyd_turn.proofs.Listing.{lists_next, lists_none}
use Rattle.bench_lock.proofs.race_of_four.Goals as goal

pub close-requires-clause-all : goal.close-requires-clause-all
close-requires-clause-all g c =
    let two = c.join-a.result.0.1 in
    let three = c.join-a.result.1.0 in
    let four = c.join-a.result.1.1 in
    let two_is : number two ≡ 1 = search rules in
    let three_is : number three ≡ 2 = search rules in
    let four_is : number four ≡ 3 = search rules in
    let made_is : made c.join-3.new.seat ≡ 4 = search rules in
    let first = lists_next 1 _ _ (tally_of two) (lists_none _) c.join.ensures.listed two_is in
    let second = lists_next 2 _ _ (tally_of three) first c.join-2.ensures.listed three_is in
    let all = lists_next 3 _ _ (tally_of four) second c.join-3.ensures.listed four_is in
    subst (λ (n : ℕ). AllListed n (joined c.join-3.new.seat)) (sym made_is) all
ANTT
cat >"$work/mutex.rs" <<'RS'
//! The same turns at std's Mutex.
use std::sync::Mutex;
use std::thread;
use std::time::Instant;

const TURNS: u64 = 400_000;

fn main() {
    for threads in [1, 2, 4] {
        let counter = Mutex::new(0u64);
        let start = Instant::now();
        thread::scope(|scope| {
            for _ in 0..threads {
                scope.spawn(|| {
                    for _ in 0..TURNS / threads {
                        *counter.lock().unwrap() += 1;
                    }
                });
            }
        });
        let time = start.elapsed().as_nanos();
        assert_eq!(counter.into_inner().unwrap(), TURNS);
        println!("{threads} {TURNS} {time}");
    }
}
RS
rustc -O -o "$work/mutex" "$work/mutex.rs"
(cd "$work/crates/bench_lock" && rt run) >"$work/built" 2>&1 || { tail -20 "$work/built"; exit 1; }

python3 - "$work/crates/bench_lock/out/bench_lock" "$work/mutex" <<'PY'
import statistics
import subprocess
import sys


def rates(program):
    """The turns a second of one run, for each number of threads."""
    lines = subprocess.run([program], capture_output=True, check=True, text=True).stdout
    fields = (map(int, line.split()) for line in lines.splitlines())
    return {threads: turns * 1e9 / time for threads, turns, time in fields}


rounds = [[rates(program) for program in sys.argv[1:]] for _ in range(5)]
for threads in (1, 2, 4):
    ours, theirs = (statistics.median(r[i][threads] for r in rounds) for i in (0, 1))
    print(
        f"threads {threads}: TurnLock {ours:,.0f}, Mutex {theirs:,.0f} turns a second;"
        f" ratio {ours / theirs:.3f}"
    )
PY
