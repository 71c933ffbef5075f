#!/usr/bin/env bash
# Times tokens and parse on 1 MiB of each shape of source, and prints the seconds of each, the processor seconds of the
# whole process and the peak of memory. Fails where a shape takes more than 1 s, or 400 bytes of memory a byte.
# The program is made in a temporary folder, over copies of the crates; three rounds, medians.
set -eu
here=$(cd "$(dirname "$0")/.." && pwd)
work=$(mktemp -d)
trap 'rm -rf "$work"' EXIT
mkdir -p "$work/crates/parse_times/src"
cp "$here/HANDLES" "$work"
for crate in pyd_value pyd_tree pyd_lex pyd_syntax pyd_derivation pyd_measure pyd_names pyd_grammar; do
    cp -Rp "$here/crates/$crate" "$work/crates/"
    grep "^$crate[ :]" "$here/crates.txt" >>"$work/crates.txt"
done
echo 'parse_times: pyd_grammar pyd_lex' >>"$work/crates.txt"

cat >"$work/crates/parse_times/src/main.rt" <<'RT'
//! Prints how many nanoseconds `tokens` and `parse` take on the source of standard input, and its answer.
#![tactic(auto)]

use pyd_grammar::{ParseStop, parse};
use pyd_lex::tokens;
use std::io;
use std::io::Read;
use std::time::Instant;

/// More bytes than any source here.
const LONGEST: usize = 10_000_000;

fn main(rt: HostRuntime) -> io::Result<()> {
    let mut source = Vec::new(rt.alloc());
    rt.stdin().read_to_end(&mut source)?;
    if source.len() >= LONGEST {
        return Err(io::ErrorKind::InvalidData.into());
    }
    let start = Instant::now(&rt)?;
    let Ok(all) = tokens(rt.alloc(), source.as_slice()) else {
        return Err(io::ErrorKind::InvalidData.into());
    };
    let lexed = start.elapsed(&rt)?.as_nanos();
    let start = Instant::now(&rt)?;
    let answer = parse(rt.alloc(), source.as_slice(), all.as_slice());
    let parsed = start.elapsed(&rt)?.as_nanos();
    match answer {
        Ok(file) => {
            drop(file);
            println!(rt; "{lexed} {parsed} file")
        }
        Err(ParseStop::Fault(fault)) => println!(rt; "{lexed} {parsed} {fault:?}"),
        Err(ParseStop::NoMemory) => Err(io::ErrorKind::OutOfMemory.into()),
    }
}
RT
(cd "$work/crates/parse_times" && rt run </dev/null) >"$work/built" 2>&1 || { cat "$work/built"; exit 1; }

python3 - "$work" "$work/crates/parse_times/out/parse_times" <<'PY'
import os
import statistics
import subprocess
import sys

work, program = sys.argv[1:]
MIB = 1_048_576
half = (MIB - 2) // 2
shapes = {
    "statements": "x = y + 1\n" * (MIB // 10),
    "one long expression": "x" + " + x" * ((MIB - 2) // 4) + "\n",
    "brackets": "(" * half + "1" + ")" * half + "\n",
    "open brackets": "(" * (MIB - 1) + "\n",
    "minus signs": "-" * (MIB - 2) + "1\n",
    "nots": "not " * ((MIB - 2) // 4) + "1\n",
    "texts": ("'" + "a" * 61 + "'\n") * (MIB // 64),
    "names": ("a" * 63 + "\n") * (MIB // 64),
}
above = []
for name, source in shapes.items():
    path = f"{work}/source"
    with open(path, "w") as out:
        out.write(source)
    rounds, busy, peak = [], [], 0
    for _ in range(3):
        with open(path) as stdin:
            child = subprocess.Popen([program], stdin=stdin, stdout=subprocess.PIPE, text=True)
        line = child.stdout.read()
        _, status, usage = os.wait4(child.pid, 0)
        assert status == 0, name
        lexed, parsed, answer = line.split()
        rounds.append((int(lexed), int(parsed)))
        busy.append(usage.ru_utime + usage.ru_stime)
        peak = max(peak, usage.ru_maxrss)
    lexed, parsed = (statistics.median(column) / 1e9 for column in zip(*rounds))
    each = peak * 1024 / len(source)
    print(f"{name}: tokens {lexed:.3f} s, parse {parsed:.3f} s, process {statistics.median(busy):.3f} s,",
          f"{peak} KiB, {each:.0f} bytes a byte: {answer}")
    if lexed + parsed > 1 or each > 400:
        above.append(name)
sys.exit("above 1 s or 400 bytes a byte: " + ", ".join(above) if above else 0)
PY
