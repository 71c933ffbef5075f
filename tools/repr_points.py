#!/usr/bin/env python3
"""Compares the `repr` of every code point with CPython's, and prints where the two Unicode versions differ.

Run by hand at the top of the repository: python3 tools/repr_points.py
Prints nothing where all agree. A range of code points that CPython's older tables call unassigned and the
project's tables don't is printed, since it stands as it is here and as an escape there. Anything else that
differs is printed too, and then the script ends with 1. The program that writes the project's texts is made
in a temporary folder, over copies of the crates.
"""
import os
import re
import shutil
import subprocess
import sys
import tempfile
import unicodedata

CHUNK = 256
PROGRAM = """//! Prints the `repr` of each text of 256 code points, surrogates left out: `+` where all stand as they
//! are, `=` where all are hexadecimal escapes, else the text itself.
#![tactic(auto)]

use anyhow::Result;
use pyd_text::repr_of;
use pyd_value::{NoMemory, Outcome, Text, Value};
use std::alloc::Global;

fn text(alloc: Global, from: u32) -> Result<String, NoMemory> {
    let mut text = String::new(alloc);
    for code in from..from.saturating_add(256) {
        if let Some(c) = char::from_u32(code) {
            text.push(c)?;
        }
    }
    Ok(text)
}

fn escaped(alloc: Global, from: u32) -> Result<String, NoMemory> {
    let mut text = String::new(alloc);
    for code in from..from.saturating_add(256) {
        if code < 0x1_0000 {
            text.push_str(format!(in alloc; "\\\\u{code:04x}")?.as_str())?;
        } else {
            text.push_str(format!(in alloc; "\\\\U{code:08x}")?.as_str())?;
        }
    }
    Ok(text)
}

fn show(rt: &HostRuntime, chunk: u32, outcome: &Outcome, plain: &str, wide: &str) -> Result<()> {
    let Outcome::Ok(Value::Text(text)) = outcome else {
        println!(rt; "repr {chunk} a fault")?;
        return Ok(());
    };
    let body = text.as_str().trim_matches('\\'');
    if body == plain {
        println!(rt; "repr {chunk} +")?;
    } else if body == wide {
        println!(rt; "repr {chunk} =")?;
    } else {
        println!(rt; "repr {chunk} {}", text.as_str())?;
    }
    Ok(())
}

fn one(rt: &HostRuntime, chunk: u32) -> Result<()> {
    let plain = text(rt.alloc(), chunk.saturating_mul(256))?;
    let wide = escaped(rt.alloc(), chunk.saturating_mul(256))?;
    let value = Value::Text(Text::of(rt.alloc(), plain.as_str())?);
    let outcome = repr_of(rt.alloc(), &value, 1);
    drop(value);
    let outcome = outcome?;
    show(rt, chunk, &outcome, plain.as_str(), wide.as_str())
}

fn main(rt: HostRuntime) -> Result<()> {
    for chunk in 0..4352u32 {
        one(&rt, chunk)?;
    }
    Ok(())
}
"""
FORM = re.compile(r"\\x[0-9a-f]{2}|\\u[0-9a-f]{4}|\\U[0-9a-f]{8}|\\.|.", re.DOTALL)
LINE = re.compile(r"^repr (\d+) (.*)$", re.MULTILINE)


def lines():
    """What the program writes for each text."""
    here = os.path.dirname(os.path.dirname(os.path.abspath(__file__)))
    with tempfile.TemporaryDirectory() as work:
        os.makedirs(work + "/crates/points/src")
        rows = ["points: pyd_text pyd_value anyhow"]
        for crate in ("pyd_value", "pyd_ops", "pyd_text"):
            shutil.copytree(f"{here}/crates/{crate}", f"{work}/crates/{crate}")
        with open(here + "/crates.txt", encoding="utf-8") as known:
            rows += [row.strip() for row in known if re.match("pyd_(value|ops|text):", row)]
        with open(work + "/crates.txt", "w", encoding="utf-8") as out:
            out.write("\n".join(rows) + "\n")
        with open(work + "/crates/points/src/main.rt", "w", encoding="utf-8") as out:
            out.write(PROGRAM)
        ran = subprocess.run(["rt", "run"], cwd=work + "/crates/points", capture_output=True, check=False)
        written = dict(LINE.findall(ran.stdout.decode()))
        if len(written) != 0x110000 // CHUNK:
            sys.exit("the program didn't run: " + ran.stderr.decode()[-1000:] + ran.stdout.decode()[-1000:])
        return written


def form(code):
    """The shortest hexadecimal escape of a character."""
    return "\\x%02x" % code if code < 0x100 else "\\u%04x" % code if code < 0x10000 else "\\U%08x" % code


def forms(codes, written):
    """What stands for each character."""
    if written in "+=":
        return [chr(code) if written == "+" else form(code) for code in codes]
    return FORM.findall(written[1:-1])


differing, wrong = [], []
written = lines()
for chunk in range(0x110000 // CHUNK):
    codes = [code for code in range(chunk * CHUNK, (chunk + 1) * CHUNK) if not 0xD800 <= code < 0xE000]
    text = repr("".join(map(chr, codes)))
    there, here = FORM.findall(text[1:-1]), forms(codes, written[str(chunk)])
    if len(there) != len(codes) or len(here) != len(codes) or written[str(chunk)][0] not in "+=" + text[0]:
        wrong.append("%x: %d forms for %d characters" % (chunk * CHUNK, len(here), len(codes)))
        continue
    for code, ours, theirs in zip(codes, here, there):
        if ours != theirs and ours == chr(code) and unicodedata.category(chr(code)) == "Cn":
            differing.append(code)
        elif ours != theirs:
            wrong.append("%x: %s here and %s in CPython" % (code, ours, theirs))

ranges = []
for code in differing:
    if ranges and ranges[-1][1] + 1 == code:
        ranges[-1][1] = code
    else:
        ranges.append([code, code])
for low, high in ranges:
    print("%x to %x: unassigned in Unicode %s" % (low, high, unicodedata.unidata_version))
for row in wrong:
    print(row)
sys.exit(1 if wrong else 0)
