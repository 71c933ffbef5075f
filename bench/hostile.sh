#!/usr/bin/env bash
# How `pydron check` and `pydron run` grow on hostile sources: each at half and at full size, three rounds, medians.
# Prints processor seconds at half and at full size, the growth, and the peak of memory at full size. Complains where
# full size takes more than 2.5 times half of it, and where a run prints something else or doesn't end well.
# Takes the program that is built in crates/pydron/out, or the one named; builds nothing. A peak below 20 MiB is that of
# the process that measures.
set -eu
here=$(cd "$(dirname "$0")/.." && pwd)
program=${1:-$here/crates/pydron/out/pydron}
if [ ! -x "$program" ]; then
    echo "hostile.sh: no program at $program; './pydron run </dev/null' builds it" >&2
    exit 2
fi
work=$(mktemp -d)
trap 'rm -rf "$work"' EXIT

python3 - "$work" "$program" <<'PY'
import os
import resource
import statistics
import subprocess
import sys

work, program = sys.argv[1:]
ROUNDS, MIB, MOST_GROWTH = 3, 1 << 20, 2.5
LEAST = 0.02  # seconds, below which no growth is told
MOST = 120  # seconds of one run
LINE = "1 + 2 * 3\n"
failed = []


def operators(count):
    """A chain of so many operators in one line, and what it prints."""
    return "x = 1\nprint(x" + " + 1" * count + ")\n", f"{count + 1}\n"


def constants(count):
    """So many constants, of which the last is printed."""
    return "".join(f"C{k} = {k % 10}\n" for k in range(count)) + f"print(C{count - 1})\n", f"{(count - 1) % 10}\n"


def function_locals(count):
    """A function of so many locals, which gives the last."""
    body = "".join(f"    x{k} = {k}\n" for k in range(count))
    return f"def f():\n{body}    return x{count - 1}\n\nprint(f())\n", f"{count - 1}\n"


def functions(count):
    """So many functions, of which the last is called."""
    text = "".join(f"def f{k}():\n  return {k % 10}\n" for k in range(count))
    return f"{text}print(f{count - 1}())\n", f"{(count - 1) % 10}\n"


def expressions(size):
    """So many bytes of statements, an expression a line."""
    return LINE * (size // len(LINE)), ""


HOSTILE = (
    ("operators in a chain", operators, 100_000),
    ("constants", constants, 50_000),
    ("locals of a function", function_locals, 10_000),
    ("functions", functions, 40_000),
    ("bytes of expressions", expressions, MIB),
)


def limited():
    resource.setrlimit(resource.RLIMIT_CPU, (MOST, MOST))


def measured(mode, path):
    """The processor seconds, the peak of memory in MiB, the status and the output of one run."""
    output = f"{work}/output"
    with open(path, "rb") as stdin, open(output, "wb") as stdout:
        child = subprocess.Popen([program, mode], stdin=stdin, stdout=stdout, stderr=subprocess.STDOUT,
                                 preexec_fn=limited)
        _, status, usage = os.wait4(child.pid, 0)
    seconds = usage.ru_utime + usage.ru_stime
    with open(output, encoding="utf-8", errors="replace") as file:
        return seconds, usage.ru_maxrss >> 10, os.waitstatus_to_exitcode(status), file.read()


def checked(name, mode, make, count):
    """The median of the seconds and the greatest peak, of runs that print what they should."""
    source, output = make(count)
    path = f"{work}/source.py"
    with open(path, "w", encoding="utf-8") as file:
        file.write(source)
    if len(source) > MIB:
        failed.append(f"{count} {name}: the source is longer than 1 MiB")
    runs = [measured(mode, path) for _ in range(ROUNDS)]
    for _, _, status, printed in runs:
        if status != 0:
            failed.append(f"{count} {name}, {mode}: status {status}: {printed[:80].strip()}")
        elif printed != output and mode == "run":
            failed.append(f"{count} {name}, {mode}: printed {printed[:80]!r}")
    return statistics.median(run[0] for run in runs), max(run[1] for run in runs)


print(f"{'source':32} {'mode':5} {'half s':>9} {'full s':>9} {'growth':>7}   peak")
for name, make, most in HOSTILE:
    for mode in ("check", "run"):
        half, _ = checked(name, mode, make, most // 2)
        full, peak = checked(name, mode, make, most)
        growth = full / max(half, 0.001)
        print(f"{f'{most:,} {name}':32} {mode:5} {half:9.3f} {full:9.3f} {growth:7.2f} {peak:5} MiB", flush=True)
        if growth > MOST_GROWTH and full > LEAST:
            failed.append(f"{most:,} {name}, {mode}: {growth:.2f} times half of it")
for line in dict.fromkeys(failed):
    print(f"FAILED: {line}")
sys.exit(bool(failed))
PY
