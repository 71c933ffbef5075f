#!/usr/bin/env bash
# Times `pydron check` beside python3 reading and compiling the same source, on sources of 256 KiB, 512 KiB and 1 MiB,
# and `pydron check` alone on hostile ones. Five rounds in turn; prints medians of processor seconds, ratios and peaks of
# memory.
# Complains where check takes longer than python3, more than 2.3 times as long for twice the source, or more than
# 400 times the source's memory.
set -eu
here=$(cd "$(dirname "$0")/.." && pwd)
work=$(mktemp -d)
trap 'rm -rf "$work"' EXIT
"$here/pydron" run </dev/null

python3 - "$work" "$here/crates/pydron/out/pydron" <<'PY'
import os
import statistics
import subprocess
import sys

work, program = sys.argv[1:]
LONGEST = 1_048_576
COMPILE = "import sys; compile(open(sys.argv[1]).read(), 'source', 'exec')"
failed = []


def function(number):
    """A function with a long expression, a long text and a loop."""
    terms = " + ".join(f"a * {number + k} - b // {k + 1}" for k in range(12))
    text = "some words of a long text, " * 4
    return (
        f"def function_{number}(a, b):\n"
        f'    """{text}{number}"""\n'
        f"    total = {terms}\n"
        f"    for i in range(a):\n"
        f"        if i % 3 == 0 and total > {number} or not b:\n"
        f"            total += i * (total - {number}) % 7\n"
        f"        else:\n"
        f'            total = len("{text}") + total\n'
        f"    return (total, a, b)\n\n\n"
    )


def source(size):
    parts, length, number = [], 0, 0
    while True:
        part = function(number)
        if length + len(part) > size:
            return "".join(parts)
        parts.append(part)
        length += len(part)
        number += 1


def written(name, text):
    path = f"{work}/{name}"
    with open(path, "w") as out:
        out.write(text)
    return path


def measured(command, path):
    """The processor seconds and the peak of memory, in bytes, of one run."""
    with open(path, "rb") as stdin:
        child = subprocess.Popen(command, stdin=stdin, stdout=subprocess.DEVNULL)
        _, status, usage = os.wait4(child.pid, 0)
    assert status == 0, command
    return usage.ru_utime + usage.ru_stime, usage.ru_maxrss * 1024


def checked(path, rounds=5):
    runs = [measured([program, "check"], path) for _ in range(rounds)]
    return statistics.median(seconds for seconds, _ in runs), max(peak for _, peak in runs)


before = None
for size in (LONGEST // 4, LONGEST // 2, LONGEST):
    path = written(f"source_{size}", source(size))
    ours, theirs = [], []
    for _ in range(5):
        ours.append(measured([program, "check"], path))
        theirs.append(measured([sys.executable, "-c", COMPILE, path], os.devnull))
    fast = statistics.median(seconds for seconds, _ in ours)
    slow = statistics.median(seconds for seconds, _ in theirs)
    peak = max(peak for _, peak in ours) / os.path.getsize(path)
    growth = f"; {fast / before:.2f} times the half" if before else ""
    print(f"{size >> 10} KiB: check {fast:.3f} s, {peak:.0f} times the source; python3 {slow:.3f} s; ratio {fast / slow:.2f}{growth}")
    if fast > slow:
        failed.append(f"{size >> 10} KiB: slower than python3")
    if before and fast > 2.3 * before:
        failed.append(f"{size >> 10} KiB: more than 2.3 times the time of half the source")
    if peak > 400:
        failed.append(f"{size >> 10} KiB: more than 400 times the source's memory")
    before = fast

HOSTILE = {
    "constants": lambda n: "".join(f"C{k} = {k % 10}\n" for k in range(n)),
    "locals": lambda n: "def f():\n" + "".join(f"    x{k} = {k}\n" for k in range(n)) + "    return x0\n",
    "functions": lambda n: "".join(f"def f{k}():\n  return {k % 10}\n" for k in range(n)),
}
for name, most in (("constants", 50_000), ("locals", 10_000), ("functions", 40_000)):
    half, _ = checked(written(f"{name}_half", HOSTILE[name](most // 2)))
    whole, peak = checked(written(name, HOSTILE[name](most)))
    print(f"{most} {name}: check {whole:.3f} s, {whole / half:.2f} times {most // 2} of them; {peak >> 20} MiB")
    if whole > 2.5 * half:
        failed.append(f"{name}: the time grows faster than the source")
for line in failed:
    print(f"FAILED: {line}")
sys.exit(bool(failed))
PY
