#!/usr/bin/env bash
# Times `pydron graph` beside `pydron check` on 1 MiB of statements; five rounds in turn. Prints medians of processor
# seconds, their ratio and peaks of memory, and the ratio of times for twice the source.
# Complains where graph takes more than 1.5 times as long as check.
set -eu
here=$(cd "$(dirname "$0")/.." && pwd)
work=$(mktemp -d)
trap 'rm -rf "$work"' EXIT
"$here/pydron" check </dev/null

python3 - "$work" "$here/crates/pydron/out/pydron" <<'PY'
import os
import statistics
import subprocess
import sys

work, program = sys.argv[1:]
LONGEST, ROUNDS, MOST = 1_048_576, 5, 1.5
STATEMENTS = ["x = y + 1\n", "print(x, y * 2)\n", "if x > y:\n    x = 1\nelse:\n    y = 2\n", "for i in (1, 2):\n    x = x + i\n"]


def source(size):
    """Statements of a few kinds, of at most so many bytes."""
    block = "".join(STATEMENTS)
    return "y = 1\nx = 2\n" + block * ((size - 16) // len(block))


def measured(mode, path):
    """The processor seconds and the peak of memory, in MiB, of one run."""
    with open(path, "rb") as stdin:
        child = subprocess.Popen([program, mode], stdin=stdin, stdout=subprocess.DEVNULL)
        _, status, usage = os.wait4(child.pid, 0)
    assert status == 0, mode
    return usage.ru_utime + usage.ru_stime, usage.ru_maxrss >> 10


def medians(size):
    """The median seconds and the peaks of check and of graph."""
    path = f"{work}/source"
    with open(path, "w") as out:
        out.write(source(size))
    rounds = [(measured("check", path), measured("graph", path)) for _ in range(ROUNDS)]
    return [(statistics.median(row[at][0] for row in rounds), max(row[at][1] for row in rounds)) for at in (0, 1)]


half, whole = medians(LONGEST // 2), medians(LONGEST)
for name, before, after in zip(("check", "graph"), half, whole):
    print(f"{name}: {after[0]:.3f} s, {after[1]} MiB; {after[0] / before[0]:.2f} times as long as for half the source")
ratio = whole[1][0] / whole[0][0]
print(f"graph beside check: {ratio:.2f}")
sys.exit(0 if ratio <= MOST else f"graph takes more than {MOST} times as long as check")
PY
