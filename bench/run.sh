#!/usr/bin/env bash
# Times `pydron run` beside python3 on whole scripts, and `check` and `run` on hostile ones; five rounds in turn.
# Prints a table: medians of the processor seconds of the whole process, the ratio to python3, and peaks of memory in MiB.
# Processor seconds, since both run on one thread, and other work on the machine then tells least.
# Complains where the two print something else. What ends with another status than 0 has no time.
# A peak below 20 MiB is that of the process that measures.
set -eu
here=$(cd "$(dirname "$0")/.." && pwd)
work=$(mktemp -d)
trap 'rm -rf "$work"' EXIT
"$here/pydron" run </dev/null

PYTHONPATH=$here/python python3 - "$work" "$here" <<'PY'
import os
import statistics
import subprocess
import sys

work, here = sys.argv[1:]
program = f"{here}/crates/pydron/out/pydron"
ROUNDS, TURNS, MIB = 5, 100_000, 1 << 20
COMPILE = "import sys; compile(open(sys.argv[1]).read(), 'source', 'exec')"
failed = []

FUNCTION = "def work(n):\n    s = 0\n{}    return s\n\nprint(work({}))\n"
STEP = "def step(s, i):\n    return (s * 31 + i) % 1009\n\n"
SCRIPTS = {
    "fib(22)": "def fib(n):\n    if n < 2:\n        return n\n    return fib(n - 1) + fib(n - 2)\n\nprint(fib(22))\n",
    "for in a function": FUNCTION.format("    for i in range(n):\n        s = s + i * 3 % 7\n", TURNS),
    "while in a function": FUNCTION.format("    while s < n:\n        s += 1\n", TURNS),
    "nested for in a function": FUNCTION.format("    for i in range(n):\n        for j in range(n):\n"
                                                "            s += i ^ j\n", 316),
    "if in a loop": FUNCTION.format("    for i in range(n):\n        if i % 3 == 0 and i > s // 9:\n            s += i\n"
                                    "        elif i % 5 == 1:\n            continue\n        else:\n            s -= 1\n", TURNS),
    "calls in a loop": STEP + FUNCTION.format("    for i in range(n):\n        s = step(s, i)\n", TURNS),
    "for in the module": f"s = 0\nfor i in range({TURNS}):\n    s = s + i * 3 % 7\nprint(s)\n",
    "while in the module": f"s = 0\nwhile s < {TURNS}:\n    s += 1\nprint(s)\n",
    "calls in the module": f"{STEP}s = 0\nfor i in range({TURNS}):\n    s = step(s, i)\nprint(s)\n",
    "generated source 7": subprocess.check_output([sys.executable, f"{here}/tools/generated_source.py", "7"], text=True),
    "examples/pixels.py": open(f"{here}/examples/pixels.py").read(),
    "1,000 rows passed 1,000 times": "def field(rows, k):\n    return rows[k][1]\n\nrows = ()\nfor k in range(1000):\n"
                                     "    rows += ((\"row\", k, k * k),)\ns = 0\nfor k in range(1000):\n"
                                     "    s += field(rows, k)\nprint(s)\n",
    "a text by + 20,000 times": "t = \"\"\nfor k in range(20000):\n    t = t + \"ab\"\nprint(len(t), t[-4:])\n",
    "rows by += 2,000 times": "rows = ()\nfor k in range(2000):\n    rows += ((\"name\", k),)\nprint(len(rows), rows[-1])\n",
    "100,000 lines": f"for i in range({TURNS}):\n    print(i, \"line\")\n",
}
LINE = "1 + 2 * 3\n"
HOSTILE = {
    "100,000 operators": "x = 1\nprint(x" + " + 1" * 100_000 + ")\n",
    "50,000 constants": "".join(f"C{k} = {k % 10}\n" for k in range(50_000)) + "print(C49999)\n",
    "10,000 locals": "def f():\n" + "".join(f"    x{k} = {k}\n" for k in range(10_000))
                     + "    return x9999\n\nprint(f())\n",
    "40,000 functions": "".join(f"def f{k}():\n  return {k % 10}\n" for k in range(40_000)) + "print(f39999())\n",
    "1 MiB of expressions": LINE * (MIB // len(LINE)),
}


def measured(command, path, output):
    """The processor seconds, the peak of memory in MiB, and the status of one run."""
    with open(path, "rb") as stdin, open(output, "wb") as stdout:
        child = subprocess.Popen(command, stdin=stdin, stdout=stdout, stderr=subprocess.DEVNULL)
        _, status, usage = os.wait4(child.pid, 0)
        return usage.ru_utime + usage.ru_stime, usage.ru_maxrss >> 10, os.waitstatus_to_exitcode(status)


def median(runs):
    """The median of the seconds, or None where a run didn't end well."""
    return statistics.median(run[0] for run in runs) if all(run[2] == 0 for run in runs) else None


def printed(path):
    with open(path, "rb") as file:
        return file.read()


def row(name, mode, source):
    path = f"{work}/source.py"
    with open(path, "w") as out:
        out.write(source)
    theirs_words = [sys.executable, path] if mode == "run" else [sys.executable, "-c", COMPILE, path]
    ours, theirs = [], []
    for _ in range(ROUNDS):
        ours.append(measured([program, mode], path, f"{work}/ours"))
        theirs.append(measured(theirs_words, os.devnull, f"{work}/theirs"))
    fast, slow = median(ours), median(theirs)
    if mode == "run" and fast and slow and printed(f"{work}/ours") != printed(f"{work}/theirs"):
        failed.append(f"{name}: the two print something else")
    shown = [f"{seconds:9.3f}" if seconds else "        -" for seconds in (fast, slow)]
    ratio = f"{fast / slow:7.2f}" if fast and slow else "      -"
    peaks = [f"{max(peak for _, peak, _ in runs):5} MiB" for runs in (ours, theirs)]
    print(f"{name:32} {mode:5} {shown[0]} {shown[1]} {ratio} {peaks[0]} {peaks[1]}", flush=True)


print(f"{'script':32} {'mode':5} {'pydron s':>9} {'python3 s':>9} {'ratio':>7}   peaks of memory")
for name, source in SCRIPTS.items():
    row(name, "run", source)
for name, source in HOSTILE.items():
    row(name, "check", source)
    row(name, "run", source)
for line in failed:
    print(f"FAILED: {line}")
sys.exit(bool(failed))
PY
