#!/usr/bin/env python3
"""Compares the rows of pyd_grammar's tests with CPython's parser, and prints those that differ.

A row that is a file, or is refused for its depth and assigns to no number, has to be parsed by `ast`; a row that is
refused otherwise must not be, unless it is Python outside the profile. The front parts of the whole script that `ast`
parses are counted too.
"""

import ast
import pathlib
import re

ROWS = pathlib.Path(__file__).parent.parent / "crates/pyd_grammar_tests/src/grammar/rows.rt"

# Python that is outside the profile.
OUTSIDE = {
    "() = ()\n",
    "(a, (b, c)) = 1\n",
    "a[0] = 1\n",
    "a[:, 1]\n",
    "class C:\n    pass\n",
    "def f(a=1):\n    pass\n",
    "f(x=1)\n",
    "from x import *\n",
    "import x\n",
    "while 1:\n    pass\nelse:\n    pass\n",
    "x = lambda: 1\n",
    "x = y = 1\n",
    "x.y\n",
}


def constant(name, text):
    """The value of a text constant of the rows."""
    found = re.search(rf'const {name}: &str = "((?:[^"\\]|\\.)*)";', text)
    return re.sub(r"\\(.)", r"\1", found.group(1))


def parses(source):
    """Whether CPython parses the source."""
    try:
        ast.parse(source)
    except (SyntaxError, ValueError):
        return False
    return True


def main():
    """Prints the rows that differ."""
    text = ROWS.read_text()
    for row in constant("ROWS", text).split("\n"):
        source, answer = row.replace("\u00b6", "\n").split("\u2192")
        if answer.startswith("Deep"):
            wanted = not re.search("^1 = ", source, re.MULTILINE)
        else:
            wanted = answer == "a file" or source in OUTSIDE
        if parses(source) != wanted:
            print(repr(source), answer)
    script = constant("SCRIPT", text)
    count = sum(parses(script[:end]) for end in range(len(script) + 1))
    if f"PARSED: usize = {count};" not in text:
        print("front parts that CPython parses:", count)


main()
