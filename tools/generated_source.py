#!/usr/bin/env python3
"""Writes the generated source of a number, as docs/FORMATS.md describes it.

    tools/generated_source.py NUMBER            the text
    tools/generated_source.py --digest NUMBER   its length, and the sum of its bytes, each times its place from 1
"""
import sys

HEADING = """from pydron import schedule, functional

@functional
def work(x, y):
    t = 0
    for i in range(20):
        t = t + x + y
    return t

"""
PART = """@schedule
def part{part}():
    s = 0
    for i in range(50):
        s = s + work(i, {addend})
    return s

"""


def addend(number, part):
    return (number % 101 * 31 + part * 17) % 101


def source(number):
    lines = [HEADING]
    lines += [PART.format(part=part, addend=addend(number, part)) for part in range(40)]
    lines.append("total = 0\n")
    for part in range(40):
        lines.append(f"total = total + part{part}()\n")
        if part % 10 == 9:
            lines.append(f"print({part + 1}, total)\n")
    return "".join(lines)


def main(words):
    if words[:1] == ["--digest"]:
        text = source(int(words[1])).encode()
        print(len(text), sum(place * byte for place, byte in enumerate(text, 1)))
    else:
        sys.stdout.write(source(int(words[0])))


main(sys.argv[1:])
