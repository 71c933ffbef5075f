#!/usr/bin/env python3
"""Writes crates/pyd_ops_tests/src/text/rows.rt: values, texts and calls, and what CPython answers.

Run by hand at the top of the repository: python3 tools/text_rows.py
The answers are CPython's. Those that the profile narrows are marked by the limit that they pass: a
text for `int` with a byte outside 0x20 to 0x7E, and an integer outside 128 bits. No text has a
character whose category changed between the Unicode of CPython and the project's: tools/repr_points.py
lists these.
"""

GREATEST = 2**127
SIMPLE = [None, False, True, 0, 1, -1, 7, -10, 10**20, GREATEST - 1, -GREATEST]
QUOTES = ["", "a", "ab", "'", '"', "''", '""', "'\"", "\"'", "a'b", 'a"b', "a'b\"", "it's", 'say "a"', "'a\"b'",
          "\\", "\\'", '\\"', "\\'\"", "\\\\", "a\\b", "\\n", "\\x41", "'\\", "`"]
ESCAPES = ["\n", "\r", "\t", "\n\r\t", "a\nb", "\r\n", "\ta", "'\n", "\"\t'", " ", "  ", " a ", "a b"]
CONTROLS = ["\x00", "\x01", "\x07", "\x08", "\x0b", "\x0c", "\x1b", "\x1f", "\x7e", "\x7f", "\x80", "\x85", "\x9f",
            "\xa0", "\xa1", "\xac", "\xad", "\xae", "\xff", "\x00\x01", "\x1f\x20\x21"]
SEPARATORS = ["\u1680", "\u2000", "\u200a", "\u200b", "\u2010", "\u2027", "\u2028", "\u2029", "\u202e", "\u202f",
              "\u205f", "\u2060", "\u2070", "\u3000", "\u3001", "\ufeff", "\ufff9", "\ufffc"]
SCRIPTS = ["\u0100", "\u03b1\u03b2", "\u0301", "e\u0301", "\u05d0", "\u0600", "\u0660", "\u4e2d\u6587", "\uac00",
           "\u00e9'", "\u00e9\"'"]
UNASSIGNED = ["\u0378", "\u0530", "\u2fe0", "\ud7a4", "\ud7ff", "\ue000", "\uf8ff", "\ufdd0", "\ufffe", "\uffff",
              "\ufffd"]
ASTRAL = ["\U00010000", "\U0001000c", "\U0001d400", "\U0001f4a9", "\U0001f600\U0001f601", "\U0001ffff", "\U0002a6d6",
          "\U0003fffe", "\U000e0001", "\U000e0100", "\U000f0000", "\U0010fffd", "\U0010fffe", "\U0010ffff",
          "a\U0010ffffb\u0378c\x7fd"]
TEXTS = QUOTES + ESCAPES + CONTROLS + SEPARATORS + SCRIPTS + UNASSIGNED + ASTRAL
TUPLES = [(), (1,), (1, 2), (None,), (True, False), ("a",), ("a'b", 'c"d'), ("\n",), ((),), ((1,), ()), ((1, 2), (3,), "x"),
          (-1, "", (None, ("\u3000",)))]
DEEP = ()
for _ in range(99):
    DEEP = (DEEP,)
NUMERALS = ["", " ", "0", "7", "007", "-0", "+0", "-7", "+7", " -1_0 ", "- 1", "+ 1", "--1", "+-1", "-+1", "-", "+", "_", "_1", "1_",
            "1__0", "1_0", "1_0_0", "-_1", "-1_", "+1_0", "1 0", " 1", "1 ", "  1  ", "5\n", "\n5", "5\t", "\x7f5", "\u0665",
            "5\u00a0", "1\u00e9", "a", "1a", "a1", "0x10", "0b1", "1.0", "1e3", "True", "None", "0_0", "00_1", "-0_0", "~", "1~",
            str(GREATEST - 1), str(GREATEST), str(-GREATEST), str(-GREATEST - 1), "0" * 60 + "1", "9" * 60, "-" + "9" * 60,
            "9" * 60 + "a", "9" * 60 + "_", "1_" + "0" * 38, "1_" + "0" * 39]
PRINTED = [(None,), (), ("",), ("", ""), ("a",), (1, "a"), ("a", 1, True, None), ("a'b", ("a'b",)), ((), (1,)), (" ", " "),
           ("\u00e9", -1, ((1, 2), "x"))]


def word(value):
    """A value as a word: an integer, None, False or True, the code points of a text behind a quote, the
    places of a tuple's members behind a bracket, or behind `#` how deep the empty tuple nests."""
    if value == DEEP and isinstance(value, tuple):
        return "#100"
    if isinstance(value, str):
        return "'" + ".".join("%x" % ord(c) for c in value)
    if isinstance(value, tuple):
        return "(" + ",".join(str(place(member)) for member in value)
    return str(value)


values = []


def place(value):
    """Where a value stands in the table, its members before it."""
    if value is not DEEP:
        for member in value if isinstance(value, tuple) else ():
            place(member)
    if repr(value) not in [repr(v) for v in values]:
        values.append(value)
    return [repr(v) for v in values].index(repr(value))


def integer(text):
    """What `int` gives, or the letter of a fault: V for ValueError, O for Outside, L for IntLimit."""
    if any(not 0x20 <= byte <= 0x7e for byte in text.encode()):
        return "O"
    try:
        n = int(text)
    except ValueError:
        return "V"
    return str(n) if -GREATEST <= n < GREATEST else "L"


def escaped(text):
    """A text as it stands in a literal of the test."""
    return "".join("\\" + c if c in '\\"' else c if " " <= c < "\x7f" else "\\u{%x}" % ord(c) for c in text)


for v in SIMPLE + TEXTS + TUPLES + [DEEP] + [a for args in PRINTED for a in args]:
    place(v)
assert len([v for v in values if isinstance(v, str)]) >= 100
lines = ["//! Values, texts and lines, and what CPython answers. Written by tools/text_rows.py.", ""]


def table(name, about, rows):
    lines.extend("/// " + line for line in about)
    lines.append("pub(crate) const %s: &str = \"\\" % name)
    lines.extend(rows)
    lines[-1] = lines[-1].removesuffix("|\\") + '";'
    lines.append("")


table("REPRS", ["Values, each of which has a place, counted from 0, and the `repr` of each: an integer, None, False or",
                "True, the code points of a text behind a quote, the places of a tuple's members behind a bracket, or",
                "behind `#` how deep the empty tuple nests."],
      ["%s = %s" % (word(v), escaped(repr(v))) for v in values])
table("INTEGERS", ["Integers or letters of faults, and texts of which `int` gives these, divided by bars."],
      ["%s=%s|\\" % (integer(text), escaped(text)) for text in NUMERALS])
table("LINES", ["Places of arguments, and the line that `print` makes of them."],
      ["%s = %s" % (",".join(str(place(a)) for a in args), escaped(" ".join(map(str, args)))) for args in PRINTED])
with open("crates/pyd_ops_tests/src/text/rows.rt", "w", encoding="utf-8") as out:
    out.write("\n".join(lines[:-1]) + "\n")
