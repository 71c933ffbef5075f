#!/usr/bin/env python3
"""Writes crates/pyd_value_tests/src/value/pairs.rt: values, and what CPython says of each pair of them.

Run by hand at the top of the repository: python3 tools/value_pairs.py > crates/pyd_value_tests/src/value/pairs.rt
Equality, order and truth are CPython's. Size and nesting are the profile's own (docs/LANGUAGE.md).
"""

INTS = [0, 1, -1, 2, 2**127 - 2, 2**127 - 1, -(2**127), -(2**127) + 1]
TEXTS = ["", "a", "b", "aa", "ab", "A", "e", "\u00e9", "\x7f", "\x80",
         "\ud7ff", "\ue000", "\uffff", "\U00010000", "\U0010ffff"]
TUPLES = [(), (0,), (False,), (1,), (True,), (2,), (1, 0), (1, 2), (1, None), (0, None), (None,),
          (None, 1), (None, 2), ((),), ((), ()), ((1,),), ((True,),), ((1,), 2), ("a",), ("b",),
          ("a", 1), (1, "a"), ("",), (((),),), ((((),),),)]
VALUES = [None, False, True] + INTS + TEXTS + TUPLES
WORDS = ["", "a", "Bob", "\x00~", "\x7f", "\x80", "h\u00e9", "\u65e5\u672c", "a\U00010000b"]
# each member of a tuple is itself a value that stands before it


def answer(a, b):
    """The mark of a pair: what `==` says, and then what `<` says, if anything."""
    try:
        order = a < b
    except TypeError:
        return "~" if a == b else "."
    return {(True, False): "=", (False, True): "<", (False, False): ">"}[(a == b, order)]


def size(value):
    if isinstance(value, str):
        return 1 + len(value.encode())
    return 1 + sum(map(size, value)) if isinstance(value, tuple) else 1


def nesting(value):
    return 1 + max(map(nesting, value), default=0) if isinstance(value, tuple) else 0


def place(member):
    """Where a member stands in the table: the same value of the same type."""
    return next(i for i, value in enumerate(VALUES) if repr(value) == repr(member))


def literal(text):
    return '"' + "".join(c if " " < c < "\x7f" else "\\u{%x}" % ord(c) for c in text) + '"'


def table(name, kind, rows):
    print(f"\npub(crate) const {name}: [{kind}; {len(rows)}] = [")
    for row, note in rows:
        print(f"    {row}," + (f" // {note}" if note else ""))
    print("];")


print("//! Values, and what CPython says of each pair of them. Written by tools/value_pairs.py.")
print("//!")
print("//! The values stand in this order: `None`, `False`, `True`, the integers, the texts, the tuples.")
table("INTS", "i128", [(str(n), "") for n in INTS])
table("TEXTS", "&str", [(literal(text), "") for text in TEXTS])
print("\n// The places of the members of each tuple.", end="")
table("TUPLES", "&[usize]", [(f"&{[place(m) for m in t]}", repr(t)) for t in TUPLES])
print("\n// Truth, size and nesting of each value.", end="")
table("MEASURES", "(bool, u64, u32)",
      [(f"({str(bool(v)).lower()}, {size(v)}, {nesting(v)})", ascii(v)) for v in VALUES])
print("\n// Of each value with each: `=` equal, `<` less, `>` neither, `.` unequal with no order, `~` equal with no order.", end="")
table("ANSWERS", "&str", [('"' + "".join(answer(a, b) for b in VALUES) + '"', "") for a in VALUES])
print("\n// Texts, with whether they are ASCII, and their characters.", end="")
table("WORDS", "(&str, bool, &[u32])",
      [(f"({literal(word)}, {str(word.isascii()).lower()}, &{[ord(c) for c in word]})", "") for word in WORDS])
