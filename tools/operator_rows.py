#!/usr/bin/env python3
"""Writes crates/pyd_ops_tests/src/ops/rows.rt and the files of rows/: operations, and what CPython answers.

Run by hand at the top of the repository: python3 tools/operator_rows.py
Every operation is asked of every pair of operands. The answers are CPython's; those that the profile
narrows are marked by the limit that they pass, and what CPython can't hold or never ends isn't asked.
"""
import operator

OPERANDS = [None, False, True, 0, 1, -1, 2, 7, -7, 2**127 - 1, -(2**127), "", "ab", "b\u00e9\U00010000",
            (), (1,), (1, 2), (True, "a")]
BOUNDS = [None, True, 0, 1, 2, -1, -2, -9, 2**127 - 1, -(2**127), "a"]
BINARY = [("Add", operator.add), ("Sub", operator.sub), ("Mul", operator.mul), ("Div", operator.floordiv),
          ("Mod", operator.mod), ("Pow", operator.pow), ("Shl", operator.lshift), ("Shr", operator.rshift),
          ("And", operator.and_), ("Or", operator.or_), ("Xor", operator.xor)]
COMPARE = [("Eq", operator.eq), ("Ne", operator.ne), ("Lt", operator.lt), ("Le", operator.le),
           ("Gt", operator.gt), ("Ge", operator.ge), ("In", lambda a, b: a in b),
           ("NotIn", lambda a, b: a not in b)]
UNARY = [("Neg", operator.neg), ("Pos", operator.pos), ("Not", operator.not_)]
CALLS = [("Len", len), ("Abs", abs), ("Min", min), ("Max", max), ("Sum", sum), ("Bool", bool)]
LISTS = [(), (3, 1, 2), (1, True), (True, 1), (2, 1, True), (2, 2**127 - 1, 3), (2**126, 2**126, -1),
         (-1, 2**126, 2**126), ((1,), (2,)), ("b", "a"), (1, "a"), (None, None), (None,), ((1, "a"), (1, 2)), ((1, 2), (1,)),
         (True, True, True), ((), (3,), ()), "hello", "ba"]
FAULTS = [(TypeError, "T"), (ValueError, "V"), (IndexError, "I"), (ZeroDivisionError, "Z")]
GREATEST = 2**127
values = []


class Mark(str):
    """The letter of a fault, or `-` where nothing is asked."""


def place(value):
    """Where a value stands in the table: the same value of the same type, its members before it."""
    for member in value if isinstance(value, tuple) else ():
        place(member)
    if repr(value) not in [repr(v) for v in values]:
        values.append(value)
    return value


def asks_too_much(name, a, b):
    """Whether the answer would never come, or is one that the profile gives and CPython doesn't."""
    large = [n for n in (a, b) if isinstance(n, int) and abs(n) > 10**6]
    return name in ("Pow", "Shl", "Shr") and isinstance(b, int) and abs(b) > 10**6 or (
        name == "Mul" and large and any(isinstance(n, (str, tuple)) for n in (a, b)))


def answer(ask, *args):
    """The mark of an answer: a value, or the letter of a fault."""
    try:
        value = ask(*args)
    except tuple(kind for kind, _ in FAULTS) as fault:
        return Mark(next(mark for kind, mark in FAULTS if isinstance(fault, kind)))
    if isinstance(value, float):
        return Mark("O")
    if isinstance(value, int) and not -GREATEST <= value < GREATEST:
        return Mark("L")
    return place(value)


def binary(name, ask, a, b):
    if asks_too_much(name, a, b):
        return Mark("-")
    if name == "Mod" and isinstance(a, str):
        return Mark("O")
    return answer(ask, a, b)


def summed(items, start=0):
    """A sum whose every step has its limits."""
    if isinstance(start, str):
        raise TypeError
    for item in items:
        start = start + item
        if isinstance(start, int) and not -GREATEST <= start < GREATEST:
            return GREATEST
    return start


def call(name, ask, args):
    return answer(summed if name == "Sum" else ask, *args)


def item_at(items, t):
    """Item number t of a text or tuple, counted from 0."""
    if not isinstance(items, (str, tuple)) or t < 0:
        raise IndexError
    return items[t]


def items(a):
    """The characters of a text or the members of a tuple."""
    if not isinstance(a, (str, tuple)):
        raise TypeError
    return tuple(a)


for value in [None, False, True] + OPERANDS + BOUNDS + LISTS:
    place(value)
PAIRS = [(a, b) for a in OPERANDS for b in OPERANDS]
SINGLES = [(a,) for a in OPERANDS + LISTS]
SLICED = ["hello", "b\u00e9\U00010000", (1, 2), (), 7]
SLICES = [(s, x, y) for s in SLICED for x in BOUNDS for y in BOUNDS]
ITEMS = [(a, t) for a in OPERANDS + LISTS for t in range(6)]
asked = [(name, args, answer(ask, *args)) for name, ask in UNARY for args in SINGLES]
asked += [(name, args, binary(name, ask, *args)) for name, ask in BINARY for args in PAIRS]
asked += [(name, args, answer(ask, *args)) for name, ask in COMPARE for args in PAIRS]
asked += [("Index", args, answer(operator.getitem, *args)) for args in PAIRS]
asked += [("Slice", args, answer(lambda s, x, y: s[x:y], *args)) for args in SLICES]
asked += [(name, args, call(name, ask, args)) for name, ask in CALLS for args in SINGLES]
asked += [(name, args, call(name, ask, args)) for name, ask in CALLS[2:5] for args in PAIRS]
asked += [("Items", args, answer(items, *args)) for args in SINGLES]
asked += [("ItemAt", args, answer(item_at, *args)) for args in ITEMS]
asked = [row for row in asked if row[2] != "-"]
for _, args, _ in asked:
    for value in args:
        place(value)

tuples = sorted((v for v in values if type(v) is tuple), key=lambda v: (str(v).count("("), values.index(v)))
values = [v for v in values if type(v) is not tuple] + tuples
places = {repr(v): at for at, v in enumerate(values)}


def at(value):
    return str(places[repr(value)])


def word(value):
    """A value as a word: an integer, None, False or True, a text behind a quote, members' places behind a bracket."""
    if isinstance(value, str):
        return "'" + "".join(c if " " < c < "\x7f" else "\\u{%x}" % ord(c) for c in value)
    if isinstance(value, tuple):
        return "(" + ",".join(map(at, value))
    return str(value)


def entry(args, answered):
    return ",".join(map(at, args)) + ":" + (answered if isinstance(answered, Mark) else at(answered))


def lines(names):
    """A line for each of these operations and each first operand."""
    rows = {}
    for name, args, answered in asked:
        if name in names:
            rows.setdefault((name, at(args[0]) if len(args) > 1 else ""), []).append(entry(args, answered))
    return [" ".join([name] + entries) for (name, _), entries in rows.items()]


TOPICS = [("arithmetic", "Signs, arithmetic, shifts and bits", [name for name, _ in UNARY + BINARY]),
          ("calls", "Calls of builtin functions", [name for name, _ in CALLS]),
          ("comparisons", "Comparisons and memberships", [name for name, _ in COMPARE]),
          ("parts", "Indexing, slices and items", ["Index", "Slice", "Items", "ItemAt"])]
FOLDER = "crates/pyd_ops_tests/src/ops/"

for topic, title, names in TOPICS:
    with open(f"{FOLDER}rows/{topic}.rt", "w") as file:
        file.write(f"""//! {title}, and what CPython answers. Written by tools/operator_rows.py.

/// An operation, and then the places of its operands with the place of its value or the letter of its
/// fault, over and over.
pub(crate) const ANSWERS: &str = "\\
{chr(10).join(lines(names))}
";
""")
with open(f"{FOLDER}rows.rt", "w") as file:
    file.write(f"""//! The operands of the rows, and the rows by topic. Written by tools/operator_rows.py.

{chr(10).join(f"mod {topic};" for topic, _, _ in TOPICS)}

/// Values, each of which has a place, counted from 0: an integer, None, False or True, a text behind a
/// quote, or a tuple as the places of its members behind a bracket.
pub(crate) const VALUES: &str = "\\
{chr(10).join(map(word, values))}
";

/// How many answers there are.
pub(crate) const ASKED: usize = {len(asked)};

/// The answers, topic by topic.
pub(crate) const TOPICS: [&str; {len(TOPICS)}] = [
{chr(10).join(f"    {topic}::ANSWERS," for topic, _, _ in TOPICS)}
];
""")
