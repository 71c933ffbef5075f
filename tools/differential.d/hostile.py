"""Parts of scripts that stand at the profile's limits and at those of an evaluator, and refused scripts.

A part is definitions and statements of the module. Each stands behind a random script, so that its lines are
far from the first.
"""
from evaluator import DEPTH, TURNS
from operations import DEEPEST, LARGEST

MARKS = ["", "@schedule\n", "@functional\n", "@schedule\n@functional\n"]


def brackets(random):
    count = random.choice([20, 60, 90])
    return "", [f"print({'(' * count}{random.choice(['7', '1 + 2', '()'])}{')' * count})"]


def nested(random):
    """An expression as deep as is allowed: 24 in the call of `print`."""
    form, count = random.randrange(6), 22
    text = "deep_0"
    for _ in range(count):
        text = [f"-{text}", f"({text},)", f"(not {text})", f"abs({text})", f"(1 + {text})", f"({text} if 1 else 2)"][form]
    return "", ["deep_0 = 3", f"print({text})"]


def suites(random):
    """Suites as deep as is allowed."""
    count = random.randrange(12, 23)
    headers = ["if 1:", "for i_0 in (0, 1)[1:]:", "for c_0 in 'x':", "if 0:\n{}pass\n{}elif 1:"]
    words = [random.choice(headers) for _ in range(count)]
    lines = [" " * level + word.replace("{}pass", " " * (level + 1) + "pass").replace("{}", " " * level)
             for level, word in enumerate(words)]
    return "", ["\n".join(lines + [" " * count + "print('deep')"])]


def chain(random):
    count = random.choice([100, 400, 900])
    signs = random.choice([[" + "], [" - "], [" + ", " - "], [" & "], [" ^ ", ], [" // ", " % "], ["*"]])
    operands = ["3", "1", "(2)", "True"] if signs != ["*"] else ["1", "-1", "True"]
    text = "long_0"
    for _ in range(count):
        text += random.choice(signs) + random.choice(operands)
    return "", ["long_0 = 2 ** 70", f"print({text})"]


def logic(random):
    count = random.choice([100, 1_000])
    word, operand = random.choice([(" and ", "1"), (" or ", "()"), (" < ", None), (" == ", "0"), (" <= ", "0")])
    operands = [operand or str(at) for at in range(count)]
    operands[random.randrange(count)] = random.choice(["0", "9", "''", "None", "missing"])
    return "", [f"print({word.join(operands)})"]


def suffixes(random):
    count = random.choice([30, 200])
    text = random.choice(["[:]", "[0]", "[0:]", "[-1]", "[None:9]"]) * count
    return "", [f"print('abc'{text})"]


def long_text(random):
    """A text that doubles until it is near the limit of sizes, or past it."""
    least = random.choice([0, 1, 2])
    letters = [("a", 1), ("\u00e9", 2), ("\u4e2d", 3), ("\U0001f40d", 4), ("\\'", 1), ("\\n", 1)]
    letter, wide = random.choice(letters)
    count = (LARGEST - 1) // wide
    return "", [f'near = "{letter}" * {count - least + 1}', "print(len(near))", "near += 'b'",
                "print(len(near), near[-1:])", "print(len(repr(near)))", "print(len(str((near, near))))"]


def doubling(random):
    start = random.choice(["'a'", "'\u00e9b'", "(1,)", "(1, (2, 'x'))", "((), ())"])
    return "", [f"twice = {start}", "while True:\n    twice = twice + twice\n    print(len(twice))"]


def repeats(random):
    """Repeats near the limit, also with counts that CPython's sequences can't have."""
    count = LARGEST + random.choice([-2, -1, 0, 1])
    items = random.choice(["(0,)", "(None,)", "'a'"])
    return "", [f"print(len({items} * {count}))", f"print(len(((1, 2),) * {count // 3}))"]


def long_line(random):
    """A line of output near the limit, which no value of the script passes."""
    count = (LARGEST - 2) // 2 + random.choice([-1, 0, 1])
    return "", [f'half = "a" * {count}', "print(half, half)", "print('after')"]


def deep_tuple(random):
    turns = DEEPEST + random.choice([-1, 0, 1, 30])
    step = random.choice(["nest = (nest,)", "nest = (0, nest, 'x')", "nest = () + (nest,)", "nest = (nest,) * 1"])
    return "", ["nest = ()", f"for i_0 in range({turns}):\n    {step}", "print(len(repr(nest)), nest == (nest,))"]


def large_number(random):
    """A number that a loop makes larger until it passes the limit, or comes close."""
    start, step = random.choice([("1", "*= 2"), ("-1", "*= 2"), ("1", "*= -2"), ("3", "**= 2"), ("1", "<<= 7"),
                                 ("-1", "<<= 1"), ("7", "= big * 31 + 5"), ("0", "= big * 2 + 1"), ("0", "= big * 2 - 1")])
    count = random.choice([5, 126, 127, 128, 200])
    return "", [f"big = {start}", f"for i_0 in range({count}):\n    big {step}", "print(big)"]


def turns(random):
    """A loop near the limit of turns."""
    count = TURNS + random.choice([-1, 0, 1])
    form = random.choice([
        f"for i_0 in range({count}):\n    pass",
        f"while k_0 < {count}:\n    k_0 += 1",
        f"while k_0 < {count}:\n    k_0 += 1\n    if k_0 == {TURNS}:\n        break",
        f"while True:\n    k_0 += 1\n    if k_0 == {count}:\n        break",
        f"for i_0 in (0,) * {count}:\n    k_0 += i_0",
        f"for c_0 in 'ab' * {count // 2 + 1}:\n    continue",
        "for i_0 in range(2 ** 100):\n    if i_0 == 99:\n        break",
        f"for i_0 in range(5):\n    for j_0 in range({count // 10}):\n        k_0 += 1",
    ])
    return "", ["k_0 = 0", form, "print(k_0)"]


def long_output(random):
    count = random.choice([1_000, 20_000])
    value = random.choice(["-i_0", "'text'", "(i_0,)", "i_0 * i_0"])
    return "", [f"for i_0 in range({count}):\n    print(i_0, {value})"]


def recursion(random):
    """Calls near the limit of depth. What raises at the deepest place comes after the arguments."""
    mark = random.choice(MARKS)
    depth = DEPTH + random.choice([-2, -1, 0, 1])
    body = random.choice(["return 1 + deep_f(n - 1)", "x = deep_f(n - 1)\n    return x + n",
                          "return n and deep_f(n - 1) or 7", "return deep_f(n - 1) if n % 2 else deep_f(n - 1)"])
    shown = "" if "functional" in mark else "    print('at', n)\n"
    definition = f"{mark}def deep_f(n):\n{shown}    if n <= 1:\n        return 0\n    {body}\n"
    return definition, [f"print(deep_f({depth}))"]


def descent(random):
    """Without a bound: the limit comes, or a fault of the arguments before it."""
    mark = random.choice(MARKS)
    argument = random.choice(["n + 1", f"n + 1 // ({DEPTH} - n)", "n + 1, n", f"(1, 2)[n > {DEPTH - 1}:][0] + n"])
    return f"{mark}def down_f(n):\n    return down_f({argument})\n", ["print(down_f(1))"]


def many_locals(random):
    count = random.choice([50, 300])
    lines = [f"    v{at} = {f'v{at - 1} + 1' if at else 'n'}" for at in range(count)]
    return "def wide_f(n):\n" + "\n".join(lines) + f"\n    return v{count - 1}\n", ["print(wide_f(5), wide_f(True))"]


def many_arguments(random):
    count = random.choice([30, 200])
    names = ", ".join(f"p{at}" for at in range(count))
    values = ", ".join(str(at) for at in range(count - random.choice([0, 0, 1])))
    return f"def many_f({names}):\n    return (p0, p{count - 1})\n", [f"print(many_f({values}))", f"print(len(({values})))"]


def wide_counts(random):
    """Counts that CPython answers with OverflowError or not at all."""
    text = random.choice(["'a' * 2 ** 100", "1 << 2 ** 100", "2 ** 2 ** 100", "-1 >> 2 ** 100", "0 << 2 ** 100",
                          "'' * 2 ** 100", "() * 2 ** 100", "'a' * -2 ** 100", "1 ** 2 ** 100", "(-1) ** (2 ** 100 + 1)",
                          "(1,) * 2 ** 126"])
    return "", [f"print({text})"]


HOSTILE = [brackets, nested, suites, chain, logic, suffixes, long_text, doubling, repeats, long_line,
           deep_tuple, large_number,
           turns, turns, turns, long_output, recursion, recursion, descent, many_locals, many_arguments, wide_counts]

# a refusal, the lines that break its rule behind an accepted script, and the place of the faulty line in them
REFUSED = [
    ("ReturnOutside", ["return 1"], 0), ("BreakOutside", ["if 1:", "    break"], 1), ("BreakOutside", ["continue"], 0),
    ("LateDef", ["print(1)", "def late(n):", "    return n"], 1), ("FunctionValue", ["x_7 = len"], 0),
    ("FunctionValue", ["x_7 = range(3)"], 0), ("CallOfVariable", ["x_7 = 1 + 1", "x_7(2)"], 1), ("Rebind", ["len = 3"], 0),
    ("Rebind", ["for __name__ in 'a':", "    pass"], 0), ("Target", ["f_7() = 1"], 0), ("Target", ["(1, 2) = 3, 4"], 0),
    ("Syntax", ["print(1 2)"], 0), ("Syntax", ["x_7 = "], 0), ("Syntax", ["x_7 = y_7 = 1"], 0),
    ("BadNumber", ["x_7 = 012"], 0),
    ("BadString", ["x_7 = 'a\\d'"], 0), ("BadChar", ["x_7 = 1 $ 2"], 0), ("WideNumber", [f"x_7 = {2**127}"], 0),
    ("Tab", ["if 1:", "\tx_7 = 1"], 1), ("BadDedent", ["if 1:", "    x_7 = 1", "  x_7 = 2"], 2),
    ("Deep", ["x_7 = " + "-" * 25 + "1"], 0), ("BadName", ["\ufb01_7 = 1"], 0),
]
