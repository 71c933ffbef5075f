"""Operators, builtin functions and texts of the profile, over Python's own int, bool, str, tuple and None.

Written from the profile's rules, so that it doesn't lean on what CPython does: each operation looks at
the kinds, then at the named faults, and at last at the limits.
"""
import re
import unicodedata

LEAST, GREATEST = -(2**127), 2**127 - 1
LARGEST, DEEPEST = 1_048_576, 100
LIMITS = ("TurnLimit", "DepthLimit", "IntLimit", "SizeLimit", "Outside")
DIGITS = re.compile(r"([+-]?)([0-9]+(?:_[0-9]+)*)")
ESCAPES = {"\n": "\\n", "\r": "\\r", "\t": "\\t"}


class Fault(Exception):
    """An exception of the profile or a limit fault, with its line once that is known."""

    def __init__(self, name):
        super().__init__(name)
        self.name, self.line = name, None


def require(holds, name):
    if not holds:
        raise Fault(name)


def is_number(a):
    return type(a) in (int, bool)


def is_sequence(a):
    return type(a) in (str, tuple)


# sizes and limits

def size(a):
    if type(a) is str:
        return 1 + len(a.encode())
    return 1 + sum(map(size, a)) if type(a) is tuple else 1


def nesting(a):
    return 1 + max(map(nesting, a), default=0) if type(a) is tuple else 0


def integer(a):
    """An integer result within its limit."""
    require(LEAST <= a <= GREATEST, "IntLimit")
    return int(a)


def sized(a):
    """A text or tuple within its limits."""
    require(nesting(a) <= DEEPEST and size(a) <= LARGEST, "SizeLimit")
    return a


# operators

def add(a, b):
    if is_number(a) and is_number(b):
        return integer(a + b)
    require(is_sequence(a) and type(a) is type(b), "TypeError")
    return sized(a + b)


def multiply(a, b):
    if is_number(a) and is_number(b):
        return integer(int(a) * int(b))
    items, count = (a, b) if is_sequence(a) else (b, a)
    require(is_sequence(items) and is_number(count), "TypeError")
    if count < 1 or not items:
        return items[:0]
    require(count * (size(items) - 1) < LARGEST, "SizeLimit")
    return items * count


def on_numbers(operation):
    """An operation for which both operands must be numbers."""
    def checked(a, b):
        require(is_number(a) and is_number(b), "TypeError")
        return operation(a, b)
    return checked


def divide(a, b):
    require(b != 0, "ZeroDivisionError")
    return integer(a // b)


def remainder(a, b):
    if type(a) is str:
        raise Fault("Outside")
    require(is_number(a) and is_number(b), "TypeError")
    require(b != 0, "ZeroDivisionError")
    return integer(a - a // b * b)


def power(a, b):
    if b < 0:
        raise Fault("ZeroDivisionError" if a == 0 else "Outside")
    if abs(a) <= 1:
        return integer(1 if b == 0 else a if b % 2 else a * a)
    require(b <= 127, "IntLimit")
    return integer(a**b)


def shift_left(a, b):
    require(b >= 0, "ValueError")
    if a == 0:
        return 0
    require(b <= 127, "IntLimit")
    return integer(a * 2**b)


def shift_right(a, b):
    require(b >= 0, "ValueError")
    return integer(a // 2 ** min(b, 200))


def bitwise(operation):
    def checked(a, b):
        value = operation(int(a), int(b))
        return value == 1 if type(a) is bool and type(b) is bool else value
    return on_numbers(checked)


BINARY = {
    "Add": add,
    "Sub": on_numbers(lambda a, b: integer(a - b)),
    "Mult": multiply,
    "FloorDiv": on_numbers(divide),
    "Mod": remainder,
    "Pow": on_numbers(power),
    "LShift": on_numbers(shift_left),
    "RShift": on_numbers(shift_right),
    "BitAnd": bitwise(lambda a, b: a & b),
    "BitOr": bitwise(lambda a, b: a | b),
    "BitXor": bitwise(lambda a, b: a ^ b),
}


def negative(a):
    require(is_number(a), "TypeError")
    return integer(-a)


def positive(a):
    require(is_number(a), "TypeError")
    return int(a)


def truth(a):
    return not (a is None or is_number(a) and a == 0 or is_sequence(a) and len(a) == 0)


UNARY = {"USub": negative, "UAdd": positive, "Not": lambda a: not truth(a)}


# comparisons

def equal(a, b):
    if is_number(a) and is_number(b):
        return int(a) == int(b)
    if type(a) is not type(b):
        return False
    if type(a) is tuple:
        return len(a) == len(b) and all(map(equal, a, b))
    return a is None or a == b


def ordered(before):
    """A comparison by order, from what it says of two numbers or two texts."""
    def compare(a, b):
        if is_number(a) and is_number(b):
            return before(int(a), int(b))
        require(is_sequence(a) and type(a) is type(b), "TypeError")
        if type(a) is str:
            return before([ord(c) for c in a], [ord(c) for c in b])
        for x, y in zip(a, b):
            if not equal(x, y):
                return compare(x, y)
        return before(len(a), len(b))
    return compare


def contains(b, a):
    if type(b) is tuple:
        return any(equal(member, a) for member in b)
    require(type(a) is str and type(b) is str, "TypeError")
    return any(b[at : at + len(a)] == a for at in range(len(b) - len(a) + 1))


COMPARE = {
    "Eq": equal,
    "NotEq": lambda a, b: not equal(a, b),
    "Lt": ordered(lambda a, b: a < b),
    "LtE": ordered(lambda a, b: a <= b),
    "Gt": ordered(lambda a, b: a > b),
    "GtE": ordered(lambda a, b: a >= b),
    "In": lambda a, b: contains(b, a),
    "NotIn": lambda a, b: not contains(b, a),
}


# indexes and slices

def index(a, at):
    require(is_sequence(a) and is_number(at), "TypeError")
    place = int(at) + (len(a) if at < 0 else 0)
    require(0 <= place < len(a), "IndexError")
    return a[place]


def slice_of(a, low, high):
    require(is_sequence(a), "TypeError")
    bounds = []
    for bound, missing in ((low, 0), (high, len(a))):
        require(bound is None or is_number(bound), "TypeError")
        place = missing if bound is None else int(bound)
        bounds.append(min(max(place + len(a) if place < 0 else place, 0), len(a)))
    return a[bounds[0] : bounds[1]]


# texts of values

def repr_of(a):
    if type(a) is tuple:
        members = [repr_of(member) for member in a]
        return "(" + ", ".join(members) + ("," if len(members) == 1 else "") + ")"
    if type(a) is not str:
        return str(a)
    quote = '"' if "'" in a and '"' not in a else "'"
    return quote + "".join(escaped(c, quote) for c in a) + quote


def escaped(c, quote):
    if c in ("\\", quote):
        return "\\" + c
    if c in ESCAPES:
        return ESCAPES[c]
    if c != " " and unicodedata.category(c)[0] in "CZ":
        code = ord(c)
        return f"\\x{code:02x}" if code < 0x100 else f"\\u{code:04x}" if code < 0x10000 else f"\\U{code:08x}"
    return c


def str_of(a):
    return a if type(a) is str else repr_of(a)


def line_of(arguments):
    """The text of a `print`, without its line end."""
    return sized(" ".join(map(str_of, arguments)))


def int_of(a):
    if is_number(a):
        return int(a)
    require(type(a) is str, "TypeError")
    require(all(" " <= c <= "~" for c in a), "Outside")
    digits = DIGITS.fullmatch(a.strip(" "))
    require(digits, "ValueError")
    value = 0
    for digit in digits.group(2).replace("_", ""):
        value = min(value * 10 + ord(digit) - ord("0"), 2**128)
    return integer(-value if digits.group(1) == "-" else value)


# builtin functions

def length(a):
    require(is_sequence(a), "TypeError")
    return len(a)


def absolute(a):
    require(is_number(a), "TypeError")
    return integer(abs(a))


def extreme(replaces):
    """`min` or `max`, from when a later candidate replaces an earlier one."""
    def found(*arguments):
        require(arguments, "TypeError")
        candidates = arguments
        if len(arguments) == 1:
            require(is_sequence(arguments[0]), "TypeError")
            candidates = tuple(arguments[0])
            require(candidates, "ValueError")
        best = candidates[0]
        for candidate in candidates[1:]:
            if COMPARE[replaces](candidate, best):
                best = candidate
        return best
    return found


def total(items, start=0):
    require(is_sequence(items) and type(start) is not str, "TypeError")
    for item in items:
        start = add(start, item)
    return start


def int_call(*arguments):
    require(len(arguments) < 2, "Outside")
    return int_of(*arguments) if arguments else 0


def span(*bounds):
    """The numbers of a `range`, none of which is made before it is wanted."""
    require(all(map(is_number, bounds)), "TypeError")
    first, end, step = (0, bounds[0], 1) if len(bounds) == 1 else (*bounds, 1)[:3]
    require(step != 0, "ValueError")
    return range(int(first), int(end), int(step))


# each builtin function but `print`, with the counts of arguments that it takes; None for any count
BUILTINS = {
    "len": (length, (1,)),
    "abs": (absolute, (1,)),
    "min": (extreme("Lt"), None),
    "max": (extreme("Gt"), None),
    "sum": (total, (1, 2)),
    "str": (lambda *a: sized(str_of(*a)) if a else "", (0, 1)),
    "repr": (lambda a: sized(repr_of(a)), (1,)),
    "int": (int_call, (0, 1, 2)),
    "bool": (lambda *a: truth(*a) if a else False, (0, 1)),
    "range": (span, (1, 2, 3)),
}


def builtin(name, arguments):
    function, counts = BUILTINS[name]
    require(counts is None or len(arguments) in counts, "TypeError")
    return function(*arguments)
