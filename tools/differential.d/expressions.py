"""Random expressions of the profile, by what they give: a number, a truth value, a text, or a tuple.

A piece carries its level in the grammar, so that brackets stand where they are needed and now and then where
they aren't, and how many bits its number may have, so that most scripts stay within 128. Where `wild` is above
0, an expression is now and then one that raises, or that is of another kind.
"""
from typing import NamedTuple

(TEST, OR, AND, NOT, COMPARE, BIT_OR, XOR, BIT_AND, SHIFT, SUM, TERM, FACTOR, POWER, ATOM) = range(14)
NUMBER, TRUTH, TEXT, NUMBERS, WORDS, PAIR, ROWS, COUNT = "number truth text numbers words pair rows count".split()
KINDS = (NUMBER, TRUTH, TEXT, NUMBERS, WORDS, PAIR, ROWS)
VARIABLE_BITS, MOST_BITS = 24, 110
TEXTS = ["a", "bc", "hello", "", "it's", 'say "so"', "both ' and \"", "tab\there", "line\nend", "back\\slash", "\r",
         "\u00e9t\u00e9", "\u4e2d\u6587", "\U0001f40d", "\u00a0", "\u200b", "x y", "Zebra", "0", " 12 ", "-7", "True"]
NAMES = ("a b c d e i k n s t u v w x y z total found row rest level name_1 _hidden \u00e9l\u00e9ment \u540d \u03b1\u03b2 "
         "match case kind List longer_name_of_a_variable").split()
UNBOUND = ["missing", "absent", "unbound_1", "_nothing"]


class Piece(NamedTuple):
    text: str
    level: int = ATOM
    bits: int = 0


class Known(NamedTuple):
    """A function that may be called: what its parameters and its value are, whether it is pure, and its cost."""
    name: str
    parameters: tuple
    gives: str
    pure: bool
    cost: int


class Scope:
    """The names with their kinds that an expression may read, and the functions that it may call."""

    def __init__(self, names, functions, pure):
        self.names, self.functions, self.pure = dict(names), functions, pure
        # names that no statement may bind anew: what a loop counts with, and functions' bounds
        self.fixed = set()
        # names that are read before they are bound, for which a statement further below has to be made
        self.later = set()
        # how often the place runs, and what the whole routine costs so far
        self.turns, self.cost = 1, 0


def quoted(random, text):
    """A string literal of a text."""
    quote = random.choice(["'", '"', "'", '"', '"""', "'''"])
    escaped = text.replace("\\", "\\\\").replace("\r", "\\r").replace("\t", "\\t")
    escaped = escaped.replace(quote[0], "\\" + quote[0])
    return quote + (escaped if len(quote) == 3 and random.random() < 0.7 else escaped.replace("\n", "\\n")) + quote


def number_literal(random, number):
    """One of the spellings of a number that isn't negative."""
    form = random.randrange(12)
    if form > 3:
        return str(number)
    digits = (f"{number:,}".replace(",", "_"), f"{number:#x}", f"{number:#o}", f"{number:#_b}")[form]
    return digits.upper().replace("0X", "0x") if form == 1 and random.random() < 0.5 else digits


class Expressions:
    def __init__(self, random, wild):
        self.random, self.wild = random, wild

    # spelling

    def at(self, level, piece):
        """A piece where the grammar has this level."""
        if piece.level < level or self.random.random() < 0.04:
            return f"({piece.text})"
        return piece.text

    def listed(self, pieces, one_more=False):
        """Pieces with commas, sometimes over lines; behind a single one a comma, where it must be a tuple."""
        texts = [self.at(TEST, piece) for piece in pieces]
        comma = "," if one_more and len(texts) == 1 or texts and self.random.random() < 0.05 else ""
        joint = ",\n        " if self.random.random() < 0.03 else ", "
        return joint.join(texts) + comma

    def display(self, pieces):
        return Piece(f"({self.listed(pieces, True)})")

    def call(self, name, *pieces, bits=0):
        return Piece(f"{name}({self.listed(pieces)})", bits=bits)

    def binary(self, sign, left, right, level, bits=0):
        """`left sign right`, of an operator that is read from the left."""
        return Piece(f"{self.at(level, left)} {sign} {self.at(level + 1, right)}", level, bits)

    def chosen(self, kind, depth, scope):
        test, yes, no = self.truth(depth, scope), self.of(kind, depth, scope), self.of(kind, depth, scope)
        text = f"{self.at(OR, yes)} if {self.at(OR, test)} else {self.at(TEST, no)}"
        return Piece(text, TEST, max(yes.bits, no.bits))

    def either(self, kind, depth, scope):
        count = self.random.choice([2, 2, 3])
        pieces = [self.of(kind, depth, scope) for _ in range(count)]
        word, level = self.random.choice([(" and ", AND), (" or ", OR)])
        text = word.join(self.at(level + 1, piece) for piece in pieces)
        return Piece(text, level, max(piece.bits for piece in pieces))

    # any kind

    def of(self, kind, depth, scope):
        if self.random.random() < self.wild:
            return self.faulty(kind, depth, scope)
        if depth <= 0 or self.random.random() < 0.12:
            return self.simple(kind, scope)
        form = self.random.random()
        if form < 0.06:
            return self.chosen(kind, depth - 1, scope)
        if form < 0.12:
            return self.either(kind, depth - 1, scope)
        called = self.function_call(kind, depth - 1, scope) if form < 0.32 else None
        return called or getattr(self, kind)(depth, scope)

    def any(self, depth, scope):
        return self.of(self.random.choice(KINDS), depth, scope)

    def name(self, kind, scope):
        fitting = (NUMBER, COUNT) if kind == NUMBER else (kind,)
        names = sorted(name for name, known in scope.names.items() if known in fitting)
        return Piece(self.random.choice(names), ATOM, VARIABLE_BITS) if names else None

    def simple(self, kind, scope):
        """A name or a literal."""
        named = self.name(kind, scope) if self.random.random() < 0.75 else None
        return named or self.literal(kind)

    def literal(self, kind):
        random = self.random
        if kind in (NUMBER, COUNT):
            number = random.choice([0, 1, 2, 3, 5, 7, 10, 12, 31, 64, 100, 255, 1_000, 65_537, 9_999_991])
            number = number % 9 if kind == COUNT else number
            return Piece(number_literal(random, number), ATOM, number.bit_length())
        if kind == TRUTH:
            return Piece(random.choice(["True", "False"]), ATOM, 1)
        if kind == TEXT:
            return Piece(quoted(random, random.choice(TEXTS)))
        if kind == PAIR:
            return self.display([self.literal(NUMBER), self.literal(TEXT)])
        member = {NUMBERS: NUMBER, WORDS: TEXT, ROWS: PAIR}[kind]
        return self.display([self.literal(member) for _ in range(random.randrange(4))])

    def function_call(self, kind, depth, scope):
        fitting = [known for known in scope.functions
                   if known.gives == kind and (known.pure or not scope.pure)
                   and scope.turns * known.cost + scope.cost < 6_000]
        if not fitting:
            return None
        known = self.random.choice(fitting)
        scope.cost += scope.turns * known.cost
        arguments = [self.of(parameter, depth - 1, scope) for parameter in known.parameters]
        return self.call(known.name, *arguments, bits=VARIABLE_BITS)

    # numbers

    def count(self, depth, scope):
        """A small number, by which a function bounds its depth."""
        if self.random.random() < 0.6:
            return self.literal(COUNT)
        return self.binary("%", self.number(depth - 1, scope), Piece(str(self.random.randrange(2, 9))), TERM, 4)

    def number(self, depth, scope):
        form = self.random.choice(NUMBER_FORMS)
        return self.narrowed(getattr(self, form)(depth - 1, scope), MOST_BITS)

    def narrowed(self, piece, bits):
        """The number, or what remains of it where it may have more bits than these."""
        if piece.bits <= bits:
            return piece
        divisor = self.random.choice([97, 1_009, 9_973, 99_991, 1_000_003])
        return self.binary("%", piece, Piece(str(divisor)), TERM, divisor.bit_length())

    def sums(self, depth, scope):
        """A chain of sums and differences."""
        piece = self.of(NUMBER, depth, scope)
        for _ in range(self.random.choice([1, 1, 2, 3])):
            right = self.of(NUMBER, depth - 1, scope)
            piece = self.binary(self.random.choice("+-"), piece, right, SUM, max(piece.bits, right.bits) + 1)
        return piece

    def products(self, depth, scope):
        left, right = self.of(NUMBER, depth, scope), self.of(NUMBER, depth, scope)
        left, right = self.narrowed(left, MOST_BITS // 2), self.narrowed(right, MOST_BITS // 2)
        return self.binary("*", left, right, TERM, left.bits + right.bits)

    def quotients(self, depth, scope):
        left = self.of(NUMBER, depth, scope)
        if self.random.random() < 0.6:
            divisor = Piece(str(self.random.choice([1, 2, 3, 7, 10, 97])), ATOM, 7)
            divisor = Piece("-" + divisor.text, FACTOR, 7) if self.random.random() < 0.3 else divisor
        else:
            divisor = self.binary("|", self.of(NUMBER, depth - 1, scope), Piece("1"), BIT_OR, MOST_BITS)
        return self.binary(self.random.choice(["//", "%"]), left, divisor, TERM, max(left.bits, divisor.bits))

    def powers(self, depth, scope):
        base, exponent = self.of(NUMBER, depth, scope), self.random.randrange(5)
        base = self.narrowed(base, MOST_BITS // max(exponent, 1))
        return Piece(f"{self.at(ATOM, base)} ** {exponent}", POWER, max(base.bits * exponent, 1))

    def shifts(self, depth, scope):
        left = self.of(NUMBER, depth, scope)
        if self.random.random() < 0.5:
            return self.binary(">>", left, Piece(str(self.random.choice([0, 1, 3, 8, 64, 200]))), SHIFT, left.bits)
        left = self.narrowed(left, 60)
        count = self.binary("&", self.of(NUMBER, depth - 1, scope), Piece("15"), BIT_AND)
        return self.binary("<<", left, self.random.choice([Piece("1"), Piece("7"), count]), SHIFT, left.bits + 15)

    def bits(self, depth, scope):
        left, right = self.of(NUMBER, depth, scope), self.of(NUMBER, depth, scope)
        sign, level = self.random.choice([("&", BIT_AND), ("|", BIT_OR), ("^", XOR)])
        return self.binary(sign, left, right, level, max(left.bits, right.bits) + 1)

    def signs(self, depth, scope):
        piece = self.of(NUMBER, depth, scope)
        return Piece(self.random.choice(["-", "-", "+", "--", "-+"]) + self.at(FACTOR, piece), FACTOR, piece.bits + 1)

    def measures(self, depth, scope):
        """A number by a builtin function."""
        form = self.random.randrange(9)
        if form == 0:
            return self.call("len", self.of(self.random.choice([TEXT, NUMBERS, WORDS, ROWS]), depth, scope), bits=20)
        if form == 1:
            piece = self.of(NUMBER, depth, scope)
            return self.call("abs", piece, bits=piece.bits + 1)
        if form < 4:
            pieces = [self.of(NUMBER, depth, scope) for _ in range(self.random.choice([2, 2, 3, 4]))]
            return self.call(self.random.choice(["min", "max"]), *pieces, bits=max(piece.bits for piece in pieces))
        if form == 4:
            some = self.binary("+", self.of(NUMBERS, depth, scope), self.display([self.literal(NUMBER)]), SUM)
            return self.call(self.random.choice(["min", "max"]), some, bits=VARIABLE_BITS)
        if form == 5:
            more = [self.of(NUMBER, depth, scope)] if self.random.random() < 0.3 else []
            return self.call("sum", self.of(NUMBERS, depth, scope), *more, bits=MOST_BITS)
        if form == 6:
            return self.call("int", self.call("str", self.of(NUMBER, depth, scope)), bits=MOST_BITS)
        if form == 7:
            text = self.random.choice(["7", " 12", "-0_9 ", "+31", "007"])
            return self.call("int", Piece(quoted(self.random, text)), bits=10)
        return self.call("int", self.of(self.random.choice([NUMBER, TRUTH]), depth, scope), bits=MOST_BITS)

    def members(self, depth, scope):
        """A number out of a tuple."""
        if self.random.random() < 0.4:
            return Piece(f"{self.at(ATOM, self.of(PAIR, depth, scope))}[{self.random.choice(['0', '-2', 'False'])}]",
                         bits=VARIABLE_BITS)
        items = [self.of(NUMBER, depth, scope) for _ in range(self.random.randrange(1, 4))]
        place = self.random.randrange(-len(items), len(items))
        return Piece(f"{self.display(items).text}[{place}]", bits=max(piece.bits for piece in items))

    def truths(self, depth, scope):
        """Truth values as numbers."""
        left, right = self.of(TRUTH, depth, scope), self.of(NUMBER, depth, scope)
        return self.binary(self.random.choice("+-"), left, right, SUM, right.bits + 1)

    # truth values

    def truth(self, depth, scope):
        form, random = self.random.randrange(10), self.random
        if form < 5:
            return self.comparison(depth - 1, scope)
        if form == 5:
            return Piece("not " + self.at(NOT, self.any(depth - 1, scope)), NOT, 1)
        if form == 6:
            return self.call("bool", self.any(depth - 1, scope), bits=1)
        if form == 7:
            kind = random.choice([NUMBERS, WORDS])
            member = self.of({NUMBERS: NUMBER, WORDS: TEXT}[kind], depth - 1, scope)
            return self.binary(random.choice(["in", "not in"]), member, self.of(kind, depth - 1, scope), COMPARE)
        if form == 8:
            pieces = self.of(TEXT, depth - 1, scope), self.of(TEXT, depth - 1, scope)
            return self.binary(random.choice(["in", "not in"]), *pieces, COMPARE)
        sign, level = random.choice([("&", BIT_AND), ("|", BIT_OR), ("^", XOR)])
        return self.binary(sign, self.of(TRUTH, depth - 1, scope), self.of(TRUTH, depth - 1, scope), level, 1)

    def comparison(self, depth, scope):
        """A chain of comparisons of one kind, or of equality alone."""
        kind = self.random.choice([NUMBER, NUMBER, NUMBER, TEXT, NUMBERS, PAIR, ROWS])
        text = self.at(BIT_OR, self.of(kind, depth, scope))
        for _ in range(self.random.choice([1, 1, 1, 2, 3])):
            sign = self.random.choice(["<", "<=", ">", ">=", "==", "!="])
            text += f" {sign} {self.at(BIT_OR, self.of(kind, depth - 1, scope))}"
        return Piece(text, COMPARE, 1)

    # texts and tuples

    def text(self, depth, scope):
        form, random = self.random.randrange(8), self.random
        if form < 2:
            return self.binary("+", self.of(TEXT, depth - 1, scope), self.of(TEXT, depth - 1, scope), SUM)
        if form == 2:
            return self.call(random.choice(["str", "repr"]), self.any(depth - 1, scope))
        if form == 3:
            return self.repeated(self.of(TEXT, depth - 1, scope))
        if form == 4:
            text = random.choice(["hello", "\u00e9t\u00e9", "ab\U0001f40d"])
            return Piece(f"{quoted(random, text)}[{random.randrange(-len(text), len(text))}]")
        if form == 5:
            return Piece(f"{self.at(ATOM, self.of(PAIR, depth - 1, scope))}[{random.choice(['1', '-1', 'True'])}]")
        if form == 6:
            return self.call(random.choice(["min", "max"]), *(self.of(TEXT, depth - 1, scope) for _ in range(2)))
        return self.sliced(TEXT, depth - 1, scope)

    def repeated(self, piece):
        count = Piece(self.random.choice(["0", "1", "2", "3", "True", "-1"]))
        count = count if count.text != "-1" else Piece("-1", FACTOR)
        return self.binary("*", *((piece, count) if self.random.random() < 0.7 else (count, piece)), TERM)

    def sliced(self, kind, depth, scope):
        bounds = [self.random.choice(["", "", "None", "0", "1", "2", "-1", "-2", "9", "-99", "True"]) for _ in range(2)]
        return Piece(f"{self.at(ATOM, self.of(kind, depth, scope))}[{':'.join(bounds)}]")

    def tuple_of(self, kind, member, depth, scope):
        form = self.random.randrange(6)
        if form < 3:
            return self.display([self.of(member, depth - 1, scope) for _ in range(self.random.randrange(4))])
        if form == 3:
            return self.binary("+", self.of(kind, depth - 1, scope), self.of(kind, depth - 1, scope), SUM)
        if form == 4:
            return self.repeated(self.of(kind, depth - 1, scope))
        return self.sliced(kind, depth - 1, scope)

    def numbers(self, depth, scope):
        return self.tuple_of(NUMBERS, NUMBER, depth, scope)

    def words(self, depth, scope):
        return self.tuple_of(WORDS, TEXT, depth, scope)

    def rows(self, depth, scope):
        return self.tuple_of(ROWS, PAIR, depth, scope)

    def pair(self, depth, scope):
        return self.display([self.of(NUMBER, depth - 1, scope), self.of(TEXT, depth - 1, scope)])

    def faulty(self, kind, depth, scope):
        """An expression that raises, or passes a limit, or is of another kind: what a subclass says."""
        return self.simple(kind, scope)


NUMBER_FORMS = ("sums sums sums products products quotients quotients powers shifts bits signs measures measures "
                "measures members truths").split()
