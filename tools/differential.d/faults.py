"""Expressions that raise, pass a limit, come near one, or are of another kind than their place wants."""
from expressions import ATOM, COMPARE, KINDS, NUMBER, POWER, SHIFT, SUM, TERM, TEXT, NAMES, UNBOUND, Expressions, Piece

# by what they end with, each with the level at which it stands in the grammar; `{}` is any expression, `{n}` a number
FIXED = {
    "ZeroDivisionError": [
        (TERM, "{n} // 0"), (TERM, "{n} % (7 - 7)"), (TERM, "{n} // False"), (POWER, "0 ** -1"),
    ],
    "Outside": [
        (POWER, "2 ** -1"), (POWER, "True ** -2"), (TERM, "'%d' % {n}"), (TERM, '"" % ()'), (ATOM, "int('5\\n')"),
        (ATOM, "int('é')"), (ATOM, "int('7', 8)"),
    ],
    "TypeError": [
        (TERM, "7 % 'x'"), (ATOM, "int(None)"), (ATOM, "int((1,))"), (ATOM, "int(1, 2, 3)"), (ATOM, "(1, 2)['0']"),
        (ATOM, "(1, 2)[None]"), (ATOM, "'abc'['a':]"), (ATOM, "'abc'[:()]"), (ATOM, "({n})[0]"), (ATOM, "None[0]"),
        (ATOM, "({n})[:1]"), (ATOM, "len({n})"), (ATOM, "len()"), (ATOM, "len((1,), 2)"), (ATOM, "abs('a')"),
        (ATOM, "abs()"), (ATOM, "abs(None)"), (ATOM, "max({n})"), (ATOM, "min()"), (ATOM, "min(1, 'a')"),
        (ATOM, "max((1, ()))"), (ATOM, "min(None, None)"), (ATOM, "sum('a')"), (ATOM, "sum((1, 'a'))"), (ATOM, "sum({n})"),
        (ATOM, "sum((), '')"), (ATOM, "sum()"), (ATOM, "sum(1, 2, 3)"), (ATOM, "str(1, 2)"), (ATOM, "repr()"),
        (ATOM, "bool(1, 2)"), (COMPARE, "{n} < 'a'"), (COMPARE, "None < None"), (COMPARE, "(1, 'a') < (1, 2)"),
        (COMPARE, "() < 1"), (COMPARE, "1 in 2"), (COMPARE, "{n} in 'abc'"), (COMPARE, "'a' in 5"), (TERM, "-'a'"),
        (TERM, "+None"), (TERM, "-()"), (SUM, "1 + 'a'"), (SUM, "'a' + 1"), (SUM, "() + (1)"), (SUM, "(1,) - (1,)"),
        (TERM, "'a' * 'b'"), (TERM, "() * ()"), (TERM, "'a' // 2"), (TERM, "None % 2"), (TERM, "'a' & 1"),
    ],
    "ValueError": [
        (SHIFT, "{n} << -1"), (SHIFT, "{n} >> -3"), (ATOM, "int('x')"), (ATOM, "int('')"), (ATOM, "int('- 1')"),
        (ATOM, "int('1__0')"), (ATOM, "min(())"), (ATOM, "max('')"),
    ],
    "IntLimit": [
        (ATOM, "int('170141183460469231731687303715884105728')"), (POWER, "2 ** 127"), (POWER, "2 ** 2 ** 7"),
        (POWER, "2 ** 2 ** 100"), (SUM, "170141183460469231731687303715884105727 + 1"), (TERM, "2 ** 64 * 2 ** 63"),
        (SHIFT, "1 << 127"), (TERM, "(-1 << 127) // -1"), (ATOM, "abs(-1 << 127)"), (TERM, "-(-1 << 127)"),
        (ATOM, "sum((2 ** 126, 2 ** 126, -1))"),
    ],
    "IndexError": [
        (ATOM, "(1, 2)[2]"), (ATOM, "(1, 2)[-3]"), (ATOM, "''[0]"), (ATOM, "'ab'[9]"), (ATOM, "(1, 2)[2 ** 100]"),
    ],
    "no fault": [
        (ATOM, "min((None,))"), (ATOM, "sum(((1,), (2,)), ())"), (ATOM, "sum((), None)"), (ATOM, "sum('')"), (ATOM, "str()"),
        (ATOM, "int()"), (ATOM, "bool()"), (COMPARE, "(1, 2) < (2, 'a')"), (COMPARE, "(None,) <= (None,)"),
        (COMPARE, "1 == '1' != None"), (COMPARE, "True in (None, 1)"), (COMPARE, "'' in 'ab'"), (POWER, "2 ** 126"),
        (POWER, "(-2) ** 127"), (SUM, "2 ** 126 + (2 ** 126 - 1)"), (SUM, "-170141183460469231731687303715884105727 - 1"),
        (TERM, "-2 ** 64 * 2 ** 63"), (SHIFT, "1 << 126"), (SHIFT, "-1 >> 200"), (SHIFT, "5 >> 127"),
        (ATOM, "len('a' * 1048575)"), (ATOM, "len((1,) * 1048575)"), (TERM, "'' * 99"), (ATOM, "({}, {})"),
        (ATOM, "(({},), {n}, None)"), (ATOM, "None"), (ATOM, "()"), (TERM, "-170141183460469231731687303715884105727"),
    ],
    "SizeLimit": [
        (TERM, "'a' * 1048576"), (TERM, "(1,) * 1048576"),
    ],
}


class Faulty(Expressions):
    def faulty(self, kind, depth, scope):
        forms = [self.fixed] * 12 + [self.other_kind, self.unbound, self.too_early, self.too_early,
                                     self.unbound_call, self.wrong_count, self.nothing]
        return self.random.choice(forms)(depth - 1, scope)

    def fixed(self, depth, scope):
        level, text = self.random.choice(FIXED[self.random.choice(list(FIXED))])
        for place, kind in (("{n}", NUMBER), ("{}", None)):
            while place in text:
                piece = self.simple(kind or self.random.choice(KINDS), scope)
                text = text.replace(place, piece.text, 1)
        return Piece(text, min(level, TERM), 128)

    def other_kind(self, depth, scope):
        return self.any(depth, scope)

    def unbound(self, depth, scope):
        return Piece(self.random.choice(UNBOUND))

    def too_early(self, depth, scope):
        """A name that is bound further below, if it is bound by then."""
        name = self.random.choice([name for name in NAMES if name not in scope.names])
        scope.later.add(name)
        return Piece(name)

    def unbound_call(self, depth, scope):
        """The called name comes before its arguments, which raise here too."""
        return self.call(self.random.choice(UNBOUND), Piece("1 // 0", TERM), self.of(TEXT, depth, scope))

    def callable_in(self, scope):
        return [known for known in scope.functions if known.pure or not scope.pure]

    def wrong_count(self, depth, scope):
        """A call with one argument too many or too few; the arguments come before the fault."""
        fitting = self.callable_in(scope)
        if not fitting:
            return self.unbound(depth, scope)
        known = self.random.choice(fitting)
        pieces = [self.of(kind, depth, scope) for kind in known.parameters]
        pieces = pieces[1:] if pieces and self.random.random() < 0.5 else pieces + [self.literal(NUMBER)]
        return self.call(known.name, *pieces)

    def nothing(self, depth, scope):
        """The value of a function that gives none, or of `print`."""
        fitting = [known for known in self.callable_in(scope) if known.gives == "nothing"]
        if scope.pure or not fitting:
            return Piece("None") if scope.pure else self.call("print", self.literal(TEXT))
        known = self.random.choice(fitting)
        return self.call(known.name, *(self.simple(kind, scope) for kind in known.parameters))
