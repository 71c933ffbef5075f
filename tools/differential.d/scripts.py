"""Random scripts of the profile: constants, functions with and without marks, and statements of the module.

The rules of scope are kept by the way a script is made: functions read their own names and constants, pure
functions call pure ones, names of functions and builtin functions are called and never read, and what the
module binds has none of these names.
"""
import re

import expressions
from expressions import (ATOM, COUNT, KINDS, NAMES, NUMBER, NUMBERS, PAIR, ROWS, TERM, TEXT, TRUTH, VARIABLE_BITS, WORDS,
                         Piece)
from faults import Faulty

FUNCTION_NAMES = "f g h work square step shown pick fold part combine scale_2 _inner \u00e9tape main report".split()
BUILTIN_NAMES = "print len abs min max sum str repr int bool".split()
MEMBER = {NUMBERS: NUMBER, WORDS: TEXT, ROWS: PAIR, TEXT: TEXT}
COMMENTS = ["# a comment", "#", "# \u00e9: not ASCII", '# "quotes" in a comment']
MOST_TURNS, MOST_COST, MOST_LINES = 400, 12_000, 150


class Scripts(Faulty):
    """Makes one script. `lines` are logical lines, one of which may stand over several."""

    def __init__(self, random, wild):
        super().__init__(random, wild)
        self.printed, self.depth = 0, random.choice([1, 1, 2, 2, 3])

    def indented(self, lines):
        width = self.random.choice([4, 4, 4, 2, 1, 3, 8])
        return [" " * width + line for line in lines]

    def block(self, scope, suites, loop, gives, most=4):
        """A suite. What it binds for the first time is forgotten behind it, unless the script is wild."""
        before = dict(scope.names)
        lines = []
        for _ in range(self.random.randrange(1, most + 1)):
            lines += self.statement(scope, suites, loop, gives)
        if self.random.random() >= self.wild * 10:
            scope.names = before
        return self.indented(lines)

    def statement(self, scope, suites, loop, gives):
        """A statement with what belongs to it. `gives` is the kind that a function returns, None in the module."""
        scope.cost += scope.turns
        choices = ["shown"] * 9 + ["assign"] * 5 + ["augment"] * 4 + ["unpack"] * 2 + ["called"] * 2 + ["small", "claim"]
        if suites < 4 and scope.cost < MOST_COST:
            choices += ["choose"] * 4 + ["iterate"] * 3 + ["repeat"] * 2
        choices += ["leave"] * 2 if loop or gives else []
        lines = getattr(self, self.random.choice(choices))(scope, suites, loop, gives)
        if self.random.random() < 0.03:
            lines = [self.random.choice(COMMENTS)] + lines
        return lines

    # simple statements

    def shown(self, scope, suites, loop, gives):
        """Prints, which a pure function doesn't."""
        if scope.pure or self.printed + scope.turns > MOST_LINES:
            return self.assign(scope, suites, loop, gives)
        self.printed += scope.turns
        pieces = [self.any(self.depth, scope) for _ in range(self.random.choice([0, 1, 1, 1, 2, 2, 3, 4]))]
        return [self.call("print", *pieces).text]

    def target(self, kind, scope):
        """A name that may be bound: one of this kind, or a new one."""
        old = [name for name, known in sorted(scope.names.items()) if known == kind and name not in scope.fixed]
        if old and self.random.random() < 0.6:
            return self.random.choice(old)
        new = [name for name in NAMES if name not in scope.names]
        return self.random.choice(new or old or ["x_9"])

    def value(self, kind, scope):
        """A value for a name: so narrow and short that a loop doesn't make it grow for ever."""
        piece = self.of(kind, self.depth, scope)
        if kind == NUMBER:
            return self.narrowed(piece, VARIABLE_BITS)
        if kind in MEMBER and scope.turns > 1:
            return Piece(f"{self.at(ATOM, piece)}[:{self.random.choice([5, 8, 12])}]")
        return piece

    def assign(self, scope, suites, loop, gives):
        kind = self.random.choice(KINDS)
        piece, name = self.value(kind, scope), self.target(kind, scope)
        scope.names[name] = kind
        bare = kind in (NUMBERS, PAIR) and re.fullmatch(r"\((\w+, )+\w+\)", piece.text) and self.random.random() < 0.5
        return [f"{name} = {piece.text[1:-1] if bare else piece.text}"]

    def augment(self, scope, suites, loop, gives):
        """An augmented assignment of any operator, and a line that keeps the value small."""
        kind = self.random.choice([NUMBER, NUMBER, NUMBER, TRUTH, TEXT, NUMBERS, WORDS])
        old = [name for name, known in sorted(scope.names.items()) if known == kind and name not in scope.fixed]
        if self.random.random() < self.wild * 5:
            # it binds a name that is unbound, or bound in a suite that may not have run
            old = [name for name in NAMES if name not in scope.names]
        if not old:
            return self.assign(scope, suites, loop, gives)
        name = self.random.choice(old)
        if kind == NUMBER:
            return self.augmented_number(name, scope)
        if kind == TRUTH:
            return [f"{name} {self.random.choice('&|^')}= {self.of(TRUTH, self.depth - 1, scope).text}"]
        if self.random.random() < 0.2:
            return [f"{name} *= {self.random.choice(['0', '1', '2', 'True', '-1'])}", f"{name} = {name}[:20]"]
        more = self.of(TEXT, 1, scope) if kind == TEXT else self.display([self.of(MEMBER[kind], 1, scope)])
        return [f"{name} += {more.text}"] + ([f"{name} = {name}[-9:]"] if scope.turns > 1 else [])

    def augmented_number(self, name, scope):
        piece = self.narrowed(self.of(NUMBER, self.depth - 1, scope), VARIABLE_BITS)
        sign = self.random.choice(["+", "-", "*", "//", "%", "**", "<<", ">>", "&", "|", "^"])
        if sign in ("//", "%"):
            return [f"{name} {sign}= {self.random.choice(['3', '-7', '10', '97', 'True'])}"]
        if sign in ("**", "<<", ">>"):
            return [f"{name} {sign}= {self.random.choice(['0', '1', '2', '3'])}", f"{name} %= 9973"]
        small = [f"{name} %= {self.random.choice([1009, 99991, -353])}"] if sign == "*" or scope.turns > 1 else []
        return [f"{name} {sign}= {piece.text}"] + small

    def unpack(self, scope, suites, loop, gives):
        form = self.random.randrange(5)
        kinds = [NUMBER, TEXT] if form == 0 else [self.random.choice(KINDS) for _ in range(self.random.choice([1, 2, 2, 3]))]
        kinds = [TEXT] * len(kinds) if form == 1 else kinds
        if form == 0:
            value = self.of(PAIR, self.depth - 1, scope).text
        elif form == 1:
            value = expressions.quoted(self.random, "".join(self.random.choice("ab\u00e9\u4e2d") for _ in kinds))
        else:
            value = ", ".join(self.at(0, self.value(kind, scope)) for kind in kinds) + ("," if len(kinds) == 1 else "")
        names = []
        for kind in kinds:
            names.append(self.target(kind, scope))
            # a name that stands twice has the later kind
            scope.names[names[-1]] = kind
        if self.random.random() < self.wild * 8:
            names.append(names[0])
        targets = ", ".join(names) + ("," if len(names) == 1 or self.random.random() < 0.1 else "")
        return [f"{f'({targets})' if self.random.random() < 0.15 else targets} = {value}"]

    def called(self, scope, suites, loop, gives):
        """A call for its effects, or an expression alone."""
        fitting = [known for known in scope.functions if (known.pure or not scope.pure)
                   and scope.turns * known.cost + scope.cost < 6_000]
        if not fitting or self.random.random() < 0.2:
            return [self.any(2, scope).text]
        known = self.random.choice(fitting)
        scope.cost += scope.turns * known.cost
        self.printed += scope.turns * (0 if known.pure else 4)
        return [self.call(known.name, *(self.of(kind, 2, scope) for kind in known.parameters)).text]

    def small(self, scope, suites, loop, gives):
        return [self.random.choice(["pass", '"a string alone"', "pass  # nothing", '""" one\n\n two"""'])]

    def claim(self, scope, suites, loop, gives):
        test = self.truth(2, scope)
        if self.random.random() >= self.wild * 10:
            test = Piece(f"{self.at(2, test)} or True", 1)
        message = f", {self.at(0, self.any(2, scope))}" if self.random.random() < 0.5 else ""
        return [f"assert {self.at(0, test)}{message}"]

    def leave(self, scope, suites, loop, gives):
        """A `return`, `break` or `continue`, mostly behind a test."""
        words = ["break", "continue"] if loop else []
        if gives:
            words += [self.returned(scope, gives)]
        word = self.random.choice(words)
        if self.random.random() < 0.1:
            return [word]
        return [f"if {self.truth(2, scope).text}:", *self.indented([word])]

    def returned(self, scope, gives):
        if gives == "nothing":
            return self.random.choice(["return", "return", "return None"])
        piece = self.of(gives, self.depth, scope)
        if gives == NUMBER:
            piece = self.narrowed(piece, VARIABLE_BITS)
        elif gives in MEMBER:
            piece = Piece(f"{self.at(ATOM, piece)}[:12]")
        return f"return {piece.text}"

    # compound statements

    def choose(self, scope, suites, loop, gives):
        lines = []
        for word in ["if"] + ["elif"] * self.random.choice([0, 0, 0, 1, 2]):
            lines += [f"{word} {self.truth(self.depth - 1, scope).text}:"] + self.block(scope, suites + 1, loop, gives, 3)
        if self.random.random() < 0.5:
            lines += ["else:"] + self.block(scope, suites + 1, loop, gives, 3)
        return lines

    def looped(self, scope, turns, suites, gives, first=()):
        """The suite of a loop that makes so many turns; the lines of `first` come first in it."""
        before, scope.turns = scope.turns, scope.turns * turns
        suite = self.block(scope, suites + 1, True, gives)
        scope.turns = before
        width = len(suite[0]) - len(suite[0].lstrip(" "))
        return [" " * width + line for line in first] + suite

    def iterate(self, scope, suites, loop, gives):
        kind = self.random.choice(["range", "range", NUMBERS, WORDS, ROWS, TEXT])
        if kind == "range":
            turns, iterable = self.span(scope)
        else:
            wild = self.random.random() < self.wild * 8
            turns, iterable = 4, (self.any(2, scope) if wild else self.of(kind, 2, scope)).text
        if scope.turns * turns > MOST_TURNS:
            return self.shown(scope, suites, loop, gives)
        before = dict(scope.names)
        kinds = [NUMBER, TEXT] if kind == ROWS and self.random.random() < 0.6 else [MEMBER.get(kind, NUMBER)]
        names = []
        for one in kinds:
            new = [name for name in NAMES if name not in scope.names]
            names.append(self.random.choice(new or ["x_9"]))
            scope.names[names[-1]] = one
        target = ", ".join(names) + ("," if len(names) > 1 and self.random.random() < 0.1 else "")
        lines = [f"for {target} in {iterable}:"] + self.looped(scope, turns, suites, gives)
        # after no turn at all its names are unbound
        scope.names = before
        return lines

    def span(self, scope):
        """How many turns a `range` makes at most, and its call."""
        count, step = self.random.randrange(9), self.random.choice([1, 2, 3, -1, -4])
        first = self.random.randrange(-9, 10)
        if self.random.random() < self.wild * 8:
            return 3, self.random.choice(["range()", "range('a')", "range(1, 2, 0)", "range(1, 2, 3, 4)", "range(0, None)",
                                          "range(True, 4)", "range(2 ** 126, 2 ** 126 + 2)", "range((1,))"])
        if self.random.random() < 0.4:
            text = self.random.choice([f"{count}", f"0, {count}", f"{count} % 7, {count}"])
            return max(count, 1), f"range({text})"
        if self.random.random() < 0.3:
            return 8, f"range({self.binary('%', self.of(NUMBER, 2, scope), Piece('9'), TERM).text})"
        return max(count, 1), f"range({first}, {first + count * step}, {step})"

    def repeat(self, scope, suites, loop, gives):
        """A `while` with a name that counts its turns, which nothing else binds."""
        turns = self.random.randrange(1, 7)
        new = [name for name in NAMES if name not in scope.names]
        if scope.turns * turns > MOST_TURNS or not new:
            return self.shown(scope, suites, loop, gives)
        name = self.random.choice(new)
        scope.names[name] = COUNT
        scope.fixed.add(name)
        first, more = [f"{name} += 1"], self.truth(2, scope)
        test = self.random.choice([f"{name} < {turns}", f"{turns} > {name}", f"{name} < {turns} and {self.at(3, more)}"])
        if self.random.random() < 0.2:
            test = self.random.choice(["True", "1", "'always'"])
            first += [f"if {name} > {turns}:", "    break"]
        return [f"{name} = 0", f"while {test}:"] + self.looped(scope, turns, suites, gives, first)
