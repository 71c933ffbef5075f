"""Random scripts, whole: the module's head with constants and functions, and then its statements."""
import re

from expressions import COUNT, KINDS, NAMES, NUMBER, PAIR, SUM, TERM, TEXT, TRUTH, Known, Piece, Scope
from scripts import BUILTIN_NAMES, COMMENTS, FUNCTION_NAMES, Scripts

CONSTANT_NAMES = "LEVEL FIELDS ROWS NAME LIMIT_1 Zero EMPTY \u00c9TAT WORDS_2 FLAG".split()
DEPTHS_LEFT, TWICE_DEPTHS = 8, 7


class Modules(Scripts):
    """Makes whole scripts. `known` are the functions so far, in the order in which they may call one another."""

    def __init__(self, random, wild):
        super().__init__(random, wild)
        self.constants, self.known, self.definitions = {}, [], []

    # constants

    def constant(self):
        """A plain assignment of a literal, and a blank or a comment now and then."""
        free = [name for name in CONSTANT_NAMES if name not in self.constants]
        name, kind = self.random.choice(free), self.random.choice(KINDS)
        if self.random.random() < 0.1:
            return f"{name}_0 = {self.random.choice(['None', '()', '(None, (1, (2,)), ())', '((), -1)'])}"
        self.constants[name] = kind
        text = self.literal(kind).text
        return f"{name} = {'-' + text if kind == NUMBER and self.random.random() < 0.3 else text}"

    # functions

    def marks(self):
        """The lines of decorators, and whether they make a function pure."""
        marks = self.random.choice([[], [], [], ["schedule"], ["schedule"], ["functional"], ["functional"],
                                    ["schedule", "functional"], ["functional", "schedule"]])
        return ["@" + mark for mark in marks], "functional" in marks

    def function(self, name):
        marks, pure = self.marks()
        gives = self.random.choice(KINDS + (NUMBER, NUMBER) + (() if pure else ("nothing", "nothing")))
        names = self.random.sample(NAMES, self.random.choice([0, 1, 1, 2, 2, 3, 4]))
        parameters = {one: self.random.choice(KINDS) for one in names}
        recursive = bool(names) and self.random.random() < 0.3
        if recursive:
            parameters[names[0]] = COUNT
        scope = Scope({**self.constants, **parameters}, list(self.known), pure)
        scope.fixed = {*self.constants, *names[:1]} if recursive else set(self.constants)
        before, body = self.printed, []
        if self.random.random() < 0.2:
            body.append(self.random.choice(['"""What it does."""', '"""Two\n    lines."""']))
        if recursive:
            body += [f"if {names[0]} <= 0:", *self.indented([self.returned(scope, gives)])]
        for _ in range(self.random.randrange(1, 5)):
            body += self.statement(scope, 0, False, gives)
        times = 1
        if recursive:
            times = TWICE_DEPTHS**2 if gives == NUMBER and self.random.random() < 0.3 and scope.cost < 60 else DEPTHS_LEFT
            body += self.recursion(name, list(parameters.items()), gives, scope, times > DEPTHS_LEFT)
        elif gives != "nothing" or self.random.random() < 0.2:
            body.append(self.returned(scope, gives))
        # behind the last `return` nothing runs, and what is bound there is local all the same
        body += [f"{later} = 0" for later in sorted(scope.later)]
        self.printed = min(self.printed, before + 40)
        self.known.append(Known(name, tuple(parameters.values()), gives, pure, (scope.cost + 1) * times))
        comma = "," if names and self.random.random() < 0.1 else ""
        header = f"def {name}({', '.join(names)}{comma}):"
        self.definitions.append(self.shadowed(marks + [header] + self.indented(body), names))

    def recursion(self, name, parameters, gives, scope, twice):
        """The last line of a function that calls itself with a smaller bound."""
        def again(less):
            rest = [self.of(kind, 1, scope) for _, kind in parameters[1:]]
            return self.call(name, Piece(f"{parameters[0][0]} - {less}", SUM), *rest)

        if gives == "nothing":
            return [again(1).text]
        if gives == NUMBER:
            piece = self.binary("+", again(1), again(2) if twice else self.of(NUMBER, 1, scope), SUM)
            return [f"return {self.binary('%', piece, Piece('100003'), TERM).text}"]
        if gives in (TRUTH, PAIR):
            return [f"return {again(1).text}"]
        return [f"return {self.at(SUM, self.binary('+', again(1), self.literal(gives), SUM))}"]

    def shadowed(self, lines, names):
        """Gives a parameter now and then the name of a builtin function that the function doesn't call."""
        text = "\n".join(lines)
        free = [one for one in BUILTIN_NAMES + ["schedule", "range"] if not re.search(rf"\b{one}\b", text)]
        if not names or not free or self.random.random() > 0.06:
            return lines
        old, new = self.random.choice(names), self.random.choice(free)
        return [re.sub(rf"\b{old}\b", new, line) for line in lines]

    def mutual(self):
        """Two functions that call each other, of which only the first is called from elsewhere."""
        marks, pure = self.random.choice([("", False), ("@schedule", False), ("@functional", True)])
        even, odd = self.random.sample(["even", "odd", "ping", "pong", "left", "right"], 2)
        shown = [] if pure else [f'    print("{even}", n)']
        first = [marks, f"def {even}(n):", *shown, "    if n <= 0:", "        return True", f"    return {odd}(n - 1)"]
        second = [marks, f"def {odd}(n):", "    if n <= 0:", "        return False", f"    return {even}(n - 1)"]
        self.known.append(Known(even, (COUNT,), TRUTH, pure, 20))
        self.definitions += [[line for line in lines if line] for lines in (first, second)]

    # the module

    def head(self):
        """Imports, constants and functions, in any order in which an import stands above its marks."""
        parts = [[self.constant()] for _ in range(self.random.randrange(4))]
        for name in self.random.sample(FUNCTION_NAMES, self.random.choice([0, 1, 2, 3, 4, 5])):
            self.function(name)
        if self.random.random() < 0.15:
            self.mutual()
        parts += self.definitions
        self.random.shuffle(parts)
        used = {line[1:] for lines in self.definitions for line in lines if line.startswith("@")}
        used |= {"schedule"} if self.random.random() < 0.1 else set()
        names = self.random.sample(sorted(used), len(used))
        if names and self.random.random() < 0.3:
            parts = [[f"from pydron import {name}"] for name in names] + parts
        elif names:
            parts.insert(0, [f"from pydron import {', '.join(names)}"])
        if self.random.random() < 0.2:
            parts.insert(0, ['"""What the script is for."""'])
        return parts

    def statements(self):
        scope = Scope({**self.constants, "__name__": TEXT}, list(self.known), False)
        scope.fixed = {*self.constants, "__name__"}
        lines = []
        for _ in range(self.random.randrange(14, 36)):
            lines += self.statement(scope, 0, False, None)
        lines += [f"{later} = 0" for later in sorted(scope.later - set(self.constants))]
        if self.random.random() < 0.15:
            lines += ['if __name__ == "__main__":', *self.block(scope, 1, False, None)]
        return lines

    def source(self, more=()):
        """The text of a script, with more statements at its end."""
        parts = self.head()
        # the module binds none of the names that its functions read and don't bind
        parts += [[line] for line in [*self.statements(), *more]]
        lines = []
        for part in parts:
            lines += part
            if self.random.random() < (0.9 if len(part) > 1 else 0.05):
                lines += self.random.choice([[""], [""], ["", ""], ["", "  ", self.random.choice(COMMENTS)]])
        end = self.random.choice(["\n"] * 30 + ["\r\n", "\r"])
        text = "\n".join(lines).replace("\n", end)
        opening = "\ufeff" if self.random.random() < 0.01 else ""
        return opening + text + self.random.choice([end] * 12 + ["", end * 2, f"{end}# the end"])
