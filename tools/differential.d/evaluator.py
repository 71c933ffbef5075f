#!/usr/bin/env python3
"""Evaluates a script of the profile with its limits; as a program it answers as `pydron run` does.

    tools/differential.d/evaluator.py run < SCRIPT

It takes accepted scripts alone: CPython's `ast` reads them, and no rule of tokens, grammar or scope is looked at.
"""
import ast
import sys

from operations import BINARY, COMPARE, LIMITS, UNARY, Fault, builtin, index, is_sequence, line_of, require, sized
from operations import slice_of, truth

TURNS, DEPTH = 100_000, 64
# no rule of the profile: a script with more calls isn't worth the time
MOST_CALLS = 300_000
BREAK, CONTINUE = "break", "continue"
BUILTIN_NAMES = frozenset("print len abs min max sum str repr int bool range".split())


def bound_names(statements):
    """The names that statements bind, in the suites within them too."""
    names = set()
    for statement in statements:
        for target in getattr(statement, "targets", None) or [getattr(statement, "target", None)]:
            names |= {name.id for name in getattr(target, "elts", [target]) if name}
        names |= bound_names(getattr(statement, "body", [])) | bound_names(getattr(statement, "orelse", []))
    return names


class TooLong(Exception):
    """The script goes on for longer than is worth the time."""


class Frame:
    """What one call, or the module, has: its names with their values, its depth, and the line that it is at."""

    def __init__(self, own, depth):
        self.own, self.depth, self.values, self.line = own, depth, {}, 0


class Script:
    """A script, and what it printed so far."""

    def __init__(self, source, turns=TURNS, depth=DEPTH):
        body = ast.parse(source).body
        self.turns, self.depth, self.printed, self.calls = turns, depth, [], 0
        self.functions = {item.name: item for item in body if isinstance(item, ast.FunctionDef)}
        self.own = {name: bound_names(function.body) | {a.arg for a in function.args.args}
                    for name, function in self.functions.items()}
        self.statements = [item for item in body if not isinstance(item, (ast.FunctionDef, ast.ImportFrom))]
        self.module = Frame(bound_names(self.statements), 0)
        self.module.values["__name__"] = "__main__"

    def run(self):
        """What was printed, and how the script ended: a kind or limit and a line, or None."""
        try:
            self.body(self.statements, self.module)
            end = None
        except Fault as fault:
            end = (fault.name, fault.line)
        return "".join(self.printed), end

    def body(self, statements, frame):
        """The value of a body. The innermost frame gives a fault its line."""
        try:
            left = self.block(statements, frame)
        except Fault as fault:
            if fault.line is None:
                fault.line = frame.line
            raise
        return left[0] if left else None

    # statements: each answers None where it ends, BREAK, CONTINUE, or a tuple of the value returned

    def block(self, statements, frame):
        for statement in statements:
            left = STATEMENTS[type(statement)](self, statement, frame)
            if left is not None:
                return left
        return None

    def expression(self, statement, frame):
        frame.line = statement.lineno
        self.value(statement.value, frame)

    def assign(self, statement, frame):
        frame.line = statement.lineno
        self.bind(statement.targets[0], self.value(statement.value, frame), frame)

    def augment(self, statement, frame):
        frame.line = statement.lineno
        before = self.name(statement.target, frame)
        value = self.value(statement.value, frame)
        frame.values[statement.target.id] = BINARY[type(statement.op).__name__](before, value)

    def bind(self, target, value, frame):
        if isinstance(target, ast.Name):
            frame.values[target.id] = value
            return
        require(is_sequence(value), "TypeError")
        require(len(value) == len(target.elts), "ValueError")
        for name, member in zip(target.elts, value):
            frame.values[name.id] = member

    def choose(self, statement, frame):
        frame.line = statement.lineno
        holds = truth(self.value(statement.test, frame))
        return self.block(statement.body if holds else statement.orelse, frame)

    def repeat(self, statement, frame):
        turns = 0
        while True:
            frame.line = statement.lineno
            if not truth(self.value(statement.test, frame)):
                return None
            require(turns < self.turns, "TurnLimit")
            turns += 1
            left = self.block(statement.body, frame)
            if left is BREAK:
                return None
            if left is not None and left is not CONTINUE:
                return left

    def iterate(self, statement, frame):
        frame.line = statement.lineno
        items = self.value(statement.iter, frame)
        require(is_sequence(items) or isinstance(items, range), "TypeError")
        for turns, item in enumerate(items):
            frame.line = statement.lineno
            require(turns < self.turns, "TurnLimit")
            self.bind(statement.target, item, frame)
            left = self.block(statement.body, frame)
            if left is BREAK:
                return None
            if left is not None and left is not CONTINUE:
                return left
        return None

    def give_back(self, statement, frame):
        frame.line = statement.lineno
        return (self.value(statement.value, frame) if statement.value else None,)

    def claim(self, statement, frame):
        frame.line = statement.lineno
        if not truth(self.value(statement.test, frame)):
            if statement.msg:
                self.value(statement.msg, frame)
            raise Fault("AssertionError")

    # expressions

    def value(self, node, frame):
        return EXPRESSIONS[type(node)](self, node, frame)

    def name(self, node, frame):
        if node.id in frame.values:
            return frame.values[node.id]
        if node.id in frame.own:
            raise Fault("NameError" if frame is self.module else "UnboundLocalError")
        require(node.id in self.module.values, "NameError")
        return self.module.values[node.id]

    def display(self, node, frame):
        return sized(tuple([self.value(member, frame) for member in node.elts]))

    def unary(self, node, frame):
        return UNARY[type(node.op).__name__](self.value(node.operand, frame))

    def binary(self, node, frame):
        """A chain of operators is walked by its left side, which may be long."""
        chain = []
        while isinstance(node, ast.BinOp):
            chain.append(node)
            node = node.left
        value = self.value(node, frame)
        for link in reversed(chain):
            value = BINARY[type(link.op).__name__](value, self.value(link.right, frame))
        return value

    def logic(self, node, frame):
        stops = isinstance(node.op, ast.Or)
        for operand in node.values:
            value = self.value(operand, frame)
            if truth(value) is stops:
                return value
        return value

    def compare(self, node, frame):
        left = self.value(node.left, frame)
        for operator, operand in zip(node.ops, node.comparators):
            right = self.value(operand, frame)
            holds = COMPARE[type(operator).__name__](left, right)
            if not holds:
                return holds
            left = right
        return holds

    def conditional(self, node, frame):
        return self.value(node.body if truth(self.value(node.test, frame)) else node.orelse, frame)

    def subscript(self, node, frame):
        """Indexes and slices of a base, which may be many."""
        suffixes = []
        while isinstance(node, ast.Subscript):
            suffixes.append(node.slice)
            node = node.value
        base = self.value(node, frame)
        for suffix in reversed(suffixes):
            if isinstance(suffix, ast.Slice):
                low, high = (self.value(bound, frame) if bound else None for bound in (suffix.lower, suffix.upper))
                base = slice_of(base, low, high)
            else:
                base = index(base, self.value(suffix, frame))
        return base

    def call(self, node, frame):
        called = node.func.id
        require(called in self.functions or called in BUILTIN_NAMES, "NameError")
        arguments = [self.value(argument, frame) for argument in node.args]
        if called == "print":
            self.printed.append(line_of(arguments) + "\n")
            return None
        if called not in self.functions:
            return builtin(called, arguments)
        function = self.functions[called]
        require(len(arguments) == len(function.args.args), "TypeError")
        require(frame.depth < self.depth, "DepthLimit")
        self.calls += 1
        if self.calls > MOST_CALLS:
            raise TooLong
        inner = Frame(self.own[called], frame.depth + 1)
        inner.values.update(zip((a.arg for a in function.args.args), arguments))
        return self.body(function.body, inner)


STATEMENTS = {
    ast.Expr: Script.expression, ast.Assign: Script.assign, ast.AugAssign: Script.augment, ast.If: Script.choose,
    ast.While: Script.repeat, ast.For: Script.iterate, ast.Return: Script.give_back, ast.Assert: Script.claim,
    ast.Pass: lambda *_: None, ast.Break: lambda *_: BREAK, ast.Continue: lambda *_: CONTINUE,
}
EXPRESSIONS = {
    ast.Constant: lambda _, node, frame: node.value, ast.Name: Script.name, ast.Tuple: Script.display,
    ast.UnaryOp: Script.unary, ast.BinOp: Script.binary, ast.BoolOp: Script.logic, ast.Compare: Script.compare,
    ast.IfExp: Script.conditional, ast.Subscript: Script.subscript, ast.Call: Script.call,
}


def evaluate(source):
    """What a script prints, and its kind or limit and line where it doesn't run to its end."""
    sys.setrecursionlimit(100_000)
    return Script(source).run()


def main():
    printed, end = evaluate(sys.stdin.buffer.read())
    sys.stdout.buffer.write(printed.encode())
    if end is None:
        return 0
    name, line = end
    print(f"LIMIT {name}: line {line}" if name in LIMITS else f"{name}: line {line}", file=sys.stderr)
    return 4 if name in LIMITS else 1


if __name__ == "__main__":
    sys.exit(main())
