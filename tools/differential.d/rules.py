"""The rules of scope, each as the lines that break it, in the order in which they refuse a script."""
import ast

from refusals import BUILTIN_NAMES, MARKS, Names, bound, inner, is_literal, is_plain, is_string_line, suites, too_deep


def twice_defined(names):
    constants, functions = set(), set()
    for item in names.items:
        if isinstance(item, ast.FunctionDef):
            if item.name in constants | functions:
                yield item.lineno
            functions.add(item.name)
        elif item in names.constants:
            if item.targets[0].id in functions:
                yield item.lineno
            constants.add(item.targets[0].id)


def rebind(names):
    taken = BUILTIN_NAMES | {"__name__"} | set(names.imported)
    for function in names.functions:
        if function.name in taken:
            yield function.lineno
    for statement in [*names.constants, *inner(names.statements)]:
        for name in bound(statement):
            if name in taken or name in names.function_names and statement not in names.constants:
                yield statement.lineno


def function_value(names):
    for name, manner, function, line in names.uses():
        means = names.means(name, function)
        ranged = name == "range" and manner == "called"
        if means == "imported" or means in ("function", "builtin") and manner == "read" or means == "builtin" and ranged:
            yield line


def call_of_variable(names):
    for name, manner, function, line in names.uses():
        if manner != "read" and names.means(name, function) in ("local", "constant", "variable", "foreign variable"):
            yield line


def global_read(names):
    for name, manner, function, line in names.uses():
        if manner == "read" and function and names.means(name, function) == "foreign variable":
            yield line


def is_pure(function):
    return any(mark.id == "functional" for mark in function.decorator_list)


def impure(names):
    for name, manner, function, line in names.uses():
        if manner != "read" and function and is_pure(function):
            means = names.means(name, function)
            if means == "builtin" and name == "print" or means == "function" and not is_pure(names.function_names[name]):
                yield line


def return_outside(names):
    for statement in inner(names.statements):
        if isinstance(statement, ast.Return):
            yield statement.lineno


def break_outside(names):
    def outside(statements):
        for statement in statements:
            if isinstance(statement, (ast.Break, ast.Continue)):
                yield statement.lineno
            elif isinstance(statement, ast.If):
                for suite in suites(statement):
                    yield from outside(suite)
    for _, body in names.bodies():
        yield from outside(body)


def late_definition(names):
    late = False
    for item in names.items:
        if isinstance(item, (ast.FunctionDef, ast.ImportFrom)):
            if late:
                yield item.lineno
        else:
            late = late or not (is_string_line(item) or is_plain(item))


def not_constant(names):
    later = False
    for item in reversed(names.items):
        if isinstance(item, (ast.FunctionDef, ast.ImportFrom)):
            later = True
        elif later and is_plain(item) and not is_literal(item.value):
            yield item.lineno


def decorator(names):
    imported = set()
    for item in names.items:
        if isinstance(item, ast.ImportFrom):
            found = [name.name for name in item.names]
            if item.module != "pydron" or not set(found) <= set(MARKS):
                yield item.lineno
            imported |= set(found)
        elif isinstance(item, ast.FunctionDef):
            seen = set()
            for mark in item.decorator_list:
                if mark.id not in MARKS or mark.id in seen or mark.id not in imported:
                    yield mark.lineno
                seen.add(mark.id)


def twice_parameter(names):
    for function in names.functions:
        found = [a.arg for a in function.args.args]
        if len(set(found)) < len(found):
            yield function.lineno


RULES = [
    ("TwiceDefined", twice_defined), ("Rebind", rebind), ("FunctionValue", function_value),
    ("CallOfVariable", call_of_variable), ("GlobalRead", global_read), ("Impure", impure),
    ("ReturnOutside", return_outside), ("BreakOutside", break_outside), ("LateDef", late_definition),
    ("NotConstant", not_constant), ("Decorator", decorator), ("TwiceParameter", twice_parameter),
]


def refusal(source):
    """The refusal of a script that CPython parses, with its line, or None where it is accepted."""
    items = ast.parse(source).body
    deep = []
    for item in items:
        if isinstance(item, ast.FunctionDef):
            deep += too_deep(item.body, 1)
        elif not isinstance(item, ast.ImportFrom):
            deep += too_deep([item])
    if deep:
        return "Deep", min(deep)
    names = Names(items)
    for name, broken in RULES:
        lines = list(broken(names))
        if lines:
            return name, min(lines)
    return None
