"""The first rule that a script breaks, of nesting and of scope, with its least line; for scripts that CPython parses.

Written from the profile's rules. Tokens and grammar aren't looked at, so it serves scripts that have a derivation.
"""
import ast

BUILTIN_NAMES = frozenset("print len abs min max sum str repr int bool range".split())
MARKS = ("schedule", "functional")
MOST_NESTING = 24
LEVELS = {ast.BitOr: 0, ast.BitXor: 1, ast.BitAnd: 2, ast.LShift: 3, ast.RShift: 3, ast.Add: 4, ast.Sub: 4,
          ast.Mult: 5, ast.FloorDiv: 5, ast.Mod: 5, ast.Pow: 6}
COMPOUND = (ast.If, ast.While, ast.For)


# nesting

def bare_left(node, left):
    """Whether the left part stands without brackets, so that both are one chain."""
    return (node.lineno, node.col_offset) == (left.lineno, left.col_offset)


def parts(node):
    """The direct parts of an expression, where a chain of operators of one level, or of suffixes, is one."""
    if isinstance(node, ast.BinOp) and not isinstance(node.op, ast.Pow):
        found, level = [], LEVELS[type(node.op)]
        while isinstance(node, ast.BinOp) and LEVELS[type(node.op)] == level:
            found.append(node.right)
            if not bare_left(node, node.left):
                return found + [node.left]
            node = node.left
        return found + [node]
    if isinstance(node, ast.Subscript):
        found = []
        while isinstance(node, ast.Subscript):
            suffix = node.slice
            bounds = (suffix.lower, suffix.upper) if isinstance(suffix, ast.Slice) else (suffix,)
            found += [bound for bound in bounds if bound]
            if not bare_left(node, node.value):
                return found + [node.value]
            node = node.value
        return found + [node]
    if isinstance(node, ast.Call):
        return node.args
    return [child for child in ast.iter_child_nodes(node) if isinstance(child, ast.expr)]


def nesting(node):
    if isinstance(node, (ast.Name, ast.Constant)):
        return 0
    return 1 + max(map(nesting, parts(node)), default=0)


def expressions(statement):
    """The expressions of a statement or header, but for the targets of a `for` and names that are bound."""
    if isinstance(statement, ast.For):
        return [statement.iter]
    if isinstance(statement, (ast.If, ast.While)):
        return [statement.test]
    found = [getattr(statement, name, None) for name in ("value", "test", "msg")]
    return [node for node in found if node is not None]


def suites(statement):
    return [statement.body, statement.orelse] if isinstance(statement, COMPOUND) else []


def too_deep(statements, round_it=0):
    """The lines of statements and headers that nest too deep."""
    for statement in statements:
        depths = [nesting(node) for node in expressions(statement)]
        if isinstance(statement, ast.Assign) and isinstance(statement.targets[0], ast.Tuple):
            depths.append(1)
        if round_it + max(depths, default=0) > MOST_NESTING:
            yield statement.lineno
        for suite in suites(statement):
            # an `elif` stands in as many suites as its `if`
            same = suite is getattr(statement, "orelse", None) and is_elif(statement)
            yield from too_deep(suite, round_it + (0 if same else 1))


def is_elif(statement):
    return (isinstance(statement, ast.If) and len(statement.orelse) == 1 and isinstance(statement.orelse[0], ast.If)
            and statement.orelse[0].col_offset == statement.col_offset)


# names

def inner(statements):
    """Statements and those in their suites."""
    for statement in statements:
        yield statement
        for suite in suites(statement):
            yield from inner(suite)


def bound(statement):
    targets = getattr(statement, "targets", None) or [getattr(statement, "target", None)]
    return [name.id for target in targets if target for name in getattr(target, "elts", [target])]


def is_literal(node):
    if isinstance(node, ast.Tuple):
        return all(map(is_literal, node.elts))
    if isinstance(node, ast.UnaryOp):
        return isinstance(node.op, ast.USub) and isinstance(node.operand, ast.Constant) and type(node.operand.value) is int
    return isinstance(node, ast.Constant)


def is_plain(item):
    return isinstance(item, ast.Assign) and isinstance(item.targets[0], ast.Name)


def is_string_line(item):
    return isinstance(item, ast.Expr) and isinstance(item.value, ast.Constant) and type(item.value.value) is str


class Names:
    """What a file binds: its functions, imports, constants, and the variables of its statements."""

    def __init__(self, items):
        self.items = items
        self.functions = [item for item in items if isinstance(item, ast.FunctionDef)]
        self.imported = [name.name for item in items if isinstance(item, ast.ImportFrom) for name in item.names]
        others = [item for item in items if not isinstance(item, (ast.FunctionDef, ast.ImportFrom))]
        count = [name for statement in inner(others) for name in bound(statement)]
        self.constants = []
        for item in items:
            if is_plain(item) and is_literal(item.value):
                if count.count(item.targets[0].id) == 1:
                    self.constants.append(item)
            elif not isinstance(item, (ast.FunctionDef, ast.ImportFrom)) and not is_string_line(item):
                break
        self.statements = [item for item in others if item not in self.constants]
        self.constant_names = {item.targets[0].id for item in self.constants} | {"__name__"}
        self.variables = {name for statement in inner(self.statements) for name in bound(statement)}
        self.function_names = {function.name: function for function in self.functions}

    def means(self, name, function):
        """What a name stands for in a function, or in the module where that is None."""
        if function and name in own_names(function):
            return "local"
        if not function and name in self.variables:
            return "variable"
        if name in self.constant_names:
            return "constant"
        if name in self.function_names:
            return "function"
        if name in self.imported:
            return "imported"
        if name in BUILTIN_NAMES:
            return "builtin"
        return "foreign variable" if name in self.variables else "unbound"

    def bodies(self):
        """The statements of each function, and those of the module."""
        return [(function, function.body) for function in self.functions] + [(None, self.statements)]

    def uses(self):
        """Each name that is read or called: the name, whether it is called, as what, its function and its line."""
        for function, body in self.bodies():
            for statement in inner(body):
                if isinstance(statement, ast.AugAssign):
                    yield statement.target.id, "read", function, statement.lineno
                whole = statement.iter if isinstance(statement, ast.For) else None
                for node in expressions(statement):
                    yield from uses_in(node, whole, function, statement.lineno)


def own_names(function):
    return {a.arg for a in function.args.args} | {name for statement in inner(function.body) for name in bound(statement)}


def uses_in(node, whole, function, line):
    called = set()
    for part in ast.walk(node):
        if isinstance(part, ast.Call):
            called.add(part.func)
            yield part.func.id, "iterated" if part is whole else "called", function, line
        elif isinstance(part, ast.Name) and part not in called:
            yield part.id, "read", function, line
