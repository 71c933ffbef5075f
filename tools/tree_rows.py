#!/usr/bin/env python3
"""Writes crates/pyd_grammar_tests/src/derivation/rows.rt: small sources, each with the tree that CPython's ast gives it.

A row is a source, in which the character U+00B6 stands for a line end, then U+2192 and the tree in a written form.
Parentheses leave no trace in CPython's tree but the columns of what they enclose: a chain of operators is cut there.
"""
import ast
import sys

BIN = {ast.Add: "Add", ast.Sub: "Sub", ast.Mult: "Mul", ast.FloorDiv: "Div", ast.Mod: "Mod", ast.Pow: "Pow",
       ast.LShift: "Shl", ast.RShift: "Shr", ast.BitAnd: "And", ast.BitOr: "Or", ast.BitXor: "Xor"}
CMP = {ast.Eq: "Eq", ast.NotEq: "Ne", ast.Lt: "Lt", ast.LtE: "Le", ast.Gt: "Gt", ast.GtE: "Ge", ast.In: "In",
       ast.NotIn: "NotIn"}
UN = {ast.USub: "Neg", ast.UAdd: "Pos", ast.Not: "Not"}
LEVEL = {"Add": 1, "Sub": 1, "Mul": 2, "Div": 2, "Mod": 2, "Shl": 3, "Shr": 3, "And": 4, "Xor": 5, "Or": 6}


def at(node):
    return (node.lineno, node.col_offset)


def chain(node):
    op = BIN[type(node.op)]
    left = node.left
    if (isinstance(left, ast.BinOp) and not isinstance(left.op, ast.Pow) and at(left) == at(node)
            and LEVEL[BIN[type(left.op)]] == LEVEL[op]):
        first, links = chain(left)
    else:
        first, links = expr(left), []
    return first, links + [op, expr(node.right)]


def suffixes(node):
    inner = node.value
    if isinstance(inner, ast.Subscript) and at(inner) == at(node):
        base, found = suffixes(inner)
    else:
        base, found = expr(inner), []
    if isinstance(node.slice, ast.Slice):
        bounds = [expr(e) if e else "_" for e in (node.slice.lower, node.slice.upper)]
        return base, found + ["[" + bounds[0] + " : " + bounds[1] + "]"]
    return base, found + ["[" + expr(node.slice) + "]"]


def expr(e):
    if isinstance(e, ast.Constant):
        return "'" + e.value + "'" if isinstance(e.value, str) else str(e.value)
    if isinstance(e, ast.Name):
        return e.id
    if isinstance(e, ast.Tuple):
        return words("tuple", *map(expr, e.elts))
    if isinstance(e, ast.UnaryOp):
        return words("unary", UN[type(e.op)], expr(e.operand))
    if isinstance(e, ast.BinOp) and isinstance(e.op, ast.Pow):
        return words("power", expr(e.left), expr(e.right))
    if isinstance(e, ast.BinOp):
        first, links = chain(e)
        return words("chain", first, *links)
    if isinstance(e, ast.BoolOp):
        return words("and" if isinstance(e.op, ast.And) else "or", *map(expr, e.values))
    if isinstance(e, ast.Compare):
        links = [w for op, x in zip(e.ops, e.comparators) for w in (CMP[type(op)], expr(x))]
        return words("compare", expr(e.left), *links)
    if isinstance(e, ast.IfExp):
        return words("if", expr(e.test), expr(e.body), expr(e.orelse))
    if isinstance(e, ast.Call):
        return words("call", e.func.id, *map(expr, e.args))
    if isinstance(e, ast.Subscript):
        base, found = suffixes(e)
        return words("suffixed", base, *found)
    raise ValueError(ast.dump(e))


def words(*parts):
    return "(" + " ".join(parts) + ")"


def targets(t):
    if isinstance(t, ast.Tuple):
        return words("targets", *[n.id for n in t.elts])
    return t.id


def block(stmts):
    return "{" + " ".join(map(stmt, stmts)) + "}"


def arms(s):
    found = [words("arm", str(s.lineno), expr(s.test), block(s.body))]
    rest = s.orelse
    # an `elif` stands where its `if` does, an `else` with an `if` in its suite further in
    if len(rest) == 1 and isinstance(rest[0], ast.If) and rest[0].col_offset == s.col_offset:
        return found + arms(rest[0])
    return found + (["else", block(rest)] if rest else [])


def stmt(s):
    line = str(s.lineno)
    if isinstance(s, ast.Expr):
        return words(line, "expr", expr(s.value))
    if isinstance(s, ast.Assign):
        return words(line, "assign", targets(s.targets[0]), expr(s.value))
    if isinstance(s, ast.AugAssign):
        return words(line, "aug", s.target.id, BIN[type(s.op)], expr(s.value))
    if isinstance(s, ast.If):
        return words(line, *arms(s))
    if isinstance(s, ast.While):
        return words(line, "while", expr(s.test), block(s.body))
    if isinstance(s, ast.For):
        return words(line, "for", targets(s.target), expr(s.iter), block(s.body))
    if isinstance(s, ast.Return):
        return words(line, "return", *([expr(s.value)] if s.value else []))
    if isinstance(s, ast.Assert):
        return words(line, "assert", expr(s.test), *([expr(s.msg)] if s.msg else []))
    for kind, name in ((ast.Pass, "pass"), (ast.Break, "break"), (ast.Continue, "continue")):
        if isinstance(s, kind):
            return words(line, name)
    raise ValueError(ast.dump(s))


def item(s):
    if isinstance(s, ast.ImportFrom):
        return words(str(s.lineno), "import", s.module, *[n.name for n in s.names])
    if isinstance(s, ast.FunctionDef):
        marks = [w for d in s.decorator_list for w in ("@" + str(d.lineno), d.id)]
        params = [w for a in s.args.args for w in (str(a.lineno), a.arg)]
        return words(str(s.lineno), "def", s.name, words("marks", *marks), words("params", *params), block(s.body))
    return stmt(s)


def atoms():
    return ["x", "7", "0", "'t'", "True", "False", "None", "()", "(x)", "(x,)", "(x, y)", "x, y", "x,", "f()", "f(x)",
            "f(x, y)", "f(x,)", "f((x, y))", "((x))", "(1, (2, 3), ())"]


def expressions():
    rows = atoms()
    operators = ["+", "-", "*", "//", "%", "<<", ">>", "&", "|", "^", "**", "==", "!=", "<", "<=", ">", ">=", "in",
                 "not in", "and", "or"]
    rows += [f"a {op} b" for op in operators]
    rows += [f"a {op} b {op} c" for op in operators]
    rows += [f"(a {op} b) {op} c" for op in operators]
    rows += [f"a {op} (b {op} c)" for op in operators]
    rows += [f"a {p} b {q} c" for p, q in zip(operators, operators[1:] + operators[:1])]
    rows += [f"a {q} b {p} c" for p, q in zip(operators, operators[1:] + operators[:1])]
    rows += ["-x", "+x", "not x", "--x", "-+x", "not not x", "-2 ** 2", "2 ** -2", "(-2) ** 2", "2 ** 3 ** 2", "-x + y",
             "-x * y", "not x == y", "not x in y", "(not x) == y", "not x and y", "-x[0]", "-f(x)", "x ** y[0]",
             "x if c else y", "x if c else y if d else z", "(x if c else y) if d else z", "x or y if c and d else not z",
             "x if (c if d else e) else y", "a < b < c", "(a < b) < c", "a < (b < c)", "a in b not in c",
             "a - b + c - d", "a - (b + c) - d", "a * b // c % d", "a + b * c - d", "a << b >> c", "a + b << c",
             "x[0]", "x[0][1]", "(x[0])[1]", "x[:]", "x[1:]", "x[:2]", "x[1:2]", "x[a + b]", "x[-1:-2]", "x[f(y)][:]",
             "(x, y)[0]", "f(x)[0]", "'t'[0]", "(x)[0]", "(a + b)[0]", "f(a if b else c, not d)", "f(-1, (2,), x[0])"]
    return rows


def sources():
    rows = expressions()
    rows += ["x = 1", "x = y, z", "x, y = y, x", "x, = y", "(x, y) = z", "(x) = 1", "x = (1,)"]
    rows += [f"x {op}= y" for op in ("+", "-", "*", "//", "%", "**", "<<", ">>", "&", "|", "^")]
    rows += ["x += y, z", "pass", "assert x", "assert x, y", "assert (x, y)", "x\ny\n\n\nz", "# a\n\nx", "f(\n  x,\n  y)"]
    suite = "\n    pass"
    rows += ["if a:" + suite, "if a:" + suite + "\nelse:" + suite, "if a:" + suite + "\nelif b:" + suite,
             "if a:" + suite + "\n\nelif b:" + suite + "\nelif c:" + suite + "\nelse:" + suite,
             "if a:" + suite + "\nelse:\n    if b:\n        pass", "if a:\n    x\n    y\nz",
             "while a:" + suite, "while a:\n    break\n    continue", "for x in y:" + suite, "for x, in y:" + suite,
             "for x, y in z, w:" + suite, "for x, y, in f(z):\n    for a in b:\n        pass\n    c",
             "if a:\n  if b:\n    if c:\n      d\n  e\nf"]
    rows += ["from a import b", "from a import b, c", "def f():" + suite, "def f(a):" + suite, "def f(a, b,):" + suite,
             "def f(\n    a,\n    b):\n    return", "def f():\n    return a", "def f():\n    return a, b", "def f():\n    return ()",
             "@a\ndef f():" + suite, "@a\n@b\ndef f(x):\n    'd'\n    return x\n\nf(1)", ""]
    return rows


def main():
    rows = []
    for source in sources():
        tree = " ".join(map(item, ast.parse(source).body))
        rows.append((source + "\n").replace("\n", "\u00b6") + "\u2192" + tree)
    out = ["//! Sources, and their trees by CPython's ast. Written by tools/tree_rows.py.", "",
           f"/// How many rows there are.\npub(crate) const COUNT: usize = {len(rows)};", "",
           "/// One row a line.", 'pub(crate) const ROWS: &str = "' + "\n".join(rows) + '";', ""]
    sys.stdout.write("\n".join(out))


main()
