"""Makes a script smaller, as long as the answers to it differ in the same way.

It drops statements with their suites, puts a suite in the place of its header, and an expression's part, or a
literal, in the place of the expression. The text round each place stays as it is.
"""
import ast
import time

import answers

SECONDS = 60
SMALL = ("0", "()", "''")


def spans(source):
    """Where each line of the source begins, in bytes."""
    starts = [0]
    for line in source.split(b"\n"):
        starts.append(starts[-1] + len(line) + 1)
    return starts


def span(node, starts):
    return starts[node.lineno - 1] + node.col_offset, starts[node.end_lineno - 1] + node.end_col_offset


def without(source, node, starts):
    """The source without a statement, whose lines go with it."""
    first = min([node.lineno] + [mark.lineno for mark in getattr(node, "decorator_list", [])])
    return source[: starts[first - 1]] + source[starts[node.end_lineno] :]


def unwrapped(source, node, suite, starts):
    """The source with a suite of a compound statement in its place."""
    width = suite[0].col_offset - node.col_offset
    lines = source[starts[suite[0].lineno - 1] : starts[suite[-1].end_lineno]].split(b"\n")
    kept = b"\n".join(line[width:] if line[:width].isspace() else line for line in lines)
    return source[: starts[node.lineno - 1]] + kept + source[starts[node.end_lineno] :]


def by_halves(source):
    """Sources without a stretch of the module's items, the longest stretches first."""
    items, starts = ast.parse(source).body, spans(source)
    length = len(items) // 2
    while length > 1:
        for at in range(0, len(items), length):
            stretch = items[at : at + length]
            first = min([stretch[0].lineno] + [mark.lineno for mark in getattr(stretch[0], "decorator_list", [])])
            yield source[: starts[first - 1]] + source[starts[stretch[-1].end_lineno] :]
        length //= 2


def by_statements(source):
    """Sources that are smaller by one statement or header, the largest first."""
    tree, starts = ast.parse(source), spans(source)
    found = [node for node in ast.walk(tree) if isinstance(node, ast.stmt)]
    for node in sorted(found, key=lambda node: node.lineno - node.end_lineno):
        yield without(source, node, starts)
        if isinstance(node, (ast.If, ast.While, ast.For)):
            yield unwrapped(source, node, node.body, starts)
            if getattr(node, "orelse", None):
                yield unwrapped(source, node, node.orelse, starts)
                # what stands behind the first suite goes
                yield source[: starts[node.body[-1].end_lineno]] + source[starts[node.end_lineno] :]


def part_text(source, part, starts):
    """The text of a part, in brackets where it may need them elsewhere."""
    text = source[slice(*span(part, starts))]
    alone = isinstance(part, (ast.Name, ast.Constant, ast.Call, ast.Subscript)) or text[:1] == b"("
    return text if alone else b"(" + text + b")"


def shorter_lists(source, node, starts):
    """The texts of a call without one of its arguments, and of a tuple without one of its members."""
    members = node.args if isinstance(node, ast.Call) else node.elts if isinstance(node, ast.Tuple) else []
    name = node.func.id.encode() if isinstance(node, ast.Call) else b""
    texts = [source[slice(*span(member, starts))] for member in members]
    for at in range(len(texts)):
        kept = texts[:at] + texts[at + 1 :]
        yield name + b"(" + b", ".join(kept) + (b",)" if len(kept) == 1 and not name else b")")


def by_layout(source):
    """Sources without a blank line or a comment, and without a pair of brackets that isn't needed."""
    lines, starts = source.split(b"\n"), spans(source)
    for at, line in enumerate(lines[:-1]):
        if not line.strip() or line.strip()[:1] == b"#":
            yield source[: starts[at]] + source[starts[at + 1] :]
    for node in ast.walk(ast.parse(source)):
        if isinstance(node, ast.expr):
            start, end = span(node, starts)
            if source[:start][-1:] == b"(" and source[end:][:1] == b")" and not source[: start - 1][-1:].isalnum():
                yield source[: start - 1] + source[start:end] + source[end + 1 :]


def is_bound(node):
    return isinstance(getattr(node, "ctx", None), ast.Store)


def by_expressions(source):
    """Sources in which one expression is a part of it, or a literal."""
    tree, starts = ast.parse(source), spans(source)
    found = [node for node in ast.walk(tree) if isinstance(node, ast.expr) and not is_bound(node)]
    for node in sorted(found, key=lambda node: span(node, starts)[0] - span(node, starts)[1]):
        start, end = span(node, starts)
        parts = [part for part in ast.iter_child_nodes(node) if isinstance(part, ast.expr)]
        texts = [part_text(source, part, starts) for part in parts if not isinstance(node, ast.Name)]
        texts += shorter_lists(source, node, starts)
        for text in [small.encode() for small in SMALL] + texts:
            if len(text) < end - start:
                yield source[:start] + text + source[end:]


def reduced(source, holds, smaller, deadline):
    """The source after one walk through its smaller ones, each of which takes its place where it still holds."""
    at, candidates = 0, list(smaller(source))
    while at < len(candidates) and time.monotonic() < deadline:
        try:
            taken = holds(candidates[at])
        except (SyntaxError, ValueError, KeyError, AttributeError):
            # what is left is no script of the profile
            taken = False
        if taken:
            source = candidates[at]
            candidates = list(smaller(source))
        else:
            at += 1
    return source


def shrunk(source, program):
    """A small source to which the answers differ as they do to this one."""
    against_cpython = "CPython" in answers.compare(source, None, program).differs

    def manner(candidate):
        found = answers.compare(candidate, None, None if against_cpython else program, against_cpython)
        return found.differs, any(answer.end[0].startswith("REFUSED") for _, answer in found.answers)

    expected, deadline = manner(source), time.monotonic() + SECONDS
    holds = lambda candidate: manner(candidate) == expected
    plain = source.replace(b"\r\n", b"\n").replace(b"\r", b"\n").removeprefix("\ufeff".encode())
    source, before = plain if holds(plain) else source, None
    while source != before and time.monotonic() < deadline:
        before = source
        for smaller in (by_halves, by_statements, by_expressions, by_layout):
            source = reduced(source, holds, smaller, deadline)
    return source
