"""Which script a number makes: a plain one, a wild one, a hostile one, a changed one, or one that is refused."""
import ast
import random as randoms
import re

import hostile
import rules
from modules import Modules

WORD = re.compile(r"(?<![\w'\"\\])[^\W\d]\w*(?![\w'\"])")
KEYWORDS = frozenset("if elif else while for in and or not def return break continue pass assert from import "
                     "True False None".split())
MORE_NAMES = ["len", "print", "range", "schedule", "functional", "__name__", "unknown"]


def script(seed, number):
    """The source of a script, and the refusal with its line that it is known to get, or None."""
    random = randoms.Random(f"{seed}/{number}")
    sort = random.random()
    if sort < 0.03:
        return refused(random)
    if sort < 0.09:
        return changed(random)
    if sort < 0.2:
        return hostile_script(random), None
    return Modules(random, 0 if sort < 0.64 else random.choice([0.002, 0.005, 0.02])).source(), None


def hostile_script(random):
    made = Modules(random, 0)
    definition, lines = random.choice(hostile.HOSTILE)(random)
    if definition:
        made.definitions.append(definition.splitlines())
    return made.source(lines)


def refused(random):
    name, lines, place = random.choice(hostile.REFUSED)
    source = plain_script(random)
    return source + "\n".join(lines) + "\n", (name, source.count("\n") + 1 + place)


def plain_script(random):
    """A script with line feeds alone, also at its end."""
    source = Modules(random, 0).source().removeprefix("\ufeff").replace("\r\n", "\n").replace("\r", "\n")
    return source if source.endswith("\n") else source + "\n"


def changed(random):
    """A script with one or two changes, after which it is refused by a rule of scope, or means something else."""
    while True:
        source = plain_script(random)
        try:
            for _ in range(random.choice([1, 1, 2])):
                source = random.choice(CHANGES)(random, source)
            if has_derivation(source):
                return source, rules.refusal(source)
        except SyntaxError:
            # a change that leaves no script
            continue


def has_derivation(source):
    """Whether a script that CPython parses has one here too: loops have no `else`, and only a name is called."""
    nodes = list(ast.walk(ast.parse(source)))
    loops = [node for node in nodes if isinstance(node, (ast.While, ast.For))]
    calls = [node for node in nodes if isinstance(node, ast.Call)]
    return not any(loop.orelse for loop in loops) and all(isinstance(call.func, ast.Name) for call in calls)


def other_name(random, source):
    """One name becomes another one."""
    places = [found for found in WORD.finditer(source) if found.group() not in KEYWORDS]
    names = sorted({found.group() for found in places} - {"pydron"}) + MORE_NAMES
    old = random.choice(places) if places else None
    return source[: old.start()] + random.choice(names) + source[old.end() :] if old else source


def items(source):
    """The texts of the module's items, each with its decorators and with what stands before it."""
    lines, last, texts = source.split("\n"), 0, []
    for item in ast.parse(source).body:
        texts.append("\n".join(lines[last : item.end_lineno]))
        last = item.end_lineno
    return texts


def other_order(random, source):
    """An item of the module stands elsewhere."""
    texts = items(source)
    moved = texts.pop(random.randrange(len(texts)))
    texts.insert(random.randrange(len(texts) + 1), moved)
    return "\n".join(texts) + "\n"


def twice(random, source):
    """An item of the module stands twice."""
    texts = items(source)
    texts.insert(random.randrange(len(texts) + 1), random.choice(texts))
    return "\n".join(texts) + "\n"


def without_line(random, source):
    lines = source.split("\n")
    del lines[random.randrange(len(lines))]
    return "\n".join(lines)


def one_more_line(random, source):
    lines = source.split("\n")
    at = random.randrange(len(lines))
    width = len(lines[at]) - len(lines[at].lstrip(" "))
    more = ["return", "return 1", "break", "continue", "pass", "x = 1 + 1", "print(1)"]
    lines.insert(at, " " * width + random.choice(more))
    return "\n".join(lines)


def other_mark(random, source):
    """A function gets one more decorator, or loses one."""
    lines = source.split("\n")
    heads = [at for at, line in enumerate(lines) if line.startswith(("def ", "@"))]
    if heads:
        at = random.choice(heads)
        if lines[at].startswith("@") and random.random() < 0.5:
            del lines[at]
        else:
            lines.insert(at, "@" + random.choice(["functional", "functional", "schedule", "unknown"]))
    return "\n".join(lines)


CHANGES = [other_name] * 4 + [other_order, without_line, twice, one_more_line, other_mark, other_mark]
