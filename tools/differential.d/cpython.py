"""Runs a script by this CPython, in a process of its own, and says what it printed and how it ended.

The end is the kind and the line of an uncaught exception, or None. The line is the first one of the innermost
statement or header that was being executed, whichever of its lines the traceback names.
"""
import ast
import os
import pickle
import resource
import select
import signal
import sys
import time
import warnings

SECONDS, MEMORY = 30, 4 << 30
NAME = "<script>"
KINDS = ("NameError", "UnboundLocalError", "TypeError", "ValueError", "IndexError", "ZeroDivisionError", "AssertionError")
COMPOUND = (ast.If, ast.While, ast.For)


def first_lines(source):
    """The first line of the statement or header to which each line belongs."""
    lines = {}
    for node in ast.walk(ast.parse(source)):
        if isinstance(node, ast.stmt) and not isinstance(node, ast.FunctionDef):
            header = getattr(node, "iter", None) or getattr(node, "test", None) if isinstance(node, COMPOUND) else None
            for line in range(node.lineno, (header or node).end_lineno + 1):
                lines[line] = node.lineno
    return lines


def raised_line(code, fault):
    """The line of the script that the innermost entry of a traceback names.

    CPython 3.11 joins instructions of neighbouring lines and may name an unbound local in the line before it;
    under a trace it doesn't, so such a script is run once more.
    """
    if type(fault) is not UnboundLocalError:
        entries, entry = [], fault.__traceback__
        while entry:
            entries.append(entry)
            entry = entry.tb_next
        return next(e.tb_lineno for e in reversed(entries) if e.tb_frame.f_code.co_filename == NAME)
    seen = []

    def trace(frame, event, argument):
        if event == "exception" and argument[0] is UnboundLocalError:
            seen.append(frame.f_lineno)
        return trace if frame.f_code.co_filename == NAME else None

    sys.stdout = open(os.devnull, "w", encoding="utf-8")
    sys.settrace(trace)
    try:
        exec(code, {"__name__": "__main__"})
    except UnboundLocalError:
        sys.settrace(None)
    return seen[0]


def child(source, output, verdict, at_once):
    """Runs the script; what it prints goes to one pipe, at once or gathered, and its end to the other."""
    resource.setrlimit(resource.RLIMIT_CPU, (SECONDS, SECONDS))
    resource.setrlimit(resource.RLIMIT_AS, (MEMORY, MEMORY))
    warnings.simplefilter("ignore")
    sys.setrecursionlimit(3_000)
    sys.set_int_max_str_digits(0)
    end = None
    with open(output, "w", encoding="utf-8", buffering=1 if at_once else 1 << 16) as sys.stdout:
        try:
            code = compile(source, NAME, "exec")
            exec(code, {"__name__": "__main__"})
        except Exception as fault:
            end = fault
        sys.stdout.flush()
        if end is not None:
            kind, line = type(end).__name__, 0
            if kind in KINDS:
                line = first_lines(source).get(raised_line(code, end), 0)
            end = (kind, line)
    with open(verdict, "wb") as pipe:
        pickle.dump(end, pipe)


def read(output, process, enough):
    """All that the pipe gives, or as many bytes as are enough."""
    printed, deadline, ready = bytearray(), time.monotonic() + SECONDS, True
    while enough is None or len(printed) < enough:
        ready, _, _ = select.select([output], [], [], max(deadline - time.monotonic(), 0))
        piece = os.read(output, 1 << 16) if ready else b""
        if not piece:
            break
        printed += piece
    if enough is not None or not ready:
        os.kill(process, signal.SIGKILL)
    return bytes(printed)


def run(source, enough=None):
    """What the script prints, and how it ends. It is stopped where it has printed as many bytes as are enough."""
    output, output_end = os.pipe()
    verdict, verdict_end = os.pipe()
    process = os.fork()
    if process == 0:
        try:
            os.close(output)
            os.close(verdict)
            child(source, output_end, verdict_end, enough is not None)
        finally:
            os._exit(0)
    os.close(output_end)
    os.close(verdict_end)
    printed = read(output, process, enough)
    os.close(output)
    with open(verdict, "rb") as pipe:
        end = pipe.read()
    os.waitpid(process, 0)
    return printed, pickle.loads(end) if end else ("Stopped", 0)
