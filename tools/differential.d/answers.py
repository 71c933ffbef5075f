"""What the three say of a script, and where they differ."""
import re
import subprocess
from typing import NamedTuple, Optional

import cpython
import evaluator
from operations import LIMITS

SECONDS = 120
FINISHED = ("Finished", 0)
# exceptions of CPython where the profile has a value, or a limit of its own
WIDE = ("OverflowError", "MemoryError", "RecursionError", "Stopped")
LINE = re.compile(r"(?:(LIMIT|REFUSED) )?(\w+)(?:: (?:line|byte) (\d+))?\n")


class Answer(NamedTuple):
    """What was printed, and how it ended: a name and a line, which is 0 where there is none."""
    printed: bytes
    end: tuple

    def text(self, most):
        """The end, and the last bytes of what was printed."""
        shown = self.printed if len(self.printed) <= most else b"... " + self.printed[-most:]
        place = f" in line {self.end[1]}" if self.end[1] else ""
        return f"{self.end[0]}{place}, having printed\n{shown.decode(errors='replace')}"


class Comparison(NamedTuple):
    differs: Optional[str]
    end_name: str
    lines: int
    notes: tuple
    answers: tuple

    def text(self, most=4_000):
        return "\n".join(f"{who}: {answer.text(most)}" for who, answer in self.answers)


def by_program(source, program):
    """The program's answer, by its status and its error line."""
    try:
        ran = subprocess.run(program, input=source, capture_output=True, timeout=SECONDS)
    except subprocess.TimeoutExpired as late:
        return Answer(late.stdout or b"", ("no end", 0))
    error = ran.stderr.decode(errors="replace")
    if ran.returncode == 0 and not error:
        return Answer(ran.stdout, FINISHED)
    line = LINE.fullmatch(error)
    status = {None: 1, "LIMIT": 4, "REFUSED": 3}
    if not line or status[line.group(1)] != ran.returncode:
        return Answer(ran.stdout, (f"status {ran.returncode}: {error}", 0))
    name = f"REFUSED {line.group(2)}" if line.group(1) == "REFUSED" else line.group(2)
    return Answer(ran.stdout, (name, int(line.group(3) or 0)))


def by_evaluator(source):
    printed, end = evaluator.evaluate(source)
    return Answer(printed.encode(), end or FINISHED)


def by_cpython(source, ours):
    """CPython's answer. Where the profile has a limit it is asked for no more than what came out before it."""
    enough = len(ours.printed) if ours.end[0] in LIMITS else None
    printed, end = cpython.run(source, enough)
    return Answer(printed, end or FINISHED)


def difference(one, other):
    """What of two answers differs, in a word."""
    if one.printed != other.printed:
        return "output"
    return "end" if one.end != other.end else None


def against_cpython(ours, theirs):
    """The difference between the evaluator and CPython, and what can't be compared."""
    if ours.end[0] in LIMITS:
        begins = theirs.printed[: len(ours.printed)] == ours.printed
        return (None if begins else "output before a limit"), ()
    if theirs.end[0] in WIDE:
        begins = ours.printed.startswith(theirs.printed)
        return (None if begins else "output"), (f"end by {theirs.end[0]} in CPython, where the profile goes on",)
    return difference(ours, theirs), ()


def compare(source, refusal, program, with_cpython=True):
    """Compares all that is asked of a script; without a program CPython and the evaluator alone."""
    if refusal:
        return of_refused(source, refusal, program)
    try:
        ours = by_evaluator(source)
    except evaluator.TooLong:
        return Comparison(None, "too long", 0, (), ())
    answers, differs, notes = [("evaluator", ours)], None, ()
    if with_cpython:
        theirs = by_cpython(source, ours)
        differs, notes = against_cpython(ours, theirs)
        differs = differs and f"evaluator and CPython: {differs}"
        answers.append(("CPython", theirs))
    if program:
        given = by_program(source, program)
        answers.append(("program", given))
        if difference(ours, given):
            differs = f"evaluator and program: {difference(ours, given)}"
    return Comparison(differs, ours.end[0], ours.printed.count(b"\n"), notes, tuple(answers))


def of_refused(source, refusal, program):
    expected = Answer(b"", (f"REFUSED {refusal[0]}", refusal[1]))
    if not program:
        return Comparison(None, "refused", 0, (), ())
    given = by_program(source, program)
    differs = difference(expected, given) and "refusal"
    return Comparison(differs, "refused", 0, (), (("expected", expected), ("program", given)))
