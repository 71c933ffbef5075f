"""The two marks of a script for pydron, so that the same script runs under python3 too.

`PYTHONPATH=python python3 script.py` at the top of the repository. A mark hands back the function
that it is given: it says how pydron may run the function, and never what the function means.
"""

__all__ = ["schedule", "functional"]


def schedule(function):
    """Marks a function whose statements may be spread over workers."""
    return function


def functional(function):
    """Marks a pure function, a call of which may run on any worker, early and again."""
    return function
