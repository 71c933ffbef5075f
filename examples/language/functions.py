"""A mark says how a function may be run, and never what it means."""
from pydron import schedule, functional


@functional
def gcd(a, b):
    return a if b == 0 else gcd(b, a % b)


@functional
def is_even(n):
    return True if n == 0 else is_odd(n - 1)


@functional
def is_odd(n):
    return False if n == 0 else is_even(n - 1)


def report(title, row):
    print(title + ":", row)


@schedule
def main():
    report("gcd", (gcd(462, 1071), gcd(7, 0)))
    report("even", (is_even(10), is_even(7)))


print(main())
