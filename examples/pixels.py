"""Counts of bright pixels in three small fields."""
from pydron import schedule, functional

# a pixel at or above LEVEL is bright
LEVEL = 50
FIELDS = (("north", 17, 5), ("east", 5, 4), ("west", 29, 3))

@functional
def pixel(seed, i):
    return (seed * i * i + 13 * i) % 100

@functional
def bright(seed, n):
    count = 0
    for i in range(n):
        if pixel(seed, i) >= LEVEL:
            count += 1
    return count

@functional
def depth(n):
    """Halvings until one is left."""
    if n <= 1:
        return 0
    return 1 + depth(n // 2)

def report(rows):
    for name, found, levels in rows:
        if found > 0:
            print(name + ":", found, levels)
        else:
            print(name + ": none")

@schedule
def main():
    rows = ()
    total = 0
    for name, seed, n in FIELDS:
        found = bright(seed, n)
        rows += ((name, found, depth(n)),)
        total += found
    report(rows)
    print("total", total, "of", sum((5, 4, 3)))
    print(rows[-1], max(rows)[0])

if __name__ == "__main__":
    main()
