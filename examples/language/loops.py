def collatz(n):
    """How many steps it takes to come to 1."""
    steps = 0
    while True:
        if n == 1:
            break
        n = n // 2 if n % 2 == 0 else 3 * n + 1
        steps += 1
    return steps


def first_with(steps):
    """Leaves its loop by a return."""
    for n in range(1, 1000):
        if collatz(n) == steps:
            return n


for n in (6, 7, 27):
    print(n, collatz(n))
print(first_with(20), first_with(-1))

# the names of a loop keep their last values
for character in "abc":
    if character == "b":
        continue
    print(character)
print(character)
