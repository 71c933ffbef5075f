from pydron import schedule, functional


@functional
def squares(first, last):
    total = 0
    for number in range(first, last):
        total = total + number * number
    return total


@schedule
def parts(count):
    total = 0
    for part in range(count):
        total = total + squares(part * 100, part * 100 + 100)
    return total


print(parts(10))
