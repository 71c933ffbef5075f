"""The cheapest way through a field of costs, from its left edge to its right one."""
from pydron import schedule, functional

FIELD = ((3, 7, 2, 9, 4, 1), (8, 1, 6, 2, 7, 5), (2, 9, 1, 8, 3, 6), (5, 3, 7, 1, 2, 8))


@functional
def cheapest(row, column):
    """The least cost of a way to this place, by steps to the right, also upwards or downwards."""
    cost = FIELD[row][column]
    if column == 0:
        return cost
    ways = ()
    for before in range(max(row - 1, 0), min(row + 2, len(FIELD))):
        ways += (cheapest(before, column - 1),)
    return cost + min(ways)


@schedule
def main():
    best = ()
    for row in range(len(FIELD)):
        cost = cheapest(row, len(FIELD[row]) - 1)
        print("to row", row, "it costs", cost)
        best += ((cost, row),)
    print("the cheapest is", min(best))


main()
