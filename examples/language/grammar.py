"""A statement of each kind."""
from pydron import schedule

LEVEL = 3


@schedule
def shown(a, b):
    if a < b:
        pass
    elif a == b:
        return "equal"
    else:
        return a, b
    return


print(shown(1, 2), shown(2, 2), shown(3, 2))
k = LEVEL
while k > 0:
    k -= 1
    if k == 1:
        continue
    print("turn", k)
for first, second in ((1, 2), (3, 4)):
    assert first < second, "out of order"
    if first == 3:
        break
print(first, second, k)
