from pydron import schedule

@schedule
def total(n):
    s = 0
    for i in range(n):
        s = s + i
    return s

x = total(3)
if x > 2:
    print("large", x)
