# an augmented assignment reads its name before its right side
def shown(x):
    print("shown", x)
    return x


x = 5
x += shown(2)
x *= x
x //= 10
x **= 3
x %= 50
x <<= 2
x >>= 1
x |= 1
x &= 31
x ^= 7
x -= 1
print(x)
t = "a"
t += "b"
t *= 3
rows = ()
rows += ((t, x),)
print(rows)
assert rows, shown("not evaluated")
