def shown(x):
    print("shown", x)
    return x


# from left to right, and no more than is needed
print(shown(1) + shown(2) * shown(3))
print(shown(0) and shown(1), shown("") or shown("a"))
print(shown(1) < shown(3) < shown(2) < shown(9))
print(shown("yes") if shown(()) else shown("no"))

# how tightly operators hold
print(-2 ** 2, 2 ** 3 ** 2, 10 - 4 - 3, not 1 == 2, 1 | 2 ^ 3 & 4 << 1)
print("hello"[1:-1], "hello"[-1], (1, 2, 3)[5:], "hello"[1:][:2][-1])
