# division rounds down, and what remains has the sign of the divisor
print(7 // 2, -7 // 2, 7 // -2, 7 % 3, -7 % 3, 7 % -3)
print(2 ** 10, 0 ** 0, (-2) ** 127, 1 << 126, -9 >> 1, -1 >> 200)

# bit by bit, in two's complement; a truth value of two truth values
print(12 & 10, 12 | 10, 12 ^ 10, -1 & 255, True & False, True & 3)

# texts and tuples are joined and repeated
print("ab" + "cd", "ab" * 3, 2 * (1, 2), "ab" * -1, (1,) + ())

# comparisons: numbers, texts by code points, tuples by their first members that differ
print(1 < 2 <= 2, "Z" < "a" < "é", (1, 2) < (1, 3), (1, 2) < (2, "a"))
print(2 in (1, 2), "ell" in "hello", 4 not in (1, 2), "" in "")
