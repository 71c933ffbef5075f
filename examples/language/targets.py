# a tuple or a text is taken apart; the right side comes first
a, b = 1, 2
a, b = b, a
print(a, b)

(first, second, third) = "xyz"
only, = (7,)
print(first, second, third, only)

# a name may stand twice, and has the later value
same, same = 1, 2
print(same)

for name, count in (("north", 17), ("east", 5)):
    print(name, count)

# brackets leave no trace, and count nothing as nesting
print((((((((((((((((((((1 + 2))))))))))))))))))))
