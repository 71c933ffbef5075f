# `str` of a text is that text, `repr` is how it could be written
print("it's", repr("it's"), repr('a "b"'), repr("both \" and '"))
print(repr("a\tb\nc\\d"), repr("été"), repr("\r"))

# the members of a tuple stand by their `repr`
print((), (1,), (1, "a"), ("it's", None, True), ((), ((),)))
print(str((1, 2)) + str(None) + str(-0), len(str(2 ** 100)))
print()
