# integers in four bases, with underscores
print(1_000_000, 0x_ff, 0o17, 0b1010_1010, 00)

# strings in four kinds of quotes, with the six escapes
print('one', "two", '''three''', """four
lines""")
print("\\ \' \" tab:\tend", 'a\nb')

# between brackets a line end and indentation mean nothing
print(
    1 + 2,  # a comment
        (3,
    4),
)

# a name may have letters of any script
été = "été"
print(été, len(été))
