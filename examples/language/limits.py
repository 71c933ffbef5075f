# integers end at 128 bits: CPython goes on here, and the profile doesn't
factorial = 1
for k in range(1, 37):
    factorial *= k
    print(k, factorial)
