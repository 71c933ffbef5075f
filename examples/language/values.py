# the five kinds of values
print(170141183460469231731687303715884105727, True, None, "text", (1, (2, ())))

# truth values are numbers: they count as 0 and 1
print(True + True, True == 1, (0, 1) == (False, True), -True)

# these are false, and all else is true
print(bool(None), bool(False), bool(0), bool(""), bool(()))
print(bool(-1), bool(" "), bool((None,)), bool("False"))

# different kinds are unequal, and have no order
print(1 == "1", () == "", None == False, None == None)
