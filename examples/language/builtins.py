print(len("été"), len((1, 2, 3)), abs(-7), abs(True))

# the first that no other is below or above
print(min(3, 1, 2), max((3, 1, 2)), min("hello"), max(1, True), max(True, 1))
print(sum((1, 2, 3)), sum((1, 2), 10), sum(((1,), (2, 3)), ()), sum(()))
print(bool(), bool("x"), int(), int(True), int(" -1_0 "), int("007"))
print(str(), str(12) + "!", repr("12") + "!")

for i in range(3):
    print(i)
for i in range(10, 0, -4):
    print(i)
for i in range(2, 2):
    print("never")
