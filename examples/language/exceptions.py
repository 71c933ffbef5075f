def share(total, parts):
    assert parts >= 0, "no such parts"
    return total // parts


def report(total, parts):
    print(total, "over", parts)
    print(share(
        total,
        parts,
    ))


report(7, 2)
report(7, 0)
print("never printed")
