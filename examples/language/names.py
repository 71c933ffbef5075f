"""What a name stands for."""
from pydron import functional

LEVEL = 50
FIELDS = (("north", 17), ("east", 5))


@functional
def level():
    # a constant of the module
    return LEVEL


@functional
def length(len):
    # a parameter may have the name of a builtin function, and is then a local
    return len + 1


def local(x):
    # bound anywhere, so a local everywhere
    LEVEL = x
    return LEVEL


print(level(), length(9), local(7), LEVEL)
print(len(FIELDS), __name__)
