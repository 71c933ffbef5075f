"""Writes crates/pyd_value_tests/src/store/calls.rt: calls of a store, with what a dict of CPython has then."""
import random

NODES = (0, 1, 2, 3, 2**32, 2**64 - 1)


def calls():
    """Some calls in each order, and after each the answers at every node."""
    chance = random.Random(7)
    kept = {}
    for number in range(40):
        node = chance.choice(NODES)
        if number % 13 == 12:
            kept.clear()
            yield "clear"
        elif number % 3 == 2:
            kept.pop(node, None)
            yield f"remove {node}"
        else:
            kept[node] = number - 20
            yield f"put {node} {number - 20}"
        yield "has " + " ".join(str(kept.get(node, "-")) for node in NODES)


with open("crates/pyd_value_tests/src/store/calls.rt", "w") as out:
    out.write("//! Calls of a store, and what it has then. Written by tools/store_rows.py.\n\n")
    out.write("/// The nodes whose outcomes a line `has` gives, `-` marking none.\n")
    out.write(f"pub(crate) const NODES: [u64; {len(NODES)}] = {list(NODES)};\n\n")
    out.write("pub(crate) const CALLS: &str = \"\\\n")
    out.writelines(call + "\n" for call in calls())
    out.write("\";\n")
