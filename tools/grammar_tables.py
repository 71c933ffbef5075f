#!/usr/bin/env python3
"""Writes src/productions.rt, src/table.rt and specs/Sets.antt of crates/pyd_syntax from the grammar's pages.

Run by hand at the top of the repository, after a production was added: python3 tools/grammar_tables.py
Then `rt fmt` in crates/pyd_syntax lays the tables out. It reads specs/Grammar.antt, specs/Rules.antt and
src/terminal.rt of that crate, and stops where two productions of one rule may begin with the same terminal. What it
writes needs no trust: the crate's check computes it anew.
"""

import re

CRATE = "crates/pyd_syntax/"
OTHER = 0
FIRST_RULE = 128


def read(path):
    with open(CRATE + path, encoding="utf-8") as page:
        return page.read()


def numbers(path, pattern):
    return {name: int(number) for name, number in re.findall(pattern, read(path), re.M)}


terminals = numbers("src/terminal.rt", r"^pub const (\w+): u8 = (\d+);")
count = terminals.pop("TERMINALS")
rules = numbers("specs/Rules.antt", r"^(\w+) = (\d+)$")
grammar = []
for of, to in re.findall(r"^    \((\w+) ⟶ (.*)\) ∷$", read("specs/Grammar.antt"), re.M):
    symbols = [symbol.split() for symbol in to.split(" ∷ ")[:-1]]
    grammar.append((rules[of], [(kind, rules[name] if kind == "R" else terminals[name]) for kind, name in symbols]))

nullable = set()
first = {rule: set() for rule in rules.values()}
follow = {rule: set() for rule in rules.values()}
follow[rules["file"]] = {OTHER}
witness = []


def nulls(symbols):
    return all(kind == "R" and n in nullable for kind, n in symbols)


def starts(symbols):
    found = set()
    for kind, n in symbols:
        if kind == "T":
            return found | {n}
        found |= first[n]
        if n not in nullable:
            return found
    return found


def closed(step):
    """Takes the step until it changes nothing."""
    before = None
    while before != (now := repr((nullable, first, follow, witness))):
        before = now
        for number, (of, to) in enumerate(grammar):
            step(number, of, to)


def firsts(number, of, to):
    if nulls(to):
        nullable.add(of)
    first[of] |= starts(to)


def follows(number, of, to):
    for i, (kind, n) in enumerate(to):
        if kind == "R":
            follow[n] |= starts(to[i + 1 :]) | (follow[of] if nulls(to[i + 1 :]) else set())


def witnesses(number, of, to):
    made = {grammar[p][0] for p in witness}
    if of not in made and all(kind == "T" or n in made for kind, n in to):
        witness.append(number)


closed(firsts)
closed(follows)
closed(witnesses)

table = [[len(grammar)] * count for _ in rules]
for number, (of, to) in enumerate(grammar):
    for t in starts(to) | (follow[of] if nulls(to) else set()):
        assert table[of][t] == len(grammar), ("two productions", of, t, table[of][t], number)
        table[of][t] = number

# How many symbols the rules that come first on the stack may add before a token is taken.
lead = {rule: 0 for rule in rules.values()}
for _ in rules:
    for of, to in grammar:
        if to:
            begins = lead[to[0][1]] if to[0][0] == "R" else 0
            assert to[0][0] == "T" or to[0][1] not in nullable, ("begins with a rule that may be empty", of, to)
            lead[of] = max(lead[of], begins + len(to))
bound = max(lead.values())
for rule in nullable:
    lead[rule] = bound


def array(values):
    return "[" + ", ".join(map(str, values)) + "]"


def listed(values):
    return " ∷ ".join([str(v) for v in values] + ["[]"])


width = max(len(to) for _, to in grammar)
codes = [[n + FIRST_RULE if kind == "R" else n for kind, n in to] for _, to in grammar]
productions = f"""//! The productions as codes. Written by tools/grammar_tables.py from specs/Grammar.antt.

/// The rule of a whole source.
pub const START: u8 = {rules["file"]};

/// How many productions there are.
pub const PRODUCTIONS: u8 = {len(grammar)};

/// The greatest number of symbols of a production.
pub const WIDTH: u8 = {width};

/// The code of the first rule.
pub const FIRST_RULE: u8 = {FIRST_RULE};

/// The codes of each production's symbols: a terminal's is its number, and a rule's its number behind
/// `FIRST_RULE`.
pub const SYMBOLS: [[u8; {width}]; {len(grammar)}] = [
{chr(10).join("    " + array(row + [0] * (width - len(row))) + "," for row in codes)}
];

/// How many symbols each production has.
pub const LENGTHS: [u8; {len(grammar)}] = {array(len(row) for row in codes)};
"""
entries = f"""//! Which production goes on for a rule before each terminal. Written by
//! tools/grammar_tables.py from specs/Grammar.antt.

/// How many rules there are.
pub const RULES: u8 = {len(rules)};

/// For each rule, the production before each terminal; as many as there are productions where none
/// goes on.
pub const TABLE: [[u8; {count}]; {len(rules)}] = [
{chr(10).join("    " + array(row) + "," for row in table)}
];
"""
names = list(rules)


def rows(title, name, sets):
    lines = "\n".join(f"    -- {names[r]}\n    ({listed(sorted(sets[r]))}) ∷" for r in range(len(rules)))
    return f"-- {title}\nunfoldable pub {name} : List (List ℕ)\n{name} =\n{lines}\n    []\n"


sets = f"""-- What the proofs of the table rest on, rule by rule; the check tests that it fits the grammar. Written by
-- tools/grammar_tables.py.
use Rattle.std.specs.Prelude.{{ℕ, List, [], ◌∷◌, Bool, true, false}}

-- whether a rule may stand for nothing
unfoldable pub nullable : List Bool
nullable =
    {listed("true" if r in nullable else "false" for r in range(len(rules)))}

{rows("the terminals with which a rule may begin", "first", first)}
{rows("the terminals that may come behind a rule", "follow", follow)}
-- how many symbols a rule may add to the stack before a token is taken; the bound for one that may stand for nothing
unfoldable pub lead : List ℕ
lead = {listed(lead[r] for r in range(len(rules)))}

-- more than any rule may add
abbrev pub bound : ℕ
bound = {bound}

-- a production for each rule, its rules among those before it
unfoldable pub witness : List ℕ
witness = {listed(witness)}
"""
for path, text in [("src/productions.rt", productions), ("src/table.rt", entries), ("specs/Sets.antt", sets)]:
    with open(CRATE + path, "w", encoding="utf-8") as page:
        page.write(text)
