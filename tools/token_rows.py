#!/usr/bin/env python3
"""Writes the rows of crates/pyd_script_tests/src/lex/rows.rt: sources, and their tokens by CPython's tokenize.

Run by hand at the top of the repository: python3 tools/token_rows.py > crates/pyd_script_tests/src/lex/rows.rt

What CPython gives is kept: the kinds, the values, and the places of all tokens that are spelled. INDENT, DEDENT
and ENDMARKER, which are spelled by nothing here, are put where the next spelled token begins, or at the end.
"""

import ast
import io
import keyword
import tokenize

MARKS = dict(line.split() for line in """
**= PowAssign
//= DivAssign
<<= ShlAssign
>>= ShrAssign
** Pow
// Div
<< Shl
>> Shr
<= Le
>= Ge
== Eq
!= Ne
+= AddAssign
-= SubAssign
*= MulAssign
%= ModAssign
&= AndAssign
|= OrAssign
^= XorAssign
+ Add
- Sub
* Mul
% Mod
& And
| Or
^ Xor
< Lt
> Gt
= Assign
( LeftParen
) RightParen
[ LeftBracket
] RightBracket
, Comma
: Colon
@ At
""".split("\n") if line)

SOURCES = [
    "",
    "\n",
    "x",
    "x\n",
    "x  # end",
    "# alone",
    "  # alone\n\n   \nx\n",
    "x = 1\ny = 2\n",
    "x\r\ny\r\n",
    "def f(a, b):\n    return a + b\n",
    "if a:\n  b\n  if c:\n      d\ne\n",
    "while x:\n if y:\n  pass\n\n # low\n  break\nelse:\n return\n",
    "for i in range(3):\n\tpass\n".replace("\t", "    "),
    "x = (1,\n     2,\n  # three\n\n 3)\n",
    "f([1, (2,\n3)],\n4)\n",
    "a **= b // c << d >> e ** f\n",
    "a //= b; ".replace("; ", "\n") + "a <<= 1\na >>= 1\na += 1\na -= 1\na *= 2\na %= 3\na &= 4\na |= 5\na ^= 6\n",
    "a<b<=c==d!=e>=f>g\n",
    "a+b-c*d%e&f|g^h@i\n",
    "a***b\n",
    "a<<=b>>=c**=d//=e\n",
    "a[1:2]\n",
    "False None True and as assert async await break class continue def del elif else except finally for\n",
    "from global if import in is lambda nonlocal not or pass raise return try while with yield\n",
    "false Nones _true __x__ _ a1 été 名前 if_ ifx\n",
    "0 00 0_0 7 10 1_000 123456789012345678901234567890\n",
    "0x_1 0XfF 0xdead_beef 0o17 0O_7 0b101 0B_1\n",
    "170141183460469231731687303715884105727\n",
    "'' \"\" 'a' \"b\" '''c''' \"\"\"d\"\"\" '''''' \"\"\"\"\"\"\n",
    "'a\\\\b\\'c\\\"d\\ne\\tf\\rg'\n",
    "\"it's\" 'say \"hi\"' 'été 名'\n",
    "'''one\ntwo'three''four\n''' x\n",
    "\"\"\"a\\\"\"\"b\"\"\"\n",
    "'#' # '\n",
    "x = '''a\n\n  b''' + 'c'\n",
    "'a' 'b'\n",
    "@schedule\ndef f():\n  '''doc'''\n",
    "-1 - -1\n",
    "if x:\n  y",
    "if x:\n  y # z",
    "(1",
]


def tokens(source):
    """CPython's tokens, also of brackets that aren't closed, which it reports at the end."""
    found = []
    try:
        for token in tokenize.generate_tokens(io.StringIO(source, newline="").readline):
            found.append(token)
    except tokenize.TokenError:
        pass
    return found


def starts(source):
    """The byte at which each line begins, by CPython's rows."""
    at, offsets = 0, [0, 0]
    for line in source.split("\n"):
        at += len((line + "\n").encode())
        offsets.append(at)
    return offsets


def rows(source):
    lines = [line + "\n" for line in source.split("\n")]
    offsets = starts(source)
    size, last = len(source.encode()), 1 + source.count("\n")

    def place(position):
        row, column = position
        if row > len(lines):
            return size
        return min(size, offsets[row] + len(lines[row - 1][:column].encode()))

    out, waiting = [], []
    for token in tokens(source):
        kind, text = token.type, token.string
        if kind in (tokenize.COMMENT, tokenize.NL):
            continue
        if kind == tokenize.INDENT:
            waiting.append("Indent")
            continue
        if kind == tokenize.DEDENT:
            waiting.append("Dedent")
            continue
        start, end, line = place(token.start), place(token.end), token.start[0]
        if kind == tokenize.ENDMARKER:
            break
        if kind == tokenize.NEWLINE:
            name = "Newline"
            if not text:
                start, end, line = size, size, last
        elif kind == tokenize.NAME:
            name = f"Word({text[0].upper()}{text[1:]})" if keyword.iskeyword(text) else "Name"
        elif kind == tokenize.NUMBER:
            name = f"Int({ast.literal_eval(text)})"
        elif kind == tokenize.STRING:
            name = "Str"
        else:
            name = f"Mark({MARKS[text]})"
        for word in waiting:
            out.append(f"{word}@{start}-{start}:{line}")
        waiting = []
        out.append(f"{name}@{start}-{end}:{line}")
    for word in waiting + ["End"]:
        out.append(f"{word}@{size}-{size}:{last}")
    return " ".join(out)


def texts(source):
    return [ast.literal_eval(t.string) for t in tokens(source) if t.type == tokenize.STRING]


def literal(text):
    plain = "".join(c if " " <= c < "\x7f" and c not in "\"\\" else "\\u{%x}" % ord(c) for c in text)
    return '"' + plain + '"'


def table(name, kind, lines):
    print(f"\npub(crate) const {name}: [{kind}; {len(lines)}] = [")
    for line in lines:
        print(f"    {line},")
    print("];")


print("//! Sources, and what CPython's tokenize makes of them. Written by tools/token_rows.py.")
table("TOKENS", "(&str, &str)", [f"({literal(s)}, {literal(rows(s))})" for s in SOURCES])
print("\n// Sources of strings alone, and the texts of these, each behind a vertical bar.", end="")
table("TEXTS", "(&str, &str)",
      [f"({literal(s)}, {literal(''.join('|' + t for t in texts(s)))})" for s in SOURCES if texts(s)])
