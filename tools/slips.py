"""What newcomers write for what the pattern language has, by the token at which `lift` stops."""
import difflib
import re

from grammar import FORMS, LOWERED, RESERVED, Reader, Stopped

MARKS = {
    "+": "a sum is `add(a, b)`",
    "->": "a dot stands behind the binder: `map(\\x. body, array)`",
    "=>": "a binder is `\\x.`, with the body behind it: `map(\\x. body, array)`",
    "-": "a difference is `sub(a, b)`",
    "*": "a product is `mul(a, b)`",
    "/": "a quotient is `div(a, NUMBER)`: no term divides by another term",
    "%": "a remainder is `rem(a, NUMBER)`: no term divides by another term",
    "<<": "a shift is `shl(a, b)`",
    ">>": "a shift is `shr(a, b)`",
    "<=": "`a <= b` is `eq(lt(b, a), 0)`",
    ">=": "`a >= b` is `eq(lt(a, b), 0)`",
    "<": "`a < b` is `lt(a, b)`, 1 or 0",
    ">": "`a > b` is `lt(b, a)`, 1 or 0",
    "==": "`a == b` is `eq(a, b)`, 1 or 0",
    "!=": "`a != b` is `eq(eq(a, b), 0)`",
    "!": "`!a` is `eq(a, 0)`",
    "~": "all bits the other way are `xor(a, 4294967295)`",
    "&": "and is `and(a, b)`, bit by bit",
    "|": "or is `or(a, b)`, bit by bit",
    "^": "exclusive or is `xor(a, b)`",
    "?": "a choice is `select(condition, a, b)`",
    "{": "there are no braces: a body is one term",
    "//": "a comment begins with `#`",
    "/*": "a comment begins with `#`, and ends with its line",
    ";": "no `;` stands behind the output's term",
    "[": "no element is taken by its number: `map`, `zip`, `slide`, `split`, `transpose` say which",
}
TYPES = "numbers are `u32` alone: words of 32 bits"
LARGE = "a number has no leading zero, and is at most 4294967295"
QUOTIENT = "no length is a quotient: `size N multiple 4 ..`, or a size that counts pieces"
DIVISOR = "no term divides by another term: the divisor is a number in the text"
RAW = (
    "a text in Python begins with r, as r\"output ..\": "
    "else `\\` and the letter behind it are one byte"
)
WORDS = {
    **dict.fromkeys("f32 float double half int uint i32 i64 u64 u8 u16 bool".split(), TYPES),
    "if": MARKS["?"],
    "then": MARKS["?"],
    "not": MARKS["!"],
    "plus": MARKS["+"],
    "minus": MARKS["-"],
    "times": MARKS["*"],
    "sum": "a sum is `reduce(add, 0, array)`, an array of one",
    "prod": "a product is `reduce(mul, 1, array)`, an array of one",
    "product": "a product is `reduce(mul, 1, array)`, an array of one",
    "foldl": "a fold is `fold(\\a x. body, start, array)`",
    "scan": "there is no scan: docs/STRATEGIES.md says how a scan of parts is written",
    "iota": "there are no indices as values: an array of them is an input",
    "range": "there are no indices as values: an array of them is an input",
    "gather": "there is no gather: layouts say which element stands where",
    "filter": "there is no filter: a length hangs on sizes alone; `select` chooses values",
    "for": "there are no loops: `map`, `fold` and `reduce` go over arrays",
    "lambda": MARKS["=>"],
    "fn": MARKS["=>"],
    "fun": MARKS["=>"],
    "concat": "no form puts two arrays behind one another: `pad` repeats ends, `join` takes rows",
    "flatten": "that is `join(array)`",
    "concatMap": "that is `join(map(\\x. body, array))`",
    "enumerate": "there are no indices as values: an array of them is an input, for `zip`",
    "fst": "that is `first(p)`",
    "snd": "that is `second(p)`",
    "window": "windows are `slide(SIZE, STEP, array)`",
    "windows": "windows are `slide(SIZE, STEP, array)`",
    "chunks": "pieces are `split(LENGTH, array)`",
    "reshape": "that is `split(LENGTH, array)`, or `join(array)`",
    "mod": "a remainder is `rem(a, NUMBER)`",
    "local": "a script's step copies: docs/RULES.md",
}


def slip_of(stop: Stopped) -> str:
    """What is meant by the token, in the language's own words; empty where that can't be known."""
    token, text = stop.token.text, stop.reader.text[stop.token.offset :]
    return (
        by_place(token, stop)
        or (reserved(token, stop) if token in RESERVED else "")
        or ("" if token == ";" and "end" not in stop.wanted else marked(token, text))
        or WORDS.get(token, "")
        or named(stop)
    )


def by_place(token: str, stop: Stopped) -> str:
    """What is meant where that hangs on what is wanted."""
    before = stop.reader.tokens[stop.reader.next - 1].text if stop.reader.next else ""
    operator = {"+": "add", "*": "mul", "&": "and", "|": "or", "^": "xor"}.get(token)
    cases = [
        (token.isdigit() and stop.token.value is None, LARGE),
        (token == "." and before.isdigit(), TYPES),
        (token == "_", "a name begins with a letter"),
        (stop.wanted == "`\\`" and is_escaped(stop), RAW),
        (stop.wanted == "`.`" and token == ":", MARKS["->"]),
        (stop.wanted == "`\\`", "a function is written where it is used: `\\x. body`"),
        (operator and stop.wanted.startswith("an operator"), f"`{token}` is `{operator}` here"),
        (token == "," and "element" in stop.wanted, "no comma stands between a fold's two names"),
        (token == "/" and "LENGTH" in stop.around, QUOTIENT),
        (stop.around.startswith(("div", "rem")) and "number" in stop.wanted, DIVISOR),
        (
            token == "u32" and stop.wanted.startswith("`[`"),
            "one number is an array of one: `[u32; 1]`",
        ),
        (token in FORMS and "`output`" in stop.wanted, "the term stands behind `output`"),
        (token == ")" and "end" in stop.wanted, "here is one `)` more than there are `(`"),
        (
            stop.wanted == "`;`" and token in ("size", "input", "output"),
            "a declaration ends with `;`",
        ),
        (token == "size", "sizes are declared before inputs"),
        (token == "input", "inputs are declared before the output"),
    ]
    return next((told for holds, told in cases if holds), "")


def is_escaped(stop: Stopped) -> bool:
    """Whether `\\` and a letter stand there as one byte: a text in Python that isn't raw."""
    before = stop.reader.text[: stop.token.offset]
    return stop.token.text in [*"\a\b\f\v"] or bool(re.search(r"\([\n\r\t]$", before))


def marked(token: str, text: str) -> str:
    """What a mark of one or two bytes is here."""
    mark = next((it for it in MARKS if len(it) == 2 and text.startswith(it)), token)
    return MARKS.get(mark, "")


def reserved(token: str, stop: Stopped) -> str:
    if token in LOWERED:
        return (
            f"`{token}` is made by a script's step, `{LOWERED[token]}`; a program has plain forms"
        )
    if "name" in stop.wanted:
        return f"`{token}` is a reserved word: take another name"
    return f"`{token}` is written `{FORMS[token]}`" if token in FORMS else ""


def named(stop: Stopped) -> str:
    """What is near to a name that isn't known here."""
    token, reader = stop.token.text, stop.reader
    if len(token) > 32:
        return "a name has at most 32 bytes"
    if token in reader.sizes:
        return f"`{token}` is a size, and no term: what depends on one is an input"
    words = known(reader)
    near = [] if token in words else difflib.get_close_matches(token, words, 3, 0.6)
    return f"near it: {', '.join(near)}" if near else ""


def known(reader: Reader) -> list[str]:
    """The words that might be meant."""
    declaring = ["size", "input", "output", "multiple", "from", "to", "u32", "in"]
    return [*reader.scope, *reader.inputs, *reader.sizes, *FORMS, *declaring]
