"""The grammar of docs/GRAMMAR.md as data, and where a text leaves it, byte by byte.

Lists may be of any length and all else is bounded, so the grammar is a regular expression. It is
walked by derivatives: an expression's derivative by a byte says what may stand behind that byte.
Expressions are simplified as they are made, so that one that nothing fits is always NONE; the first
byte whose derivative is NONE is the first after which no text can follow.
"""
from functools import lru_cache

EXPRESSIONS, NUMBER_OF = [], {}     # each expression once, known by its number
STEPS = {}                          # derivatives that were taken already
DIGITS = "0123456789"


def expression(*parts):
    if parts not in NUMBER_OF:
        NUMBER_OF[parts] = len(EXPRESSIONS)
        EXPRESSIONS.append(parts)
    return NUMBER_OF[parts]


NONE, EMPTY = expression("none"), expression("empty")


def one_of(characters):
    return expression("one of", frozenset(characters.encode())) if characters else NONE


def two(a, b):
    if NONE in (a, b):
        return NONE
    if a == EMPTY:
        return b
    return a if b == EMPTY else expression("two", a, b)


def seq(*parts):
    made = EMPTY
    for p in reversed(parts):
        made = two(p, made)
    return made


def either(*parts):
    flat = set()
    for p in parts:
        flat.update(EXPRESSIONS[p][1] if EXPRESSIONS[p][0] == "either" else [p])
    flat.discard(NONE)
    if len(flat) > 1:
        return expression("either", frozenset(flat))
    return flat.pop() if flat else NONE


def many(a):
    return expression("many", a)


def times(least, most, a):
    return either(*[seq(*[a] * n) for n in range(least, most + 1)])


def token(kind, a, begun=False):
    """The mark of a token lets a refusal tell what could have stood there."""
    return a if a == NONE or a == EMPTY and begun else expression("token", kind, a, begun)


# ---- derivatives -------------------------------------------------------------------------

@lru_cache(None)
def ends(x):
    """Whether the text may end here."""
    op, *parts = EXPRESSIONS[x]
    if op == "two":
        return ends(parts[0]) and ends(parts[1])
    if op == "either":
        return any(ends(p) for p in parts[0])
    return ends(parts[1]) if op == "token" else op in ("empty", "many")


def derive(x, byte):
    op, *parts = EXPRESSIONS[x]
    if op == "one of":
        return EMPTY if byte in parts[0] else NONE
    if op == "two":
        rest = step(parts[1], byte) if ends(parts[0]) else NONE
        return either(two(step(parts[0], byte), parts[1]), rest)
    if op == "either":
        return either(*[step(p, byte) for p in parts[0]])
    if op == "many":
        return two(step(parts[0], byte), x)
    if op == "token":
        return token(parts[0], step(parts[1], byte), True)
    return NONE


def step(x, byte):
    key = x << 8 | byte
    if key not in STEPS:
        STEPS[key] = derive(x, byte)
    return STEPS[key]


def expected(x):
    """The tokens that may go on or begin here: kind, and whether it has begun."""
    op, *parts = EXPRESSIONS[x]
    if op == "token":
        return {(parts[0], parts[2])}
    if op == "two":
        return expected(parts[0]) | (expected(parts[1]) if ends(parts[0]) else set())
    if op == "either":
        return set().union(*[expected(p) for p in parts[0]])
    return expected(parts[0]) if op == "many" else set()


# ---- the tokens --------------------------------------------------------------------------

BLANK = one_of(" \t\n\r")
NEEDED = token("blank needed", BLANK)


def literal(text):
    return seq(*[one_of(c) for c in text])


def spaced(kind, a):
    return two(many(BLANK), token(kind, a))


def word(text):
    return spaced("word", literal(text))


def mark(text):
    return spaced("mark", literal(text))


def not_above(digits):
    """As many digits, and not above these."""
    if not digits:
        return EMPTY
    rest = times(len(digits) - 1, len(digits) - 1, one_of(DIGITS))
    return either(two(one_of(DIGITS[:int(digits[0])]), rest), two(one_of(digits[0]), not_above(digits[1:])))


def from_one(most):
    """Decimals from 1: fewer digits than the last one's, or as many and not above it."""
    first, last = one_of(DIGITS[1:]), str(most)
    fewer = [two(first, times(n, n, one_of(DIGITS))) for n in range(len(last) - 1)]
    lower = one_of(DIGITS[1:int(last[0])])
    rest = times(len(last) - 1, len(last) - 1, one_of(DIGITS))
    return either(*fewer, two(lower, rest), two(one_of(last[0]), not_above(last[1:])))


def decimal(most):
    return either(one_of("0"), from_one(most))


def named(v):
    return spaced("variable", literal("$v%d" % v))


QUEUE = spaced("queue", two(one_of("q"), decimal(23)))
VARIABLE = spaced("variable", two(literal("$v"), decimal(15)))
BYTE = spaced("byte", decimal(255))
NUMBER = spaced("number", either(decimal(2**31 - 1), two(one_of("-"), from_one(2**31))))


# ---- the grammar -------------------------------------------------------------------------

def side(*names):
    return seq(mark("("), *[p for n in names for p in (mark(","), n)][1:], mark(")"))


def args(*kinds):
    return seq(mark("["), *[p for k in kinds for p in (mark(","), k)][1:], mark("]"))


def names(word_text):
    list_of = seq(NEEDED, QUEUE, many(two(mark(","), QUEUE)))
    return seq(word(word_text), either(EMPTY, list_of), mark(";"))


def lines(step_of):
    return seq(side(QUEUE), mark("<-"), step_of, times(0, 3, two(mark("|"), step_of)), side(QUEUE))


def ways(v, name):
    """Deal and Gather name one variable, the same on both sides."""
    several = [[QUEUE] * n for n in (2, 3, 4)]
    if name == "Deal":
        return either(*[seq(side(*outs, named(v)), mark("<-"), word(name), side(QUEUE, named(v)))
                        for outs in several])
    return either(*[seq(side(QUEUE, named(v)), mark("<-"), word(name), side(*ins, named(v)))
                    for ins in several])


STEP = either(two(word("Keep"), args(BYTE, NUMBER, NUMBER)), two(word("Add"), args(BYTE, NUMBER)),
              two(word("Copy"), args(BYTE, BYTE)), two(word("Count"), args(VARIABLE, BYTE)),
              two(word("Stamp"), args(VARIABLE, BYTE)))
OPERATOR = either(lines(STEP),
                  seq(side(VARIABLE), mark("<-"), word("Latest"), args(BYTE), side(QUEUE)),
                  seq(side(QUEUE, QUEUE), mark("<-"), word("Double"), side(QUEUE)),
                  *[ways(v, name) for v in range(16) for name in ("Deal", "Gather")])
TEXT = seq(names("output"), names("input"), word("vars"), NEEDED, BYTE, mark(";"),
           many(two(OPERATOR, mark(";"))), many(BLANK))


# ---- answers -----------------------------------------------------------------------------

@lru_cache(None)
def label(x):
    """What could have stood at a refused byte; `in` a kind where a token had begun."""
    kinds = expected(x)
    begun = {"in " + kind for kind, b in kinds if b}
    return "/".join(sorted(begun or {kind for kind, _ in kinds}))


def refused(text):
    """None for a text of the grammar, else the byte where it is refused and what could stand there."""
    at = TEXT
    for i, byte in enumerate(text):
        further = STEPS.get(at << 8 | byte)
        if further is None:
            further = step(at, byte)
        if further == NONE:
            return i, label(at)
        at = further
    return None if ends(at) else (len(text), "end of text")
