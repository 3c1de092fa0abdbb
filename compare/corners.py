#!/usr/bin/env python3
"""Prints requests at the corners of the rules: of sizes, shapes, scalars, types, values, validation, sheets, names in them, places in them and the
table of kinds.

The paper's cases (a) to (m) come first, then each rule's corners, then those of bytes and of lines.
Bytes are built from the paper's notation: `num("2 ?..3")` is [2 ?..3] Num.
"""

import itertools
import struct
import sys

sys.dont_write_bytecode = True

from limits import LARGEST, LENT, LETTERS, LINE, NAME, NAMES, RESULT, SCRATCH, SHEET, STACK, STEPS, TYPE, TYPES, UNKNOWN
from records import boxed, full, kind, largest, named, nested, of, word

BOOL, NAT, INT, NUM, COMPLEX, ASCII, CHAR, STREAM = KINDS = [kind(code) for code in range(8)]
ANY = kind(9)
BOX = boxed(0)
SIDES = ("none", "left", "right")
INFINITY = float("inf")


def sizes(text):
    return [UNKNOWN if size == "?" else int(size) for size in text.split()]


def ty(shape, scalar):
    """A type, its shape as the paper writes it, without the brackets."""
    opening, dots, closing = shape.partition("..")
    return of(scalar, sizes(opening), sizes(closing) if dots else None)


def num(shape):
    return ty(shape, NUM)


def box(content):
    return boxed(1, content)


def fields(*types, name=None):
    return named(name, types)


def around(levels, inside):
    """A type in so many All boxes."""
    for _ in range(levels):
        inside = ty("", box(inside))
    return inside


def bits(number):
    """BITS of a number, or these bits."""
    return f"{number:016x}" if isinstance(number, int) else struct.pack(">d", number).hex()


def ask(request, *arguments):
    return " ".join([request, *(word(a) if isinstance(a, bytes) else str(a) for a in arguments)])


def listed(request, *numbers):
    return ask(request, *map(bits, numbers))


# ---- the paper's cases

def cases():
    yield from ("dim_max 1 ?", "dim_max 0 ?", "dim_max 0 1")  # (a)
    yield ask("join_shapes", num("2 3"), num("2"))  # (b)
    yield ask("join_shapes", num("..2 3 4"), num("..2 3 4"))  # (c)
    yield from (ask("row_shape", num(shape)) for shape in ("..4 5", "", ".."))  # (d)
    for a, b in ((BOX, box(num("3"))), (box(num("3")), BOX)):  # (e)
        yield ask("union", ty("", a), ty("", b))
    for numbers in ((1.0, 0.0, -0.0), (-1.0, 2.0), (INFINITY,)):  # (f)
        yield listed("nums_scalar", *numbers)
    for request in ("as_dim num", "as_dims list", "val_spec num", "val_spec list"):  # (g)
        yield listed(request, -INFINITY)
    yield ask("pervade", 0, num("1"), num(""))  # (h)
    yield ask("pervade", 0, num("3 ?"), num("? 4"))  # (i)
    yield from (ask("pervade", flag, num("3"), num("4")) for flag in range(4))  # (j)
    yield ask("pervade", 0, num("0"), num("1"))  # (k)
    yield ask("validate", "none", num("?"), ty("3", INT))  # (l)
    yield ask("validate", "none", num(".."), ty("3", ANY))
    yield ask("validate", "none", num("2 3"), num("2.."))  # (m)
    yield ask("validate", "right", num("3"), num("2 3"))


# ---- sizes and shapes

DIMS = ("dim_cmp", "dim_cmp_defined", "dim_max", "dim_join", "dim_compatible", "dim_row_compatible")
SIZES = ("0", "1", "2", "3", "?", LARGEST - 1, LARGEST)
EIGHT = "1 2 3 4 5 6 7 8"
SHAPES = ("", "..", "0", "1", "?", "3", "2 3", "? 3", "2..", "..3", "..2 3 4", "2..3", f"{EIGHT}..{EIGHT}")


def dims():
    for request in DIMS:
        yield from (ask(request, a, b) for a in SIZES for b in SIZES)
        # above 2^53 either way; all ones is ?
        for a, b in ((LARGEST + 1, 0), (0, LARGEST + 1), (LARGEST + 1, 2**63), (UNKNOWN, 1)):
            yield ask(request, a, b)


def shapes():
    for request in ("row_shape", "row_count", "rank", "shape_is_any", "shape_is_scalar"):
        for shape in (*SHAPES, EIGHT, f"..{EIGHT}", "..?", "? 0 1", "0..", f"{LARGEST}..{LARGEST}"):
            yield ask(request, num(shape))
    for request in ("merge", "join_shapes", "compatible_shapes", *(f"pervade {flag}" for flag in range(4))):
        yield from (ask(request, num(a), num(b)) for a in SHAPES for b in SHAPES)
        # more than one index; the first that refuses ends a pervading, whatever a later one would do
        for a, b in (("2 3 5", "2 4 4"), ("2 5 3", "2 4 4"), ("0 1 ?", "? ? 1"), ("1 1 1", "0 ? 2"), ("3 3", "1 2")):
            yield ask(request, num(a), num(b))
    # no chain of sizes: of 0, 1 and ? each is below another
    for a, b in (("0 1", "1 ?"), ("1 ?", "? 0"), ("? 0", "0 1")):
        yield from (ask("merge", num(a), num(b)), ask("merge", num(f"..{a}"), num(f"..{b}")))
    # closing sizes are joined from the end, the first is ?
    for a, b in (("..4", "..2 3 4"), ("..2 3 4", "..2 3 4 5"), ("..1 2 3", "..9 2 3"), ("2..", "2..3"), ("2..3", "2")):
        yield from (ask("join_shapes", num(a), num(b)), ask("join_shapes", num(b), num(a)))


# sizes that fail with one another: small, the smallest and the largest, and for each byte such as differ in it alone; sizes that agree: equal, or either 1 or ?
FAILING = (("2", "3"), ("0", "2"), ("0", LARGEST), (LARGEST, LARGEST - 1), ("258", "2"), *(("2", 2**bit + 2) for bit in (16, 24, 32, 40, 48)))
AGREEING = (("5", "5"), ("1", "5"), ("5", "1"), ("?", "5"), ("5", "?"), ("?", "?"), ("1", "?"), ("?", "1"), ("0", "1"), ("?", "0"), ("0", "0"), (LARGEST, LARGEST))


def opposed(count, failing, fail=FAILING[0], agree=AGREEING[:1]):
    """Two lists of so many sizes that fail at these indices; those that agree do so in these ways by turns."""
    pairs = [fail if index in failing else agree[index % len(agree)] for index in range(count)]
    return tuple(" ".join(str(pair[side]) for pair in pairs) for side in (0, 1))


def places(count):
    """Indices that fail: none, the first, the last, a middle one, the first and the last, all but the last, all."""
    sets = ([], [0], [count - 1], [count // 2], [0, count - 1], range(count - 1), range(count))
    return sorted({tuple(sorted({index for index in indices if 0 <= index < count})) for indices in sets})


def tested():
    """Two opening lists: a no names the greatest index that fails, or none where the counts differ."""
    for count in range(9):
        for failing in places(count):
            yield from (ask("compatible_shapes", *map(num, opposed(count, failing, agree=agree))) for agree in (AGREEING[:1], AGREEING[1:8], AGREEING[4:]))
    # every pair of indices of eight
    for failing in itertools.combinations(range(8), 2):
        yield ask("compatible_shapes", *map(num, opposed(8, failing)))
    # each way of failing and of agreeing, at the only index, the first, the last and all of them, either way round
    for count, failing in ((1, (0,)), (2, (0,)), (2, (1,)), (8, (0,)), (8, (7,)), (8, range(8))):
        for a, b in (opposed(count, failing, fail) for fail in FAILING):
            yield from (ask("compatible_shapes", num(a), num(b)), ask("compatible_shapes", num(b), num(a)))
    for count in (1, 2, 8):
        yield from (ask("compatible_shapes", *map(num, opposed(count, (), agree=[agree]))) for agree in AGREEING)
    # counts that differ: with sizes that agree, and with such as would fail
    for count, other in itertools.permutations(range(9), 2):
        yield ask("compatible_shapes", num(" ".join("5" * count)), num(" ".join("5" * other)))
        yield ask("compatible_shapes", num(" ".join("2" * count)), num(" ".join("3" * other)))
    # closing sizes are not looked at, whether there are any or not; nor do they make up for opening ones
    for failing in ((), (0,), (1,), (0, 1)):
        a, b = opposed(2, failing)
        for one, other in (("", ".."), ("", "..3"), ("..", "..3"), ("..2", "..3"), ("..2 3", "..3"), (f"..{EIGHT}", ".."), ("..3", "..3")):
            yield from (ask("compatible_shapes", num(a + one), num(b + other)), ask("compatible_shapes", num(a + other), num(b + one)))
    for a, b in (("2..3", "2 3"), ("2..", "2 3"), ("..2 3", "2 3"), ("..2", "..3"), ("..", ""), ("..2", "2"), ("2..", "..2"), (EIGHT, f"..{EIGHT}")):
        yield from (ask("compatible_shapes", num(a), num(b)), ask("compatible_shapes", num(b), num(a)))
    # the scalars are not looked at
    for scalar in (CHAR, BOX, box(num("9")), fields(num("9"), name=b"n"), ANY):
        yield from (ask("compatible_shapes", ty("2 3", scalar), num(shape)) for shape in ("2 3", "2 4", "4 3", "2"))
    # types that cannot be read: the first before the second, both before the test
    good = num("2 3")
    for broken in (b"", good[:-1], b"XX", b"SH\x09", num(f"2 {LARGEST + 1}"), num(f"{LARGEST + 1} 3"), nested(8), good + b"\0"):
        yield from (ask("compatible_shapes", *pair) for pair in ((broken, good), (good, broken), (broken, num("2")), (num("2"), broken), (broken, broken)))


def tested_in_boxes():
    """The contents of two All boxes are tested: their union is one of them, or box Any."""
    lists = [opposed(count, failing, agree=AGREEING[:4]) for count in (0, 1, 2, 3, 8) for failing in places(count)]
    counts = (("", "2"), ("2", "2 3"), ("2 3", "2 3 4"), (EIGHT, EIGHT[:-2]), ("5", "2 3"), ("2..3", "2 3"), ("2 3..", "2 3..4"), ("2 3..", "2 4"))
    for a, b in (*lists, *counts):
        for levels in (1, 2):
            one, other = around(levels, num(a)), around(levels, num(b))
            yield from (ask(request, one, other) for request in ("compatible_with_boxes", "union", "join"))
            yield sheet(put(one, other), JOIN)
            yield sheet(put(one, other), PERVADE)
    # the contents' contents are tested too: a size that fails at either level, and at both
    for inner, outer in itertools.product((("2 3", "2 3"), ("2 3", "2 4"), ("2 3", "4 3"), ("2", "2 3")), repeat=2):
        one, other = (ty("", box(ty(outer[side], box(num(inner[side]))))) for side in (0, 1))
        yield from (ask(request, one, other) for request in ("compatible_with_boxes", "union", "join"))
    # joined down a pile: the last size alone differs, the first alone, the count
    pile = [ty("", box(num(shape))) for shape in ("2 3 4", "2 3 5", "2 3 1", "2 3 ?", "9 3 4", "2 3")]
    for turn in range(STACK):
        turned = pile[turn:] + pile[:turn]
        yield from (sheet(put(*turned), JOIN * count) for count in range(1, STACK))
        yield sheet(put(turned[0]), *(put(a) + JOIN for a in turned[1:]))


# ---- scalars

BOXES = (
    BOX, box(num("3")), box(num("?")), box(num("1 2")), box(ty("3", INT)), box(ty("3", CHAR)),
    box(ty("", BOX)), box(ty("", box(num("3")))), box(ty("", box(ty("3", CHAR)))),
    fields(), fields(name=b"n"), fields(num("3")), fields(ty("3", INT), ty("", ASCII)), fields(num("3"), name=b"n"),
)  # fmt: skip
# each kind with each; each box with each, and with two kinds
SCALARS = [(a, b) for group in ((*KINDS, BOX, ANY), (*BOXES, NUM, ANY)) for a in group for b in group]


def scalars():
    for request in ("superset", "compatible_scalars", "compatible_with_boxes", "union"):
        yield from (ask(request, ty("", a), ty("", b)) for a, b in SCALARS)
    yield from (ask("unrefine", ty("", scalar)) for scalar in (*KINDS, *BOXES, ANY))
    # unrefining reaches into boxes as deep as there are any
    inside = ty("..3", fields(ty("", NAT), ty("", ASCII), ty("", STREAM)))
    deep = ty("2", fields(ty("", BOOL), ty("?", box(inside))))
    yield from (ask("unrefine", around(levels, deep)) for levels in range(6))
    # of two All boxes the later type: scalars before shapes, sizes by their own order, closed before open
    later = (("9", "1"), ("1", "?"), ("0", "1"), ("?", "2"), ("3", "3.."), ("3..9", "3..?"), ("2 1", "1 2"))
    for a, b in ((ty("9", INT), num("1")), *((num(a), num(b)) for a, b in later)):
        yield from (ask("union", ty("", box(x)), ty("", box(y))) for x, y in ((a, b), (b, a)))


def orders():
    """Scalar first, then shape; box Any, All, Def; no name before a name; lists by the first difference."""
    names = (None, b"", b" ", b"A", b"a", b"aa", b"ab", b"b", b"~", b"sixteen letters!")
    one, two = num("1"), num("2")
    kinds = (BOOL, COMPLEX, BOX, box(num("3")), box(num("4")), box(ty("2", CHAR)), fields(), ANY)
    lists = ((), (one,), (one, two), (two,), (two, one), (ty("", BOX),))
    defs = [fields(*types) for types in lists] + [fields(num("9"), name=b""), fields(one, name=b"n")]
    for group in (kinds, [fields(name=name) for name in names], defs):
        yield from (ask("compare", ty("", a), ty("", b)) for a in group for b in group)
    yield from (ask("compare", num(a), num(b)) for a in SHAPES for b in SHAPES)
    yield from (ask("compare", ty("9", a), ty("", b)) for a in kinds for b in kinds)


# ---- types: rows, boxes, fields, joins

THREE = fields(num("1"), ty("2", CHAR), ty("", BOX))


def rows():
    requests = ("row", "first_row", "last_row", *(f"nth_row {n}" for n in (0, 1, 2, 3, UNKNOWN)))
    scalars = (NUM, BOX, box(num("3")), THREE, fields(), fields(name=b"n"), fields(num("3"), name=b"n"))
    for request in requests:
        # at rank 1 a Def's row is All of a field
        for shape in ("", "..", "3", "?", "..3", "2 3", "2..", "..2 3", "2..3"):
            yield from (ask(request, ty(shape, scalar)) for scalar in scalars)
        yield ask(request, ty("1", fields(*[num("")] * 31)))
        yield ask(request, largest())


def boxes():
    pair = fields(num("1"), num("2"), name=b"n")
    many = ("30", "31", "32", str(LARGEST), "31..", "32..", "31 2")
    for scalar in (NUM, ANY, STREAM, BOX, box(num("3")), fields(), fields(name=b""), pair):
        for shape in ("", "..", "0", "1", "?", "2", "2 3", "? 3", "2..", "..2", *many):
            yield ask("as_boxes", ty(shape, scalar))
    # the longest answer: 31 copies of the longest content
    leaf = full(named(b"sixteen letters!"))
    yield ask("as_boxes", ty("31", box(full(named(b"sixteen letters!", [leaf] * 30)))))
    for scalar in (NUM, BOX, box(num("3")), box(ty("", pair)), fields(), fields(name=b"n"), pair, THREE):
        yield from (ask("unboxed", ty(shape, scalar)) for shape in ("", "..", "1", "..1"))


def looked_up():
    one = num("1")
    names = [fields(one, name=name) for name in (b"", b"n", b"sixteen letters!")]
    for n in (0, 1, 2, 3, 30, 31, LARGEST, UNKNOWN):
        for scalar in (NUM, BOX, box(one), fields(), THREE, fields(*[one] * 31), *names):
            yield ask("field", n, ty("", scalar))
        yield from (ask("field", n, a) for a in (ty("2 3..4", THREE), largest()))


def joins():
    scalars = (NUM, INT, CHAR, BOX, box(num("3")), box(num("4")), fields(num("3")), ANY)
    every = [ty(shape, scalar) for shape, scalar in zip(("", "3", "4", "3..", "?", "3", "..", "2 3"), scalars)]
    yield from (ask("join", a, b) for a in every for b in every)
    yield ask("join", largest(), largest())


# ---- values

NUMBERS = (
    0.0, -0.0, 1.0, -1.0, 2.0, 3.0, -3.0, 0.5, -0.5, 1.5, 5e-324, -5e-324, 0x3FEFFFFFFFFFFFFF, 0x3FF0000000000001,
    2.0**52, 2.0**52 + 1, 2.0**52 - 0.5, 2.0**53 - 1, 2.0**53, 2.0**53 + 2, -(2.0**53), 2.0**60, 2.0**63, 2.0**64,
    1e300, -1e300, INFINITY, -INFINITY, 0x7FF8000000000000, 0xFFF8000000000000, 0x7FF0000000000001,
    0xFFF0000000000001, 0x7FFFFFFFFFFFFFFF, 0xFFFFFFFFFFFFFFFF,
)  # fmt: skip
VALUES = (
    "val_ty", "val_spec", "val_scalar", "val_row_count", "val_rank", "val_row", "val_first_row", "val_last_row",
    "as_dim", "as_dims",
)  # fmt: skip


def values():
    for request in VALUES:
        for number in NUMBERS:
            yield listed(f"{request} num", number)
            # alone, first and last
            for numbers in ((number,), (number, 2.0, 3.0), (2.0, 3.0, number)):
                yield listed(f"{request} list", *numbers)
        for count in (0, 1, 2, 7, 8, 9):
            yield listed(f"{request} list", *[3.0] * count)
        # nine come before a bad one; of two bad ones the first
        for numbers in ([0.5] * 9, (1.0, 2.0**60, 0.5), (1.0, -2.0, 2.0**60)):
            yield listed(f"{request} list", *numbers)
        for data in (num(""), num(".."), num("3"), num("?..3"), ty("3", THREE), ty("", BOX), largest()):
            yield ask(f"{request} type", data)
        yield from (ask(f"{request} type", data) for data in (b"", b"SH\x09", num("") + b"\0"))


def kinds():
    yield "nums_scalar"
    for number in NUMBERS:
        yield listed("nums_scalar", number)
        for other in (0.0, 2.0, -2.0, 0.5):
            yield from (listed("nums_scalar", number, other), listed("nums_scalar", other, number))


# ---- validation

def checks(spec, a):
    """The scalar alone, then scalar and shape for each side."""
    yield ask("check_scalar", spec, a)
    yield from (ask("validate", side, spec, a) for side in SIDES)


def shape_checks():
    """Each side, with counts that fit and that do not."""
    for side in SIDES:
        yield from (ask("check_shape", side, num(spec), num(a)) for spec in SHAPES for a in (*SHAPES, "2 3 4", "3 2"))
        # the scalar is not looked at
        yield ask("check_shape", side, num("3"), ty("3", CHAR))


def scalar_checks():
    yield from (ask("check_scalar", ty("", spec), ty("", a)) for spec, a in SCALARS)
    # wholly Any takes the spec's scalar; Any of another shape does not, but a named Def makes fields of it
    for spec in (NUM, BOX, box(num("3")), fields(num("3")), fields(num("3"), name=b"n"), fields(name=b""), ANY):
        for shape in ("..", "", "3", "0", "?", "3..", "..3", "2 3"):
            for scalar in (ANY, BOX, box(ty("3", INT))):
                yield from checks(ty("..", spec), ty(shape, scalar))
    # a name for a Def that has none; its own name stays; pairs as far as both lists go
    lists = ((), (ty("3", INT),), (ty("3", INT), ty("", ASCII)))
    for name, own in ((name, own) for name in (None, b"", b"n") for own in (None, b"", b"own")):
        for spec, a in ((spec, a) for spec in lists for a in lists):
            yield ask("check_scalar", ty("..", fields(*spec, name=name)), ty("2", fields(*a, name=own)))
    # an All spec goes against each field, and the first that does not pass refuses
    ok, short, other = num("3"), num("4"), ty("3", CHAR)
    for a in ((ok, num("?")), (ok, short), (short, other), (other, short)):
        yield from checks(ty("..", box(ok)), ty("2", fields(*a)))
    # 9 for the scalar before 10 for the shape, also from deep inside; contents have no side
    yield from checks(num("2"), ty("3", CHAR))
    yield from checks(ty("2", box(num("3"))), ty("3", box(ty("3", CHAR))))
    yield from checks(ty("", box(num("3"))), ty("", box(num("2 3"))))


def grown():
    """Copies and replacements, up to the limits and past them."""
    name, taker = ty("..", fields(name=b"n")), ty("..", ANY)
    # seven boxes deep a field would be at depth 9
    for levels in (5, 6, 7):
        for a in (ty(shape, scalar) for shape in ("3", "0", "?", "1", "..") for scalar in (ANY, BOX)):
            yield from checks(around(levels, name), around(levels, a))
    # eleven types, copied twice and three times: 23 and 34 in all
    eleven = ty("", fields(*[num("")] * 10))
    for count in (0, 1, 2, 3, 30, 31, 32, LARGEST):
        for scalar in (box(eleven), BOX, box(num(""))):
            yield from checks(name, ty(str(count), scalar))
    # as many fields as the spec has, where no closed size says how many
    for count in (0, 1, 2, 15, 16, 30, 31):
        spec = ty("..", fields(*[taker] * count, name=b"n"))
        yield from (ask("check_scalar", spec, ty(shape, box(around(1, num(""))))) for shape in ("?", "..", "2", "2 3"))
    # box Any takes a Def
    for count in (0, 2, 29, 30, 31):
        for own in (None, b"n"):
            spec = ty("..", fields(*[num("")] * count, name=own))
            yield from checks(spec, ty("?", BOX))
            yield from checks(around(1, spec), around(1, ty("..", BOX)))
    # each field takes the content
    for count in (2, 10, 15, 16, 31):
        yield from checks(ty("..", box(around(1, num("")))), ty("?", fields(*[taker] * count)))
    # 5 before a later 9 or 10, and after an earlier one
    good, wrong, longer, many = num(""), ty("", CHAR), num("3"), ty("33", ANY)
    for late in (wrong, longer):
        yield from checks(ty("2", fields(name, good)), ty("3", fields(many, late)))
        yield from checks(ty("2", fields(good, name)), ty("3", fields(late, many)))
    yield from checks(ty("2", fields(name=b"n")), ty("33", ANY))
    # 32 and 33 types, made at two places
    for count in ("14", "15"):
        yield from checks(ty("..", fields(name, name)), ty("?", fields(ty("15", ANY), ty(count, ANY))))
    # what was replaced no longer counts: twenty types go, twenty come
    twenty = ty("", fields(*[num("")] * 19))
    yield from checks(ty("..", fields(name, name)), ty("?", fields(ty("0", box(twenty)), ty("20", ANY))))
    yield from checks(ty("..", fields(name, name)), ty("?", fields(ty("20", ANY), ty("0", box(twenty)))))
    yield from (request for a in (taker, largest()) for request in checks(largest(), a))


# a spec's shape and a type's: counts that cannot fit, sizes that differ, both, and some that pass
COUNTED = (
    # an open type with fewer sizes, from the front and from the end; ? equals ? alone
    ("2 3", "2.."), ("2 3", "5.."), ("2 3", "?.."), ("2 3", "1.."), ("? 3", "?.."), ("? 3", "2.."), ("2 3", "..3"), ("2 3", "..4"),
    ("2 3", "..?"), ("2 ?", "..?"), ("2 ?", "..3"), ("2 3..", "2.."), ("2 3..9", "..3"), ("2 3..9", "..9"),
    ("2 3 4", "2..4"), ("2 3 4", "2..5"), ("2 3 4", "1..4"), ("2 3 4", "1..5"), ("2 3 4", "..3 4"), ("2 3 4", "..2 4"), ("2 3 4", "2 3.."),
    ("2 3 4", "2 4.."), ("2 ? 4", "2..? 4"), (EIGHT, "1 2 3..7 8"), (EIGHT, "1 2 4..7 8"), (EIGHT, "1 2 3..6 8"),
    # with more, and with as many
    ("2", "2 3.."), ("2", "5 3.."), ("2", "..3 2"), ("2 3", "2..3 4"), ("", "3.."), ("..3", "..3"), (EIGHT, f"{EIGHT}..{EIGHT}"),
    ("2 3", "2..3"), ("2 3", "2..4"), ("2 3", "2..?"), ("2 3", "..3 2"), ("?", "2.."), ("2", "?.."), ("?", "?.."),
    # a closed type, with fewer, more and as many
    ("2 3", "2"), ("2 3", "3"), ("2 3", "5"), ("2 3..", "2"), ("2 3..", "5"), ("2", "2 3"), ("2", "3 2"), ("2..", "2 3"), ("..3", "3"), ("..3", "2"),
    ("3", ""), ("", "3"), ("2 3", "5 6 7"), ("2 3", "2 4"), ("2 3..", "2 4"), ("2 3", "? 4"), ("? ?", "2 3"), (EIGHT, EIGHT[2:]), (EIGHT, EIGHT[:-2]),
    ("..", "2 3..4"), ("2 3", ".."),
)  # fmt: skip


def counted():
    """A count that cannot fit or a size that differs: under each side, and in boxes and sheets, where none is in force."""
    for spec, a in ((num(spec), num(a)) for spec, a in COUNTED):
        for side in SIDES:
            yield ask("check_shape", side, spec, a)
            yield ask("validate", side, ty("", box(spec)), ty("", box(a)))
        yield ask("check_scalar", ty("..", fields(num("1"), spec)), ty("2", fields(num("1"), a)))
        yield ask("check_scalar", ty("..", box(spec)), ty("2", fields(a)))
        yield sheet(put(num(""), a), check(spec))
        yield sheet(put(ty("", box(a))), check(ty("", box(spec))), ROW)
    # two fields and the shape around them, each of which passes, has a size that differs or a count that cannot fit: the first that does not pass
    three = (num("2 3"), num("5.."), num("2.."))
    for side, first, second in ((side, first, second) for side in SIDES for first in three for second in three):
        for shape in ("2 4", "3 4", "4"):
            spec = ty("2 4", fields(num("2 3"), num("2 3")))
            yield ask("validate", side, spec, ty(shape, fields(first, second)))


def reading():
    """1 to 6 while the spec is being read, or the type; of two that are broken the spec. Else neither: 5, 9, 10 and 14."""
    good, over = ty("2", fields(num("3"))), ty("2", box(num(str(LARGEST + 1))))
    broken = (b"", good[:-1], b"XX", good[:-3] + b"SX\3", b"SH\x09", over, nested(8), good + b"\0", good + good)
    for request in ("check_scalar", *(f"{request} {side}" for request in ("validate", "check_shape") for side in SIDES)):
        for a in broken:
            yield from (ask(request, a, good), ask(request, good, a), ask(request, a, broken[-1]), ask(request, broken[-1], a))
        for spec, a in ((ty("..", fields(name=b"n")), ty("33", ANY)), (num("2"), ty("2", CHAR)), (num("2"), num("3")), (num("2 3"), num("2"))):
            yield ask(request, spec, a)


# ---- sheets

ROW, JOIN, PERVADE = b"RW", b"JN", b"PV\0"


def put(*types):
    return b"".join(b"PU" + a for a in types)


def pervade(flag):
    return b"PV" + bytes([flag])


def check(spec):
    return b"VA" + spec


def sheet(*steps):
    return ask("sheet", b"".join(steps))


def sheet_call(scratch, result, *steps):
    return ask("sheet_call", scratch, result, b"".join(steps))


def sheet_lent(*steps):
    """With a scratch just long enough and a result that suffices."""
    return sheet_call(SCRATCH, RESULT, *steps)


def judged():
    """Whether it is the 65th, the mark, the stack, the bytes, the rule: what comes first of two things wrong."""
    three, four, char = num("3"), num("4"), ty("3", CHAR)
    broken = (b"", b"S", b"SX", b"SH", b"SH\x09", num(str(LARGEST + 1)), nested(8), three[:-1])
    many, named_spec = ty("33", ANY), ty("..", fields(name=b"n"))
    # a 65th step, whatever its bytes are
    for step in (b"P", b"XX", b"RW", b"JN", b"PV\x04", b"PU", b"VASX", put(three)):
        yield sheet(put(three), ROW * 63, step)
        yield sheet(put(three), ROW * 62, step)
    # a mark before the stack, the stack before the bytes
    for height in range(STACK + 3):
        for step in (b"X", b"XX", b"PW", b"RW", b"JN", b"PV", b"PV\0", b"PV\x03", b"PV\x04", b"PV\xff", b"PU", b"VA", *(b"PU" + a for a in broken[1:4]), *(b"VA" + a for a in broken[1:4])):
            yield sheet(put(three) * height, step)
    # bytes before the rule; places are the sheet's, and bytes after a type are the next step
    for a in broken:
        yield sheet(put(three), b"PU" + a)
        yield sheet(put(char), b"VA" + a)
        yield sheet(put(three), b"PU" + a, put(three))
    yield sheet(put(three), b"\0")
    yield sheet(put(three, four), b"PV\x04")
    yield sheet(put(three, four), b"PV")
    # the rule's refusal at its step, and nothing after it is looked at
    for after in (b"", b"XX", ROW, put(three)):
        yield sheet(put(three, four), PERVADE, after)
        yield sheet(put(char), check(three), after)
        yield sheet(put(four), check(three), after)
        yield sheet(put(many), check(named_spec), after)
    yield sheet(put(three), check(ty("..", ANY)), put(num("2 3")), ROW, put(many), check(named_spec))


def worked():
    """What each step takes and leaves."""
    three, four, unknown = num("3"), num("4"), num("?")
    boxes = (ty("", BOX), ty("", box(three)), ty("2", fields(three, four)), ty("..", ANY), ty("..3", INT), ty("3", NAT), ty("0", BOOL))
    for first, second in ((a, b) for a in (*boxes, unknown) for b in (*boxes, unknown)):
        yield from (sheet(put(first, second), step) for step in (JOIN, PERVADE, check(first)))
    for flag in range(4):
        yield from (sheet(put(a, b), pervade(flag)) for a, b in ((three, four), (four, three), (num("0"), num("1")), (num("3 2"), num("4"))))
    for a in (*boxes, num("2 3"), num("2..3"), num("..")):
        yield from (sheet(put(a), ROW * rows) for rows in range(4))
    # validation has no side here; it makes fields, and takes the spec's
    for spec in (ty("..", ANY), num("3"), num("2 3"), ty("..", box(three)), ty("..", fields(three, name=b"n"))):
        yield from (sheet(put(a), check(spec), ROW) for a in (*boxes, num("2 3")))
    # as many types as the stack holds; taken off and laid down again
    yield from (sheet(put(three) * height) for height in range(STACK + 3))
    yield sheet(put(three) * STACK, JOIN * (STACK - 1), put(four) * (STACK - 1))
    yield sheet(put(three) * STACK, PERVADE * (STACK - 1))
    yield sheet(put(three) * STACK, JOIN * STACK)
    yield from (sheet((put(unknown, three) + PERVADE + ROW) * turns) for turns in (STACK - 1, STACK))
    yield sheet(put(three), (put(three) + PERVADE) * 31, ROW)
    yield sheet(put(three), (put(three) + PERVADE) * 31, ROW, ROW)


def stacked():
    """A full stack of types that differ in kind and length, and a put too many: 12 at its mark, before its bytes are looked at."""
    pile = (num("3"), ty("?", fields(num("4"), ty("", CHAR), name=b"n")), num("? 3..4"), ty("", box(ty("5", INT))), ty("..", ANY), ty("3", NAT))
    whole, more, some = put(*pile), num("3 4"), ty("..", ANY)
    assert len(pile) == STACK
    broken = (b"P", b"PU", b"PUS", b"PUSX", b"PUSH\x09", put(num(str(LARGEST + 1))), put(nested(8)), put(more)[:-1], put(more) + b"XX")
    # every step on the full stack but a put; then a put, which has a place if two became one, and one that has none
    for step in (ROW, JOIN, *(pervade(flag) for flag in range(4)), check(some), check(num("?")), check(num("4"))):
        yield from (sheet(whole, step, put(more) * puts) for puts in (0, 1, 2))
    for last in broken:
        yield from (sheet(put(*pile[:-1]), last), sheet(whole, last))
        # as the 64th step and the 65th
        yield from (sheet(whole, ROW * rows, last) for rows in (STEPS - STACK - 1, STEPS - STACK))
    # down by joins and by pervadings, and up again: to five types, six and seven
    for count in range(1, STACK):
        for down in (JOIN, pervade(0), pervade(3)):
            yield from (sheet(put(some), put(*pile[1:]), down * count, put(more) * (count + over)) for over in (-1, 0, 1))
            # the same over and over, with a row and a validation on top
            turn = down * count + put(some) * count + ROW + check(some)
            yield from (sheet(put(some) * STACK, turn * 4, last) for last in (b"", put(more), put(more)[:-1]))


# sizes that are filled or not, and what they meet at the same index: ?, nothing in an open shape, nothing in a closed one, a static
MEETINGS = (
    ("12", "?"), ("12", ".."), ("12", "..3"), ("12", ""), ("12", "1"), ("12", "12"), ("12", "11"), ("3", "4"), ("12", "?.."),
    ("12", "?..3"), ("12", "1.."), ("5 12", "1.."), ("5 12", "5..3"), ("5 12", "5"), ("0", "?"), ("0", ".."), ("0", ""), ("0", "1"),
    ("0", "3"), ("1", "?"), ("1", ".."), ("1", ""), ("?", "?"), ("?", ".."), (f"{LARGEST}", "?"), (f"{LARGEST}", ".."),
    ("12..", ".."), ("12..3", "?"), ("12..3", ".."), ("12..3", "..3"), ("12 ?", "? 12"), ("12 ?", "? 12.."), ("12", "? 12"), ("12..", "? 12"),
    # the first index fine and the second refusing, and the other way round
    ("12 3", "? 4"), ("12 4", "? 3"), ("3 12", "4 ?"), ("4 12", "3 ?"), ("12 3", "?.."), ("12 3 5", "? 4"), ("12 3 5", "? 4.."),
    (EIGHT, " ".join("?" * 8)), (EIGHT, ".."), (f"{EIGHT}..{EIGHT}", f"..{EIGHT}"), (EIGHT, "? 2 ? 4 ? 6 ? 8"), (EIGHT, "? 2 ? 4.."),
)  # fmt: skip


def met():
    """What is filled meets ? or nothing: by a sheet's rule, and by the separate call, which stays the Rust's."""
    for top, below in (pair for a, b in MEETINGS for pair in ((num(a), num(b)), (num(b), num(a)))):
        for flag in range(4):
            yield sheet(put(below, top), pervade(flag))
            yield ask("pervade", flag, top, below)
    # later steps take the ?: it yields to 11, which 12 refuses, and [12] on [?..] is refused, which on [12..] passes
    later = (ROW, check(num("12")), check(num("?")), check(num("..")), put(num("11")) + PERVADE, put(num("12")) + JOIN)
    for flag, other in ((flag, other) for flag in range(4) for other in ("?", "..", "..3", "")):
        yield from (sheet(put(num("12"), num(other)), pervade(flag), step) for step in later)


def poured():
    """Nothing but puts and pervadings, most of them filled, as many as a sheet has steps."""
    twelve, unknown, some = num("12"), num("?"), num("..")
    tables = (twelve, unknown, some, num(""), num("12 3"), num("..3"), num("1"), num("? 3"), num("0"))
    for flag in range(4):
        # one table over and over
        for first in (twelve, unknown, some):
            yield from (sheet(put(first), (put(other) + pervade(flag)) * 31, put(first)) for other in (unknown, twelve, some, num("")))
        # all but the last by turns: 63 steps, 64 and 65
        turns = b"".join(put(tables[turn % 8]) + pervade(flag) for turn in range(31))
        yield from (sheet(put(first), turns, last) for first in tables for last in (b"", put(twelve), put(twelve) * 2))
        # the stack full and then down to one type, time and again: 64 steps and 65
        pile = (twelve, unknown, some, num(""), unknown)
        turns = (put(*pile) + pervade(flag) * len(pile)) * 6
        for last in (b"", pervade(flag)):
            yield from (sheet(put(first), turns, put(*pile[:3]), last) for first in (twelve, unknown))
    # the flags by turns
    turns = b"".join(put(tables[turn % 8]) + pervade(1 + turn % 3) for turn in range(31))
    yield from (sheet(put(first), turns, put(first)) for first in tables)


# sizes about the borders of a byte, the smallest and the largest, and ?
BORDERS = ("0", "1", "255", "256", f"{2**48 - 1}", f"{2**48}", f"{2**52}", f"{LARGEST}", "?")
LOW, HIGH = " ".join(BORDERS[:8]), " ".join(BORDERS[1:])


def kept():
    """Types of every sort: what is kept of them while others are worked on above must be all of it."""
    yield from (num(shape) for size in BORDERS for shape in (f"{size} 3", f"3..{size}", f"..{size}"))
    for shape in ("", "..", LOW, f"{HIGH}..", f"..{HIGH}", f"{LOW}..{HIGH}"):
        yield from (num(shape), ty("3", box(num(shape))), ty("2 3", fields(num("2"), num(shape))))
    yield from (ty("..", fields(num("3"), name=name)) for name in (None, b"", b" ", b"n", b"~" * NAME))
    yield from (ty("..4", fields(*(num(f"{count}") for count in range(many)), name=b"many")) for many in (0, 1, TYPES - 1))
    yield from (ty("2..", box(around(levels, num("2 3..4")))) for levels in (0, 3, 6))
    yield from (ty("3", scalar) for scalar in (*KINDS, BOX, ANY))


def works(a):
    """The type put and worked on by each step, so that most of it is left."""
    beside = ty("", a[a.index(b"SC"):])
    return (put(a) + check(ty("..", ANY)), put(a) + ROW, put(beside, a) + PERVADE, put(a, a) + JOIN)


def told_apart(n, before=""):
    """The n-th has its size at an index of its own, after ones; of two boxes the union is the later, now the top's, now the other."""
    own = ("256", f"{2**52}", "255", f"{LARGEST}", f"{2**48 - 1}", "0")[n]
    closing = (f"{LARGEST}", "5", f"{2**48}", "255", "256", f"{LARGEST - 1}")[n]
    return ty(before + "1 " * n + own, box(num(f"..{closing}")))


def buried():
    """Types that are worked on, lie under one to five others that are put or worked on, and are dug up and worked on again."""
    some = check(ty("..", ANY))
    over = (put(num("6"), num("?")) + PERVADE, put(num("3")), put(ty("2", CHAR)) + some, put(ty("..", ANY)), put(num("4 5")) + ROW)
    for a in kept():
        beside = put(ty("", a[a.index(b"SC"):]))
        for first in works(a):
            yield sheet_lent(first, *over)
            yield sheet_lent(first, beside, some, beside, PERVADE * 2)
    # put or worked on, each with each; left so, and dug up by each step on two, with a row after it or not
    both = [(put(told_apart(n)), put(told_apart(n, "1 ")) + ROW if n % 2 else put(told_apart(n)) + some) for n in range(STACK)]
    for height in range(2, STACK + 1):
        for above in itertools.product(*both[1:height]):
            yield sheet_lent(both[0][1], *above)
            yield from (sheet_lent(both[0][1], *above, dig * (height - 1)) for dig in (JOIN, PERVADE, pervade(3), JOIN + ROW, PERVADE + some))
    # as many as the stack holds, all worked on; down to each height, worked on there, and up again
    whole = [steps for _, steps in both]
    for count in range(STACK):
        for down in (JOIN, PERVADE, pervade(3) + ROW):
            yield sheet_lent(*whole, down * count)
            yield sheet_lent(*whole, down * count, some, *whole[STACK - count:])
            yield sheet_lent(*whole, (down * count + b"".join(whole[STACK - count:])) * 2, ROW, JOIN)


def largest_with(letter, fields=None):
    """A type of 4,992 bytes, eight deep or of so many fields, with its letter for all names, and sizes 0, 1, 2^53 and ? by turns."""
    name, turns = letter * NAME, (0, 1, LARGEST, UNKNOWN) * 2

    def wide(inside):
        return of(inside, turns, turns[1:] + turns[:1])

    a = largest(name, wide) if fields is None else wide(named(name, [wide(named(name))] * fields))
    assert len(a) == TYPE
    return a


def largest_types():
    """As many of the largest types as the stack holds, worked on by each step, with a scratch one byte short, just long enough and one longer."""
    pile = [largest_with(letter, fields) for letter, fields in zip((b"a", b"b", b"c", b"d", b"e", b"f"), (None, TYPES - 1) * 3)]
    some, whole = check(ty("..", ANY)), put(*pile)
    for step in (ROW, PERVADE, JOIN, some):
        yield from (sheet_call(scratch, RESULT, whole, step) for scratch in (SCRATCH - 1, SCRATCH, SCRATCH + 1))
    # each of them worked on before the next is put: in its place, or with another type, for which a full stack has none
    validated = b"".join(put(a) + some for a in pile)
    yield from (sheet_call(scratch, RESULT, validated) for scratch in (SCRATCH - 1, SCRATCH, SCRATCH + 1))
    yield sheet_lent(*(put(a) + ROW for a in pile))
    yield sheet_lent(*(put(ty("", BOX), a) + PERVADE for a in pile[1:]), put(pile[0]), some)
    yield sheet_lent(*(put(a, a) + JOIN for a in pile[1:]), put(pile[0]), some)
    yield from (sheet_lent(validated, down * (STACK - 1)) for down in (JOIN, PERVADE))


# ---- names in sheets

def declare(name, a):
    return b"NM" + bytes([len(name)]) + name + a


def use(*names):
    return b"".join(b"US" + bytes([len(name)]) + name for name in names)


def cut(whole):
    """A sheet and each of its beginnings."""
    yield from (sheet(whole[:end]) for end in range(len(whole) + 1))


def spelled():
    """A name's length and bytes, judged one by one: 1 or 3 at the step's mark."""
    three, n = num("3"), declare(b"n", num("4"))
    names = [b"n" * length for length in (0, 1, 2, LETTERS - 1, LETTERS, LETTERS + 1, 254, 255)]
    # first, in the middle, last and alone
    for byte in (bytes([code]) for code in (0, 31, 32, 126, 127, 128, 255)):
        names += (byte, byte + b"nn", b"n" + byte + b"n", b"nn" + byte, byte + b"n" * (LETTERS - 1), b"n" * (LETTERS - 1) + byte)
    for name in names:
        yield from (sheet(declare(name, three), use(name)), sheet(n, declare(name, three)), sheet(n, put(three), use(name)))
    # what is wrong before what is missing, the name before the type
    rests = (b"", b"\0", b"\x11", b"\xff", b"\x01", b"\x02n", b"\x02\x1f", b"\x02\x7f", b"\x02n\x1f", b"\x10" + b"n" * 15, b"\x10" + b"n" * 14 + b"\x7f", b"\x01\x1fSX", b"\0SX")
    for mark in (b"NM", b"US"):
        yield from (sheet(n, mark + rest) for rest in rests)
    # half a mark, and marks that are nearly these
    yield from (sheet(n, step) for step in (b"N", b"U", b"NN", b"MN", b"MM", b"UU", b"SU", b"SS", b"nm", b"us", b"UM", b"NS"))
    # where a type is due there is no use and no declaration
    for step in (b"PU", b"VA", b"NM\x01n", b"PUSH\0\xffSC\x08BX\x01"):
        yield from (sheet(n, use(b"n"), step + other) for other in (use(b"n"), n))


def cut_off():
    """Sheets with names, cut at each byte."""
    char = ty("", CHAR)
    yield from cut(declare(b"act", num("3")) + use(b"act") + declare(b"acts", num("?")) + use(b"acts") + PERVADE + declare(b"act", char) + use(b"act") + JOIN)
    yield from cut(declare(b"sixteen letters!", ty("2", box(num("..3")))) + use(b"sixteen letters!") + ROW)
    yield from cut(b"".join(declare(b"%d" % n, char) for n in range(NAMES + 1)) + use(b"0"))


# two names: one is the beginning of the other, or they differ in one byte, at either end or in their case, or in a space; some look like steps
PAIRS = (
    (b"act", b"acts"), (b"act", b"a"), (b"act 1", b"act 2"), (b"1 act", b"2 act"), (b"act", b"Act"), (b"act", b"act "), (b"act", b" act"), (b" ", b"  "),
    (b" ", b"~"), (b"aa", b"ab"), (b"ab", b"ba"), (b"a" * 15, b"a" * 16), (b"a" * 15 + b"b", b"a" * 16), (b"b" + b"a" * 15, b"a" * 16), (b"PU", b"US"),
    (b"NM", b"US"), (b"SH", b"SC"), (b"sixteen letters!", b"sixteen letters"),
)  # fmt: skip


def told_by_name():
    """A use puts the type in force under just that name. A name never declared before is 15, whatever comes after."""
    three, four, char = num("3"), ty("?", INT), ty("", CHAR)
    for one, other in (pair for a, b in PAIRS for pair in ((a, b), (b, a))):
        first, second = declare(one, three), declare(other, four)
        yield from (sheet(first, use(other)), sheet(first, use(one, other), use(one)))
        yield sheet(first, second, use(one, other, one))
        yield sheet(first, second, declare(one, char), use(other, one), PERVADE)
    # before its declaration, and with none at all
    n = declare(b"n", three)
    for steps in (use(b"n"), use(b"n") + n, put(three) + use(b"n") + n + use(b"n"), n + use(b"n", b"m"), use(b"n") + b"XX", put(three) * 2 + use(b"n") + PERVADE):
        yield sheet(steps)
    # a name that a Def in the type has declares nothing, and a type may have its own name
    inside = ty("..", fields(num("3"), name=b"m"))
    yield from (sheet(declare(b"n", inside), use(name)) for name in (b"n", b"m"))
    yield sheet(declare(b"m", inside), use(b"m"), ROW)


def superseded():
    """A later declaration counts for the uses after it; what was put before stays as it is, put or worked on, on top or under others."""
    three, four, char, some = num("3"), num("4 5"), ty("", CHAR), check(ty("..", ANY))
    types = (three, four, char, ty("2", box(num("..3"))), ty("..", fields(num("2"), ty("", NAT), name=b"n")), ty("..", ANY))
    for a, b in ((a, b) for a in types for b in types):
        first, again = declare(b"n", a) + use(b"n"), declare(b"n", b)
        yield sheet(first, again, use(b"n"))
        yield sheet(first, again)
        yield sheet(first, again, declare(b"n", a), use(b"n"), JOIN)
    # what is worked out of a use changes no declaration
    for step in (ROW, some, check(num("? ?")), put(num("?")) + PERVADE, put(num("4")) + JOIN):
        yield sheet(declare(b"n", four), use(b"n"), step, use(b"n"))
        yield sheet(declare(b"n", four), use(b"n"), step, declare(b"n", char), use(b"n"), JOIN)
    # a declaration that is refused, and one of a name that nobody uses
    for a in (b"", b"SX", three[:-1], num(str(LARGEST + 1)), nested(8)):
        yield sheet(declare(b"n", three), use(b"n"), declare(b"n", a), use(b"n"))
    yield from (sheet(steps) for steps in (declare(b"n", three), declare(b"n", three) * 2, put(char) + declare(b"n", three), declare(b"n", three) + put(char) + ROW))
    # each of as many uses as the stack holds has another type
    pile = b"".join(declare(b"n", a) + use(b"n") for a in types)
    assert len(types) == STACK
    yield from (sheet_lent(pile, step) for step in (b"", ROW, some, declare(b"n", three), JOIN * 2, PERVADE, use(b"n")))


def crowded():
    """As many names as there may be, and one more: 16 at its mark, after its type is read. One that is there may be declared again."""
    names, three, char = [b"%d" % n for n in range(NAMES + 2)], num("3"), ty("", CHAR)
    each = [declare(name, num(str(n))) for n, name in enumerate(names)]
    whole, more = b"".join(each[:NAMES]), names[NAMES]
    for count in range(NAMES - 1, NAMES + 3):
        yield from (sheet(*each[:count], last) for last in (b"", use(names[0]), use(more), use(names[NAMES - 1], names[1]), b"XX"))
    yield from (sheet(whole, use(name)) for name in names)
    # the last that there may be, one too many, and one that is there, with a type that is wrong; a name that is wrong
    over = (b"", b"S", b"SX", b"SH", b"SH\x09", b"SH\0\x09", num(str(LARGEST + 1)), three[:-1], three[:-3] + b"SX\3", of(kind(10)), of(boxed(3)))
    many = of(named(None, [of(NUM)] * 30 + [around(1, of(NUM))]))
    for a in (*over, of(named(b"n" * 17)), of(named(b"\x7f")), nested(8), many):
        yield from (sheet(*each[:NAMES - 1], declare(more, a)), sheet(whole, declare(more, a)), sheet(whole, declare(names[7], a)))
    yield from (sheet(whole, declare(name, three)) for name in (b"", b"\x1f", b"n" * 17))
    # first, in the middle, last: declared again and used, and still there is no place for one more
    for again in (names[0], names[7], names[NAMES - 1]):
        yield sheet(whole, declare(again, char), use(again, names[0], names[7], names[NAMES - 1]))
        yield sheet(whole, use(again), declare(again, char), use(again))
        yield sheet(whole, declare(again, char) * 8, declare(more, three))
    # nothing after it is looked at; on a full stack it is 16 too
    yield from (sheet(whole, declare(more, three), after) for after in (b"XX", use(more), use(names[0]), b"P"))
    yield sheet(put(three) * STACK, whole, declare(more, three))


def on_a_full_stack():
    """A use has no place there, whatever its name is: 12. A declaration needs none."""
    three, four, n = num("3"), num("4"), declare(b"n", num("2"))
    uses = (use(b"n"), use(b"m"), use(b""), b"U", b"US", b"US\x11", b"US\x02n", b"US\x01\x1f", use(b"n" * 17), use(b"n") + b"XX")
    declarations = (n, declare(b"m", four), declare(b"m", four) + use(b"m"), b"N", b"NM", b"NM\0", b"NM\x01", b"NM\x01\x7f", b"NM\x01m", declare(b"m", four)[:-1], declare(b"m", nested(8)))
    for height in (STACK - 1, STACK):
        yield from (sheet(n, put(three) * height, last) for last in (*uses, *declarations))
        yield from (sheet(n, use(b"n") * height, last) for last in (*uses, *declarations))
    yield from (sheet(put(three) * STACK, last) for last in (use(b"n"), n, n + use(b"n"), n + JOIN + use(b"n"), n + JOIN + use(b"n", b"n")))
    # down and up again, by uses
    for down in (JOIN, PERVADE, pervade(3)):
        yield from (sheet(n, use(b"n") * STACK, (down * count + use(b"n") * count) * 3, last) for count in (1, STACK - 1) for last in (b"", ROW, use(b"n"), n))


def last_steps():
    """Both are steps: as the 63rd, the 64th and the 65th. As many declarations as there are steps leave no type."""
    three, n = num("3"), declare(b"n", num("2"))
    lasts = (n, declare(b"m", three), use(b"n"), use(b"m"), use(b""), declare(b"", three), declare(b"m", b"SX"), b"NM", b"US", b"N", use(b"n") + ROW)
    for rows in range(STEPS - 4, STEPS - 1):
        yield from (sheet(n, use(b"n"), ROW * rows, last) for last in lasts)
    for count in range(STEPS - 1, STEPS + 2):
        for turns in (1, 2, NAMES, NAMES + 1):
            yield sheet(*(declare(b"%d" % (turn % turns), num(str(turn))) for turn in range(count)))
        # the first declared, and then nothing but uses and joins
        yield sheet(n, use(b"n"), *((use(b"n"), JOIN)[turn % 2] for turn in range(count - 2)))
    for used in (b"0", b"15", b"3", b"16"):
        yield sheet(*(declare(b"%d" % (turn % NAMES), num(str(turn))) for turn in range(STEPS - 1)), use(used))


def worked_by_name():
    """Every step on what uses have put, of one name and of two."""
    some, pairs = ty("..", ANY), ((num("3"), num("?")), (num("3"), num("4")), (num("2 3"), ty("1", INT)), (num("?..3"), num("..")), (num("12"), num("..")))
    boxes = ((ty("2", fields(num("3"), ty("", CHAR))), ty("", BOX)), (ty("3", box(num("..4"))), ty("3", box(num("..5")))), (some, ty("..", fields(num("3"), name=b"n"))))
    for a, b in (*pairs, *boxes):
        both = declare(b"a", a) + declare(b"b", b)
        for steps in (ROW, JOIN, *(pervade(flag) for flag in range(4)), check(a), check(b), check(some), ROW + JOIN, JOIN + ROW):
            yield from (sheet(both, use(*names), steps) for names in ((b"a", b"b"), (b"b", b"a"), (b"a", b"a")))
            # a put and a use of the same type
            yield sheet(both, use(b"a"), put(b), steps)
            # with a declaration before the step, which leaves the stack as it is
            yield sheet(both, use(b"a", b"b"), declare(b"a", num("9")), steps, use(b"b"))
    # one type as often as the stack holds it, worked on in another way each time
    for a in (num("2 3"), ty("2 3", box(num("..5"))), ty("2", fields(num("3"), ty("", CHAR), name=b"n")), ty("..", ANY)):
        ways = (b"", ROW, check(some), use(b"a") + JOIN, use(b"a") + PERVADE, ROW + check(some))
        for turn in range(STACK):
            pile = b"".join(use(b"a") + way for way in ways[turn:] + ways[:turn])
            yield from (sheet_lent(declare(b"a", a), pile, down * (STACK - 1)) for down in (b"", JOIN, pervade(3)))


def buried_by_name():
    """Types that were used and worked on lie under others, used, put or worked on, and are dug up."""
    some = check(ty("..", ANY))
    over = use(b"over") + some + use(b"over") + put(ty("2", CHAR)) + ROW + use(b"over")
    for a in kept():
        beside = ty("", a[a.index(b"SC"):])
        names = declare(b"a", a) + declare(b"beside", beside) + declare(b"over", num("6"))
        for steps in (use(b"a"), use(b"a") + some, use(b"a") + ROW, use(b"beside", b"a") + PERVADE, use(b"a", b"a") + JOIN):
            yield sheet_lent(names, steps, over)
        yield sheet_lent(names, use(b"a"), some, use(b"beside"), some, declare(b"a", num("7")), use(b"beside"), PERVADE * 2, use(b"a"))
    # used or worked on, each with each, under names of their own; dug up by each step on two
    types = [declare(b"%d" % n, told_apart(n)) for n in range(STACK)]
    both = [(use(b"%d" % n), use(b"%d" % n) + some) for n in range(STACK)]
    for above in itertools.product(*both[1:]):
        yield from (sheet_lent(*types, both[0][1], *above, dig * (STACK - 1)) for dig in (b"", JOIN, PERVADE))


def largest_by_name():
    """Declared types of 4,992 bytes: one used as often as the stack holds it, and as many names as the line has room for."""
    a, b, some = largest_with(b"a"), largest_with(b"b", TYPES - 1), check(ty("..", ANY))
    one = declare(b"n", a) + use(b"n") * STACK
    for steps in (b"", ROW, JOIN, PERVADE, some, use(b"n"), declare(b"n", b) + JOIN + use(b"n"), JOIN * (STACK - 1)):
        yield sheet_lent(one, steps)
    yield from (sheet_call(scratch, result, one) for scratch in (SCRATCH - 1, SCRATCH, SCRATCH + 1) for result in (RESULT - 1, RESULT, RESULT + 1))
    yield from (sheet(declare(b"n", largest()), use(b"n") * count) for count in (1, STACK, STACK + 1))
    # each worked on before the next is used
    yield sheet_lent(declare(b"n", a), (use(b"n") + some) * STACK)
    yield sheet_lent(declare(b"n", a), (use(b"n") + ROW) * STACK, JOIN * (STACK - 1))
    yield sheet_lent(declare(b"n", a), use(b"n"), declare(b"n", b), use(b"n"), declare(b"n", num("3")), use(b"n"), JOIN)
    # a name too many, whose type is the largest or one byte short
    crowd = b"".join(declare(b"%d" % n, num("")) for n in range(NAMES))
    yield from (sheet(crowd, declare(b"n", a)[:end]) for end in (None, -1))
    many = b"".join(declare(b"%d" % n, largest_with(bytes([97 + n]))) for n in range(12))
    yield from (sheet_lent(many, use(b"0", b"5", b"11"), steps) for steps in (b"", some + JOIN))


# ---- a sheet's buffers and lines

# of a scratch: exactly what is asked for, longer (also as long as was asked for before), short
SCRATCHES = (0, 1, SCRATCH - 1, SCRATCH, SCRATCH + 1, 29951, 29952, 39936, LENT)


def neighbours(length):
    return {length - 1, length, length + 1} - {-1}


def buffers():
    """A short scratch first of all, a short result last of all; 4,992 bytes for each type left always suffice."""
    three, good, n = num("3"), put(num("3"), ty("", CHAR)), declare(b"n", num("3"))
    accepted = ((b"", 0, 0), (good, 2, 22), (good + ROW, 2, 22), (good + PERVADE, 1, 15), (put(three) * STACK, STACK, 15 * STACK))
    by_name = ((n, 0, 0), (n + use(b"n"), 1, 15), (n + use(b"n", b"n"), 2, 30), (n + use(b"n") * STACK, STACK, 15 * STACK))
    refused = ((steps, 0, 0) for steps in (b"XX", put(three) * (STACK + 1), put(three) + ROW * STEPS, use(b"n"), n + use(b"n") * (STACK + 1)))
    for steps, count, left in (*accepted, *by_name, *refused):
        for scratch in SCRATCHES:
            yield from (sheet_call(scratch, result, steps) for result in sorted({0, *neighbours(left), *neighbours(count * TYPE), LENT}))
    whole = put(largest()) * STACK
    for result in sorted(neighbours(RESULT)):
        yield sheet_call(SCRATCH, result, whole)
    # more on a stack full of the largest types, with the program's own buffers
    for step in (check(largest()), put(three), JOIN * (STACK - 1), PERVADE * (STACK - 1)):
        yield sheet(whole, step)
    yield sheet(whole, JOIN, put(largest()), put(three))
    # the program's own limit
    yield sheet(bytes(SHEET + 1))


def sheet_lines():
    """What these requests' lines may lack or have too much of."""
    good = word(put(num("3")))
    yield from ("sheet", "sheet ", "sheet  -", "sheet - ", "sheet - -", "sheet 5", "sheet g0", "sheets -", f"sheet {good.upper()}", f"sheet {good} {good}")
    for rest in ("", " ", " 0", " 0 0", " 0 0 ", " 0 0 - -", " 0  0 -", f" {SCRATCH} 15 {good} {good}", " x x g", " 0 x g", " 0 0 g", " 0 0 5", " - 0 -", " ? 0 -", " 0 ? -"):
        yield "sheet_call" + rest
    for number in (str(SCRATCH), f"0{SCRATCH}", str(LENT), str(LENT + 1), str(2**64 - 1), str(2**64), "-1", "+1", f"{SCRATCH:#x}"):
        yield f"sheet_call {number} 15 {good}"
        yield f"sheet_call {SCRATCH} {number} {good}"


# ---- the table of kinds

def table():
    """It takes nothing, so there is one good line."""
    yield "kinds"
    yield from ("kinds ", "kinds  ", "kinds x", "kinds -", "kinds 0", "kinds x ", "kinds  x", "kinds kinds", " kinds")
    yield from ("kind", "kindsx", "KINDS", "kinds\t", "kinds\r", "kinds\0", "kinds\xff")


# ---- the length of a type, the step of a place, the version

def lengths():
    """The type that begins the bytes, whatever follows it. Else it is refused as in reading, but never 6."""
    def length(*parts):
        return ask("type_length", b"".join(parts))

    boxes = (ty("", BOX), ty("2", box(num("..3"))), ty("..", fields(name=b"")), ty("..", fields(num("3"), ty("", CHAR), name=b"n")), nested(7))
    for a in (num(""), num(".."), num("2 ?..3"), *boxes, ty("", fields(*[num("")] * (TYPES - 1))), full(NUM), largest()):
        yield from (length(a, rest) for rest in (b"", b"\0", b"S", b"SH", b"SC\x03", num("3"), put(num("3"))))
        yield from (length(a[:-1]), length(a[:-1], num("3")))
    # each cut, alone and with another type behind it, which is taken for its own as far as it fits
    whole = ty("2 ?..3", fields(ty("", box(num("?"))), num("..3"), name=b"nm"))
    for end in range(len(whole) + 1):
        yield from (length(whole[:end]), length(whole[:end], num("3")))
    # out of range, and just within: counts, kinds, forms, names, fields, sizes, types, depth; a put is no type
    counts = [b"SH" + bytes(pair) for pair in ((9, 255), (8, 9), (0, 9), (0, 254))]
    scalars = [kind(code) for code in (9, 10, 255)] + [boxed(form) for form in (1, 2, 3, 255)]
    names = [named(b"n" * count) for count in (NAME, NAME + 1, 254)] + [named(bytes([byte])) for byte in (31, 32, 126, 127)]
    deep = [nested(levels) for levels in (7, 8, 31)] + [nested(8)[:80]]
    wide = [ty("", fields(*[num("")] * count, ty("", box(num(""))))) for count in (TYPES - 4, TYPES - 3, TYPES - 2)]
    sized = [num(f"{size}") for size in (LARGEST, LARGEST + 1, UNKNOWN - 1, UNKNOWN)] + [num(f"..{LARGEST + 1}")]
    fielded = [ty("", boxed(2, b"\xff" + bytes([count]))) for count in (0, 31, 32, 255)]
    for a in (*counts, *(ty("", scalar) for scalar in (*scalars, *names)), *deep, *wide, *sized, *fielded, put(num("")), b"XX", b"X"):
        yield from (length(a), length(a, num("")))


def find(place, *steps):
    return ask("find_step", place, b"".join(steps))


def around_steps(*steps):
    """Each mark, the byte before it and the one after, the end and past it."""
    marks = list(itertools.accumulate(map(len, steps), initial=0))
    places = {place for mark in marks for place in (mark - 1, mark, mark + 1)} | {marks[-1] + 2}
    yield from (find(place, *steps) for place in sorted(places - {-1}))


def found():
    """Every place belongs to the step whose bytes it is in, whatever the stack, the names and the rules say; none to what is whole and ended."""
    three, some = num("3"), check(ty("..", ANY))
    # every mark, and each place of each beginning
    whole = (declare(b"a", num("")), use(b"a"), ROW, use(b"a"), JOIN, put(num("")), pervade(3), some)
    every = b"".join(whole)
    for end in range(len(every) + 1):
        yield from (find(place, every[:end]) for place in (*range(end + 2), UNKNOWN))
    yield from around_steps(*whole, ROW, *whole)
    # far past the end, so that only the low bytes are a place
    for place in (256, 2**16, 2**32, 2**32 + 1, 2**53, 2**63, UNKNOWN - 1, UNKNOWN):
        yield from (find(place, every), find(place), find(place, b"X"), find(place, b"PU"))
    # no stack, no names, no rule
    yield from around_steps(JOIN, ROW, PERVADE, some, use(b"n"), JOIN)
    yield from around_steps(*[put(three)] * (STACK + 2))
    yield from around_steps(put(three), put(num("4")), PERVADE, check(ty("", CHAR)), ROW)
    yield from around_steps(*(declare(b"%d" % n, three) for n in range(NAMES + 2)))
    # no limit of steps
    counts = [(count, step) for count in (STEPS - 1, STEPS, STEPS + 1, STEPS + 2) for step in (ROW, use(b"n"), put(num("")))]
    for count, step in (*counts, (257, ROW), (1000, ROW)):
        length = len(step) * count
        yield from (find(place, step * count) for place in (0, length - len(step) - 1, length - len(step), length - 1, length))
        yield from (find(length + more, step * count, rest) for rest in (b"X", b"XX", b"PU") for more in (0, len(rest), len(rest) + 1))
    yield from (find(place, put(largest()), ROW) for place in (0, 2, 2 + TYPE // 2, 1 + TYPE, 2 + TYPE, 3 + TYPE, 4 + TYPE))


def found_in_broken():
    """A step that cannot be read to its end has all that is left, and the place after it."""
    three = num("3")
    types = (b"", b"S", b"SX", b"SH", b"SH\x09", three[:-1], num(str(LARGEST)), num(str(LARGEST + 1)), nested(7), nested(8), nested(8)[:80], ty("", kind(10)))
    names = (b"", b"\0", b"\x01", b"\x01\x1f", b"\x01 ", b"\x01~", b"\x01\x7f", b"\x02n", b"\x10" + b"n" * 15, b"\x10" + b"n" * 16, b"\x11" + b"n" * 17, b"\xff")
    steps = [mark + rest for rest in types for mark in (b"PU", b"VA", b"NM\x01n")]
    steps += [mark + rest for rest in names for mark in (b"NM", b"US")] + [b"NM" + rest + three for rest in names]
    steps += [b"PV" + bytes(rest) for rest in ((), (0,), (3,), (4,), (255,))]
    steps += [b"X", b"XX", b"P", b"R", b"SH", b"SC", b"BX", b"UP", b"WR", b"pu", b"\0\0", b"\xff\xff"]
    steps += [bytes([code]) + other for mark in (b"PU", b"RW", b"PV", b"JN", b"VA", b"NM", b"US") for code, other in ((mark[0] ^ 1, mark[1:]), (mark[0] ^ 128, mark[1:]))]
    steps += [mark[:1] + bytes([mark[1] ^ bit]) for mark in (b"PU", b"RW", b"PV", b"JN", b"VA", b"NM", b"US") for bit in (1, 128)]
    for step in steps:
        yield from (*around_steps(step), *around_steps(ROW, step, ROW))


def desk_lines():
    """What these requests' lines may lack or have too much of; the words first, then the number, then the bytes."""
    good = word(put(num("3")))
    yield from ("type_length", "type_length ", "type_length  -", "type_length - ", "type_length - -", "type_length 0 -", "type_length 5", "type_length g0", "type_lengths -", "type_length\t-", "TYPE_LENGTH -")
    yield from (f"type_length {word(num('3')).upper()}", f"type_length 0x{word(num('3'))}", f"type_length {word(num('3'))}0")
    for rest in ("", " ", " 0", " 0 ", " -", " 0 - ", " 0 - -", "  0 -", " 0  -", f" 0 {good} {good}", f" {good}", f" {good} 0", " x g", " 0 g", " 0 5", " 18446744073709551616 g", " 0 -\r", " 0\t-"):
        yield "find_step" + rest
    for number in ("0", "00", "017", "0" * 40 + "17", "17", "18", str(UNKNOWN), str(2**64), str(2**64 + 17), str(10**20), "-1", "+1", "1.", "0x1", "?", "-", "x", "1x", "x1"):
        yield f"find_step {number} {good}"
    yield from ("find_steps 0 -", "find_ste 0 -", "Find_step 0 -", " find_step 0 -", f"find_step 0 {good.upper()}")
    yield "version"
    yield from ("version ", "version  ", "version x", "version -", "version 0", "version version", " version", "versio", "versions", "VERSION", "version\t", "version\r", "version\0", "version\xff")


# ---- bytes that are no types, and lines

def refused():
    """The first, or the spec, is read whole before the other; all bytes before any rule."""
    good, extra, short, over = num("3"), num("3") + b"\0", num("3")[:5], num(str(LARGEST + 1))
    sided = ("pervade 0", "validate none", "check_shape left", "check_scalar", "compatible_with_boxes")
    for request in ("merge", "join_shapes", "compatible_shapes", "superset", "compatible_scalars", "compare", "union", "join", *sided):
        for a, b in ((extra, b""), (b"", extra), (good, short), (short, good), (good, extra), (good, over)):
            yield ask(request, a, b)
    alone = ("row_shape", "row_count", "rank", "shape_is_any", "shape_is_scalar", "unrefine", "as_boxes", "unboxed")
    for request in (*alone, "row", "first_row", "last_row", "nth_row 0", "field 0"):
        yield from (ask(request, a) for a in (b"", short, extra, over, nested(8)))
    for request in ("unrefine", "unboxed", "compare", "union"):
        yield ask(request, *[largest()] * (2 if request in ("compare", "union") else 1))


def lines():
    """What these requests' lines may lack or have too much of; arguments are judged from the left."""
    a, one = word(num("3")), bits(1.0)
    for request in ("validate", "check_shape"):
        for rest in ("", " ", " none", f" none {a}", f" none {a} ", f" none {a} {a} {a}", f"  none {a} {a}", " none - -"):
            yield request + rest
        for side in ("None", "LEFT", "nones", "non", "up", "-", "?", "0", "left\t"):
            yield f"{request} {side} {a} {a}"
        yield from (f"{request} {rest}" for rest in ("up g g", f"none g {a}", f"none {a} g", "none 5 g"))
    for rest in ("", f" {a}", f" none {a} {a}", f" {a} g", f" g {a}"):
        yield "check_scalar" + rest
    # a value's first word is judged before the number of its words
    firsts = ("Num", "nums", "lists 0", "number 0 0", "- 0", one, f"{a} {a}", "types", "num", "list", "type")
    counts = (f"num {one} {one}", f"type {a} {a}", f"num  {one}", f"list  {one}", f"list {one}  {one}", f"list {one} ", "list ")
    digits = (one[1:], f"{one}0", "-", f"{one[1:]}g", "7FF8000000000000")
    for request in VALUES:
        yield from (request, f"{request} ")
        yield from (f"{request} {rest}" for rest in (*firsts, *counts, "type g", "type -", "type 5"))
        for number in digits:
            yield from (f"{request} {rest}" for rest in (f"num {number}", f"list {number} {one}", f"list {one} {number}"))
    for rest in (" ", "  ", " -", f" {one} ", f" list {one}", *(f" {number}" for number in digits)):
        yield "nums_scalar" + rest
    # as many numbers as a line holds
    for request in ("val_ty list", "nums_scalar"):
        yield request + f" {bits(2.0)}" * ((LINE - len(request)) // 17)


PARTS = (
    cases, dims, shapes, tested, scalars, tested_in_boxes, orders, rows, boxes, looked_up, joins, values, kinds, shape_checks, scalar_checks,
    grown, counted, reading, judged, worked, stacked, met, poured, buried, largest_types, spelled, cut_off, told_by_name, superseded, crowded,
    on_a_full_stack, last_steps, worked_by_name, buried_by_name, largest_by_name, buffers, sheet_lines, table, lengths,
    found, found_in_broken, desk_lines, refused, lines,
)  # fmt: skip


def main():
    requests = (request + "\n" for part in PARTS for request in part())
    sys.stdout.buffer.write("".join(requests).encode("latin-1"))


if __name__ == "__main__":
    main()
