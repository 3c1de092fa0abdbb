#!/usr/bin/env python3
"""Prints the last part of the fixed list (compare/fixed): requests for reading and writing types in bytes.

Document 01's examples for refusals 1 to 6; each corner of its record bytes with its neighbours; sheets at
the program's limit; and the corners of a line. The last line has no line feed, so in a longer list this one is last.
"""

import sys

sys.dont_write_bytecode = True

from limits import LARGEST, LENT, LINE, RESULT, SCRATCH, SHEET, SIZES, STACK, UNKNOWN


# ---- records, by hand: counts, codes and names may be out of range

def sizes(values):
    return b"".join(value.to_bytes(8, "little") for value in values)


def shape(opening=(), closing=None):
    """A closing list of None is a closed shape."""
    count = 255 if closing is None else len(closing)
    return b"SH" + bytes([len(opening), count]) + sizes(opening) + sizes(closing or ())


def kind(code):
    return b"SC" + bytes([code])


def boxed(form, rest=b""):
    return kind(8) + b"BX" + bytes([form]) + rest


def named(name, fields=()):
    """A name of None is none."""
    start = b"\xff" if name is None else bytes([len(name)]) + name
    return boxed(2, start + bytes([len(fields)]) + b"".join(fields))


NUM, ANY = kind(3), kind(9)
SCALAR, OPEN = shape(), shape((), ())


def of(scalar, opening=(), closing=None):
    return shape(opening, closing) + scalar


def nested(levels):
    """[] Num in so many All boxes."""
    ty = of(NUM)
    for _ in range(levels):
        ty = of(boxed(1, ty))
    return ty


def full(inside):
    """The longest shape."""
    return of(inside, [LARGEST] * SIZES, [UNKNOWN] * SIZES)


def largest(name=b"sixteen letters!", full=full):
    """32 types, eight deep, each with the longest shape and the longest name: 4,992 bytes."""
    leaf = ty = full(named(name))
    for _ in range(6):
        ty = full(named(name, [ty]))
    return full(named(name, [ty] + [leaf] * 24))


def large():
    """A nested type that has every record, count and form."""
    deep = of(boxed(1, of(named(b"", [of(kind(6), [UNKNOWN])]), [2])), [1], [])
    fields = [of(boxed(0), [2, UNKNOWN]), deep, of(named(None), (), [3]), of(ANY, (), ())]
    return of(named(b"large ~", fields), [2, LARGEST], [3, UNKNOWN])


def full_sheet():
    """A sheet of just SHEET bytes, which leaves as many types as the stack holds.

    Nine of the largest types are put. Once the stack is full, a join makes room for each further put, so that it is full again and again; the
    last put makes up the length.
    """
    put, join = b"PU" + largest(), b"JN"
    last = b"PU" + full(named(b"sextet", [full(NUM)] * 30))
    sheet = put * STACK + (join + put) * (9 - STACK) + join + last
    assert len(sheet) == SHEET
    return sheet


# ---- requests

def word(data):
    return data.hex() or "-"


def read(data):
    return "read " + word(data)


def examples():
    """The table of refusals."""
    yield from ("read 534801", "read 5858", "read 534809")
    yield read(of(NUM, [2**60]))
    yield read(nested(32))
    yield read(of(NUM) + b"\0")


def cuts():
    """Every truncation of a large nested type."""
    whole = large()
    yield from (read(whole[:end]) for end in range(len(whole) + 1))


def shapes():
    for count in (0, 1, 8, 9, 254, 255):
        yield read(of(NUM, [2] * count))
        yield read(b"SH\0" + bytes([count]) + sizes([2] * count) + NUM)
    yield read(b"SH\x08\x08" + sizes(range(16)) + NUM)
    yield read(b"SH\x09\x09")
    yield read(b"SH\x00\x09")
    for size in (0, 1, LARGEST - 1, LARGEST, LARGEST + 1, 2**63, UNKNOWN - 1, UNKNOWN):
        yield read(of(NUM, [size]))
        yield read(of(NUM, [1, size], [3]))
        yield read(of(NUM, [1], [3, size]))
    # a size is judged once its bytes are there, a count when it is read
    yield read(b"SH\x01\xff" + sizes([LARGEST + 1])[:7])
    yield read(b"SH\x02\xff" + sizes([LARGEST + 1]))
    # a mark is judged once both its bytes are there
    yield from ("read 58", "read 53", "read 5358", "read 534800ff58", "read 534800ff5343")


def scalars():
    for code in (*range(12), 128, 254, 255):
        yield read(of(kind(code)))
    for form in (0, 1, 2, 3, 4, 255):
        yield read(of(boxed(form)))
    yield read(of(boxed(1, of(NUM))))
    yield read(of(boxed(1, SCALAR)))
    yield read(of(kind(8) + b"BY\0"))
    for length in (0, 1, 15, 16, 17, 254, 255):
        yield read(of(named(b"n" * length)))
        yield read(of(boxed(2, bytes([length, 0]))))
    for byte in (0, 31, 32, 65, 126, 127, 128, 255):
        yield read(of(named(bytes([byte]))))
        yield read(of(named(b"fifteen letters" + bytes([byte]))))
        # judged when it is read, before the bytes after it
        yield read(of(boxed(2, b"\x02" + bytes([byte]))))
    for count in (0, 1, 30, 31, 32, 255):
        yield read(of(named(None, [of(NUM)] * count)))
        yield read(of(boxed(2, b"\xff" + bytes([count]))))


def limits():
    for levels in (6, 7, 8, 31, 32):
        yield read(nested(levels))
    # 31, 32 and 33 types, the last of them in a box of its own
    for count in (28, 29, 30):
        yield read(of(named(None, [of(NUM)] * count + [of(boxed(1, of(NUM)))])))
    # one too many is refused before its bytes are looked at, and where they have ended; a level has ten bytes
    yield read(nested(8)[:79])
    yield read(nested(8)[:80])
    yield read(nested(8)[:80] + b"junk")
    yield read(of(named(None, [of(boxed(2, b"\xff\x1f" + of(NUM) * 30))])))
    yield read(of(named(None, [of(boxed(2, b"\xff\x1f" + of(NUM) * 30 + b"junk"))])))
    yield read(largest())
    yield read(largest()[:-1])
    yield read(largest() + b"\0")


def after():
    """Bytes after a lone type."""
    for ty in (of(NUM), of(NUM, [2], [3]), nested(7), large()):
        yield read(ty + b"\0")
        yield read(ty + ty)


def written():
    """Records to a result exactly long enough, one byte short, and at its limits."""
    types = (of(NUM), of(NUM, (), ()), of(ANY, [3]), of(boxed(0), (), [4, UNKNOWN]), nested(7), large(), full(NUM), largest())
    for ty in types:
        head = 4 + 8 * (ty[2] + (0 if ty[3] == 255 else ty[3]))
        for name, length in (("write_shape", head), ("write_scalar", len(ty) - head)):
            for room in (length, length - 1):
                yield f"{name} {room} {word(ty)}"
    for room in (0, 3, 4, 5, LENT):
        yield f"write_shape {room} {word(of(ANY))}"
    for room in (0, 2, 3, 4, LENT):
        yield f"write_scalar {room} {word(of(ANY))}"
    # the type's own refusals come first
    for data in (b"", b"SH\x09", of(NUM) + b"\0", nested(8)):
        for name in ("write_shape", "write_scalar"):
            yield f"{name} 0 {word(data)}"
            yield f"{name} {LENT} {word(data)}"


def sheets():
    """The longest sheet that the program reads, and one byte more, which only the program refuses for its length."""
    for sheet in (full_sheet(), full_sheet() + b"R"):
        yield "sheet " + word(sheet)
        yield f"sheet_call {SCRATCH} {RESULT} {word(sheet)}"


def lines():
    """What a line may lack or have too much of."""
    yield from ("", " ", "  ", "#", "reads", "rea", "READ -", " read -", "\tread -", "read\t-", "read\r", "read -\r")
    yield from ("read", "read ", "read  ", "read  -", "read - ", "read - -", "read -  -", "read -- -", "read 53 48")
    yield from ("read -", "read --", "read 5", "read 534", "read 0g", "read g0", "read 53-48", "read 0x53", "read 534801F", "read :0", "read /0", "read @0", "read `0", "read 0G")
    num = of(NUM).hex()
    yield from (f"read {num}", f"read {num.upper()}", f"read {num[:9].upper()}{num[9:]}", f"read 5348 {num}")
    for name in ("write_shape", "write_scalar"):
        yield from (name, f"{name} ", f"{name} 5", f"{name} 5 ", f"{name} 5  {num}", f"{name} 5 {num} ", f"{name} 5 {num} {num}", f"{name}  5 {num}")
        for number in ("7", "07", "0" * 40 + "7", "-1", "+7", "7.", "0x7", "x", "?", "-", ":", "/", "65535", "65536", "65537", str(2**64 - 1), str(2**64), str(2**64 + 7), str(10**20 + 7)):
            yield f"{name} {number} {num}"
        # arguments are judged from the left, all of them before the call
        yield from (f"{name} x g", f"{name} 0 g", f"{name} 65537 g", f"{name} 0 5")
    # blanks and other signs that part no words
    yield from ("\t", "\t\t", " \t ", "\r", "read\t-\t-", "read -\t", "read\v-", "read -\0", "re\0ad -", "\0 \0")
    yield "\0"
    yield "read \0"
    yield "read 5348\xff0"
    # the longest line, and one more byte; the line after it is a line again
    yield "write_shape 0 " + "0" * (LINE - len("write_shape 0 "))
    yield "write_shape 0 " + "0" * (LINE + 1 - len("write_shape 0 "))
    yield "read -"
    # the last line may lack its line feed
    yield f"read {num}"


def main():
    parts = (examples, cuts, shapes, scalars, limits, after, written, sheets, lines)
    requests = [request for part in parts for request in part()]
    sys.stdout.buffer.write("\n".join(requests).encode("latin-1"))


if __name__ == "__main__":
    main()
