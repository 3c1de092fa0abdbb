"""The steps of a sheet, told from its bytes, and why it is refused, in words: what vg-check says must be this."""

WORDS = {
    b'PU': 'put', b'RW': 'row', b'PV': 'pervade', b'JN': 'join', b'VA': 'validate', b'NM': 'declaration', b'US': 'use',
}
REASONS = {
    1: 'the bytes end before it is whole',
    2: 'two bytes that are no mark allowed there',
    3: 'a count, a code, a flag or a letter of a name is out of range',
    4: 'a size above 2^53',
    5: 'too many types in one, too deep, or too many copies',
    7: 'more than 49152 bytes',
    8: 'the two tables cannot be laid together',
    9: 'the wrong kind for its spec',
    10: "a size differs from the spec's",
    11: 'it lacks tables',
    14: "so many sizes cannot fit the spec's",
    15: 'a name that was never declared before it',
    16: 'a seventeenth name',
}


class Unread(Exception):
    """A step that cannot be read to its end."""


class Reader:
    """Bytes from a place on."""

    def __init__(self, data, at):
        self.data, self.at, self.types = data, at, 0

    def take(self, count):
        if self.at + count > len(self.data):
            raise Unread
        self.at += count
        return self.data[self.at - count:self.at]

    def among(self, allowed):
        byte = self.take(1)[0]
        if byte not in allowed:
            raise Unread
        return byte

    def mark(self, wanted):
        if self.take(2) != wanted:
            raise Unread

    def letters(self, count):
        for _ in range(count):
            self.among(range(32, 127))

    def type(self, depth=1):
        self.types += 1
        if self.types > 32 or depth > 8:
            raise Unread
        self.mark(b'SH')
        opening, closing = self.among(range(9)), self.among([*range(9), 255])
        for _ in range(opening + closing % 255):
            size = int.from_bytes(self.take(8), 'little')
            if 1 << 53 < size < (1 << 64) - 1:
                raise Unread
        self.mark(b'SC')
        if self.among(range(10)) == 8:
            self.mark(b'BX')
            self.box(self.among(range(3)), depth)

    def box(self, form, depth):
        if form == 1:
            self.type(depth + 1)
        if form == 2:
            self.letters(self.among([*range(17), 255]) % 255)
            for _ in range(self.among(range(32))):
                self.type(depth + 1)

    def step(self):
        mark = self.take(2)
        if mark not in WORDS:
            raise Unread
        if mark == b'PV':
            self.among(range(4))
        if mark in (b'NM', b'US'):
            self.letters(self.among(range(1, 17)))
        if mark in (b'PU', b'VA', b'NM'):
            self.type()


def step_at(data, place):
    """The number and the word of the step that a place belongs to."""
    at = number = 0
    while at < len(data):
        number += 1
        word = WORDS.get(data[at:at + 2], 'no mark of a step')
        reader = Reader(data, at)
        try:
            reader.step()
        except Unread:
            return number, word
        if place < reader.at:
            return number, word
        at = reader.at
    raise AssertionError(f'no step has the place {place}')


def explanation(data, wanted):
    """The line that --explain prints behind a refusal."""
    number, place = map(int, wanted.split()[1:])
    if number == 7:
        return f'  the sheet: {REASONS[7]}\n'
    step, word = step_at(data, place)
    reason = REASONS[number] if number != 12 else 'a 65th step' if step == 65 else 'a seventh table at once'
    return f'  step {step}, {word}: {reason}\n'
