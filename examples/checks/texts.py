"""The example sheets: their bytes, and what is expected of them."""
import os
import pathlib
import re

from checks.missing import Missing

ROOT = pathlib.Path(__file__).resolve().parent.parent.parent
SHEETS = ROOT / os.environ.get('SHEETS', 'examples/sheets')

# More than any program reads; a count that was mistyped would else fill the memory.
MOST_BYTES = 1 << 20


def shown(path):
    """A path as somebody at the repository's root would type it."""
    return str(path.relative_to(ROOT) if path.is_relative_to(ROOT) else path)


def text_of(path):
    try:
        return path.read_text(encoding='utf-8')
    except OSError as error:
        raise Missing(f'{shown(path)} cannot be read: {error.strerror}') from None
    except UnicodeDecodeError:
        raise Missing(f'{shown(path)} is no text') from None


def bytes_of_words(words, where):
    for word in words:
        wrong = re.search('[^0-9a-fA-F]', word)
        if wrong:
            raise Missing(f'{where}: {wrong[0]!r} is no hexadecimal digit')
        if len(word) % 2:
            raise Missing(f'{where}: {word} has an odd number of digits')
    return bytes.fromhex(''.join(words))


def times(text, where):
    if not re.fullmatch('[0-9]+', text.strip(), re.ASCII):
        raise Missing(f'{where}: {text.strip()!r} before the * is no count')
    # A count of very many digits is one that is too large, and Python turns none into a number.
    return int(text.strip()[:12])


def bytes_of(path):
    """The bytes that an example's text says."""
    data = b''
    for number, line in enumerate(text_of(path).splitlines(), 1):
        where = f'{shown(path)}, line {number}'
        count, star, words = line.split('#')[0].rpartition('*')
        part = bytes_of_words(words.split(), where)
        count = times(count, where) if star else 1
        if len(data) + count * len(part) > MOST_BYTES:
            raise Missing(f'{where}: this makes more than {MOST_BYTES} bytes')
        data += part * count
    return data


def named(name):
    path = SHEETS / f'{name}.hex'
    if not path.is_file():
        raise Missing(f'there is no example {name}: {shown(path)} is missing')
    return path


def examples():
    """Every example: its path, its bytes, and what is expected of it."""
    paths = sorted(SHEETS.glob('*.hex'))
    if not paths:
        raise Missing(f'there is no example in {shown(SHEETS)}')
    alone = sorted(set(SHEETS.glob('*.expected')) - {path.with_suffix('.expected') for path in paths})
    if alone:
        raise Missing(f'{shown(alone[0])} has no example beside it')
    return [(path, bytes_of(path), text_of(path.with_suffix('.expected'))) for path in paths]


def laid_out(folder):
    """Each example as a file of its own bytes: the file, the bytes, and what is expected."""
    made = []
    for path, data, wanted in examples():
        file = folder / path.stem
        try:
            file.write_bytes(data)
        except OSError as error:
            raise Missing(f'{file} cannot be written: {error.strerror}') from None
        made.append((file, data, wanted))
    return made


def limit(name):
    """A number that the header defines."""
    header = ROOT / 'include' / 'velgrodis.h'
    found = re.search(rf'^#define {name} (?:UINT64_C\()?(\d+)', text_of(header), re.M)
    if not found:
        raise Missing(f'{shown(header)} defines no number {name}')
    return int(found[1])
