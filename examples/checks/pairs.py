"""Two sheets at the same time: every pair of examples on two_sheets, and what it does where there is no answer."""
import pathlib
import resource
import tempfile

from checks import programs, texts


def short_of_room(data, wanted):
    """What is expected with the result that two_sheets has, room for one type: types that do not fit are 7 at the sheet's length."""
    words = wanted.split(maxsplit=3)
    return f'no 7 {len(data)}\n' if words[0] == 'ok' and int(words[2]) > texts.limit('VG_TYPE_BYTES') else wanted


def laid_out(folder):
    """Each example as a file of its own bytes, with what is expected of it there."""
    sheets = [(file, short_of_room(data, wanted)) for file, data, wanted in texts.laid_out(folder)]
    # No step has the mark 00 00; a byte more, and no byte would have been looked at.
    longest = folder / 'as long as the program reads'
    longest.write_bytes(bytes(texts.limit('VG_PROGRAM_SHEET_BYTES')))
    return sheets + [(longest, 'no 2 0\n')]


def without_answer(told, folder, good):
    """Where there is no answer: what is wrong, a word of the complaint, and what the program then does."""
    missing = folder / 'missing'
    # A thread asks for as much room as the stack may have; there is too little memory for one, or for two.
    mebi = 1 << 20
    stack = (resource.RLIMIT_STACK, 64 * mebi)
    for_none = [stack, (resource.RLIMIT_AS, 32 * mebi)]
    for_one = [stack, (resource.RLIMIT_AS, 96 * mebi)]
    yield 'no file named', 'wanted', told([])
    yield 'one file named', 'wanted', told([good])
    yield 'three files named', 'wanted', told([good, good, good])
    yield 'no file of the matinee', "matinee's sheet cannot be opened", told([missing, good])
    yield 'no file of the evening', "evening's sheet cannot be opened", told([good, missing])
    yield 'a folder for the matinee', "matinee's sheet cannot be read", told([folder, good])
    yield 'a folder for the evening', "evening's sheet cannot be read", told([good, folder])
    yield 'no thread', "matinee's sheet cannot be checked", told([good, good], limits=for_none)
    yield 'one thread', "evening's sheet cannot be checked", told([good, good], limits=for_one)
    with open('/dev/full', 'wb') as full:
        yield 'no room for the answers', 'cannot be written', told([good, good], stdout=full)


def compare():
    program = programs.found('TWO_SHEETS', 'target/examples/two_sheets', 'examples/build makes it')

    def told(args, data=b'', **how):
        return programs.told([program, *args], data, **how)

    pairs = wrong = failures = 0
    with tempfile.TemporaryDirectory() as name:
        folder = pathlib.Path(name)
        sheets = laid_out(folder)
        for matinee, first in sheets:
            for evening, second in sheets:
                pairs += 1
                got = told([matinee, evening])
                if got != (first + second, '', 0):
                    wrong += 1
                    print(f'{matinee.name} with {evening.name}\n  expected {first + second!r}\n  printed  {got!r}')
        # A pipe that is named for both has one sheet.
        example = texts.named('papers-example')
        wanted = 2 * texts.text_of(example.with_suffix('.expected'))
        pairs += 1
        if (got := told(['/dev/stdin', '/dev/stdin'], texts.bytes_of(example))) != (wanted, '', 0):
            wrong += 1
            print(f'one pipe for both\n  expected {wanted!r}\n  printed  {got!r}')
        for what, word, got in without_answer(told, folder, folder / 'papers-example'):
            failures += 1
            out, complaint, status = got
            if out or word not in complaint or complaint.count('\n') != 1 or status != 2:
                wrong += 1
                print(f'{what}\n  expected no answer, one line with {word!r}, and status 2\n  printed  {got!r}')
    print(f'{pairs} pairs of sheets and {failures} calls without an answer, {wrong} differ')
    return 1 if wrong else 0
