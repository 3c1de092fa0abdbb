"""examples/check where something is missing: each time one sentence on standard error, status 2, and no traceback."""
import os
import pathlib
import sys
import tempfile

from checks import programs, texts

CHECK = texts.ROOT / 'examples' / 'check'


def examples(folder, name, text, expected='ok 0 0\n'):
    """A folder with one example in it."""
    there = folder / name
    there.mkdir()
    (there / 'one.hex').write_bytes(text)
    if expected is not None:
        (there / 'one.expected').write_text(expected)
    return there


def script(folder, name, line, mode=0o755):
    """A program that does not do what is wanted of it."""
    path = folder / name
    path.write_text(f'#!/bin/sh\n{line}\n')
    path.chmod(mode)
    return path


def faults(folder):
    """What is wrong, the words of a command, what is set for it, and what the sentence has."""
    good = examples(folder, 'good', b'# nothing at all\n')
    missing = folder / 'missing'
    for name, text, wanted in (
        ('digit', b'50 55 # put\n52 5g\n', "one.hex, line 2: 'g' is no hexadecimal digit"),
        ('odd', b'50 55\n\n525\n', 'one.hex, line 3: 525 has an odd number of digits'),
        ('parted', b'5 0 55\n', 'one.hex, line 1: 5 has an odd number'),
        ('no count', b'* 50\n', "one.hex, line 1: '' before the * is no count"),
        ('a count below 0', b'-1 * 50\n', "one.hex, line 1: '-1' before the * is no count"),
        ('a count in words', b'six * 50\n', "one.hex, line 1: 'six' before the * is no count"),
        ('two counts', b'2 * 3 * 50\n', "one.hex, line 1: '2 * 3' before the * is no count"),
        ('a count with a line under it', b'1_0 * 50\n', 'is no count'),
        ('a count too large', b'99999999999999999999 * 50\n', 'one.hex, line 1: this makes more than'),
        ('too many in all', b'1000000 * 50\n' * 2, 'one.hex, line 2: this makes more than'),
        ('no text', b'50 \xff\n', 'one.hex is no text'),
    ):
        there = examples(folder, name, text)
        yield name, ['bytes', 'one'], {'SHEETS': there}, wanted
        yield f'{name}, all', [], {'SHEETS': there, 'SHEET': script(folder, f'sheet {name}', 'cat >/dev/null')}, wanted
    cat = script(folder, 'sheet', 'cat >/dev/null')
    yield 'no such example', ['bytes', 'one-that-is-not'], {}, 'there is no example one-that-is-not: examples/sheets/one-that-is-not.hex is missing'
    yield 'no folder to write to', ['files', missing], {}, f'{missing}/a-box-and-a-table-of-one-name cannot be written'
    yield 'an example by its file', ['bytes', 'papers-example.hex'], {}, 'there is no example papers-example.hex'
    yield 'nothing expected', [], {'SHEETS': examples(folder, 'unexpected', b'', None), 'SHEET': cat}, 'one.expected cannot be read'
    alone = examples(folder, 'alone', b'')
    (alone / 'two.expected').write_text('ok 0 0\n')
    yield 'no example beside it', [], {'SHEETS': alone, 'SHEET': cat}, 'two.expected has no example beside it'
    (folder / 'empty').mkdir()
    yield 'no example at all', [], {'SHEETS': folder / 'empty', 'SHEET': cat}, 'there is no example in'
    yield 'no folder', [], {'SHEETS': missing, 'SHEET': cat}, 'there is no example in'
    yield 'no sheet', [], {'SHEET': missing}, f'there is no {missing}: tools/build sheet builds it'
    yield 'no oracle', ['rust'], {'ORACLE': missing}, f'there is no {missing}: compare/run build makes it'
    yield 'no two_sheets', ['two'], {'TWO_SHEETS': missing}, f'there is no {missing}: examples/build makes it'
    yield 'no vg-check', ['vg-check'], {'VG_CHECK': missing}, f'there is no {missing}: examples/build makes it'
    for words, variable in (([], 'SHEET'), (['rust'], 'ORACLE'), (['two'], 'TWO_SHEETS'), (['vg-check'], 'VG_CHECK')):
        unrunnable = script(folder, f'unrunnable {variable}', 'true', 0o644)
        yield f'a {variable} that cannot be run', words, {variable: unrunnable}, f'{unrunnable} cannot be run'
    for variable, words in (('SHEET', []), ('ORACLE', ['rust'])):
        ends = script(folder, f'ends {variable}', 'exit 3')
        yield f'a {variable} that ends badly', words, {variable: ends, 'SHEETS': good}, f'{ends} ended with status 3 on one'
        killed = script(folder, f'killed {variable}', 'kill -SEGV $$')
        yield f'a {variable} that is killed', words, {variable: killed, 'SHEETS': good}, f'{killed} was ended by SIGSEGV on one'


def compare():
    tried = wrong = 0

    def judge(what, word, got):
        nonlocal tried, wrong
        tried += 1
        out, complaint, status = got
        if out or status != 2 or word not in complaint or complaint.count('\n') != 1 or not complaint.startswith('examples/check: '):
            wrong += 1
            print(f'{what}\n  expected a sentence with {word!r} and status 2\n  got      {got!r}')

    with tempfile.TemporaryDirectory() as name:
        folder = pathlib.Path(name)
        command = [sys.executable, CHECK]
        for what, words, settings, wanted in faults(folder):
            env = {**os.environ, **{key: str(value) for key, value in settings.items()}}
            judge(what, wanted, programs.told([*command, *words], env=env))
        with open('/dev/full', 'wb') as full, programs.nobody_reads() as pipe:
            for what, stream, wanted in (('a full disk', full, 'No space left'), ('a pipe that nobody reads', pipe, 'Broken pipe')):
                for words in (['bytes', 'papers-example'], ['bytes', 'refused-7-longer-than-the-program-reads']):
                    judge(f'{what}, {words}', wanted, programs.told([*command, *words], stdout=stream))
                env = {**os.environ, 'SHEETS': str(folder / 'good'), 'SHEET': str(folder / 'sheet')}
                judge(f'{what}, what differs', wanted, programs.told(command, stdout=stream, env=env))
        judge('standard output closed', 'standard output is closed', programs.told([*command, 'bytes', 'papers-example'], closed=1))
    got = programs.told([*command, 'no-such-word'])
    tried += 1
    if got[0] or got[2] != 2 or 'examples/check bytes NAME' not in got[1]:
        wrong += 1
        print(f'a word that is none\n  expected what there is, and status 2\n  got      {got!r}')
    print(f'{tried} runs of examples/check where something is missing, {wrong} differ')
    return 1 if wrong else 0
