"""vg-check: every example, every option, and what it does where there is no answer."""
import os
import pathlib
import resource
import tempfile
import threading

from checks import programs, steps, texts

USAGE = 'usage: vg-check [--quiet] [--explain] [--] FILE...\n       vg-check --help\n       vg-check --version\n'


class Cases:
    """Counts what was tried, and prints what was not so."""

    def __init__(self, program):
        self.program, self.tried, self.wrong = program, 0, 0

    def judge(self, what, good, wanted, got):
        self.tried += 1
        if not good:
            self.wrong += 1
            print(f'{what}\n  expected {wanted!r}\n  printed  {got!r}')

    def told(self, args, **how):
        return programs.told([how.pop('program', self.program), *args], **how)

    def prints(self, what, args, out, status, **how):
        """An answer, and no complaint."""
        got = self.told(args, **how)
        self.judge(what, got == (out, '', status), (out, '', status), got)

    def complains(self, what, args, *words, out='', **how):
        """Status 2, and of the complaint a line for each of the words, in turn, with the host's name before it."""
        got = self.told(args, **how)
        lines = got[1].splitlines()
        good = (got[0], got[2], len(lines)) == (out, 2, len(words))
        good = good and all(line.startswith('vg-check: ') and word in line for word, line in zip(words, lines))
        self.judge(what, good, (out, words, 2), got)


def status_of(wanted):
    return 0 if wanted.startswith('ok') else 1


def under(name, text):
    """An answer with a file's name before each line."""
    return ''.join(f'{name}: {line}' for line in text.splitlines(keepends=True))


def one_by_one(cases, sheets):
    for file, data, wanted in sheets:
        status = status_of(wanted)
        explained = wanted + steps.explanation(data, wanted) if status else wanted
        cases.prints(file.name, [file], wanted, status)
        cases.prints(f'{file.name}, standard input', ['-'], wanted, status, data=data)
        cases.prints(f'{file.name}, --quiet', ['--quiet', file], '', status)
        cases.prints(f'{file.name}, --explain', ['--explain', file], explained, status)
        cases.prints(f'{file.name}, --explain and --quiet', [file, '--explain', '--quiet'], '', status)


def several(cases, folder, sheets):
    files = [file for file, _, _ in sheets]
    all_answers = ''.join(under(file, wanted) for file, _, wanted in sheets)
    cases.prints('all at once', files, all_answers, 1)
    explained = ''.join(under(file, wanted + (steps.explanation(data, wanted) if status_of(wanted) else '')) for file, data, wanted in sheets)
    cases.prints('all at once, --explain', ['--explain', *files], explained, 1)
    cases.prints('all at once, --quiet', ['--quiet', *files], '', 1)
    accepted = [(file, wanted) for file, _, wanted in sheets if not status_of(wanted)]
    cases.prints('all that are accepted', [file for file, _ in accepted], ''.join(under(file, wanted) for file, wanted in accepted), 0)
    missing = folder / 'missing'
    cases.complains('all at once, and one that is missing', [missing, *files], f'{missing} cannot be opened', out=all_answers)
    cases.complains('all at once, a folder among them', [*files[:5], folder, *files[5:]], f'{folder} cannot be read', out=all_answers)


def lengths(cases, folder):
    """No step has the mark 00 00; a byte more than is read, and no byte is looked at."""
    limit = texts.limit('VG_PROGRAM_SHEET_BYTES')
    for length, wanted in ((limit, 'no 2 0\n'), (limit + 1, 'no 7 0\n'), (limit + 2, 'no 7 0\n'), (4 * limit, 'no 7 0\n')):
        file = folder / f'{length} bytes'
        file.write_bytes(bytes(length))
        cases.prints(file.name, [file], wanted, 1)
        cases.prints(f'{file.name}, a pipe', ['-'], wanted, 1, data=bytes(length))
    cases.prints('no byte', [os.devnull], 'ok 0 0\n', 0)


def explanations(cases):
    """A refusal at each step, behind a put."""
    for step, wanted in (
        ('5055', 'no 1 11\n  step 2, put: the bytes end before it is whole\n'),
        ('5055 534809', 'no 3 11\n  step 2, put: a count, a code, a flag or a letter of a name is out of range\n'),
        ('4a4e', 'no 11 9\n  step 2, join: it lacks tables\n'),
        ('5056 00', 'no 11 9\n  step 2, pervade: it lacks tables\n'),
        ('5257 4a4e', 'no 11 11\n  step 3, join: it lacks tables\n'),
        ('5641 534800ff 534306', "no 9 9\n  step 2, validate: the wrong kind for its spec\n"),
        ('4e4d 00', 'no 3 9\n  step 2, declaration: a count, a code, a flag or a letter of a name is out of range\n'),
        ('5553 0161', 'no 15 9\n  step 2, use: a name that was never declared before it\n'),
        ('58', 'no 1 9\n  step 2, no mark of a step: the bytes end before it is whole\n'),
        ('5858', 'no 2 9\n  step 2, no mark of a step: two bytes that are no mark allowed there\n'),
    ):
        data = bytes.fromhex('5055 534800ff 534303' + step)
        cases.prints(f'a put and {step}, --explain', ['--explain', '-'], wanted, 1, data=data)
        cases.judge(f'a put and {step}, told here', steps.explanation(data, wanted.splitlines()[0]) == wanted.split('\n', 1)[1], wanted, '')
    cases.prints('a row first, --explain', ['--explain', '-'], 'no 11 0\n  step 1, row: it lacks tables\n', 1, data=b'RW')


def words(cases, folder, good, wanted):
    missing = folder / 'missing'
    for what, name in (('a name that begins as an option', '--quiet'), ('a name of one dash', '-'), ('a name with spaces', 'an evening at home')):
        (folder / name).write_bytes(good.read_bytes())
        cases.prints(what, ['--', name if name != '-' else './-'], wanted, 0, cwd=folder)
    (folder / 'x\nok 0 0').write_bytes(good.read_bytes())
    cases.prints('a name with a line feed', ['x\nok 0 0', good], under('x?ok 0 0', wanted) + under(good, wanted), 0, cwd=folder)
    cases.complains('a file that is missing, with a line feed', ['x\ny'], 'x?y cannot be opened')
    cases.complains('a name of no letters', [''], 'cannot be opened')
    cases.complains('a name that is too long', ['x' * 5000], 'cannot be opened')
    cases.prints('a dash behind --', ['--', '-'], wanted, 0, data=good.read_bytes())
    cases.prints('an option behind a file', [good, '--explain'], wanted, 0)
    cases.complains('two files that are missing', [missing, good, missing], 'cannot be opened', 'cannot be opened', out=under(good, wanted))
    cases.complains('a file that is missing, --quiet', ['--quiet', good, missing], 'cannot be opened')
    for option in ('--loud', '-q', '-quiet', '--quiet=1', '---'):
        cases.complains(f'{option}', [option, good], f'{option} is no option')
        cases.complains(f'{option} behind a file', [good, option], f'{option} is no option')
    for args in ([], ['--quiet'], ['--explain'], ['--']):
        got = cases.told(args)
        cases.judge(f'no file, {args}', got == ('', USAGE, 2), ('', USAGE, 2), got)
    got = cases.told(['--help', missing])
    cases.judge('--help', got[0].startswith(USAGE) and got[1:] == ('', 0), USAGE, got)
    cases.prints('--version', ['--version'], f"vg-check {texts.limit('VG_VERSION')}\n", 0)
    other = programs.found(None, 'target/examples/vg-check-other', 'examples/build makes it')
    for args in (['--version'], [good], ['--quiet', good]):
        cases.complains(f'a library of another version, {args}', args, f"has version {texts.limit('VG_VERSION')}, and", program=other)


def pipes(cases, folder, good, wanted):
    """A pipe gives its bytes once, under whatever name."""
    data = good.read_bytes()
    again = 'was read already'
    answer = under('-', wanted)
    cases.complains('standard input twice', ['-', '-'], f'- {again}', out=answer, data=data)
    cases.complains('standard input by two names', ['-', '/dev/stdin'], f'/dev/stdin {again}', out=answer, data=data)
    cases.complains('the same, the other way', ['/dev/stdin', '-'], f'- {again}', out=under('/dev/stdin', wanted), data=data)
    with open(good, 'rb') as file:
        cases.complains('a file twice as standard input', ['-', '-'], f'- {again}', out=answer, stdin=file)
    with open(good, 'rb') as file:
        cases.prints('a file as standard input', ['-'], wanted, 0, stdin=file)
    with open(good, 'rb') as file:
        os.lseek(file.fileno(), 17, os.SEEK_SET)
        cases.prints('a file as standard input, from its second step on', ['-'], 'no 11 17\n', 1, stdin=file)
    cases.prints('a file twice', [good, good], 2 * under(good, wanted), 0)
    fifo = folder / 'fifo'
    os.mkfifo(fifo)

    def into_fifo():
        with open(fifo, 'wb') as file:
            file.write(data)

    writer = threading.Thread(target=into_fifo, daemon=True)
    writer.start()
    cases.prints('a pipe with a name', [fifo], wanted, 0)
    writer.join()
    # Nobody would write to it a second time: opened again, it would be waited for.
    writer = threading.Thread(target=into_fifo, daemon=True)
    writer.start()
    cases.complains('a pipe with a name, twice', [fifo, fifo], f'{fifo} {again}', out=under(fifo, wanted))
    writer.join()


def changing(cases, folder, good, wanted):
    """Files that change while they are read, reading that fails, and reading that is interrupted."""
    program = programs.found(None, 'target/examples/vg-check-changing', 'examples/build makes it')
    data = good.read_bytes()
    size = len(data)
    limit = texts.limit('VG_PROGRAM_SHEET_BYTES')

    def said(contents, **settings):
        file = folder / 'changed'
        file.write_bytes(contents)
        settings = {name: str(value) for name, value in settings.items()}
        return [file], {'program': program, 'env': {**os.environ, **settings, 'CHANGED_FILE': str(file)}}

    def is_not_whole(what, contents, words, **settings):
        args, how = said(contents, **settings)
        cases.complains(what, args, f'changed was not read whole: {words}', **how)

    args, how = said(data)
    cases.prints('a file that stays as it is', args, wanted, 0, **how)
    args, how = said(data, INTERRUPTED=1)
    cases.prints('reading that is interrupted', args, wanted, 0, **how)
    args, how = said(data, READING_FAILS=1)
    cases.complains('reading that fails', args, 'changed cannot be read: Input/output error', **how)
    is_not_whole('cut before it is read', data, f'it had {size} bytes before and 17 after, and 17 were read', FIRST_LENGTH=17)
    is_not_whole('cut to nothing before it is read', data, f'it had {size} bytes before and 0 after, and 0 were read', FIRST_LENGTH=0)
    is_not_whole('cut after it was read', data, f'it had {size} bytes before and 17 after, and {size} were read', LAST_LENGTH=17)
    is_not_whole('grown before it is read', data, f'it had {size} bytes before and {size + 9} after, and {size + 9} were read', FIRST_LENGTH=size + 9)
    is_not_whole('grown after it was read', data, f'it had {size} bytes before and {size + 1} after, and {size} were read', LAST_LENGTH=size + 1)
    is_not_whole('cut, and grown again', data, f'it had {size} bytes before and {size} after, and 17 were read', FIRST_LENGTH=17, LAST_LENGTH=size)
    is_not_whole('grown, and cut again', data, f'it had {size} bytes before and {size} after, and {size + 9} were read',
                 FIRST_LENGTH=size + 9, LAST_LENGTH=size)
    is_not_whole('a long one that was cut', bytes(limit + 9), f'it had {limit + 9} bytes before and {limit} after, and {limit} were read',
                 FIRST_LENGTH=limit)
    is_not_whole('one that became too long', bytes(limit), f'it had {limit} bytes before and {limit + 9} after, and {limit + 1} were read',
                 FIRST_LENGTH=limit + 9)
    is_not_whole('one that was too long for a while', bytes(limit), f'it had {limit} bytes before and {limit} after, and {limit + 1} were read',
                 FIRST_LENGTH=limit + 9, LAST_LENGTH=limit)
    # Linux has files that do not know their size: 0 for bytes that are there, a page for fewer.
    for file in ('/proc/version', '/sys/kernel/mm/transparent_hugepage/enabled'):
        if os.path.exists(file):
            cases.complains(file, [file], f'{file} was not read whole')
        else:
            print(f'left out: there is no {file}')


def unwritten(cases, folder, good, wanted):
    """Where there is no answer, since standard input or standard output is none."""
    refused = folder / 'refused'
    refused.write_bytes(b'RW')
    cannot = 'the answer cannot be written'
    for args in ([good], [refused], [good, refused], ['--help'], ['--version']):
        with open('/dev/full', 'wb') as full, programs.nobody_reads() as pipe:
            cases.complains(f'a full disk, {args}', args, cannot, stdout=full)
            cases.complains(f'a pipe that nobody reads, {args}', args, cannot, stdout=pipe)
            cases.complains(f'standard output closed, {args}', args, cannot, closed=1)
    with open('/dev/full', 'wb') as full:
        cases.complains('a full disk, a file missing', ['missing', good], 'missing cannot be opened', cannot, stdout=full)
        cases.complains('a full disk, and nothing after it', [good, 'missing'], cannot, stdout=full)
        cases.prints('a full disk, --quiet', ['--quiet', good], '', 0, stdout=full)
        cases.prints('a full disk, --quiet, a refusal', ['--quiet', good, refused], '', 1, stdout=full)
        got = cases.told([good, folder / 'missing'], stdout=full, stderr=full)
        cases.judge('a full disk for complaints too', got == ('', '', 2), ('', '', 2), got)
    short = folder / 'short'
    with open(short, 'wb') as file:
        cases.complains('a disk that becomes full', [good], cannot, stdout=file, limits=[(resource.RLIMIT_FSIZE, 4)])
    cases.judge('a disk that becomes full: what came out', short.read_bytes() == b'ok 1', b'ok 1', short.read_bytes())
    cases.prints('standard output closed, --quiet', ['--quiet', good], '', 0, closed=1)
    cases.complains('standard input closed', ['-'], '- cannot be read', closed=0)
    cases.prints('standard input closed, a file twice', [good, good], 2 * under(good, wanted), 0, closed=0)
    got = cases.told(['missing', good], closed=2)
    cases.judge('standard error closed', got == (under(good, wanted), '', 2), (under(good, wanted), '', 2), got)
    with open(folder / 'unread', 'wb') as file:
        cases.complains('standard input that cannot be read', ['-'], '- cannot be read', stdin=file)


def compare():
    cases = Cases(programs.found('VG_CHECK', 'target/examples/vg-check', 'examples/build makes it'))
    with tempfile.TemporaryDirectory() as name:
        folder = pathlib.Path(name)
        sheets = texts.laid_out(folder)
        good = texts.named('papers-example')
        wanted, good = texts.text_of(good.with_suffix('.expected')), folder / good.stem
        one_by_one(cases, sheets)
        several(cases, folder, sheets)
        lengths(cases, folder)
        explanations(cases)
        words(cases, folder, good, wanted)
        pipes(cases, folder, good, wanted)
        changing(cases, folder, good, wanted)
        unwritten(cases, folder, good, wanted)
    print(f'{cases.tried} runs of vg-check, {cases.wrong} differ')
    return 1 if cases.wrong else 0
