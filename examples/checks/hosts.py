"""Hosts where nothing can be written: each says so in a line and answers status 2, and none is ended by a signal or a panic."""
import pathlib
import resource
import tempfile

from checks import programs, texts

HOW = 'examples/build makes it'


def hosts(folder):
    """Each host with words that it accepts, and whether it takes seconds."""
    good = texts.named('papers-example')
    sheet = folder / good.stem
    sheet.write_bytes(texts.bytes_of(good))
    yield 'vg-check', [sheet], False
    yield 'in_c', [sheet], False
    yield 'in_rust', [sheet], False
    yield 'two_sheets', [sheet, sheet], False
    yield 'print_kinds', [], False
    yield 'every_call', [], True
    yield 'stack_use', [], True


def runs(program, args, folder, is_slow, is_rust):
    """What is done to the host, whether it can complain, and what it then does."""
    command = [program, *args]
    with open('/dev/full', 'wb') as full, programs.nobody_reads() as pipe, open(folder / 'short', 'wb') as short:
        yield 'a full disk', True, programs.told(command, stdout=full)
        if is_slow:
            return
        yield 'a full disk, for complaints too', False, programs.told(command, stdout=full, stderr=full)
        yield 'a pipe that nobody reads', True, programs.told(command, stdout=pipe)
        yield 'both pipes that nobody reads', False, programs.told(command, stdout=pipe, stderr=pipe)
        # Rust opens what is closed as /dev/null, and cannot be told of a signal without another library.
        if not is_rust:
            yield 'standard output closed', True, programs.told(command, closed=1)
            yield 'a disk that becomes full', True, programs.told(command, stdout=short, limits=[(resource.RLIMIT_FSIZE, 4)])


def compare():
    tried = wrong = 0
    with tempfile.TemporaryDirectory() as name:
        folder = pathlib.Path(name)
        for host, args, is_slow in hosts(folder):
            program = programs.found(None, f'target/examples/{host}', HOW)
            for what, complains, got in runs(program, args, folder, is_slow, host == 'in_rust'):
                tried += 1
                out, complaint, status = got
                if out or status != 2 or complaint.count('\n') != (1 if complains else 0) or complains != ('cannot be written' in complaint):
                    wrong += 1
                    print(f'{host}, {what}\n  expected no answer, a line that says so where it can be said, and status 2\n  got      {got!r}')
    print(f'{tried} runs of hosts that cannot write, {wrong} differ')
    return 1 if wrong else 0
