"""Every example, one after the other, on one program."""
from checks import programs, texts


def printed_by_sheet():
    program = programs.found('SHEET', 'target/bin/sheet', 'tools/build sheet builds it')
    return lambda path, data: programs.output(program, data, path.stem)


def answered_by_oracle():
    program = programs.found('ORACLE', 'compare/target/oracle', 'compare/run build makes it')
    return lambda path, data: programs.output(program, f"sheet {data.hex() or '-'}\n".encode(), path.stem).replace(' | ', '\n')


def compare(got_from):
    wrong = 0
    examples = texts.examples()
    for path, data, wanted in examples:
        got = got_from(path, data)
        if got != wanted:
            wrong += 1
            print(f'{path.stem}\n  expected {wanted!r}\n  printed  {got!r}')
    print(f'{len(examples)} examples, {wrong} differ')
    return 1 if wrong else 0


def on_sheet():
    return compare(printed_by_sheet())


def on_oracle():
    return compare(answered_by_oracle())
