"""Stitched sections through the C interface and the command, against the formulas."""

import random

import engine
from reference import folding

BEYOND = 5  # words after the lent ones, to see that they stay
TRIED = (*range(71), 2**31, 2**32 - 4, 2**32 - 1)
NO_NUMBERS = ('abc', '', '-', '4.0', '+4', '4 8', '٤', '0x8', '4294967296', '9' * 5_000)


def c_call(tally, archive):
    """Every answer, and every word of the lent memory and after it, whatever it held."""
    called = engine.Engine(engine.load(archive))
    rng = random.Random(13)
    for size in TRIED:
        words = [rng.randrange(2**32) for _ in range(folding.WORDS + BEYOND)]
        told = [rng.randrange(2**32) for _ in range(2 + BEYOND)]
        returned, numbers, answer = called.section(size, words, told)
        due = folding.answer(size)
        tally.same(f'answer to {size}', (returned, answer), (due[0], (*due, *told[2:])))
        written = folding.numbers_after(size, words[:folding.WORDS])
        tally.same(f'words after {size}', numbers, (*written, *words[folding.WORDS:]))
    tally.group('archive: sections')


def sheets(size):
    return ''.join(' '.join(map(str, folding.sheet(size, k))) + '\n' for k in range(size // 4))


def command_fold(tally, command):
    for size in TRIED:
        status, output, remarks = command.text('fold', str(size))
        if size in folding.SIZES:
            tally.same(f'fold {size}', (status, output, remarks), (0, sheets(size), ''))
        else:
            told = f'R 33 {size}: ' in remarks and 'whoever asked for the section can mend it' in remarks
            tally.same(f'fold {size}', (status, output, told, remarks.count('\n')), (1, f'R 33 {size}\n', True, 1))
    tally.same('fold', command.text('fold'), (0, '\n'.join(map(sheets, folding.SIZES)), ''))
    tally.same('fold 0008', command.text('fold', '0008'), (0, sheets(8), ''))
    numbers = command.text('fold')[1].split()
    tally.same('fold, in the order of the table', tuple(map(int, numbers)), folding.table())
    for wrong in NO_NUMBERS:
        status, output, remarks = command.text('fold', wrong)
        tally.same(f'fold {wrong[:9]!r}', (status, output, remarks.count('\n'), len(remarks) < 500), (2, '', 1, True))
    for arguments in [('fold', '4', '8'), ('fold', '-4'), ('fold', '--all'), ('fold', '-', '-')]:
        status, output, remarks = command.text(*arguments)
        tally.same(f'{arguments}', (status, output, remarks.count('\n')), (2, '', 1))
    for option in ('--help', '-h'):
        status, output, remarks = command.text('fold', option)
        tally.same(f'fold {option}', (status, output.split()[:2], remarks), (0, ['barleychime', 'fold'], ''))
    tally.same('fold in --help', '\n  fold ' in command.text('--help')[1], True)
    tally.group('command: sections')


def run(tally, command, library):
    c_call(tally, library)
    command_fold(tally, command)
