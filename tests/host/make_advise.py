"""What `make --advise` says where 11 is due, what it tries meanwhile, and that nothing is tried without it."""

import collections
import os
import pty
import re
import subprocess

from command_line import file
from reference import cases, sample, search
from reference.galley import write

MOST_TRIALS = 17  # for one least height: 0, and then halves of at most 100,000


def greatest(galley, field, opening):
    """By trying every value of htmin or lastmin; None if no pagination begins with the opening at any."""
    asked = getattr(galley.spec, field) or 0
    values = range(asked, -1, -1)
    return next((value for value in values if search.best_by_table(cases.respec(galley, **{field: value}), opening)), None)


def filled(galley, height):
    return f'{height} ({height * 1_000 // galley.spec.htmax / 10} % of htMax)'


def advice(galley, opening=()):
    """What would help, a remark each, and which kind of advice it is."""
    spec, one = galley.spec, greatest(galley, 'htmin', opening)
    two = greatest(galley, 'lastmin', opening) if spec.lastmin else None
    words = 'is {}; the greatest at which a pagination exists is'
    by_ht_min = f'htMin {words.format(spec.htmin)} {one is not None and filled(galley, one)}'
    by_last_min = f'lastMin {words.format(spec.lastmin)} {two is not None and filled(galley, two)}'
    if one is not None and two is not None:
        return [by_ht_min, f'or {by_last_min}'], 'either'
    if one is not None:
        return [by_ht_min + ('; no lastMin is low enough by itself' if spec.lastmin else '')], 'htMin'
    if two is not None:
        return [by_last_min + ('; no htMin is low enough by itself' if spec.htmin else '')], 'lastMin'
    if not spec.lastmin:
        return ['no pagination exists even at htMin 0'], 'none'
    one = greatest(cases.respec(galley, lastmin=0), 'htmin', opening)
    if one is None:
        return ['no pagination exists even at htMin 0 and lastMin 0'], 'none of both'
    two = greatest(cases.respec(galley, htmin=one), 'lastmin', opening)
    return [f'neither htMin nor lastMin is low enough by itself; a pagination exists at htMin {filled(galley, one)} '
            f'and lastMin {filled(galley, two)}'], 'both'


def unasked(path):
    """What is said of 11 without advice."""
    return f'barleychime: {path}: `barleychime make --advise` tries lower least heights and says which would do'


def on_terminal(command, *arguments):
    """Exit status, output, and the remarks as lines, where these go to a terminal. A shell writes the end after the
    command, and the terminal is held open until the end is read: what one closes too early may be lost."""
    ours, theirs = pty.openpty()
    said, end = b'', b'that is all'
    script = f'"$@"; status=$?; printf "{end.decode()}" >&2; exit $status'
    with subprocess.Popen(['sh', '-c', script, 'sh', command.program, *arguments], stdin=subprocess.DEVNULL,
                          stdout=subprocess.PIPE, stderr=theirs, env={**os.environ, 'NO_COLOR': '1'}) as running:
        while not said.endswith(end):
            said += os.read(ours, 4_096)
        output, _ = running.communicate()
    os.close(theirs)
    os.close(ours)
    return running.returncode, output.decode(), said.removesuffix(end).decode().splitlines()


def tried(lines):
    """The heights of every trial that is told."""
    return [tuple(map(int, re.findall(r'\d+', line.rpartition(': trying ')[2]))) for line in lines if ': trying htMin' in line]


def with_11(tally, command, folder):
    some = [galley for galley in [*sample.galleys(104, 700, 6, 3), *sample.galleys(107, 60, 4, 2, 2)]
            if not search.best_by_table(galley)]
    met = collections.Counter()
    for galley in [cases.A_TALL, cases.respec(cases.B, htmin=21), cases.respec(cases.A, lastmin=21), *some]:
        path, (due, kind) = file(folder, 'none.galley', write(galley)), advice(galley)
        status, output, remarks = command.text('make', '--advise', path)
        why, *rest = remarks.splitlines()
        told = [f'barleychime: {path}: {remark}' for remark in due]
        tally.same(f'help with {galley}', (status, output, rest), (1, 'R 11 0\n', told))
        tally.same('no help unasked', command.text('make', path), (1, 'R 11 0\n', f'{why}\n{unasked(path)}\n'))
        tally.same('the galley is as before', path.read_bytes(), write(galley))
        if met[kind] < 8:
            watched(tally, command, path, galley, kind, [why, *told])
        met[kind] += 1
    tally.same('every kind of help', {*met}, {'either', 'htMin', 'lastMin', 'both', 'none', 'none of both'})
    tally.group('command: help where no pagination exists', f' ({dict(met)})')


def watched(tally, command, path, galley, kind, due):
    """On a terminal: the same answer and remarks, and every trial, none of them twice; one where there is none even at 0."""
    status, output, said = on_terminal(command, 'make', '--advise', path)
    trials, second = tried(said), galley.spec.edition == 2
    asked = (galley.spec.htmin, galley.spec.lastmin) if second else (galley.spec.htmin,)
    tally.same(f'on a terminal, {galley}', (status, output, [line for line in said if ': trying ' not in line]), (1, 'R 11 0\n', due))
    tally.same('trials', (len({*trials}) == len(trials), asked in trials, len(trials) <= 1 + 4 * MOST_TRIALS), (True, False, True))
    if kind in ('none', 'none of both'):
        tally.same('none even at 0', trials, [(0,) * len(asked)] if any(asked) else [])


def others(tally, command, folder):
    """Advice is about 11 alone, and the report says where to get it."""
    path, best = file(folder, 'a.galley', write(cases.A)), file(folder, 'best.list', b'1 1\n3 1\n')
    tally.same('what is made', command.text('make', '--advise', path), command.text('make', path))
    cut, none = file(folder, 'cut.galley', write(cases.A)[:-1]), file(folder, 'none.galley', write(cases.A_TALL))
    tally.same('what is refused', command.text('make', '--advise', cut), command.text('make', cut))
    status, output, remarks = command.text('report', none, best)
    tally.same('a report', (status, output, remarks.splitlines()[1:]), (1, 'R 11 0\n', [unasked(none)]))
    tally.same('no advice unasked on a terminal', on_terminal(command, 'make', none)[2][1:], [unasked(none)])
    tally.group('command: no advice elsewhere')


def run(tally, command, folder):
    with_11(tally, command, folder)
    others(tally, command, folder)
