"""The command's forecasts, in words and as lines, and what `make --verbose` says was weighed, against the reference."""

import math
import os
import re
import subprocess
from itertools import accumulate, takewhile

from command_line import file
from reference import beforehand, cases, refusals, sample
from reference.galley import write

PLACE, START = 3, 25  # nanoseconds, as the command states them


def in_words(galley):
    """The lines due for a galley."""
    _, _, work, listed, ceiling = beforehand.forecast(('galley', galley))
    return told_in_words(work, listed, ceiling, *time_of_making(galley))


def told_in_words(work, listed, ceiling, likely, most):
    return (f'work area: {work} words, {work * 4 / 1e6:.3f} MB\npage list: {listed} words, {listed * 4 / 1e6:.3f} MB\n'
            f'pages weighed: at most {ceiling}\ntime: about {shown(likely)}, at most {shown(most)}, at {PLACE} ns a place and {START} ns a start\n')


def time_of_making(galley):
    """Nanoseconds, as docs/COMMAND.md has the formula: as a rule, and at most."""
    places, (lines, figures, tables), starts = reach(galley)
    height = sum(block.height + block.least for stream in galley.streams for block in stream)
    pages = max(1, height / galley.spec.htmax)
    columns = (len(galley.figures) + 1) * min(len(galley.tables) + 1, 2 * tables + 1)
    looked_at = columns * min(len(galley.lines) + 1, 30 * lines) * min(max(1, figures), pages) * min(max(1, tables), pages)
    return PLACE * places + START * min(looked_at, starts), 2 * (PLACE * places + START * starts)


def time_of_chapter(galley, first):
    """The same for a chapter of a book, whose table is filled whole, for each side that it may open on and once more."""
    places, (_, figures, tables), starts = reach(galley)
    searches = 3 if galley.spec.sides == 2 and not first else 2
    return searches * (PLACE * places + START * places * max(1, figures) * max(1, tables)), searches * (PLACE * places + START * starts)


def reach(galley):
    """Places; the mean rows of lines, figures and tables that fit a page; starts of all places."""
    rows = [[row(galley, stream[first:]) for first in range(len(stream))] for stream in (galley.lines, galley.figures, galley.tables)]
    places = math.prod(len(stream) + 1 for stream in (galley.lines, galley.figures, galley.tables))
    means = [sum(each) / len(each) if each else 0 for each in rows]
    return places, means, places * math.prod(max(each, default=0) + 1 for each in rows[1:])


def row(galley, blocks):
    """How many of the first blocks fit a page by themselves, at their tightest."""
    heights = accumulate(block.height + (before.least if before else 0) for before, block in zip((None, *blocks), blocks))
    return sum(1 for _ in takewhile(lambda height: height <= galley.spec.htmax, heights))


def shown(nanoseconds):
    for unit, size, more in (('µs', 1e3, 1e6), ('ms', 1e6, 1e9), ('s', 1e9, math.inf)):
        if nanoseconds < more:
            value = nanoseconds / size
            return f'{value:.1f} {unit}' if value < 9.95 else f'{value:.0f} {unit}' if value < 99.5 else f'{math.floor(value / 10 + 0.5) * 10} {unit}'


def line(galley, name):
    return ' '.join(map(str, (*beforehand.forecast(('galley', galley))[2:], name))) + '\n'


def galleys(tally, command, folder):
    """Each by itself, in both ways; what is weighed is told by the making, whose output is what it is without."""
    for galley in [cases.A, cases.K, cases.A_TALL, *sample.galleys(140, 60, 6, 4), *sample.galleys(141, 40, 4, 3, 3),
                   *sample.fine_galleys(142, 6, 200, 400, 30, 6, highest=200)]:
        path = file(folder, 'told.galley', write(galley))
        tally.same(f'forecast of {galley}', command.text('forecast', path), (0, in_words(galley), ''))
        tally.same('as a line', command.text('forecast', '--lines', path), (0, line(galley, path), ''))
        weighed, ceiling = beforehand.weighed_by_runs(galley), beforehand.ceiling(galley)
        plain, verbose = command.text('make', path), command.text('make', '--verbose', path)
        told = f'barleychime: {path}: {weighed} pages weighed, of at most {ceiling}\n'
        tally.same(f'weighed of {galley}', verbose, (*plain[:2], plain[2] + told))
        tally.same('within the ceiling', weighed <= ceiling, True)
    tally.same('from standard input', command.text('forecast', '-', given=write(cases.A)), (0, in_words(cases.A), ''))
    tally.group('command: forecasts')


def several(tally, command, folder):
    one, two = file(folder, 'one.galley', write(cases.A)), file(folder, 'two.galley', write(cases.K))
    cut, nowhere = file(folder, 'cut.galley', write(cases.A)[:-1]), folder / 'nowhere'
    due = f'{one}:\n{in_words(cases.A)}{two}:\n{in_words(cases.K)}'
    tally.same('two galleys', command.text('forecast', one, two), (0, due, ''))
    refused = f'R 1 {len(write(cases.A)) - 2} {cut}\n'
    status, output, remarks = command.text('forecast', '--lines', one, cut, two)
    tally.same('one of three refused', (status, output, remarks.count('\n')), (1, line(cases.A, one) + refused + line(cases.K, two), 1))
    status, output, remarks = command.text('forecast', '--lines', nowhere, cut, two)
    tally.same('what is not there does not stop the rest', (status, output, str(nowhere) in remarks), (2, refused + line(cases.K, two), True))
    for name, data, number, place in refusals.files():
        bad, due = file(folder, 'bad.galley', data), f'R {number} {place}'
        status, output, remarks = command.text('forecast', bad)
        tally.same(f'forecast of {name}', (status, output, f'{bad}: {due}: ' in remarks), (1, f'{due}\n', True))
        verbose = command.text('make', '--verbose', bad)
        tally.same(f'nothing weighed of {name}', verbose, command.text('make', bad))
    tally.group('command: forecasts of several galleys and of refused ones')


def series(tally, command, root, folder):
    """The manual's command line that sorts a series: the galley with the most to weigh comes first."""
    [text] = re.findall(r'^    (barleychime forecast --lines .*)$', (root / 'docs/COMMAND.md').read_text(), re.M)
    folder = folder / 'sorted'
    (folder / 'series').mkdir(parents=True)
    some = list(enumerate(sample.galleys(143, 12, 9, 4)))
    for number, galley in some:
        file(folder / 'series', f'{number}.galley', write(galley))
    file(folder / 'series', 'refused.galley', b'')
    path = f'{command.program.parent}{os.pathsep}{os.environ["PATH"]}'
    ran = subprocess.run(text, shell=True, cwd=folder, capture_output=True, text=True, env={**os.environ, 'PATH': path})
    told = [(beforehand.ceiling(galley), line(galley, f'series/{number}.galley')) for number, galley in some]
    ceilings = sorted((ceiling for ceiling, _ in told), reverse=True)
    tally.same('a series sorted', [int(printed.split()[2]) for printed in ran.stdout.splitlines()], ceilings)
    tally.same('its lines', sorted(ran.stdout.splitlines(keepends=True)), sorted(text for _, text in told))
    tally.group('command: a series sorted by forecast')


def run(tally, command, root, folder):
    galleys(tally, command, folder)
    several(tally, command, folder)
    series(tally, command, root, folder)
