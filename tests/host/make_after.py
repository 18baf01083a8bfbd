"""The command with an opening already printed: the list after it, what is said of one that is refused, and of 11."""

import random

from make_advise import advice, unasked
from command_line import file
from explain import forbidden, too_soon
from junk import JUNK, JUNK_TABLED
from reference import cases, marking, openings, sample, search
from reference.galley import write


def listed(galley, words):
    """A list as lines of counts."""
    return ''.join(' '.join(map(str, end)) + '\n' for end in marking.places(galley, words))


def made(galley, words):
    """A list as `make` prints it."""
    rows = [marking.mark(galley, words)[1:], *((q, *end) for q, end in enumerate(marking.places(galley, words), 1))]
    return ''.join(' '.join(map(str, row)) + '\n' for row in rows)


def broken(galley, opening, page):
    """The rule that a page of an opening breaks, and the end of what is said of it."""
    start, end = [galley.nothing, *marking.places(galley, opening)][page - 1:page + 1]
    rule = marking.page_fault(galley, start, end, page, last=False)
    if rule == 13:
        return rule, ''
    tight, loose, spec = marking.tightest(galley, start, end), marking.loosest(galley, start, end), galley.spec
    numbers = {14: '; '.join(told.strip() for told in forbidden(galley, *end[:2])),
               15: f'{tight} is above htMax {spec.htmax} by {tight - spec.htmax}',
               16: f'{loose} is below htMin {spec.htmin} by {spec.htmin - loose}',
               17: '; '.join(told.strip() for told in too_soon(galley, end))}
    return rule, numbers[rule]


def cases_of(tally, command, folder):
    """Each case in three ways: plain lines, standard input, and the first lines of a longer list as it is printed."""
    for name, galley, opening, best, told in cases.AFTER:
        if len(opening) % len(galley.streams):
            continue  # no text has half a page
        path, lines = file(folder, 'after.galley', write(galley)), listed(galley, opening)
        due = (0, made(galley, best)) if best else (1, 'R {} {}\n'.format(*told))
        printed = f'{len(opening) + 9} 0 0 0 0\n' + ''.join(f'{q} {line}\n' for q, line in enumerate(lines.splitlines(), 1))
        for text in (lines, printed):
            list_path = file(folder, 'after.list', text.encode())
            tally.same(f'{name}', command.text('make', '--after', list_path, path)[:2], due)
        tally.same(f'{name}, the opening from standard input', command.text('make', '--after', '-', path, given=lines.encode())[:2], due)
        tally.same(f'{name}, the galley from standard input', command.text('make', '--after', list_path, '-', given=write(galley))[:2], due)
    tally.group('command: openings of cases')


def remarks(tally, command, folder):
    """What is said of openings that are refused: of 20 the rule and the numbers, unless it ends within a page."""
    rng, met = random.Random(8), set()
    for galley in [*sample.galleys(150, 80, 4, 3), *sample.galleys(151, 50, 3, 2, 2)]:
        path = file(folder, 'refused.galley', write(galley))
        some = [opening for opening, _ in zip(openings.passed(galley), range(30))]
        refused = [further for opening in rng.sample(some, min(3, len(some))) for further in openings.following(galley, opening)
                   if len(further) % len(galley.streams) == 0 and openings.fault(galley, further)]
        for opening in rng.sample(refused, min(8, len(refused))):
            number, place = openings.fault(galley, opening)
            list_path = file(folder, 'refused.list', listed(galley, opening).encode())
            status, output, said = command.text('make', '--after', list_path, path)
            tally.same(f'{opening} of {galley}', (status, output), (1, f'R {number} {place}\n'))
            first, *rest = said.splitlines()
            tally.same('who can mend it', (str(list_path) in first, 'whoever handed in the opening can mend it' in first), (True, True))
            rule, numbers = broken(galley, opening, place) if number == 20 else (21, '')
            met.add(rule)
            if number == 20 and place:
                tally.same('which rule', (len(rest), f'page {place} breaks rule {rule}, ' in rest[0], rest[0].endswith(numbers)), (1, True, True))
            else:
                tally.same('no more', rest, [])
    tally.same('every rule, and 21', met, {13, 14, 15, 16, 17, 21})
    tally.group('command: openings refused')


def kept(galley, opening):
    """What is said of the opening where none begins with it, by trying every part of it."""
    width = len(galley.streams)
    pages = len(opening) // width
    found = [part for part in range(pages) if search.best_by_table(galley, opening[:width * part])]
    if not found:
        return 'no pagination exists without the opening either'
    if found[-1] == 0:
        return 'a pagination exists without the opening, but none that begins with its first page'
    return f"a pagination exists that begins with {found[-1]} of the opening's {pages} pages, and no more"


def none_left(tally, command, folder):
    """11: how far the least heights would have to go with this opening, and how much of it could stay."""
    met = set()
    for galley in [*sample.galleys(152, 150, 4, 2), *sample.galleys(153, 60, 3, 1, 1)]:
        some = [opening for opening, _ in zip(openings.passed(galley), range(40)) if opening and not search.best_by_table(galley, opening)]
        for opening in some[:2]:
            path, list_path = file(folder, 'none.galley', write(galley)), file(folder, 'none.list', listed(galley, opening).encode())
            status, output, said = command.text('make', '--advise', '--after', list_path, path)
            (due, _), stays = advice(galley, opening), kept(galley, opening)
            begins = '11 is here about the paginations that begin with the opening'
            told = [f'barleychime: {path}: {remark}' for remark in (begins, *due, stays)]
            tally.same(f'{opening} of {galley}', (status, output, said.splitlines()[1:]), (1, 'R 11 0\n', told))
            status, output, said = command.text('make', '--after', list_path, path)
            tally.same('no advice unasked', (status, output, said.splitlines()[1:]), (1, 'R 11 0\n', [told[0], unasked(path)]))
            met.add(stays.split(' that begins with ')[0])
    tally.same('every kind of help', len(met), 3)
    tally.group('command: openings that no pagination begins with')


def junk(tally, command, folder):
    """What cannot be read as an opening; a list that is cut short can."""
    for galley, some in ((cases.A, JUNK), (cases.K, JUNK_TABLED)):
        path = file(folder, 'junk.galley', write(galley))
        for name, data, told in some:
            bad = file(folder, 'junk.list', data)
            status, output, said = command.text('make', '--after', bad, path)
            if name == 'a measure alone':
                tally.same(f'{name} as an opening', (status, output), (0, '2 0 1 1 0\n1 1 1\n2 3 1\n'))
            elif 'a page too few' in name:
                tally.same(f'{name} as an opening', (status, said), (0, ''))
            else:
                tally.same(f'{name} as an opening', (status, output, f'{bad}: ' in said and told in said), (2, '', True))
    path = file(folder, 'junk.galley', write(cases.A))
    for data in (b'', b'# no page\n', b'9 0 0 0 0\n'):
        empty = file(folder, 'empty.list', data)
        tally.same(f'{data} as an opening', command.text('make', '--after', empty, path), command.text('make', path))
    nowhere = folder / 'nowhere'
    for arguments in ((nowhere, path), (file(folder, 'a.list', b'1 1\n'), nowhere)):
        status, output, said = command.text('make', '--after', *arguments)
        tally.same('what is not there', (status, output, str(nowhere) in said), (2, '', True))
    cut = file(folder, 'cut.galley', write(cases.A)[:-1])
    for data in (b'1 1\n', b'1 1 1\n', b'9 9\n'):
        status, output, _ = command.text('make', '--after', file(folder, 'a.list', data), cut)
        tally.same('a galley cut short comes first', (status, output), (1, f'R 1 {len(write(cases.A)) - 2}\n'))
    both = [command.text('make', *options, path) for options in
            (('--after', '-', '--verbose'), ('--verbose', '--after', '-'))]
    tally.same('options in either order', both[0], both[1])
    tally.group('command: openings that cannot be read')


def run(tally, command, folder):
    for group in (cases_of, remarks, none_left, junk):
        group(tally, command, folder)
