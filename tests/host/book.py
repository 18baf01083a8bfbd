"""Books through the command: what is printed of cases, of books drawn at random, of refused ones and of the samples, against the
reference; what is told beforehand, and on a terminal."""

import re
import subprocess
import sys
from dataclasses import replace
from pathlib import Path

sys.path.insert(0, str(Path(__file__).resolve().parents[1] / 'book'))

import faults  # noqa: E402
from make_advise import on_terminal  # noqa: E402
from command_line import file  # noqa: E402
from forecast import shown, time_of_chapter, told_in_words  # noqa: E402
from reference import book, cases, marking, sample, search  # noqa: E402
from reference.galley import read, write  # noqa: E402

REAL = {'gretl': ('gretl-p046', 'gretl-p441'), 'mpman': ('mpman-p003', 'mpman-p081'), 'manual': ('mpman-2', 'mpman-4')}


def files(folder, data):
    return [file(folder, f'chapter-{number}', chapter) for number, chapter in enumerate(data, 1)]


def printed(galleys, choice, names):
    """What the command prints for a choice."""
    lines = [book.measure(galleys, choice)]
    for (galley, words), name in zip(book.opened_chapters(galleys, choice), names):
        ends = marking.places(galley, words)
        lines += [(galley.folio, len(ends), name), *((q, *end) for q, end in enumerate(ends, 1))]
    return ''.join(' '.join(map(str, line)) + '\n' for line in lines)


def in_words(galleys):
    """What is told of a book beforehand."""
    return told_in_words(*book.forecast(galleys), *time_of_all(galleys))


def time_of_all(galleys):
    times = [time_of_chapter(galley, number == 0) for number, galley in enumerate(galleys)]
    return [sum(each) for each in zip(*times)]


def made(tally, command, folder):
    for name, galleys, choice, _ in [*cases.BOUND, *((f'book {number}', galleys, book.best_by_sides(galleys), None) for number, galleys
                                                     in enumerate([*sample.books(150, 40, 4), *sample.facing_books(151, 40)]))]:
        names = files(folder, map(write, galleys))
        status, output, remarks = command.text('book', *names)
        if choice:
            tally.same(name, (status, output, remarks), (0, printed(galleys, choice, names), ''))
        else:
            tally.same(name, (status, output, remarks), (1, 'R 11 0\n', '\n'.join(blamed(galleys, names)) + '\n'))
        tally.same(f'{name}, told beforehand', command.text('forecast', '--book', *names), (0, in_words(galleys), ''))
    [path] = files(folder, [write(cases.C)])
    tally.same('from standard input', command.text('book', '-', given=write(cases.C))[1], printed((cases.C,), book.best((cases.C,)), ('-',)))
    tally.same('a book of one chapter', command.text('book', path)[1].splitlines()[2:], command.text('make', path)[1].splitlines()[1:])
    tally.group('command: books')


def blamed(galleys, names):
    """The remarks on 11."""
    yield 'barleychime: the book: R 11 0: no choice of chapter lists meets the page specification; the designer can mend it'
    found = False
    for number, (galley, name) in enumerate(zip(galleys, names), 1):
        sides = [galley] if number == 1 else [book.opened(galley, folio) for folio in (1, 2)]
        if not any(map(book.lists, sides)):
            found = True
            yield f'barleychime: {name}: chapter {number} has no pagination' + ', whichever side it opens on' * (number > 1)
    if not found:
        yield 'barleychime: every chapter has a pagination, but not on the sides that the chapters before it close on'


def refused(tally, command, folder):
    """Every refusal with its chapter, by both commands; a chapter's own also with its place in the chapter."""
    for name, data, lengths, number, place in faults.known():
        if sum(lengths) != len(data) or not lengths:
            continue  # the command has a length for each file, and a file at least
        ends = [sum(lengths[:k]) for k in range(len(lengths) + 1)]
        names = files(folder, [data[start:end] for start, end in zip(ends, ends[1:])])
        for arguments in (('book',), ('forecast', '--book')):
            status, output, remarks = command.text(*arguments, *names)
            due = f'R {number} {place}'
            tally.same(f'{arguments} {name}', (status, output, due in remarks), (1, f'{due}\n', True))
            if number <= 8:
                _, own, at = read(names[place - 1].read_bytes())
                why = f'{names[place - 1]}: R {own} {at}: ' in remarks and "the galley's writer can mend it" in remarks
                tally.same(f'{name}, why', (own, why), (number, True))
            else:
                tally.same(f'{name}, who', 'whoever bound the book can mend it' in remarks, True)
            if number in (28, 29):
                due = f'there are {len(names)}' if number == 28 else unlike(names[0].read_bytes(), names[place - 1].read_bytes())
                tally.same(f'{name}, which', remarks.endswith(f' ({due})\n'), True)
    tally.group('command: refused books')


def unlike(first, chapter):
    """What is told of 29: every field of a specification that differs."""
    (there, one), (here, two) = ((data[:2].decode(), read(data)[1].spec) for data in (first, chapter))
    names = ('htMin', 'htMax', 'sMin', 'sMax', 'sides', 'alpha', 'beta', 'lastMin')
    told = [f'its mark is {here}, and there {there}'] if here != there else []
    return '; '.join(told + [f'its {name} is {b}, and there {a}' for name, a, b in zip(names, one, two) if a != b and None not in (a, b)])


def checked(tally, command, folder, name, paths, galleys, choice):
    """Every chapter of a book is accepted as it stands, on the folio that the book gives it: marked, explained and at the desk."""
    for path, (galley, words), number in zip(paths, book.opened_chapters(galleys, choice), range(1, len(paths) + 1)):
        ends = marking.places(galley, words)
        listing = file(folder, 'chapter.list', ''.join(' '.join(map(str, end)) + '\n' for end in ends).encode())
        due = ' '.join(map(str, marking.mark(galley, words)[1:]))
        what, folio = f'{name}, chapter {number} on folio {galley.folio}', str(galley.folio)
        tally.same(f'{what}, marked', command.text('mark', '--folio', folio, path, listing), (0, f'{due}\n', ''))
        status, text, _ = command.text('explain', f'--folio={folio}', path, listing)
        headed = re.findall(r'^page (\d+)(?:, folio (\d+))?,', text, re.M)
        numbered = [(str(q), str(galley.folio + q - 1) if galley.folio > 1 else '') for q in range(1, len(ends) + 1)]
        tally.same(f'{what}, explained', (status, headed), (0, numbered))
        status, text, _ = command.text('desk', path, listing, '--folio', folio)
        tally.same(f'{what}, at the desk', (status, text), (0, f'{due}\n'))


def folios(tally, command, folder):
    """A folio in place of one that is stated, one that is too high to be stated, and those that are none."""
    for stated in (None, 7):
        path = file(folder, 'c.galley', write(replace(cases.C, stated=stated)))
        for folio in (1, 2, 9_999, 10_000, 12_345):
            galley = replace(cases.C, stated=folio)
            words = search.best(galley)
            listing = file(folder, 'c.list', ''.join(' '.join(map(str, end)) + '\n' for end in marking.places(galley, words)).encode())
            due = ' '.join(map(str, marking.mark(galley, words)[1:]))
            tally.same(f'folio {folio} for {stated}', command.text('mark', '--folio', str(folio), path, listing), (0, f'{due}\n', ''))
            text = command.text('explain', '--folio', str(folio), path, listing)[1]
            tally.same(f'folio {folio} is named', f'page 2, folio {folio + 1}, spread {(folio + 1) // 2 + 1}, ' in text, folio > 1)
    for folio in ('0', '-1', 'x', '4294967296'):
        status, output, remarks = command.text('mark', f'--folio={folio}', path, listing)
        tally.same(f'folio {folio} is none', (status, output, '--folio' in remarks), (2, '', True))
    cut = file(folder, 'cut.galley', write(cases.C)[:-1])
    tally.same('a refused galley is refused as without', command.text('mark', '--folio', '3', cut, listing)[1], f'R 1 {len(write(cases.C)) - 2}\n')
    tally.group('command: chapters on another folio')


def at_terminal(tally, command, folder):
    """A line for each chapter and one for all of them, and the same answer; nothing of that where nobody watches."""
    _, galleys, choice, _ = cases.BOUND[0]
    names = files(folder, map(write, galleys))
    status, output, said = on_terminal(command, 'book', *names)
    told = lambda times: 'about {}, at most {}'.format(*map(shown, times))
    due = [*(f'barleychime: {name}: chapter {number} of 2, {told(time_of_chapter(galley, number == 1))}'
             for number, (name, galley) in enumerate(zip(names, galleys), 1)),
           f'barleychime: 2 chapters, {told(time_of_all(galleys))} for all of them']
    tally.same('on a terminal', (status, output, said), (0, printed(galleys, choice, names), due))
    tally.group('command: a book on a terminal')


def samples(tally, command, root, folder):
    """The small book of the manual, whose better choice takes the worse first chapter; and real manuals."""
    texts = [root / f'samples/books/sides-{number}.txt' for number in (1, 2)]
    tally.same('every book has its answer', sorted((root / 'samples/books').iterdir()), texts)
    data = [command.run('pack', text)[1] for text in texts]
    for name, chapter in zip(('one', 'two'), data):
        file(folder, f'{name}.galley', chapter)
    galleys = tuple(read(chapter)[1] for chapter in data)
    done = subprocess.run([command.program, 'book', 'one.galley', 'two.galley'], cwd=folder, capture_output=True, text=True)
    choice = book.best(galleys)
    checked(tally, command, folder, 'sides', [folder / 'one.galley', folder / 'two.galley'], galleys, choice)
    tally.same('the book of the manual', done.stdout, printed(galleys, choice, ('one.galley', 'two.galley')))
    alone = command.text('make', folder / 'one.galley')[1].split()
    tally.same('its first chapter is worse', (alone[3], book.measure(galleys[:1], choice[:1])[3]), ('0', 1))
    for name, chapters in REAL.items():
        paths = [root / f'samples/real/{chapter}.galley' for chapter in chapters]
        galleys = tuple(read(path.read_bytes())[1] for path in paths)
        status, output, _ = command.text('book', *paths)
        choice = parsed(galleys, output)
        tally.same(f'{name} measured', (status, output), (0, printed(galleys, choice, paths)))
        valid = [marking.mark(*chapter)[0] for chapter in book.opened_chapters(galleys, choice)]
        tally.same(f'{name} is valid', valid, ['accepted'] * len(chapters))
        checked(tally, command, folder, name, paths, galleys, choice)
        if name == 'gretl':  # small enough for the reference
            tally.same(f'{name} best', choice, book.best_by_sides(galleys))
    tally.group('books among the samples')


def parsed(galleys, output):
    """The lists in what the command prints."""
    lines, choice = [line.split() for line in output.splitlines()[1:]], []
    for galley in galleys:
        (_, pages, *_), *lines = lines
        choice.append(tuple(int(word) for line in lines[:int(pages)] for word in line[1:]))
        lines = lines[int(pages):]
    return tuple(choice)


def run(tally, command, root, folder):
    made(tally, command, folder)
    refused(tally, command, folder)
    folios(tally, command, folder)
    at_terminal(tally, command, folder)
    samples(tally, command, root, folder)
