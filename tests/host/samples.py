"""The samples: what README and samples/README.md have people run, and the real chapters against the reference."""

from dataclasses import replace

from reference import marking, search
from reference.galley import Table, read, streams_of, write

# A galley as text, by what its lists' names begin with.
CASES = {'a': 'case-a', 'c': 'case-c', 'left': 'left-hand', 'kept': 'kept', 'close': 'full-close', 'tables': 'tables',
         'white': 'white-space'}
SMALL = 6_000  # bytes of a galley that the reference makes in a moment
TABLED, EVERY = 'memman-p211', 3  # the chapter that is there with tables too, and which of its figures they are: every third


def with_tables(galley, words):
    """The galley with every third figure as a table, and its page list."""
    numbered = list(enumerate(galley.figures, 1))
    tables = [Table(*figure[:4]) for number, figure in numbered if number % EVERY == 0]
    figures = [figure for number, figure in numbered if number % EVERY]
    tabled = replace(galley, streams=streams_of(galley.lines, figures, tables))
    return tabled, [(i, j - j // EVERY, j // EVERY) for i, j in marking.places(galley, words)]


def derived(tally, real):
    """The chapter with tables is what it is said to be."""
    galley, words = read((real / f'{TABLED}.galley').read_bytes())[1], (real / f'{TABLED}.latex').read_text().split()
    tabled, pages = with_tables(galley, tuple(map(int, words)))
    tally.same(f'{TABLED} with tables', (real / f'{TABLED}-tables.galley').read_bytes(), write(tabled))
    listed = ''.join(' '.join(map(str, end)) + '\n' for end in pages)
    tally.same(f"{TABLED} with tables, LaTeX's pages", (real / f'{TABLED}-tables.latex').read_text(), listed)


def run(tally, command, root, folder):
    lists, openings, expected = root / 'samples/lists', root / 'samples/openings', root / 'tests/host/expected'
    for case, text in CASES.items():
        _, data, _ = command.run('pack', root / f'samples/{text}.txt')
        galley = folder / f'{case}.galley'
        galley.write_bytes(data)
        texts = {'make': command.text('make', galley)[1]}
        for path in sorted(lists.glob(f'{case}-*.list')):
            texts[f'mark-{path.stem}'] = command.text('mark', galley, path)[1]
            texts[f'explain-{path.stem}'] = command.text('explain', galley, path)[1]
        for path in sorted(openings.glob(f'{case}-*.list')):
            texts[f'after-{path.stem}'] = command.text('make', '--after', path, galley)[1]
        for name, text in texts.items():
            name = name if case in name.split('-') else f'{name}-{case}'
            tally.same(name, text, (expected / f'{name}.txt').read_text())
    due = [f'mark-{path.stem}.txt' for path in lists.iterdir()]
    tally.same('every list has its answer', sorted(path.name for path in expected.glob('mark-*')), sorted(due))
    due = [f'after-{path.stem}.txt' for path in openings.iterdir()]
    tally.same('every opening has its answer', sorted(path.name for path in expected.glob('after-*')), sorted(due))
    texts = sorted(path.stem for path in (root / 'samples').glob('*.txt'))
    tally.same('every text has its answer', texts, sorted(CASES.values()))
    tally.group('samples')
    derived(tally, root / 'samples/real')
    for path in sorted((root / 'samples/real').glob('*.galley')):
        real(tally, command, path)
    tally.group('real chapters')


def real(tally, command, path):
    """The list made is valid by the reference, with these numbers, and the best where the reference can say."""
    kind, galley = read(path.read_bytes())
    tally.same(f'{path.name} reads', kind, 'galley')
    status, text, _ = command.text('make', path)
    best = search.best_by_table(galley) if path.stat().st_size < SMALL else None
    if status == 1:
        tally.same(f'{path.name} has no pagination', (text, best), ('R 11 0\n', None))
        return
    measure, *pages = [tuple(map(int, line.split())) for line in text.splitlines()]
    words = tuple(word for page in pages for word in page[1:])
    tally.same(f'{path.name} marked', marking.mark(galley, words), ('accepted', *measure))
    tally.same(f'{path.name} numbered', [page[0] for page in pages], list(range(1, measure[0] + 1)))
    if path.stat().st_size < SMALL:
        tally.same(f'{path.name} best', words, best)
