"""Galleys as text and back without loss, and texts with errors, each named by line and field."""

from reference import cases, refusals, sample
from reference.galley import Figure, Galley, Line, Spec, Table, write

SPEC, LINE = 'GS 30 30 0 0 1 1 1\n', 'TL 10 0 0 1\n'
GOOD = SPEC + LINE

# Text, exit status, and what the remark must say.
ERRORS = [
    ('GX 1\n', 2, 'line 1: mark: `GX`'),
    ('gs 30 30 0 0 1 1 1\n', 2, 'line 1: mark: `gs` is none of GS, G2, FO, TL, FG, FK, TB, ED'),
    ('GS 30 30 0 0 1 1\n', 2, 'line 1: field 7 (beta): missing'),
    ('# one\nGS 30 x 0 0 1 1 1\n', 2, 'line 2: field 2 (htMax): `x`'),
    ('GS 30 30 0 0 1 1 1 1\n', 2, 'line 1: `1` stands after'),
    (GOOD + 'TL -1 0 0 1\nED\n', 2, 'line 3: field 1 (height): `-1`'),
    (GOOD + 'TL 4294967296 0 0 1\nED\n', 2, 'line 3: field 1 (height)'),
    (GOOD + 'ED 1\n', 2, 'line 3: `1` stands after'),
    (SPEC + 'FO\n' + LINE + 'ED\n', 2, 'line 2: field 1 (folio): missing'),
    (SPEC + 'FO 38 39\n' + LINE + 'ED\n', 2, 'line 2: `39` stands after'),
    (SPEC + 'FO 0\n' + LINE + 'ED\n', 1, 'line 2: field 1 (folio): 0, but it must be 1 to 9999'),
    (SPEC + 'FO 10000\n' + LINE + 'ED\n', 1, 'line 2: field 1 (folio): 10000, but it must be 1 to 9999'),
    (SPEC + 'FO 38\nFO 38\n' + LINE + 'ED\n', 1, 'line 3: at byte 36: a mark is unknown, or known but out of place'),
    ('FO 38\n' + GOOD + 'ED\n', 1, 'line 1: at byte 0: a mark is unknown'),
    (GOOD + 'FO 38\nED\n', 1, 'line 3: at byte 48: a mark is unknown'),
    (GOOD, 1, 'after line 2: '),
    ('', 1, 'after line 0: '),
    ('TL 10 0 0 1\nED\n', 1, 'line 1: '),
    (GOOD + GOOD + 'ED\n', 1, 'line 3: '),
    ('GS 31 30 0 0 1 1 1\n' + 'TL 1 0 0 1\nED\n', 1, 'line 1: field 1 (htMin): 31, but it must be 0 to 30'),
    ('GS 0 0 0 0 1 1 1\n', 1, 'line 1: field 2 (htMax): 0, but it must be 1 to 100000'),
    ('GS 30 30 0 0 3 1 1\n', 1, 'line 1: field 5 (sides): 3, but it must be 1 to 2'),
    ('G2 30 30 0 0 1 1 1\n' + LINE + 'ED\n', 2, 'line 1: field 8 (lastMin): missing; G2 has 8 fields'),
    ('GS 30 30 0 0 1 1 1 20\n' + LINE + 'ED\n', 2, 'line 1: `20` stands after the last field of GS'),
    ('G2 30 40 0 0 1 1 1 41\n' + LINE + 'ED\n', 1, 'line 1: field 8 (lastMin): 41, but it must be 0 to 40'),
    ('G2 41 40 0 0 1 1 1 41\n' + LINE + 'ED\n', 1, 'line 1: field 1 (htMin): 41, but it must be 0 to 40'),
    ('G2 30 30 0 0 1 1 1 20\n' + GOOD + 'ED\n', 1, 'line 2: at byte 34: a mark is unknown, or known but out of place'),
    ('G2 30 30 0 0 1 1 1 20\nFO 0\n' + LINE + 'ED\n', 1, 'line 2: field 1 (folio): 0'),
    (GOOD + '\nTL 10 5 4 1\nED\n', 1, 'line 4: field 2 (least space): 5, but it must be 0 to 4'),
    (GOOD + 'TL 10 0 0 2\nED\n', 1, 'line 3: field 4 (page end): 2, but it must be 0 to 1'),
    (GOOD + 'FG 100001 0 0 1\nED\n', 1, 'line 3: field 1 (height): 100001'),
    (GOOD + 'FG 1 0 0 2\nED\n', 1, 'line 3: field 4 (citation): 2'),
    (GOOD + 'FK 1 0 0 2\nED\n', 1, 'line 3: field 4 (citation): 2'),
    (GOOD + 'FK 1 5 4 1\nED\n', 1, 'line 3: field 2 (least space): 5, but it must be 0 to 4'),
    (GOOD + 'FK 1 0 0\nED\n', 2, 'line 3: field 4 (citation): missing; FK has 4 fields'),
    (GOOD + 'FK 1 0 0 1\nTL 1 0 0 1\nED\n', 1, 'line 4: '),
    (GOOD + 'TL 1 0 0 1\nFG 1 0 0 2\nFG 1 0 0 1\nED\n', 1, 'line 5: field 4 (citation): 1'),
    (GOOD + 'FG 1 0 0 1\nTL 1 0 0 1\nED\n', 1, 'line 4: '),
    (GOOD + 'TB 1 0 0 2\nED\n', 1, 'line 3: field 4 (citation): 2: at byte 48: a figure or table names'),
    (GOOD + 'TB 1 5 4 1\nED\n', 1, 'line 3: field 2 (least space): 5, but it must be 0 to 4'),
    (GOOD + 'TB 1 0 0\nED\n', 2, 'line 3: field 4 (citation): missing; TB has 4 fields'),
    (GOOD + 'TB 1 0 0 1 0\nED\n', 2, 'line 3: `0` stands after the last field of TB'),
    (GOOD + 'TB 1 0 0 1\nTL 1 0 0 1\nED\n', 1, 'line 4: at byte 66: a mark is unknown, or known but out of place'),
    (GOOD + 'TB 1 0 0 1\nFG 1 0 0 1\nED\n', 1, 'line 4: at byte 66: a mark is unknown, or known but out of place'),
    (GOOD + 'TL 1 0 0 1\nFG 1 0 0 2\nTB 1 0 0 2\nTB 1 0 0 1\nED\n', 1, 'line 6: field 4 (citation): 1'),
    (GOOD + 51 * 'TB 1 0 0 1\n' + 'ED\n', 1, 'line 53: '),
    (SPEC + 'TB 1 0 0 1\nED\n', 1, 'line 2: at byte 30: figures, tables or the end come before the first line'),
    ('GS 30 30 0 0 1 1 1\nED\n', 1, 'line 2: '),
    (GOOD + 4_000 * 'TL 1 0 0 1\n' + 'ED\n', 1, 'line 4002: '),
    (GOOD + 'ED\nED\n', 1, 'line 4: '),
]


def text_of(galley):
    blocks = [(block.mark.decode(), *block[:4]) for held in galley.streams for block in held]
    folio = [] if galley.stated is None else [('FO', galley.stated)]
    spec = galley.spec[:7] if galley.spec.edition == 1 else galley.spec
    records = [(galley.spec.mark.decode(), *spec), *folio, *blocks, ('ED',)]
    return ''.join(' '.join(map(str, record)) + '\n' for record in records)


def there_and_back(tally, command, root, folder):
    edge = Spec(100_000, 100_000, 100_000, 100_000, 2, 1_000, 1_000, 100_000)
    largest = Galley(edge, (4_000 * (Line(100_000, 100_000, 100_000, 0),), 200 * (Figure(100_000, 0, 100_000, 4_000),),
                            50 * (Table(100_000, 0, 100_000, 4_000),)), 9_999)
    for galley in [cases.A, cases.C, cases.K, largest, *sample.galleys(105, 60, 12, 6), *sample.galleys(115, 40, 9, 4, 4)]:
        data, text = write(galley), text_of(galley)
        tally.same(f'unpack {galley}', command.text('unpack', '-', given=data), (0, text, ''))
        tally.same(f'pack {galley}', command.run('pack', '-', given=text.encode()), (0, data, ''))
    for path in sorted((root / 'samples/real').glob('*.galley')):
        _, text, _ = command.run('unpack', path)
        tally.same(f'{path.name} there and back', command.run('pack', '-', given=text), (0, path.read_bytes(), ''))
    loose = text_of(cases.A).replace(' ', '\t  ').replace('\n', ' # so\r\n\r\n')
    tally.same('white space and comments', command.run('pack', '-', given=loose.encode()), (0, write(cases.A), ''))
    tally.group('galleys as text and back')


def errors(tally, command, folder):
    path = folder / 'wrong.txt'
    for text, due, told in ERRORS:
        path.write_text(text)
        status, output, remarks = command.run('pack', path)
        tally.same(f'{told} in {remarks}', (status, output, f'{path}: {told}' in remarks, remarks.count('\n')),
                   (due, b'', True, 1))
    path.write_bytes(b'GS 30 30\n\xff\n')
    tally.same('no text', command.run('pack', path), (2, b'', f'barleychime: {path}: line 2: not text in UTF-8\n'))
    for name, data, number, place in refusals.files():
        status, output, remarks = command.text('unpack', '-', given=data)
        tally.same(f'unpack {name}', (status, f'R {number} {place}' in remarks), (1, True))
        kept = command.run('pack', '-', given=output.encode())[1]
        tally.same(f'what is unpacked of {name} is not packed', kept == b'' or data.startswith(kept), True)
    tally.group('texts with errors')


def run(tally, command, root, folder):
    there_and_back(tally, command, root, folder)
    errors(tally, command, folder)
