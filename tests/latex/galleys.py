"""What the galleys of the small documents must say: citing lines, floats that are kept together, sides, barriers."""
import documents
import pages

CITING = ('article', 'hyperref', 'cleveref', 'varioref', 'scrartcl', 'microtype', 'babel', 'fancyhdr')


def read(job):
    """For each galley its remarks and its records."""
    galleys = []
    for row in job.file('.galley.txt').read_text().splitlines():
        if row.startswith('# galley'):
            galleys.append(([], []))
        galleys[-1][not row.startswith('#')].append(row.removeprefix('# '))
    return galleys


def remark(rows, name):
    """What a row of this name says."""
    return next(row.split(' ', 1)[1] for row in rows if row.split()[0] == name)


def citing_lines(job):
    """The text of the line that cites each float, and of the line before it."""
    lines = []
    for row in job.file('.text').read_text(errors='replace').splitlines():
        if row.startswith('l '):
            lines.append(pages.plain(row[2:]))
    records = [row.split() for row in read(job)[0][1]]
    cites = [int(fields[4]) for fields in records if fields[0] in ('FG', 'FK', 'TB')]
    return [''.join(lines[max(cite - 2, 0):cite]) for cite in cites]


def passed(job):
    """Floats on a later page than the line after a barrier that stands after them."""
    galleys = pages.shipped(job.path)[1]
    for (remarks, _), galley in zip(read(job), galleys):
        for remark in remarks:
            if remark.startswith('barrier'):
                line, *before = map(int, remark.split()[3:])
                lines, *floats = galley.streams
                yield from (page for stream, count in zip(floats, before) for page in stream[:count] if line < len(lines) and page > lines[line])


def opened_on_the_right(job):
    """The folio of each list is that of the galley's first page, and a blank page stands before a right-hand opening where it must."""
    folios, all_ = pages.shipped(job.path)
    heads = {int(row.split()[1]): int(row.split()[3]) for row in job.file('.list').read_text().splitlines() if row.startswith('galley')}
    spans = [(min(placed), max(placed)) for placed in ([page for stream in galley.streams for page in stream] for galley in all_)]
    yield f'{job.path.stem}: folios of the lists', [heads[galley.number] for galley in all_], [folios[first - 1] for first, _ in spans]
    between = [(folios[last - 1] % 2, first - last - 1) for (_, last), (first, _) in zip(spans, spans[1:])]
    yield f'{job.path.stem}: a blank page after a galley that ends on the right, none after one on the left', \
        (sorted(set(between) - {(0, 0), (1, 1)}), (1, 1) in between), ([], True)


def check(name, job):
    galleys = read(job)
    remarks = [row for rows, _ in galleys for row in rows]
    if name in CITING:
        yield f'{name}: floats whose citing line does not cite', [text for text in citing_lines(job) if 'See' not in text], []
    if name == 'caption':
        marks = [row.split()[0] for _, rows in galleys for row in rows if row.startswith('F')]
        yield f'{name}: floats that are kept with the next', marks.count('FK'), 2
        figures = [page for galley in pages.shipped(job.path)[1] for page in galley.streams[1]]
        together = [(figures[k], figures[k + 1]) for k, mark in enumerate(mark for mark in marks if mark in ('FG', 'FK')) if mark == 'FK']
        yield f'{name}: pages of floats that are kept together', [pair for pair in together if pair[0] != pair[1]], []
        pdf = pages.printed(job.path)
        for one, two in ((90, 91), (92, 93)):
            there = [[k for k, page in enumerate(pdf) if pages.plain(f'drawing of the {documents.name(number)}') in page] for number in (one, two)]
            yield f'{name}: pages of the PDF that have float {one}, and {two}', (len(there[0]), there[0] == there[1]), (1, True)
    if name in ('book', 'scrbook', 'memoir'):
        yield f'{name}: galleys that open on the right', remarks.count('opens right') >= 3, True
        folios = [int(row.split()[1]) for rows, records in galleys for row in records if row.startswith('FO') and 'opens right' in rows]
        yield f'{name}: their folios are odd', [folio for folio in folios if folio % 2 == 0], []
        yield from opened_on_the_right(job)
    if name == 'uncited':
        yield f'{name}: the folio that it opens on, and who made its pages', (remark(galleys[0][1], 'FO'), pages.shipped(job.path)[1][0].by), ('0', 'list')
        yield f'{name}: the line that cites a float without a reference', sum('uncited' in text for text in citing_lines(job)), 1
    if name == 'sides':
        opened = [(remark(rows, 'opens'), int(remark(records, 'FO')) % 2) for rows, records in galleys]
        yield f'{name}: galleys that open on the right and on the left', opened[1:], [('right', 1), ('left', 0)]
    if name == 'report':
        yield f'{name}: galleys that follow on', remarks.count('follows') >= 3, True
    if name in ('placeins', 'stuck'):
        yield f'{name}: floats that passed a barrier', list(passed(job)), []
        text = job.file('.galley.txt').read_text() + job.file('.list').read_text()
        yield f'{name}: barriers held, or galleys ended there', text.count('barrier ') >= 1, True
