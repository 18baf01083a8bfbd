"""Documents of several galleys: made as a book, opened on a side, kept as printed, and ended at a barrier."""
import followed
import galleys
import pages


def one_by_one(job):
    """Turns of each galley made by itself, on the folio after the one before; None where it has no pagination."""
    folio = int(galleys.remark(galleys.read(job)[0][1], 'FO'))
    for _, rows in galleys.read(job):
        answer = followed.made(job, [f'FO {folio}' if row.startswith('FO') else row for row in rows])
        if answer.startswith('R'):
            yield None
            return  # where the next would open is LaTeX's choice
        numbers = answer.split('\n')[0].split()
        folio += int(numbers[0])
        yield int(numbers[3])


def beats_one_by_one(job):
    """The appendix has a pagination on one side alone, and the chapter before it ends so that it opens there."""
    told = job.barleychime()
    yield 'a book: exit status and remarks', (told.returncode, told.stderr), (0, '')
    yield 'a book: galleys by a list', [galley.by for galley in pages.shipped(job.path)[1]], ['list', 'list']
    yield 'a book: blocks not on the page of the list, and texts not on their page of the PDF', (pages.misplaced(job.path)[1], pages.unlike(job.path)[1]), (0, [])
    by_book = [int(row.split('=')[2].split()[0]) for row in told.stdout.splitlines()[1:3]]
    alone = list(one_by_one(job))
    latex = int(told.stdout.splitlines()[2].split('=')[1].split()[0])  # what the appendix has where it has no list
    yield 'a book: one by one the appendix has no pagination', (len(alone), alone[1]), (2, None)
    yield 'a book: fewer turns than one by one', sum(by_book) < alone[0] + latex, True
    text = job.file('.galley.txt').read_text()
    before, citing, after = text.rpartition('FG ')
    job.file('.galley.txt').write_text(before + citing + ' '.join([*after.split()[:3], '9999']) + '\nED\n')
    told = job.barleychime('--lists-only')
    yield 'a book that is refused: said', 'galleys 1 to 2 as a book: ' in told.stderr and 'fewer are made together' in told.stderr, True
    yield 'a book that is refused: the rest is made', (told.returncode, list(pages.lists(job.path))), (0, [1])


def kept_as_printed(job):
    """Pages up to one of the second chapter stay; what is printed is known by what it is."""
    source = job.path.read_text()
    job.barleychime()
    chapter = pages.shipped(job.path)[1][1].streams[0]
    last = min(chapter) + 1
    before, text = pages.printed(job.path)[:last], source.rstrip().removesuffix(r'\end{document}')
    saved = {ending: job.file(ending).read_bytes() for ending in ('.pages', '.galley.txt', '.list')}
    where = [[page for page in stream if page <= last] for galley in pages.shipped(job.path)[1] for stream in galley.streams]
    job.path.write_text(text + '\nA paragraph that came after the first sheets were printed.\n\\end{document}\n')
    told = job.barleychime('--after', str(last))
    yield f'after {last}: exit status and remarks', (told.returncode, told.stderr), (0, '')
    yield f'after {last}: blocks that stay', [[page for page in stream if page <= last] for galley in pages.shipped(job.path)[1] for stream in galley.streams], where
    yield f'after {last}: the text of the printed pages', pages.printed(job.path)[:last], before
    yield f'after {last}: blocks not on the page of the list', pages.misplaced(job.path)[1], 0
    opening = source.index(r'\chapter')
    second = source.index(r'\chapter', opening + 1)
    changed = {
        'a new chapter before': (source[:opening] + '\\chapter{New}Few words.\n\n' + source[opening:], 'galley 1 was printed, "Chapter 1", and it has changed'),
        'another opening': (source[:opening] + '\\chapter*{Another}' + source[source.index('}', opening) + 1:], '"Another" stands there now'),
        'a word on a printed page': (source[:second + 20] + 'New words. ' * 40 + source[second + 20:], 'galley 2 was printed, "Chapter 2", and it has changed'),
        'what was printed taken out': (source[:second] + '\\end{document}\n', 'it is not there any more'),
        'an error of TeX': (text + '\\notacommand\\end{document}\n', '! Undefined control sequence.'),
    }
    for ending, data in saved.items():
        job.file(ending).write_bytes(data)
    for what, (now, why) in changed.items():
        job.path.write_text(now)
        told = job.barleychime('--after', str(last))
        yield f'after {last}, with {what}', (told.returncode, why in told.stderr), (2, True)
        stays = {ending: job.file(ending).read_bytes() == data for ending, data in saved.items()}
        yield f'after {last}, with {what}: what tells of the printed pages stays', stays, dict.fromkeys(saved, True)


def ended_at_barrier(job):
    """The command asks for a page end at a barrier that its first list lets figures pass; then no float passes it."""
    told = job.barleychime()
    yield 'a barrier: exit status and remarks', (told.returncode, told.stderr), (0, '')
    yield 'a barrier: asked for by the list', job.file('.list').read_text().startswith('barrier 1\n'), True
    first, second = pages.shipped(job.path)[1]
    yield 'a barrier: the next galley opens a page', max(max(stream, default=0) for stream in first.streams) < min(second.streams[0]), True
    yield 'a barrier: both by a list, all on its page', (first.by, second.by, pages.misplaced(job.path)[1], pages.unlike(job.path)[1]), ('list', 'list', 0, [])
    before = job.file('.list').read_text()
    told = job.barleychime('--lists-only')
    yield 'a barrier: it stays in the next lists', (told.returncode, job.file('.list').read_text()), (0, before)
    last = max(first.streams[0])
    told = job.barleychime('--after', str(last))
    yield 'a barrier: it stays after what is printed', (told.returncode, told.stderr, job.file('.list').read_text()), (0, '', before)
