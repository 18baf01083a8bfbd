"""Lists that are followed, though they are not the best, and lists that are not: spoilt ones, and those of a document that has changed."""
import subprocess

import galleys
import pages


def records(job):
    """The records of every galley."""
    return [rows for _, rows in galleys.read(job)]


def head(job):
    """How the list of the first galley begins."""
    remarks, rows = galleys.read(job)[0]
    return f"galley 1 {galleys.remark(remarks, 'sum')} {galleys.remark(rows, 'FO')}\n"


def made(job, rows):
    """What the engine makes of records."""
    packed = subprocess.run([job.program, 'pack', '-'], input='\n'.join(rows).encode() + b'\n', capture_output=True, check=True)
    return subprocess.run([job.program, 'make', '-'], input=packed.stdout, stdout=subprocess.PIPE, stderr=subprocess.DEVNULL).stdout.decode()


def altered(rows, fill, alpha, beta, shift, sides=2):
    """The galley with another fill, other weights or sides, its citations moved."""
    mark, _, high, *rest = rows[0].split()
    rest[2:5] = [str(sides), str(alpha), str(beta)]
    out = [' '.join([mark, str(int(high) * fill // 100), high, *rest])]
    lines = sum(row.startswith('TL') for row in rows)
    for row in rows[1:]:
        fields = row.split()
        if fields[0] in ('FG', 'FK', 'TB'):
            fields[4] = str(min(max(int(fields[4]) + shift, 1), lines))
        out.append(' '.join(fields))
    return out


# fill, alpha, beta, how far citations are moved, sides
ALTERED = [(60, 1, 1, 0), (70, 0, 1, 0), (50, 1, 0, 0), (80, 1, 1, 40), (80, 1, 1, -60), (40, 3, 1, 20), (60, 0, 0, 60), (75, 1, 5, -20),
           (70, 1, 1, 0, 1), (50, 2, 1, 30, 1), (65, 1, 1, -35), (45, 1, 2, 15), (55, 0, 1, 50, 1), (30, 1, 0, -45)]


def lists_of(job, change):
    """Lists for the altered galleys of a document, each for the side on which it opens after the one before, and JOB.list with them."""
    all_, text, moved = [], '', 0
    for number, (remarks, rows) in enumerate(galleys.read(job), 1):
        if any(row[:2] in ('FG', 'FK', 'TB') for row in rows):
            folio = int(galleys.remark(rows, 'FO')) + moved
            answer = made(job, [f'FO {folio}' if row.startswith('FO') else row for row in altered(rows, *change)])
            if answer.startswith('R'):
                break  # LaTeX makes its pages, and where the next opens is not known
            first, last = map(int, galleys.remark(remarks, 'shipped').split())
            moved += int(answer.split()[0]) - (last - first + 1)
            text += f"galley {number} {galleys.remark(remarks, 'sum')} {folio}\n{answer}"
            all_.append(answer)
    return all_, text


def other_lists(job, least):
    """Lists that are valid for their galley, or would be at another fill, one for each galley that has floats: all are followed, on every page."""
    best, followed, followed_pages = job.file('.list').read_text(), set(), 0
    written = job.file('.galley.txt').read_text()
    for change in ALTERED:
        job.file('.galley.txt').write_text(written)
        lists, text = lists_of(job, change)
        followed |= {one for one in lists if one not in best}
        job.file('.list').write_text(text)
        if text:
            job.tex()
            wanted = pages.lists(job.path)
            followed_pages += sum(map(len, wanted.values()))
            right, wrong = pages.misplaced(job.path)
            yield f'another list {change}: all blocks are where it says', (right > 100, wrong), (True, 0)
            yield f'another list {change}: the PDF', pages.unlike(job.path)[1], []
            yield f'another list {change}: galleys by a list', [galley.number for galley in pages.shipped(job.path)[1] if galley.by == 'list'], list(wanted)
    yield f'lists that differ: {len(followed)} on {followed_pages} pages', (len(followed) >= least, followed_pages >= 8 * least), (True, True)
    print(f'{job.path.stem}: {len(followed)} lists that are not the best, followed on {followed_pages} pages')


def spoilt_lists(job, own):
    """Each is refused with its reason, and the pages are LaTeX's own."""
    best = made(job, records(job)[0]).splitlines()
    numbers = [row.split() for row in best]
    shifted = [' '.join([row[0], str(int(row[1]) + 25), *row[2:]]) if 0 < k < 3 else ' '.join(row) for k, row in enumerate(numbers)]
    spoils = {
        'it does not place everything': best[:-1],
        'goes backwards or is empty': best[:3] + [best[2]] + best[3:],
        'is too high': shifted,
        'has more than there is': best[:-1] + [' '.join([numbers[-1][0], '99999', *numbers[-1][2:]])],
        f'"{best[2]} 7 7" is no page end': best[:2] + [best[2] + ' 7 7'] + best[3:],
        f'"{best[0]} 7" does not say how many pages': [best[0] + ' 7'] + best[1:],
        'is no page end': [best[0], *('a page' for _ in best[1:])],
        f'it says {len(best) + 1} pages': [' '.join([str(len(best) + 1), *numbers[0][1:]])] + best[1:],
    }
    for why, rows in spoils.items():
        job.file('.list').write_text(head(job) + '\n'.join(rows) + '\n')
        job.tex()
        yield f'a list that is spoilt: {why}', (why in ' '.join(job.warnings()), pages.texts(job.file('.pdf')) == own), (True, True)
    number, sum_, folio = head(job).split()[1:]
    others = {'on the other side': f'galley {number} {sum_} {int(folio) + 1}\n', 'has changed since': f'galley {number} {sum_[::-1]} {folio}\n'}
    for why, opening in others.items():
        job.file('.list').write_text(opening + '\n'.join(best) + '\n')
        job.tex()
        yield f'a list of another galley: {why}', (why in ' '.join(job.warnings()), pages.texts(job.file('.pdf')) == own), (True, True)


def changed_document(job, plain):
    """A list that was made for other text: LaTeX's pages, and a warning."""
    job.file('.list').write_text(head(job) + made(job, records(job)[0]))
    for one in (job, plain):
        one.path.write_text(one.path.read_text().replace('See ', 'A word that is new, and some more of them, so that lines change. See ', 1))
        one.tex(2)
    yield 'a document that has changed: warning', 'has changed since the list was made' in ' '.join(job.warnings()), True
    yield 'a document that has changed: pages', pages.texts(job.file('.pdf')) == pages.texts(plain.file('.pdf')), True


def heights(job, notes):
    """Pages by a list as high as the model says, to a tenth of a point; with notes they may be lower, never higher."""
    measured = pages.heights(job.path)
    yield 'pages with a height', len(measured) > 4, True
    high = [page for page in measured if page[0] > page[2] + 0.15]
    low = [page for page in measured if page[0] < page[2] - 0.15 or abs(page[1] - page[3]) > 0.15]
    yield 'pages higher than the model says', high, []
    yield 'pages unlike the model', len(low) <= notes, True


TWICE = r"""\AddToHook{shipout/before}[planted]{\ifnum\value{page}=3 \setbox\ShipoutBox\vbox{\copy\ShipoutBox\vskip-\ht\ShipoutBox\copy\ShipoutBox}\fi}
\DeclareHookRule{shipout/before}{planted}{before}{barleychime}
\begin{document}"""


def faults(job):
    """Faults that are planted are seen: in what the run says was shipped, in the PDF's text, and a page that really is set twice."""
    job.barleychime()
    path, sound = job.file('.pages'), job.file('.pages').read_text()
    rows = sound.splitlines()
    at = next(k for k, row in enumerate(rows) if row.startswith('lines'))
    moved = rows[at].split()
    moved[9] = str(int(moved[9]) + 1)
    for what, doctored in {'a line on a later page': [*rows[:at], ' '.join(moved), *rows[at + 1:]], 'a figure twice': [*rows, 'again figures 1 2']}.items():
        path.write_text('\n'.join(doctored) + '\n')
        yield f'a fault in JOB.pages: {what}', pages.misplaced(job.path)[1], 1
    path.write_text(sound)
    yield 'no fault', (pages.misplaced(job.path)[1], pages.unlike(job.path)[1]), (0, [])
    line = max(pages.letters(job.path)[1][0][:20], key=len)
    pdf = pages.printed(job.path)
    here = next(k for k, page in enumerate(pdf) if line in page)
    again = [page + line if k == here + 2 else page for k, page in enumerate(pdf)]
    double = [page + line if k == here else page for k, page in enumerate(pdf)]
    gone = [page.replace(line, '') for page in again[:here + 1]] + again[here + 1:]
    for what, doctored, due in (('on a second page', again, (here + 1, 'again', line[:60])), ('twice on its page', double, (here + 1, 'again', line[:60])),
                                ('on another page', gone, (here + 1, line[:60]))):
        yield f'a fault in the PDF: a line {what}', pages.unlike(job.path, doctored)[1], [due]
    job.path.write_text(job.path.read_text().replace(r'\begin{document}', TWICE))
    job.tex()
    set_twice = sum(numbers.count(3) for galley in pages.shipped(job.path)[1] for numbers in galley.streams)
    yield 'a page that is set twice: blocks', (set_twice > 10, pages.misplaced(job.path)[1]), (True, set_twice)
    yield 'a page that is set twice: the PDF', len(pages.unlike(job.path)[1]) > 10, True
    yield 'a page that is set twice: warning', 'set more than once' in ' '.join(job.warnings()), True
