"""What the package leaves beside the PDF, and whether the PDF has the pages of the list: by the attributes of the boxes that were
shipped (JOB.pages), and by the PDF's text (JOB.text has the letters of every line and float)."""
import collections
import re
import subprocess
import unicodedata

Galley = collections.namedtuple('Galley', 'number by streams again')
STREAMS = ('lines', 'figures', 'tables')


def shipped(job):
    """The folios of all pages, and the galleys with the page of every line, figure and table, and what was shipped again."""
    folios, galleys = [], []
    for row in job.with_suffix('.pages').read_text().splitlines():
        kind, *fields = row.split()
        if kind == 'folios':
            folios = list(map(int, fields))
        elif kind == 'galley':
            galleys.append(Galley(int(fields[0]), fields[1], [], []))
        elif kind == 'again':
            galleys[-1].again.append(' '.join(fields))
        elif kind in STREAMS:
            galleys[-1].streams.append(list(map(int, fields)))
    return folios, galleys


def lists(job):
    """The page ends of every galley that has a list."""
    galleys, path = {}, job.with_suffix('.list')
    for row in path.read_text().splitlines() if path.exists() else ():
        name, *fields = row.split()
        if name == 'galley':
            rows = galleys[int(fields[0])] = []
        elif name != 'barrier':
            rows.append(tuple(map(int, fields)))
    return {number: [(*end, 0)[:3] for end in rows[1:]] for number, rows in galleys.items() if rows}


def blocks(job):
    """For every galley that is made by a list: each page of the PDF with the numbers of the blocks that it must have."""
    _, galleys = shipped(job)
    wanted = lists(job)
    for galley in galleys:
        if galley.by == 'list':
            first = min(page for stream in galley.streams for page in stream)
            before, pages = (0, 0, 0), []
            for end in wanted[galley.number]:
                pages.append([range(a, b) for a, b in zip(before, end)])
                before = end
            yield galley, first, pages


def misplaced(job):
    """How many blocks were shipped once, on the page that the list says, and how many were not, or were shipped again."""
    right = 0
    wrong = sum(len(galley.again) for galley in shipped(job)[1])
    for galley, first, pages in blocks(job):
        for page, placed in enumerate(pages, first):
            for stream, numbers in zip(galley.streams, placed):
                right += sum(stream[number] == page for number in numbers)
                wrong += sum(stream[number] != page for number in numbers)
    return right, wrong


LIGATURES = {a + b: x for a in '01' for b, x in zip('bcdef', ('ff', 'fi', 'fl', 'ffi', 'ffl'))}


def plain(text):
    text = re.sub('{([01][b-f])}', lambda found: LIGATURES[found[1]], text)  # of old fonts
    return re.sub('[^A-Za-z]', '', unicodedata.normalize('NFKC', text))


def texts(pdf, *how):
    """The text of every page of a PDF."""
    out = subprocess.run(['pdftotext', *how, str(pdf), '-'], stdout=subprocess.PIPE, check=True)
    return out.stdout.decode('utf8', 'replace').split('\f')[:-1]


def nearest(text, pages):
    """The page, from 0, that has most of a text's strings of six letters."""
    grams = {text[k:k + 6] for k in range(len(text) - 5)}
    return max(range(len(pages)), key=lambda page: sum(gram in pages[page] for gram in grams))


def letters(job):
    """The letters of every line, figure and table, by galley."""
    galleys = {}
    text = job.with_suffix('.text').read_text(errors='replace')
    for row in filter(None, text.split('\n')):  # an old font may have a letter at a code that ends lines
        if row.startswith('galley'):
            galleys[int(row.split()[1])] = streams = ([], [], [])
        else:
            streams['lft'.index(row[0])].append(plain(row[2:]))
    return galleys


def printed(job):
    """The letters of every page of the PDF."""
    return [plain(re.sub('(-|\u00ad|\u2010)\n', '', page)) for page in texts(job.with_suffix('.pdf'), '-raw')]


def unlike(job, pdf=None):
    """Lines and floats of ten letters or more: how many the PDF has on their page, and those that it has not, or has again. Where symbols
    come between (in old mathematical fonts they have the codes of letters) no other page may have more of a text's letters. A text of twenty
    letters or more that the galley has once, which is no heading, is found once on its page and on no other."""
    pdf = pdf or printed(job)
    found, missing, every = 0, [], letters(job)
    for galley, first, pages in blocks(job):
        own, streams = pdf[first - 1:first - 1 + len(pages)], every[galley.number]
        whole = ' '.join(''.join(stream) for stream in streams)
        for page, placed in enumerate(pages):
            for text in (stream[number] for stream, numbers in zip(streams, placed) for number in numbers if len(stream[number]) >= 10):
                there = text in own[page]
                if not there and nearest(text, own) != page:
                    missing.append((first + page, text[:60]))
                elif there and len(text) >= 20 and whole.count(text) == 1 and (own[page].count(text) > 1 or sum(text in other for other in own) > 1):
                    missing.append((first + page, 'again', text[:60]))
                else:
                    found += 1
    return found, missing


HEIGHT = re.compile(r'galley (\d+) page (\d+): ([-\d.]+) to ([-\d.]+) pt\s+high, by\s+the\s+list\s+([-\d.]+)\s+to\s+([-\d.]+)')


def heights(job):
    """For every page by a list: its least and greatest height as TeX has it, and as the model has it."""
    log = job.with_suffix('.log').read_text(errors='replace')
    log = re.sub(r'\n\(barleychime\)\s*', ' ', log).replace('\n', '')
    return [tuple(map(float, found.groups()[2:])) for found in HEIGHT.finditer(log)]
