"""What the documents name is there.

Every definition that docs/MODEL.md names stands in the file that it names, and every row that states something names one. Every link
and every path in README.md and in docs leads somewhere; in docs/landings a path may be gone if it is said where it went. Every section
of documents 01 and 02 that a comment of the crates cites has its row in docs/MODEL.md, and every refusal of host/library/src/refusal.rs
too. docs/PERFORMANCE.md is no longer than it may be, and the headings of docs/DECISIONS.md that documents cite are there. The numbers
that documents state are those of the sources (stated.py). A fault of each kind is planted first, so that the test is known to find it.
"""
import pathlib
import re
import sys

ROOT = pathlib.Path(__file__).resolve().parents[2]
sys.path[:0] = [str(ROOT / 'tests'), str(ROOT / 'tests/sources')]
import names  # noqa: E402
import stated  # noqa: E402
from choice import chosen  # noqa: E402
from tally import Tally  # noqa: E402

CRATES = ROOT / 'crates'
MODEL = 'docs/MODEL.md'
PERFORMANCE, MOST_LINES = 'docs/PERFORMANCE.md', 120
DECISIONS = 'docs/DECISIONS.md'
NAMED = re.compile(r'(`[^`]+`(?:, `[^`]+`)*) in (crates/[\w/.]*\w|[a-z_]+/\w+(?:/\w+)*)')
LINK = re.compile(r'\[[^\]]*\]\(([^)\s]+)\)')
CELL = re.compile(r'(?<!\\)\|')
ANY_NAME = re.compile(r'(?<![A-Za-z])(?:NAME|GROUP|LABEL|N)(?![A-Za-z])')


def documents():
    """README and the pages of docs that are kept true; landing notes, history, PORT.md and DESIGN-PASS.md, which have what was, stay as they were written."""
    pages = [ROOT / 'README.md', *sorted(path for path in (ROOT / 'docs').glob('*.md') if path.name not in ('DESIGN-PASS.md', 'PORT.md'))]
    return {str(path.relative_to(ROOT)): path.read_text() for path in pages}


def rows(text, heading):
    """The cells of each row of the tables whose last column has this heading."""
    within = False
    for line in text.split('\n'):
        cells = [cell.strip() for cell in CELL.split(line)[1:-1]] if line.startswith('|') else []
        if not cells:
            within = False
        elif within and set(cells[0]) != {'-'}:
            yield cells
        within = within or bool(cells) and cells[-1] == heading


def files_of(place):
    """The files that a place such as model/Height means, of definitions and of laws; one that begins with crates/ is written in full."""
    if place.startswith('crates/'):
        return [ROOT / place]
    crate, _, module = place.partition('/')
    return [CRATES / crate / part / f'{module}.antt' for part in ('specs', 'proofs')]


def declared(path):
    """The names that a file declares, and `Type.part` for each constructor and field."""
    if path.suffix == '.rt':
        return set(re.findall(r'^\s*(?:pub )?(?:fn|struct|enum|const) (\w+)', path.read_text(), re.M))
    found = names.Source(path, CRATES).declarations
    return {d.name for d in found} | {f'{d.name}.{part}' for d in found for part in d.inner}


def unstated(text):
    """Rows of the model that name no definition, and definitions that are not where they are said to be."""
    for cells in rows(text, 'stated by'):
        if not all(NAMED.fullmatch(part) for part in cells[-1].split('; ')):
            yield f'{MODEL}: no definition is named as `name` in crate/File: {" | ".join(cells)}'
    for quoted, place in NAMED.findall(text):
        paths = files_of(place)
        known = set().union(*(declared(path) for path in paths if path.is_file())) if any(path.is_file() for path in paths) else None
        for name in re.findall(r'`([^`]+)`', quoted):
            if known is None:
                yield f'{MODEL}: `{name}` in {place}: there is no file {paths[0].relative_to(ROOT)}'
            elif name not in known:
                yield f'{MODEL}: `{name}` in {place}: the file does not declare it'


def anchors(text):
    """The anchors of a page's headings, as GitHub has them."""
    for heading in re.findall(r'^#+ (.+)$', re.sub(r'^```.*?^```', '', text, flags=re.M | re.S), re.M):
        yield re.sub(r'[^\w\- ]', '', re.sub(r'\[([^\]]*)\]\([^)]*\)', r'\1', heading).lower()).replace(' ', '-')


def broken_links(name, text):
    """Relative links to a file that is not there, or to a heading that its page does not have."""
    for link in LINK.findall(text):
        if re.match(r'[a-z]+:', link):
            continue
        file, _, anchor = link.partition('#')
        path = (ROOT / name).parent / file if file else ROOT / name
        if not path.exists():
            yield f'{name}: the link {link} leads to no file'
        elif anchor and anchor not in set(anchors(text if not file else path.read_text())):
            yield f'{name}: the link {link} leads to no heading of its page'


def tops():
    """The directories at the top of the repository: what begins with one of them is a path."""
    return sorted(path.name for path in ROOT.iterdir() if path.is_dir() and not path.name.startswith('.') and path.name != 'target')


def paths_in(text):
    """The paths that a page names outside of its links; what is built need not be there."""
    found = re.findall(rf'(?<![\w./\-])((?:{"|".join(tops())})/[\w./*\-]*[\w*])', LINK.sub('', text))
    return [path for path in found if 'target' not in path.split('/')]


def is_there(path):
    """Whether a path leads somewhere; NAME and the like stand for any name."""
    return (ROOT / path).exists() or any(ROOT.glob(ANY_NAME.sub('*', path)))


def missing_paths(name, text):
    """Paths that lead nowhere."""
    for path in paths_in(text):
        if not is_there(path):
            yield f'{name}: there is no {path}'


def unremarked(name, text):
    """Paths of a landing note that are no longer there, without a remark after them that says where they went."""
    plain = LINK.sub('', text)
    for path in sorted({path for path in paths_in(plain) if not is_there(path)}):
        for after in re.findall(rf'{re.escape(path)}(?![\w/])(.{{0,120}})', plain):
            moved = re.match(r' \(moved to ([\w./\-]*\w)\)', after)
            if not (moved and is_there(moved.group(1)) or after.startswith(' (gone')):
                yield f'{name}: there is no {path}; put "(moved to PATH)" after it, or "(gone, ...)"'


def comments(text, is_code):
    """Runs of comment lines, each as one line."""
    mark = '//' if is_code else '--'
    run = []
    for line in text.split('\n') + ['']:
        if line.strip().startswith(mark):
            run.append(line.strip().lstrip(mark).strip())
        elif run:
            yield ' '.join(run)
            run = []


def cited(comment):
    """The sections of documents 01 and 02 that a comment cites: (document, section)."""
    for quoted in re.findall(r'[Dd]ocuments? 01,? ?\(?((?:"[^"]+"(?:,? and |, )?)+)', comment):
        yield from (('01', section) for section in re.findall(r'"([^"]+)"', quoted))
    if re.search(r'[Dd]ocuments? (?:\S+ )*?02', comment):
        yield from (('02', section) for section in re.findall(r'\bS-\d+', comment))
    for document, section in re.findall(r'\(document (0[12]), ([a-z][^);:",]*)', comment):
        yield document, section.strip()


def sections_told(text):
    """The sections that the last table of the model leads from: (document, section)."""
    for cells in rows(text, 'told in'):
        document, section, _ = cells
        yield from ((document, quoted) for quoted in re.findall(r'"([^"]+)"', section))
        yield from ((document, request) for request in re.findall(r'S-\d+', section))
        for first, last in re.findall(r'rules (\d+) to (\d+)', section):
            yield from ((document, f'rule {number}') for number in range(int(first), int(last) + 1))
    for cells in rows(text, 'stated by'):
        if cells[0].isdigit():
            yield from ((document, f'number {cells[0]}') for document in ('01', '02'))


def each_rule(section):
    """'rules 13 to 17' as its rules one by one, and any other section as it is."""
    found = re.match(r'(rule|number)s? (\d+)(?: (to|and) (\d+))?', section)
    if not found:
        return [section]
    kind, first, between, last = found.groups()
    if not last:
        return [f'{kind} {first}']
    return [f'{kind} {n}' for n in (range(int(first), int(last) + 1) if between == 'to' else (first, last))]


def untold(text, sources):
    """Sections that a comment cites and the model's last table does not have; `sources` are names with their texts."""
    told = set(sections_told(text))
    for name, source in sources.items():
        for comment in comments(source, name.endswith('.rt')):
            for document, section in cited(comment):
                for one in each_rule(section):
                    if (document, one) not in told:
                        yield f'{name}: document {document}, {one} is not in the last table of {MODEL}'


def unlike_refusals(text, table):
    """Numbers and names of the model's table of refusals that the command's table does not have, or has otherwise."""
    here = {(int(cells[0]), cells[1]) for cells in rows(text, 'stated by') if cells[0].isdigit()}
    due = {(int(number), name) for number, name in re.findall(r'^\s*(\d+) ([A-Z]\w+) [A-Z]\w+ "', table, re.M)}
    for number, name in sorted(here ^ due):
        yield f'{MODEL}: refusal {number} {name} is {"not in" if (number, name) in here else "only in"} host/library/src/refusal.rs'


def too_long(text):
    """More lines on the engine of today than anybody reads; the rest is history."""
    lines = len(text.splitlines())
    if lines > MOST_LINES:
        yield f'{PERFORMANCE}: {lines} lines, and {MOST_LINES} are the most: what is not of today goes to docs/history/PERFORMANCE.md'


def undecided(text, pages):
    """Headings of decisions that a page cites and the page of decisions does not have."""
    headings = {re.sub(r' \(\d{4}-\d\d-\d\d\)$', '', heading) for heading in re.findall(r'^### (.+)$', text, re.M)}
    for name, page in pages.items():
        for heading in re.findall(r'DECISIONS\.md(?:\]\(DECISIONS\.md\))?, "([^"]+)"', ' '.join(page.split())):
            if heading not in headings:
                yield f'{name}: {DECISIONS} has no entry "{heading}"'


def planted(tally, model, table):
    """A fault of each kind is found."""
    row = '\n\n| what holds | stated by |\n|---|---|\n| A sentence. | {} |\n'
    found = {
        'a row without a definition': unstated(row.format('nothing')),
        'a definition that is not there': unstated(row.format('`height`, `heigth` in model/Height')),
        'a field that is not there': unstated(row.format('`Pagination.above` in model/Pagination')),
        'a file that is not there': unstated(row.format('`height` in model/Heights')),
        'a link to no file': broken_links('docs/X.md', '[x](../READ.md)'),
        'a link to no heading': broken_links('docs/X.md', '# One\n[x](#two)'),
        'a path to nothing': missing_paths('README.md', 'see crates/model/specs/Heights.antt'),
        'a pattern of no path': missing_paths('README.md', 'see crates/NAME/must-not-fail'),
        'a path of a landing note that has moved': unremarked('S-0.md', 'crates/a.rt, crates/b.rt (moved to README.md), crates/c.rt (gone)'),
        'a section that is not told': untold(model, {'a.antt': '-- Of a page (document 01,\n-- "Made up").\n'}),
        'the second of two sections': untold(model, {'a.rt': '// Document 01, "Making" and "Made up".\n'}),
        'a request that is not told': untold(model, {'a.antt': '-- Of a page (document 02, S-7 and S-15).\n'}),
        'a rule that is not told': untold(model, {'a.antt': '-- Of a page (document 01, rules 17 to 19).\n'}),
        'a page that is too long': too_long('a line\n' * (MOST_LINES + 1)),
        'a decision that is not there': undecided('### One (2026-11-17)\n', {'X.md': 'docs/DECISIONS.md, "One", and\n[DECISIONS.md](DECISIONS.md),\n"Two"'}),
        'a number that is another': stated.unlike_sources({'X.md': 'up to 65 pages'}, {'pages': 64}, [r'up to (?P<pages>\d+) pages']),
        'a number in words that is another': stated.unlike_sources({'X.md': 'eight layouts'}, {'layouts': 9}, [r'(?P<layouts>\w+) layouts']),
        'a number that no page states': stated.unlike_sources({'X.md': 'many pages'}, {'pages': 64}, [r'up to (?P<pages>\d+) pages']),
        'a refusal less': unlike_refusals(model, table.replace('33 NoSuchSection', '33 NoSection')),
    }
    for what, faults in found.items():
        faults = list(faults)
        tally.same(f'planted: {what} is found', len(faults), 2 if what == 'a refusal less' else 1)
    tally.group('planted faults')


def main():
    pages = documents()
    model = pages[MODEL]
    table = (ROOT / 'host/library/src/refusal.rs').read_text()
    sources = {str(path.relative_to(ROOT)): path.read_text() for path in sorted(CRATES.rglob('*')) if path.suffix in ('.rt', '.antt')}
    landings = {str(path.relative_to(ROOT)): path.read_text() for path in sorted((ROOT / 'docs/landings').glob('*.md'))}
    told = [section for name, text in sources.items() for comment in comments(text, name.endswith('.rt')) for section in cited(comment)]
    # The faults of each kind, and how many there could be.
    cases = {
        'planted faults': None,
        'definitions that the model names': (unstated(model), sum(len(re.findall('`[^`]+`', quoted)) for quoted, _ in NAMED.findall(model))),
        'links': ((fault for page in pages.items() for fault in broken_links(*page)), sum(len(LINK.findall(text)) for text in pages.values())),
        'paths': ((fault for page in pages.items() for fault in missing_paths(*page)), sum(len(paths_in(text)) for text in pages.values())),
        'paths of landing notes': ((fault for note in landings.items() for fault in unremarked(*note)),
                                   sum(len(paths_in(text)) for text in landings.values())),
        'sections that comments cite': (untold(model, sources), len(set(told))),
        'refusals': (unlike_refusals(model, table), 1),
        'the length of docs/PERFORMANCE.md': (too_long(pages[PERFORMANCE]), 1),
        'numbers that are stated': (stated.unlike_sources(pages, stated.numbers()), len(stated.STATED)),
        'decisions that are cited': (undecided(pages[DECISIONS], pages), 1),
    }
    tally = Tally()
    for title, case in chosen(cases).items():
        if case is None:
            planted(tally, model, table)
            continue
        found, asked = list(case[0]), case[1]
        for fault in found:
            tally.same(fault, 'fault', 'none')
        tally.passed += max(asked - len(found), 0)
        if title == 'sections that comments cite':
            tally.same('sections of both documents are cited', {document for document, _ in told}, {'01', '02'})
        tally.group(title)
    return tally.end()


if __name__ == '__main__':
    sys.exit(main())
