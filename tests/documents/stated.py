"""The numbers that documents state, read from the sources: limits, memory, stack, and what is proved to be the most."""
import pathlib
import re

ROOT = pathlib.Path(__file__).resolve().parents[2]
HEADER, RECORDS, DESK = 'include/barleychime.h', 'crates/galley/src/place.rt', 'host/command/src/commands/desk.rs'
LIMIT = 'crates/promises/specs/Limit.antt'

SOURCES = {  # the file that has a number, and where it stands there
    'lines': (RECORDS, r'TL => row\(\w+, \w+, \w+, (\d+),'),
    'figures': (RECORDS, r'FG => row\(\w+, \w+, \w+, (\d+),'),
    'tables': (RECORDS, r'TB => row\(\w+, \w+, \w+, (\d+),'),
    'folio': ('crates/records/src/lib.rt', r'folio <= (\d+)'),
    'input': ('crates/paginate/src/main.rt', r'if (\d+) < got'),
    'numbers': ('crates/sections/src/table.rt', r'const TABLE: \[u8; (\d+)\]'),
    'turns': (LIMIT, r'^most_turns = (\d+)'),
    'untabled': (LIMIT, r'^most_untabled = (\d+)'),
    'white': (LIMIT, r'\.white ≤ (\d+)'),
    'chapters': (HEADER, r'BARLEYCHIME_MOST_CHAPTERS (\d+)'),
    'papers': (HEADER, r'BARLEYCHIME_MOST_PAPERS (\d+)'),
    'pages': (HEADER, r'BARLEYCHIME_DESK_PAGES (\d+)'),
    'layouts': (HEADER, r'BARLEYCHIME_MOST_LAYOUTS (\d+)'),
    'name': (HEADER, r'BARLEYCHIME_LONGEST_NAME (\d+)'),
    'words': (HEADER, r'BARLEYCHIME_WORK_WORDS\(m, n\) \(\(size_t\)(\d+) \* '),
    'stack': (HEADER, r'BARLEYCHIME_STACK_BYTES \(\(size_t\)(\d+)\)'),
    'marking': (HEADER, r'BARLEYCHIME_MARK_STACK_BYTES \(\(size_t\)(\d+)\)'),
    'undone': (DESK, r'MOST_UNDONE: usize = ([\d_]+)'),
    'ends': (DESK, r'MOST_ENDS: usize = ([\d_]+)'),
}
STATED = [  # how documents state them; each is stated somewhere
    r'(?P<lines>[\d,]+) lines, (?P<figures>\d+) figures (?:and|or) (?P<tables>\d+) tables',
    r'up to (?P<lines>[a-z]+ [a-z]+) lines, (?P<figures>[a-z]+ [a-z]+) figures and (?P<tables>[a-z]+) tables',
    r'a line too many \((?P<lines>[\d,]+) is the most\), a figure too many \((?P<figures>\d+)\) or a table too many \((?P<tables>\d+)\)',
    r'else 0 \| 1 to (?P<lines>[\d,]+) \|',
    r'\| 0 to (?P<figures>\d+), with `FK` \|',
    r'cites it \| 0 to (?P<tables>\d+) \|',
    r'folio of the first page, 1 to (?P<folio>[\d,]+)',
    r'(?:[Uu]p to|[Mm]ore than|at most) (?P<pages>[\d,]+) pages',
    r'up to (?P<chapters>[\d,]+) galleys',
    r'at most (?P<chapters>[\d,]+) chapters',
    r'(?:up to|more than|at most) (?P<papers>[\d,]+) (?:papers|marks)',
    r'(?P<layouts>\w+) layouts, under names of 1 to (?P<name>\d+) bytes',
    r'more than (?P<input>[\d,]+) bytes',
    r'their (?P<numbers>\d+) numbers',
    r'save, back or drop, up to (?P<undone>\d+) of them',
    r'the change in turns; up to (?P<ends>[\d,]+) \|',
    r'(?P<words>\d+) · \(m \+ 1\) · \(n \+ 1\) · \(k \+ 1\) words',
    r'asks for (?P<gigabytes>[\d.]+) GB',
    r'(?P<gigabytes>[\d.]+) GB for the longest',
    r'(?P<megabytes>\d+) MB for the longest galley without tables',
    r'`BARLEYCHIME_STACK_BYTES` of stack, some (?P<stack_kilobytes>\d+) KB',
    r'and marking (?P<marking_kilobytes>\d+) KB',
    r'T is at most (?P<turns>1[\d,]+)',
    r'without tables (?:T is at most )?(?P<untabled>\d{3},\d{3},\d{3})',
    r'W (?:is )?at most (?P<white>[\d,]+\d)',
]
WORDS = {'four thousand': 4000, 'two hundred': 200, 'fifty': 50, 'eight': 8}


def numbers(root=ROOT):
    """Every number by its name, and those that follow from them, rounded as they are stated."""
    found = {name: re.findall(place, (root / file).read_text(), re.M) for name, (file, place) in SOURCES.items()}
    values = {name: int(each[0].replace('_', '')) for name, each in found.items() if each}
    untabled = 4 * values['words'] * (values['lines'] + 1) * (values['figures'] + 1)
    return values | {
        'gigabytes': round(untabled * (values['tables'] + 1) / 1e9, 2),
        'megabytes': round(untabled / 1e6),
        'stack_kilobytes': round(values['stack'] / 1000, -1),
        'marking_kilobytes': round(values['marking'] / 1000),
    }


def value_of(text):
    return WORDS.get(text) if text[0].isalpha() else float(text.replace(',', ''))


def unlike_sources(pages, values, patterns=STATED):
    """Numbers that a page states and the sources have otherwise, and what no page states any more."""
    met = set()
    for name, text in pages.items():
        for pattern in patterns:
            for found in re.finditer(pattern, ' '.join(text.split())):
                met.add(pattern)
                for what, said in found.groupdict().items():
                    if value_of(said) != values.get(what):
                        yield f'{name}: "{found[0]}": {what} is {values.get(what)} in {SOURCES.get(what, [HEADER])[0]}'
    for pattern in patterns:
        if pattern not in met:
            yield f'tests/documents/stated.py: no page states {pattern}'
