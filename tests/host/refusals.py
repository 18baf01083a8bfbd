"""The table of refusals, which stands in the library: as a page, as JSON, in the header, in Python and in the manual."""

import json
import re
import sys


def c_name(name):
    """StopsShort as C has it: STOPS_SHORT."""
    return re.sub(r'(?<=.)(?=[A-Z])', '_', name).upper()


def in_header(root):
    """Numbers by name and, but for 19, which no call answers, words."""
    header = (root / 'include/barleychime.h').read_text()
    enum = re.search(r'^enum barleychime_refusal \{\n(.*?)^\};', header, re.M | re.S)[1]
    names = {name: int(number) for name, number in re.findall(r'BARLEYCHIME_(\w+) = (\d+)', enum)}
    listed = header[header.index(' * Refusals: '):header.index('#ifndef ')]
    return names, {int(number): words for number, words in re.findall(r'^ \*   +(\d+)  (.*)$', listed, re.M)}


def in_manual(root):
    manual = (root / 'docs/COMMAND.md').read_text()
    return re.findall(r'^\| (\d+) \| (\w+) \| (.*) \| (.*) \| (.*) \|$', manual, re.M)


def run(tally, command, root):
    status, output, remarks = command.text('refusals', '--json')
    tally.same('refusals --json', (status, remarks), (0, ''))
    rows = json.loads(output)
    tally.same('keys', {tuple(row) for row in rows}, {('number', 'name', 'words', 'place', 'mender')})
    tally.same('numbers', [row['number'] for row in rows], list(range(1, 34)))
    tally.same('names of their own', len({row['name'] for row in rows}), 33)
    tally.same('docs/COMMAND.md', in_manual(root), [tuple(str(value) for value in row.values()) for row in rows])
    names, words = in_header(root)
    tally.same('names in C', names, {c_name(row['name']): row['number'] for row in rows})
    tally.same('words in C', words, {row['number']: row['words'].replace('`', '') for row in rows if row['number'] != 19})
    sys.path.insert(0, str(root / 'python'))
    from barleychime.refusals import RefusalKind
    tally.same('the table in Python', [(kind.value, kind.name, kind.words, kind.counts, kind.mender) for kind in RefusalKind],
               [(row['number'], c_name(row['name']), row['words'], row['place'], row['mender']) for row in rows])
    status, page, remarks = command.text('refusals')
    tally.same('refusals', (status, remarks, max(map(len, page.splitlines())) <= 80), (0, '', True))
    flat = ' '.join(page.split())
    for row in rows:
        tally.same(f'{row["name"]} on the page', f'{row["number"]} {row["name"]}: {row["words"]} (place: {row["place"]})' in flat, True)
    tally.group('the table of refusals')
