"""What programs read: --json, held to the schemas in docs/schemas and to what people read; --tsv; the examples of the manual."""

import json
import os
import re
import subprocess

from command_line import file
from reference import cases
from reference.galley import write
from schema import Schemas

OUTCOMES = {'success': 0, 'refused': 1, 'failed': 2}


def inputs(folder, root):
    """Files by a short name."""
    names = {'a': write(cases.A), 'k': write(cases.K), 'cut': write(cases.A)[:-1], 'none': write(cases.A).replace(b'FG\0\0\0\x14', b'FG\0\0\0\xff')}
    lists = {'best': b'1 1\n3 1\n', 'longer': b'3 0\n3 1\n', 'high': b'2 1\n3 1\n', 'back': b'2 1\n1 1\n3 1\n', 'junk': b'?', 'empty': b'',
             'head': b'2 0 1 7 0\n1 1 1\n2 3 1\n', 'tabled': b'2 1 0\n3 1 1\n', 'marks': b'2 0 1 1 1\n2 1 1 2 1\n', 'low': b'2 0 1 0 1\n'}
    found = {name: str(file(folder, f'{name}.galley', data)) for name, data in names.items()}
    found |= {name: str(file(folder, f'{name}.list', data)) for name, data in lists.items()}
    real = {path.stem: str(path) for path in (root / 'samples/real').glob('*.galley')}
    return found | real | {'nowhere': str(folder / 'nowhere')}


CALLS = [
    'make {a}', 'make {k}', 'make {cut}', 'make {none}', 'make --advise {none}', 'make --after {high} {a}', 'make --after {best} {a}', 'make {nowhere}',
    'make --after {junk} {a}', 'make {gretl-p441}', 'make {memman-p211-tables}',
    'mark {a} {best}', 'mark {a} {best} {longer} {high} {back} {junk} {empty} {head} {nowhere}', 'mark {k} {tabled}', 'mark {cut} {best}', 'mark {nowhere} {best}',
    'explain {a} {best} {longer} {high} {back} {junk} {empty}', 'explain {k} {tabled}', 'explain {cut} {best}', 'explain {none} {high}', 'explain {nowhere} {best}',
    'book {a} {a}', 'book {gretl-p046} {gretl-p441}', 'book {a} {k} {cut}', 'book {none} {a}', 'book {nowhere}',
    'forecast {a}', 'forecast {a} {k} {cut} {nowhere}', 'forecast {cut}', 'forecast {nowhere}', 'forecast --book {a} {a}', 'forecast --book {a} {k}',
    'forecast --book {nowhere}', 'report {a} {best} {longer} {high} {junk} {nowhere}', 'report {a} {best}', 'report {none} {best}', 'report {cut} {best}', 'report --marks {marks}',
    'report --marks {low}', 'report --marks {junk}', 'fold', 'fold 8', 'fold 5', 'refusals',
]


def told(command, names, line, *more):
    arguments = [names[word[1:-1]] if word.startswith('{') else word for word in line.split()]
    return command.text(*arguments, *more)


def in_words(value):
    """`p X Y T W` or `R number place`."""
    if value['refusal']:
        return 'R {number} {place}'.format(**value['refusal'])
    return '{pages} {x} {y} {turns} {white}'.format(**value['measure']) if value['measure'] else '?'


def rows_of(pages):
    return [[page['page'], page['lines'], page['figures'], page['tables']] for page in pages]


def numbers(line, tables):
    found = [int(word) for word in line.split()]
    return found if tables else [*found, 0]


def as_people_read(tally, what, value, text):
    """The same answers as without --json."""
    lines = text.splitlines()
    match value['command']:
        case 'make':
            tally.same(f'{what}: the answer', in_words(value), lines[0])
            tally.same(f'{what}: pages', rows_of(value['pages']), [numbers(line, len(line.split()) == 4) for line in lines[1:]])
        case 'mark':
            due = [line.rsplit(None, 1)[0] if len(value['lists']) > 1 else line for line in lines]
            tally.same(f'{what}: rows', [in_words(row) for row in value['lists']] or [in_words(value | {'measure': None})], due)
        case 'book':
            pages = [row for chapter in value['chapters'] for row in [[chapter['folio'], len(chapter['pages'])], *rows_of(chapter['pages'])]]
            tally.same(f'{what}: the answer', in_words(value), lines[0])
            tally.same(f'{what}: pages', len(pages), len(lines) - 1)
        case 'report' if value['report']:
            due = [int(line.split()[-1]) for line in lines[:8]]
            tally.same(f'{what}: sums', list(value['report'].values()), due)
        case 'explain':
            tally.same(f'{what}: answers', sum(row['status'] == 'accepted' for row in value['lists']), text.count('\naccepted: '))
        case 'forecast':
            told = [row['forecast'] for row in value['galleys'] if row['forecast']] + [value['book']] * bool(value['book'])
            due = [int(line.split()[2]) for line in lines if line.startswith('work area: ')]
            tally.same(f'{what}: words of work area', [one['work'] for one in told], due)
        case 'fold':
            sheets = [[*sheet['front'], *sheet['back']] for section in value['sections'] for sheet in section['sheets']]
            due = [[int(word) for word in line.split()] for line in lines if line and line[0] != 'R']
            tally.same(f'{what}: sheets', sheets, due)


def objects(tally, command, names, schemas):
    met = set()
    for line in CALLS:
        status, output, remarks = told(command, names, line, '--json')
        name, value = line.split()[0], json.loads(output)
        tally.same(f'{line} --json: schema', schemas.faults(name, value), [])
        tally.same(f'{line} --json: one line', output.count('\n'), 1)
        due, text, _ = told(command, names, line)
        tally.same(f'{line} --json: status', status, due)
        if name == 'refusals':
            continue
        tally.same(f'{line} --json: outcome', (value['command'], OUTCOMES[value['outcome']]), (name, status))
        tally.same(f'{line} --json: remarks', remarks, f'barleychime: {value["error"]}\n' if 'error' in value else '')
        met.add((name, value['outcome']))
        if 'error' not in value:
            as_people_read(tally, f'{line} --json', value, text)
    tally.same('every outcome of every command', len(met) >= 3 * 7 - 1, True)  # fold does not fail
    wrong = json.loads(told(command, names, 'make {a}', '--json')[1])
    for key in list(wrong):
        tally.same(f'without {key}', bool(schemas.faults('make', {k: v for k, v in wrong.items() if k != key})), True)
    tally.same('with a key too many', bool(schemas.faults('make', wrong | {'more': 1})), True)
    tally.same('with a number below 0', bool(schemas.faults('make', wrong | {'weighed': -1})), True)
    tally.group('command: JSON')


def tabs(tally, command, names):
    """Rows have as many columns as there are names of columns, and say what the objects say."""
    for line in CALLS:
        name = line.split()[0]
        if name in ('explain', 'refusals') or '--marks' in line or '--book' in line:
            continue
        status, output, _ = told(command, names, line, '--tsv')
        tally.same(f'{line} --tsv: status', status, told(command, names, line)[0])
        table = [row.split('\t') for row in output.splitlines()]
        tally.same(f'{line} --tsv: columns', len({len(row) for row in table}) <= 1, True)
        if name in ('mark', 'report') and table:
            rows = json.loads(told(command, names, line, '--json')[1])['lists']
            due = [[row['list'], row['status'], str(row['measure']['turns']) if row['measure'] else ''] for row in rows]
            tally.same(f'{line} --tsv: rows', [[row[0], row[1], row[table[0].index('turns')]] for row in table[1:]], due)
        if name == 'make' and table:
            pages = rows_of(json.loads(told(command, names, line, '--json')[1])['pages'])
            tally.same(f'{line} --tsv: pages', [list(map(int, row)) for row in table[1:]], pages)
    tally.group('command: rows with tabs')


def documented(tally, command, root, folder, schemas):
    """Every object in the manual is what the call before it prints."""
    manual = (root / 'docs/COMMAND.md').read_text()
    examples = re.findall(r'^ {4}(barleychime \w+ [^\n]*--json[^\n]*)\n\n```json\n(.*?)^```$', manual, re.M | re.S)
    path = f'{command.program.parent}{os.pathsep}{os.environ["PATH"]}'
    work = folder / 'manual'
    work.mkdir()
    file(work, 'a.galley', write(cases.A))
    os.symlink(root / 'samples', work / 'samples')
    for line, printed in examples:
        done = subprocess.run(line, shell=True, cwd=work, capture_output=True, env={**os.environ, 'PATH': path})
        value = json.loads(printed)
        tally.same(f'{line} in the manual', json.loads(done.stdout), value)
        tally.same(f'{line} in the manual: schema', schemas.faults(line.split()[1], value), [])
    tally.same('an example of each', {line.split()[1] for line, _ in examples}, {name.removesuffix('.json') for name in schemas.files} - {'common', 'refusals'})
    tally.group('command: JSON in the manual')


def run(tally, command, root, folder):
    folder = folder / 'programs'
    folder.mkdir()
    names, schemas = inputs(folder, root), Schemas(root / 'docs/schemas')
    objects(tally, command, names, schemas)
    tabs(tally, command, names)
    documented(tally, command, root, folder, schemas)
