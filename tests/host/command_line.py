"""The command end to end: options, names, standard input, statuses, bad files, lists with junk."""

import subprocess

from junk import JUNK, JUNK_TABLED
from reference import cases, marking, refusals
from reference.galley import Figure, Galley, Line, Spec, Table, write

COMMANDS = {'make': 1, 'book': 1, 'forecast': 1, 'mark': 2, 'explain': 2, 'desk': 2, 'pack': 1, 'unpack': 1, 'report': 2}


def file(folder, name, data):
    path = folder / name
    path.write_bytes(data)
    return path


def usage(tally, command):
    for arguments in [(), ('mend',), ('--mend',), ('make', '--mend'), ('make',), ('make', 'a', 'b'), ('make', 'a', '--verbose'),
                      ('make', '--after'), ('make', '--after', 'a'), ('make', '--after', '-', '-'), ('make', '--after', 'a', '--after', 'b', 'c'),
                      ('make', 'a', '--after', 'b'), ('mark', '--after', 'a', 'b', 'c'), ('forecast',), ('forecast', '--lines'),
                      ('forecast', '--verbose', 'a'), ('forecast', '--book'), ('forecast', '--book', '--lines', 'a'), ('forecast', '--lines', '--book', 'a'),
                      ('book',), ('book', '--lines', 'a'), ('book', '-', '-'), ('forecast', '-', '-'), ('mark', '--verbose', 'a', 'b'), ('mark', 'a'),
                      ('explain', 'a'), ('explain', 'a', 'b', 'c'), ('desk', 'a'), ('desk', 'a', 'b', 'c'), ('desk', '-', 'b'),
                      ('desk', 'a', '-'), ('pack',), ('unpack', 'a', 'b'), ('mark', '-', '-'), ('explain', '-', '-'), ('make', '')]:
        status, output, remarks = command.text(*arguments)
        tally.same(f'{arguments}', (status, output, remarks.count('\n')), (2, '', 1))
    status, output, remarks = command.text('--version')
    tally.same('--version', (status, output.split()[0], remarks), (0, 'barleychime', ''))
    tally.group('command: usage')


def bad_files(tally, command, folder):
    galley = file(folder, 'a.galley', write(cases.A))
    for name, count in COMMANDS.items():
        for bad in (folder / 'nowhere', folder):
            for at in range(count):
                arguments = [galley] * count
                arguments[at] = bad
                status, output, remarks = command.text(name, *arguments)
                due = {('mark', 1): '?\n', ('report', 1): output}.get((name, at), '')
                tally.same(f'{name} with {bad} at {at}', (status, output, str(bad) in remarks), (2, due, True))
    empty, best = file(folder, 'empty', b''), file(folder, 'best.list', b'1 1\n3 1\n')
    for arguments, due in [(('make', empty), 'R 1 0\n'), (('mark', empty, best), 'R 1 0\n'), (('unpack', empty), ''),
                           (('pack', empty), ''), (('mark', galley, empty), 'R 12 0\n'), (('make', '/dev/zero'), 'R 2 0\n')]:
        status, output, remarks = command.text(*arguments)
        tally.same(f'{arguments}', (status, output, remarks.count('\n')), (1, due, 1))
    for name, data, number, place in refusals.files():
        due = f'R {number} {place}'
        bad = file(folder, 'bad.galley', data)
        for arguments in [('make', bad), ('mark', bad, best)]:
            status, output, remarks = command.text(*arguments)
            told = f'{bad}: {due}: ' in remarks and "the galley's writer can mend it" in remarks
            tally.same(f'{arguments[0]} {name}', (status, output, told), (1, f'{due}\n', True))
        status, output, _ = command.text('explain', bad, best)
        tally.same(f'explain {name}', (status, output.startswith(f'refused, {due}: ')), (1, True))
    tally.group('command: bad files')


def lists(tally, command, folder):
    galley, best = file(folder, 'a.galley', write(cases.A)), file(folder, 'best.list', b'1 1\n3 1\n')
    tabled = file(folder, 'k.galley', write(cases.K))
    for name, data, told, galley in [*((*each, galley) for each in JUNK), *((*each, tabled) for each in JUNK_TABLED)]:
        junk = file(folder, 'junk.list', data)
        for arguments in [('mark', galley, junk), ('explain', galley, junk)]:
            status, output, remarks = command.text(*arguments)
            row = '?\n' if arguments[0] == 'mark' else ''
            plain = all(character.isprintable() or character == '\n' for character in remarks) and len(remarks) < 500
            tally.same(f'{arguments[0]} with {name}', (status, output, f'{junk}: ' in remarks and told in remarks, plain),
                       (2, row, True, True))
    galley = file(folder, 'a.galley', write(cases.A))
    for name, data in [('comments', b'# mine\n\n 1\t1 # page 1\n3 1'), ('carriage returns', b'1 1\r\n3 1\r\n'),
                       ('a mark of byte order', b'\xef\xbb\xbf1 1\n3 1\n'),
                       ('as made', b'2 0 1 1 0\n1 1 1\n2 3 1\n'),
                       ('as made before white space was measured', b'2 0 1 1\n1 1 1\n2 3 1\n'),
                       ('page numbers', b'1 1 1\n2 3 1\n'), ('commas', b'1,1\r\n3,1\r\n'), ('semicolons and quotes', b'"1";"1"\n"3";"1"\n'),
                       ('named columns', b'page,lines,figures\n1,1,1\n2,3,1\n'), ('named columns in another order', b'j\ti\n1\t1\n1\t3\n')]:
        tally.same(f'mark with {name}', command.text('mark', galley, file(folder, 'list', data)), (0, '2 0 1 1 0\n', ''))
    for said, told in [('2 9 1 1 0', 'X 9, but the marking counts 0'), ('2 0 1 7', 'T 7, but the marking counts 1'),
                       ('2 0 1 1 5', 'W 5, but the marking counts 0')]:
        head = file(folder, 'list', f'# mine\n{said}\n1 1 1\n2 3 1\n'.encode())
        tally.same(f'a head line of {said}', command.text('mark', galley, head),
                   (0, '2 0 1 1 0\n', f'barleychime: {head}: line 2: the head line says {told}\n'))
    for name, data in [('a table', b'2 1 0\n3 1 1\n'), ('a table, as made', b'2 1 1 2 0\n1 2 1 0\n2 3 1 1\n'),
                       ('a table, as made before white space was measured', b'2 1 1 2\n1 2 1 0\n2 3 1 1\n'),
                       ('a table, and page numbers', b'1 2 1 0\n2 3 1 1\n'), ('a table, and commas', b'i,j,d\n2,1,0\n3,1,1\n')]:
        tally.same(f'mark with {name}', command.text('mark', tabled, file(folder, 'list', data)), (0, '2 1 1 2 0\n', ''))
    # A galley that is refused says so, whatever its lists have a page.
    cut = file(folder, 'cut.galley', write(cases.K)[:-1])
    for data in (b'2 1\n3 1\n', b'2 1 0\n3 1 1\n', b'2 1 1 2 0\n1 2 1 0\n2 3 1 1\n'):
        status, output, _ = command.text('mark', cut, file(folder, 'list', data))
        tally.same(f'mark with {data} for a galley cut short', (status, output), (1, f'R 1 {len(write(cases.K)) - 2}\n'))
    several(tally, command, folder, galley, best)
    tally.group('command: lists')


def several(tally, command, folder, galley, best):
    longer, high = file(folder, 'longer', b'3 0\n3 1\n'), file(folder, 'high', b'2 1\n3 1\n')
    junk = file(folder, 'junk', b'?')
    tally.same('two lists', command.text('mark', galley, best, longer), (0, f'2 0 1 1 0 {best}\n2 1 1 2 0 {longer}\n', ''))
    status, output, remarks = command.text('mark', galley, high, best)
    tally.same('one of two refused', (status, output), (1, f'R 15 1 {high}\n2 0 1 1 0 {best}\n'))
    tally.same('why', (str(high) in remarks, 'whoever handed in the list can mend it' in remarks), (True, True))
    status, output, _ = command.text('mark', galley, junk, high, folder / 'nowhere', best)
    tally.same('junk does not stop the rest', (status, output), (2, f'? {junk}\nR 15 1 {high}\n? {folder / "nowhere"}\n2 0 1 1 0 {best}\n'))
    cut = file(folder, 'cut.galley', b'GS 30 30 0 0 1 1 1\n')
    status, output, remarks = command.text('mark', cut, best, longer, junk)
    tally.same('a refused galley is told once', (status, output, remarks.count('\n'), '`barleychime pack`' in remarks), (1, 'R 1 0\n', 2, True))


def making(tally, command, folder):
    for name, galley, best, measure in cases.MADE:
        data = write(galley)
        lines = [measure, *((q, *end) for q, end in enumerate(marking.places(galley, best), 1))] if best else [('R', 11, 0)]
        due = ''.join(' '.join(map(str, line)) + '\n' for line in lines)
        status, output, _ = command.text('make', '-', given=data)
        tally.same(f'make {name}', (status, output), (0 if best else 1, due))
        if best:
            path = file(folder, 'made.galley', data)
            tally.same(f'mark what was made of {name}', command.text('mark', path, '-', given=due.encode()),
                       (0, ' '.join(map(str, measure)) + '\n', ''))
    dashed = file(folder, '-a', write(cases.A))
    done = subprocess.run([command.program, 'make', '--', dashed.name], cwd=folder, capture_output=True, check=False)
    tally.same('a name with a dash', (done.returncode, done.stdout), (0, b'2 0 1 1 0\n1 1 1\n2 3 1\n'))
    tally.group('command: making')


def full_size(tally, command, folder):
    """A galley of full size, one with tables, and what may come after the last figure or table: no more than one byte past the
    length of the longest galley is read."""
    spec = Spec(50_000, 55_000, 1_600, 2_200, 2, 1, 1, 20_000)
    lines = tuple(Line(1_200, 0, 20 + 600 * (k % 5 == 0), int(k % 5 > 1)) for k in range(1, 4_001))
    figures = tuple(Figure(9_000 + 1_000 * (k % 13), 1_000, 1_400, 20 * k) for k in range(1, 201))
    tables = tuple(Table(12_000 + 500 * (k % 7), 1_000, 1_400, 80 * k) for k in range(1, 51))
    largest = Galley(spec, (lines, figures), 9_999)
    for what, galley in (('without tables', largest), ('with tables', Galley(spec, (lines, figures[::8], tables[::5]), 38))):
        path = file(folder, 'large.galley', write(galley))
        status, output, remarks = command.text('make', path)
        measure, *pages = [tuple(map(int, line.split())) for line in output.splitlines()]
        words = tuple(word for page in pages for word in page[1:])
        tally.same(f'made {what}', (status, remarks, marking.mark(galley, words)), (0, '', ('accepted', *measure)))
        tally.same(f'marked {what}', command.text('mark', path, '-', given=output.encode()), (0, output.split('\n')[0] + '\n', ''))
        status, text, _ = command.text('explain', path, '-', given=output.encode())
        tally.same(f'explained {what}', (status, text.endswith('no list has fewer turns, and none with as many has less white space\n')), (0, True))
    figured, longest = write(largest)[:-2], write(Galley(spec, (lines, figures, tables), 9_999))[:-2]
    line, figure, table = longest[40:58], figured[-18:], longest[-18:]
    for opened, at, others in [(figured, 75_640, [('figure 201', figure, 'R 4 75640'), ('half of it', b'FG\0', 'R 4 75640')]),
                               (longest, 76_540, [('table 51', table, 'R 4 76540'), ('half of it', b'TB\0', 'R 4 76540'),
                                                  ('a figure', figure, 'R 2 76540')])]:
        for name, after, due in [('no end', b'', f'R 1 {at}'), ('half a mark', b'E', f'R 1 {at}'),
                                 ('a byte', b'ED?', f'R 8 {at + 2}'), ('many bytes', b'ED' + bytes(100_000), f'R 8 {at + 2}'),
                                 ('an unknown mark', b'??', f'R 2 {at}'), ('a line', line, f'R 2 {at}'), *others]:
            status, output, _ = command.text('make', '-', given=opened + after)
            tally.same(f'{at} bytes and then {name}', (status, output), (1, due + '\n'))
    tally.group('command: full size')


def outputs(tally, command, folder):
    """An output that is full is an error; one that is closed needs no remark."""
    galley = file(folder, 'a.galley', write(cases.A))
    with open('/dev/full', 'wb') as full:
        done = subprocess.run([command.program, 'make', galley], stdout=full, stderr=subprocess.PIPE, check=False)
    tally.same('a full output', (done.returncode, b'standard output' in done.stderr), (2, True))
    with open('/dev/full', 'wb') as full:
        done = subprocess.run([command.program, 'make', folder / 'nowhere'], stderr=full, check=False)
    tally.same('nowhere to complain', done.returncode, 2)
    text = file(folder, 'a.txt', b'GS 30 30 0 0 1 1 1\nTL 10 0 0 1\nED\n')
    for name in ('make', 'unpack'):
        status, _, remarks = command.text(name, text)
        tally.same(f'{name} with a text', (status, '`barleychime pack`' in remarks), (1, True))
    tally.group('command: outputs')


def run(tally, command, root, folder):
    usage(tally, command)
    for group in (bad_files, lists, making, full_size, outputs):
        group(tally, command, folder)
