"""Bad input of every kind: a clear error and a status, never a panic, an abort or a wait. A table, and a row for each."""

import os
import resource
import struct
import subprocess
import threading

from command_line import file
from reference import cases
from reference.galley import write

# Every command that reads a galley, a list, a text or marks, with {bad} where it stands.
GALLEYS = ['make {bad}', 'book {bad}', 'forecast {bad}', 'forecast --book {bad}', 'mark {bad} {best}', 'explain {bad} {best}',
           'desk {bad} {best}', 'unpack {bad}', 'report {bad} {best}', 'make --after {best} {bad}', 'make --json {bad}', 'mark --tsv {bad} {best}', 'show --out - {bad} {best}']
LISTS = ['mark {a} {bad}', 'explain {a} {bad}', 'desk {a} {bad}', 'report {a} {bad}', 'make --after {bad} {a}', 'mark --json {a} {bad}']
TEXTS = ['pack {bad}', 'report --marks {bad}']
SHOWN = ['show --out - {a} {bad}']  # which shows a list that is text, whatever it says
MENDER = "the galley's writer can mend it"
FULL_WORDS = 10 * 4_001 * 201 * 51  # of work area


def largest():
    """The galley that asks for the most memory: 1.64 GB."""
    spec = b'GS' + struct.pack('>7I', 0, 100_000, 0, 0, 1, 1, 1)
    figure = struct.pack('>4I', 1, 0, 0, 1)
    return spec + (b'TL' + struct.pack('>4I', 1, 0, 0, 1)) * 4_000 + (b'FG' + figure) * 200 + (b'TB' + figure) * 50 + b'ED'


def ran(command, line, names, limit=None, **options):
    """Status, everything that is printed, and whether it is told calmly; a call has 30 seconds and, if that is asked, so many bytes."""
    before = (lambda: resource.setrlimit(resource.RLIMIT_AS, (limit, limit))) if limit else None
    arguments = [names[word[1:-1]] if word.startswith('{') else word for word in line.split()]
    done = subprocess.run([command.program, *arguments], stdin=subprocess.DEVNULL, capture_output=True, timeout=30, preexec_fn=before, **options)
    remarks = done.stderr.decode(errors='replace')
    printed = remarks + done.stdout.decode(errors='replace')
    calm = 'panicked' not in remarks and all(line.startswith('barleychime: ') for line in remarks.splitlines())
    return done.returncode, printed, calm


def answered(tally, command, what, lines, names, status, told, **options):
    for line in lines:
        got, printed, calm = ran(command, line, names, **options)
        tally.same(f'{what}: {line}: {printed[:200]}', (got, told in printed, calm), (status, True, True))


def contents(folder):
    """A kind of input, where it stands, the status due and a part of what is said."""
    zeros = folder / 'zeros'
    with open(zeros, 'wb') as out:
        out.truncate(5 << 30)
    a = write(cases.A)
    text = b'GS 30 30 0 0 1 1 1\nTL 10 0 0 1\nED\n'
    yield 'garbage', file(folder, 'garbage', bytes(range(256)) * 40), GALLEYS, 1, MENDER
    yield 'garbage', folder / 'garbage', LISTS + TEXTS, 2, 'line '
    yield 'nothing', file(folder, 'nothing', b''), GALLEYS, 1, MENDER
    yield 'a galley cut short', file(folder, 'cut', a[:-1]), GALLEYS, 1, MENDER
    yield 'a galley and more', file(folder, 'more', a + b'?'), GALLEYS, 1, MENDER
    yield 'a text for a galley', file(folder, 'text', text), [line for line in GALLEYS if '--json' not in line], 1, '`barleychime pack`'
    yield 'a galley for a text', file(folder, 'galley', a), LISTS + TEXTS, 2, 'a galley file stands where a text is wanted'
    yield 'a folder', folder, GALLEYS + LISTS + TEXTS + SHOWN, 2, 'Is a directory'
    yield 'nowhere', folder / 'nowhere', GALLEYS + LISTS + TEXTS + SHOWN, 2, 'No such file or directory'
    yield 'a name too long', folder / ('x' * 300), GALLEYS + LISTS + TEXTS + SHOWN, 2, 'File name too long'
    yield 'a file of 5 GB', zeros, GALLEYS, 1, MENDER
    yield 'a file of 5 GB', zeros, LISTS + TEXTS, 2, 'too long for a text'
    yield 'an endless file', '/dev/zero', GALLEYS, 1, MENDER
    yield 'an endless file', '/dev/zero', LISTS + TEXTS, 2, 'too long for a text'
    yield 'UTF-16', file(folder, 'utf-16', '1 1\n3 1\n'.encode('utf-16')), LISTS + TEXTS + SHOWN, 2, 'line 1: not text in UTF-8'
    yield 'a number of 33 bits', file(folder, 'wide', b'1 4294967296\n'), LISTS, 2, 'line 1: field 2: `4294967296` is no whole number of 32 bits'
    yield 'a number of 33 bits', file(folder, 'wide.txt', b'GS 30 4294967296 0 0 1 1 1\n'), ['pack {bad}'], 2, 'the greatest is 4294967295'
    yield 'a number of 33 bits', file(folder, 'wide.marks', b'1 0 0 0 8589934591\n'), ['report --marks {bad}'], 2, 'line 1: field 5'
    yield 'a line of 20 MB', file(folder, 'long', b'1 ' * 10_000_000), LISTS, 2, 'too long for a text'
    yield 'many numbers', file(folder, 'many', b'1 ' * 1_000_000), LISTS, 2, 'line 1: 1000000 numbers'


def accepted(folder):
    """What looks odd and is good."""
    yield 'CRLF', file(folder, 'crlf', b'2 0 1 1 0\r\n1 1 1\r\n2 3 1\r\n'), LISTS[:2]
    yield 'a mark of byte order', file(folder, 'bom', b'\xef\xbb\xbf1 1\n3 1\n'), LISTS[:2]
    yield 'CRLF and a mark of byte order', file(folder, 'both', b'\xef\xbb\xbflines,figures\r\n1,1\r\n3,1\r\n'), LISTS[:2]
    yield 'CRLF', file(folder, 'crlf.txt', b'\xef\xbb\xbfGS 30 30 0 0 1 1 1\r\nTL 10 0 0 1\r\nED\r\n'), ['pack {bad}']
    yield 'CRLF', file(folder, 'crlf.marks', b'\xef\xbb\xbf1 0 0 1 1\r\n'), ['report --marks {bad}']


def pipes(tally, command, folder, names):
    """Named pipes are read to their end, whoever writes them."""
    pipe = folder / 'pipe'
    os.mkfifo(pipe)
    for what, data, line, status in [('a galley', write(cases.A), 'make {bad}', 0), ('a list', b'1 1\n3 1\n', 'mark {a} {bad}', 0),
                                     ('nothing', b'', 'make {bad}', 1), ('an empty list', b'', 'mark {a} {bad}', 1), ('junk', b'?', 'mark {a} {bad}', 2)]:
        writer = threading.Thread(target=pipe.write_bytes, args=(data,))
        writer.start()
        got, _, calm = ran(command, line, {**names, 'bad': pipe})
        writer.join()
        tally.same(f'{what} through a pipe', (got, calm), (status, True))


def memory(tally, command, folder, names):
    """Memory that cannot be had is an error, which says how much is needed."""
    full = file(folder, 'full.galley', largest())
    tally.same('words of the largest', f'work area: {FULL_WORDS} words' in command.text('forecast', full)[1], True)
    file(folder, 'full.list', b'4000 200 50\n')
    for line in ['make {bad}', 'make --json {bad}', 'make --advise {bad}', 'book {bad}', 'report {bad} {list}', 'explain {bad} {list}', 'explain --json {bad} {list}']:
        got, printed, calm = ran(command, line, {**names, 'bad': full, 'list': folder / 'full.list'}, limit=500_000 * 1_024)
        told = 'making needs 1641 MB of memory, and there is not so much' in printed or 'book' in line and '3282 MB' in printed
        tally.same(f'{line} without memory: {printed[:200]}', (got, told, calm), (2, True, True))
    for line in ['mark {bad} {list}', 'forecast {bad}', 'unpack {bad}']:
        got, _, calm = ran(command, line, {**names, 'bad': full, 'list': folder / 'full.list'}, limit=500_000 * 1_024)
        tally.same(f'{line} needs none', (got, calm), (0, True))


def run(tally, command, folder):
    folder = folder / 'bad input'
    folder.mkdir()
    names = {'a': file(folder, 'a.galley', write(cases.A)), 'best': file(folder, 'best.list', b'1 1\n3 1\n')}
    for what, bad, lines, status, told in contents(folder):
        answered(tally, command, what, lines, {**names, 'bad': bad}, status, told)
    for what, good, lines in accepted(folder):
        answered(tally, command, what, lines, {**names, 'bad': good}, 0, '')
    pipes(tally, command, folder, names)
    memory(tally, command, folder, names)
    tally.group('command: bad input of every kind')
