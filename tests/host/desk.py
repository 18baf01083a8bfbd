"""Page ends tried at the desk through the command: by scripts, all at once and call by call, and by a person at a terminal; what
is answered, against the reference."""

import os
import pty
import random
import re
import select
import subprocess
from dataclasses import replace
from itertools import product

from command_line import file
from reference import cases, desk, marking, refusals, sample, search
from reference.galley import Table, write

# Lines that are no calls, for a galley without tables, and a part of the remark.
NO_CALLS = [('mend', '`mend` is no call'), ('ask', 'three numbers are wanted (ask PAGE I J), not 0'), ('ask 1 2', 'not 2'),
            ('ask 1 2 3 4', 'not 4'), ('ask one 2 3', 'field 1: `one`'), ('ask 1 -2 3', 'field 2: `-2`'),
            ('ends', 'one number is wanted (ends PAGE), not 0'), ('ends 1 2', 'not 2'), ('ends x', 'field 1: `x`'), ('write', 'a file is wanted (write FILE)'),
            ('undo 2', '`2` stands after `undo`'), ('undo', 'nothing is left to be taken back'), ('write /nowhere/x', '/nowhere/x cannot be written: '),
            ('ask 1 2 4294967296', 'field 3: `4294967296`'), ('commit 1', '`1` stands after `commit`'), ('list all', '`all` stands'),
            ('quit now', '`now` stands after `quit`'), ('layouts all', '`all` stands'), ('save \x1b[2J', '`?[2J` has characters'), ('ASK 1 2 3', '`ASK` is no call'), ('ask 1 2 \x1b[2J', 'field 3: `?[2J`')]
NAMED = {'save': desk.saved, 'back': desk.come_back, 'drop': desk.dropped}
# More than a desk holds, the longest of 16 bytes; and lengths that no name has.
NAMES = ['a', 'b', 'ab', 'a b', 'first try', '#1', 'quit', 'a' * 15, 'a' * 16, 'ä' * 8, 'second try']
BAD_NAMES = ['', 'a' * 17, 'ä' * 9, 'a' * 3_000]


def printed(answer, before):
    """What is printed for an answer; `before` is the T that the change is against."""
    if answer[0] == 'refused':
        return f'R {answer[1]} {answer[2]}'
    return ' '.join(map(str, answer[1:])) + f' {answer[4] - before:+}'


def listed(answer, force):
    lines = [answer[1:], *((page, *end) for page, end in enumerate(force, 1))]
    return ''.join(' '.join(map(str, line)) + '\n' for line in lines)


class Script:
    """Calls to a desk of the reference, their lines, the output that is due and whether any call was refused or none."""

    def __init__(self, galley, words):
        self.read, self.calls, self.numbers, self.junk = ('galley', galley), [], [], False
        self.marked, self.desk = desk.marked(self.read, words), desk.Desk(tuple(marking.places(galley, words)))
        self.before = []  # the desks before each call that changed something, and their marks
        self.output = ' '.join(map(str, self.marked[1:])) + '\n'

    def told(self, line, answer=None, text=None):
        self.calls.append(line)
        self.output += text if answer is None else printed(answer, self.marked[4]) + '\n'
        if answer and answer[0] == 'refused':
            self.numbers.append(answer[1])

    def ask(self, page, end):
        answer, self.desk = desk.asked(self.desk, self.read, page, end)
        self.told(' '.join(map(str, ('ask', page, *end))), answer)

    def commit(self):
        self.done('commit', *desk.committed(self.desk))

    def named(self, call, name):
        self.done(f'{call} {name}', *NAMED[call](self.desk, name.encode()))

    def done(self, line, answer, after):
        """A call is answered by what the list in force comes to afterwards."""
        self.before += [(self.desk, self.marked)] if answer == desk.DONE else []
        self.desk = after
        self.told(line, self.measured(after.force) if answer == desk.DONE else answer)
        self.marked = self.measured(after.force)

    def undo(self):
        if not self.before:
            return self.no_call('undo')
        self.desk, marked = self.before.pop()
        self.told('undo', marked)
        self.marked = marked

    def ends(self, page):
        """Every end of a page that an ask accepts, each asked."""
        if not 1 <= page < len(self.desk.force):
            return self.told(f'ends {page}', ('refused', 23, page))
        places = product(*(range(size + 1) for size in self.read[1].sizes))
        asked = [(end, desk.asked(self.desk, self.read, page, end)[0]) for end in places]
        rows = [f'{" ".join(map(str, end))}: {printed(answer, self.marked[4])}\n' for end, answer in asked if answer[0] == 'accepted']
        self.told(f'ends {page}', text=''.join([f'{len(rows)}\n', *rows]))

    def write(self, path):
        self.told(f'write {path}', text=printed(self.marked, self.marked[4]) + '\n')
        return listed(self.marked, self.desk.force)

    def measured(self, pages):
        return desk.marked(self.read, [word for end in pages for word in end])

    def list(self):
        self.told('list', text=listed(self.marked, self.desk.force))

    def layouts(self):
        held = [f'{printed(self.measured(pages), self.marked[4])} {name.decode()}\n' for name, pages in filter(None, self.desk.layouts)]
        self.told('layouts', text=''.join([f'{len(held)}\n', *held]))

    def no_call(self, line):
        self.junk = True
        self.told(line, text='?\n')

    def end(self, rng):
        """A page, mostly one that can be asked about, and an end between its neighbours."""
        galley, force = self.read[1], self.desk.force
        page = rng.randint(1, max(1, len(force) - 1)) if rng.random() < 0.8 else rng.randint(0, len(force) + 1)
        if not 1 <= page < len(force):
            return page, galley.sizes
        before, after = (galley.nothing, *force)[page - 1], force[page]
        return page, tuple(map(rng.randint, before, after))

    def drawn(self, rng, calls):
        """Calls of every kind, with comments and empty lines between them."""
        for _ in range(calls):
            chance = rng.random()
            if chance < 0.4:
                self.ask(*self.end(rng))
            elif chance < 0.55:
                self.commit()
            elif chance < 0.8:
                self.named(rng.choice(('save', 'save', 'save', 'save', 'back', 'drop')),
                           rng.choice(NAMES if rng.random() < 0.9 else BAD_NAMES))
            elif chance < 0.83:
                self.layouts()
            elif chance < 0.86:
                self.list()
            elif chance < 0.89:
                self.undo()
            elif chance < 0.9:
                self.ends(rng.randint(0, len(self.desk.force) + 1))
            elif chance < 0.93:
                self.no_call(rng.choice(('ask 1', 'commits', 'ask 1 x 0 0', '?')))
            else:
                self.calls.append(rng.choice(('', '  \t', '# ask 1 1 1', '#')))
        return self

    @property
    def status(self):
        return 2 if self.junk else 1 if self.numbers else 0


def scripts(tally, command, folder):
    """Random galleys and calls, piped in at once, with and without the last newline and with other ends of lines."""
    rng, met = random.Random(150), set()
    for galley in [*sample.galleys(150, 90, 8, 4), *sample.galleys(151, 60, 5, 3, 3)]:
        best = search.best_by_table(galley)
        if not best:
            continue
        script = Script(galley, best).drawn(rng, 80)
        path = file(folder, 'desk.galley', write(galley))
        listing = file(folder, 'desk.list', listed(script.marked, marking.places(galley, best)).encode())
        end = rng.choice(('\n', '\r\n', ' \n'))
        given = end.join(script.calls) + rng.choice(('', end, f'{end}quit\nask\n'))
        status, output, remarks = command.text('desk', path, listing, given=given.encode())
        tally.same(f'calls on {galley}', (status, output), (script.status, script.output))
        tally.same('a remark for each refusal', [int(n) for n in re.findall(r': R (\d+) ', remarks)], script.numbers)
        met.update(script.numbers)
    tally.same('every refusal at the desk', met >= {13, 14, 15, 16, 17, *range(23, 28)}, True)
    tally.group('command: calls at the desk')


def openings(tally, command, folder):
    """What a desk does not open on, and that nothing is read or answered then."""
    galley, best = file(folder, 'a.galley', write(cases.A)), file(folder, 'best.list', b'1 1\n3 1\n')
    for name, data, number, place in refusals.files():
        bad, due = file(folder, 'bad.galley', data), f'R {number} {place}'
        status, output, remarks = command.text('desk', bad, best, given=b'ask 1 1 1\n')
        tally.same(f'desk on {name}', (status, output, f'{bad}: {due}: ' in remarks), (1, f'{due}\n', True))
    high = file(folder, 'high.list', b'2 1\n3 1\n')
    status, output, remarks = command.text('desk', galley, high, given=b'list\n')
    told = [f'barleychime: {high}: R 22 0: ' in remarks, f'barleychime: {high}: R 15 1: page 1: ' in remarks, remarks.endswith(' (40 is above htMax 30 by 10)\n')]
    tally.same('desk on a refused list', (status, output, told), (1, 'R 22 0\n', [True, True, True]))
    for pages, due in ((64, (0, '64 0 63 63000 63\n', 0)), (65, (0, '65 0 64 64000 64\n', 1))):
        lines = cases.plain(cases.LONGEST.spec, pages * (0,), [])
        path = file(folder, 'long.galley', write(lines))
        listing = file(folder, 'long.list', ''.join(f'{page} 0\n' for page in range(1, pages + 1)).encode())
        status, output, remarks = command.text('desk', path, listing)
        tally.same(f'desk on {pages} pages', (status, output, remarks.count('\n')), due)
    junk = file(folder, 'junk.list', b'1 1\nthree 1\n')
    status, output, remarks = command.text('desk', galley, junk)
    tally.same('desk on a list that is none', (status, output, 'line 2: field 1' in remarks), (2, '', True))
    tally.group('command: desks that do not open')


def lines(tally, command, folder):
    """Lines that are no calls are answered and do not end it; a line without end does."""
    galley, best = file(folder, 'a.galley', write(cases.A)), file(folder, 'best.list', b'1 1\n3 1\n')
    tabled, listing = file(folder, 'k.galley', write(cases.K)), file(folder, 'k.list', b'2 1 0\n3 1 1\n')
    for line, told in NO_CALLS:
        status, output, remarks = command.text('desk', galley, best, given=f'# mine\n{line}\nask 1 3 0\n'.encode())
        plain = all(character.isprintable() or character == '\n' for character in remarks)
        tally.same(f'{line!r}', (status, output, 'line 2: ' in remarks and told in remarks, plain),
                   (2, '2 0 1 1 0\n?\n2 1 1 2 0 +1\n', True, True))
    status, output, remarks = command.text('desk', tabled, listing, given=b'ask 1 2 1\nask 1 2 1 1\nask 1 3 0 0\n')
    told = 'four numbers are wanted (ask PAGE I J D), since the galley has tables, not 3' in remarks
    tally.same('three numbers with tables', (status, output.split('\n')[1], told), (2, '?', True))
    status, output, remarks = command.text('desk', galley, best, given=b'\xff\xfe\nask 1 3 0\n')
    tally.same('a line that is no text', (status, output, 'line 1: not text' in remarks), (2, '2 0 1 1 0\n?\n2 1 1 2 0 +1\n', True))
    status, output, remarks = command.text('desk', galley, best, given=b'#' * 100_000 + b'\nask 1 3 0\n')
    tally.same('a line without end', (status, output, 'line 1: too long' in remarks), (2, '2 0 1 1 0\n', True))
    status, output, remarks = command.text('desk', galley, best, given=b'ask 1 2 1\nask 1 0 0\n')
    tally.same('refused asks in numbers', (status, re.findall(r'\((.*)\)$', remarks, re.M)),
               (1, ['40 is above htMax 30 by 10', 'it ends where it starts, after 0 lines and 0 figures']))
    tally.same('no calls', command.text('desk', galley, best), (0, '2 0 1 1 0\n', ''))
    tally.same('quit', command.text('desk', galley, best, given=b'quit\nmend\n'), (0, '2 0 1 1 0\n', ''))
    status, output, remarks = command.text('desk', galley, best, given=b'help\n')
    tally.same('help', (status, [line.split()[0] for line in output.splitlines()[1:] if line[0] != ' '], remarks),
               (0, ['ask', 'commit', 'ends', 'list', 'write', 'save', 'back', 'drop', 'layouts', 'undo', 'quit'], ''))
    shell = f'yes ask 1 3 0 | {command.program} desk {galley} {best} | head -n 2'
    done = subprocess.run(shell, shell=True, capture_output=True, check=False)
    tally.same('a closed output', (done.stdout, done.stderr), (b'2 0 1 1 0\n2 1 1 2 0 +1\n', b''))
    tally.group('command: lines at the desk')


def long_lists(tally, command, folder):
    """Lists of more pages than the engine's desk takes: the same answers, and it is said that each ask is a marking."""
    rng, met = random.Random(152), set()
    for number in range(6):
        tabled = number % 2
        spec = cases.LONGEST.spec._replace(htmin=0, htmax=20, sides=1 + number // 3, alpha=1, beta=1)
        galley = cases.plain(spec, 90 * (10,), [(10, cite) for cite in (3, 30, 31, 60)])
        words = tuple(word for page in range(1, 91) for word in (page, sum(figure.cite <= page for figure in galley.figures)))
        if tabled:
            galley = replace(galley, streams=(*galley.streams, (Table(5, 0, 0, 40),)))
            words = tuple(word for page, place in enumerate(marking.places(galley_without_tables(galley), words), 1) for word in (*place, int(page >= 40)))
        script = Script(galley, words)
        tally.same('accepted', script.marked[0], 'accepted')
        for _ in range(60):
            script.ask(*script.end(rng))
            script.drawn(rng, 3)
        path, listing = file(folder, 'long.galley', write(galley)), file(folder, 'long.list', listed(script.marked, marking.places(galley, words)).encode())
        listing.write_text(''.join(' '.join(map(str, end)) + '\n' for end in marking.places(galley, words)))
        status, output, remarks = command.text('desk', path, listing, given='\n'.join(script.calls).encode())
        tally.same(f'long list {number}', (status, output), (script.status, script.output))
        tally.same('it is said', f"{listing}: 90 pages, and the engine's desk takes 64: each ask is a marking\n" in remarks, True)
        met.update(script.numbers)
    tally.same('refusals met', {13, 15, 17, 23, 24, 25, 26} <= met, True)
    tally.group('command: lists of more than 64 pages at the desk')


def galley_without_tables(galley):
    return replace(galley, streams=galley.streams[:2])


def written(tally, command, folder):
    """What is written is what `list` prints, whole, and nothing else is left beside it."""
    galley, best, place = file(folder, 'a.galley', write(cases.A)), file(folder, 'best.list', b'1 1\n3 1\n'), folder / 'written'
    place.mkdir()
    target = place / 'a list'
    target.write_text('what was there before\n' * 100)
    given = f'ask 1 3 0\ncommit\nwrite {target}\nundo\nlist\n'.encode()
    due = '2 0 1 1 0\n2 1 1 2 0 +1\n2 1 1 2 0 +1\n2 1 1 2 0 +0\n2 0 1 1 0 -1\n2 0 1 1 0\n1 1 1\n2 3 1\n'
    tally.same('written and taken back', command.text('desk', galley, best, given=given), (0, due, ''))
    tally.same('what is written', (target.read_text(), [path.name for path in place.iterdir()]), ('2 1 1 2 0\n1 3 0\n2 3 1\n', ['a list']))
    tally.same('it is accepted', command.text('mark', galley, target), (0, '2 1 1 2 0\n', ''))
    status, output, _ = command.text('desk', galley, best, given=f'write {place}\n'.encode())
    tally.same('a folder is no file', (status, output, [path.name for path in place.iterdir()]), (2, '2 0 1 1 0\n?\n', ['a list']))
    flat = cases.plain(cases.LONGEST.spec._replace(htmin=0, htmax=20), 200 * (0,), [(0, 1)] * 60)
    path, listing = file(folder, 'flat.galley', write(flat)), file(folder, 'flat.list', b'100 30\n200 60\n')
    status, output, remarks = command.text('desk', path, listing, given=b'ends 1\n')
    tally.same('more ends than anybody reads', (status, output.split()[-1], 'may end in more than 10000 ways' in remarks), (2, '?', True))
    tally.group('command: lists written at the desk')


def call_by_call(tally, command, folder):
    """A script that waits for each answer before its next call."""
    galley, best = file(folder, 'a.galley', write(cases.A)), file(folder, 'best.list', b'1 1\n3 1\n')
    with subprocess.Popen([command.program, 'desk', galley, best], stdin=subprocess.PIPE, stdout=subprocess.PIPE,
                          stderr=subprocess.DEVNULL, text=True) as process:
        tally.same('opened', process.stdout.readline(), '2 0 1 1 0\n')
        for call, due in [('ask 1 3 0', '2 1 1 2 0 +1'), ('mend', '?'), ('ask 2 3 1', 'R 23 2'), ('commit', 'R 24 0'),
                          ('save as made', '2 0 1 1 0 +0'), ('ask 1 3 0', '2 1 1 2 0 +1'), ('commit', '2 1 1 2 0 +1'), ('ask 1 1 1', '2 0 1 1 0 -1'),
                          ('back as made', '2 0 1 1 0 -1'), ('commit', 'R 24 0'), ('drop as made', '2 0 1 1 0 +0'), ('back as made', 'R 26 0')]:
            process.stdin.write(f'{call}\n')
            process.stdin.flush()
            tally.same(f'{call}, and then its answer', process.stdout.readline(), f'{due}\n')
        process.stdin.close()
        tally.same('what follows', (process.stdout.read(), process.wait(30)), ('', 2))
    tally.group('command: calls one by one')


def at_terminal(tally, command, folder):
    """A person: every call after a prompt, the answer before the next one; lines are edited and come back; the end is typed."""
    galley, best = file(folder, 'a.galley', write(cases.A)), file(folder, 'best.list', b'1 1\n3 1\n')
    ours, theirs = pty.openpty()
    with subprocess.Popen([command.program, 'desk', galley, best], stdin=theirs, stdout=theirs, stderr=theirs,
                          env={**os.environ, 'TERM': 'xterm'}) as process:
        os.close(theirs)
        tally.same('opened', 'barleychime: the list is in force; `help` names the calls' in seen(ours), True)
        for typed, due in [('ask 1 3 0', '2 1 1 2 0 +1\r\n'), ('commit', '2 1 1 2 0 +1\r\n'), ('ask 1 2 1', 'by 10)\r\n'),
                           ('', ''), ('mend', '?\r\nbarleychime: `mend` is no call'), ('list', '1 3 0\r\n2 3 1\r\n'),
                           ('save it', '2 1 1 2 0 +0\r\n'), ('layouts', '1\r\n2 1 1 2 0 +0 it\r\n'), ('help', 'commit  '),
                           ('undo', '2 1 1 2 0 +0\r\n'), ('layouts', '\n0\r\n'), ('\x1b[A\x1b[A', '2 0 1 1 0 -1\r\n'),
                           ('ends 1', '\n2\r\n1 1: 2 0 1 1 0 +0\r\n3 0: 2 1 1 2 0 +1\r\n'), ('ist\x01l', '1 1 1\r\n2 3 1\r\n'),
                           ('mend\x03layouts', '\n0\r\n')]:
            os.write(ours, f'{typed}\r'.encode())
            shown = seen(ours, 1 + typed.count('\x03'))
            tally.same(f'{typed!r} at a terminal: {shown!r}', due in shown, True)
        os.write(ours, b'\x04')
        tally.same('the end', process.wait(30), 2)
    os.close(ours)
    tally.group('command: a terminal')


# An empty prompt, as it is drawn before anything is typed.
PROMPT = 'desk> \r\x1b[6C'


def seen(terminal, prompts=1):
    """What a terminal shows up to the next empty prompt, or so many of them; what it is told to do besides is left out."""
    text = ''
    while text.count(PROMPT) < prompts and select.select([terminal], [], [], 30)[0]:
        text += os.read(terminal, 4_096).decode()
    return re.sub(r'\x1b\[[0-9;?]*[A-Za-z]', '', text)


def documented(tally, command, root, folder):
    """The manual's command lines, and the calls that are there to try."""
    manual = (root / 'docs/COMMAND.md').read_text()
    [typed, piped] = re.findall(r'^    (barleychime desk .*)$', manual, re.M)
    tally.same('the calls are for the same desk', piped, f'{typed} < samples/close.calls')
    [packed] = re.findall(r'^    (barleychime pack .* > close.galley)$', manual, re.M)
    path = f'{command.program.parent}{os.pathsep}{os.environ["PATH"]}'
    work = folder / 'documented'
    work.mkdir()
    (work / 'samples').symlink_to(root / 'samples')
    ran = subprocess.run(f'{packed}; {piped}', shell=True, cwd=work, capture_output=True, text=True, env={**os.environ, 'PATH': path})
    tally.same('calls to try', (ran.returncode, ran.stdout), (1, (root / 'tests/host/expected/desk-close.txt').read_text()))
    tally.group('command: the documented desk')


def run(tally, command, root, folder):
    openings(tally, command, folder)
    lines(tally, command, folder)
    scripts(tally, command, folder)
    long_lists(tally, command, folder)
    written(tally, command, folder)
    call_by_call(tally, command, folder)
    at_terminal(tally, command, folder)
    documented(tally, command, root, folder)
