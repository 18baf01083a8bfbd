"""The command's reports: galleys with lists, and marks as text, against sums in Python; what cannot be reported on."""

import collections
import os
import random
import re
import subprocess
from decimal import ROUND_HALF_UP, Decimal
from fractions import Fraction

from command_line import file
from reference import cases, explanations, marking, refusals, report, sample, search
from reference.galley import write

LABELS = ['papers', 'sum of p (pages)', 'sum of X (turns to figures and tables)', 'sum of Y (turns from first page to last)',
          'sum of T (weighted turns)', 'least T', 'greatest T', 'excess over the engine']

# Name, a text of marks, and a part of the remark that must name line and field.
JUNK = [
    ('a word', b'1 0 0 3 3\n1 0 0 three 3\n', 'line 2: field 4'),
    ('a sign', b'1 0 0 -3 3\n', 'line 1: field 4'),
    ('a number of 33 bits', b'1 0 0 3 4294967296\n', 'line 1: field 5'),
    ('four numbers', b'# p X Y T E\n\n1 0 0 3\n', 'line 3: a mark has five numbers'),
    ('six numbers', b'1 0 0 3 3 3\n', 'line 1: a mark has five numbers'),
    ('a refusal', b'1 0 0 3 3\nR 15 1\n', 'line 2: a refusal stands'),
    ('no text', b'1 0 0 3 3\n\xff\n', 'line 2'),
    ('an escape', b'1 0 0 3 \x1b[2J\n', 'line 1: field 5'),
]


def mean(excess, count):
    if count == 0:
        return 'none, since there are no papers'
    exact, tenth = Fraction(excess, count), Decimal('0.0001')
    near = (Decimal(exact.numerator) / Decimal(exact.denominator)).quantize(tenth, ROUND_HALF_UP)
    if Fraction(near) == exact:
        return f'{excess}/{count} = {near.normalize():f}'
    return f'{excess}/{count}, about {near}'


def in_words(marks):
    """The lines due for marks that are not refused."""
    words = report.words(marks)
    lines = [f'{label}: {word}' for label, word in zip(LABELS, words[2:10])]
    return '\n'.join([*lines, f'mean excess: {mean(words[9], words[10])}', ''])


def refused_lists(numbers):
    if not numbers:
        return 'refused lists: 0\n'
    rules = ', '.join(f'{lists} by rule {rule}' for rule, lists in sorted(collections.Counter(numbers).items()))
    return f'refused lists: {len(numbers)}, which are no papers ({rules})\n'


def text_of(galley, words):
    return ''.join(' '.join(map(str, end)) + '\n' for end in marking.places(galley, words)).encode()


def lists_of_galleys(tally, command, folder):
    """Random galleys, each with lists of every kind: what the reference marks and makes decides the report."""
    rng, kinds = random.Random(12), collections.Counter()
    for galley in [*sample.galleys(120, 90, 7, 4), *sample.galleys(121, 40, 5, 3, 2)]:
        best = search.best_by_table(galley)
        lists = [sample.page_list(rng, galley) for _ in range(4)]
        lists += [best, *(sample.mutated(rng, galley, best) for _ in range(8))] if best else []
        lists = [words for words in lists if len(words) % len(galley.streams) == 0]
        names = [file(folder, f'{number}.list', text_of(galley, words)) for number, words in enumerate(lists)]
        status, output, remarks = command.text('report', file(folder, 'r.galley', write(galley)), *names)
        if not best:
            told = (status, output, '11' in remarks)
            tally.same(f'{galley} without a pagination', told, (1, 'R 11 0\n', True))
            kinds['none'] += 1
            continue
        marked = [marking.mark(galley, words) for words in lists]
        engines = marking.mark(galley, best)[4]
        marks = [(*answer[1:5], engines) for answer in marked if answer[0] == 'accepted']
        refused = [answer[1] for answer in marked if answer[0] == 'refused']
        tally.same(f'{galley} reported on', (status, output, remarks.count('\n')),
                   (0, in_words(marks) + refused_lists(refused), len(refused)))
        kinds.update(['papers'] * (len(marks) > 1), refused=len(refused))
        rows = [f'{" ".join(map(str, answer[1:]))} {lost(galley, words)} {name}\n'
                for answer, words, name in zip(marked, lists, names) if answer[0] == 'accepted']
        tally.same(f'{galley} reported on, and why', command.text('report', '--why', folder / 'r.galley', *names)[:2],
                   (0, output + ''.join(rows)))
    tally.same('every kind of list', all(kinds[kind] > 10 for kind in ('papers', 'refused', 'none')), True)
    tally.group('command: reports on lists')


def lost(galley, words):
    """The column of what is lost for good."""
    return ','.join(f'{page}:{turns}' for page, _, turns, *_ in explanations.lost(galley, words)) or '-'


def marks_as_text(tally, command, folder):
    rng = random.Random(13)
    for papers in [0, 1, 2, 3, 7, 400, 10_000, 10_001]:
        for most in (1, 50, 2**32 - 1):
            turns = [sorted((rng.randint(0, most), rng.randint(0, most))) for _ in range(papers)]
            marks = [(rng.randint(0, most), rng.randint(0, most), rng.randint(0, most), t, e) for e, t in turns]
            text = '# p X Y T E\n\n' + ''.join(' '.join(map(str, mark)) + ' # a paper\r\n' for mark in marks)
            due = (0, in_words(marks)) if papers <= 10_000 else (1, 'R 31 0\n')
            status, output, remarks = command.text('report', '--marks', file(folder, 'marks', text.encode()))
            tally.same(f'{papers} marks up to {most}', (status, output, remarks.count('\n')), (*due, due[0]))
            if marks and papers <= 400:
                tally.same('from standard input', command.text('report', '--marks', '-', given=text.encode())[:2], due)
    for name, data, told in JUNK:
        junk = file(folder, 'junk.marks', data)
        status, output, remarks = command.text('report', '--marks', junk)
        plain = all(character.isprintable() or character == '\n' for character in remarks)
        tally.same(f'marks with {name}', (status, output, f'{junk}: {told}' in remarks, plain), (2, '', True, True))
    for at in (1, 2, 5):
        lines = ['', *('1 0 0 3 3' for _ in range(5))]
        lines[at] = '1 0 0 2 3'
        low = file(folder, 'low.marks', '\n'.join(lines).encode())
        status, output, remarks = command.text('report', '--marks', low)
        told = f'{low}: line {at + 1}: R 32 {at}: paper {at}: ' in remarks and 'handed in the marks can mend it' in remarks
        tally.same(f'paper {at} below its engine', (status, output, told), (1, f'R 32 {at}\n', True))
    tally.group('command: reports on marks')


def turned_away(tally, command, folder):
    galley, best = file(folder, 'a.galley', write(cases.A)), file(folder, 'best.list', b'1 1\n3 1\n')
    for name, data, number, place in refusals.files():
        bad = file(folder, 'bad.galley', data)
        status, output, remarks = command.text('report', bad, best)
        due = f'R {number} {place}'
        tally.same(f'report on {name}', (status, output, f'{bad}: {due}: ' in remarks), (1, f'{due}\n', True))
    junk, high = file(folder, 'junk', b'?'), file(folder, 'high', b'2 1\n3 1\n')
    status, output, remarks = command.text('report', galley, best, junk, high, folder / 'nowhere')
    told = [str(path) in remarks for path in (junk, high, folder / 'nowhere')]
    no_papers = 'refused lists: 1, which are no papers (1 by rule 15)\nunreadable lists: 2, which are no papers\n'
    tally.same('a list that cannot be read', (status, output, told), (2, in_words([(2, 0, 1, 1, 1)]) + no_papers, [True] * 3))
    tally.same('one list, from standard input', command.text('report', galley, '-', given=b'3 0\n3 1\n'),
               (0, in_words([(2, 1, 1, 2, 1)]) + 'refused lists: 0\n', ''))
    tally.same('the same list often', command.text('report', galley, *[best] * 10_000),
               (0, in_words([(2, 0, 1, 1, 1)] * 10_000) + 'refused lists: 0\n', ''))
    status, output, remarks = command.text('report', galley, *[best] * 10_001)
    tally.same('a list too many', (status, output, remarks.count('R 31 0')), (1, 'R 31 0\n', 1))
    for arguments in [('report',), ('report', 'a'), ('report', '--marks'), ('report', '--marks', 'a', 'b'),
                      ('report', 'a', '--marks'), ('report', '-', '-'), ('make', '--marks', 'a')]:
        status, output, remarks = command.text(*arguments)
        tally.same(f'{arguments}', (status, output, remarks.count('\n')), (2, '', 1))
    tally.group('command: reports that are turned away')


def many_galleys(tally, command, root, folder):
    """The manual's command line for a term: the marks of two galleys' lists in one report, a refused list among them."""
    [lines] = re.findall(r'^    for galley in term/.*?^    done .*?\n', (root / 'docs/COMMAND.md').read_text(), re.M | re.S)
    term, marks = folder / 'term', []
    for name, galley, lists in [('case a', cases.A, [(1, 1, 3, 1), (3, 0, 3, 1), (2, 1, 3, 1)]),
                                ('case c', cases.C, [(2, 0, 3, 0, 4, 0, 4, 1)])]:
        (term / name).mkdir(parents=True)
        file(term, f'{name}.galley', write(galley))
        engines = marking.mark(galley, search.best(galley))[4]
        for number, words in enumerate(lists):
            file(term / name, f'{number}.list', text_of(galley, words))
            answer = marking.mark(galley, words)
            marks += [(*answer[1:5], engines)] if answer[0] == 'accepted' else []
    path = f'{command.program.parent}{os.pathsep}{os.environ["PATH"]}'
    ran = subprocess.run(lines, shell=True, cwd=folder, capture_output=True, text=True, env={**os.environ, 'PATH': path})
    tally.same('a term of many galleys', (ran.returncode, ran.stdout, len(marks)), (0, in_words(marks), 3))
    tally.group('command: a report on a term')


def run(tally, command, root, folder):
    for group in (lists_of_galleys, marks_as_text, turned_away):
        group(tally, command, folder)
    many_galleys(tally, command, root, folder)
