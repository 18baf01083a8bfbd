"""What `explain` says, against the reference: folios, spreads, heights, turns of figures, the numbers that break a rule, the page
ends with which turns are lost for good; and against the cases that all words about lists are held to."""

import json
import random
import re

import kinds
from reference import explanations, marking, sample, search
from reference.galley import write

PAGE = re.compile(r'^page (\d+)(?:, folio (\d+))?, (?:spread (\d+), (left|right)|a spread by itself): ', re.M)
HEIGHT = re.compile(r'    height (\d+) to (\d+); (.*)')
FLOAT = re.compile(r'    (figure|table) (\d+), cited by line (\d+) on page (\d+)(?:, folio (\d+))?: '
                   r'(?:(\d+) turns?, costs (\d+)·\d+ = (\d+)|the same [^;\n]*)(?:; kept with figure (\d+))?\n')
KINDS = ('line', 'figure', 'table')


def opened(galley):
    """What a galley has, as it is told."""
    return 'galley: ' + ', '.join(f'{size} {kind}{"s" * (size != 1)}' for kind, size in zip(KINDS, galley.sizes))


def listed(galley, words):
    return ''.join(' '.join(map(str, end)) + '\n' for end in marking.places(galley, words)).encode()


def folio(galley, page):
    """The folio as it is told: only where it is not the page's number."""
    return '' if galley.folio == 1 else str(galley.folio + page - 1)


def heading(galley, page):
    """Number, folio, spread and side of a page, as they are told."""
    side = ('left', 'right')[(galley.folio + page - 1) % 2]
    spread = (str(marking.leaf(2, galley.folio, page)), side) if galley.spec.sides == 2 else ('', '')
    return (str(page), folio(galley, page), *spread)


def asked(galley, last):
    """The heights that are asked of a page, as they are told."""
    spec = galley.spec
    if not last:
        return f'{spec.htmin} to {spec.htmax} is asked; white space '
    return f'{"at most" if spec.edition == 1 else f"{spec.lastmin} to"} {spec.htmax} is asked of the last page'


def kept_with(galley, number):
    """The figure that a figure is told to be kept with."""
    return str(number + 1) if 0 < number < len(galley.figures) and galley.figures[number - 1].kept else ''


def forbidden(galley, i, j):
    """What is told of a page end that is forbidden after line i and figure j: the line, the figure, or both."""
    line = 0 < i < len(galley.lines) and not galley.lines[i - 1].legal
    told = [f'    line {i} forbids a page end in the space after it'] if line else []
    return told + ([f'    figure {j} is kept with figure {j + 1}'] if kept_with(galley, j) else [])


def accepted(galley, words, text):
    """Whether every number in the text is the reference's."""
    ends, spec = marking.places(galley, words), galley.spec
    starts = [galley.nothing, *ends[:-1]]
    pages, heights, floats = PAGE.findall(text), HEIGHT.findall(text), FLOAT.findall(text)
    turns = sum(int(each[5] or 0) for each in floats)
    _, p, x, y, t, w = marking.mark(galley, words)
    whites = [str(marking.white_on(galley, *page)) for page in zip(starts, ends)]
    return (pages == [heading(galley, q) for q in range(1, len(ends) + 1)]
            and text.startswith(opened(galley) + ';')
            and ('the first folio is' in text) == (galley.folio != 1)
            and [each[4] for each in floats] == [folio(galley, int(each[3])) for each in floats]
            and [each[8] for each in floats] == [each[0] == 'figure' and kept_with(galley, int(each[1])) or '' for each in floats]
            and heights == [(str(marking.tightest(galley, *page)), str(marking.loosest(galley, *page)),
                             asked(galley, q == p) + (whites[q - 1] if q < p else '')) for q, page in enumerate(zip(starts, ends), 1)]
            and sum(map(int, whites[:-1])) == w
            and (f', of the last page {spec.lastmin} to {spec.htmax}, separation' in text) == (spec.edition == 2)
            and all([int(each[1]) for each in floats if each[0] == kind] == list(range(1, size + 1))
                    for kind, size in zip(KINDS[1:], galley.sizes[1:]))
            and [int(each[2]) for each in floats] == [galley.streams[KINDS.index(each[0])][int(each[1]) - 1].cite for each in floats]
            and turns == x and sum(int(each[7] or 0) for each in floats) == spec.alpha * x
            and f'X {x}, Y {y}, T = alpha·X + beta·Y = {spec.alpha}·{x} + {spec.beta}·{y} = {t}, W {w}\n' in text)


def broken(text):
    """(page, rule, numbers) of every rule that is told to be broken on a page."""
    found, page = [], 0
    for line in text.splitlines():
        page = int(PAGE.match(line)[1]) if PAGE.match(line) else page
        if line.startswith('    breaks rule '):
            rule, numbers = line.removeprefix('    breaks rule ').split(': ', 1)
            found.append((page, int(rule), numbers))
    return found


def refused(galley, words, number, page, text):
    """Whether every page says what it breaks, and what the refusal says are numbers that do break the rule."""
    told, answered = text.split('\nrefused, R ')
    numbered = [line for line in answered.splitlines()[1:] if line.startswith('    ')]
    due = explanations.broken(galley, words)
    in_all = [line for line in answered.splitlines() if line.startswith('in all it breaks ')]
    return (numbers_break(galley, words, number, page, '\n'.join(numbered))
            and [each[:2] for each in broken(told)] == [each for each in due if each[1] != 12]
            and (number == 12 or broken(told)[0][2] == '; '.join(line.strip() for line in numbered))
            and len(in_all) == (len(due) > 1)
            and all(f'rule {rule} on page' in in_all[0] for _, rule in due if in_all))


def numbers_break(galley, words, number, page, text):
    """Whether the lines give numbers that do break the rule."""
    said, width = text.splitlines()[-1], len(galley.streams)
    ends = [galley.nothing, *marking.places(galley, words)]
    start, end = (ends[page - 1], ends[page]) if page else (galley.nothing, galley.nothing)
    numbers = [int(number) for number in re.findall(r'\d+', said)]
    if number == 12:
        asked_of = 'an even number' if width == 2 else 'a multiple of three'
        return numbers == [len(words), width, width * sum(galley.sizes)] and asked_of in said
    if number == 13:
        told = [f'    {kind}s placed so far fall from {u} to {v}' if v < u else f'    it claims {v} {kind}s, but the galley has {size}'
                for kind, u, v, size in zip(KINDS, start, end, galley.sizes) if not u <= v <= size]
        return text.splitlines() == told if told else 'ends where it starts' in said and start == end and numbers == list(end)
    if number == 14:
        told = forbidden(galley, *end[:2])
        return told != [] and text.splitlines()[-len(told):] == told
    if number == 15:
        height = marking.tightest(galley, start, end)
        return numbers == [height, galley.spec.htmax, height - galley.spec.htmax] and numbers[2] > 0
    if number == 16:
        height, last = marking.loosest(galley, start, end), page == len(ends) - 1
        least, name = galley.spec.floor(last), 'lastMin' if last else 'htMin'
        return numbers == [height, least, least - height] and numbers[2] > 0 and name in said
    if number == 17:
        told = too_soon(galley, end)
        return told != [] and text.splitlines()[-len(told):] == told
    return number == 18 and numbers == [*end, *galley.sizes] and end != galley.sizes


def too_soon(galley, end):
    """What is told of the last figure and the last table: the line that cites them, where it is a later one."""
    last = [(kind, count, floats[count - 1].cite) for kind, floats, count in zip(KINDS[1:], galley.floats, end[1:]) if count]
    return [f'    {kind} {count} is cited by line {cite}, and the spread ends after line {end[0]}'
            for kind, count, cite in last if cite > end[0]]


def run(tally, command, folder):
    rng, path, met = random.Random(7), folder / 'explained.galley', set()
    for galley in [*sample.galleys(106, 120, 8, 5), *sample.galleys(116, 120, 5, 3, 3)]:
        path.write_bytes(write(galley))
        best = search.best_by_table(galley)
        lists = [sample.page_list(rng, galley), (), (1,) * len(galley.streams) * (sum(galley.sizes) + 1)]
        lists += [best, *(sample.mutated(rng, galley, best) for _ in range(5))] if best else []
        for words in lists:
            if len(words) % len(galley.streams):
                continue
            status, text, remarks = command.text('explain', path, '-', given=listed(galley, words))
            marked = marking.mark(galley, words)
            met.update([marked[1], *kinds.of_refusal(galley, words, *marked[1:])] if marked[0] == 'refused' else [0])
            if marked[0] == 'accepted':
                more, lost = compared(galley, words, best, met), losses(galley, words)
                right = accepted(galley, words, text) and text.endswith(f'\n{more}\n{lost}')
                tally.same(f'{words} for {galley}', (status, right, remarks), (0, True, ''))
                due = lost or 'no turn is lost for good\n'
                column = ','.join(f'{page}:{turns}' for page, _, turns, *_ in explanations.lost(galley, words)) or '-'
                row = ' '.join(map(str, marked[1:])) + f' {column}\n'
                told = ''.join(f'barleychime: standard input: {line}\n' for line in lost.splitlines())
                tally.same(f'mark --why {words} for {galley}', command.text('mark', '--why', path, '-', given=listed(galley, words)), (0, row, told))
                tally.same(f'why {words} for {galley}', command.text('explain', '--why', path, '-', given=listed(galley, words)), (0, due, ''))
            else:
                told = (f'refused, R {marked[1]} {marked[2]}: ' in text and refused(galley, words, *marked[1:], text)
                        and 'whoever handed in the list can mend it' in text)
                tally.same(f'{words} for {galley}: {text}', (status, told, remarks), (1, True, ''))
                _, row, said = command.text('mark', path, '-', given=listed(galley, words))
                numbers = '; '.join(line.strip() for line in text.split('\nrefused, R ')[1].splitlines()[1:] if line.startswith('    '))
                tally.same('marked with the same numbers', (row, said.endswith(f' ({numbers})\n')), (f'R {marked[1]} {marked[2]}\n', True))
    tally.same('rules explained', met, {0, *range(12, 19), *kinds.OF_REFUSALS, 'fewest', 'whitest', 'whiter', 'lost'})
    tally.group('lists explained')
    cases(tally, command, folder)
    several(tally, command, folder)


def compared(galley, words, best, met):
    """What is told of an accepted list against the best."""
    marked, (fewest, whitest) = marking.mark(galley, words), marking.mark(galley, best)[4:]
    met.add(('lost', ('whiter', 'whitest')[whitest == marked[5]])[fewest == marked[4]])
    met.update(['fewest'] if words == best else [])
    return (f'the fewest turns are {fewest}; this list has {marked[4] - fewest} more' if fewest < marked[4]
            else 'no list has fewer turns, and none with as many has less white space' if whitest == marked[5]
            else f'no list has fewer turns; the least W with as many is {whitest}, and this list has {marked[5] - whitest} more')


def losses(galley, words):
    """The lines due for the page ends with which turns are lost for good: which, and how many. What they are called the cases have."""
    return ''.join(f'{worded(*loss)}\n' for loss in explanations.lost(galley, words))


def worded(page, line, turns, floats, leaves):
    runs = []
    for name in floats:
        if runs and (runs[-1][-1][0], int(runs[-1][-1][1:]) + 1) == (name[0], int(name[1:])):
            runs[-1].append(name)
        else:
            runs.append([name])
    parts = [part for run in runs for part in ([f'{run[0]} to {run[-1]}'] if len(run) > 2 else run)]
    parts += [] if not leaves else ['a leaf more'] if leaves == 1 else [f'{leaves} leaves more']
    end = f'after line {line}' if line else 'before any line'
    what = ' and '.join(filter(None, (', '.join(parts[:-1]), parts[-1])))
    return f'page {page} ends {end}: {turns} turn{"s" * (turns != 1)} lost for good, {what}'


def cases(tally, command, folder):
    """The cases through the command: every rule under its page, and the words of what is lost for good."""
    for case, galley, words in explanations.cases():
        path = folder / 'case.galley'
        path.write_bytes(write(galley))
        status, text, _ = command.text('explain', path, '-', given=listed(galley, words))
        told = broken(text) if case['list'] else []
        due = [(each['page'], each['rule'], '; '.join(each['numbers'])) for each in case['broken']]
        if due[:1] and due[0][1] == 12:
            tally.same(f'{case["name"]}: length', f'    {due[0][2]}\n' in text, True)
        else:
            tally.same(f'{case["name"]}: broken', told, due)
        lost = [line for line in text.splitlines() if 'lost for good' in line]
        tally.same(f'{case["name"]}: lost', (status, lost), (int(bool(due)), [loss['words'] for loss in case['lost']]))
    tally.group('cases of explanations, by the command')


def several(tally, command, folder):
    """Several lists: each after its name, and one that cannot be read does not keep the others from being explained."""
    [(_, galley, _), *_] = explanations.cases()
    path, one, two, junk = (folder / name for name in ('several.galley', 'one.list', 'two.list', 'junk.list'))
    path.write_bytes(write(galley))
    one.write_text('1 1\n3 1\n')
    two.write_text('2 1\n3 1\n')
    junk.write_text('one 1\n')
    texts = [command.text('explain', path, each)[1] for each in (one, two)]
    due = f'{one}:\n{texts[0]}\n{two}:\n{texts[1]}'
    tally.same('two lists', command.text('explain', path, one, two), (1, due, ''))
    status, text, remarks = command.text('explain', path, one, junk, two)
    tally.same('one of three is none', (status, text, f'{junk}: line 1' in remarks), (2, due, True))
    status, text, _ = command.text('explain', '--why', path, one, two)
    tally.same('why, of two', (status, text), (1, f'{one}:\nno turn is lost for good\n\n{two}:\nrefused, R 15 1: 40 is above htMax 30 by 10\n'))
    three = folder / 'three.list'
    three.write_text('3 0\n3 1\n')
    status, text, _ = command.text('mark', '--why', '--tsv', path, one, two, three)
    rows = [line.split('\t') for line in text.splitlines()]
    tally.same('why, with tabs', (status, [row[-1] for row in rows], {len(row) for row in rows}), (1, ['lost', '-', '', '1:1'], {len(rows[0])}))
    for name in ('mark', 'report'):
        lists = json.loads(command.text(name, '--why', '--json', path, one, two, three)[1])['lists']
        told = [[loss['words'] for loss in row['lost']] if 'lost' in row else None for row in lists]
        tally.same(f'{name} --why for programs', told, [[], None, ['page 1 ends after line 3: 1 turn lost for good, F1']])
    tally.group('several lists explained')
