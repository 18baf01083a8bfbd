"""The page model's definitions against the reference in Python, on random galleys.

The definitions are mathematics, so they are run by the checker: a table of random galleys, with what the reference answers
for each, takes the place of the table of cases, and must agree with the definitions in the same way. Lists are chosen so that
the sample has every kind of answer, counted by sidedness and by the parity of the first folio, and those of tables, of openings and of
books by themselves; a kind that is missing fails. As a check that the table can disagree, one answer of each question is then falsified.
"""
import collections
import pathlib
import random
import sys
import tempfile

import definitions

sys.path.insert(0, str(definitions.ROOT / 'tests'))
import kinds as kinds_of  # noqa: E402
import afterwards  # noqa: E402
from choice import chosen  # noqa: E402
from reference import beforehand, marking, sample, search  # noqa: E402

GALLEYS, LEFT, LINES, FIGURES, LISTS, DRAWN, SEED = 120, 12, 5, 2, 5, 40, 20261115
TABLED = 130, 2, 1, 3  # galleys with tables, and their most lines, figures and tables
SINGLE, ODD, EVEN = 'single-sided', 'double-sided from an odd folio', 'double-sided from an even folio'


def listed(items):
    return '(' + ' ∷ '.join([*items, '[]']) + ')'


def block(height, least, most, legal, cite):
    return (f'record {{ height = {height}; least = {least}; most = {most}; '
            f'legal = {"true" if legal else "false"}; cite = {cite} }}')


def galley_text(g):
    s = g.spec
    spec = (f'record {{ htmin = {s.htmin}; htmax = {s.htmax}; smin = {s.smin}; smax = {s.smax}; '
            f'sides = {f"double {g.folio}" if s.sides == 2 else "single"}; alpha = {s.alpha}; beta = {s.beta}; lastmin = {s.lastmin or 0} }}')
    lines = listed(block(*line[:3], line.legal, 0) for line in g.lines)
    figures, tables = (listed(block(*each[:3], each.legal, each.cite) for each in floats) for floats in (g.figures, g.tables))
    held = f'galley_of ({spec}) {lines} {figures}'
    return f'tabling {tables} ({held})' if g.tables else held


def numbers(words):
    return listed(str(word) for word in words)


def made(g):
    """The answer of making, as it is written in the table, and its kind."""
    valid = list(search.every(g))
    if not valid:
        return '(refuses 11 0)', 'made: none (11)'
    best = search.best(g)
    _, p, x, y, t, w = marking.mark(g, best)
    tied = sum(marking.mark(g, words)[4:] == (t, w) for words in valid) > 1
    whiter = any(marking.mark(g, words)[4] == t for words in valid if words != best)
    decides = 'a tie decides' if tied else 'white space decides' if whiter else 'the turns decide'
    return f'(makes {p} {x} {y} {t} {w} {numbers(best)})', f'made: {decides}'


def marked(g, words):
    """The answer of marking, as it is written in the table, and its kind."""
    answer = marking.mark(g, words)
    if answer[0] == 'accepted':
        return f'(marks {" ".join(map(str, answer[1:]))})', 'marked: accepted' + ('' if words[0] else ' with floats alone on page 1')
    number, place = answer[1:]
    return f'(refuses {number} {place})', f'marked: {number}{where(g, words, number, place)}'


def where(g, words, number, place):
    """Where a list is refused, as far as the kinds tell it apart."""
    if number == 12:
        return ''
    if number == 18:
        return ' after page 1' if place == 1 else ' after a later page'
    if number == 17 and g.spec.sides == 2 and (g.folio - 1 + place) % 2 == 0:
        return ' on a page that opens a spread, the last of its list'
    width = len(g.streams)
    if number == 16 and width * place == len(words):
        return ' on the last page of its list'
    if number == 14 and not parts_lines(g, words[width * (place - 1)]):
        return ' after a kept figure'
    return ' on page 1' if place == 1 else ' on a later page'


def parts_lines(g, i):
    """Line i's space forbids the page end."""
    return 0 < i < len(g.lines) and not g.lines[i - 1].legal


def binding(g):
    """How a galley's pages are bound, as far as the kinds tell it apart."""
    return SINGLE if g.spec.sides == 1 else ODD if g.folio % 2 else EVEN


def kinds(bound):
    """Every kind of answer that there is; from an even folio page 1 opens a spread, and floats may stand there alone."""
    yield from ('made: none (11)', 'made: a tie decides', 'made: white space decides', 'made: the turns decide', 'marked: accepted',
                'marked: 12')
    for number in range(13, 18):
        yield from (f'marked: {number} on page 1', f'marked: {number} on a later page')[bound == EVEN and number == 17:]
    yield from ('marked: 14 after a kept figure', 'marked: 16 on the last page of its list')
    if bound != SINGLE:
        yield 'marked: 17 on a page that opens a spread, the last of its list'
    if bound == EVEN:
        yield 'marked: accepted with floats alone on page 1'
    yield from ('marked: 18 after page 1', 'marked: 18 after a later page')


def drawn(rng, g, valid):
    """A list that is valid or random, or comes of it by a slip, by being cut short, or by going on at random after some pages."""
    words = rng.choice(valid) if valid and rng.random() < 0.7 else sample.page_list(rng, g)
    width = len(g.streams)
    kept = width * rng.randint(1, len(words) // width)
    return rng.choice((words, sample.mutated(rng, g, words), words[:kept], words[:kept] + sample.page_list(rng, g)[kept:]))


def lists(rng, g, seen):
    """A valid list, if there is one; then, each time, that one of some drawn at random whose kind is least seen so far."""
    valid = list(search.every(g))
    if valid:
        yield rng.choice(valid)
    for _ in range(LISTS):
        yield min((drawn(rng, g, valid) for _ in range(DRAWN)), key=lambda words: seen[binding(g), marked(g, words)[1]])


def rows(seed, seen):
    """A row for making, for what is weighed and for some lists of each galley; the kinds of answers are counted."""
    rng = random.Random(seed)
    for g in (*sample.galleys(seed, GALLEYS, LINES, FIGURES), *sample.left_galleys(seed, LEFT), *sample.galleys(seed, *TABLED)):
        asked = f'asks ({galley_text(g)})'
        answer, kind = made(g)
        seen[binding(g), kind] += 1
        if g.tables:
            valid = list(search.every(g))
            seen.update((WITH, each) for each in kinds_of.of_choice(g, valid, search.first(g, valid)))
        yield f'{asked} making {answer}'
        yield f'{asked} weighing (counts {beforehand.weighed(g)} {beforehand.ceiling(g)})'
        for words in lists(rng, g, seen):
            answer, kind = marked(g, words)
            seen[binding(g), kind] += 1
            if g.tables:
                seen.update((WITH, each) for each in of_tables(g, words))
            yield f'{asked} (marking {numbers(words)}) {answer}'


def of_tables(g, words):
    """What a list shows of tables."""
    answer = marking.mark(g, words)
    yield f'marked: {answer[1] if answer[0] == "refused" else "accepted"}'
    yield from kinds_of.of_list(g, words) if answer[0] == 'accepted' else kinds_of.of_refusal(g, words, *answer[1:])


WITH = 'with tables'
OF_TABLES = [*(f'marked: {number}' for number in (*range(12, 19), 'accepted')), 'a table before a figure', 'a figure before a table',
             'a page of three kinds', 'a figure and a table without a line', '13 by a table', '17 by a table', '17 by a figure',
             '18 for tables alone', 'the later figure decides', 'the later table decides']


HEAD = '''use Rattle.std.specs.Prelude.{true, false, List, [], ◌∷◌}
use Rattle.model.specs.Galley.{single, double}
use Rattle.cases.specs.Case.{Case, making, marking, weighing, making_after, weighing_after, binding, galley_of, makes, marks, refuses, counts, asks}
use Rattle.cases.specs.Galleys.{tabling}

unfoldable pub table : List Case
table =
'''


FALSIFIED = [('(marking', '(marks '), (' making ', '(makes '), (' weighing ', '(counts '), ('(making_after', '(makes '),
             ('(weighing_after', '(counts '), ('(binding', '(makes ')]


def agrees(table):
    with tempfile.TemporaryDirectory() as name:
        folder = pathlib.Path(name)
        definitions.copy_to(folder)
        file = folder / 'crates/cases/specs/Table.antt'
        file.write_text(HEAD + '    ' + '\n    ∷ '.join([*table, '[]']) + '\n')
        return definitions.check(folder)


def missing(seen):
    """Prints how many answers of each kind there are, and counts the kinds that are missing."""
    due = [(bound, kind) for bound in (SINGLE, ODD, EVEN) for kind in kinds(bound)] + [(WITH, kind) for kind in OF_TABLES]
    due += afterwards.DUE
    for bound, kind in due:
        print(f'{bound}, {kind}: {seen[bound, kind] or "MISSING"}')
    return sum(not seen[each] for each in due)


def falsified(table, question, answer):
    """The table with one answer to such a question falsified, and nothing else of it."""
    row = next(row for row in table if question in row and answer in row)
    return [row.replace(answer, f'{answer}1', 1)]


TABLES = ['of galleys and lists', 'of openings and books']


def main():
    cases = dict.fromkeys([*TABLES, 'falsified'])
    asked = chosen(cases)
    seen = collections.Counter()
    tables = {'of galleys and lists': list(rows(SEED, seen)), 'of openings and books': list(afterwards.rows(SEED, seen, galley_text))}
    failed, passed = missing(seen) if asked == cases else 0, 0
    for what, table in ((what, tables[what]) for what in TABLES if what in asked):  # each by itself: the checker takes no more steps than so many at a time
        right = agrees(table)
        print(f'{len(table)} answers {what}: ' + ('agree' if right[1] else f'DISAGREE, {right}'))
        passed, failed = passed + len(table) * right[1], failed + (not right[1])
    every = [row for table in tables.values() for row in table]
    for question, answer in FALSIFIED if 'falsified' in asked else ():
        wrong = agrees(falsified(every, question, answer))
        found = wrong[0] and not wrong[1] and wrong[2] and all('Agrees' in error for error in wrong[2])
        print(f'one answer of {question} falsified: ' + ('caught' if found else f'NOT CAUGHT, {wrong}'))
        passed, failed = passed + bool(found), failed + (not found)
    print(f'{passed} passed, {failed} failed')
    return 0 if failed == 0 else 1


if __name__ == '__main__':
    sys.exit(main())
