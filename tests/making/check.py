"""The proved making, compiled, against a search of all lists in Python: the answer, the list, and every word of lent memory;
and the pages weighed against all pairs of start and end, and what is told of them beforehand. Galleys with too many lists are
compared with the reference's table instead, those with too many pairs with the reference's runs of lines. Kinds of galleys, of
answers and of choices among lists are counted, so that one that is missing fails. The last line is 'N passed, M failed'."""
import functools
import itertools
import math
import pathlib
import random
import sys

sys.path.insert(0, str(pathlib.Path(__file__).resolve().parents[1]))
import engine  # noqa: E402
import guess  # noqa: E402
import kinds  # noqa: E402
import windows  # noqa: E402
from reference import beforehand, cases, galley, marking, sample, search  # noqa: E402
from choice import chosen  # noqa: E402
from tally import Tally  # noqa: E402

GALLEYS, LEFT, LARGER, FINE, LONG, SEED = 2_400, 300, 60, 1_400, 100, 20261116
TABLED, TABLED_LEFT, TABLED_FINE, DEAR = 1_200, 400, 300, 6_000
MOST_LISTS, MOST_PAIRS = 2_000, 400


def due(g, best, work, pages):
    """What making owes: its answer, the count of pages weighed, the work area and the page list afterwards."""
    return engine.made(g, best, best and marking.mark(g, best), weighed(g), work, pages)


def pairs(g):
    """The pairs of start and end where everything fits one page."""
    places = math.prod(size + 1 for size in g.sizes)
    return math.prod((size + 1) * (size + 2) // 2 for size in g.sizes) - places


@functools.lru_cache(maxsize=1)
def weighed(g):
    """The pages weighed, by all pairs where these are few."""
    if not any(block.height or block.least for stream in g.streams for block in stream) and g.spec.smin == 0:
        return pairs(g)
    return beforehand.weighed(g) if pairs(g) <= MOST_PAIRS else beforehand.weighed_by_runs(g)


def dirty(rng, length):
    return tuple(rng.choice((0, 1, 2, engine.HIGHEST, rng.randint(0, engine.HIGHEST))) for _ in range(length))


def lendings(rng, g):
    """Lent memory of exact and of greater lengths, and now and then too short, with any contents."""
    work_needed, list_needed = engine.lengths(g)
    yield dirty(rng, work_needed), dirty(rng, list_needed)
    yield dirty(rng, work_needed + rng.randint(1, 9)), dirty(rng, list_needed + rng.randint(1, 5))
    if rng.random() < 0.3:
        yield dirty(rng, rng.randint(0, work_needed - 1)), dirty(rng, rng.choice((0, list_needed)))
        yield dirty(rng, work_needed), dirty(rng, rng.randint(0, list_needed - 1))


def fine(count, tabled):
    """Galleys of many lines of small height, some of them with tables, each with the first of all its lists; without the few
    that have too many."""
    for number, g in enumerate([*sample.fine_galleys(SEED + 3, count, 8, 14, 4), *sample.fine_galleys(SEED + 6, tabled, 5, 10, 2, 3)]):
        lists = list(itertools.islice(search.every(g), MOST_LISTS + 1))
        if len(lists) <= MOST_LISTS:
            yield f'fine galley {number}', g, search.first(g, lists)


def long(count, tabled):
    """Such galleys with far more lines and too many lists to look at: their best list is from the reference's own table."""
    for number, g in enumerate([*sample.fine_galleys(SEED + 4, count, 60, 300, 12, highest=120),
                                *sample.fine_galleys(SEED + 7, tabled, 40, 120, 5, 4, highest=80)]):
        yield f'long galley {number}', g, search.best_by_table(g)


def dear(count, tabled):
    """Small galleys whose best list is dearer than the engine's first limit, so that it searches twice."""
    for number, g in enumerate([*sample.galleys(SEED + 12, count, 6, 4), *sample.galleys(SEED + 13, tabled, 4, 3, 2)]):
        best = search.best_by_table(g)
        if best and search.rank(g, best)[0] > guess.first_limit(g):
            yield f'dear galley {number}', g, best


def largest(make, g):
    """Whether a galley of height 0 is made: everything fits one page, so that every place is a start."""
    work, pages = ((1,) * length for length in engine.lengths(g))
    return make(galley.write(g), work, pages) == due(g, g.sizes, work, pages)


class Makings:
    """Makings by the engine, counted, with lent memory drawn anew for each case, so that a case alone meets what it meets among all."""

    def __init__(self, called, tally):
        self.called, self.tally, self.refilled = called, tally, 0

    def drawn_for(self, case):
        self.rng = random.Random(f'{SEED} {case}')
        return self

    def tried(self, name, g, best):
        """A galley with its best list: what is told beforehand, and what is made in every lent memory."""
        tally = self.tally
        tally.kind(*kinds.of_galley(g), *((*kinds.of_list(g, best), *guess.of_limit(g, best)) if best else ()),
                   *kinds.of_weighing(g, best, weighed(g)))
        forecast = self.called.forecast(galley.write(g))
        tally.same(f'forecast of {name}', forecast, beforehand.forecast(('galley', g)))
        tally.same(f'{name} weighs no more than was told', weighed(g) <= forecast[-1], True)
        for work, pages in lendings(self.rng, g):
            expected = due(g, best, work, pages)
            tally.kind(expected[0][1] if expected[0][0] == 'refused' else f'sides {g.spec.sides}')
            tally.same(name, self.called.make(galley.write(g), work, pages), expected)


def known(makings):
    """Document 01's and 02's cases."""
    for name, g, words, _ in cases.MADE:
        if len(g.lines) < 50:
            makings.tried(name, g, words)


def small(makings):
    """Galleys all of whose lists are looked at."""
    for number, g in enumerate([*sample.galleys(SEED, GALLEYS, 5, 3), *sample.left_galleys(SEED + 5, LEFT),
                                *sample.galleys(SEED + 8, TABLED, 3, 2, 2), *sample.left_galleys(SEED + 9, TABLED_LEFT, 2)]):
        lists = list(search.every(g))
        best = search.first(g, lists)
        makings.tally.kind(*kinds.of_choice(g, lists, best))
        makings.tried(f'galley {number}', g, best)
        if g.spec.edition == 1 and number % 4 == 0:
            makings.tried(f'galley {number} with lastMin 0', cases.respec(g, lastmin=0), best)


def by_table(makings):
    """Galleys of too many lists."""
    for number, g in enumerate([*sample.galleys(SEED + 1, LARGER, 40, 8), *sample.galleys(SEED + 10, LARGER, 20, 5, 5)]):
        makings.tried(f'larger galley {number}', g, search.best_by_table(g))
    for name, g, best in long(LONG, LONG // 4):
        makings.tried(name, g, best)


def searched_twice(makings):
    for name, g, best in dear(DEAR, DEAR // 2):
        makings.tried(name, g, best)


def many_lines(makings):
    """Fine galleys, and the windows of starts that are moved over their lines."""
    for name, g, best in fine(FINE, TABLED_FINE):
        makings.tried(name, g, best)
        rows = list(windows.windows(g))
        makings.tally.same(f'windows of {name}', all(map(windows.only_rise, rows)), True)
        makings.refilled += sum(map(windows.refill, rows))


def at_the_limits(makings):
    """The largest galleys, of height 0."""
    for sides in (1, 2):
        for what, g in (('the largest galley', cases.LONGEST), ('a large galley with tables', cases.LARGE_TABLES)):
            made = largest(makings.called.make, cases.respec(g, sides=sides))
            makings.tally.same(f'{what} of height 0, sides {sides}', made, True)
    for what, g in (('the largest galley', cases.LONGEST), ('the largest galley with tables', cases.LONGEST_TABLES)):
        told = (0, 0, *engine.lengths(g), math.prod(size + 1 for size in g.sizes)**2)
        makings.tally.same(f'forecast of {what}, of height 0', makings.called.forecast(galley.write(g)), told)


def refused(makings):
    """Galleys that cannot be read."""
    called, tally, rng = makings.called, makings.tally, makings.rng
    for number, g in enumerate([*sample.galleys(SEED + 2, 400, 5, 3), *sample.galleys(SEED + 11, 200, 4, 2, 3)]):
        broken = sample.broken(rng, galley.write(g))
        read = galley.read(broken)
        if read[0] == 'refused':
            work, pages = dirty(rng, 40), dirty(rng, 10)
            tally.kind('refused galley')
            tally.same(f'broken galley {number}', called.make(broken, work, pages), (read, 0, work, pages))
            tally.same(f'forecast of broken galley {number}', called.forecast(broken), beforehand.forecast(read))


CASES = {case.__name__: case for case in (known, small, by_table, searched_twice, many_lines, at_the_limits, refused)}


def main():
    asked, tally = chosen(CASES), Tally()
    makings = Makings(engine.Engine(engine.load(engine.archive())), tally)
    for name, case in asked.items():
        case(makings.drawn_for(name))
    if asked == CASES:
        tally.enough((9, 10, 11, 'sides 1', 'sides 2', 'refused galley'), 20)
        tally.enough((*kinds.OF_GALLEYS, *kinds.OF_LISTS, *kinds.OF_CHOICES, *kinds.OF_WEIGHING, *guess.KINDS), 20)
        tally.same('windows that empty and refill', makings.refilled >= 1_000, True)
    print('makings by answer:', dict(sorted(tally.kinds.items(), key=str)), f'and {makings.refilled} windows that empty and refill')
    return tally.end()


if __name__ == '__main__':
    sys.exit(main())
