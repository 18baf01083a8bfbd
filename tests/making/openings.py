"""Making after an opening, compiled, against a search of all lists in Python: all openings of small galleys, whether they are let
through or not, with the answer, the list, the count of pages weighed, and every word of lent memory. Larger galleys are compared
with the reference's table, after openings of good lists and of others. Kinds of openings are counted, so that one that is missing
fails. The last line is 'N passed, M failed'."""
import pathlib
import random
import sys

sys.path.insert(0, str(pathlib.Path(__file__).resolve().parents[1]))
import check  # noqa: E402
import engine  # noqa: E402
import kinds  # noqa: E402
from reference import beforehand, cases, galley, marking, openings, sample, search  # noqa: E402
from choice import chosen  # noqa: E402
from tally import Tally  # noqa: E402

GALLEYS, TABLED, LEFT, LARGER, SEED = 450, 200, 100, 60, 20261119
MOST_OPENINGS = 8  # of one galley that are tried with any page after them


def small():
    """Galleys of few lists, of every kind."""
    yield from sample.galleys(SEED, GALLEYS, 4, 2)
    yield from sample.galleys(SEED + 10, GALLEYS // 3, 2, 4)
    yield from sample.galleys(SEED + 1, TABLED, 2, 1, 2)
    yield from sample.left_galleys(SEED + 2, LEFT)
    yield from sample.left_galleys(SEED + 3, LEFT, 2)
    yield from (g for _, g, _, _ in cases.MADE if sum(g.sizes) < 8)


def larger():
    """Galleys with too many lists to look at."""
    yield from sample.galleys(SEED + 4, LARGER, 40, 8)
    yield from sample.galleys(SEED + 5, LARGER, 20, 5, 4)
    yield from sample.fine_galleys(SEED + 6, LARGER, 30, 90, 8, highest=60)
    yield from sample.fine_galleys(SEED + 7, LARGER // 2, 20, 50, 4, 3, highest=60)


class Trial:
    """One galley, its openings tried by one making, with lent memory of any contents."""

    def __init__(self, tally, make_after, rng, g):
        self.tally, self.make_after, self.rng, self.g = tally, make_after, rng, g
        self.data = galley.write(g)

    def lent(self):
        """Work area and page list of exact and of greater lengths, by turns."""
        more = self.rng.choice((0, 0, 3))
        return tuple(check.dirty(self.rng, length + more) for length in engine.lengths(self.g))

    def let_through(self, opening, best, weighed):
        """What making owes after an opening that is let through: the best list that begins so, or 11."""
        work, pages = self.lent()
        due = engine.made(self.g, best, best and marking.mark(self.g, best), weighed, work, pages)
        self.tally.kind('11' if best is None else 'made')
        self.tally.same(f'{opening} before {self.g}', self.make_after(self.data, opening, work, pages), due)

    def refused(self, opening, fault):
        """20 and 21: all lent memory stays."""
        work, pages = self.lent()
        self.tally.kind(*kinds.of_refused_opening(self.g, opening, *fault))
        self.tally.same(f'{opening} refused before {self.g}', self.make_after(self.data, opening, work, pages),
                        engine.made(self.g, None, None, 0, work, pages, fault))

    def too_short(self, opening):
        """9, then 10, whatever the opening is."""
        work_words, list_words = engine.lengths(self.g)
        for work, pages in ((work_words - 1, 0), (work_words, list_words - 1)):
            work, pages = check.dirty(self.rng, work), check.dirty(self.rng, pages)
            due = engine.made(self.g, None, None, 0, work, pages)
            self.tally.kind(f'{due[0][1]} before 20 and 21' if openings.fault(self.g, opening) else str(due[0][1]))
            self.tally.same(f'{opening} before {self.g} in little memory', self.make_after(self.data, opening, work, pages), due)


def every_opening(trial, make):
    """All openings of a small galley that are let through, and each with any page and with half a page after it."""
    g, tally, rng = trial.g, trial.tally, trial.rng
    lists = list(search.every(g))
    ordinary = search.first(g, lists)
    tally.kind(*kinds.of_galley(g))
    for number, opening in enumerate(openings.passed(g)):
        begun = openings.beginning(lists, opening)
        best = search.first(g, begun)
        tally.kind(*kinds.of_opening(g, opening, begun, best, ordinary))
        trial.let_through(opening, best, beforehand.weighed(g, opening))
        if number >= MOST_OPENINGS:
            continue
        refused = [(further, fault) for further in openings.following(g, opening) if (fault := openings.fault(g, further))]
        for further, fault in refused:
            trial.refused(further, fault)
            if fault[0] == 21:
                trial.refused(further + g.sizes, (20, fault[1] + 1))
        if number < 3:
            trial.too_short(rng.choice(refused)[0])
    trial.too_short(())
    work, pages = trial.lent()
    tally.same(f'no opening and making of {g}', trial.make_after(trial.data, (), work, pages), make(trial.data, work, pages))


def drawn(rng, g):
    """Openings of a larger galley that are let through: of its best list, and with other pages after parts of it."""
    width, best = len(g.streams), search.best_by_table(g)
    if best is None:
        return
    for _ in range(4):
        opening = best[:width * rng.randrange(len(best) // width)]
        if openings.fault(g, opening) is None:
            yield opening
        ends = [end for end in search.page_ends(g, openings.end(g, opening)) if openings.fault(g, opening + end) is None]
        if ends:
            yield opening + rng.choice(ends)


def random_words(trial):
    """Any words, and openings with a slip, of the length of a list or longer."""
    g, rng = trial.g, trial.rng
    trial.tally.kind(*kinds.of_galley(g))
    for opening in drawn(rng, g):
        trial.let_through(opening, search.best_by_table(g, opening), beforehand.weighed_by_runs(g, opening))
        slip = sample.mutated(rng, g, opening) if opening else check.dirty(rng, rng.randint(1, 9))
        for words in (slip, check.dirty(rng, rng.randint(1, 3 * len(g.streams) * sum(g.sizes)))):
            fault = openings.fault(g, words)
            if fault:
                trial.refused(words, fault)
            else:
                trial.let_through(words, search.best_by_table(g, words), beforehand.weighed_by_runs(g, words))


def known(tally, called, rng):
    for _, g, opening, best, told in cases.AFTER:
        trial = Trial(tally, called.make_after, rng, g)
        if best or told[0] == 11:
            trial.let_through(opening, best, beforehand.weighed(g, opening))
        else:
            trial.refused(opening, told)


def of_small(tally, called, rng):
    for g in small():
        every_opening(Trial(tally, called.make_after, rng, g), called.make)


def of_larger(tally, called, rng):
    for g in larger():
        random_words(Trial(tally, called.make_after, rng, g))


def refused(tally, called, rng):
    for number, g in enumerate([*sample.galleys(SEED + 8, 200, 5, 3), *sample.galleys(SEED + 9, 100, 4, 2, 3)]):
        broken = sample.broken(rng, galley.write(g))
        read = galley.read(broken)
        if read[0] == 'refused':
            work, pages, opening = (check.dirty(rng, length) for length in (40, 10, rng.randint(0, 5)))
            tally.kind('refused galley')
            tally.same(f'broken galley {number}', called.make_after(broken, opening, work, pages), (read, 0, work, pages))


CASES = {'cases': known, 'all openings of small galleys': of_small, 'openings of larger galleys': of_larger, 'refused galleys': refused}


def main():
    asked, tally = chosen(CASES), Tally()
    called = engine.Engine(engine.load(engine.archive()))
    for title, case in asked.items():
        case(tally, called, random.Random(f'{SEED} {title}'))
        tally.group(title)
    if asked == CASES:
        tally.enough(('9', '10', '9 before 20 and 21', '10 before 20 and 21', '11', 'made', 'refused galley'), 20)
        tally.enough((*kinds.OF_GALLEYS, *kinds.OF_REFUSED_OPENINGS, *kinds.OF_OPENINGS), 20)
    print('makings by kind:', dict(sorted(tally.kinds.items(), key=str)))
    return tally.end()


if __name__ == '__main__':
    sys.exit(main())
