"""Making a book, compiled, against every choice of chapter lists in Python: the answer, the pages of all chapters, the count of pages
weighed, and every word of lent memory. Books with too many choices are compared with the reference's chapters by sides. Kinds of
books, of choices and of refusals are counted, so that one that is missing fails. The last line is 'N passed, M failed'."""
import functools
import itertools
import pathlib
import random
import sys
import time

sys.path.insert(0, str(pathlib.Path(__file__).resolve().parents[1]))
import engine  # noqa: E402
import faults  # noqa: E402
import kinds  # noqa: E402
from reference import beforehand, book, cases, sample  # noqa: E402
from reference.galley import Figure, Galley, Line, Spec, write  # noqa: E402
from choice import chosen  # noqa: E402
from tally import Tally  # noqa: E402

BOOKS, LARGER, FAULTY, SEED = 3_200, 60, 1_500, 20261120
MOST_CHOICES = 600


def dirty(rng, length):
    return tuple(rng.choices((0, 1, 2, engine.HIGHEST, rng.randint(0, engine.HIGHEST)), k=length))


@functools.lru_cache(maxsize=2)
def weighed_in(chapter):
    return beforehand.weighed_by_runs(chapter)


def weighed(chapters):
    return sum(map(weighed_in, chapters))


class Trial:
    """One book, made in lent memory of any contents."""

    def __init__(self, tally, called, rng, chapters):
        self.tally, self.called, self.rng, self.chapters = tally, called, rng, chapters
        self.data, self.lengths = faults.bound(*chapters)

    def lend(self, choice, weighed, work, pages):
        """What is owed with work area and page list of these lengths."""
        work, pages = dirty(self.rng, work), dirty(self.rng, pages)
        got = self.called.book(self.data, self.lengths, work, pages)
        due = engine.made_book(self.chapters, choice, weighed, work, pages)
        self.tally.same(f'{len(work)} and {len(pages)} words for {self.chapters}', got, due)
        self.tally.kind(str(due[0][1]) if due[0][0] == 'refused' else 'made')

    def made(self, choice, weighed):
        """In memory of exact and of greater lengths; 9, then 10, whether or not there is a choice."""
        work, pages = book.lengths(self.chapters)
        more = self.rng.randint(1, 9)
        self.lend(choice, weighed, work, pages)
        self.lend(choice, weighed, work + more, pages + more)
        if self.rng.random() < 0.2:
            self.lend(choice, weighed, work // 2, self.rng.choice((0, pages)))
            self.lend(choice, weighed, work - 1, pages - 1)
            self.lend(choice, weighed, work, pages - 1)

    def by_itself(self):
        """A book of one chapter is making that chapter, in twice the work area."""
        [chapter] = self.chapters
        work, pages = (dirty(self.rng, length) for length in book.lengths(self.chapters))
        answer, counted, after, listed = self.called.book(self.data, self.lengths, work, pages)
        half = len(work) // 2
        due = self.called.make(self.data, work[:half], pages)
        self.tally.same(f'{chapter} by itself', (answer, counted, after[:half], listed), due)
        self.tally.same('and the other half', after[half:], (0,) * half)


def small(tally, called, rng):
    """Books of few choices, all of which are looked at."""
    books = itertools.chain(sample.books(SEED, BOOKS), sample.books(SEED + 1, BOOKS // 8, 5, 2, 1),
                            sample.books(SEED + 2, BOOKS // 8, 4, 3, 1, 0), sample.facing_books(SEED + 7, BOOKS))
    for chapters in books:
        choices = list(itertools.islice(book.every(chapters), MOST_CHOICES + 1))
        if len(choices) > MOST_CHOICES:
            tally.kind('too many choices')
            continue
        choice = book.first(chapters, choices)
        tally.kind(*kinds.of_book(chapters), *kinds.of_binding(chapters, choices, choice))
        trial = Trial(tally, called, rng, chapters)
        trial.made(choice, weighed(chapters))
        if len(chapters) == 1:
            trial.by_itself()


def larger(tally, called, rng):
    """Books of too many choices."""
    for chapters in [*sample.books(SEED + 3, LARGER, 8, 14, 4, 0), *sample.books(SEED + 4, LARGER, 6, 8, 3, 2),
                     *sample.books(SEED + 5, LARGER // 6, 40, 4, 1, 1)]:
        choice = book.best_by_sides(chapters)
        tally.kind(*kinds.of_book(chapters))
        Trial(tally, called, rng, chapters).made(choice, weighed(chapters))


def largest(tally, called, _rng):
    """200 chapters; turns, and white space, past 32 bits."""
    most = [cases.U] * book.MOST_CHAPTERS
    spec = Spec(100, 100, 0, 0, 1, 1_000, 1_000)
    # Figures that fill a page with none but the last lines, each of which has room for one.
    waiting = Galley(spec, (600 * (Line(100, 0, 0, 1),) + 200 * (Line(70, 0, 0, 1),), 200 * (Figure(30, 0, 0, 1),)))
    placed = tuple(word for line in range(1, 801) for word in (line, max(0, line - 600)))
    low = Galley(Spec(0, 100_000, 0, 0, 2, 0, 0), (4_000 * (Line(50_001, 0, 0, 1),), ()))
    apart = tuple(word for line in range(1, 4_001) for word in (line, 0))
    for name, chapters, listed in (('200 chapters', most, (1, 0)), ('turns', [waiting] * 40, placed), ('white', [low] * 22, apart)):
        chapters, choice = tuple(chapters), (listed,) * len(chapters)
        work, pages = ((1,) * length for length in book.lengths(chapters))
        due = engine.made_book(chapters, choice, weighed(chapters), work, pages)
        tally.same(name, called.book(*faults.bound(*chapters), work, pages) == due, True)
        tally.kind(*(f'{what} past 32 bits' for what, number in zip(('T', 'W'), due[0][4:]) if number > engine.HIGHEST))


def refused(tally, called, rng):
    """Books that are turned away, with nothing lent changed."""
    for name, data, lengths, number, place in faults.known():
        work, pages = dirty(rng, rng.choice((0, 40))), dirty(rng, 10)
        tally.same(f'{name}, by the reference', book.chapters(data, lengths), ('refused', number, place))
        tally.same(name, called.book(data, lengths, work, pages), (('refused', number, place), 0, work, pages))
    for chapters in sample.books(SEED + 6, FAULTY, 6, 3, 1):
        data, lengths = faults.drawn(rng, chapters)
        found = book.chapters(data, lengths)
        if found[0] == 'refused':
            work, pages = dirty(rng, rng.choice((0, 400))), dirty(rng, rng.choice((0, 40)))
            tally.kind(f'refused {found[1]}', 'refused in a later chapter' if found[2] > 1 else 'refused in the first')
            tally.same(f'faults in {chapters}', called.book(data, lengths, work, pages), (found, 0, work, pages))


def known(tally, called, rng):
    for name, chapters, choice, measure in cases.BOUND:
        Trial(tally, called, rng, chapters).made(choice, weighed(chapters))
        if choice:
            tally.same(f'{name} measured', book.measure(chapters, choice), measure)


CASES = {'cases': known, 'small books against every choice': small, 'larger books': larger, 'refused books': refused,
         'the largest books': largest}


def main():
    asked, tally, began = chosen(CASES), Tally(), time.time()
    called = engine.Engine(engine.load(engine.archive()))
    for title, case in asked.items():
        case(tally, called, random.Random(f'{SEED} {title}'))
        tally.group(title)
    if asked == CASES:
        tally.enough(('made', '9', '10', '11', *kinds.OF_BOOKS), 20)
        tally.enough(kinds.OF_BINDING, 20)
        tally.enough((*(f'refused {number}' for number in (1, 2, 3, 28, 29, 30)), 'refused in the first', 'refused in a later chapter'), 10)
        tally.enough(('T past 32 bits', 'W past 32 bits'), 1)
    print('books by kind:', dict(sorted(tally.kinds.items(), key=str)), f'in {time.time() - began:.0f} s')
    return tally.end()


if __name__ == '__main__':
    sys.exit(main())
