"""Rows of openings, of what is weighed after one, and of books, with what the reference answers, for the page model's definitions to be held to:
samples.py runs them beside its own. Of many that are drawn those are taken which show a kind that few before them have shown."""
import random

import kinds as kinds_of
from reference import beforehand, book, marking, openings, sample, search

OPENED, OPENINGS, BOOKS, MOST_CHOICES = 90, 12, 90, 250  # galleys to open, openings drawn for each, books drawn, and the most choices of a book that is asked
OPENED_SIZES, TABLED_SIZES, BOOK_SIZES = (4, 2, 0), (2, 1, 2), (2, 1, 1)  # the most lines, figures and tables
AFTER, BOUND = 'after an opening', 'as a book'
DUE = [(AFTER, kind) for kind in (*kinds_of.OF_REFUSED_OPENINGS, *kinds_of.OF_OPENINGS)] \
    + [(BOUND, kind) for kind in (*kinds_of.OF_BOOKS, *kinds_of.OF_BINDING)]


def numbers(words):
    return '(' + ' ∷ '.join([*map(str, words), '[]']) + ')'


def makes(counts, words):
    return f'(makes {" ".join(map(str, counts))} {numbers(words)})'


def rows(seed, seen, galley_text):
    """The rows; the kinds of what they show are counted."""
    rng = random.Random(seed)
    drawn = [*sample.galleys(seed + 1, OPENED, *OPENED_SIZES), *sample.galleys(seed + 2, OPENED, *TABLED_SIZES), *sample.left_galleys(seed + 3, OPENED // 3)]
    for g in drawn:
        valid = list(search.every(g))
        for opening in rare(seen, AFTER, ((opening, opened(g, valid, opening)[1]) for opening in begun(rng, g, valid))):
            yield from asked_after(g, valid, opening, galley_text)
    books = [*sample.books(seed + 4, BOOKS, 3, *BOOK_SIZES), *sample.facing_books(seed + 5, 6 * BOOKS)]
    choices = {chapters: list(book.every(chapters)) for chapters in books if few(chapters)}
    shown = ((chapters, (*kinds_of.of_book(chapters), *kinds_of.of_binding(chapters, every, book.first(chapters, every))))
             for chapters, every in choices.items())
    for chapters in rare(seen, BOUND, shown, 4):
        yield asked_as_book(chapters, galley_text)


def rare(seen, group, shown, enough=3):
    """Those that show a kind which has been shown fewer times than `enough`."""
    for each, kinds in shown:
        if any(seen[group, kind] < enough for kind in kinds):
            seen.update({(group, kind) for kind in kinds})
            yield each


def begun(rng, g, valid):
    """Openings: none; the first pages of a valid list or of any, the whole of one, with a slip, with half a page more."""
    width = len(g.streams)
    yield ()
    for _ in range(OPENINGS):
        words = rng.choice(valid) if valid and rng.random() < 0.8 else sample.page_list(rng, g)
        if rng.random() < 0.3:
            words = sample.mutated(rng, g, words)
        pages = rng.randint(1, max(1, len(words) // width))
        yield tuple(words[:width * pages - (rng.random() < 0.1)])


def opened(g, valid, opening):
    """What is answered after an opening, as the table writes it, and the kinds that it shows."""
    fault = openings.fault(g, opening)
    if fault:
        return '(refuses {} {})'.format(*fault), tuple(kinds_of.of_refused_opening(g, opening, *fault))
    begin = openings.beginning(valid, opening)
    best, ordinary = (search.first(g, some) if some else None for some in (begin, valid))
    shown = tuple(kinds_of.of_opening(g, opening, begin, best, ordinary))
    return makes(marking.mark(g, best)[1:], best) if best else '(refuses 11 0)', shown


def asked_after(g, valid, opening, galley_text):
    asked = f'asks ({galley_text(g)})'
    yield f'{asked} (making_after {numbers(opening)}) {opened(g, valid, opening)[0]}'
    if not openings.fault(g, opening):
        yield f'{asked} (weighing_after {numbers(opening)}) (counts {beforehand.weighed(g, opening)} {beforehand.ceiling(g)})'


def few(chapters):
    """The definitions look at every choice of lists: a book that has too many is not asked."""
    most = 1
    for chapter in chapters:
        most *= max(len(book.lists(book.opened(chapter, folio))) for folio in (1, 2))
    return most <= MOST_CHOICES


def asked_as_book(chapters, galley_text):
    first, *later = chapters
    choice = book.best(chapters)
    answer = makes(book.measure(chapters, choice), [word for words in choice for word in words]) if choice else '(refuses 11 0)'
    bound = '(' + ' ∷ '.join([*(f'({galley_text(chapter)})' for chapter in later), '[]']) + ')'
    return f'asks ({galley_text(first)}) (binding {bound}) {answer}'
